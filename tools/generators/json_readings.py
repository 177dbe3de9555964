"""JSON texts as test vectors, conformance/json/readings.txt: what each is read as, or why it is not, and where.

The results are hand-written, except those of each field, which follow from its name and its kind in
proto/journal.proto. No reader of JSON takes part.
"""
from . import missing  # noqa: F401
from .payloads import lengthy, varint
from .payloads import payload as payload_of
from .proto import OneOf, fields_of, json_name, schemas

ABOUT = "Test vectors of JSON that is read."
SOURCE = "tools/generators/json_readings.py and proto/journal.proto"

FILE = "conformance/json/readings.txt"

HEAD = """\
# JSON texts, each read for a schema: the canonical payload of what it means, or why it means nothing, and where. The
# text of a hand-written line is in the comment above it, if it can be printed.
"""


class First:
    """What a text means by the field that is first in the order of the schema, its own or that of a message in it."""

    def __init__(self, schema=None, **results):
        self.schema, self.results = schema, results

    def of(self, schema):
        message = next(message for message in schemas() if message.name == (self.schema or schema))
        # the fields are in the order of the rows, in which members of a oneof are side by side
        return next(self.results[field.name] for field in fields_of(message) if field.name in self.results)


# A title, and its lines: the schema, the text, and the result: the fields of a message, or the kind of the error with
# an offset or a path.
WRITTEN = [
    ("Members in any order, by either name, with spaces and escapes", [
        ("StartMessage", '{"knownEntries":3}', {"known_entries": 3}),
        ("StartMessage", '{"known_entries":3}', {"known_entries": 3}),
        ("StartMessage", ' { "\\u006bnownEntries" : 3 } ', {"known_entries": 3}),
        ("StartMessage", '\t\n\r {"knownEntries"\t:\n3\r}\n', {"known_entries": 3}),
        ("StartMessage", '{"randomSeed":1,"knownEntries":3}', {"known_entries": 3, "random_seed": 1}),
        ("StartMessage", '{"knownEntries":3,"random_seed":1}', {"known_entries": 3, "random_seed": 1}),
        ("StartMessage", "{}", {}),
        ("Void", "{}", {}),
        ("Void", " {} ", {}),
    ]),
    ("What is null, a default or empty", [
        (
            "StartMessage",
            '{"id":null,"knownEntries":3,"scope":null,"stateMap":null,"partialState":null}',
            {"known_entries": 3},
        ),
        (
            "StartMessage",
            '{"partialState":false,"knownEntries":3,"id":"","debugId":"","stateMap":[],"randomSeed":0}',
            {"known_entries": 3},
        ),
        ("StartMessage", '{"scope":""}', {"scope": ""}),
        ("Future", '{"waitingCompletions":[],"nestedFutures":[]}', {}),
        ("ProposeRunCompletionMessage", '{"value":""}', {"value": b""}),
        ("ProposeRunCompletionMessage", '{"failure":{}}', {"failure": {}}),
        ("ProposeRunCompletionMessage", '{"failure":{"code":5},"value":null}', {"failure": {"code": 5}}),
    ]),
    ("Numbers: as numbers and in strings, with a point or an exponent if they are whole", [
        ("StartMessage", '{"knownEntries":"3"}', {"known_entries": 3}),
        ("StartMessage", '{"knownEntries":3.0}', {"known_entries": 3}),
        ("StartMessage", '{"knownEntries":30e-1}', {"known_entries": 3}),
        ("StartMessage", '{"knownEntries":"0.3E+1"}', {"known_entries": 3}),
        ("StartMessage", '{"knownEntries":0.00000000000000000000000000003e29}', {"known_entries": 3}),
        ("StartMessage", '{"knownEntries":-0}', {}),
        ("StartMessage", '{"knownEntries":0e999999999}', {}),
        ("StartMessage", '{"knownEntries":4294967295}', {"known_entries": 4294967295}),
        ("StartMessage", '{"knownEntries":4294967296}', "out_of_range knownEntries"),
        ("StartMessage", '{"knownEntries":-1}', "out_of_range knownEntries"),
        ("StartMessage", '{"knownEntries":1.5}', "out_of_range knownEntries"),
        ("StartMessage", '{"knownEntries":"15e-1"}', "out_of_range knownEntries"),
        ("StartMessage", '{"knownEntries":1e999999999}', "out_of_range knownEntries"),
        ("StartMessage", '{"knownEntries":1e-999999999}', "out_of_range knownEntries"),
        ("StartMessage", '{"randomSeed":18446744073709551615}', {"random_seed": 18446744073709551615}),
        ("StartMessage", '{"randomSeed":"18446744073709551615"}', {"random_seed": 18446744073709551615}),
        ("StartMessage", '{"randomSeed":1.8446744073709551615e19}', {"random_seed": 18446744073709551615}),
        ("StartMessage", '{"randomSeed":18446744073709551616}', "out_of_range randomSeed"),
        ("StartMessage", '{"randomSeed":-1}', "out_of_range randomSeed"),
        ("StartMessage", '{"knownEntries":"+1"}', "wrong_kind knownEntries"),
        ("StartMessage", '{"knownEntries":"01"}', "wrong_kind knownEntries"),
        ("StartMessage", '{"knownEntries":" 1"}', "wrong_kind knownEntries"),
        ("StartMessage", '{"knownEntries":"1 "}', "wrong_kind knownEntries"),
        ("StartMessage", '{"knownEntries":""}', "wrong_kind knownEntries"),
        ("StartMessage", '{"knownEntries":"0x1"}', "wrong_kind knownEntries"),
        ("StartMessage", '{"knownEntries":"1_0"}', "wrong_kind knownEntries"),
        ("StartMessage", '{"knownEntries":"NaN"}', "wrong_kind knownEntries"),
        ("StartMessage", '{"knownEntries":true}', "wrong_kind knownEntries"),
        ("StartMessage", '{"knownEntries":[1]}', "wrong_kind knownEntries"),
    ]),
    ("Enums, by any number of 32 bits or by a name", [
        ("ErrorMessage", '{"behavior":"PAUSE"}', {"behavior": 1}),
        ("ErrorMessage", '{"behavior":1}', {"behavior": 1}),
        ("ErrorMessage", '{"behavior":"1.0"}', {"behavior": 1}),
        ("Future", '{"combinatorType":"COMBINATOR_TYPE_ZERO"}', {}),
        ("Future", '{"combinatorType":2147483647}', {"combinator_type": 2147483647}),
        ("Future", '{"combinatorType":-7}', {"combinator_type": -7}),
        ("Future", '{"combinatorType":"-2147483648"}', {"combinator_type": -2147483648}),
        ("Future", '{"combinatorType":2147483648}', "out_of_range combinatorType"),
        ("Future", '{"combinatorType":-2147483649}', "out_of_range combinatorType"),
        ("Future", '{"combinatorType":0.5}', "out_of_range combinatorType"),
        ("Future", '{"combinatorType":"PAUSE"}', "wrong_kind combinatorType"),
        ("ErrorMessage", '{"behavior":"pause"}', "wrong_kind behavior"),
        ("ErrorMessage", '{"behavior":true}', "wrong_kind behavior"),
    ]),
    ("Bytes, in base64 of one alphabet, with its padding, a part of it or none", [
        ("StartMessage", '{"id":"+/8="}', {"id": b"\xfb\xff"}),
        ("StartMessage", '{"id":"+/8"}', {"id": b"\xfb\xff"}),
        ("StartMessage", '{"id":"-_8="}', {"id": b"\xfb\xff"}),
        ("StartMessage", '{"id":"-_8"}', {"id": b"\xfb\xff"}),
        ("StartMessage", '{"id":"\\u002b\\/8"}', {"id": b"\xfb\xff"}),
        ("StartMessage", '{"id":"YQ=="}', {"id": b"a"}),
        ("StartMessage", '{"id":"YQ="}', {"id": b"a"}),
        ("StartMessage", '{"id":"YQ"}', {"id": b"a"}),
        ("StartMessage", '{"id":"YQ==="}', "not_base64 id"),
        ("StartMessage", '{"id":"YWE=="}', "not_base64 id"),
        ("StartMessage", '{"id":"a"}', "not_base64 id"),
        ("StartMessage", '{"id":"-/8="}', "not_base64 id"),
        ("StartMessage", '{"id":"+/9="}', "not_base64 id"),
        ("StartMessage", '{"id":"+/8 "}', "not_base64 id"),
        ("StartMessage", '{"id":"="}', "not_base64 id"),
        ("StartMessage", '{"id":1}', "wrong_kind id"),
    ]),
    ("Bytes that are UTF-8, as the text of an object with the one member `text`", [
        ("StartMessage", '{"id":{"text":"\\u00e9"}}', {"id": b"\xc3\xa9"}),
        ("StartMessage", '{"id":{"text":""}}', {}),
        ("StartMessage", '{"id":{"text":"YQ=="}}', {"id": b"YQ=="}),
        ("StateKeys", '{"keys":[{"text":"a"},"Yg=="]}', {"keys": [b"a", b"b"]}),
        ("StartMessage", '{"id":{}}', "wrong_kind id"),
        ("StartMessage", '{"id":{"text":1}}', "wrong_kind id"),
        ("StartMessage", '{"id":{"text":null}}', "wrong_kind id"),
        ("StartMessage", '{"id":{"Text":"a"}}', "wrong_kind id"),
        ("StartMessage", '{"id":{"text":"a","text":"a"}}', "wrong_kind id"),
        ("StateKeys", '{"keys":["YQ==",{"text":[]}]}', "wrong_kind keys[1]"),
        ("ErrorMessage", '{"message":{"text":"a"}}', "wrong_kind message"),
    ]),
    ("Texts", [
        ("ErrorMessage", '{"message":"\\u00e9\\ud83d\\ude00\\u0000"}', {"message": "é😀\0"}),
        ("ErrorMessage", '{"message":"é😀"}', {"message": "é😀"}),
        ("ErrorMessage", '{"message":"\\"\\\\\\/\\b\\f\\n\\r\\t"}', {"message": "\"\\/\b\f\n\r\t"}),
        ("ErrorMessage", '{"message":1}', "wrong_kind message"),
        ("ErrorMessage", '{"message":false}', "wrong_kind message"),
    ]),
    ("Lists, packed numbers, messages", [
        (
            "Future",
            '{"nestedFutures":[{},{"combinatorType":2}],"waitingNamedSignals":["a",""],"waitingCompletions":[1,"300"]}',
            {
                "waiting_completions": [1, 300],
                "waiting_named_signals": ["a", ""],
                "nested_futures": [{}, {"combinator_type": 2}],
            },
        ),
        ("StartMessage", '{"partialState":true}', {"partial_state": 1}),
        ("StartMessage", '{"partialState":1}', "wrong_kind partialState"),
        ("StartMessage", '{"partialState":"true"}', "wrong_kind partialState"),
        ("StartMessage", '{"stateMap":{}}', "wrong_kind stateMap"),
        ("StartMessage", '{"stateMap":[null]}', "wrong_kind stateMap[0]"),
        ("StartMessage", '{"stateMap":[{},[]]}', "wrong_kind stateMap[1]"),
        ("StartMessage", '{"stateMap":[{"key":"aw=="},{"key":1}]}', "wrong_kind stateMap[1].key"),
        ("Future", '{"waitingCompletions":1}', "wrong_kind waitingCompletions"),
        ("Future", '{"waitingCompletions":[1,{}]}', "wrong_kind waitingCompletions[1]"),
        ("Future", '{"waitingCompletions":[1,null]}', "wrong_kind waitingCompletions[1]"),
        ("Future", '{"waitingCompletions":[0,1,2,3,4,5,6,7,8,9,-1]}', "out_of_range waitingCompletions[10]"),
        (
            "Future",
            '{"nestedFutures":[{"nestedFutures":[{},{"waitingSignals":[{}]}]}]}',
            "wrong_kind nestedFutures[0].nestedFutures[1].waitingSignals[0]",
        ),
        ("Future", '{"waitingNamedSignals":["a",1]}', "wrong_kind waitingNamedSignals[1]"),
        ("InputCommandMessage", '{"value":{"content":"!"}}', "not_base64 value.content"),
        ("InputCommandMessage", '{"headers":[{},{"key":"a","value":7}]}', "wrong_kind headers[1].value"),
    ]),
    ("What is no object", [
        ("StartMessage", "[]", "wrong_kind"),
        ("StartMessage", "null", "wrong_kind"),
        ("StartMessage", "1", "wrong_kind"),
        ("StartMessage", '"{}"', "wrong_kind"),
        ("StartMessage", " true", "wrong_kind"),
    ]),
    ("Members without a field, and by their own names in the path", [
        ("StartMessage", '{"a":1}', "unknown_member a"),
        ("StartMessage", '{"a":null}', "unknown_member a"),
        ("StartMessage", '{"KnownEntries":1}', "unknown_member KnownEntries"),
        ("StartMessage", '{"known_Entries":1}', "unknown_member known_Entries"),
        ("StartMessage", '{"":1}', "unknown_member"),
        ("StartMessage", '{"stateMap":[{},{"":1}]}', "unknown_member stateMap[1]."),
        ("StartMessage", '{"stateMap":[{},{"a.b":1}]}', "unknown_member stateMap[1].a.b"),
        ("StartMessage", '{"\\u00e9":1}', "unknown_member é"),
        ("Void", '{"content":""}', "unknown_member content"),
    ]),
    ("Members that come twice", [
        ("StartMessage", '{"knownEntries":1,"known_entries":1}', "repeated_member knownEntries"),
        ("StartMessage", '{"id":null,"id":null}', "repeated_member id"),
        ("StartMessage", '{"stateMap":[{"key":"","key":""}]}', "repeated_member stateMap[0].key"),
        ("ProposeRunCompletionMessage", '{"value":"","value":null}', "repeated_member value"),
    ]),
    ("Members of one oneof: the path leads to the second one in the order of the schema", [
        ("ProposeRunCompletionMessage", '{"failure":{},"value":""}', First(
            value="several_members failure", failure="several_members value"
        )),
        ("ProposeRunCompletionMessage", '{"value":"","failure":1}', First(
            value="several_members failure", failure="wrong_kind failure"
        )),
        ("ProposeRunCompletionMessage", '{"value":1,"failure":{}}', First(
            value="wrong_kind value", failure="several_members value"
        )),
    ]),
    ("Of several errors the first one: an unknown member, and then what the rows have, in the order of the schema", [
        ("StartMessage", '{"id":1,"a":1,"b":1}', "unknown_member a"),
        ("StartMessage", '{"stateMap":[{"a":1}],"b":1}', "unknown_member b"),
        ("StartMessage", '{"randomSeed":-1,"id":"!","knownEntries":{}}', First(
            id="not_base64 id", known_entries="wrong_kind knownEntries", random_seed="out_of_range randomSeed"
        )),
        ("StartMessage", '{"knownEntries":{},"knownEntries":1,"id":"!"}', First(
            id="not_base64 id", known_entries="repeated_member knownEntries"
        )),
        ("StartMessage", '{"knownEntries":{},"randomSeed":1,"randomSeed":1}', First(
            known_entries="wrong_kind knownEntries", random_seed="repeated_member randomSeed"
        )),
        ("StartMessage", '{"stateMap":[{"value":1,"key":1}]}', First(
            "StateEntry", key="wrong_kind stateMap[0].key", value="wrong_kind stateMap[0].value"
        )),
        ("StartMessage", '{"stateMap":[{},{"key":1},2]}', "wrong_kind stateMap[1].key"),
    ]),
    ("What is not JSON: the offset is where the token begins that is none, or that has a comma or a colon too few or "
     "too many before it", [
        ("StartMessage", "", "not_json 0"),
        ("StartMessage", " ", "not_json 1"),
        ("StartMessage", "{", "not_json 1"),
        ("StartMessage", "x", "not_json 0"),
        ("StartMessage", "{} {}", "not_json 3"),
        ("StartMessage", "{},", "not_json 3"),
        ("StartMessage", "{}x", "not_json 2"),
        ("StartMessage", '{"knownEntries":x}', "not_json 16"),
        ("StartMessage", '{"knownEntries":01}', "not_json 16"),
        ("StartMessage", '{"knownEntries":+1}', "not_json 16"),
        ("StartMessage", '{"knownEntries":1.}', "not_json 16"),
        ("StartMessage", '{"knownEntries":.5}', "not_json 16"),
        ("StartMessage", '{"knownEntries":1e}', "not_json 16"),
        ("StartMessage", '{"knownEntries":NaN}', "not_json 16"),
        ("StartMessage", '{"knownEntries":tru}', "not_json 16"),
        ("StartMessage", '{"knownEntries":1,}', "not_json 18"),
        ("StartMessage", '{"knownEntries":1 "id":""}', "not_json 18"),
        ("StartMessage", '{"knownEntries":1', "not_json 17"),
        ("StartMessage", "{'id':1}", "not_json 1"),
        ("StartMessage", '{id:1}', "not_json 1"),
        ("StartMessage", '{"debugId":"\\x"}', "not_json 11"),
        ("StartMessage", '{"debugId":"\\u12"}', "not_json 11"),
        ("StartMessage", '{"debugId":"\\ud800"}', "not_json 11"),
        ("StartMessage", '{"debugId":"\\udc00\\ud800"}', "not_json 11"),
        ("StartMessage", '{"debugId":"a\tb"}', "not_json 11"),
        ("StartMessage", '{"debugId":"', "not_json 11"),
        ("StartMessage", "[1,]", "not_json 3"),
        ("StartMessage", "[,1]", "not_json 1"),
        ("StartMessage", "[1 2]", "not_json 3"),
        ("StartMessage", "{}//", "not_json 2"),
        ("StartMessage", '{"a":1}x', "not_json 7"),
    ]),
    ("A bracket, a key or another value in the wrong place: the offset is that of the next token, or of the end of "
     "the text", [
        ("StartMessage", "}", "not_json 1"),
        ("StartMessage", "]", "not_json 1"),
        ("StartMessage", '{"knownEntries":}', "not_json 17"),
        ("StartMessage", '{"knownEntries" 1}', "not_json 16"),
        ("StartMessage", '{1:2}', "not_json 2"),
        ("StartMessage", '{{}:2}', "not_json 2"),
        ("StartMessage", '{]', "not_json 2"),
        ("StartMessage", '[}', "not_json 2"),
        ("StartMessage", '["a":1]', "not_json 5"),
        ("StartMessage", '"a":1', "not_json 4"),
    ]),
    ("What is not UTF-8: the offset is where the bytes that are UTF-8 end", [
        ("StartMessage", b'{"debugId":"\xff"}', "not_json 12"),
        ("StartMessage", b'{"debugId":"\xc3"}', "not_json 12"),
        ("StartMessage", b'{"debugId":"\xed\xa0\x80"}', "not_json 12"),
        ("StartMessage", b'\xef\xbb\xbf{}', "not_json 0"),
        ("StartMessage", b'x\xff', "not_json 1"),
        ("StartMessage", b'{}\x00', "not_json 2"),
    ]),
]


def nested(levels):
    """A future with a number of futures nested in it, and what it means."""
    text, payload = "{}", b""
    for _ in range(levels):
        text = f'{{"nestedFutures":[{text}]}}'
        payload = payload_of("Future", nested_futures=[payload])
    return text, payload


def levels():
    """Lines of messages at the hundredth level and further, and of arrays and objects a thousand deep."""
    text, payload = nested(100)
    yield line("Future", text, payload.hex())
    for count in (101, 499):
        yield line("Future", nested(count)[0], "too_deep " + ".".join(["nestedFutures[0]"] * 101))
    yield line("Future", nested(500)[0], "not_json 9001")


def line(schema, text, result):
    """A line, by its text or its bytes."""
    data = text if isinstance(text, bytes) else text.encode()
    return f"read {schema} {data.hex() or '-'} = {result or '-'}\n"


def written():
    """The hand-written lines, each below its text."""
    for title, lines in WRITTEN:
        yield f"\n# {title}.\n"
        for schema, text, result in lines:
            if isinstance(text, str) and text.isprintable():
                yield f"# {text}\n"
            # what a text means is said by the names of fields
            meant = payload_of(schema, **result).hex() if isinstance(result, dict) else result
            meant = meant.of(schema) if isinstance(meant, First) else meant
            yield line(schema, text, meant)


# A value of each kind, as JSON and as the record of a field with this number, and one of another kind.
VALUES = {
    "u32": ("7", lambda number: varint(8 * number) + b"\x07", "{}"),
    "u64": ('"7"', lambda number: varint(8 * number) + b"\x07", "[]"),
    "bool": ("true", lambda number: varint(8 * number) + b"\x01", "0"),
    "enum": ("1", lambda number: varint(8 * number) + b"\x01", '"NONE"'),
    "text": ('"t"', lambda number: lengthy(number, b"t"), "1"),
    "bytes": ('"dA=="', lambda number: lengthy(number, b"t"), "true"),
    "message": ("{}", lambda number: lengthy(number, b""), '""'),
}


def of_field(schema, field):
    """Lines of a field: a value by each of its names, a value of another kind, and the field twice."""
    value, record, other = VALUES[field.kind]
    name = json_name(field.name)
    payload, at = record(field.number), name
    if field.presence == "repeated":
        value, other, at = f"[{value}]", f"[{other}]", f"{name}[0]"
        if field.kind == "u32":
            payload = lengthy(field.number, b"\x07")
    for key in dict.fromkeys((name, field.name)):
        yield line(schema, f'{{"{key}":{value}}}', payload.hex())
    yield line(schema, f'{{"{field.name}":{other}}}', f"wrong_kind {at}")
    yield line(schema, f'{{"{name}":{value},"{field.name}":null}}', f"repeated_member {name}")


def of_row(schema, row):
    """Lines of a row: those of its fields, and of each two members of a oneof that are neighbours."""
    if not isinstance(row, OneOf):
        yield from of_field(schema, row)
        return
    for field in row.members:
        yield from of_field(schema, field)
    for first, second in zip(row.members, row.members[1:]):
        members = (f'"{member.name}":{VALUES[member.kind][0]}' for member in (second, first))
        yield line(schema, f"{{{','.join(members)}}}", f"several_members {json_name(second.name)}")


def files():
    lines = [HEAD, *written()]
    lines.append("\n# Levels: one hundred, more, and arrays and objects nested more than one thousand deep.\n")
    lines += levels()
    lines.append(
        "\n# Each field by its names, of another kind, and twice; of a oneof two members that are neighbours; and what "
        "is no object.\n"
    )
    for message in schemas():
        for row in message.rows:
            lines += of_row(message.name, row)
        lines.append(line(message.name, "[]", "wrong_kind"))
        lines.append(line(message.name, '{"no field":{}}', "unknown_member no field"))
    return {FILE: "".join(lines)}
