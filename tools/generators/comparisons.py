"""Commands compared, conformance/comparisons.txt.

Each line compares two commands, the one that was recorded and the one that the code makes now. Which fields count,
which are printed and how is said here once more, only from the protocol's description: neither the library nor the
tables that its contracts cite take part. The payloads are put together from the fields of proto/journal.proto. Where a
text is next to a case, it was written by hand, and has to be the one that the tables give. A field that these tables do
not have yet is taken as the description says; the check 'table' names it.
"""
import re

from . import ROOT, Refused, missing  # noqa: F401
from .payloads import field_of, lengthy, unknown, varint
from .payloads import record as record_of
from .proto import OneOf, members_of, messages

ABOUT = "Test vectors of commands compared."
SOURCE = "tools/generators/comparisons.py"

PAGE = ROOT / "conformance" / "README.md"

HEAD = """\
# Commands compared: the one that was recorded with the one that the code makes now. Above each line is what it is,
# and the text of the difference, where there is one; characters that do not print are escaped there, and spaces at the
# end left out.
"""

INDENTATION = "   "

# The commands, and the fields that a difference prints, in this order.
PRINTED = {
    "Input": "",
    "Output": "result",
    "GetLazyState": "key result_completion_id",
    "SetState": "key value",
    "ClearState": "key",
    "ClearAllState": "",
    "GetLazyStateKeys": "result_completion_id",
    "GetEagerState": "key result",
    "GetEagerStateKeys": "value",
    "GetPromise": "key result_completion_id",
    "PeekPromise": "key result_completion_id",
    "CompletePromise": "key result_completion_id completion",
    "Sleep": "name result_completion_id",
    "Call": "service_name handler_name parameter key headers name idempotency_key scope limit_key "
    "invocation_id_notification_idx result_completion_id",
    "OneWayCall": "service_name handler_name parameter key headers name idempotency_key scope limit_key "
    "invocation_id_notification_idx",
    "SendSignal": "target_invocation_id signal_id result",
    "Run": "name result_completion_id",
    "AttachInvocation": "result_completion_id target",
    "GetInvocationOutput": "result_completion_id target",
    "CompleteAwakeable": "awakeable_id result",
}

# What may differ in any case.
NEVER_COMPARED = {
    "Input": "headers name value",
    "Sleep": "wake_up_time result_completion_id",
    "OneWayCall": "invoke_time",
}

# What holds a payload: bytes, a value that may be absent, or the member of a oneof. That it is there is compared in any
# case.
PAYLOADS = {
    "Output": ("result", "value"),
    "GetEagerState": ("result", "value"),
    "CompletePromise": ("completion", "completion_value"),
    "CompleteAwakeable": ("result", "value"),
    "SetState": ("value", None),
    "Call": ("parameter", None),
    "OneWayCall": ("parameter", None),
}

# Characters with a name of their own where bytes are escaped.
NAMED_ESCAPES = {10: "\\n", 13: "\\r", 9: "\\t", 0: "\\0", 92: "\\\\", 34: '\\"'}

TABLE = {message.name: message for message in messages()}


def refuse(text):
    raise Refused([f"comparisons: {text}"])


def rows_of(command):
    return TABLE[f"{command}CommandMessage"].rows


# What the tables say, and the description of the fields that they do not have.


def new_rows(command):
    """The rows of a command that no table has."""
    actual = PAIRS.get(command, ({}, {}, None))[0]
    return [row for row in rows_of(command) if row.name not in actual or not fits(row, actual[row.name])]


def fits(row, value):
    """Whether a row can have a value, by its kind."""
    if isinstance(row, OneOf):
        return isinstance(value, tuple)
    if row.presence == "repeated":
        return isinstance(value, list)
    return isinstance(value, {"message": dict, "text": str, "bytes": bytes}.get(row.kind, int))


def printed_fields(command):
    """The fields that a difference prints, in order."""
    added = sorted((row.printed, row.name) for row in new_rows(command) if row.printed is not None)
    known = [name for name in PRINTED.get(command, "").split() if name not in {row.name for row in new_rows(command)}]
    return known + [name for _, name in added]


def never_compared(command):
    added = [row.name for row in new_rows(command) if any(field.not_compared for field in members_of(row))]
    return NEVER_COMPARED.get(command, "").split() + added


def payloads(command):
    """The fields that hold a payload, each with the member of a oneof that does."""
    added = [
        (row.name, field.name if isinstance(row, OneOf) else None)
        for row in new_rows(command)
        for field in members_of(row)
        if field.payload
    ]
    return ([PAYLOADS[command]] if command in PAYLOADS else []) + added


def sample(field, place):
    """A value that a field may hold, another for each place."""
    if field.kind == "message":
        rows = TABLE[field.message].rows
        return {row.name: row_sample(row, place) for row in rows}
    return {"text": "ab"[place], "bytes": (b"a", b"b")[place], "bool": 1 - place}.get(field.kind, place + 1)


def row_sample(row, place):
    """What a row may have, another for each place."""
    if isinstance(row, OneOf):
        member = row.members[-place]
        return member.name, sample(member, place)
    value = sample(row, place)
    return [value] if row.presence == "repeated" else value


def pairs():
    """For each command two that differ in every field, and the text of their difference, if that is hand-written."""
    for message in TABLE.values():
        if not message.is_command():
            continue
        command = message.name.removesuffix("CommandMessage")
        actual, expected, text = PAIRS.get(command, ({}, {}, None))
        added = new_rows(command)
        if added:
            actual, expected = (
                {**known, **{row.name: row_sample(row, place) for row in added}}
                for place, known in enumerate((actual, expected))
            )
            text = None
        yield command, actual, expected, text


# Payloads. A message is a dictionary of what is present, a oneof the name of its member and what that holds.


def record(field, value):
    """A record of a field."""
    if field.kind == "message":
        return lengthy(field.number, payload(TABLE[field.message].rows, value))
    if field.kind == "text":
        return lengthy(field.number, value.encode())
    if field.kind == "bytes":
        return lengthy(field.number, value)
    return varint(8 * field.number) + varint(value)


class OtherKind(Exception):
    """A field is of another kind than the value that is written here has, so that the case is left out."""


def row_payload(row, value):
    """The records of a row; None is absent."""
    if value is None:
        return b""
    if not fits(row, value):
        raise OtherKind
    if isinstance(row, OneOf):
        member, content = value
        return record(next(field for field in row.members if field.name == member), content)
    if row.presence == "repeated" and row.kind == "u32":
        return lengthy(row.number, b"".join(map(varint, value))) if value else b""
    if row.presence == "repeated":
        return b"".join(record(row, element) for element in value)
    if row.presence == "plain" and not value:
        return b""
    return record(row, value)


def payload(rows, message):
    """The one canonical payload: two messages are the same exactly if theirs are."""
    unknown = set(message) - {row.name for row in rows}
    if unknown:
        refuse(f"there are no fields {', '.join(sorted(unknown))}")
    return b"".join(row_payload(row, message.get(row.name)) for row in rows)


# Comparison.


def erased(command, message, ignore_payloads):
    """What is left of a command to be compared."""
    left = {name: value for name, value in message.items() if name not in never_compared(command)}
    for name, member in payloads(command) if ignore_payloads else ():
        value = left.get(name)
        if isinstance(value, bytes):
            del left[name]
        elif isinstance(value, dict):
            left[name] = {}
        elif isinstance(value, tuple) and value[0] == member:
            left[name] = (member, {})
    return left


def sameness(command, actual, expected, ignore_payloads):
    both = (payload(rows_of(command), erased(command, message, ignore_payloads)) for message in (actual, expected))
    return "same" if next(both) == next(both) else "other"


# Texts.


def utf8(content):
    """The text that bytes are, or None."""
    try:
        return content.decode()
    except UnicodeDecodeError:
        return None


def bytes_text(content):
    text = utf8(content)
    return f"'{text}'" if text is not None else "[" + ", ".join(str(byte) for byte in content) + "]"


def escape(byte):
    return NAMED_ESCAPES.get(byte) or (chr(byte) if 0x20 <= byte <= 0x7E else f"\\x{byte:02x}")


def value_text(value):
    content = value.get("content", b"")
    text = utf8(content)
    return f"'{text}'" if text is not None else 'b"' + "".join(map(escape, content)) + '"'


def failure_text(failure):
    return f"error [{failure.get('code', 0)}] '{failure.get('message', '')}'"


def header_text(header):
    return f"{header.get('key', '')}: {header.get('value', '')}"


def trailing(first):
    """How many bytes follow a first byte, and from where to where the first of them goes."""
    if 0xC2 <= first <= 0xDF:
        return 1, 0x80, 0xBF
    if 0xE0 <= first <= 0xEF:
        return 2, 0xA0 if first == 0xE0 else 0x80, 0x9F if first == 0xED else 0xBF
    if 0xF0 <= first <= 0xF4:
        return 3, 0x90 if first == 0xF0 else 0x80, 0x8F if first == 0xF4 else 0xBF
    return 0, 0, 0


def lossy(content):
    """Bytes as a text. What is not a letter is U+FFFD: once for the longest beginning of a letter, else for each
    byte."""
    text = ""
    at = 0
    while at < len(content):
        first = content[at]
        count, low, high = trailing(first)
        end = at + 1
        while end < min(at + 1 + count, len(content)) and low <= content[end] <= high:
            end += 1
            low, high = 0x80, 0xBF
        whole = first < 0x80 or 0 < count == end - at - 1
        text += content[at:end].decode() if whole else "\ufffd"
        at = end
    return text


def state_keys_text(keys):
    return "[" + ", ".join(f"'{lossy(key)}'" for key in keys.get("keys", [])) + "]"


MESSAGE_TEXTS = {
    "Void": lambda _: "void",
    "Value": value_text,
    "Failure": failure_text,
    "Header": header_text,
    "StateKeys": state_keys_text,
    "IdempotentRequestTarget": lambda _: "IdempotentRequestTarget",
    "WorkflowTarget": lambda _: "WorkflowTarget",
}


def element_text(field, value):
    """How what a field holds is printed."""
    if field.kind == "message":
        if field.message not in MESSAGE_TEXTS:
            refuse(f"there is no text of {field.message}")
        return MESSAGE_TEXTS[field.message](value)
    if field.kind == "bool":
        return "true" if value else "false"
    if field.kind == "enum":
        return str(value % (1 << 32))
    return bytes_text(value) if field.kind == "bytes" else str(value)


def row_text(row, value):
    """How a row is printed; None is absent."""
    if isinstance(row, OneOf):
        if value is None:
            return "<empty>"
        member, content = value
        return element_text(next(field for field in row.members if field.name == member), content)
    if row.presence == "repeated":
        return ", ".join(element_text(row, element) for element in value or [])
    if value is None:
        if row.presence != "plain":
            return "<empty>"
        value = {"text": "", "bytes": b""}.get(row.kind, 0)
    return element_text(row, value)


def difference(command, actual, expected):
    """The text of a difference: one line per printed field that differs."""
    rows = {row.name: row for row in rows_of(command)}
    text = ""
    for name in printed_fields(command):
        row, left, right = rows[name], actual.get(name), expected.get(name)
        if row_payload(row, left) != row_payload(row, right):
            text += f"\n{INDENTATION}{name}: {row_text(row, left)} != {row_text(row, right)}"
    return text


# Lines.


def shown(text):
    """A line of a difference in a remark."""
    escapes = {"\n": "\\n", "\r": "\\r", "\t": "\\t", "\0": "\\0"}
    plain = (escapes.get(char) or (char if char.isprintable() else f"\\u{{{ord(char):x}}}") for char in text)
    return "".join(plain).rstrip()


def hexadecimal(content):
    return content.hex() or "-"


def question(command, actual, expected):
    return f"compare {command}Command {hexadecimal(actual)} {hexadecimal(expected)}"


def case(about, command, actual, expected, verdicts=None, text=None, encoded=(None, None)):
    """The line of two commands, and above it what it is. Verdicts and text that are given are hand-written. A
    payload that is not canonical is given too."""
    try:
        return made_case(about, command, actual, expected, verdicts, text, encoded)
    except OtherKind:
        return ""


def made_case(about, command, actual, expected, verdicts, text, encoded):
    """The same, where each field is of the kind of the value that is written here."""
    found = [sameness(command, actual, expected, ignore_payloads) for ignore_payloads in (False, True)]
    lines = difference(command, actual, expected)
    if verdicts is not None and found != verdicts.split():
        refuse(f"{about}: {found}, and not {verdicts}")
    if text is not None and lines != text:
        refuse(f"{about}: {lines!r}, and not {text!r}")
    payloads = [
        given if given is not None else payload(rows_of(command), message)
        for message, given in zip((actual, expected), encoded)
    ]
    remarks = [f"# {command}: {about}"]
    for name in printed_fields(command):
        # A line of its own for each field, though a text in it may have line feeds.
        only = difference(command, {name: actual.get(name)}, {name: expected.get(name)})
        if only:
            remarks.append(f"#{shown(only[1:])}")
    result = f"{found[0]} {found[1]} {hexadecimal(lines.encode())}"
    return "\n".join(remarks) + f"\n{question(command, *payloads)} = {result}\n"


def malformed(about, command, actual, expected):
    """The line of two payloads of which one is not a command."""
    return f"# {command}: {about}\n{question(command, actual, expected)} = malformed\n"


def records(command, *fields):
    """The records of fields, each a name and a value, in this order; a message is a dictionary of its fields."""
    out = b""
    for name, held in fields:
        field = field_of(f"{command}CommandMessage", name)
        out += record(field, held) if isinstance(held, dict) else record_of(f"{command}CommandMessage", name, held)
    return out


def number_of(command, name):
    return field_of(f"{command}CommandMessage", name).number


def number_key(command, name):
    """The key of a record with a number."""
    return varint(8 * number_of(command, name))


def value_key(command, name):
    """The key of a record with a length."""
    return varint(8 * number_of(command, name) + 2)


def unknown_number(command):
    """A number that no field of a command has."""
    return unknown(99, f"{command}CommandMessage")


def value(content):
    return {"content": content}


def failure(code, message, **metadata):
    entries = [{"key": key, "value": text} for key, text in metadata.items()]
    return {"code": code, "message": message, "metadata": entries}


def headers(*pairs):
    return [{"key": key, "value": text} for key, text in pairs]


def with_row(message, name, content):
    """The message with another row, or without it."""
    rest = {other: old for other, old in message.items() if other != name}
    return rest if content is None else {**rest, name: content}


# For each command two that differ in every field, and the text of their difference, written by hand.
PAIRS = {
    "Input": (
        {"headers": headers(("k", "v")), "name": "a", "value": value(b"x")},
        {"headers": headers(("l", "w")), "name": "b", "value": value(b"y")},
        "",
    ),
    "Output": (
        {"name": "a", "result": ("value", value(b"x"))},
        {"name": "b", "result": ("failure", failure(500, "boom"))},
        "\n   result: 'x' != error [500] 'boom'",
    ),
    "GetLazyState": (
        {"key": b"a", "result_completion_id": 1, "name": "a"},
        {"key": b"\xffb", "result_completion_id": 2, "name": "b"},
        "\n   key: 'a' != [255, 98]\n   result_completion_id: 1 != 2",
    ),
    "SetState": (
        {"key": b"a", "value": value(b"x"), "name": "a"},
        {"key": b"b", "value": value(b"\xff"), "name": "b"},
        "\n   key: 'a' != 'b'\n   value: 'x' != b\"\\xff\"",
    ),
    "ClearState": (
        {"key": b"\xff\x01", "name": "a"},
        {"key": b"a", "name": "b"},
        "\n   key: [255, 1] != 'a'",
    ),
    "ClearAllState": (
        {"name": "a"},
        {"name": "b"},
        "",
    ),
    "GetLazyStateKeys": (
        {"result_completion_id": 7, "name": "a"},
        {"result_completion_id": 4294967295, "name": "b"},
        "\n   result_completion_id: 7 != 4294967295",
    ),
    "GetEagerState": (
        {"key": b"a", "name": "a", "result": ("void", {})},
        {"key": b"\x80", "name": "b", "result": ("value", value(b"y"))},
        "\n   key: 'a' != [128]\n   result: void != 'y'",
    ),
    "GetEagerStateKeys": (
        {"name": "a", "value": {"keys": [b"a", b"b"]}},
        {"name": "b", "value": {"keys": [b"c"]}},
        "\n   value: ['a', 'b'] != ['c']",
    ),
    "GetPromise": (
        {"key": "p", "result_completion_id": 1, "name": "a"},
        {"key": "q", "result_completion_id": 2, "name": "b"},
        "\n   key: p != q\n   result_completion_id: 1 != 2",
    ),
    "PeekPromise": (
        {"key": "q", "result_completion_id": 20, "name": "a"},
        {"key": "p", "result_completion_id": 10, "name": "b"},
        "\n   key: q != p\n   result_completion_id: 20 != 10",
    ),
    "CompletePromise": (
        {"key": "p", "completion": ("completion_failure", failure(1, "m")), "result_completion_id": 1, "name": "a"},
        {"key": "q", "completion": ("completion_value", value(b"y")), "result_completion_id": 2, "name": "b"},
        "\n   key: p != q\n   result_completion_id: 1 != 2\n   completion: error [1] 'm' != 'y'",
    ),
    "Sleep": (
        {"wake_up_time": 300, "result_completion_id": 1, "name": "a"},
        {"wake_up_time": 18446744073709551615, "result_completion_id": 2, "name": "b"},
        "\n   name: a != b\n   result_completion_id: 1 != 2",
    ),
    "Call": (
        {
            "service_name": "s",
            "handler_name": "h",
            "parameter": b"x",
            "headers": headers(("k", "v")),
            "key": "o",
            "idempotency_key": "i",
            "scope": "c",
            "limit_key": "l",
            "invocation_id_notification_idx": 1,
            "result_completion_id": 2,
            "name": "n",
        },
        {
            "service_name": "S",
            "handler_name": "H",
            "parameter": b"X",
            "headers": headers(("K", "V")),
            "key": "O",
            "idempotency_key": "I",
            "scope": "C",
            "limit_key": "L",
            "invocation_id_notification_idx": 11,
            "result_completion_id": 12,
            "name": "N",
        },
        "\n   service_name: s != S\n   handler_name: h != H\n   parameter: 'x' != 'X'\n   key: o != O\n   headers: k: "
        "v != K: V"
        "\n   name: n != N\n   idempotency_key: i != I\n   scope: c != C\n   limit_key: l != L"
        "\n   invocation_id_notification_idx: 1 != 11\n   result_completion_id: 2 != 12",
    ),
    "OneWayCall": (
        {
            "service_name": "s",
            "handler_name": "h",
            "parameter": b"x",
            "invoke_time": 1,
            "headers": headers(("k", "v"), ("l", "w")),
            "key": "o",
            "idempotency_key": "i",
            "scope": "c",
            "limit_key": "l",
            "invocation_id_notification_idx": 1,
            "name": "n",
        },
        {
            "service_name": "S",
            "handler_name": "H",
            "parameter": b"\xff",
            "invoke_time": 2,
            "headers": headers(("K", "V"), ("L", "W")),
            "key": "O",
            "idempotency_key": "I",
            "scope": "C",
            "limit_key": "L",
            "invocation_id_notification_idx": 11,
            "name": "N",
        },
        "\n   service_name: s != S\n   handler_name: h != H\n   parameter: 'x' != [255]\n   key: o != O"
        "\n   headers: k: v, l: w != K: V, L: W\n   name: n != N\n   idempotency_key: i != I\n   scope: c != C\n   "
        "limit_key: l != L"
        "\n   invocation_id_notification_idx: 1 != 11",
    ),
    "SendSignal": (
        {"target_invocation_id": "inv", "signal_id": ("idx", 17), "result": ("void", {}), "entry_name": "a"},
        {
            "target_invocation_id": "other", "signal_id": ("name", "s"), "result": ("failure", failure(2, "m")),
            "entry_name": "b",
        },
        "\n   target_invocation_id: inv != other\n   signal_id: 17 != s\n   result: void != error [2] 'm'",
    ),
    "Run": (
        {"result_completion_id": 1, "name": "a"},
        {"result_completion_id": 2, "name": "b"},
        "\n   name: a != b\n   result_completion_id: 1 != 2",
    ),
    "AttachInvocation": (
        {"target": ("invocation_id", "inv"), "result_completion_id": 1, "name": "a"},
        {
            "target": ("workflow_target", {"workflow_name": "w", "workflow_key": "k"}), "result_completion_id": 2,
            "name": "b",
        },
        "\n   result_completion_id: 1 != 2\n   target: inv != WorkflowTarget",
    ),
    "GetInvocationOutput": (
        {"target": ("idempotent_request_target", {"service_name": "s"}), "result_completion_id": 1, "name": "a"},
        {"target": ("invocation_id", "inv"), "result_completion_id": 2, "name": "b"},
        "\n   result_completion_id: 1 != 2\n   target: IdempotentRequestTarget != inv",
    ),
    "CompleteAwakeable": (
        {"awakeable_id": "p", "result": ("failure", failure(3, "m")), "name": "a"},
        {"awakeable_id": "q", "result": ("value", value(b"y")), "name": "b"},
        "\n   awakeable_id: p != q\n   result: error [3] 'm' != 'y'",
    ),
}

# What a member of a oneof may hold, and then others, each with what it is.
WORKFLOW = {"workflow_name": "w", "workflow_key": "k", "scope": "c"}
IDEMPOTENT = {"service_name": "s", "service_key": "k", "handler_name": "h", "idempotency_key": "i", "scope": "c"}
CONTENTS = {
    "Void": ({}, []),
    "Value": (value(b"x"), [("other content", value(b"y"))]),
    "Failure": (
        failure(500, "boom", k="v"),
        [
            ("another code", failure(501, "boom", k="v")),
            ("another message", failure(500, "bang", k="v")),
            ("other metadata, which are not printed", failure(500, "boom", k="w")),
        ],
    ),
    "WorkflowTarget": (
        WORKFLOW,
        [
            ("another workflow_name", {**WORKFLOW, "workflow_name": "W"}),
            ("another workflow_key", {**WORKFLOW, "workflow_key": "K"}),
            ("another scope", {**WORKFLOW, "scope": "C"}),
        ],
    ),
    "IdempotentRequestTarget": (
        IDEMPOTENT,
        [
            ("another service_name", {**IDEMPOTENT, "service_name": "S"}),
            ("no service_key", with_row(IDEMPOTENT, "service_key", None)),
            ("another handler_name", {**IDEMPOTENT, "handler_name": "H"}),
            ("another idempotency_key", {**IDEMPOTENT, "idempotency_key": "I"}),
            ("an empty scope", {**IDEMPOTENT, "scope": ""}),
        ],
    ),
    "u32": (17, [("another number", 18)]),
    "text": ("a", [("another text", "b")]),
}


def worked_cases():
    yield "The examples of the protocol's description: what is the same, with payloads and without."
    yield case(
        "a value, and another value", "Output", {"result": ("value", value(b"x"))}, {"result": ("value", value(b"y"))},
        "other same",
        "\n   result: 'x' != 'y'",
    )
    yield case(
        "a value, and a failure", "Output", {"result": ("value", value(b"x"))},
        {"result": ("failure", failure(500, "boom"))},
        "other other", "\n   result: 'x' != error [500] 'boom'",
    )
    yield case(
        "a failure, and one with another code", "Output", {"result": ("failure", failure(1, "m"))},
        {"result": ("failure", failure(2, "m"))}, "other other", "\n   result: error [1] 'm' != error [2] 'm'",
    )
    yield case(
        "no value, and an empty one", "SetState", {"key": b"a"}, {"key": b"a", "value": {}}, "other other",
        "\n   value: <empty> != ''",
    )
    yield case(
        "another parameter", "Call", {"parameter": b"x"}, {"parameter": b"y"}, "other same",
        "\n   parameter: 'x' != 'y'"
    )
    yield case("another time", "OneWayCall", {"invoke_time": 1}, {"invoke_time": 2}, "same same", "")
    yield case("another time", "Sleep", {"wake_up_time": 1}, {"wake_up_time": 2}, "same same", "")
    yield case(
        "another value, which is no payload here", "SendSignal", {"result": ("value", value(b"x"))},
        {"result": ("value", value(b"y"))},
        "other other", "\n   result: 'x' != 'y'",
    )
    yield case(
        "anything, and anything", "Input", {"headers": headers(("k", "v")), "name": "a", "value": value(b"x")},
        {"name": "b"},
        "same same", "",
    )

    yield "The examples of the protocol's description: texts."
    yield case(
        "bytes that are not UTF-8, as a key and as a value", "SetState", {"key": b"\xff", "value": value(b"\xff")},
        {"key": b"a", "value": value(b"x")}, "other other", "\n   key: [255] != 'a'\n   value: b\"\\xff\" != 'x'",
    )
    yield case(
        "the same key, and another value", "SetState", {"key": b"a", "value": value(b"\xff")},
        {"key": b"a", "value": value(b"x")},
        "other same", "\n   value: b\"\\xff\" != 'x'",
    )
    yield case(
        "the same name, and another completion id, which is printed though it is not compared", "Sleep",
        {"result_completion_id": 1, "name": "a"}, {"result_completion_id": 2, "name": "a"}, "same same",
        "\n   result_completion_id: 1 != 2",
    )
    yield case(
        "another name, which is compared though it is not printed", "GetLazyState",
        {"key": b"a", "result_completion_id": 1, "name": "a"},
        {"key": b"a", "result_completion_id": 1, "name": "b"}, "other other", "",
    )
    yield case(
        "a value of a line feed, a quote, a backslash, a zero, 0x80 and a letter", "Output",
        {"result": ("value", value(bytes.fromhex("0a225c008041")))}, {"result": ("value", value(b"x"))}, "other same",
        "\n   result: b\"\\n\\\"\\\\\\0\\x80A\" != 'x'",
    )
    yield case(
        "a key that is not UTF-8", "GetEagerStateKeys", {"value": {"keys": [b"\xff"]}}, {"value": {"keys": [b"a"]}},
        "other other",
        "\n   value: ['\ufffd'] != ['a']",
    )
    yield case(
        "a signal by its number, and one by its name", "SendSignal", {"signal_id": ("idx", 1)},
        {"signal_id": ("name", "a")}, "other other",
        "\n   signal_id: 1 != a",
    )
    yield case("no scope, and one", "Call", {}, {"scope": "s"}, "other other", "\n   scope: <empty> != s")
    yield case(
        "two headers, and none; the text ends with a space", "Call", {"headers": headers(("k", "v"), ("l", "w"))}, {},
        "other other",
        "\n   headers: k: v, l: w != ",
    )
    yield case(
        "another name", "Sleep", {"wake_up_time": 300, "result_completion_id": 1, "name": "a"},
        {"wake_up_time": 300, "result_completion_id": 1, "name": "b"}, "other other", "\n   name: a != b",
    )


def whole_cases():
    yield "Each command: every field another."
    for command, actual, expected, text in pairs():
        verdicts = "same same" if command == "Input" else "other other"
        yield case("every field another", command, actual, expected, verdicts, text)

    yield "Each command: the same, with every field and with none."
    for command, actual, _, _ in pairs():
        yield case("the same", command, actual, actual, "same same", "")
        yield case("nothing, and nothing", command, {}, {}, "same same", "")


def contents_of(member):
    """What a member of a oneof may hold, and then others."""
    known = CONTENTS.get(member.message or member.kind)
    return known or (sample(member, 0), [("another content", sample(member, 1))])


def oneof_cases(command, base, row, brief):
    """A oneof with each of its members against each other, against itself with other content, and against none."""
    contents = {member.name: contents_of(member) for member in row.members}
    for name, (content, others) in contents.items():
        message = with_row(base, row.name, (name, content))
        for other, (other_content, _) in contents.items():
            if other != name:
                yield case(
                    f"{row.name} is {name}, and {other}", command, message,
                    with_row(base, row.name, (other, other_content))
                )
        for about, other_content in others[:1] if brief else others:
            yield case(f"{name} with {about}", command, message, with_row(base, row.name, (name, other_content)))
        without = with_row(base, row.name, None)
        yield case(f"{row.name} is {name}, and absent", command, message, without)
        yield case(f"{row.name} is absent, and {name}", command, without, message)


def optional_cases(command, base, row, other):
    name, empty = row.name, {"text": "", "bytes": b"", "message": {}}.get(row.kind, 0)
    yield case(f"another {name}", command, base, with_row(base, name, other))
    yield case(f"{name} is absent, and present", command, with_row(base, name, None), base)
    yield case(f"{name} is present, and empty", command, base, with_row(base, name, empty))
    yield case(f"{name} is empty, and absent", command, with_row(base, name, empty), with_row(base, name, None))


def field_cases():
    for command, actual, expected, _ in pairs():
        yield f"{command}: each field alone."
        for row in rows_of(command):
            if isinstance(row, OneOf):
                # the two commands on an invocation share their target
                yield from oneof_cases(command, actual, row, command == "GetInvocationOutput")
            elif row.presence == "optional":
                yield from optional_cases(command, actual, row, expected[row.name])
            else:
                about = f"other {row.name}" if row.presence == "repeated" else f"another {row.name}"
                yield case(about, command, actual, with_row(actual, row.name, expected[row.name]))


def presence_cases():
    yield "What is absent, empty and zero: only optional fields, messages and members of oneofs tell absent from empty."
    yield case("a name, and none", "Run", {"result_completion_id": 1, "name": "a"}, {"result_completion_id": 1})
    yield case("no completion id, and one", "Run", {"name": "a"}, {"result_completion_id": 1, "name": "a"})
    yield case("no key, and one", "ClearState", {}, {"key": b"a"})
    yield case("a parameter, and none", "Call", {"parameter": b"x"}, {})
    yield case("no parameter, and one that is not UTF-8", "OneWayCall", {}, {"parameter": b"\x00\xff"})
    yield case("the greatest id, and none", "OneWayCall", {"invocation_id_notification_idx": 4294967295}, {})
    yield case("a time, and none", "OneWayCall", {"invoke_time": 18446744073709551615}, {})
    yield case("no value, and one", "SetState", {"key": b"a"}, {"key": b"a", "value": value(b"x")})
    yield case("a value, and none", "SetState", {"key": b"a", "value": value(b"x")}, {"key": b"a"})
    yield case(
        "an empty value, and a value", "SetState", {"key": b"a", "value": {}}, {"key": b"a", "value": value(b"x")}
    )
    yield case("an empty value, and none", "SetState", {"key": b"a", "value": {}}, {"key": b"a"})
    yield case("an empty value, and a value", "Output", {"result": ("value", {})}, {"result": ("value", value(b"x"))})
    yield case("an empty value, and none", "Output", {"result": ("value", {})}, {})
    yield case("an empty failure, and none", "Output", {"result": ("failure", {})}, {})
    yield case(
        "an empty failure, and an empty value", "CompletePromise", {"completion": ("completion_failure", {})},
        {"completion": ("completion_value", {})},
    )
    yield case("void, and an empty value", "GetEagerState", {"result": ("void", {})}, {"result": ("value", {})})
    yield case("void twice", "SendSignal", {"result": ("void", {})}, {"result": ("void", {})})
    yield case("signal 0, and none", "SendSignal", {"signal_id": ("idx", 0)}, {})
    yield case("none, and the signal whose name is empty", "SendSignal", {}, {"signal_id": ("name", "")})
    yield case(
        "signal 1, and the signal of that name", "SendSignal", {"signal_id": ("idx", 1)}, {"signal_id": ("name", "1")}
    )
    yield case("an empty invocation id, and none", "AttachInvocation", {"target": ("invocation_id", "")}, {})
    yield case("an empty workflow, and none", "AttachInvocation", {"target": ("workflow_target", {})}, {})
    yield case(
        "an empty scope in a workflow, and none", "AttachInvocation", {"target": ("workflow_target", {"scope": ""})},
        {"target": ("workflow_target", {})},
    )
    yield case("no keys at all, and an empty list", "GetEagerStateKeys", {}, {"value": {}})
    yield case("an empty list, and a key", "GetEagerStateKeys", {"value": {}}, {"value": {"keys": [b"a"]}})
    yield case("a key, and no keys at all", "GetEagerStateKeys", {"value": {"keys": [b"a"]}}, {})
    yield case("an empty list, and an empty key", "GetEagerStateKeys", {"value": {}}, {"value": {"keys": [b""]}})
    yield case("a value, and none", "Input", {"value": value(b"x")}, {})
    yield case(
        "no result, and a value; and another name", "Output", {"name": "a"},
        {"name": "b", "result": ("value", value(b"x"))}
    )


def several_cases():
    yield "Several fields at once: where payloads are ignored, what else differs counts still."
    yield case(
        "another payload and another name", "Output", {"name": "a", "result": ("value", value(b"x"))},
        {"name": "b", "result": ("value", value(b"y"))}, "other other",
    )
    yield case(
        "another payload and another key", "GetEagerState", {"key": b"a", "result": ("value", value(b"x"))},
        {"key": b"b", "result": ("value", value(b"y"))}, "other other",
    )
    yield case(
        "another payload and another completion id", "CompletePromise",
        {"completion": ("completion_value", value(b"x")), "result_completion_id": 1},
        {"completion": ("completion_value", value(b"y")), "result_completion_id": 2}, "other other",
    )
    yield case(
        "another payload and another id", "CompleteAwakeable", {"awakeable_id": "p", "result": ("value", value(b"x"))},
        {"awakeable_id": "q", "result": ("value", value(b"y"))}, "other other",
    )
    yield case(
        "another parameter and another header", "Call", {"parameter": b"x", "headers": headers(("k", "v"))},
        {"parameter": b"y", "headers": headers(("k", "w"))}, "other other",
    )
    yield case(
        "another parameter and another time", "OneWayCall", {"parameter": b"x", "invoke_time": 1},
        {"parameter": b"y", "invoke_time": 2},
        "other same",
    )
    yield case(
        "another time and another completion id", "Sleep", {"wake_up_time": 1, "result_completion_id": 1, "name": "a"},
        {"wake_up_time": 2, "result_completion_id": 2, "name": "a"}, "same same",
    )


def header_cases():
    yield "Headers: their order and their number count, and other headers may print alike."
    two = headers(("k", "v"), ("l", "w"))
    yield case("another value of the second", "Call", {"headers": two}, {"headers": headers(("k", "v"), ("l", "W"))})
    yield case("another key of the second", "Call", {"headers": two}, {"headers": headers(("k", "v"), ("L", "w"))})
    yield case("another order", "Call", {"headers": two}, {"headers": headers(("l", "w"), ("k", "v"))})
    yield case("one more", "OneWayCall", {"headers": headers(("k", "v"))}, {"headers": two})
    yield case(
        "the same twice, and once", "OneWayCall", {"headers": headers(("k", "v"), ("k", "v"))},
        {"headers": headers(("k", "v"))}
    )
    yield case("none, and an empty one", "OneWayCall", {}, {"headers": headers(("", ""))})
    yield case("two, and one that prints as they do", "Call", {"headers": two}, {"headers": headers(("k", "v, l: w"))})
    yield case(
        "another place of the colon", "Call", {"headers": headers(("k", "v: w"))}, {"headers": headers(("k: v", "w"))}
    )


def value_cases():
    yield "Values: a text between quotes as it is, and bytes that are no text escaped."
    contents = [
        ("quotes and backslashes in a text", b"it's \"q\" \\n"),
        ("the same quotes and backslashes in bytes", b"it's \"q\" \\n\xff"),
        ("line feed, return, tab and zero in a text", b"a\n\r\t\0b"),
        ("line feed, return, tab and zero in bytes", b"a\n\r\t\0b\xff"),
        ("further control characters and 0x7F in a text", b"\x01\x1b\x1f\x7f"),
        ("further control characters and 0x7F in bytes", b"\x01\x1b\x1f\x7f\xff"),
        ("the first and the last character that prints, in bytes", b" ~\xff"),
        ("a zero before a digit, in bytes", b"\x001\xff"),
        ("letters of two, three and four bytes", "\u00e9\u4e2d\U0001f980".encode()),
        ("such letters, and 0xFF", "\u00e9\u4e2d\U0001f980".encode() + b"\xff"),
        ("a letter that is cut off", "\u4e2d".encode()[:-1]),
        ("the greatest letter", b"\xf4\x8f\xbf\xbf"),
        ("beyond the greatest letter", b"\xf4\x90\x80\x80"),
        ("half a pair, which is no letter", b"\xed\xa0\x80"),
        ("a letter in an overlong encoding", b"\xc0\xaf"),
        ("every byte once", bytes(range(256))),
    ]
    for about, content in contents:
        yield case(about, "Output", {"result": ("value", value(content))}, {"result": ("value", value(b"x"))})
    yield case("bytes on the other side", "SetState", {"value": value(b"x")}, {"value": value(b"\xfe\"'")})
    yield case(
        "bytes on both sides", "CompleteAwakeable", {"result": ("value", value(b"\xff"))},
        {"result": ("value", value(b"\xfe"))}
    )
    yield case(
        "a text that looks like bytes, and the bytes", "SendSignal", {"result": ("value", value(b'b"\\xff"'))},
        {"result": ("value", value(b"\xff"))},
    )
    yield case(
        "quotes, backslashes and control characters in the message of a failure", "SendSignal",
        {"result": ("failure", failure(4294967295, "it's \"q\" \\ \n\0\u007f\u00e9"))}, {"result": ("failure", {})},
    )


def bytes_cases():
    yield "Bytes: a text between quotes as it is, else the numbers of the bytes."
    contents = [
        ("quotes and backslashes in a text", b"it's \"q\" \\n"),
        ("control characters in a text", b"a\n\r\t\0\x7f"),
        ("letters of two, three and four bytes", "\u00e9\u4e2d\U0001f980".encode()),
        ("text and 0xFF", b"ab\xff"),
        ("numbers of one, two and three digits", bytes([0, 9, 10, 99, 100, 255])),
        ("a letter that is cut off", "\u4e2d".encode()[:-1]),
        ("half a pair, which is no letter", b"\xed\xa0\x80"),
        ("beyond the greatest letter", b"\xf4\x90\x80\x80"),
        ("a letter in an overlong encoding", b"\xc0\xaf"),
    ]
    for about, content in contents:
        yield case(about, "GetLazyState", {"key": content}, {"key": b"a"})
    yield case("bytes on both sides", "GetEagerState", {"key": b"\xff"}, {"key": b"\xfe\x00"})
    yield case("a text that looks like bytes, and the bytes", "SetState", {"key": b"[255]"}, {"key": b"\xff"})
    yield case("every byte once", "Call", {"parameter": bytes(range(256))}, {"parameter": b"x"})


def text_cases():
    yield "Texts: as they are, without quotes."
    texts = [
        ("quotes and backslashes", "it's \"q\" \\n"),
        ("control characters", "a\n\r\t\0\u007f"),
        ("letters of two, three and four bytes", "\u00e9\u4e2d\U0001f980"),
        ("nothing", ""),
        ("a text that looks like a difference", "x != y\n   name: a"),
    ]
    for about, text in texts:
        yield case(about, "GetPromise", {"key": text}, {"key": "a"})
    yield case("a scope that looks like none, and none", "Call", {"scope": "<empty>"}, {})
    yield case(
        "an invocation id that looks like a workflow, and a workflow", "GetInvocationOutput",
        {"target": ("invocation_id", "WorkflowTarget")}, {"target": ("workflow_target", {})},
    )
    yield case("a name of several letters and lines", "Run", {"name": "\u00e9\n'"}, {"name": "e\u0301"})


def state_key_cases():
    yield (
        "State keys: what is no letter prints as U+FFFD, once for the longest beginning of a letter, else for each "
        "byte."
    )
    keys = [
        (
            "beginnings of letters, and bytes alone", bytes.fromhex("61f18080e180c262806380bf64"),
            "a\ufffd\ufffd\ufffdb\ufffdc\ufffd\ufffdd",
        ),
        ("letters in overlong encodings", bytes.fromhex("c0afe080bff0818241"), "\ufffd" * 8 + "A"),
        ("halves of pairs", bytes.fromhex("eda080edbfbfedaf41"), "\ufffd" * 8 + "A"),
        ("beyond the greatest letter", bytes.fromhex("f4919293ff4180bf42"), "\ufffd" * 5 + "A" + "\ufffd" * 2 + "B"),
        ("beginnings of letters of three and four bytes", bytes.fromhex("e180e2f09192f1bf41"), "\ufffd" * 4 + "A"),
        ("a letter that is cut off at the end", b"a\xf0\x9f\xa6", "a\ufffd"),
        ("the greatest letter, and the letter U+FFFD itself", b"\xf4\x8f\xbf\xbf\xef\xbf\xbd", "\U0010ffff\ufffd"),
        ("quotes, backslashes and control characters", b"'\"\\\n\0\x7f", "'\"\\\n\0\u007f"),
    ]
    for about, key, text in keys:
        yield case(
            about, "GetEagerStateKeys", {"value": {"keys": [key]}}, {"value": {"keys": [b"a"]}}, "other other",
            f"\n   value: ['{text}'] != ['a']",
        )
    lists = [
        ("another order", [b"a", b"b"], [b"b", b"a"]),
        ("the same twice, and once", [b"a", b"a"], [b"a"]),
        ("two, and one that prints as they do", [b"a", b"b"], [b"a', 'b"]),
        ("other bytes that print alike", [b"\xff"], [b"\xfe"]),
        ("bytes that are no text, among others", [b"", b"\x80\x80", "\u00e9".encode()], [b"\xc3"]),
    ]
    for about, actual, expected in lists:
        yield case(about, "GetEagerStateKeys", {"value": {"keys": actual}}, {"value": {"keys": expected}})


def encoding_cases():
    yield "Payloads that are not canonical: what they mean is compared."
    sleep = {"wake_up_time": 300, "result_completion_id": 1, "name": "a"}
    yield case(
        "the fields in another order, and longer numbers", "Sleep", sleep, sleep,
        encoded=(
            None,
            records("Sleep", ("name", "a"))
            + number_key("Sleep", "result_completion_id") + b"\x81\x00"
            + number_key("Sleep", "wake_up_time") + b"\xac\x82\x00",
        ),
    )
    run = {"result_completion_id": 2, "name": "a"}
    canonical = payload(rows_of("Run"), run)
    yield case(
        "a field twice, of which the last counts",
        "Run",
        run,
        run,
        encoded=(records("Run", ("result_completion_id", 1)) + canonical, None),
    )
    number = unknown_number("Run")
    further = varint(8 * number) + b"\x07" + varint(8 * number + 3) + b"\x08\x01" + varint(8 * number + 4)
    yield case("fields that no command has", "Run", run, run, encoded=(further + canonical, None))
    empty = records("ClearState", ("key", b""), ("name", ""))
    yield case("defaults that are written", "ClearState", {}, {}, encoded=(empty, None))
    failed = {"result": ("failure", failure(5, "x"))}
    yield case(
        "the last member of a oneof counts, and its records are joined", "Output", failed, failed,
        encoded=(
            records("Output", ("value", value(b"x")), ("failure", {"code": 5}), ("failure", {"message": "x"})), None
        ),
    )
    yield case(
        "a value in two records", "SetState", {"key": b"a", "value": value(b"y")}, {"key": b"a", "value": value(b"x")},
        encoded=(records("SetState", ("key", b"a"), ("value", value(b"x")), ("value", value(b"y"))), None),
    )


def malformed_cases():
    yield "Payloads that are not well-formed: then nothing is compared."
    run = records("Run", ("result_completion_id", 1), ("name", "a"))
    yield malformed("the recorded one is cut off", "Run", run[:-1], run)
    yield malformed("the made one is cut off", "Run", run, run[:-1])
    yield malformed(
        "both are", "Run", number_key("Run", "result_completion_id"), number_key("Run", "result_completion_id")
    )
    yield malformed("where nothing is compared, too", "Input", value_key("Input", "value"), b"")
    name = records("ClearAllState", ("name", b"\xff"))
    yield malformed("a name that is not UTF-8", "ClearAllState", name, name)
    number = number_key("GetEagerStateKeys", "value") + b"\x01"
    yield malformed("a number where bytes are expected", "GetEagerStateKeys", number, number)
    yield malformed(
        "an end of a group that did not begin", "SendSignal", b"", varint(8 * unknown_number("SendSignal") + 4)
    )


MAKERS = (
    worked_cases,
    whole_cases,
    field_cases,
    presence_cases,
    several_cases,
    header_cases,
    value_cases,
    bytes_cases,
    text_cases,
    state_key_cases,
    encoding_cases,
    malformed_cases,
)


def comparisons():
    """The text of the file."""
    parts = [HEAD]
    for maker in MAKERS:
        for part in maker():
            parts.append(part if part.endswith("\n") or not part else f"\n# {part}\n\n")
    return "".join(parts)


def page_table(header):
    """The rows of the table of conformance/README.md that has this header, each a command and the words of its last
    column."""
    lines = PAGE.read_text(encoding="utf-8").splitlines()
    rows = {}
    for line in lines[lines.index(header) + 2 :]:
        if not line.startswith("|"):
            break
        commands, words = line.strip("|").split("|")
        for command in re.findall(r"`(\w+)`", commands):
            rows[command] = words.strip()
    return rows


def said_on_the_page():
    """What conformance/README.md says otherwise than the tables above."""
    never = {
        command: " ".join(sorted(re.findall(r"`(\w+)`", words)))
        for command, words in page_table("| Command | Never compared |").items()
    }
    if never != {command: " ".join(sorted(fields.split())) for command, fields in NEVER_COMPARED.items()}:
        yield "what is never compared"
    payloads = {
        command: f"`{field}`" + (", where it is a value" if member else "")
        for command, (field, member) in PAYLOADS.items()
    }
    if page_table("| Command | Payload |") != payloads:
        yield "what is a payload"
    printed = page_table("| Commands | Fields |")
    is_short = printed.get("OneWayCall") == "the same but the last"
    printed["OneWayCall"] = printed["Call"].rsplit(",", 1)[0] if is_short else ""
    if {command: " ".join(re.findall(r"`(\w+)`", words)) for command, words in printed.items()} != PRINTED:
        yield "what is printed"


def paths():
    return ["conformance/comparisons.txt"]


def files():
    return {path: comparisons() for path in paths()}
