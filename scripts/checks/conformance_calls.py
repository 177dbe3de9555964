"""Checks the test vectors on standard input by the C calls: conformance_calls.py < LINES

It takes the package for Python, which has to be installed or in PYTHONPATH. Lines of the kind `record` have no call.
Besides, a record that is decoded and encoded is the canonical payload, a stream is the same byte by byte, a canonical
payload is its own canonical payload and has the same JSON, JSON is read as the canonical payload, a frame is a header
and the canonical payload, and a command is the same as itself. The last line is 'N passed, M failed'.
"""

import sys

import pendratsoa
from pendratsoa import JsonError, Malformed, Stream
from pendratsoa.messages import RECORDS


def payload(schema, data):
    result = pendratsoa.canonical(schema, data)
    assert pendratsoa.is_well_formed(schema, data)
    assert pendratsoa.canonical(schema, result) == result
    assert record(schema, data).encode() == result
    text = pendratsoa.to_json(schema, data)
    assert pendratsoa.to_json(schema, result) == text
    assert pendratsoa.from_json(schema, text) == result
    return result.hex()


def record(schema, data):
    return RECORDS[pendratsoa.SCHEMA_NAMES.index(schema)].decode(data)


def merge(schema, *data):
    merged = pendratsoa.canonical(schema, data[0])
    for more in data[1:]:
        merged = pendratsoa.merge(schema, merged, more)
    return merged.hex()


def frame(type_, version, data):
    code = pendratsoa.type_code(type_)
    result = pendratsoa.frame(int(version), code, data)
    schema = pendratsoa.schema(int(version), code)
    assert result[:8] == pendratsoa.header(int(version), code, len(result) - 8)
    assert pendratsoa.canonical(schema, result[8:]) == result[8:]
    assert record(f"{type_}Message", data).frame(int(version)) == result
    return result.hex()


def stream(version, *chunks):
    whole = b"".join(chunks)
    listing = listed(int(version), chunks)
    assert listing == listed(int(version), [whole[at : at + 1] for at in range(len(whole))])
    return listing


def listed(version, chunks):
    stream = Stream(version)
    items = []
    for chunk in chunks:
        stream.feed(chunk)
        items += map(str, stream)
    return ", ".join([*items, f"rest {stream.rest}"])


def compare(type_, first, second):
    code = pendratsoa.type_code(type_)
    same = {flag: pendratsoa.header_eq(code, first, second, flag) for flag in (False, True)}
    for command in (first, second):
        assert pendratsoa.header_eq(code, command, command) and pendratsoa.difference(code, command, command) == ""
    words = ["same" if same[flag] else "other" for flag in (False, True)]
    return " ".join([*words, pendratsoa.difference(code, first, second).encode().hex() or "-"])


def json(schema, data):
    text = pendratsoa.to_json(schema, data)
    assert pendratsoa.from_json(schema, text) == pendratsoa.canonical(schema, data)
    return text


def read(schema, text):
    """The payload that a JSON text is read as, or why it is not, and where."""
    try:
        return pendratsoa.from_json(schema, text).hex()
    except JsonError as error:
        place = error.path if error.offset is None else str(error.offset)
        return f"{error.reason} {place}".rstrip(" ")


KINDS = {
    "payload": payload,
    "merge": merge,
    "frame": frame,
    "stream": stream,
    "compare": compare,
    "json": json,
    "read": read,
}
NAMED = {"payload": 1, "merge": 1, "frame": 2, "stream": 1, "compare": 1, "json": 1, "read": 1}
# kinds without a call in this package, and replays, which python/tests/test_replay.py has
OTHERS = ("record", "fields", "replay")


def result_of(question):
    """The result of the library for what is before ` = `."""
    kind, *words = question.split(" ")
    names, data = words[: NAMED[kind]], words[NAMED[kind] :]
    try:
        return KINDS[kind](*names, *(b"" if word == "-" else bytes.fromhex(word) for word in data)) or "-"
    except Malformed:
        return "malformed"


def main():
    passed = failed = 0
    for line in map(str.strip, sys.stdin):
        question, _, expected = line.partition(" = ")
        if not line or line.startswith("#") or question.split(" ")[0] in OTHERS:
            continue
        try:
            found = result_of(question)
        except Exception as error:  # a line that breaks a law, or that a call rejects otherwise
            found = repr(error)
        if found == expected:
            passed += 1
        else:
            failed += 1
            print(f"failed: {line[:300]}\n  result: {found[:300]}")
    print(f"{passed} passed, {failed} failed")
    return failed > 0


if __name__ == "__main__":
    sys.exit(main())
