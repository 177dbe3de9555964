#!/usr/bin/env python3
"""journal_dump on examples: its options and lines; its lines compared with protobuf's printer, jq and Python.

Standard output, the whole of standard error and the status are compared. jq and Python's json read each line of the
dumps of adversarial streams, and protobuf prints the same JSON for random payloads of each message type. It needs jq,
protoc and Python's protobuf, for parts of it. failures.py has wrong arguments, and inputs and outputs that fail.
"""
from __future__ import annotations

import base64
import gzip
import json
import re

import checks
import write_stream
from programs import STREAMS, Program, go_to_streams

START = (
    '{"offset":0,"type":"Start","code":0,"length":19,"message":'
    '{"id":"a2V5","debugId":"key","knownEntries":1,"partialState":true,"key":"key"}}\n'
)
INPUT = '{"offset":27,"type":"InputCommand","code":1024,"length":9,"message":{"value":{"content":"aW5wdXQ="}}}\n'
STATE = (
    '{"offset":44,"type":"GetLazyStateCompletionNotification","code":32770,"length":4,"message":'
    '{"completionId":1,"void":{}}}\n'
)
REST = '{"offset":56,"rest":0}\n'
OF_END = '{"offset":8,"type":"End","code":3,"length":0,"message":{}}\n'
END = OF_END + '{"offset":16,"rest":0}\n'
SKIPPED = '{"offset":0,"skipped":true,"code":8,"length":8'
UNKNOWN = '{"offset":0,"unknown":true,"code":8,"header":"AAgAAAAAAAg="}\n'
NULS = 6 * r"\u0000"
PROPOSED = (
    '{"offset":0,"type":"ProposeRunCompletion","code":5,"length":5,"requestedAck":true,"message":'
    '{"resultCompletionId":1,"value":"eA=="}}\n'
)
CUSTOM = '{"offset":13,"type":"CustomEntry(64513)","code":64513,"length":0'
CUT = "offset 21: 8 bytes after the last whole item"
CODE = "offset 0: unknown header 0x8"

# With --text bytes that are UTF-8 are texts.
TEXTS = START.replace('"a2V5"', '{"text":"key"}') + INPUT.replace('"aW5wdXQ="', '{"text":"input"}') + STATE + REST

# A suspension, which has another schema before V7, and after it a malformed payload.
V6 = (
    b"\0\x01\0\0\0\0\0\x16\n\x03\x01\xae\x02\x12\x03\x03\xb0\x02\x1a\x04t\xc3\xa95\x1a\x04t\xc3\xa96"
    b"\0\x03\0\0\0\0\0\x01\n"
)
SUSPENSION = '{"offset":0,"type":"Suspension","code":1,"length":22'
OF_V6 = (
    f'{SUSPENSION},"message":{{"waitingCompletions":[1,302],"waitingSignals":[3,304],'
    '"waitingNamedSignals":["té5","té6"]}}\n'
)
MALFORMED = '{"offset":30,"type":"End","code":3,"length":1,"malformed":true,"bytes":"Cg=="}\n{"offset":39,"rest":0}\n'
IS_MALFORMED = "offset 30: malformed payload of End"

# Headers that are not the ones which would be written by what their lines say, and at the end a byte in no item.
ODD = (
    b"\0\x03\x80\0\0\0\0\0" b"\0\x05\x80\x01\0\0\0\0" b"\0\x05\x80\0\0\0\0\0"
    b"\0\x08\0\0\0\0\0\x01" b"\0\x08\xff\xff\0\0\0\0" b"x"
)
OF_ODD = (
    '{"offset":0,"type":"End","code":3,"length":0,"header":"AAOAAAAAAAA=","message":{}}\n'
    '{"offset":8,"type":"ProposeRunCompletion","code":5,"length":0,"requestedAck":true,"header":"AAWAAQAAAAA=",'
    '"message":{}}\n'
    '{"offset":16,"type":"ProposeRunCompletion","code":5,"length":0,"requestedAck":true,"message":{}}\n'
)
UNKNOWN_ODD = (
    '{"offset":24,"unknown":true,"code":8,"header":"AAgAAAAAAAE="}\n'
    '{"offset":32,"unknown":true,"code":8,"header":"AAj//wAAAAA="}\n'
)

REPLAY = (STREAMS / "replay").read_bytes()
COMPRESSED = gzip.compress(REPLAY, mtime=1_000_000_000)
BASE64 = base64.b64encode(REPLAY)
DIGITS = REPLAY.hex().encode()

# Streams in addition to those of examples/streams.
MADE = {
    # the second has the highest code that there is
    "custom": b"\xfc\0\0\0\0\0\0\0\xff\xff\0\0\0\0\0\0",
    "odd": ODD,
    "odd_skipped": b"\0\x08\x01\0\0\0\0\x01x",
    "v6": V6,
    "troubles": (STREAMS / "unknown_type").read_bytes() + V6 + (STREAMS / "cut_short").read_bytes(),
    "cut": (STREAMS / "replay").read_bytes() + b"\0",
    "empty": b"",
    # of no item: a part of a header, and a header whose payload does not come
    "byte": b"\0",
    "eight": b"\0\0\0\0\0\0\0\x02",
    "nine": b"\0\0\0\0\0\0\0\x02\0",
    # of no item either: what streams are kept as
    "replay.gz": COMPRESSED,
    "replay.base64": BASE64,
    "replay.hex": DIGITS,
    "replay.0x": b"0x" + DIGITS,
    "replay.bytea": b"\\x" + DIGITS,
    "seven": BASE64[:7],
    "colons": b"00:00:00:00",
}

DUMPED = len((STREAMS / "replay.dump").read_bytes())
IS_DUMP = "this is a dump; journal make turns it into a stream"
IS_GZIP = "this is compressed; gzip -dc turns it into a stream"
IS_HEX = "this looks like hexadecimal digits; --input hex reads them"
IS_BASE64 = "this looks like base64; --input base64 reads it"
ANYWAY = "it is dumped all the same; with --strict the status is 2"


def no_journal(count: int, version: int = 8) -> tuple[str, str]:
    """What is said of a stream that has this number of bytes and no whole item."""
    bytes_ = "1 byte" if count == 1 else f"{count} bytes"
    return (f"offset 0: {bytes_} after the last whole item",
            f"no message in it; is it a journal of version {version}?")


# Words, the lines, and what is said on the standard error; the standard input is the stream replay.
CASES: tuple[tuple[str, str, *tuple[str, ...]], ...] = (
    ("", START + INPUT + STATE + REST),
    ("replay", START + INPUT + STATE + REST),
    ("--protocol 5 replay", START + INPUT + STATE + REST),
    ("--no-payload replay", re.sub(r',"message".*', "}", START + INPUT + STATE) + REST),
    # with types there is no line of the rest, which the standard error says if there is any
    ("--type InputCommand", INPUT),
    ("--type GetLazyStateCompletionNotification --type Start replay", START + STATE),
    ("--type End replay", ""),
    ("unknown_type", UNKNOWN + END),
    ("--type End unknown_type", OF_END),
    ("--protocol 9 --type End unknown_type", ""),
    ("--protocol 9 unknown_type", f'{SKIPPED},"bytes":"AAMAAAAAAAA="}}\n{{"offset":16,"rest":0}}\n'),
    ("--protocol 9 --no-payload unknown_type", f'{SKIPPED}}}\n{{"offset":16,"rest":0}}\n'),
    ("cut_short", f'{PROPOSED}{CUSTOM},"bytes":""}}\n{{"offset":21,"rest":8,"bytes":"BAAAAP////8="}}\n', CUT),
    ("--type CustomEntry(64513) cut_short", f'{CUSTOM},"bytes":""}}\n', CUT),
    ("--type customEntry(64513) --no-payload cut_short", f"{CUSTOM}}}\n", CUT),
    # texts, also the empty ones; other bytes, and those of a header, are base64
    ("--text replay", TEXTS),
    ("--text --protocol 9 unknown_type",
     f'{SKIPPED},"bytes":{{"text":"\\u0000\\u0003{NULS}"}}}}\n{{"offset":16,"rest":0}}\n'),
    ("--text unknown_type", UNKNOWN + END),
    ("--text --type CustomEntry(64513) cut_short", f'{CUSTOM},"bytes":{{"text":""}}}}\n', CUT),
    # each object on several lines
    ("--pretty --no-payload --type CustomEntry(64513) cut_short",
     '{\n  "offset": 13,\n  "type": "CustomEntry(64513)",\n  "code": 64513,\n  "length": 0\n}\n', CUT),
    ("--pretty --type End unknown_type",
     '{\n  "offset": 8,\n  "type": "End",\n  "code": 3,\n  "length": 0,\n  "message": {}\n}\n'),
    ("--pretty empty", '{\n  "offset": 0,\n  "rest": 0\n}\n'),
    # custom entries
    ("--type CustomEntry(64512) custom",
     '{"offset":0,"type":"CustomEntry(64512)","code":64512,"length":0,"bytes":""}\n'),
    ("--type CUSTOMENTRY(65535) custom",
     '{"offset":8,"type":"CustomEntry(65535)","code":65535,"length":0,"bytes":""}\n'),
    # such a header is shown in base64, also without payloads; and so are the trailing bytes
    (
        "odd",
        f'{OF_ODD}{UNKNOWN_ODD}{{"offset":40,"rest":1,"bytes":"eA=="}}\n',
        "offset 40: 1 byte after the last whole item",
    ),
    (
        "--no-payload odd",
        OF_ODD.replace(',"message":{}', "") + UNKNOWN_ODD + '{"offset":40,"rest":1}\n',
        "offset 40: 1 byte after the last whole item",
    ),
    (
        "--protocol 9 odd",
        f'{OF_ODD}{{"offset":24,"skipped":true,"code":8,"length":1,"bytes":"AA=="}}\n'
        '{"offset":33,"rest":8,"bytes":"CP//AAAAAHg="}\n',
        "offset 33: 8 bytes after the last whole item",
    ),
    (
        "--protocol 9 odd_skipped",
        '{"offset":0,"skipped":true,"code":8,"length":1,"header":"AAgBAAAAAAE=","bytes":"eA=="}'
        '\n{"offset":9,"rest":0}\n',
    ),
    # a malformed payload ends nothing
    ("--protocol 6 v6", OF_V6 + MALFORMED),
    ("--protocol 7 v6", f'{SUSPENSION},"message":{{}}}}\n{MALFORMED}'),
    ("--no-payload --type End v6", '{"offset":30,"type":"End","code":3,"length":1}\n'),
    # a type's name may be in any case, and end with Message; several have commas between
    ("--type inputcommand", INPUT),
    ("--type GetLazyStateCompletionNotificationMessage,START -", START + STATE),
    ("--strict replay", START + INPUT + STATE + REST),
    ("--strict --type Suspension --protocol 6 v6", OF_V6),
    # what has no whole item may be no journal, also of a few bytes
    ("byte", '{"offset":0,"rest":1,"bytes":"AA=="}\n', *no_journal(1), ANYWAY),
    ("--no-payload eight", '{"offset":0,"rest":8}\n', *no_journal(8), ANYWAY),
    ("--protocol 9 --type Start eight", "", *no_journal(8, 9), ANYWAY),
    ("--no-payload nine", '{"offset":0,"rest":9}\n', *no_journal(9), ANYWAY),
    ("--no-payload replay.dump", f'{{"offset":0,"rest":{DUMPED}}}\n', *no_journal(DUMPED), IS_DUMP, ANYWAY),
    ("--type Start replay.dump", "", *no_journal(DUMPED), IS_DUMP, ANYWAY),
    ("--type Start replay.gz", "", *no_journal(len(COMPRESSED)), IS_GZIP, ANYWAY),
    ("--type Start replay.base64", "", *no_journal(len(BASE64)), IS_BASE64, ANYWAY),
    ("--type Start replay.hex", "", *no_journal(len(DIGITS)), IS_HEX, ANYWAY),
    ("--type Start replay.0x", "", *no_journal(2 + len(DIGITS)), IS_HEX, ANYWAY),
    ("--type Start replay.bytea", "", *no_journal(2 + len(DIGITS)), IS_HEX, ANYWAY),
    # too short to seem anything, and a byte that is not a digit among the first eight
    ("--type Start seven", "", *no_journal(7), ANYWAY),
    ("--type Start colons", "", *no_journal(11), ANYWAY),
)

# With --strict an unknown code, a malformed payload and trailing bytes are a failure, the first with its offset.
FAILURES: tuple[tuple[str, str, *tuple[str, ...]], ...] = (
    ("--strict --protocol 6 v6", OF_V6 + MALFORMED, IS_MALFORMED),
    ("--strict --no-payload v6",
     f'{SUSPENSION}}}\n{{"offset":30,"type":"End","code":3,"length":1}}\n{{"offset":39,"rest":0}}\n', IS_MALFORMED),
    ("--strict --type End unknown_type", OF_END, CODE),
    ("--strict --protocol 9 --type End unknown_type", "", CODE),
    ("--strict --type Error --no-payload troubles", "", CODE, "offset 76: 8 bytes after the last whole item"),
    ("--strict --no-payload nine", '{"offset":0,"rest":9}\n', *no_journal(9)),
    ("--strict --type Start replay.dump", "", *no_journal(DUMPED), IS_DUMP),
    ("--strict cut", START + INPUT + STATE + '{"offset":56,"rest":1,"bytes":"AA=="}\n',
     "offset 56: 1 byte after the last whole item"),
)

# Words, the lines that are written, and the message that is longer than the limit.
TOO_LONG: tuple[tuple[str, str, str], ...] = (
    ("--max-message 18 replay", "", "Start at offset 0: 19 bytes of payload, more than the limit of 18"),
    ("--max-message 26 --no-payload --type SetStateCommand recorded",
     '{"offset":17,"type":"SetStateCommand","code":1027,"length":14}\n',
     "CallCommand at offset 39: 27 bytes of payload, more than the limit of 26"),
    ("--max-message 7 --protocol 9 unknown_type", "",
     "unknown protocol.message code 0x8 at offset 0: 8 bytes of payload, more than the limit of 7"),
)

# The stored run, and what it says.
STORED = checks.ROOT / "crates" / "journal"
STORED_REST = "offset 2851: 11 bytes after the last whole item"


def said(*lines: str) -> str:
    return "".join(f"journal_dump: {line}\n" for line in lines)


def example() -> str:
    """The example of --pretty in docs/PROGRAMS.md."""
    page = (checks.ROOT / "docs" / "PROGRAMS.md").read_text()
    shown = re.search(r"`--pretty --text` .* prints\n\n((?:    .*\n)+)", page)
    return "".join(re.findall(r"(?m)^    (.*\n)", shown[1] if shown else ""))


def pretty_beside_jq(dump: Program) -> None:
    """Each object with --pretty is as jq prints it."""
    if not dump.check.has("jq", "--pretty beside jq"):
        return
    for stream in sorted(path.name for path in STREAMS.iterdir() if not path.suffix):
        for words in ("--text", "--protocol 9", "--protocol 5 --no-payload"):
            plain = dump.run(f"{words} {stream}")
            printed = checks.run(["jq", "."], plain.out).out
            dump.ends(f"--pretty {words} {stream}", printed, plain.err.decode(), what="beside jq")


def pretty_beside_python(dump: Program, name: str, words: str, stream: bytes) -> None:
    """Each object with --pretty is as Python prints it with an indent of two spaces."""
    plain = dump.run(words, stream)
    objects = (json.loads(line) for line in plain.out.splitlines())
    printed = "".join(f"{json.dumps(each, indent=2, ensure_ascii=False)}\n" for each in objects)
    dump.ends(f"--pretty {words}", printed, plain.err.decode(), given=stream, what=f"of {name}, beside Python")


def adversarial(dump: Program, kind: str) -> None:
    """Each line of a dump of an adversarial stream is an object for others."""
    stream = write_stream.stream(kind, 200000, 7)
    words = f"--protocol {9 if kind == 'skipped' else 8}"
    run = dump.run(words, stream)
    if dump.check.has("jq", f"jq on a {kind} stream"):
        types = checks.run(["jq", "-c", "type"], run.out).out
        last = checks.run(["jq", ".offset + .rest"], run.out.splitlines()[-1]).out
        is_right = run.status == 0 and types == b'"object"\n' * run.out.count(b"\n") and int(last) == len(stream)
        dump.check.case(f"jq on a {kind} stream", is_right, run)
    try:
        is_right = run.status == 0 and all(isinstance(json.loads(line), dict) for line in run.out.splitlines())
    except ValueError:
        is_right = False
    dump.check.case(f"Python on a {kind} stream", is_right, run)
    pretty_beside_python(dump, f"a {kind} stream", f"--text {words}", stream)


def beside_protobuf(dump: Program) -> None:
    """Protobuf prints the same for random payloads of all message types."""
    judge = checks.python_with_protobuf()
    if not judge:
        why = "there is no protoc with descriptor.proto, or no protobuf for python3"
        dump.check.left_out("protobuf's own printer", why)
        return
    words = [judge, "-B", "tools/generators/protobuf_dumps.py", "--random", "1", "300", dump.path]
    dump.check.counted("protobuf_dumps.py --random", words, cwd=checks.ROOT)


def main(check: checks.Check) -> None:
    dump = Program(check, "journal_dump", "replay")
    go_to_streams(check, MADE)
    for status, cases in ((0, CASES), (1, TOO_LONG), (2, FAILURES)):
        for words, lines, *complaints in cases:
            dump.ends(words, lines, said(*complaints), status)
    dump.ends("--pretty --text --type InputCommand replay", example(), what="in docs/PROGRAMS.md")
    pretty_beside_jq(dump)

    stored = (STORED / "stdin").read_bytes()
    dump.ends("", (STORED / "stdout").read_bytes(), said(STORED_REST), given=stored, what="of the stored run")
    pretty_beside_python(dump, "the stored run", "", stored)
    # a payload of 17 MiB, which comes in many chunks
    content = bytes(17 << 20)
    line = '{"offset":0,"type":"InputCommand","code":1024,"length":17825802,"message":{"value":{"content":"'
    lines = f'{line}{base64.b64encode(content).decode()}"}}}}}}\n{{"offset":17825810,"rest":0}}\n'
    large = b"\x04\0\0\0\x01\x10\0\nr\x85\x80\xc0\x08\n\x80\x80\xc0\x08" + content
    dump.ends("", lines, given=large, what="of a payload of 17 MiB")
    for kind in ("random", "mixed", "skipped"):
        adversarial(dump, kind)
    beside_protobuf(dump)


if __name__ == "__main__":
    checks.perform(main)
