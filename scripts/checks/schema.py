#!/usr/bin/env python3
"""journal schema, and journal dump and make with --schema, on descriptions of other runtimes and on what is not a set.

protoc makes a set of each .proto file of tests/adopt, and of the protocol's own. The tables are next to those files.
protoc also makes payloads by those files. Protobuf prints the same of random payloads of all message types, by a
description that has other numbers, and by one that has other names too, which codes or renames say. It reads the same
of JSON with names of values of enums; for these, Python's protobuf is needed. Each dump is made again as the same
bytes. scripts/adopt.sh reads the same codes in comments.
"""
from __future__ import annotations

import json
import os
import pathlib
import random
import re
import subprocess

import checks
from adoption import codes
from adoption.pairs import Pairs
from generators import descriptors, proto
from programs import Program

ADOPT = checks.ROOT / "tests" / "adopt"
PROTO = checks.ROOT / "proto"

# The names of these files' messages begin with it.
PACKAGES = {
    "other": "another.runtime.v1", "awkward": "acme.durable.wire.v2", "journal": "pendratsoa.journal",
}

# How a file begins.
HEAD = 'syntax = "proto3";\npackage a;\n'

# Texts of messages, which the file and the protocol's own describe by the same names.
SHARED = (
    ("other", 0x0402, "GetLazyStateCommandMessage", 'result_completion_id: 7 name: "n"'),
    ("other", 0x040C, "SleepCommandMessage", 'wake_up_time: 18446744073709551615 name: "é"'),
    ("other", 0x8002, "GetLazyStateCompletionNotificationMessage", 'completion_id: 1 value { content: "\\000x" }'),
    ("other", 0x8002, "GetLazyStateCompletionNotificationMessage", "completion_id: 300 void { }"),
    ("other", 2, "ErrorMessage", "code: 4294967295 behavior: RETRY"),
    ("other", 1, "SuspensionMessage", "awaiting_on { waiting_completions: [1, 300] nested_futures { } }"),
    ("awkward", 1, "SuspensionMessage", 'awaiting_on { waiting_signals: [17, 2] waiting_named_signals: ["a", ""] }'),
    ("awkward", 0x0400, "InputCommandMessage", 'headers { } name: "n" value { }'),
    ("awkward", 0x0401, "OutputCommandMessage", 'failure { code: 5 message: "m" } name: "n"'),
    ("awkward", 0x040D, "CallCommandMessage", 'headers { key: "k" value: "v" } headers { } result_completion_id: 3'),
    ("awkward", 0xFBFF, "SignalNotificationMessage", 'name: "s" value { }'),
)

# Texts of messages, and what is printed of them.
OTHERS = (
    ("other", 0x0402, "GetLazyStateCommandMessage", 'key: "k" name: "n"', {"theKey": "aw==", "name": "n"}),
    ("other", 0x0401, "OutputCommandMessage", 'success { content: "x" }', {"success": {"content": "eA=="}}),
    ("other", 0x040C, "SleepCommandMessage", 'reason: "r"', {"reason": "r"}),
    ("awkward", 0x0402, "GetLazyStateCommand", 'key: "k" fresh: false', {"key": "k", "fresh": False}),
    ("awkward", 0x0402, "GetLazyStateCommand", "flags: [true, false, true]", {"flags": [True, False, True]}),
    ("awkward", 0x0400, "InputCommandMessage", 'value { body: "b" content_type: "t" } nothing { }',
     {"value": {"body": "Yg==", "contentType": "t"}, "nothing": {}}),
    ("awkward", 0, "StartMessage", 'retry_count_since_last_stored_entry: -1 state_map { key: "k" }',
     {"stateMap": [{"key": "aw=="}], "retryCountSinceLastStoredEntry": -1}),
)

# Texts whose joined payloads are one that is not canonical, and what is printed of it.
JOINED = (
    # a field that has no form is passed over as an unknown number is
    ("awkward", 0, "StartMessage", ("known_entries: 1",), {}),
    ("other", 0, "StartMessage", ('id: "i" random_seed: 1',), {"id": "aQ=="}),
    # each number of a list that is not packed is a record
    ("awkward", 1, "SuspensionMessage", ("awaiting_on { waiting_completions: 1 }",),
     {"awaitingOn": {"waitingCompletions": [1]}}),
    # lists are joined and messages are merged; of all else the last one counts, and of a oneof the last member
    ("awkward", 0x0402, "GetLazyStateCommand", ("flags: [false, true]", "flags: true"), {"flags": [False, True, True]}),
    ("awkward", 1, "SuspensionMessage",
     ("awaiting_on { waiting_completions: [1, 2] }", 'awaiting_on { waiting_completions: 3 waiting_signals: 4 }'),
     {"awaitingOn": {"waitingCompletions": [1, 2, 3], "waitingSignals": [4]}}),
    ("awkward", 0x0400, "InputCommandMessage",
     ('value { body: "b" } headers { key: "k" }', 'name: "m" headers { }', 'name: "n" value { content_type: "t" }'),
     {"headers": [{"key": "k"}, {}], "name": "n", "value": {"body": "Yg==", "contentType": "t"}}),
    ("awkward", 0x0401, "OutputCommandMessage", ("failure { code: 5 }", 'failure { message: "m" }'),
     {"failure": {"code": 5, "message": "m"}}),
    ("other", 0x8002, "GetLazyStateCompletionNotificationMessage", ("void { }", "value { } completion_id: 7"),
     {"completionId": 7, "value": {}}),
)

# Messages in JSON with values of enums by their names or numbers, and as texts; a name may be another one's alias.
ENUMS = (
    ("other", 2, "ErrorMessage", '{"behavior":"NEVER"}', "behavior: NEVER"),
    ("other", 2, "ErrorMessage", '{"code":1,"behavior":"RETRY"}', "code: 1"),
    ("other", 2, "ErrorMessage", '{"behavior":"3"}', "behavior: PAUSE"),
    ("other", 2, "ErrorMessage", '{"behavior":-7}', "behavior: -7"),
    ("other", 2, "ErrorMessage", '{"behavior":null}', ""),
    ("awkward", 2, "Error", '{"behavior":"HOLD","relatedCommandType":"MESSAGE_KIND_UNSPECIFIED"}',
     "behavior: PAUSE related_command_type: MESSAGE_KIND_UNSPECIFIED"),
    ("awkward", 2, "Error", '{"behavior":"DEFAULT","relatedCommandType":"COMMAND"}', "related_command_type: COMMAND"),
    ("awkward", 1, "SuspensionMessage",
     '{"awaitingOn":{"combinatorType":"ALL","nestedFutures":[{"combinatorType":"ANY"}]}}',
     "awaiting_on { combinator_type: ALL nested_futures { combinator_type: ANY } }"),
)

# A message of each kind of number with a sign, single, optional, in a oneof and in a list; and lists of other kinds.
SIGNED = f"""{HEAD}message SleepCommandMessage {{
  int64 i = 1;
  sint32 s = 2;
  sint64 t = 3;
  optional int64 oi = 4;
  optional sint32 os = 5;
  optional sint64 ot = 6;
  oneof one {{ int64 mi = 7; sint32 ms = 8; sint64 mt = 9; }}
  repeated sint32 ls = 11;
  repeated int64 li = 12;
  repeated sint64 lt = 13;
  SleepCommandMessage within = 14;
  repeated bool lb = 15;
  repeated int32 le = 16;
}}
"""
EDGES = {"i": (-2**63, 2**63 - 1), "s": (-2**31, 2**31 - 1), "t": (-2**63, 2**63 - 1)}

# Values of enums that are rejected, with what is said of them.
NO_ENUMS = (
    ("other", "ErrorMessage", '{"behavior":"never"}', "behavior: neither a name of its enum nor a number"),
    ("other", "ErrorMessage", '{"behavior":""}', "behavior: neither a name of its enum nor a number"),
    ("other", "ErrorMessage", '{"behavior":" NEVER"}', "behavior: neither a name of its enum nor a number"),
    ("other", "ErrorMessage", '{"behavior":"HOLD"}', "behavior: neither a name of its enum nor a number"),
    ("other", "ErrorMessage", '{"behavior":["NEVER"]}', "behavior: wrong kind of value"),
    ("other", "ErrorMessage", '{"behavior":2147483648}', "behavior: out of range"),
    ("awkward", "Error", '{"relatedCommandType":"PAUSE"}',
     "relatedCommandType: neither a name of its enum nor a number"),
    ("awkward", "SuspensionMessage", '{"awaitingOn":{"nestedFutures":[{},{"combinatorType":"all"}]}}',
     "awaitingOn.nestedFutures[1].combinatorType: neither a name of its enum nor a number"),
)

# A file, and one that imports it.
MISSING = "part.proto", f"{HEAD}message Part {{ bytes content = 1; }}\n"
IMPORTING = "whole.proto", f'{HEAD}import "part.proto";\nmessage Whole {{ Part part = 1; }}\n'

# What is said of commands that differ in fields which only a set has.
ONLY_THERE = "differs in what the protocol has no field for:"

# Fields that are added to messages, and the messages of some codes.
ADDED = (
    ("CallCommandMessage", """  optional uint32 priority = 1000;
  repeated string tags = 1001;
  Trace trace = 1002;
  bytes extra = 1003;
"""),
    ("Header", "  string origin = 1000;\n"),
)
TRACE = "\nmessage Trace {\n  uint64 id = 1;\n  Header header = 2;\n}\n"
CALLED = {0x040D: "CallCommandMessage", 0x0404: "ClearStateCommandMessage"}

# Texts of two calls, and the lines of the fields in which they differ; none if they are the same.
TOLD = (
    ("priority: 1", "priority: 1", ""),
    ("priority: 1 name: 'n'", "name: 'n' priority: 1", ""),
    ("priority: 1", "priority: 2", "   priority: 1 != 2\n"),
    ("priority: 0", "", "   priority: 0 != none\n"),
    ("tags: 'a' tags: 'b'", "tags: 'a'", '   tags[1]: "b" != none\n'),
    ("extra: 'a' tags: 'x'", "extra: 'b' tags: 'y'", '   extra: "YQ==" != "Yg=="\n   tags[0]: "x" != "y"\n'),
    ("headers { key: 'k' }", "headers { key: 'k' }", ""),
    ("headers { } headers { origin: '1' }", "headers { } headers { }", '   headers[1].origin: "1" != none\n'),
    ("headers { key: 'k' }", "headers { key: 'k' origin: 'o' }", '   headers[0].origin: none != "o"\n'),
    ("trace { id: 1 }", "trace { id: 2 }", '   trace.id: "1" != "2"\n'),
    ("trace { }", "", "   trace: {} != none\n"),
    ("trace { header { key: 'a' } }", "trace { header { key: 'b' } }", '   trace.header.key: "a" != "b"\n'),
)

# Types that the protocol lacks; two say one code, and one has a name of the protocol.
TYPES = f"""{HEAD}
// Type: 0xFC01
message OwnEntry {{ bytes key = 1; }}
// Type: 0x0020
message Transfer {{ string name = 1; }}
// Type: 0x0020
message Unused {{ string name = 1; }}
// Type: 0x0021
message SleepCommandMessage {{ string name = 1; }}
// Type: 0x0402
message Fetch {{ bytes key = 3; }}
"""

# Parts of comments that say codes: before the word, the word, what is before a number, and what is after one.
COMMENTS = (
    ("", "", "", "A message. ", "A message of the type ", "sub", "_", "("),
    ("Type", "Type", "type", "CODE", "message type", "Message Code", "types", "kind"),
    (": ", ": ", ":", " ", " = ", "=", "   ", ": `", " : <code>", " <CODE>", " `", "", " is "),
    ("", "", ".", "`", "</code>.", " and more", "x", " + ", " | zz", "_1", " +1g"),
)

# A code in numbers: whole, or in two parts.
NUMBERS = (
    "0x{code:04X}", "0X{code:x}", "{code}", "0x{high:04X} + {low}", "0x{high:X}+0x{low:x}", "{high} + {low}",
    "0x{high:04X} | {low}", "0x{code:x}g", "0x", "{code}f", "0x{high:04x} + {low} + 1", "99999999999999999999", "65536",
)
LETTERS = "0x{high:04X} + {low:X}", "0x{high:04X} | 0{low:x}", "{high} + a"

# Messages that say the code of another type, that of their own, and none.
CODED = f"""{HEAD}
// Type: 0x0402
message Fetch {{ bytes key = 3; uint32 result = 9; string name = 12; }}
// Type: 0x0400 + 1
message InputCommandMessage {{ string name = 15; }}
message OutputCommandMessage {{ string name = 16; }}
message ClearStateCommandMessage {{
  /* Type 0x0404 */

  // Another comment.
  string name = 17;
}}
"""
CODED_TABLE = """
read by other messages, by the codes that comments say:
- InputCommandMessage, 0x0400: none
- GetLazyStateCommandMessage, 0x0402: a.Fetch
"""

# What these files' comments say of codes.
CODES = "read by other messages, by the codes that comments say:"
SAID = {"awkward": "", "other": f"\n{CODES}\n- ErrorMessage, 0x0002: none\n"}

# Second numbers, and the message of the code 0x0414 or none: they are hexadecimal if more types have their codes then.
SECONDS = (("20", ""), ("14", ""), ("0x14", ""), ("15", "- CompleteAwakeableCommandMessage, 0x0414: none\n"))


def set_of(folder: pathlib.Path, name: str, *words: str) -> bytes:
    """The descriptor set that protoc makes of a file."""
    made = subprocess.run(
        ["protoc", f"--proto_path={folder}", *words, "-o", "/dev/stdout", folder / name],
        check=True, stdout=subprocess.PIPE,
    )
    return made.stdout


def payload_of(folder: pathlib.Path, name: str, message: str, text: str) -> bytes:
    """The payload that protoc makes of the text of a message that a file has."""
    paths = f"--proto_path={folder}", f"--proto_path={PROTO}"
    words = ["protoc", *paths, f"--encode={PACKAGES[name]}.{message}", f"{name}.proto"]
    return subprocess.run(words, input=text.encode(), check=True, stdout=subprocess.PIPE).stdout


def frame_of(code: int, payload: bytes) -> bytes:
    """The message of a type."""
    return code.to_bytes(2, "big") + bytes(2) + len(payload).to_bytes(4, "big") + payload


def block(number: int, content: bytes) -> bytes:
    """The record of a short content."""
    return bytes([8 * number + 2, len(content)]) + content


def shown_by(program: Program, words: str, code: int, payload: bytes) -> dict[str, object]:
    """The members that a dump has of a payload, if it is made again as the same bytes."""
    frame = frame_of(code, payload)
    run = program.run(f"dump --strict {words}", frame)
    made = program.run(f"make {words}", run.out)
    if made != checks.Run(0, frame, b""):
        return {"dump": str(run), "made": str(made)}
    lines = run.out.splitlines() if run.status == 0 and not run.err else []
    line = json.loads(lines[0]) if len(lines) == 2 else {"run": str(run)}
    return {key: value for key, value in line.items() if key not in ("offset", "type", "code", "length")}


def renumbered() -> str:
    """The protocol's own description with other numbers, of one byte and of two, in the opposite order."""
    text = (PROTO / "journal.proto").read_text()
    return re.sub(r"(?m)^( +(?:\w+ )?\w+ \w+ = )(\d+)", lambda found: f"{found[1]}{120 - 7 * int(found[2])}", text)


def dumped(check: checks.Check, program: Program) -> None:
    """Payloads by the numbers of another file."""
    for name in PACKAGES:
        folder = PROTO if name == "journal" else ADOPT
        (check.work / f"{name}.set").write_bytes(set_of(folder, f"{name}.proto", "--include_imports"))
    for name, code, message, text in SHARED:
        theirs = shown_by(program, f"--schema {check.work / name}.set", code, payload_of(ADOPT, name, message, text))
        ours = shown_by(program, "", code, payload_of(PROTO, "journal", message, text))
        check.case(f"{message} of {name}.proto: {text}", theirs == ours and "message" in ours, (theirs, ours))
    for name, code, message, text, expected in OTHERS:
        payload = payload_of(ADOPT, name, message, text)
        found = shown_by(program, f"--schema {check.work / name}.set", code, payload)
        check.case(f"{message} of {name}.proto: {text}", found == {"message": expected}, found)
    for name, code, message, texts, expected in JOINED:
        payload = b"".join(payload_of(ADOPT, name, message, text) for text in texts)
        words = f"--schema {check.work / name}.set"
        lines = program.run(f"dump --strict {words}", frame_of(code, payload))
        made = program.run(f"make {words}", lines.out).out
        found = json.loads(lines.out.splitlines()[0]).get("message"), shown_by(program, words, code, made[8:])
        is_merged = made != frame_of(code, payload) and found == (expected, {"message": expected})
        check.case(f"{message} of {name}.proto: {' and '.join(texts)}", is_merged, (found, made))
    # before V7 the one suspension of a file is that too; a type without a message has its bytes
    lists = {"waitingCompletions": [1, 2], "waitingNamedSignals": ["s"]}
    found = shown_by(program, f"--protocol 6 --schema {check.work}/other.set", 1, b"\n\2\1\2\x1a\1s")
    check.case("a suspension of version 6", found == {"message": lists}, found)
    found = shown_by(program, f"--schema {check.work}/other.set", 0x0400, b"\xff")
    check.case("a type without a message", found == {"bytes": "/w=="}, found)


def coded_lines(out: bytes) -> str:
    """What a table says of types that other messages are read by than those of their names."""
    return out.decode().partition("by the codes that comments say:\n")[2].partition("\n\n")[0]


def comment(r: random.Random, code: int, numbers: tuple[str, ...]) -> str:
    """A comment that may say a code."""
    before, word, between, after = (r.choice(parts) for parts in COMMENTS)
    said = r.choice(numbers).format(code=code, high=code & 0xFF00, low=code & 0xFF)
    return f"{before}{word}{between}{said}{after}"


def commented(r: random.Random, numbers: tuple[str, ...]) -> str:
    """A file of messages with comments that may say the codes of types, above them, after their opening braces or above
    their first fields."""
    types = [message.options["code"] for message in proto.description().messages if "code" in message.options]
    text = HEAD
    for at in range(120):
        above, after, field = (
            f"// {comment(r, r.choice(types), numbers)}\n" if r.random() < 0.6 else "" for _ in range(3)
        )
        text += f"{above}message M{at:03} {{ {after}\n{field} uint32 a = 1; }}\n\n"
    return text


def read_in(path: pathlib.Path) -> str:
    """What scripts/adopt.sh reads in such a file: the first message that says the code of each type."""
    pairs = Pairs(proto.description(), descriptors.read(path))
    base, _ = codes.base_of(pairs)
    lines = ""
    for name, message in pairs.ours.items():
        code = message.options.get("code")
        found = [other for other in pairs.theirs.values() if code in codes.codes_of(other, base)]
        lines += f"- {name}, 0x{code:04x}: a.{found[0].name}\n" if found else ""
    return lines


def comments(check: checks.Check, program: Program) -> None:
    """The codes that comments say are those that scripts/adopt.sh reads."""
    r = random.Random(1)
    for at, numbers in enumerate((NUMBERS, NUMBERS, NUMBERS + LETTERS, LETTERS)):
        path = check.work / f"comments_{at}.proto"
        path.write_text(commented(r, numbers))
        run = program.run("schema", set_of(check.work, path.name, "--include_source_info"))
        expected = read_in(path)
        check.case(f"{path.name} has types", expected.count("\n") > 10, expected)
        lines = ("\n".join(sorted(text.split("\n"))).strip() for text in (expected, coded_lines(run.out)))
        check.same(f"journal schema of {path.name}", *lines)
    for second, expected in SECONDS:
        path = check.work / "second.proto"
        path.write_text(f"{HEAD}// Type: 0x0400 + {second}\nmessage CompleteAwakeableCommandMessage {{ }}\n")
        run = program.run("schema", set_of(check.work, path.name, "--include_source_info"))
        found = coded_lines(run.out)
        check.case(f"Type: 0x0400 + {second}", run.status == 0 and found == expected, found)


def coded(check: checks.Check, program: Program) -> None:
    """Payloads by messages that say the codes of types, and by messages that are renamed."""
    (check.work / "coded.proto").write_text(CODED)
    for name, words in (("coded", ("--include_source_info",)), ("plain", ())):
        (check.work / f"{name}.set").write_bytes(set_of(check.work, "coded.proto", *words))
    table = program.run(f"schema {check.work}/coded.set").out.decode()
    check.case("journal schema of codes", table.endswith(CODED_TABLE), table)
    table = program.run(f"schema {check.work}/plain.set").out.decode()
    check.case("journal schema without comments", "codes" not in table and "OutputCommandMessage.name" in table, table)
    key, name, opaque = b"\x1a\1k\x48\7", b"\x7a\1n", {"bytes": "GgFrSAc="}
    fetched = {"message": {"key": "aw==", "result": 7}}
    renames = "--rename Fetch=get_lazy_state_command", "--rename a.Fetch=GetLazyStateCommandMessage"
    for words, code, payload, expected in (
        ("coded.set", 0x0402, key, fetched),
        ("coded.set", 0x0400, name, {"bytes": "egFu"}),
        ("coded.set", 0x0401, b"\x82\1\1n", {"message": {"name": "n"}}),
        ("coded.set", 0x0404, b"\x8a\1\1n", {"message": {"name": "n"}}),
        ("plain.set", 0x0402, key, opaque),
        ("plain.set", 0x0400, name, {"message": {"name": "n"}}),
        *((f"plain.set {rename}", 0x0402, key, fetched) for rename in renames),
        (f"coded.set {renames[0]} --rename InputCommandMessage=InputCommand", 0x0400, name, {"bytes": "egFu"}),
    ):
        found = shown_by(program, f"--schema {check.work}/{words}", code, payload)
        check.case(f"0x{code:04x} by {words}", found == expected, found)
    table = program.run(f"schema {renames[0]} {check.work}/plain.set").out
    check.case("journal schema --rename", b"\nGetLazyStateCommandMessage.key " in table, table)
    for renamed, said in (
        ("Fetsh=GetLazyStateCommand", "there is no message Fetsh there; did you mean Fetch?"),
        ("Fetch=GetLasyStateCommandMessage", "there is no message GetLasyStateCommandMessage here; did you mean "
         "GetLazyStateCommandMessage, GetEagerStateCommandMessage, SetStateCommandMessage?"),
        ("Fetch=SleepCommand --rename InputCommandMessage=sleep_command",
         "sleep_command has another name there already"),
    ):
        for word in ("dump", "make", "schema"):
            path = f"{check.work}/plain.set"
            words = f"{word} {path}" if word == "schema" else f"{word} --schema {path}"
            error = f"journal {word}: --rename {renamed.rpartition(' ')[2]}: {said}\n"
            program.ends(f"{words} --rename {renamed}", "", error, 2)
    wrong = program.run(f"dump --schema {check.work}/plain.set --rename Fetch")
    check.case("--rename Fetch", wrong.status == 2 and b"--rename Fetch is not THEIRS=OURS" in wrong.err, wrong)


def compared(check: checks.Check, program: Program) -> None:
    """Streams at other numbers are compared as the same ones at the protocol's own."""
    (check.work / "renumbered.proto").write_text(renumbered())
    made = check.work / "renumbered.set"
    made.write_bytes(set_of(check.work, "renumbered.proto", f"--proto_path={PROTO}", "--include_imports"))
    streams = checks.ROOT / "examples/streams"
    for name in ("recorded", "replayed_other_handler", "replayed_other_payload"):
        stream = program.run(f"make --schema {made}", program.run(f"dump {streams / name}").out).out
        check.case(f"{name} at other numbers", bool(stream) and stream != (streams / name).read_bytes(), name)
        (check.work / name).write_bytes(stream)
        (check.work / f"{name}.hex").write_text(stream.hex())
    for name in ("recorded", "replayed_other_handler", "replayed_other_payload"):
        for words in ("", "--all", "--json", "--ignore-payloads"):
            ours = program.run(f"diff {words} {streams}/recorded {streams / name}")
            theirs = program.run(f"diff {words} --schema {made} {check.work}/recorded {check.work / name}")
            has_verdict = ours.status in (0, 1) and bool(ours.out)
            check.case(f"diff {words} --schema, recorded and {name}", has_verdict and ours == theirs, (ours, theirs))
        ours = program.run(f"diff {streams}/recorded {streams / name}")
        theirs = program.run(f"diff --input hex --schema {made} {check.work}/recorded.hex {check.work / name}.hex")
        is_same = bool(ours.out) and ours == theirs
        check.case(f"diff --input hex --schema, recorded and {name}", is_same, (ours, theirs))
    cut = (check.work / "recorded").read_bytes()[:-1]
    (check.work / "cut").write_bytes(cut)
    ours = program.run(f"diff {streams}/recorded -", (streams / "recorded").read_bytes()[:-1])
    theirs = program.run(f"diff --schema {made} {check.work}/recorded -", cut)
    # the trailing bytes are those of a payload, whose keys are longer there
    is_same = (ours.status, ours.out) == (theirs.status, theirs.out)
    check.case("diff --schema, a stream cut short", is_same and b" after its last " in theirs.err, (ours, theirs))
    (check.work / "lacking").write_bytes(frame_of(0x0411, b"\x1a\1s"))
    (check.work / "also").write_bytes(frame_of(0x0411, b"\x1a\1t"))
    words = f"--schema {check.work}/other.set --rename TransferCommandMessage=RunCommand"
    said = f'command 0: RunCommand {ONLY_THERE}\n   source: "s" != "t"\n'
    program.ends(f"diff {words} {check.work}/lacking {check.work}/also", said, status=1)
    for word, files in (("diff", f"{check.work}/cut {check.work}/cut"), ("dump", f"{check.work}/cut")):
        said = f"journal {word}: --protocol auto reads payloads by the protocol's own description, and not by a "
        program.ends(f"{word} --schema {made} --protocol auto {files}", "", f"{said}descriptor set\n", 2)


def listed(check: checks.Check, program: Program) -> None:
    """Types that the protocol lacks are listed by the names of a set whose comments say their codes."""
    folder = check.work / "listed"
    folder.mkdir()
    (folder / "types.proto").write_text(TYPES)
    (folder / "set").write_bytes(set_of(folder, "types.proto", "--include_source_info"))
    stream = b"".join(frame_of(code, b"ab") for code in (0x0402, 0xFC01, 0xFC02, 0x0020, 0x0021))
    plain = "GetLazyStateCommand 2\nCustomEntry(64513) 2\nCustomEntry(64514) 2\n"
    named = "GetLazyStateCommand 2\nOwnEntry 2\nCustomEntry(64514) 2\n"
    end = "skipped {} 2\nskipped 0x21 2\nrest 0\n"
    for words, out in (
        ("", f"{plain}{end.format('0x20')}"), (f"--schema {folder}/set", f"{named}{end.format('Transfer')}"),
    ):
        program.ends(f"list --protocol 9 {words}", out, given=stream)
    header = b"\0\x20" + bytes(6)
    program.ends(f"list --schema {folder}/set", "unknown Transfer\nrest 0\n", given=header)
    env = {**os.environ, "PENDRATSOA_SCHEMA": f"{folder}/set"}
    program.ends("list", "unknown Transfer\nrest 0\n", given=header, env=env)
    renamed = f"list --schema {folder}/set --rename Transfer=RunCommand"
    program.ends(renamed, "unknown Unused\nrest 0\n", given=header)
    said = "journal list: --rename Own=RunCommand: there is no message Own there; did you mean OwnEntry?\n"
    program.ends(f"list --schema {folder}/set --rename Own=RunCommand", "", said, 2, given=header)


def with_fields() -> str:
    """The renumbered description with fields that the protocol lacks, and without the message of a sleep."""
    text = re.sub(r"(?m)^message SleepCommandMessage \{\n(?:  .*\n|\n)*\}\n", "", renumbered())
    for name, fields in ADDED:
        text = text.replace(f"message {name} {{\n", f"message {name} {{\n{fields}", 1)
    return text + TRACE


def told_apart(check: checks.Check, program: Program) -> None:
    """Fields that only a set has are compared, and named."""
    folder = check.work / "added"
    folder.mkdir()
    (folder / "journal.proto").write_text(with_fields())
    (folder / "set").write_bytes(set_of(folder, "journal.proto", f"--proto_path={PROTO}", "--include_imports"))

    def written(name: str, *commands: tuple[int, str] | bytes) -> pathlib.Path:
        stream = b"".join(
            command if isinstance(command, bytes)
            else frame_of(command[0], payload_of(folder, "journal", CALLED[command[0]], command[1]))
            for command in commands
        )
        (folder / name).write_bytes(stream)
        return folder / name

    words = f"--schema {folder}/set"
    for recorded, replayed, fields in TOLD:
        files = written("recorded", (0x040D, recorded)), written("replayed", (0x040D, replayed))
        said = f"command 0: CallCommand {ONLY_THERE}\n{fields}" if fields else "same, 1 command\n"
        for more in ("", "--ignore-payloads --ignore-ids --strict", *(["--all"] if fields else [])):
            status = 1 if fields else 0
            program.ends(f"diff {more} {words} {files[0]} {files[1]}", said, status=status, what=replayed)
    first = 0x0404, 'key: "k" name: "n"'
    files = written("recorded", first, (0x040D, "priority: 1")), written("replayed", first, (0x040D, ""))
    text = f"CallCommand {ONLY_THERE}\n   priority: 1 != none"
    place = {"index": 1, "recordedAt": files[1].stat().st_size - 8, "replayedAt": files[1].stat().st_size - 8}
    line = {"verdict": "schemaMismatch", **place, "text": text, "fields": [{"name": "priority", "recorded": "1"}]}
    said = json.dumps(line, separators=(",", ":"))
    for more in ("--json", "--json --all"):
        program.ends(f"diff {more} {words} {files[0]} {files[1]}", f"{said}\n", status=1)
    values = "\x1b[31m1\x1b[0m != \x1b[32mnone\x1b[0m"
    colored = f"\x1b[1mcommand 1\x1b[0m: CallCommand {ONLY_THERE}\n   priority: {values}\n"
    program.ends(f"diff --color always {words} {files[0]} {files[1]}", colored, status=1)
    # the first difference is the one that is said
    other = 0x0404, 'key: "l"'
    before = written("before", (0x040D, "priority: 2"), other), written("after", (0x040D, ""), first)
    said = f"command 0: CallCommand {ONLY_THERE}\n   priority: 2 != none\n"
    program.ends(f"diff {words} {before[0]} {before[1]}", said, status=1)
    both = written("before", other, (0x040D, "priority: 2")), written("after", first, (0x040D, ""))
    same = (0x040D, 'handler_name: "a" priority: 1'), (0x040D, 'handler_name: "b"')
    for one, two in (both, (written("one", same[0]), written("two", same[1]))):
        found = program.run(f"diff {words} {one} {two}")
        check.case("a difference that both have is said before one that only the set has",
                   found.status == 1 and b"Found a mismatch" in found.out and b"priority" not in found.out, found)
    ended = program.run(f"diff {words} {written('short', first)} {files[0]}")
    check.same("a journal that ends", ended.out, b"recorded ends at command 1\n")
    # what the set has no message for is compared whole, and what is malformed by it is an error
    lacking = written("lacking", b"\x04\x0c\0\0\0\0\0\2\x08\1"), written("also", b"\x04\x0c\0\0\0\0\0\2\x08\2")
    said = f'command 0: SleepCommand {ONLY_THERE}\n   bytes: "CAE=" != "CAI="\n'
    program.ends(f"diff {words} {lacking[0]} {lacking[1]}", said, status=1)
    malformed = written("malformed", first, frame_of(0x040D, b"\xc2\x3e\1a"))
    said = "journal diff: the {} command 1 is malformed\n"
    program.ends(f"diff {words} {malformed} {malformed}", "", said.format("recorded"), 2)
    program.ends(f"diff {words} {files[0]} {malformed}", "", said.format("replayed"), 2)
    # a command of a type that the protocol lacks is none
    custom = written("custom", b"\xfc\x01\0\0\0\0\0\1a"), written("other_custom", b"\xfc\x01\0\0\0\0\0\1b")
    program.ends(f"diff {words} {custom[0]} {custom[1]}", "same, 0 commands\n")


def by_variable(check: checks.Check, program: Program) -> None:
    """The variable of the environment names a set, unless an option does, or it is empty."""
    frame, plain = frame_of(0x0402, b"\x1a\1k\x48\7"), {**os.environ, "PENDRATSOA_SCHEMA": f"{check.work}/plain.set"}
    for words, variable, shown in (
        ("", "coded.set", b'"result":7'),
        (f"--schema {check.work}/coded.set", "plain.set", b'"result":7'),
        (f"--schema {check.work}/plain.set", "coded.set", b'"bytes":"GgFrSAc="'),
    ):
        path = f"{check.work}/{variable}"
        env = {**os.environ, "PENDRATSOA_SCHEMA": path}
        run = program.run(f"dump {words}", frame, env=env)
        check.case(f"PENDRATSOA_SCHEMA={path} journal dump {words}", shown in run.out and not run.status, run)
        made = program.run(f"make {words}", run.out, env=env)
        check.case(f"PENDRATSOA_SCHEMA={path} journal make {words}", made == checks.Run(0, frame, b""), made)
    empty = program.run("dump", frame, env={**os.environ, "PENDRATSOA_SCHEMA": ""})
    check.same("PENDRATSOA_SCHEMA= journal dump", program.run("dump", frame).out, empty.out)
    said = "journal dump: --rename is of a set, which --schema names\n"
    program.ends("dump --rename A=Value", "", said, 2)
    env = {**os.environ, "PENDRATSOA_SCHEMA": "-"}
    said = "either the input or the descriptor set can come from the standard input\n"
    program.ends("dump", "", f"journal dump: {said}", 2, given=frame, env=env)
    renamed = program.run("dump --rename Fetch=GetLazyStateCommand", frame, env=plain)
    check.case("PENDRATSOA_SCHEMA with --rename", b'"result":7' in renamed.out and not renamed.status, renamed)


# A message of a type with its name, what is between, and its code; that of a suspension before V7 is another one's too.
TYPE = re.compile(r"(?m)^message (\w+)( \{\n(?:  .*\n)*?  )option \(code\) = (\w+);(?!\n  option \(before_version\))")


def called_by_codes(text: str) -> str:
    """A description whose messages of types are called by their codes, as Type1026, and have comments that say them."""
    def called(found: re.Match[str]) -> str:
        code = int(found[3], 16)
        said = f"// Type: 0x{code & 0xFF00:04X} + {code & 0xFF}"
        return f"{said}\nmessage Type{code}{found[2]}option (code) = {found[3]};"

    return TYPE.sub(called, text)


def random_payloads(check: checks.Check, program: Program) -> None:
    """Protobuf prints the same for random payloads of all message types, by other numbers than the protocol's."""
    judge = checks.python_with_protobuf()
    if not judge:
        check.left_out("protobuf's own printer", "there is no protobuf for python3")
        return
    called = called_by_codes(renumbered())
    names = {int(code, 16): name for name, _, code in TYPE.findall(renumbered())}
    renames = [word for code, name in names.items() for word in ("--rename", f"Type{code}={name}")]
    for name, text, given, words in (
        ("names", renumbered(), (), ()),
        ("codes", called, ("--include_source_info",), ()),
        ("renames", called, (), renames),
    ):
        folder = check.work / f"renumbered_{name}"
        folder.mkdir()
        (folder / f"by_{name}.proto").write_text(text)
        made = folder / "set"
        made.write_bytes(set_of(folder, f"by_{name}.proto", f"--proto_path={PROTO}", "--include_imports", *given))
        judged = [judge, "-B", "tools/generators/protobuf_dumps.py", "--other", folder / f"by_{name}.proto", "1", "50"]
        command = [*judged, program.path, "dump", "--schema", made, *words]
        check.counted(f"protobuf_dumps.py --other, by {name}", command, cwd=checks.ROOT)


def enums_by_name(check: checks.Check, program: Program) -> None:
    """Values of enums by the names that a set has, and what is rejected."""
    for name, code, message, text, same in ENUMS:
        line = f'{{"code":{code},"message":{text}}}\n'.encode()
        frame = frame_of(code, payload_of(ADOPT, name, message, same))
        made = program.run(f"make --schema {check.work / name}.set", line)
        check.case(f"{text} of {name}.proto", made == checks.Run(0, frame, b""), made)
    for name, message, text, said in NO_ENUMS:
        line = f'{{"type":"{message.removesuffix("Message")}","message":{text}}}\n'.encode()
        said = f"journal make: -:1: message.{said}\n"
        program.ends(f"make --schema {check.work / name}.set", "", said, 1, given=line, what=f"{text} of {name}.proto")
    judge = checks.python_with_protobuf()
    if not judge:
        check.left_out("protobuf's own parser", "there is no protobuf for python3")
        return
    cases = [(name, message, text, same) for name, _code, message, text, same in ENUMS]
    for name, message, text, same in [*cases, *((*case[:3], None) for case in NO_ENUMS)]:
        of = check.work / f"{name}.set", f"{PACKAGES[name]}.{message}"
        read = checks.run([judge, "-B", "scripts/checks/parsed_json.py", *of], text.encode(), cwd=checks.ROOT)
        wanted = "rejected" if same is None else payload_of(ADOPT, name, message, same).hex()
        check.case(f"{text} of {name}.proto, by protobuf's parser", read.out.decode() == f"{wanted}\n", read)


def signed_messages(r: random.Random) -> list[dict[str, object]]:
    """Messages in JSON of all fields of `SIGNED`: the least and the greatest number of each, those around 0, and
    others of any length."""
    def number(kind: str) -> int:
        least, most = EDGES[kind]
        bits = r.randrange(1, 64)
        return r.choice((least, most, 0, 1, -1, max(least, min(most, r.getrandbits(bits) - 2 ** (bits - 1)))))

    messages: list[dict[str, object]] = [{}]
    for name in ("i", "s", "t", "oi", "os", "ot", "mi", "ms", "mt"):
        kind = name[-1]
        for value in (*EDGES[kind], 0, 1, -1):
            messages.append({name: value if kind == "s" else str(value)})
    for _ in range(60):
        message = {name: number(name[-1]) for name in ("i", "s", "t", "oi", "os", "ot") if r.random() < 0.6}
        message[r.choice(("mi", "ms", "mt"))] = number("s")
        for name, kind in (("ls", "s"), ("li", "i"), ("lt", "t"), ("le", "s")):
            message[name] = [number(kind) for _ in range(r.randrange(4))]
        message["lb"] = [r.random() < 0.5 for _ in range(r.randrange(4))]
        message["within"] = {"t": number("t"), "ls": [number("s")]}
        messages.append(message)
    return messages


def signed_numbers(check: checks.Check, program: Program) -> None:
    """Numbers with a sign: protobuf reads the same payload of JSON, and prints the same of it."""
    (check.work / "signed.proto").write_text(SIGNED)
    (check.work / "signed.set").write_bytes(set_of(check.work, "signed.proto"))
    table = program.run(f"schema {check.work}/signed.set").out
    check.case("no field of numbers with a sign is passed over", b"passed over" not in table, table)
    for text, said in (
        ('{"i":"9223372036854775808"}', "i: out of range"), ('{"i":-9223372036854775809}', "i: out of range"),
        ('{"s":2147483648}', "s: out of range"), ('{"os":-2147483649}', "os: out of range"),
        ('{"mt":"9223372036854775808"}', "mt: out of range"), ('{"t":"-9223372036854775809"}', "t: out of range"),
        ('{"ls":[0,-2147483649]}', "ls[1]: out of range"), ('{"i":"-"}', "i: wrong kind of value"),
    ):
        line = f'{{"type":"SleepCommand","message":{text}}}\n'.encode()
        said = f"journal make: -:1: message.{said}\n"
        program.ends(f"make --schema {check.work}/signed.set", "", said, 1, given=line, what=text)
    judge = checks.python_with_protobuf()
    if not judge:
        check.left_out("protobuf's own JSON of numbers with a sign", "there is no protobuf for python3")
        return
    of = [judge, "-B", "scripts/checks/parsed_json.py", "--print", check.work / "signed.set", "a.SleepCommandMessage"]
    messages = signed_messages(random.Random(3))
    lines = "".join(f"{json.dumps(message)}\n" for message in messages)
    theirs = checks.run(of, lines.encode(), cwd=checks.ROOT).out.decode().splitlines()
    check.case("protobuf reads all of them", len(theirs) == len(messages), theirs)
    for message, line in zip(messages, theirs):
        payload, _, printed = line.partition(" ")
        made = program.run(
            f"make --schema {check.work}/signed.set",
            f'{{"type":"SleepCommand","message":{json.dumps(message)}}}\n'.encode(),
        )
        frame = frame_of(0x040C, bytes.fromhex(payload))
        check.case(f"{message} made", made == checks.Run(0, frame, b""), (made, frame))
        shown = shown_by(program, f"--schema {check.work}/signed.set", 0x040C, bytes.fromhex(payload))
        check.case(f"{message} dumped", shown == {"message": json.loads(printed)}, (shown, printed))


def not_dumped(check: checks.Check, program: Program) -> None:
    """A payload that is malformed by a set's message, and files that are not sets."""
    malformed = frame_of(0x0401, b"\x0a\1"), f"--schema {check.work}/other.set"
    line = '{"offset":0,"type":"OutputCommand","code":1025,"length":2,"malformed":true,"bytes":"CgE="}\n'
    said = "journal dump: offset 0: malformed payload of OutputCommand\n"
    program.ends(f"dump --strict {malformed[1]}", f'{line}{{"offset":10,"rest":0}}\n', said, 2, given=malformed[0])
    text = check.work / "theirs.proto"
    text.write_text(HEAD)
    hint = "a text, and not a descriptor set, which this makes of a .proto file"
    said = f"journal dump: {text}: {hint}: protoc --include_imports -o schema.binpb {text}\n"
    program.ends(f"dump --schema {text}", "", said, 2, what="a .proto file")
    for word in ("dump", "make"):
        both = program.run(f"{word} --schema - -")
        is_said = b"either the input or the descriptor set can come from the standard input" in both.err
        check.case(f"journal {word} --schema - -", both.status == 2 and not both.out and is_said, both)


def not_made(check: checks.Check, program: Program) -> None:
    """A line that means nothing by a set, one of a malformed payload, and a set by which no JSON is read."""
    words = f"make --schema {check.work}/other.set"
    malformed = b'{"type":"OutputCommand","malformed":true,"bytes":"CgE="}\n'
    program.ends(words, frame_of(0x0401, b"\x0a\1"), given=malformed, what="malformed")
    wrong = b'{"type":"SleepCommand","message":{"wakeUp":1}}\n'
    said = "journal make: -:1: message.wakeUp: unknown member\n"
    program.ends(words, "", said, 1, given=wrong, what="unknown member")
    fields = (block(1, b"a%d" % n) + bytes([0x18, n, 0x20, 1, 0x28, 13]) + block(10, b"a") for n in (1, 2))
    message = block(1, b"m") + b"".join(block(2, field) for field in fields)
    shared = check.work / "shared.set"
    shared.write_bytes(block(1, block(1, b"f") + block(4, message) + block(12, b"proto3")))
    said = f"journal make: {shared}: f: m: a key in JSON is a name of two fields\n"
    program.ends(f"make --schema {shared}", "", said, 2, what="two fields of one name")


def main(check: checks.Check) -> None:
    check.needs("protoc", "protobuf-compiler")
    schema = Program(check, "journal")
    for name in ("other", "awkward"):
        given = set_of(ADOPT, f"{name}.proto", "--include_imports")
        table = (ADOPT / f"{name}.schema").read_text()
        schema.ends("schema", table, given=given, what=name)
        with_source = set_of(ADOPT, f"{name}.proto", "--include_imports", "--include_source_info")
        coded_table = table.replace("\n\npassed", f"\n{SAID[name]}\npassed")
        schema.ends("schema -", coded_table, given=with_source, what=f"{name}, with source information")
        cut = schema.run("schema", given=given[:-1])
        check.case(f"journal schema < {name}, cut short", cut.status == 2 and not cut.out, cut)
    own = schema.run("schema", given=set_of(PROTO, "journal.proto"))
    is_same = own.out.endswith(b" the same, 0 renumbered, 0 only there, 0 only here, 0 of another kind\n")
    check.case("journal schema of the protocol's own description", own.status == 0 and is_same, own)
    for name, text in (MISSING, IMPORTING):
        (check.work / name).write_text(text)
    said = "-: whole.proto: a.Whole.part: the set has no message a.Part; --include_imports adds what a file imports"
    given = set_of(check.work, "whole.proto")
    schema.ends("schema", "", f"journal schema: {said}\n", 2, given=given, what="no import")
    # a file whose message has a number for its name
    wrong = b"\x0a\x0d\x0a\x01f\x22\x08\x0a\x01m\x12\x03\x0a\x01\xff"
    schema.ends("schema", "", "journal schema: -: f: m: malformed\n", 2, given=wrong, what="no UTF-8")
    dumped(check, schema)
    enums_by_name(check, schema)
    signed_numbers(check, schema)
    not_dumped(check, schema)
    not_made(check, schema)
    comments(check, schema)
    coded(check, schema)
    by_variable(check, schema)
    compared(check, schema)
    told_apart(check, schema)
    listed(check, schema)
    random_payloads(check, schema)


if __name__ == "__main__":
    checks.perform(main)
