#!/usr/bin/env python3
"""Descriptions are rejected with what is wrong with them, and another .proto is taken as its table says.

Each of the descriptions is the one of proto/journal.proto with an edit, and tools/generators has to reject it with
these words, and with a line. The files of tests/adopt are what a runtime may have: scripts/adopt.sh says of each what
the .txt next to it has, and each message that protoc makes with that file has, by the description that comes of it,
the fields that it was made of; adoptions.py has smaller ones. The hand-written test vectors get its numbers, and then
those of before again. Nothing is generated or built. It needs protoc.
"""
from __future__ import annotations

import pathlib
import re
import subprocess
import sys

sys.dont_write_bytecode = True

import adoptions
from checks import ROOT, Check, NotRun, perform

# What is wrong; a text of the description, and what is there in its place; and what is said, after the line. The
# numbers of fields and of enum values are those that the description has, and in braces is the number of the field of
# that name, the code of a type's message, the schema of another message, or how many messages there are.
REFUSED = [
    # what protoc rejects
    ("an enum that does not begin at 0", "RETRY = 0;", "RETRY = 5;", "The first enum value must be zero in proto3."),
    (
        "two values of one number",
        "PAUSE = 1;",
        "PAUSE = 0;",
        '"pendratsoa.journal.PAUSE" uses the same enum value as "pendratsoa.journal.RETRY".',
    ),
    (
        "no brace at the end",
        "bytes content = 1;\n}",
        "bytes content = 1;\n",
        "Reached end of input in message definition (missing '}').",
    ),
    ("something else at the top", "message Void {", "text Void {", "Expected top-level statement"),
    ("proto2", 'syntax = "proto3";', 'syntax = "proto2";', "Expected "),
    (
        "an option that is no number",
        "option (schema) = {Value};",
        "option (schema) = five;",
        "Value must be non-negative integer for uint32 option",
    ),
    (
        "a code below 0",
        "option (code) = {StartMessage};",
        "option (code) = -1;",
        "Value must be non-negative integer for uint32 option",
    ),
    (
        "a place that is no number",
        "[(printed) = 1]",
        "[(printed) = one]",
        "Value must be non-negative integer for uint32 option",
    ),
    ("an unknown option", "option (schema) = {Value};", "option (scheme) = 1;", 'Option "(scheme)" unknown.'),
    (
        "a number that is taken",
        "string debug_id = 2;",
        "string debug_id = 2; string other_id = {debug_id};",
        'Field number {debug_id} has already been used in "pendratsoa.journal.StartMessage"',
    ),
    (
        "a number of protobuf's own",
        "bytes content = 1;",
        "bytes content = 19000;",
        "Field numbers 19000 through 19999 are reserved",
    ),
    ("a missing type", "Value value = 3", "Vlaue value = 3", '"Vlaue" is not defined.'),
    (
        "a number that is reserved",
        "bytes content = 1;",
        "reserved {content}; bytes content = 1;",
        'Field "content" uses reserved number {content}.',
    ),
    # kinds that the library lacks
    (
        "a map",
        "repeated FailureMetadata metadata = 3;",
        "map<string, string> metadata = 3;",
        "metadata of Failure is a map<string, string>: the library has uint32",
    ),
    (
        "a signed number",
        "bytes content = 1;",
        "sint32 content = 1;",
        "content of Value is a sint32: the library has uint32",
    ),
    (
        "a list of fixed numbers",
        "bytes content = 1;",
        "repeated fixed64 content = 1;",
        "content of Value is a list of fixed64: the library has uint32",
    ),
    (
        "a list of bool",
        "bytes content = 1;",
        "repeated bool content = 1;",
        "content of Value is a list of bool: the library has lists of uint32",
    ),
    (
        "numbers that are not packed",
        "repeated uint32 waiting_signals = 2;",
        "repeated uint32 waiting_signals = 2 [packed = false];",
        "waiting_signals of Future is not packed",
    ),
    (
        "a name in JSON",
        "bytes content = 1;",
        'bytes content = 1 [json_name = "c"];',
        "content of Value is called c in JSON",
    ),
    (
        "a name that a language has another use for",
        "bytes content = 1;",
        "bytes content = 1; string hash = {content}2;  // it",
        "a language has another use for the name hash in Value",
    ),
    (
        "a value that a language has a word for",
        "PAUSE = 1;",
        "PAUSE = 1; class = 7;",
        "a value of ErrorBehavior cannot be called class",
    ),
    ("an enum of a name that code has", "enum ErrorBehavior {", "enum Item { NO_ITEM = 0; } enum ErrorBehavior {",
     "an enum cannot be called Item"),
    ("a message of a name that code has", "message Void {", "// It.\nmessage Stream { option (schema) = {messages}; }\n"
     "message Void {", "a message cannot be called Stream"),
    ("a negative value", "PAUSE = 1;", "PAUSE = -1;", "PAUSE of ErrorBehavior is -1"),
    (
        "a second name of a value",
        "PAUSE = 1;",
        "PAUSE = 1; option allow_alias = true; STOP = {PAUSE};",
        "STOP of ErrorBehavior has the number of PAUSE",
    ),
    (
        "a message within another",
        "bytes content = 1;",
        "message Inner { option (schema) = {messages}; } bytes content = 1;",
        "Inner is within Value: messages are beside each other",
    ),
    (
        "an enum within a message",
        "bytes content = 1;",
        "enum Inner { A = 0; } bytes content = 1;",
        "Inner is within Value: enums are beside messages",
    ),
    ("a service", "message Void {", "service Calls {} message Void {", "Calls is a service, and the library has none"),
    (
        "a message that holds itself",
        "bytes content = 1;",
        "Value content = 1;",
        "Value holds itself (Value in Value): its record has functions that call themselves",
    ),
    (
        "the message of a type in another",
        "Future awaiting_on = 4;",
        "EndMessage awaiting_on = 4;",
        "awaiting_on of SuspensionMessage is a EndMessage, which is the message of a type",
    ),
    # names
    (
        "a word of the language",
        "bytes content = 1;",
        "bytes type = 1;",
        "the name type in Value is a word of the language",
    ),
    (
        "another case",
        "bytes content = 1;",
        "bytes theContent = 1;",
        "the name theContent in Value is a word of the language, or not in lower_snake_case",
    ),
    (
        "a message of a type's name",
        "message Void {",
        "message Vec { option (schema) = {messages}; }\n// Nothing.\nmessage Void {",
        "a message cannot be called Vec",
    ),
    (
        "a message of a module's name",
        "message Void {",
        "message Notification { option (schema) = {messages}; }\n// Nothing.\nmessage Void {",
        "a message cannot be called Notification",
    ),
    (
        "a message in lower case",
        "message Void {",
        "message voids { option (schema) = {messages}; }\n// Nothing.\nmessage Void {",
        "the name voids is not in UpperCamelCase",
    ),
    (
        "an enum of another type's name",
        "oneof signal_id {\n    option",
        "oneof option {\n    option",
        "the oneof option of SendSignalCommandMessage cannot have an enum Option",
    ),
    (
        "an enum of a message's name",
        "oneof signal_id {\n    option",
        "oneof failure_ {\n    option",
        "the oneof failure_ of SendSignalCommandMessage cannot have an enum Failure",
    ),
    (
        "two members of one variant",
        "uint32 idx = 2;\n    // The name",
        "uint32 name_ = {idx};\n    // The name",
        'The JSON camel-case name of field "name" conflicts with field "name_".',
    ),
    # schemas, types and commands
    ("no comment", "  // The bytes.\n", "", "content of Value has no comment, which its record would have"),
    ("no schema", "  option (schema) = {Value};\n", "", "Value has no option (schema)"),
    (
        "a schema of another",
        "option (schema) = {Value};",
        "option (schema) = {Void};",
        "Value has the schema {Void} of Void",
    ),
    (
        "a gap",
        "option (schema) = {Value};",
        "option (schema) = {messages};",
        "Value has the schema {messages}, and the {messages} messages have those below {messages}",
    ),
    (
        "a code of another",
        "option (code) = {ErrorMessage};",
        "option (code) = {EndMessage};",
        "EndMessage has the code of ErrorMessage",
    ),
    (
        "a code past the last",
        "option (code) = {SignalNotificationMessage};",
        "option (code) = 0xFC00;",
        "SignalNotificationMessage has the code 0xFC00, where the codes of types end at 0xFBFF",
    ),
    (
        "a code of a command",
        "option (code) = {EndMessage};",
        "option (code) = 0x0600;",
        "EndMessage has the code 0x0600, and so its name has to end with CommandMessage",
    ),
    (
        "a code of a notification",
        "option (code) = {OutputCommandMessage};",
        "option (code) = 0x8401;",
        "OutputCommandMessage has the code 0x8401, and so its name has to end with NotificationMessage",
    ),
    (
        "a version that is the first",
        "option (before_version) = 7;",
        "option (before_version) = 5;",
        "SuspensionMessageV6 is of versions before 5",
    ),
    ("no text", '{ text: "handler input" }', "{ }", "a command of InputCommandMessage has no text"),
    (
        "a command without a name",
        "string entry_name = 12;",
        "string entry_name = 1234;",
        "SendSignalCommandMessage has no text {entry_name}, its name",
    ),
    (
        "a compared field that is not printed",
        "string awakeable_id = 1 [(printed) = 1];",
        "string awakeable_id = 1;",
        "awakeable_id of CompleteAwakeableCommandMessage is compared, and so has to be printed",
    ),
    (
        "a list that no difference prints",
        "string awakeable_id = 1 [(printed) = 1];",
        "string awakeable_id = 1 [(printed) = 1];\n  // More.\n  repeated Value more = 5000 [(printed) = 3];",
        "there is no form yet that prints more of CompleteAwakeableCommandMessage, a list of Value",
    ),
    (
        "a message that no difference prints",
        "string awakeable_id = 1 [(printed) = 1];",
        "string awakeable_id = 1 [(printed) = 1];\n  // More.\n  StateEntry more = 5000 [(printed) = 3];",
        "there is no form yet that prints more of CompleteAwakeableCommandMessage: StateEntry has no text",
    ),
    (
        "a gap among the printed",
        "string awakeable_id = 1 [(printed) = 1];",
        "string awakeable_id = 1 [(printed) = 4];",
        "the lines that CompleteAwakeableCommandMessage prints are 2, 4",
    ),
    (
        "an option of commands elsewhere",
        "bytes content = 1;",
        "bytes content = 1 [(payload) = true];",
        "content of Value has an option of the fields of commands, and is in none",
    ),
    (
        "a row that the template lacks",
        "StateKeys state_keys = 17;\n}",
        "StateKeys state_keys = 1234;\n}",
        "state_keys of GetLazyStateKeysCompletionNotificationMessage is a StateKeys at 1234",
    ),
    (
        "another field of Future",
        "repeated Future nested_futures = 4;",
        "repeated Future nested = {nested_futures};",
        "future.rt is hand-written, and has no nested that is a Vec<Future>",
    ),
    (
        "another order of lists",
        "repeated uint32 waiting_signals = 2;\n  // The signals that are awaited, by their names.\n  repeated string "
        "waiting_named_signals = 3;\n}",
        "repeated uint32 waiting_signals = {waiting_named_signals};\n"
        "  // The signals that are awaited, by their names.\n"
        "  repeated string waiting_named_signals = {waiting_signals};\n}",
        "SuspensionMessageV6 has to have waiting_completions, waiting_signals, waiting_named_signals",
    ),
]

# A field of a command of each kind, as differences print them.
EACH_KIND = "string awakeable_id = 1 [(printed) = 1];\n" + "".join(
    f"// A field.\n{label} {kind} field_{at} = {at + 5000} [(printed) = {at + 3}];\n"
    for at, (label, kind) in enumerate(
        [
            (label, kind) for label in ("", "optional") for kind in (
                "uint32", "uint64", "bool", "ErrorBehavior", "string", "bytes", "Value"
            )
        ]
        + [("repeated", kind) for kind in ("uint32", "string", "bytes", "Header")]
    )
)

# What is accepted, since it changes no byte and no name.
ACCEPTED = [
    ("a comment behind a field", "bytes content = 1;", "bytes content = 1;  // the bytes"),
    ("a comment of a block alone", "  // The bytes.\n", "  /* The bytes. */\n"),
    (
        "a number in hex digits, reserved numbers and an empty statement",
        "bytes content = 1;",
        "bytes content = 0x1;; reserved 7, 9 to 12; reserved \"old\";",
    ),
    ("what is deprecated", "bytes content = 1;", "bytes content = 1 [deprecated = true]; option deprecated = true;"),
    (
        "packed numbers that say so",
        "repeated uint32 waiting_signals = 2;",
        "repeated uint32 waiting_signals = 2 [packed = true];",
    ),
    ("a value in hex digits with an option", "PAUSE = 1;", "PAUSE = 0x1 [deprecated = true];"),
    ("a declaration of two lines", "bytes content = 1;", "bytes\n  content = 1;"),
    ("a field of each kind that is printed", "string awakeable_id = 1 [(printed) = 1];", EACH_KIND),
    (
        "members called as locals",
        "uint32 idx = 2;\n    // The name of the signal.\n    string name = 3;",
        "uint32 size = {idx};\n    // The name of the signal.\n    string out = {name};",
    ),
]


# The number of a field or of an enum value as the description declares it.
DECLARED = re.compile(r"\b(\w+) = (\w+)(?=[; ]|$)")


def edited(proto, text, old, new, wanted=""):
    """The description with an edit, and what is said of it, with the numbers of the description; or None where it has
    no such place."""
    known = {"messages": str(len(proto.messages()))}
    for message in proto.messages():
        known[message.name] = str(message.schema) if message.code is None else f"0x{message.code:04X}"

    def filled(words):
        return re.sub(r"\{(\w+)\}", lambda match: known.get(match[1], match[0]), words)

    old = filled(old)
    parts = DECLARED.split(old)
    pattern = "".join(
        rf"\b{part} = (\w+)" if at % 3 == 1 else re.escape(part) for at, part in enumerate(parts) if at % 3 != 2
    )
    found = re.search(pattern, text)
    if not found:
        return None
    held = dict(zip(zip(parts[1::3], parts[2::3]), found.groups()))
    known.update((name, number) for (name, _), number in held.items())
    new = filled(DECLARED.sub(lambda match: f"{match[1]} = {held.get(match.groups(), match[2])}", new))
    return text[:found.start()] + new + text[found.end():], filled(wanted)


def problems(proto, Refused, text):
    """What is said of a description."""
    try:
        proto.of_text(text)
    except Refused as refused:
        return refused.problems
    return []


def descriptions(check: Check) -> None:
    """The table of refused descriptions, and of those that are accepted."""
    from generators import Refused, proto

    text = proto.PROTO.read_text(encoding="utf-8")
    for what, old, new, wanted in REFUSED:
        made = edited(proto, text, old, new, wanted)
        if not check.case(f"{what}: the description has no {old!r}", made is not None):
            continue
        said = problems(proto, Refused, made[0])
        found = [
            problem for problem in said if made[1] in problem and re.match(
                r"proto/journal\.proto:(\d+:| Field)", problem
            )
        ]
        check.case(what, bool(found), said)
    for what, old, new in ACCEPTED:
        made = edited(proto, text, old, new)
        said = problems(proto, Refused, made[0]) if made else [f"the description has no {old!r}"]
        check.case(what, not said, said)
    # all that is wrong is said at once
    both, _ = edited(proto, text, "bytes content = 1;", "sint32 content = 1;")
    both, _ = edited(proto, both, "option (schema) = {StateKeys};", "option (schema) = {StateEntry};")
    check.case("two things are wrong", len(problems(proto, Refused, both)) == 2, problems(proto, Refused, both))


def decoded(folder: pathlib.Path, name: str, data: bytes) -> str:
    """What protoc reads in a payload, by a description in this folder."""
    words = [
        "protoc",
        f"--proto_path={folder}",
        f"--proto_path={ROOT / 'proto'}",
        f"--decode=pendratsoa.journal.{name}",
        "journal.proto",
    ]
    return subprocess.run(words, input=data, capture_output=True, check=True).stdout.decode()


def fields(shown: object) -> list[str]:
    """The names of fields in a message as JSON has it, in any order."""
    if isinstance(shown, list):
        return [name for each in shown for name in fields(each)]
    if isinstance(shown, dict):
        return sorted([*shown, *(name for each in shown.values() for name in fields(each))])
    return []


def of_file(check: Check, file: str) -> tuple:
    """The description that comes of a file of tests/adopt, which reads each message that protoc makes with that."""
    from adoption import sample
    from adoption.adoption import Adoption
    from generators import descriptors, proto
    from generators.model import json_name

    path = ROOT / "tests" / "adopt" / file
    theirs = descriptors.read(path, with_imports=True)
    adoption = Adoption(proto.description(), theirs)
    adoption.match()
    text = adoption.checked()
    table = path.with_suffix(".txt").read_text(encoding="utf-8")
    check.same(f"the table of {file}", table, adoption.report(True) + "\n")
    (check.work / "journal.proto").write_text(text, encoding="utf-8")
    described = descriptors.read(check.work / "journal.proto", [ROOT / "proto"])
    stream, expected = sample.stream_of(adoption, theirs, path, described)
    at = 0
    for name, shown in expected:
        length = int.from_bytes(stream[at + 4 : at + 8], "big")
        said = decoded(check.work, f"{name}Message", stream[at + 8 : at + 8 + length])
        at += 8 + length
        # protoc shows a field that the description lacks by its number
        named = [json_name(field) for field in re.findall(r"^ *([a-z]\w*)(?::| \{)", said, re.M)]
        check.case(f"{name} of {file}", sorted(named) == fields(shown), f"{said} is not {shown}")
    check.case(f"the whole stream of {file}", at == len(stream) and bool(expected))
    return text, described


def adopted(check: Check) -> None:
    """What comes of the files of tests/adopt."""
    from generators import proto, renumbered

    of_file(check, "awkward.proto")
    text, described = of_file(check, "other.proto")
    # Future has its fields in another order there
    for messages in (proto.messages(), proto.of_text(text)):
        order_of_futures(check, messages)
    imported(check)
    summed(check)
    earlier(check)
    # the numbers of the hand-written test vectors are changed to theirs, and back
    there = renumbered.Renumbering(proto.description(), described)
    same = renumbered.Renumbering(proto.description(), proto.description())
    for path in [*sorted((ROOT / "conformance").glob("*.txt")), ROOT / "tests" / "vectors" / "wrong_lines.txt"]:
        vectors = path.read_text(encoding="utf-8")
        if not vectors.startswith("# @generated"):
            other = there.text(vectors)
            check.same(f"{path.name} with the same numbers", vectors, same.text(vectors))
            check.case(f"{path.name} with other numbers", other != vectors)
            check.same(f"{path.name} with these numbers again", vectors, there.inverse(proto.description()).text(other))
    found = (ROOT / "tests" / "vectors" / "wrong_lines.found").read_text(encoding="utf-8")
    other = there.found(found)
    check.same("what wrong lines should have", found, there.inverse(proto.description()).found(other))


def order_of_futures(check: Check, described: list[object]) -> None:
    """The hand-written code and definitions of Future have its fields in the order of a description."""
    from generators import numbered

    future = next(message for message in described if message.name == "Future")
    order = [row.name for row in future.rows]
    texts = numbered.texts(described)
    rows = re.search(r"^in_rows join last .*=\n    (join .*)$", texts[numbered.IN_ROWS], re.M)[1]
    joined = re.findall(r"join (\w+)", rows)
    check.case(f"in_rows of {order}", joined == [numbered.CALLED[name] for name in order], rows)
    struct = texts[f"{numbered.PARTS}/src/future.rt"].partition("pub struct Future {\n")[2].partition("\n}\n")[0]
    check.case(f"the record of {order}", re.findall(r"^    pub (\w+):", struct, re.M) == order, struct)
    found = re.findall(r"^(\w+)_place = (\d+)$", texts[f"{numbered.RUNTIME}/specs/Flattening.antt"], re.M)
    places = [(name, str(order.index(f"waiting_{name}"))) for name in ("completions", "signals", "named_signals")]
    check.case(f"the places of {order}", found == places, found)
    nested = next(row.number for row in future.rows if row.name == "nested_futures")
    for place in sorted((ROOT / numbered.PARTS / "proofs").rglob("*.antt")):
        path = str(place.relative_to(ROOT))
        held = re.findall(r"(\d+) \(Message future\)", texts.get(path) or place.read_text(encoding="utf-8"))
        check.case(f"the number of nested futures in {path}", set(held) <= {str(nested)}, held)


def summed(check: Check) -> None:
    """What a comment adds to a code is decimal, but where a letter or the codes of here say that it is hexadecimal."""
    from adoption.adoption import Adoption
    from adoption.codes import code_of
    from generators import descriptors, proto

    for ending, added, code in (("letter", "A", 0x040A), ("codes", "14", 0x0414), ("decimal", "20", 0x0414)):
        path = check.work / f"{ending}.proto"
        path.write_text(
            f'syntax = "proto3";\npackage theirs;\n// Type: 0x0400 + {added}\n'
            f"message {'PeekPromise' if added == 'A' else 'CompleteAwakeable'}CommandMessage {{ string name = 12; }}\n",
            encoding="utf-8",
        )
        adoption = Adoption(proto.description(), descriptors.read(path))
        adoption.match()
        found = [code_of(other, adoption.codes.base) for other in adoption.pairs.theirs.values()]
        check.same(f"the code of a sum with {added}", [code], found)
        said = [point for point in adoption.said.points("decide") if "hexadecimal" in point]
        check.case(f"what is said of a sum with {added}", bool(said) == (added != "20"), said)


def earlier(check: Check) -> None:
    """A stream of theirs is dumped as of a version before 7, if their suspension has only the three lists."""
    from adoption.adoption import Adoption
    from generators import descriptors, proto

    lists = "repeated uint32 waiting_completions = 4; repeated string waiting_named_signals = 6;"
    for ending, further, version in (("flat", "", 6), ("future", " Future awaiting_on = 7;", 8)):
        path = check.work / f"{ending}.proto"
        head = 'syntax = "proto3";\npackage theirs;\nmessage Future {}\n'
        path.write_text(f"{head}message SuspensionMessage {{ {lists}{further} }}\n", encoding="utf-8")
        adoption = Adoption(proto.description(), descriptors.read(path))
        adoption.match()
        points = adoption.said.points("otherwise")
        said = any("--protocol 5 or 6" in point for point in points)
        is_version = adoption.version() == version and said == (version == 6)
        check.case(f"the version of streams with a suspension of {ending}", is_version, points)
        check.case(f"the description with a suspension of {ending}", bool(adoption.checked()))


def imported(check: Check) -> None:
    """What a file imports is found in another folder, if that is named."""
    from generators import proto

    name = "InputCommandMessage"
    here = next(
        row for message in proto.messages() if message.name == name for row in message.rows if row.name == "value"
    )
    folder = check.work / "of_theirs" / "wire"
    folder.mkdir(parents=True)
    head = 'syntax = "proto3";\npackage theirs;\n'
    (folder / "value.proto").write_text(f"{head}message Value {{ bytes content = 4; }}\n", encoding="utf-8")
    text = f'{head}import "wire/value.proto";\n// Type: 0x0400\nmessage InputCommandMessage {{ Value value = 3; }}\n'
    (folder / "input.proto").write_text(text, encoding="utf-8")
    for words, said in (([], "--proto-path FOLDER says"), (["--proto-path", folder.parent], f"{here.number} Value  ")):
        told = ["sh", "scripts/adopt.sh", "--table", *words, folder / "input.proto"]
        ended = subprocess.run(told, capture_output=True, text=True)
        is_told = said in ended.stdout + ended.stderr and "Traceback" not in ended.stderr
        check.case(f"an import with {words}", is_told, ended.stdout[-500:] + ended.stderr)


def body(check: Check) -> None:
    check.needs("protoc", "protobuf-compiler")
    from generators import proto

    if lacks := proto.without_protoc():
        raise NotRun(lacks)
    descriptions(check)
    adopted(check)
    adoptions.perform_all(check)
    ended = subprocess.run(["sh", "scripts/adopt.sh", "--table", "proto/types.txt"], capture_output=True, text=True)
    check.case("a file that is no .proto", ended.returncode == 2 and "Traceback" not in ended.stderr, ended.stderr)


if __name__ == "__main__":
    perform(body)
