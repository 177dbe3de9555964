"""Small files of other runtimes, and what scripts/adopt.sh makes of each: what scripts/checks/description.py takes.

Each of them is in the language of protoc, and showed that something was taken wrong, lost without a word, or ended
with a traceback. What is said of them does not depend on the numbers that the description has here.
"""
from __future__ import annotations

import argparse
import base64
import contextlib
import io
import pathlib
import re
import sys

from checks import Check

HEAD = 'syntax = "proto3";\npackage theirs;\n'
PROTO2 = 'syntax = "proto2";\npackage theirs;\n'
COMMAND = "// Type: 0x0400 + {}\nmessage {}CommandMessage {{ {} string name = 12; }}\n"

# What it is, the file, what is said of it, each in the section that is named or in the table (""), and what is not
# said at all.
FILES = [
    (
        "an import that has a message of the same name",
        f'{HEAD}import "google/protobuf/struct.proto";\nmessage Value {{ bytes body = 9; }}\n'
        "message Failure { uint32 code = 5; google.protobuf.Struct more = 7; }\n",
        [("lost", "Value.body is only there"), ("lost", "Failure.more is only there, and is left out: Struct"),
         ("", "GoogleProtobufValue")],
        ["Value.kind", "is not defined"],
    ),
    (
        "a nested message of the name of another one",
        f"{HEAD}message CallCommandMessage {{ message Header {{ string key = 101; string value = 102; }}\n"
        "  repeated Header headers = 3; string name = 7; }\n"
        "message Header { string key = 202; string value = 201; }\n"
        "message InputCommandMessage { repeated Header headers = 3; string name = 7; }\n",
        [("lost", "there: ours stays, at the free number"), ("lost", "repeated CallCommandMessageHeader there"),
         ("", "202 string"), ("", "201 string")],
        [],
    ),
    (
        "nested enums of one name, with values of one name",
        f"{HEAD}message Failure {{ enum Kind {{ NONE = 0; A = 1; }} Kind kind = 60; }}\n"
        "message Header { enum Kind { NONE = 0; B = 1; } Kind kind = 60; }\n",
        [("", "an enum of 0 NONE, 1 A"), ("", "an enum of 0 NONE, 1 B"), ("", "60 HeaderKind")],
        ["left out", "lost"],
    ),
    (
        "a message that holds itself",
        f"{HEAD}message Failure {{ uint32 code = 5; string message = 6; Failure cause = 8; }}\n",
        [("lost", "Failure.cause is only there, and is left out: its message would hold itself, for")],
        [],
    ),
    (
        "messages that hold each other",
        f"{HEAD}message Failure {{ uint32 code = 5; Part part = 8; }}\n"
        "message Part { string key = 1; repeated Part parts = 2; Failure failure = 3; }\n",
        [("lost", "Part.parts is only there, and is left out: its message would hold itself, for"),
         ("lost", "Part.failure is only there, and is left out: its message would hold itself through Failure")],
        ["Failure.part is"],
    ),
    (
        "a group in a message that another one holds",
        f"{PROTO2}message Value {{ optional bytes content = 9;\n"
        "  optional group Extra = 3 { optional int32 a = 1; } }\n"
        "// Type: 0x0400 + 1\n"
        "message OutputCommandMessage { oneof result { Value value = 1; } optional string name = 7; }\n",
        [("lost", "Value.extra is only there, and is left out: it is a group")],
        ["Extra.a"],
    ),
    (
        "bytes for a text",
        f"{HEAD}message Failure {{ uint32 code = 1; bytes message = 2; }}\n",
        [("lost", "a message in which it is not UTF-8 is malformed as a whole")],
        ["alike"],
    ),
    (
        "a signed number for one without a sign",
        f"{HEAD}message Failure {{ int32 code = 1; string message = 2; }}\n",
        [("otherwise", "a negative number is read as one that is 2^32 greater")],
        ["alike"],
    ),
    (
        "a default of proto2",
        f'{PROTO2}message Failure {{ optional uint32 code = 5 [default = 500]; optional string message = 6; }}\n',
        [("otherwise", "Failure.code: where it is absent, it is 500 there")],
        ["Failure.message: where"],
    ),
    (
        "a wide number for a narrow one",
        f"{HEAD}message Failure {{ uint64 code = 1; }}\n",
        [("lost", "of a number of more than 32 bits the low 32 bits are read")],
        [],
    ),
    (
        "a payload of another kind",
        HEAD + COMMAND.format(13, "Call", "string parameter = 60;"),
        [("otherwise", "CallCommandMessage.parameter is bytes here and string there: ours stays, with their number")],
        [],
    ),
    (
        "aliases, of which one is the name here",
        f"{HEAD}enum ErrorBehavior {{ option allow_alias = true; DEFAULT = 0; RETRY = 0; PAUSE = 1; HOLD = 1; }}\n"
        "message ErrorMessage { ErrorBehavior behavior = 4; }\n",
        [("", "another name of RETRY"), ("", "another name of PAUSE")],
        ["is called RETRY here", "is called PAUSE here"],
    ),
    (
        "an enum without 0",
        f"{PROTO2}enum ErrorBehavior {{ RETRY = 5; PAUSE = 7; }}\nenum Pace {{ FAST = 3; }}\n"
        "message ErrorMessage { optional ErrorBehavior behavior = 4; optional Pace pace = 60; }\n",
        [("", "5"), ("", "an enum of 3 FAST")],
        ["left out"],
    ),
    (
        "an enum whose second value is 0",
        f"{PROTO2}enum ErrorBehavior {{ RETRY = 5; PAUSE = 0; }}\n"
        "message ErrorMessage { optional ErrorBehavior behavior = 4; }\n",
        [],
        ["left out", "lost"],
    ),
    (
        "a negative number of a value that is here",
        f"{PROTO2}enum ErrorBehavior {{ RETRY = -1; PAUSE = 0; }}\n"
        "message ErrorMessage { optional ErrorBehavior behavior = 4; }\n",
        [("otherwise", "ErrorBehavior.RETRY is -1 there")],
        [],
    ),
    (
        "a suspension with both forms",
        f"{HEAD}message Future {{}}\nmessage SuspensionMessage {{ repeated uint32 waiting_completions = 1;\n"
        "  repeated uint32 waiting_signals = 2; repeated string waiting_named_signals = 3; Future awaiting_on = 9; }\n",
        [("lost", "the lists are read as SuspensionMessageV6, before version 7; from there on they are skipped")],
        [],
    ),
    (
        "the three lists of a suspension in another order, with a further field",
        f"{HEAD}message SuspensionMessageV6 {{ repeated uint32 waiting_completions = 9;\n"
        "  repeated uint32 waiting_signals = 8; repeated string waiting_named_signals = 7; bool more = 60; }\n",
        [("lost", "the three lists have their numbers in this order here"),
         ("lost", "SuspensionMessageV6.more is only there, and is left out")],
        [],
    ),
    (
        "a field that is called otherwise, the only one of its kind",
        f"{HEAD}message Value {{ bytes body = 9; }}\n",
        [("decide", "--rename Value.body=Value.content takes one as the other")],
        [],
    ),
    (
        "a type without an end that says what it is, and one whose code is not said",
        HEAD + COMMAND.format(1, "Output", "") + "// Type 0x0500\n"
        "message Settle { string key = 1; string name = 12; }\nmessage LaterCommandMessage { string name = 12; }\n",
        [("", "called SettleCommandMessage here"),
         ("lost", "LaterCommandMessage is only there, and is left out: no comment there says a code of it")],
        ["Settle is only there, and is left out"],
    ),
    (
        "two types of one code",
        HEAD + COMMAND.format("0x120", "Output", "") + COMMAND.format("0x120", "Sleep", ""),
        [("lost", "SleepCommandMessage has the code 0x0520 there: ours stays")],
        [],
    ),
    (
        "a command whose name is at another number than that of others",
        HEAD + COMMAND.format(1, "Output", "") + COMMAND.format(12, "Sleep", "")
        + "message RunCommandMessage { string name = 13; uint32 result_completion_id = 12; }\n",
        [("lost", "RunCommandMessage.name is string here and string there: ours stays, at"),
         ("lost", "RunCommandMessage.result_completion_id is uint32 here and uint32 there: ours stays, at")],
        [],
    ),
    (
        "members of a oneof that are in none there",
        HEAD + COMMAND.format(1, "Output", "Value value = 1; Failure failure = 2;")
        + "message Value { bytes content = 9; }\nmessage Failure { uint32 code = 5; }\n",
        [("lost", "of several members of it only the last one is read")],
        [],
    ),
    (
        "a message without a field that has a form",
        f'{HEAD}import "google/protobuf/duration.proto";\n'
        "message Failure { uint32 code = 5; google.protobuf.Duration after = 60; }\n",
        [("lost", "Failure.after is only there, and is left out: Duration, which it holds, is left out: seconds of")],
        ["Duration is only there, and is", "Duration.nanos is only there"],
    ),
    (
        "names that a language has another use for",
        f"{HEAD}message Failure {{ string class = 60; Item item = 61; Kind kind = 62; string method_name = 63; }}\n"
        "message Item { string key = 1; }\nenum Kind { NO_KIND = 0; None = 1; }\n",
        [("lost", "Failure.class is only there, and is left out: a language has another use for the name"),
         ("lost", "Failure.item is only there, and is left out: Item"),
         ("lost", "Failure.kind is only there, and is left out: Kind"), ("", "63 string")],
        [],
    ),
    (
        "options of theirs that are groups, and texts that are no UTF-8",
        f'{PROTO2}import "google/protobuf/descriptor.proto";\nextend google.protobuf.MessageOptions {{\n'
        "  optional string code = 50002; optional group Opt = 50003 { optional int32 a = 1; } }\n"
        'message Value { option (code) = "\\xff"; option (opt).a = 5; optional bytes content = 9; }\n',
        [],
        ["lost"],
    ),
]

# How comments say codes, by the end of the name of a command: what is written, and what is added to 0x0400, or None.
SAID = {
    "Output": ("/** Output. <p>Type: <code>0x0401</code> */\nmessage {} {{ string name = 7; }}", 1),
    "Input": ("/** Input. Type: 0x0400+0\n */\nmessage {} {{ string name = 7; }}", 0),
    "SetState": ("// TYPE = 1027\nmessage {} {{ string name = 7; }}", 3),
    "ClearState": ("// This is 0x0404\nmessage {} {{ string name = 7; }}", None),
    "ClearAllState": ("// Type: 0x0400 | 0x5\nmessage {} {{ string name = 7; }}", 5),
    "Sleep": ("// Type: 0x0400 + 20\n\n// Sleeps.\nmessage {} {{ // Type: 0x0400 + 12\n  string name = 7; }}", 12),
    "Run": ("message {} {{\n  // Type: 0x0400 + 17\n  string name = 7; }}", 17),
    "Call": ("// Type 0x0400 + 13\nmessage {} {{ string name = 7; }}", 13),
}


def taken(check: Check, what: str, text: str, words: tuple[str, ...] = ()) -> tuple:
    """What comes of a file, with what is said of it."""
    from adoption.adoption import Adoption
    from generators import descriptors, proto

    path = check.work / f"{re.sub(r'[^a-z]+', '_', what.lower())}.proto"
    path.write_text(text, encoding="utf-8")
    theirs = descriptors.read(path, with_imports=True)
    adoption = Adoption(proto.description(), theirs, words)
    adoption.match()
    return adoption, theirs, path


def comments(check: Check) -> None:
    """What a comment of a description may have is in what is generated, and ends no comment and no docstring there."""
    import ast

    from generators import typed_python, typed_ruby, typed_typescript
    from generators.typed_model import TypedField

    for said in ('the mode "fast"', 'three """ of them', "a path C:\\users", 'ends with \\"', "ends with \\", "\\N{x}"):
        found = ast.get_docstring(ast.parse(f"class A:\n{typed_python.doc(said, '    ')}").body[0])
        check.same(f"the docstring of {said!r}", said, found)
    check.same("a comment of TypeScript", "/** as a* /b */\n", typed_typescript.doc("as a*/b"))
    # a member of a oneof that has a class of its own
    for kind, record, enum, wanted in (("message", "Value", None, "Value"), ("enum", None, "OneKind", "one_kind")):
        field = TypedField("it", 1, kind, "member", record, enum, "It.")
        check.same(f"the type of {kind} in RBS", wanted, typed_ruby.rbs_element(field))


def files(check: Check) -> None:
    """Each of the files is taken, and what is said of it is in its section."""
    from adoption import sample
    from generators import ROOT, Refused, descriptors

    for what, text, wanted, unwanted in FILES:
        adoption, theirs, path = taken(check, what, text)
        try:
            made = adoption.checked()
        except Refused as refused:
            check.case(f"{what}: {refused}", False)
            continue
        report = adoption.report(True)
        for section, said in wanted:
            points = adoption.said.points(section) if section else [report]
            check.case(f"{what}: {said!r}", any(said in point for point in points), report[-3000:])
        for said in unwanted:
            found = adoption.said.points("lost") if said == "lost" else said in report
            check.case(f"{what}: not {said!r}", not found, report[-3000:])
        if text.startswith(PROTO2):
            (check.work / "journal.proto").write_text(made, encoding="utf-8")
            described = descriptors.read(check.work / "journal.proto", [ROOT / "proto"])
            stream, expected = sample.stream_of(adoption, theirs, path, described)
            check.case(f"{what}: a stream of it", bool(stream) == bool(expected), expected)


def codes(check: Check) -> None:
    """What comments say of codes."""
    from adoption.codes import code_of, codes_of

    head = "\n".join(text.format(f"{name}CommandMessage") for name, (text, _) in SAID.items())
    adoption, _, _ = taken(check, "codes", f"{HEAD}{head}\n")
    for name, (_, added) in SAID.items():
        found = code_of(adoption.pairs.theirs[f"{name}CommandMessage"], 10)
        check.case(f"the code of {name}", found == (None if added is None else 0x400 + added), found)
    # of several the one that is here, or the last one
    text = "// Type: `0x0402`; was type: 0x0400 + 3 before\nmessage GetLazyStateCommandMessage { string name = 7; }\n"
    adoption, _, _ = taken(check, "two codes", HEAD + text)
    other = adoption.pairs.theirs["GetLazyStateCommandMessage"]
    found = [codes_of(other, 10), code_of(other, 10, 0x402), code_of(other, 10, 0x500)]
    check.case("two codes of a comment", found == [[0x402, 0x403], 0x402, 0x403], found)
    said = any("says 0x0402 and 0x0403" in point for point in adoption.said.points("decide"))
    check.case("what is said of two codes", said, adoption.report(False)[-2000:])


def moved_codes(check: Check) -> None:
    """A type that only we have gets another code, if theirs has its."""
    from generators import proto

    ours = {message.name: message.options.get("code") for message in proto.description().messages}
    text = f"{HEAD}// Type: {ours['EndMessage']}\nmessage ErrorMessage {{ uint32 code = 1; }}\n"
    adoption, _, _ = taken(check, "a code of ours", text)
    found = {name: one.number for name, one in adoption.codes.found.items()}
    is_moved = found["ErrorMessage"] == ours["EndMessage"] and found["EndMessage"] not in ours.values()
    check.case("a code that a type has which is only here", is_moved, found)
    check.case("the description of it", bool(adoption.checked()))


def renames(check: Check) -> None:
    """Names of --rename that are nowhere are rejected, with similar ones; others are taken."""
    from generators import Refused

    text = f"{HEAD}message Datum {{ bytes body = 9; }}\nmessage Failure {{ uint32 code = 5; }}\n"
    for word, said in (
        ("Datun=Value", "there is no message Datun there; similar names are Datum"),
        ("Datum=Valeu", "there is no message Valeu here; similar names are Value"),
        ("Failure.cod=Failure.code", "there is no field of Failure cod there; similar names are code"),
        ("Failure.code=Failure.coed", "there is no field of Failure coed here; similar names are code"),
        ("Failure.code=Failur.code", "there is no message Failur here; similar names are Failure"),
        ("Datum=Value Failure=value_message", "value_message has another name there already"),
    ):
        try:
            taken(check, "renames", text, word.split())
            problems = []
        except Refused as refused:
            problems = refused.problems
        check.case(f"--rename {word}", any(said in problem for problem in problems), problems)
    adoption, _, _ = taken(check, "renames", text, ("Datum=valueMessage", "Datum.body=Value.content"))
    ours = next(field for field in adoption.pairs.ours["Value"].fields if field.name == "content")
    number = adoption.written.taken[ours.line].number
    check.case("a message and a field that are called otherwise", number == 9, number)


def sampled(check: Check) -> None:
    """What a dump is compared with has the kinds of the fields here."""
    from adoption import sample
    from generators import ROOT, descriptors

    text = HEAD + COMMAND.format(13, "Call", "string parameter = 60; bytes key = 61;")
    adoption, theirs, path = taken(check, "kinds", text)
    (check.work / "journal.proto").write_text(adoption.checked(), encoding="utf-8")
    described = descriptors.read(check.work / "journal.proto", [ROOT / "proto"])
    _, expected = sample.stream_of(adoption, theirs, path, described)
    shown = dict(expected)["CallCommand"]
    wanted = {"name": "text 1", "parameter": base64.b64encode(b"text 2").decode(), "key": "\1bytes 3"}
    check.case("values by the kinds here", shown == wanted, shown)
    try:
        sample.encoded(adoption.pairs.theirs["CallCommandMessage"], "nothing: 1", path, "theirs", ())
        problems = []
    except SystemExit as refused:
        problems = refused.problems
    check.case("what protoc says of a sample", any("nothing" in problem for problem in problems), problems)


def asked(check: Check, theirs: pathlib.Path, **parts: object) -> argparse.Namespace:
    """What is asked for, with these parts."""
    import adopt

    sys.argv = ["adopt.py", str(theirs), str(check.work / "empty")]
    found = adopt.arguments()
    vars(found).update(parts)
    return found


def ends(asked: argparse.Namespace) -> int:
    """How the check of what is asked for ends."""
    import adopt

    try:
        with contextlib.redirect_stderr(io.StringIO()):
            adopt.check(asked)
    except SystemExit as ended:
        return ended.code
    return 0


def arguments(check: Check) -> None:
    """What cannot be done is rejected before anything is, and a stream that is malformed is in the status."""
    import adopt

    _, _, path = taken(check, "arguments", f"{HEAD}message Value {{ bytes content = 9; }}\n")
    (check.work / "empty").mkdir(exist_ok=True)
    check.case("an empty folder", ends(asked(check, path)) == 0)
    check.case("a folder with a file", ends(asked(check, path, out=check.work)) == 2)
    check.case("a stream that is not there", ends(asked(check, path, stream=check.work / "nowhere")) == 2)
    for parts in ({"no_build": True}, {"table": True}, {"programs": ["journal_list"]}):
        check.case(f"a stream with {parts}", ends(asked(check, path, stream=path, **parts)) == 2)
    check.case("a stream", ends(asked(check, path, stream=path)) == 0)
    out = check.work / "built"
    (out / "scripts").mkdir(parents=True)
    (out / "scripts" / "program.sh").write_text("exit 0\n", encoding="utf-8")
    for status in (0, 1):
        text = f'case "$*" in *--strict*arguments.proto) exit {status} ;; esac\n'
        (out / "scripts" / "run.sh").write_text(text, encoding="utf-8")
        with contextlib.redirect_stdout(io.StringIO()):
            found = adopt.tried(asked(check, path, out=out, stream=path), [], 8)
        check.case(f"the status of a stream whose dump ends with {status}", found == status, found)
    edition = check.work / "edition.proto"
    edition.write_text('edition = "2023";\n', encoding="utf-8")
    told = " ".join(adopt.advice(asked(check, edition), ["protoc: no"]))
    check.case("an edition", "too old" in told, told)


def pages(check: Check) -> None:
    """The copy says whose numbers these are, in the places that say it here."""
    from adoption import copying
    from checks import ROOT

    out = check.work / "pages"
    for path in copying.WHOSE:
        text = (ROOT / path).read_text(encoding="utf-8")
        found = copying.whose(path).findall(text)
        check.case(f"{path} says once whose numbers these are", len(found) == 1, found)
        (out / path).parent.mkdir(parents=True, exist_ok=True)
        (out / path).write_text(text, encoding="utf-8")
    for name in ("first.proto", "second.proto"):
        copying.say_whose(out, name)
        for path in copying.WHOSE:
            text = (out / path).read_text(encoding="utf-8")
            check.case(f"{path} of a copy says {name}", name in text, copying.whose(path).findall(text))


def perform_all(check: Check) -> None:
    """All cases."""
    for cases in (comments, files, codes, moved_codes, renames, sampled, arguments, pages):
        cases(check)
