#!/usr/bin/env python3
"""journal renumber, and show, get and diff with --schema: streams at other numbers are read as those at the protocol's.

protoc makes a set of each .proto file of tests/adopt, and of the protocol's own with other numbers, also with other
names, which codes or renames say. Protobuf's own library makes random messages by these, with fields that the protocol
lacks. Renumbered, they print what protobuf prints of the fields that both have; back again they are the same bytes. For
that, Python's protobuf is needed. Streams of the test vectors are made at other numbers by dump and make.
"""
from __future__ import annotations

import json
import os
import pathlib
import random
import subprocess

import checks
import made_streams
import schema
import taken
from programs import STREAMS, Program

# A malformed message, a stream with it between two others, and the same at the protocol's numbers, by other.proto.
MALFORMED = schema.frame_of(0x0401, b"\x22\5\x8a\1\1")
AROUND = [schema.frame_of(0x0402, payload) for payload in (b"\xc0\1\7", b"\xc0\1\x08")]
OWN = [schema.frame_of(0x0402, payload) for payload in (b"\x58\7", b"\x58\x08")]
WRONG = "offset 11: malformed payload of OutputCommand\n"


# Streams of the examples, and which of the fields that are asked for each of them has.
ASKED = ("0 value.content", "2 parameter", "1 key", "1 value", "9 key", "2 nothing")
HAS = {"recorded": ASKED[:4], "replay": ASKED[3:4], "replayed_other_payload": ASKED[:4]}


class Renumbering:
    """The program, with a set by which it renumbers."""

    def __init__(self, check: checks.Check, program: Program, made: pathlib.Path, words: str = ""):
        self.check = check
        self.program = program
        self.words = f"--schema {made} {words}"

    def run(self, words: str, given: bytes) -> bytes:
        """What a subcommand makes of a stream, without a fault."""
        run = self.program.run(words, given)
        self.check.case(f"journal {words}", not run.status and not run.err, run)
        return run.out

    def read(self, given: bytes, words: str = "") -> bytes:
        return self.run(f"renumber {words} {self.words}", given)

    def written(self, given: bytes, words: str = "") -> bytes:
        return self.run(f"renumber --back {words} {self.words}", given)

    def canonical(self, given: bytes, words: str = "") -> bytes:
        """The stream that comes of a dump by the set."""
        return self.run(f"make {words} {self.words}", self.run(f"dump {words} {self.words}", given))


def set_of(check: checks.Check, name: str, text: str, *words: str) -> pathlib.Path:
    """The file of the set that protoc makes of the text of a description, by this name."""
    (check.work / f"{name}.proto").write_text(text)
    made = check.work / f"{name}.set"
    made.write_bytes(schema.set_of(check.work, f"{name}.proto", f"--proto_path={schema.PROTO}", *words))
    return made


def descriptions(check: checks.Check) -> dict[str, tuple[pathlib.Path, str]]:
    """The set and the options by which each description is taken."""
    found = {}
    for name in ("other", "awkward"):
        made = check.work / f"{name}.set"
        made.write_bytes(schema.set_of(schema.ADOPT, f"{name}.proto", "--include_imports"))
        found[name] = made, ""
    text = schema.renumbered()
    called = schema.called_by_codes(text)
    names = {int(code, 16): name for name, _, code in schema.TYPE.findall(text)}
    renames = " ".join(f"--rename Type{code}={name}" for code, name in names.items())
    for name, given, source, words in (
        ("by_names", text, (), ""),
        ("by_codes", called, ("--include_source_info",), ""),
        ("by_renames", called, (), renames),
    ):
        made = set_of(check, name, given, "--include_imports", *source)
        found[name] = made, words
    return found


def vectors(check: checks.Check, program: Program, made: pathlib.Path) -> None:
    """Streams of the test vectors, at the protocol's numbers and at others, by a set that has all fields."""
    by = Renumbering(check, program, made)
    for version in range(5, 10):
        words = f"--protocol {version}"
        frames = [made_streams.frame(code, 0, payload) for code, payload in made_streams.messages(version)]
        frames += [made_streams.frame(0xFC00, 1, b"a custom entry"), made_streams.frame(0xFFFF, 0, b"")]
        # of an unknown code nothing follows before V9
        frames.append(made_streams.frame(made_streams.UNKNOWN[0], 3, b"skipped" if version == 9 else b""))
        ours = b"".join(frames)
        theirs = by.run(f"make {words} {by.words}", by.run(f"dump {words}", ours))
        check.case(f"version {version} at other numbers", theirs != ours and len(theirs) > len(ours), len(theirs))
        check.same(f"renumber of version {version}", ours, by.read(theirs, words))
        check.same(f"renumber --back of version {version}", theirs, by.written(ours, words))
        rest = made_streams.frame(0x0400, 0, b"truncated")[:-4]
        cut = program.run(f"renumber {words} {by.words}", theirs + rest)
        said = f"journal renumber: offset {len(theirs)}: {len(rest)} bytes after the last whole item\n".encode()
        check.case(f"trailing bytes of version {version}", cut == checks.Run(0, ours + rest, said), cut.err)
    for number, (version, ours) in enumerate(made_streams.stored()):
        words = f"--protocol {version}"
        again = [program.run(f"renumber {way} {words} {by.words}", ours) for way in ("", "--back")]
        # a payload at the protocol's numbers is another one by the set, so only the items stay
        listed = [program.run(f"list {words}", stream).out.split() for stream in (ours, *(run.out for run in again))]
        shown = [[word for word in words if not word.isdigit()] for words in listed]
        check.case(f"the items of stream {number}", shown[0] == shown[1] == shown[2] != [], shown)


def in_chunks(program: Program, words: str, stream: bytes, sizes: list[int]) -> bytes:
    """What a subcommand makes of a stream that comes in chunks of these sizes, and then whole; nothing if it fails."""
    with subprocess.Popen([program.path, *words.split()], stdin=subprocess.PIPE, stdout=subprocess.PIPE) as run:
        reader = subprocess.Popen(["cat"], stdin=run.stdout, stdout=subprocess.PIPE)
        for size in sizes:
            run.stdin.write(stream[:size])
            run.stdin.flush()
            stream = stream[size:]
            taken.until_taken(run, run.stdin)
        run.stdin.write(stream)
        run.stdin.close()
        found = reader.communicate()[0]
        return b"" if run.wait() else found


def random_messages(
    check: checks.Check, program: Program, sets: dict[str, tuple[pathlib.Path, str]]
) -> None:
    """Messages of protobuf's own library, by each description."""
    judge = checks.python_with_protobuf()
    if not judge:
        check.left_out("protobuf's own library", "there is no protobuf for python3")
        return
    for name, (made, words) in sets.items():
        by = Renumbering(check, program, made, words)
        folder = check.work / f"of_{name}"
        folder.mkdir()
        # its rows are those of names
        table = folder / "table"
        table.write_bytes(program.run(f"schema {sets['by_names' if name.startswith('by_') else name][0]}").out)
        command = [judge, "-B", "scripts/checks/shared_fields.py", made, table, "1", "20", folder]
        if not check.command(f"random messages by {name}", command, cwd=checks.ROOT):
            continue
        theirs, shared = (folder / "all").read_bytes(), (folder / "shared").read_bytes()
        wanted = [json.loads(line) for line in (folder / "lines").read_text().splitlines()]
        for kind, stream in (("all fields", theirs), ("shared fields", shared)):
            read = by.read(stream)
            found = [json.loads(line).get("message") for line in by.run("dump --strict", read).splitlines()[:-1]]
            unlike = [pair for pair in zip(wanted, found) if pair[0] != pair[1]]
            check.case(f"{kind} by {name}", len(wanted) == len(found) > 50 and not unlike, unlike[:1])
        canonical = by.canonical(shared)
        ours = by.read(canonical)
        check.same(f"{name}, back again", canonical, by.written(ours))
        check.same(f"{name} is canonical", by.run("make", by.run("dump", ours)), ours)
        sizes = random.Random(2).choices([1, 2, 7, 8, 9, 100], k=30)
        check.same(f"{name} in chunks", by.read(theirs), in_chunks(program, f"renumber {by.words}", theirs, sizes))


def malformed(check: checks.Check, program: Program, made: pathlib.Path) -> None:
    """A malformed payload is copied, and reported; what reads a stream by a set ends there."""
    stream, own = MALFORMED.join(AROUND), MALFORMED.join(OWN)
    words, path = f"--schema {made}", check.work / "malformed"
    path.write_bytes(stream)
    program.ends(f"renumber {words}", own, f"journal renumber: {WRONG}", 1, given=stream)
    program.ends(f"renumber {words}", own + MALFORMED, f"journal renumber: {WRONG}", 1, given=stream + MALFORMED)
    for name, files, status in (("show", path, 1), ("get", f"{path} 0 resultCompletionId", 1),
                                ("diff", f"{path} {path}", 2)):
        program.ends(f"{name} {words} {files}", "", f"journal {name}: {path}: {WRONG}", status)
    # a field of another kind is malformed by the protocol's schema, and has its item
    text = schema.frame_of(0x0402, b"\xc2\1\1x")
    program.ends(f"show {words}", "#0 GetLazyStateCommand malformed\n", given=text)


def arguments(check: checks.Check, program: Program, made: pathlib.Path) -> None:
    """Which set is taken; files that are not sets or streams, and a message over the limit."""
    theirs, ours = AROUND[0], OWN[0]
    env = {**os.environ, "PENDRATSOA_SCHEMA": str(made)}
    program.ends("renumber", ours, given=theirs, env=env, what="by the variable")
    program.ends("renumber --back -", theirs, given=ours, env=env, what="by the variable")
    program.ends("show", "#0 GetLazyStateCommand\nopen id 7: #0 GetLazyStateCommand\n", given=theirs, env=env)
    program.ends("get - 0 resultCompletionId", "7\n", given=theirs, env=env)
    program.ends(f"renumber --input hex --schema {made}", ours, given=theirs.hex().encode())
    program.ends(f"renumber --schema {made}", "", given=b"", what="of nothing")
    for words, said in (
        ("renumber", "--schema FILE names the descriptor set\n"),
        ("renumber --rename A=Value", "--rename is of a set, which --schema names\n"),
        ("renumber --schema -", "either the input or the descriptor set can come from the standard input\n"),
        ("renumber --schema /nothing", "/nothing: No such file or directory (os error 2)\n"),
        (f"renumber --schema {made} /nothing", "/nothing: No such file or directory (os error 2)\n"),
        (f"show --schema {made} --protocol auto", "--protocol auto reads payloads by the protocol's own description, "
         "and not by a descriptor set\n"),
        (f"show --schema {made} --where offset:3", "--where: size: and offset: count bytes at the protocol's own "
         "numbers, and not by a descriptor set\n"),
        (f"show --schema {made} --rename A=Value", "--rename A=Value: there is no message A there; did you mean "
         "ErrorMessage, Failure, MetadataEntry?\n"),
    ):
        program.ends(words, "", f"journal {words.split()[0]}: {said}", 2, given=theirs)
    long = "GetLazyStateCommand at offset 0: 3 bytes of payload, more than the limit of 2\n"
    program.ends(f"renumber --max-message 2 --schema {made}", "", f"journal renumber: {long}", 1, given=theirs)
    program.ends(f"show --max-message 2 --schema {made}", "", f"journal show: -: {long}", 1, given=theirs)
    # the payload has two bytes at the protocol's numbers
    program.ends(f"show --max-message 3 --commands --to 0 --schema {made}",
                 "#0 GetLazyStateCommand\nopen id 7: #0 GetLazyStateCommand\n", given=theirs)
    no_stream = program.run(f"renumber --schema {made}", b'{"offset":0}\n')
    is_said = no_stream.status == 1 and b"journal make turns it into a stream" in no_stream.err
    check.case("renumber of a dump", is_said, no_stream)


def shown(check: checks.Check, program: Program, made: pathlib.Path) -> None:
    """Streams at other numbers are shown, and their fields written, as the same ones at the protocol's own."""
    by = Renumbering(check, program, made)
    for name, fields in HAS.items():
        ours = (STREAMS / name).read_bytes()
        theirs = by.written(ours)
        for words in ("", "--commands", "--open", "--where type:call", "--from 1 --to 2"):
            pair = program.run(f"show {words}", ours), program.run(f"show {words} {by.words}", theirs)
            check.case(f"show {words} --schema, {name}", pair[0] == pair[1] and not pair[0].status, pair)
        for words in ASKED:
            pair = program.run(f"get - {words}", ours), program.run(f"get {by.words} - {words}", theirs)
            has = (pair[0].status, bool(pair[0].out)) == ((0, True) if words in fields else (1, False))
            check.case(f"get {words} --schema, {name}", has and pair[0] == pair[1], pair)
        cut = program.run(f"show {by.words}", theirs + b"\4\0\0")
        said = f"journal show: offset {len(theirs)}: 3 bytes after the last whole item\n".encode()
        check.case(f"show --schema, {name} with trailing bytes", (cut.status, cut.err) == (0, said), cut)


def compared(check: checks.Check, program: Program, made: pathlib.Path) -> None:
    """A difference is one by the protocol, or else in what only the set has; a dump has names whatever the set."""
    # a time, and why, which the protocol does not have; the key of another command
    for name, code, payload in (
        ("one", 0x040C, b"\x40\5\xfa\1\1a"),
        ("two", 0x040C, b"\x40\5\xfa\1\2bc"),
        ("recorded", 0x0402, b"\x1a\1k"),
        ("replayed", 0x0402, b"\x1a\1l"),
    ):
        (check.work / name).write_bytes(schema.frame_of(code, payload))
    said = 'command 0: SleepCommand differs in what the protocol has no field for:\n   reason: "a" != "bc"\n'
    program.ends(f"diff --schema {made} {check.work}/one {check.work}/two", said, status=1)
    differs = program.run(f"diff --json --schema {made} {check.work}/recorded {check.work}/replayed")
    fields = json.loads(differs.out).get("fields") if differs.out else None
    wanted = [{"name": "key", "recorded": "'k'", "replayed": "'l'"}]
    check.case("diff --json --schema, of a field that both have", fields == wanted, differs)
    dump = check.work / "dump"
    dump.write_bytes(program.run("dump", (STREAMS / "recorded").read_bytes()).out)
    program.ends(f"diff --input dump --schema {made} {dump} {dump}", "same, 4 commands\n")


def main(check: checks.Check) -> None:
    check.needs("protoc", "protobuf-compiler")
    program = Program(check, "journal")
    sets = descriptions(check)
    other, renumbered = sets["other"][0], sets["by_names"][0]
    vectors(check, program, renumbered)
    malformed(check, program, other)
    arguments(check, program, other)
    shown(check, program, renumbered)
    compared(check, program, other)
    random_messages(check, program, sets)


if __name__ == "__main__":
    checks.perform(main)
