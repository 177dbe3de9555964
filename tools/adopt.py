#!/usr/bin/env python3
"""Takes the numbers of a runtime's own .proto file, on a copy: scripts/adopt.sh [OPTION..] THEIR.proto [OUT]

It matches messages and fields by their names, whatever they are within, and tells what is the same, renumbered, only
there, only here and of another kind; then what is lost, what is read otherwise than there, what a person decides, and
what is only here. Then it copies this repository to OUT (adopted), writes the description there with their numbers and
what only they have, generates what repeats it, builds the programs without proofs, and dumps a stream of each of their
messages, which protoc makes with their file. It needs python3, protoc, git and, from generating on, the Rattle
toolchain. Nothing here is changed.

    --table               only says that, and writes nothing
    --all                 shows the fields that are the same, too
    --no-build            ends before the programs are built
    --programs NAMES      builds these, of journal,journal_list
    --stream FILE         dumps this stream of theirs, too; its faults are in the status
    --rename THEIRS=OURS  messages, or fields as Message.field, that are called otherwise there; may be repeated
    --proto-path FOLDER   where what their file imports is looked for, besides its own folder; may be repeated

A code is what a comment above a message, or after its opening brace, says as 'Type: 0x0400 + 2'. The status is 1 if
the description, the programs or a dump are not as they should be, and 2 if their file or an argument is rejected.
"""
import argparse
import json
import pathlib
import re
import subprocess
import sys

sys.dont_write_bytecode = True

from adoption import copying, sample  # noqa: E402
from adoption.adoption import Adoption  # noqa: E402
from adoption.pairs import EXAMPLES  # noqa: E402
from generators import Refused, descriptors, proto  # noqa: E402

PROGRAMS = ("journal", "journal_list")

NEXT = """
Next, in {out}:
  git diff proto/                               what the description is now
  sh scripts/run.sh journal dump {stream:14} a stream of theirs; without proofs it is slow
  sh scripts/check.sh conformance generated     the test vectors have these numbers, and all that repeats them
  sh scripts/check.sh table                     what hand-written tables do not say yet (new fields of commands)
  sh scripts/test.sh --quick                    the tests that say lengths, orders or numbers of before; CHANGING.md
  rt all check                                  proves the library for these numbers, or says where not, in hours
  sh scripts/install.sh DIR                     installs the proved programs"""


def fail(text):
    print(f"adopt: {text}", file=sys.stderr)
    sys.exit(2)


# What is asked for.


def arguments():
    parser = argparse.ArgumentParser(usage=__doc__, add_help=False)
    parser.add_argument("theirs", type=pathlib.Path)
    parser.add_argument("out", type=pathlib.Path, nargs="?", default=pathlib.Path("adopted"))
    for flag in ("--table", "--all", "--no-build"):
        parser.add_argument(flag, action="store_true")
    parser.add_argument("--programs", type=lambda names: names.split(","), default=[*PROGRAMS])
    parser.add_argument("--stream", type=pathlib.Path)
    parser.add_argument("--rename", action="append", default=[])
    parser.add_argument("--proto-path", type=pathlib.Path, action="append", default=[])
    return parser.parse_args()


def check(asked):
    """Rejects what cannot be done, before anything is."""
    if not asked.theirs.is_file():
        fail(f"there is no file {asked.theirs}")
    if lacks := proto.without_protoc():
        fail(lacks)
    if bad := [word for word in asked.rename if not re.fullmatch(r"[\w.]+=[\w.]+", word)]:
        fail(f"--rename {bad[0]} is not THEIRS=OURS")
    if bad := [name for name in asked.programs if name not in PROGRAMS]:
        fail(f"there is no program {bad[0]}; there are {', '.join(PROGRAMS)}")
    if asked.stream and not asked.stream.is_file():
        fail(f"--stream: there is no file {asked.stream}")
    if asked.stream and (asked.table or asked.no_build or "journal" not in asked.programs):
        fail("--stream is dumped by the program journal, which is not built with --table, --no-build or --programs "
             "without it")
    if not asked.table and asked.out.exists() and not (asked.out.is_dir() and not any(asked.out.iterdir())):
        fail(f"{asked.out} exists already, and is not empty: name another folder")


def read(asked):
    """What comes of their file and of ours."""
    proto.messages()
    theirs = descriptors.read(asked.theirs, asked.proto_path, with_imports=True)
    adoption = Adoption(proto.description(), theirs, asked.rename)
    if not adoption.pairs.found:
        fail(f"no message of {asked.theirs} is called as one of {proto.SOURCE}; --rename says which are the same")
    adoption.match()
    return adoption, theirs


def advice(asked, problems):
    """What may help with what protoc says of their file."""
    if any(problem.endswith(": File not found.") for problem in problems):
        yield "--proto-path FOLDER says where what it imports is"
    text = asked.theirs.read_text(encoding="utf-8", errors="replace")
    if re.search(r"^\s*edition\s*=", text, re.M) and any("protoc: " in problem for problem in problems):
        version = subprocess.run(["protoc", "--version"], capture_output=True, text=True).stdout.strip()
        yield f"the file has an edition, for which this protoc ({version}) is too old"


# Programs.


def built(out, name):
    """The process that builds a program without proofs."""
    words = ["sh", out / "scripts" / "program.sh", "--unproved", name]
    return subprocess.Popen(words, stdout=subprocess.PIPE, stderr=subprocess.PIPE, text=True)


def build(out, names):
    """Builds programs, two at a time; the names of those that are not built."""
    waiting, running, failed = list(names), [], []
    while waiting or running:
        while waiting and len(running) < 2:
            name = waiting.pop(0)
            running.append((name, built(out, name)))
        name, process = running.pop(0)
        _, err = process.communicate()
        if process.returncode == 0:
            print(f"built {name}, without proofs", flush=True)
        else:
            failed.append(name)
            print(f"adopt: {name} is not built:\n{err.strip()[-4000:]}", file=sys.stderr, flush=True)
    return failed


def dumped(out, file, version):
    """How the dump of a stream ends, which is in error where something of it is malformed."""
    words = ["sh", out / "scripts" / "run.sh", "journal", "dump", "--strict", "--protocol", str(version), file]
    return subprocess.run(words, capture_output=True, text=True)


def write_stream(asked, adoption, theirs, described):
    """Writes a stream of each of their messages into the copy, and what its dump has; that, too."""
    stream, expected = sample.stream_of(adoption, theirs, asked.theirs, described, asked.proto_path)
    (asked.out / "theirs.stream").write_bytes(stream)
    lines = (json.dumps({"type": name, "message": shown}) + "\n" for name, shown in expected)
    (asked.out / "theirs.json").write_text("".join(lines), encoding="utf-8")
    print(f"{asked.out}/theirs.stream: {len(expected)} messages, made by protoc with {asked.theirs.name}")
    return expected


def tried(asked, expected, version):
    """Builds the programs, and dumps the stream as one of this version; the status."""
    failed = build(asked.out, asked.programs)
    if "journal" not in asked.programs or "journal" in failed:
        return 1 if failed else 0
    ended = dumped(asked.out, asked.out / "theirs.stream", version)
    print("\n".join(ended.stdout.splitlines()[:3]))
    wrong = list(sample.compared(ended.stdout, expected))
    for line in wrong:
        print(f"failed: {line}")
    if not ended.stdout:
        print(ended.stderr, file=sys.stderr)
    print(
        f"{len(expected) - len(wrong)} passed, {len(wrong)} failed: messages of theirs whose dump has what protoc wrote"
    )
    is_bad = dump_theirs(asked, version) if asked.stream else False
    return 1 if wrong or failed or is_bad else 0


def dump_theirs(asked, version):
    """Dumps the stream that was named; whether something of it is not read."""
    ended = dumped(asked.out, asked.stream, version)
    print(ended.stdout, end="")
    print(ended.stderr, end="", file=sys.stderr)
    if ended.returncode != 0:
        print(f"failed: the dump of {asked.stream} ends with {ended.returncode}")
    return ended.returncode != 0


def main():
    if sys.argv[1:] in ([], ["--help"], ["-h"]):
        print(__doc__.strip())
        return 0 if sys.argv[1:] else 2
    asked = arguments()
    check(asked)
    try:
        adoption, theirs = read(asked)
    except Refused as refused:
        fail("\n".join([*refused.problems, *advice(asked, refused.problems)]))
    try:
        text = adoption.checked()
    except Refused as refused:
        print(adoption.report(asked.all))
        print("adopt: no description comes of it:\n" + "\n".join(refused.problems), file=sys.stderr)
        return 1
    print(adoption.report(asked.all))
    return 0 if asked.table else adopt(asked, adoption, theirs, text)


def adopt(asked, adoption, theirs, text):
    """Makes the copy and tries it; the status."""
    try:
        described = copying.made(asked.out, asked.theirs.name, text, adoption)
        copying.generate(asked.out)
        expected = write_stream(asked, adoption, theirs, described)
    except Refused as refused:
        print("adopt: " + "\n".join(refused.problems), file=sys.stderr)
        return 1
    version = adoption.version()
    status = 0 if asked.no_build else tried(asked, expected, version)
    print(NEXT.format(out=asked.out, stream=f"--protocol {version} STREAM" if version != EXAMPLES else "STREAM"))
    return status


if __name__ == "__main__":
    sys.exit(main())
