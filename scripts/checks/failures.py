#!/usr/bin/env python3
"""The programs where arguments are wrong, and where an input, the output or memory fails: one table for all of them.

Standard output, the whole of standard error and the status are compared, of the proved programs.
"""
from __future__ import annotations

import os
import pathlib
import re
import subprocess

import checks
from programs import Program, Words, go_to_streams, text_of

# The status of each program where an input, its output or an allocation fails, the words and the standard input with
# which it writes something, and what it writes.
FAILURE = {"journal_list": 1, "journal_diff": 2, "journal_dump": 1, "journal_make": 2, "journal_show": 1}
WORKS = {
    "journal_list": ("", "replay"),
    "journal_diff": ("recorded recorded", "recorded"),
    "journal_dump": ("", "replay"),
    "journal_make": ("", "replay.dump"),
    "journal_show": ("", "replay"),
}

NOTHING = "No such file or directory (os error 2)"
NO_TEXT = b"\xff"

# Arguments with which a program ends with status 2, and the whole of what it says.
BARE = ("0", "65537", "3 3", "x", ("",), "000003", "v9 3", "v9 v9", "V9", "v8", "nothing", "3 v9 nothing")
NAMED: tuple[tuple[str, Words, str], ...] = (
    *(("journal_list", words, "usage: journal_list [1..65536] [v9]") for words in BARE),
    ("journal_list", "./nothing", f"journal_list: ./nothing: {NOTHING}"),
    ("journal_list", ".", "journal_list: .: is a directory"),
    ("journal_list", "folder 3 v9", "journal_list: folder: is a directory"),
    ("journal_diff", "recorded nothing", f"journal_diff: nothing: {NOTHING}"),
    ("journal_diff", ". recorded", "journal_diff: .: is a directory"),
    ("journal_diff", "recorded .", "journal_diff: .: is a directory"),
    ("journal_diff", ("recorded", NO_TEXT), "journal_diff: an argument is not UTF-8"),
    ("journal_dump", "nothing", f"journal_dump: nothing: {NOTHING}"),
    ("journal_dump", ".", "journal_dump: .: is a directory"),
    ("journal_dump", (NO_TEXT,), "journal_dump: an argument is not UTF-8"),
    ("journal_make", "nothing", f"journal_make: nothing: {NOTHING}"),
    ("journal_make", ".", "journal_make: .: is a directory"),
    ("journal_make", (NO_TEXT,), "journal_make: an argument is not UTF-8"),
    ("journal_show", "nothing", f"journal_show: nothing: {NOTHING}"),
    ("journal_show", ".", "journal_show: .: is a directory"),
    ("journal_show", (NO_TEXT,), "journal_show: an argument is not UTF-8"),
)

# Arguments that are rejected, and a part of the error, which begins with 'error: '; a line of it ends with its newline.
AFTER_FILE = "error: after FILE come BYTES, from 1 to 65536, and v9, or one of them, or neither\n"
TYPES = "no type has the name"
SIZES = "error: --max-message takes a number of bytes up to 4294967295, as 4096, 64kB or 1MiB\n"
NO_SIZES = ("kB", "1kb", "1K", "1 kB", "1.5MB", "0x10", "5GB", "4GiB", "4295MB", "4294967296", "1kBkB")
REJECTED: tuple[tuple[str, Words, str], ...] = (
    ("journal_list", "--protocol 4 ./replay", "error: invalid value '4' for '--protocol <VERSION>'\n"),
    ("journal_list", "--type Start", "error: unexpected argument '--type' found\n"),
    ("journal_list", "./replay 0", AFTER_FILE),
    ("journal_list", "./replay 3 v9 more", "error: unexpected argument 'more' found\n"),
    ("journal_list", "--protocol 9 ./replay 0", AFTER_FILE),
    ("journal_list", "--max-message 4294967296 ./replay", SIZES),
    ("journal_dump", ("--max-message", "", "replay"), SIZES),
    *(("journal_dump", ("--max-message", size, "replay"), SIZES) for size in NO_SIZES),
    ("journal_diff", "--max-message 4294967296 recorded recorded", SIZES),
    ("journal_diff", "--max-message -1 recorded recorded", "error: "),
    (
        "journal_list",
        "--protocol 9 ./replay v9",
        "error: the version is said by v9 or by --protocol, and not by both\n",
    ),
    ("journal_list", "--protocol 9 ./replay v9", "\nUsage: journal_list [OPTIONS] [FILE] [BYTES] [v9]\n"),
    ("journal_diff", "", "<RECORDED>"),
    ("journal_diff", "recorded", "<REPLAYED>"),
    ("journal_diff", "- -", "only one journal can come from the standard input"),
    ("journal_diff", "--protocol 4 recorded recorded", "invalid value '4' for '--protocol <VERSION>'"),
    ("journal_diff", "recorded recorded other", "unexpected argument 'other'"),
    ("journal_diff", "--color red recorded recorded", "invalid value 'red' for '--color <WHEN>'"),
    ("journal_diff", "--values long recorded recorded", "invalid value 'long' for '--values <HOW>'"),
    ("journal_diff", "--all --verdict recorded recorded", "--all prints what moved instead of the verdict"),
    ("journal_dump", "--protocol 4 replay", "invalid value '4' for '--protocol <VERSION>'"),
    ("journal_dump", "--protocol 4 replay", "[possible values: 5, 6, 7, 8, 9, auto]"),
    ("journal_dump", "--type Nothing replay",
     f"{TYPES} 'Nothing'; names are those of a dump, as InputCommand or CustomEntry(64513)"),
    ("journal_dump", "--type input replay", f"{TYPES} 'input'; did you mean InputCommand?"),
    ("journal_dump", "--type Strat replay", f"{TYPES} 'Strat'; did you mean Start?"),
    ("journal_dump", "--type SetStatCommandMessage replay",
     f"{TYPES} 'SetStatCommandMessage'; did you mean SetStateCommand?"),
    # three names at most, and the nearest first
    ("journal_dump", "--type Promise replay",
     f"{TYPES} 'Promise'; did you mean GetPromiseCommand, PeekPromiseCommand, CompletePromiseCommand?\n"),
    ("journal_dump", "--type PeekPromiseComand replay",
     f"{TYPES} 'PeekPromiseComand'; did you mean PeekPromiseCommand, GetPromiseCommand?\n"),
    *(("journal_dump", ("--type", name, "replay"), f"{TYPES} '{name}'")
      for name in ("CustomEntry", "CustomEntry(64513", "CustomEntry(64513) ", "",
                   *(f"CustomEntry({code})" for code in ("65536", "0", "8", "1024", "064513", "+64513", "")))),
    ("journal_dump", "--type Start,Nothing replay", f"{TYPES} 'Nothing'"),
    ("journal_dump", "--type", "a value is required for '--type <NAME>'"),
    ("journal_dump", "replay other", "unexpected argument 'other'"),
    ("journal_dump", "--payload", "unexpected argument '--payload'"),
    ("journal_make", "--protocol 4 replay", "invalid value '4' for '--protocol <VERSION>'"),
    ("journal_make", "--protocol 4 replay", "[possible values: 5, 6, 7, 8, 9]"),
    ("journal_make", "replay other", "unexpected argument 'other'"),
    ("journal_make", "--type", "unexpected argument '--type'"),
)

# Words with which a program reads its standard input, and what it says where that fails.
READS = (
    ("journal_list", "", "input failed"),
    ("journal_diff", "- recorded", "reading the recorded journal failed"),
    ("journal_diff", "recorded -", "reading the replayed journal failed"),
    ("journal_dump", "", "input failed"),
    ("journal_make", "", "input failed"),
    ("journal_show", "", "input failed"),
)

# How often a stream is there where its output is more than 100 KiB.
LIST_TIMES, DUMP_TIMES, MAKE_TIMES = 16384, 2000, 3000
FILE_SIZE = 100 << 10


def later(line: str, by: int) -> str:
    """The line of a dump, of an item that comes later in its stream."""
    return re.sub(r"(?<=^{\"offset\":)\d+", lambda offset: str(int(offset[0]) + by), line)


def long_outputs() -> dict[str, tuple[str, bytes]]:
    """What programs read that write more than 100 KiB, and all that they write."""
    stream = pathlib.Path("replay").read_bytes()
    *listed, _ = text_of("replay.stdout").splitlines(keepends=True)
    *dumped, rest = text_of("replay.dump").splitlines(keepends=True)
    dump = [later(line, number * len(stream)) for number in range(DUMP_TIMES) for line in dumped]
    dump.append(later(rest, (DUMP_TIMES - 1) * len(stream)))
    pathlib.Path("long").write_bytes(stream * LIST_TIMES)
    pathlib.Path("many").write_bytes(stream * DUMP_TIMES)
    pathlib.Path("lines").write_text(text_of("replay.dump") * MAKE_TIMES)
    ends = 8 * FILE_SIZE // len("#0 End\n")
    pathlib.Path("ends").write_bytes(b"\0\x03\0\0\0\0\0\0" * ends)
    return {
        "journal_show": ("ends", "".join(f"#{index} End\n" for index in range(ends)).encode()),
        "journal_list": ("long", "".join([*listed * LIST_TIMES, "rest 0\n"]).encode()),
        "journal_dump": ("many", "".join(dump).encode()),
        "journal_make": ("lines", stream * MAKE_TIMES),
    }


def arguments(programs: dict[str, Program]) -> None:
    """Wrong arguments, and the help and the version."""
    for name, words, line in NAMED:
        programs[name].ends(words, err=f"{line}\n", status=2, given="/dev/null")
    for name, words, part in REJECTED:
        run = programs[name].run(words, given="/dev/null")
        is_right = run.status == 2 and not run.out and run.err.startswith(b"error: ") and part.encode() in run.err
        programs[name].check.case(f"{name} {words}, rejected: {part}", is_right, run)
    # arguments that are not UTF-8 are an input that fails, for journal_list
    for words in ((NO_TEXT,), ("3", NO_TEXT)):
        programs["journal_list"].ends(words, err="journal_list: input failed\n", status=1)
    programs["journal_list"].ends("0", status=2, closed=[2], what="with a closed standard error")
    for name, program in programs.items():
        program.ends("--version", f"{name} {checks.library_version()}\n")
        run = program.run("--help")
        is_right = run.status == 0 and re.search(f"^Usage: {name}".encode(), run.out, re.M) and not run.err
        program.check.case(f"{name} --help", bool(is_right), run)
        for word in ("--help", "--version"):
            line = f"{name}: output failed\n"
            program.ends(word, err=line, status=FAILURE[name], closed=[1], what="with a closed output")


def inputs(programs: dict[str, Program]) -> None:
    """An input that is a folder, or closed; where the standard error fails as well, the status stays."""
    for name, words, why in READS:
        said, status = f"{name}: {why}\n", FAILURE[name]
        programs[name].ends(words, err=said, status=status, given=".", what="of a folder")
        programs[name].ends(
            words, status=status, given=".", closed=[2], what="of a folder, with a closed standard error"
        )
        programs[name].ends(words, err=said, status=status, closed=[0], what="of a closed input")


def outputs(programs: dict[str, Program]) -> None:
    """An output that is closed, or full from its first byte on, and one that its reader closed before the first write,
    which is not reported: the program has the signal SIGPIPE ignored."""
    long = [(name, "", given) for name, (given, _) in long_outputs().items()]
    for name, words, given in [*((name, *how) for name, how in WORKS.items()), *long]:
        how = {"err": f"{name}: output failed\n", "status": FAILURE[name], "given": given}
        programs[name].ends(words, **how, closed=[1], what=f"< {given}, with a closed output")
        with open("/dev/full", "wb") as full:
            programs[name].ends(words, **how, stdout=full, what=f"< {given}, with a full output")
        reader, writer = os.pipe()
        os.close(reader)
        programs[name].ends(words, **{**how, "err": ""}, stdout=writer, what=f"< {given}, with a reader that is gone")
        os.close(writer)


def shortened_outputs(check: checks.Check, programs: dict[str, Program]) -> None:
    """An output that is full in the middle of a long one, and a reader that ends after three lines."""
    for name, (given, expected) in long_outputs().items():
        program = programs[name]
        program.ends("", expected, given=given, what="of a long input")
        with open("full", "wb") as full:
            run = program.run(given=given, stdout=full, file_size=FILE_SIZE)
        written = pathlib.Path("full").read_bytes()
        is_beginning = expected.startswith(written) and 0 < len(written) < len(expected) and written[-1:] != b"\n"
        said = checks.Run(FAILURE[name], b"", f"{name}: output failed\n".encode())
        shown = f"{len(written)} bytes, {'a' if is_beginning else 'no'} beginning, {run}"
        check.case(f"{name} and an output that is full in the middle", run == said and is_beginning, shown)
        with open(given, "rb") as stream, subprocess.Popen(
            [program.path], stdin=stream, stdout=subprocess.PIPE, stderr=subprocess.PIPE
        ) as process:
            lines = b"".join(process.stdout.readline() for _ in range(3))
            process.stdout.close()
            run = checks.Run(process.wait(), lines, process.stderr.read())
        first = b"".join(expected.splitlines(keepends=True)[:3])
        check.case(f"{name} and a reader that ends", run == checks.Run(FAILURE[name], first, b""), run)


def memory(programs: dict[str, Program]) -> None:
    """After an input begins a message of 4 GiB, and 128 MiB of address space do not hold the 192 MiB of it that come;
    what is written of the items before it is there."""
    promise = b"\x04\0\0\0\xff\xff\xff\xff" + bytes(192 << 20)
    *lines, _ = text_of("replay.dump").splitlines(keepends=True)
    for name, words, before, out in (
        ("journal_list", "65536", b"", ""),
        ("journal_diff", "- recorded", b"", ""),
        ("journal_dump", "", pathlib.Path("replay").read_bytes(), "".join(lines)),
        ("journal_show", "", b"\0\x03\0\0\0\0\0\0", "#0 End\n"),
    ):
        how = {"err": f"{name}: out of memory\n", "status": FAILURE[name], "what": "with little memory"}
        programs[name].ends(words, out, **how, given=before + promise, kibibytes=128 << 10)


def main(check: checks.Check) -> None:
    programs = {name: Program(check, name) for name in FAILURE}
    go_to_streams(check)
    os.mkdir("folder")
    arguments(programs)
    inputs(programs)
    outputs(programs)
    shortened_outputs(check, programs)
    memory(programs)


if __name__ == "__main__":
    checks.perform(main)
