#!/usr/bin/env python3
"""journal_list on the examples, in chunks of all sizes, and under bounds of address space.

Standard output, the whole of standard error and the status are compared. failures.py has wrong arguments, and inputs
and outputs that fail.
"""
from __future__ import annotations

import os
import subprocess

import checks
from programs import STREAMS, Program, go_to_streams, text_of

REPLAY = text_of("replay.stdout")
UNKNOWN = text_of("unknown_type.stdout")
# at v9 an unknown message is skipped with its payload
SKIPPED = "skipped 0x8 8\nrest 0\n"

# Words in addition to those of the examples, and the listing; the standard input is the stream replay.
CASES = (
    ("./replay", REPLAY),
    ("./replay 3", REPLAY),
    ("-", REPLAY),
    ("- 3 v9", REPLAY),
    ("--protocol 5", REPLAY),
    ("--protocol=7 - 1", REPLAY),
    ("./unknown_type", UNKNOWN),
    ("./unknown_type v9", SKIPPED),
    ("./unknown_type 7 v9", SKIPPED),
    ("--protocol 9 ./unknown_type", SKIPPED),
    ("./unknown_type 7 --protocol 9", SKIPPED),
    ("./3 v9", SKIPPED),
    ("--max-message 19 ./replay", REPLAY),
    ("--max-message 0 ./unknown_type", UNKNOWN),
)

# The same where a message is longer than the limit, and the message that is.
TOO_LONG = (
    ("--max-message 18 ./replay", "", "Start at offset 0: 19 bytes of payload, more than the limit of 18"),
    *(
        (
            f"--max-message 26 ./recorded {size}",
            "InputCommand 9\nSetStateCommand 14\n",
            "CallCommand at offset 39: 27 bytes of payload, more than the limit of 26",
        )
        for size in ("", "1", "47", "65536")
    ),
    (
        "--max-message 7 ./unknown_type v9",
        "",
        "unknown protocol.message code 0x8 at offset 0: 8 bytes of payload, more than the limit of 7",
    ),
)

# Seventy thousand bytes of messages Start without a payload, one per line of a listing.
STARTS = bytes(70000)

# What is left of a stream for the next command where the program stops at its first line.
LEFT = (
    ("1", 29, "replay"),
    ("00003", 29, "replay"),
    ("20", 16, "replay"),
    ("56", 0, "replay"),
    ("", 65904, "starts"),
    ("65536", 4464, "starts"),
)

# Bounds of address space, in KiB: from one under which the program cannot start to one under which it succeeds.
BOUNDS = range(512, 8192 + 1, 256)


def listings(lister: Program) -> None:
    """Each stream in chunks of the default size, of its own and of others: the listing is the same."""
    for file in sorted(STREAMS.glob("*.stdout")):
        arguments = STREAMS / f"{file.stem}.args"
        own = arguments.read_text().split() if arguments.exists() else []
        for size in ("", *own, "1", "7", "65536"):
            lister.ends(size, file.read_bytes(), given=file.stem, what=f"< {file.stem}")
    for size in ("", "1", "7", "65536"):
        lister.ends(f"{size} v9", SKIPPED, given="unknown_type", what="< unknown_type")
        lister.ends(f"{size} v9", REPLAY)


def bytes_left(lister: Program) -> None:
    """With a closed output the program stops at the first line, which the first message of 27 bytes makes: the chunks
    that it has read by then show their size by what is left."""
    for size, left, stream in LEFT:
        with open(stream, "rb", buffering=0) as given:
            ended = subprocess.run([lister.path, *size.split()], stdin=given, preexec_fn=lambda: os.close(1),
                                   stderr=subprocess.PIPE)
            found = len(given.read())
        is_right = (ended.returncode, found) == (1, left)
        lister.check.case(f"journal_list {size} < {stream}: {left} bytes left unread", is_right, f"{found}: {ended}")


def bounds(check: checks.Check, lister: Program) -> None:
    """Under each bound it writes the whole listing, or that it is out of memory after whole lines."""
    stream = (STREAMS / "replay").read_bytes() + b"\x04\0\0\0\0\x10\0\0" + bytes(1 << 20) + STARTS
    lines = REPLAY.splitlines(keepends=True)[:-1] + ["InputCommand 1048576\n", *["Start 0\n"] * 8750, "rest 0\n"]
    listing = "".join(lines).encode()
    rejected = listed = 0
    for bound in BOUNDS:
        run = lister.run(given=stream, kibibytes=bound)
        name = f"{bound} KiB of address space"
        is_whole = run == checks.Run(0, listing, b"")
        is_beginning = listing.startswith(run.out) and (not run.out or run.out.endswith(b"\n"))
        if is_whole or (run.status, run.err, is_beginning) == (1, b"journal_list: out of memory\n", True):
            check.case(name, True)
            listed += is_whole
            rejected += not is_whole
        elif rejected or listed or run.out or 0 <= run.status <= 125:
            # only where it has not run at less it may be that it cannot start: then the loader ends it
            check.case(name, False, run)
    check.case(f"bounds: {rejected} too low to list, {listed} enough", bool(rejected and listed))


# Sizes as they are given, and in bytes.
SIZES = {
    "1048576": 1048576, "+7": 7, "0kB": 0, "64kB": 64_000, "1MB": 1_000_000, "4GB": 4_000_000_000, "64KiB": 65_536,
    "1MiB": 1_048_576, "+3GiB": 3_221_225_472, "4194303KiB": 4_294_966_272, "007MB": 7_000_000,
}  # fmt: skip


def main(check: checks.Check) -> None:
    replay = (STREAMS / "replay").read_bytes()
    lister = Program(check, "journal_list", "replay")
    unknown = (STREAMS / "unknown_type").read_bytes()
    go_to_streams(check, {"starts": STARTS, "3": unknown, "long": replay * 16384})
    listings(lister)
    helped = lister.run("--help")
    check.case("journal_list --help in 80 columns", helped.status == 0 and checks.is_narrow(helped.out), helped)
    for words, listing in CASES:
        lister.ends(words, listing)
    for words, listing, message in TOO_LONG:
        lister.ends(words, listing, f"journal_list: {message}\n", 1)
    # of 4 GiB that are announced no byte is waited for
    for size, limit in SIZES.items():
        lister.ends(f"--max-message {size}", "", "journal_list: InputCommand at offset 0: 4294967295 bytes of payload,"
                    f" more than the limit of {limit}\n", 1, given=b"\x04\0\0\0\xff\xff\xff\xff")
    *lines, _ = REPLAY.splitlines(keepends=True)
    lister.ends("1", "".join([*lines * 16384, "rest 0\n"]), given="long", what="< long")
    bytes_left(lister)
    bounds(check, lister)


if __name__ == "__main__":
    checks.perform(main)
