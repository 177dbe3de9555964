#!/usr/bin/env python3
"""replayed.py COMMAND..: an example that checks a replay prints what examples/replays.txt has.

The command is one of the examples named replay, which takes a recording and a version after these words, and the replay
on its standard input. Each comes whole, byte by byte, and in chunks of any size. The last line is 'N passed, M failed'.
"""
from __future__ import annotations

import pathlib
import random
import subprocess
import sys
import tempfile
import typing

import taken
import tally

ROOT = pathlib.Path(__file__).resolve().parent.parent.parent
STREAMS = ROOT / "examples/streams"

# An example that has not ended by then is one that waits: a bound for failures, and no measure of speed.
SECONDS = 600


class Case(typing.NamedTuple):
    """What is given to the example, and what it prints, ends with, and whether it reports the reason."""

    recorded: str
    replayed: str
    version: str
    status: int
    says_why: bool
    printed: str


def cases() -> list[Case]:
    """The cases: a line that begins with `>`, and what is printed."""
    found = []
    for block in (ROOT / "examples/replays.txt").read_text(encoding="utf-8").split("\n> ")[1:]:
        head, _, printed = block.partition("\n")
        recorded, replayed, version, status, *why = head.split()
        lines = [line for line in printed.split("\n") if not line.startswith("#")]
        text = "\n".join(lines).rstrip("\n")
        found.append(Case(recorded, replayed, version, int(status), why == ["why"], text + "\n" if text else ""))
    return found


def part(word: str) -> bytes:
    """The bytes of a word: a stream of examples/streams, or a part of it, as recorded:17-39, or those after `0x`."""
    if word.startswith("0x"):
        return bytes.fromhex(word[2:])
    name, _, place = word.partition(":")
    begin, _, end = place.partition("-")
    return (STREAMS / name).read_bytes()[int(begin or 0) : int(end) if end else None]


def stream(words: str) -> bytes:
    """The bytes of words that a plus sign joins; `-` is for none."""
    return b"" if words == "-" else b"".join(map(part, words.split("+")))


def run(words: list[str], replayed: bytes, sizes: typing.Callable[[], int]) -> tuple[int, str, str]:
    """The status of a command that a stream is given in chunks, and what it prints."""
    with subprocess.Popen(words, stdin=subprocess.PIPE, stdout=subprocess.PIPE, stderr=subprocess.PIPE) as process:
        assert process.stdin
        try:
            while replayed:
                size = sizes()
                process.stdin.write(replayed[:size])
                process.stdin.flush()
                replayed = replayed[size:]
                taken.until_taken(process, process.stdin)
        except BrokenPipeError:
            pass  # it ended before, as it may after a mismatch
        finally:
            try:
                process.stdin.close()
            except BrokenPipeError:
                pass
        process.stdin = None
        printed, why = process.communicate(timeout=SECONDS)
    return process.returncode, printed.decode(), why.decode()


def main(command: list[str]) -> int:
    tally.end_by_exception()
    passed = failed = 0
    ways = (lambda: 1 << 20, lambda: 1, lambda: random.choice((1, 7, 8, 9, 40)))
    with tempfile.TemporaryDirectory() as work:
        for case in cases():
            recording = pathlib.Path(work) / "recording"
            recording.unlink(missing_ok=True)
            if case.recorded != "missing":
                recording.write_bytes(stream(case.recorded))
            for sizes in ways:
                status, printed, why = run([*command, str(recording), case.version], stream(case.replayed), sizes)
                if (status, printed, bool(why)) == (case.status, case.printed, case.says_why):
                    passed += 1
                else:
                    failed += 1
                    print(f"failed: {case.recorded} {case.replayed}: status {status}\n{printed}{why}")
    print(f"{passed} passed, {failed} failed")
    return 1 if failed else 0


if __name__ == "__main__":
    sys.exit(main(sys.argv[1:]))
