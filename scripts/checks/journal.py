#!/usr/bin/env python3
"""The program journal: its subcommands by either name, its help, and what is not a subcommand.

It runs the proved program. `journal dump` and `journal_dump` have to do the same, except the name with which messages
begin and which the usage shows; so with journal make and journal diff.
"""
from __future__ import annotations

import json
import pathlib
import re
import subprocess

import checks
import crates
from programs import SET, STREAMS, go_to_streams

# The arguments of each subcommand, the status and the beginning of an error after the name; the input is a replay.
RUNS = {
    "list": (
        ((), 0, ""),
        (("--protocol", "9", "-"), 0, ""),
        (("--max-message", "1MB", "recorded"), 0, ""),
        (("--max-message=8", "recorded"), 1, ": InputCommand at offset 0: 9 bytes of payload, more than the limit"),
        (("replay.dump",), 0, ": no message in it; is it a journal of version 8?"),
        (("nothing",), 2, ": nothing: No such file or directory"),
        (("--max-message", "1mb"), 2, "--max-message takes a number of bytes up to 4294967295, as 4096, 64kB or 1MiB"),
        (("replay", "3"), 2, "unexpected argument '3'"),
        ((b"\xff",), 2, ": an argument is not UTF-8"),
        (("--help",), 0, ""),
        (("--version",), 0, ""),
    ),
    "show": (
        ((), 0, ""),
        (("--commands", "--from=1", "recorded"), 0, ""),
        (("--open", "--failures", "--protocol", "9", "-"), 0, ""),
        (("cut_short",), 0, ": offset 21: 8 bytes after the last whole item"),
        (("replay.dump",), 0, ": no message in it; is it a journal of version 8?"),
        (("--max-message=8", "recorded"), 1, ": InputCommand at offset 0: 9 bytes of payload, more than the limit"),
        (("nothing",), 2, ": nothing: No such file or directory"),
        (("--from", "-1"), 2, "unexpected argument '-1' found"),
        (("--to", "last"), 2, "--from and --to take the index of an item, from 0"),
        (("replay", "3"), 2, "unexpected argument '3'"),
        ((b"\xff",), 2, ": an argument is not UTF-8"),
        (("--help",), 0, ""),
        (("--version",), 0, ""),
    ),
    "dump": (
        ((), 0, ""),
        (("--text", "--no-payload", "--type", "Start,end"), 0, ""),
        (("--pretty", "-"), 0, ""),
        (("--strict", "cut_short"), 2, ": offset 21: 8 bytes after the last whole item"),
        (("nothing",), 2, ": nothing: No such file or directory"),
        (("--protocol", "4"), 2, "invalid value '4' for '--protocol <VERSION>'"),
        (("--type", "InputComand"), 2, "no type has the name 'InputComand'; did you mean InputCommand"),
        (("replay", "other"), 2, "unexpected argument 'other'"),
        (("--texts",), 2, "a similar argument exists: '--text'"),
        ((b"\xff",), 2, ": an argument is not UTF-8"),
        (("--help",), 0, ""),
        (("--version",), 0, ""),
    ),
    "make": (
        ((), 1, ": -:1: "),
        (("replay.dump",), 0, ""),
        (("--protocol=9", "--", "replay.dump"), 0, ""),
        (("nothing",), 2, ": nothing: No such file or directory"),
        (("--protocol", "10"), 2, "invalid value '10' for '--protocol <VERSION>'"),
        (("--type",), 2, "unexpected argument '--type'"),
        (("replay.dump", b"\xff"), 2, ": an argument is not UTF-8"),
        (("--help",), 0, ""),
        (("--version",), 0, ""),
    ),
    "diff": (
        (("replay", "--protocol=5", "-"), 0, ""),
        (("recorded", "replayed_other_payload"), 1, ""),
        (("--ignore-payloads", "--protocol", "9", "recorded", "replayed_other_payload"), 0, ""),
        (("--json", "--color", "never", "recorded", "replayed_other_handler"), 1, ""),
        (
            ("--strict", "cut_short", "recorded"),
            2,
            ": the recorded journal, offset 21: 8 bytes after the last whole item",
        ),
        (("cut_short", "recorded"), 1, ": the recorded journal has 8 bytes after its last whole item"),
        (("-", "-"), 2, "only one journal can come from the standard input"),
        (("recorded",), 2, "the following required arguments were not provided:\n  <REPLAYED>"),
        (("--protocol", "10", "recorded", "recorded"), 2, "invalid value '10' for '--protocol <VERSION>'"),
        (("--payloads", "recorded", "recorded"), 2, "unexpected argument '--payloads'"),
        ((b"\xff", "recorded"), 2, ": an argument is not UTF-8"),
        (("--help",), 0, ""),
        (("--version",), 0, ""),
    ),
    "cut": (
        (("recorded",), 0, ""),
        (("--to=1", "--protocol", "9", "./recorded"), 0, ""),
        (("--to", "3", "--", "recorded"), 0, ""),
        (("--to", "4", "recorded"), 1, ": recorded: no command 4: it has 4 commands, 0 to 3"),
        (("--from", "4", "recorded"), 1, ": recorded: no command 4: it has 4 commands, 0 to 3"),
        (("--from", "18446744073709551615", "recorded"), 1, ": recorded: no command 18446744073709551615: it has 4"),
        (("--protocol", "9", "--to", "0", "unknown_type"), 1, ": unknown_type: no command 0: it has no commands"),
        (("--from", "2", "--to", "1", "recorded"), 2, "--from comes after --to"),
        (("--from", "-1", "recorded"), 2, "error: "),
        (("--to", "18446744073709551616", "recorded"), 2, "--from and --to take the index of a command"),
        (("--max-message", "8", "recorded"), 2, ": recorded: InputCommand at offset 0: 9 bytes of payload"),
        (("cut_short",), 0, ": cut_short: offset 21: 8 bytes after the last whole item, left out"),
        (("replay.dump",), 1, ": no message in it; is it a journal of version 8?"),
        (("-",), 2, ": -: no file, and it is read twice"),
        (("/dev/null",), 2, ": /dev/null: no file, and it is read twice"),
        (("nothing",), 2, ": nothing: No such file or directory"),
        ((".",), 2, ": .: is a directory"),
        ((), 2, "the following required arguments were not provided:\n  <FILE>"),
        (("recorded", "replay"), 2, "unexpected argument 'replay'"),
        (("--help",), 0, ""),
        (("--version",), 0, ""),
    ),
    "cat": (
        (("recorded",), 0, ""),
        (("--protocol", "9", "replay", "recorded", "replay"), 0, ""),
        (("recorded", "cut_short"), 0, ": cut_short: offset 21: 8 bytes after the last whole item, left out"),
        (("recorded", "nothing"), 2, ": nothing: No such file or directory"),
        (("recorded", "-"), 2, ": -: no file, and it is read twice"),
        (("recorded", "replay.dump"), 1, ": no message in it; is it a journal of version 8?"),
        ((), 2, "the following required arguments were not provided:\n  <FILE>"),
        (("--to", "1", "recorded"), 2, "unexpected argument '--to'"),
        (("--help",), 0, ""),
        (("--version",), 0, ""),
    ),
    "redact": (
        ((), 0, ""),
        (("--key", "k", "--protocol=9", "recorded"), 0, ""),
        (("cut_short",), 0, ": offset 21: 8 bytes after the last whole item"),
        (("replay.dump",), 1, ": no message in it; is it a journal of version 8?"),
        (("--max-message=8", "recorded"), 1, ": InputCommand at offset 0: 9 bytes of payload, more than the limit"),
        (("nothing",), 2, ": nothing: No such file or directory"),
        (("replay", "3"), 2, "unexpected argument '3'"),
        ((b"\xff",), 2, ": an argument is not UTF-8"),
        (("--help",), 0, ""),
        (("--version",), 0, ""),
    ),
    "describe": (
        ((), 0, ""),
        (("--protocol", "9", "replay", "-"), 0, ""),
        (("cut_short",), 0, ": offset 21: 8 bytes after the last whole item"),
        (("--max-message=8", "recorded"), 1, ": InputCommand at offset 0: 9 bytes of payload, more than the limit"),
        (("nothing", "replay"), 2, ": nothing: No such file or directory"),
        (("--to", "1", "recorded"), 2, "unexpected argument '--to'"),
        ((b"\xff",), 2, ": an argument is not UTF-8"),
        (("--help",), 0, ""),
        (("--version",), 0, ""),
    ),
    "get": (
        (("-", "1", "value.content"), 0, ""),
        (("--protocol", "9", "recorded", "2", "parameter"), 0, ""),
        (("recorded", "2", "parametr"), 1, ": item 2: no field of it has the name 'parametr'; did you mean parameter?"),
        (("recorded", "5", "value"), 1, ": no item 5: the stream ends before it"),
        (("recorded", "last", "value"), 2, "ITEM is the index of an item, from 0"),
        (("nothing", "0", "value"), 2, ": nothing: No such file or directory"),
        (("recorded", "0"), 2, "the following required arguments were not provided:\n  <PATH>"),
        ((b"\xff",), 2, ": an argument is not UTF-8"),
        (("--help",), 0, ""),
        (("--version",), 0, ""),
    ),
    "explain": (
        ((), 0, ""),
        (("--at", "0", "--raw", "--protocol=9", "recorded"), 0, ""),
        (("cut_short",), 0, ""),
        (("--at", "999999", "recorded"), 1, ": no byte at 999999: the stream has "),
        (("--at", "-1", "recorded"), 2, "error: "),
        (("--at", "x", "recorded"), 2, "--at takes the offset of a byte, from 0"),
        (("--max-message=8", "recorded"), 1, ": InputCommand at offset 0: 9 bytes of payload, more than the limit"),
        (("nothing",), 2, ": nothing: No such file or directory"),
        (("replay", "3"), 2, "unexpected argument '3'"),
        (("--help",), 0, ""),
        (("--version",), 0, ""),
    ),
    "schema": (
        (("/dev/null",), 0, ""),
        (("nothing",), 2, ": nothing: No such file or directory"),
        (("replay",), 2, ": replay: not a descriptor set"),
        (("replay.dump",), 2, ": replay.dump: a text, and not a descriptor set, which this makes of a .proto file: "),
        (("replay", "other"), 2, "unexpected argument 'other'"),
        (("--protocol", "8"), 2, "unexpected argument '--protocol'"),
        ((b"\xff",), 2, ": an argument is not UTF-8"),
        (("--help",), 0, ""),
        (("--version",), 0, ""),
    ),
    "renumber": (
        (("--schema", "set"), 0, ""),
        (("--back", "--schema=set", "--protocol=9", "recorded"), 0, ""),
        (("--schema", "set", "cut_short"), 0, ": offset 21: 8 bytes after the last whole item"),
        (("--schema", "set", "replay.dump"), 1, ": no message in it; is it a journal of version 8?"),
        (("--schema", "set", "--max-message=8", "recorded"), 1,
         ": InputCommand at offset 0: 9 bytes of payload, more than the limit"),
        (("recorded",), 2, ": --schema FILE names the descriptor set"),
        (("--schema", "nothing"), 2, ": nothing: No such file or directory"),
        (("--schema", "set", "nothing"), 2, ": nothing: No such file or directory"),
        (("--schema", "replay"), 2, ": replay: not a descriptor set"),
        (("--schema", "/dev/null", "replay"), 2, ": /dev/null: no field of the protocol's messages"),
        (("--protocol", "auto"), 2, "invalid value 'auto' for '--protocol <VERSION>'"),
        (("--schema", "set", "replay", "3"), 2, "unexpected argument '3'"),
        ((b"\xff",), 2, ": an argument is not UTF-8"),
        (("--help",), 0, ""),
        (("--version",), 0, ""),
    ),
}

# What is not a subcommand, and what the error says of it.
NO_SUBCOMMAND = (
    (("view",), "journal view: the page is made by the program journal_view: journal_view [OPTION].. STREAM [OTHER]\n"),
    (("view", "--help"), "journal view: the page is made by the program journal_view"),
    (("lits",), "a similar subcommand exists: 'list'"),
    (("dmup",), "a similar subcommand exists: 'dump'"),
    (("journal_dump",), "unrecognized subcommand 'journal_dump'"),
    (("",), "unrecognized subcommand ''"),
    (("--type", "dump"), "unexpected argument '--type'"),
    (("--", "dump"), "dump"),
)

# By which names the program is which subcommand; by others it is none. The last component counts, without a slash at
# the end.
PATHS = {
    "journal_diff": "journal_diff",
    "./journal_diff": "journal_diff",
    "/a b/journal_diff": "journal_diff",
    "journal_diff/": "journal_diff",
    "journal_diff/other": None,
    "journal_": None,
    "other_journal_diff": None,
    "journal_list": None,
    "": None,
}


def items_of(stream: bytes) -> list[bytes]:
    """The items of a stream of messages, each with its header."""
    items = []
    while stream:
        end = 8 + int.from_bytes(stream[4:8], "big")
        items.append(stream[:end])
        stream = stream[end:]
    return items


class Journal:
    """The program, and the links to it."""

    def __init__(self, check: checks.Check):
        self.check = check
        self.path = check.program("journal")
        self.links = {name.removeprefix("journal_"): check.program(name) for name in crates.LINKS}
        self.given = (STREAMS / "replay").read_bytes()

    def run(self, *words: str | bytes | pathlib.Path) -> checks.Run:
        return checks.run(words, self.given)

    def both_names(self, name: str) -> None:
        """A subcommand does the same by both names, if it has two, and ends as it has to."""
        for words, status, error in RUNS[name]:
            by_word = self.run(self.path, name, *words)
            if name in self.links:
                by_link = self.run(self.links[name], *words)
                renamed = checks.Run(
                    by_link.status,
                    by_link.out.replace(f"journal_{name} ".encode(), f"journal {name} ".encode()),
                    by_link.err.replace(f"journal_{name}".encode(), f"journal {name}".encode()),
                )
                shown = f"{by_word}, and by the other name {by_link}"
                self.check.case(f"journal {name} and journal_{name} {words}", by_word == renamed, shown)
            start = f"journal {name}{error}" if error.startswith(":") else error
            is_right = by_word.status == status and start.encode() in by_word.err and (bool(error) == bool(by_word.err))
            self.check.case(f"journal {name} {words}", is_right, by_word)

    def helps(self) -> None:
        """The help names the subcommands and says where the rest is; a subcommand's help is that of --help."""
        ended = self.run(self.path, "--help")
        parts = (
            "Usage: journal <COMMAND>",
            *(f"\n  {name}  " for name in RUNS),
            "journal_view",
            "\nExamples:\n  journal list FILE ",
        )
        is_right = ended.status == 0 and not ended.err and all(part.encode() in ended.out for part in parts)
        self.check.case("journal --help", is_right, ended)
        self.check.case("journal --help in 80 columns", checks.is_narrow(ended.out), ended)
        named = re.findall(r"^  (\w+)  ", ended.out.decode(), re.M)
        linked = [name.removeprefix("journal_") for name in crates.LINKS]
        unlinked = ["cut", "cat", "redact", "describe", "get", "explain", "schema", "renumber", "help"]
        self.check.same("the subcommands, and the links to some", ["list", *linked, *unlinked], named)
        installed = checks.run(["sh", "-c", ". scripts/up_to_date.sh && echo $links"], cwd=checks.ROOT)
        self.check.same("the links that are installed", list(crates.LINKS), installed.out.decode().split())
        installed = checks.run(["sh", "-c", ". scripts/up_to_date.sh && echo $pages"], cwd=checks.ROOT)
        self.check.same("the pages that are installed", list(crates.PAGES), installed.out.decode().split())
        nothing = self.run(self.path)
        self.check.case("journal without arguments", nothing == checks.Run(2, b"", ended.out), nothing)
        version = f"journal {checks.library_version()}\n".encode()
        ended = self.run(self.path, "--version")
        self.check.case("journal --version", ended == checks.Run(0, version, b""), ended)
        for name in RUNS:
            asked, own = self.run(self.path, "help", name), self.run(self.path, name, "--help")
            self.check.case(
                f"journal help {name}", asked == own and f"Usage: journal {name} ".encode() in own.out, asked
            )
            self.check.case(f"journal help {name} in 80 columns", checks.is_narrow(own.out), own)
            has_examples = f"journal {name} ".encode() in own.out.partition(b"\nExamples:\n")[2]
            self.check.case(f"journal help {name} has examples", has_examples, own)
            ended = self.run(self.path, name, "--version")
            version = f"journal {name} {checks.library_version()}\n".encode()
            self.check.case(f"journal {name} --version", ended == checks.Run(0, version, b""), ended)

    def no_subcommand(self) -> None:
        """What is not a subcommand is rejected, with the status 2 and nothing on the output."""
        for words, error in NO_SUBCOMMAND:
            ended = self.run(self.path, *words)
            is_right = ended.status == 2 and not ended.out and error.encode() in ended.err
            self.check.case(f"journal {words}", is_right, ended)
        ended = self.run(self.path, b"\xff", "dump")
        expected = checks.Run(2, b"", b"journal: an argument is not UTF-8\n")
        self.check.case("journal, and no UTF-8", ended == expected, ended)

    def paths(self) -> None:
        """The last component of the path by which the program is called says the subcommand."""
        for path, name in PATHS.items():
            ended = subprocess.run([path, "--version"], executable=self.path, capture_output=True)
            expected = f"{name or 'journal'} {checks.library_version()}\n".encode()
            is_right = (ended.returncode, ended.stdout) == (0, expected)
            self.check.case(f"the program called as '{path}'", is_right, ended)

    def lists(self) -> None:
        """A listing is that of journal_list."""
        for name in ("replay", "recorded", "unknown_type", "cut_short", "/dev/null"):
            for version in ("5", "9"):
                words = ("--protocol", version, f"./{name}" if name != "/dev/null" else name)
                own, other = self.run(self.path, "list", *words), self.run(self.check.program("journal_list"), *words)
                is_right = (own.status, own.out) == (0, other.out) and other.status == 0 and bool(own.out)
                self.check.case(f"journal list {' '.join(words)}", is_right, own)

    def parts(self) -> None:
        """A part has the items that it says, as they are, and a start message with their number."""
        stream = (STREAMS / "recorded").read_bytes()
        items = items_of(stream)
        start = items_of(self.given)[0]
        lines = [{"type": "Start", "message": {"debugId": "key", "knownEntries": count}} for count in (9, 2)]
        starts = [checks.run([self.path, "make"], json.dumps(line).encode()).out for line in lines]
        file = self.check.work / "with_start"
        file.write_bytes(starts[0] + stream)
        commands = [place for place, item in enumerate(items) if item[0] < 0x80]
        for first in range(len(commands)):
            for last in range(first, len(commands)):
                begin, end = commands[first], [*commands, len(items)][last + 1]
                words = ("cut", "--from", str(first), "--to", str(last))
                ended = self.run(self.path, *words, "recorded")
                expected = checks.Run(0, b"".join(items[begin:end]), b"")
                self.check.case(f"journal {' '.join(words)} recorded", ended == expected, ended)
                if end - begin == 2:
                    ended = self.run(self.path, *words, file)
                    expected = checks.Run(0, starts[1] + expected.out, b"")
                    self.check.case(f"journal {' '.join(words)}, with a start message", ended == expected, ended)
                if first == 0 and last + 1 < len(commands):
                    part = self.check.work / "part"
                    part.write_bytes(b"".join(items[:end]))
                    ended = self.run(self.path, "diff", "--json", "recorded", part)
                    verdict = json.loads(ended.out)
                    is_right = (verdict["verdict"], verdict["index"]) == ("replayedEnded", last + 1)
                    self.check.case(f"a part up to command {last} replays", is_right, ended)
        ended = self.run(self.path, "cut", "--max-message", "4294967295", "replay")
        dumped = checks.run([self.path, "dump"], ended.out)
        known = json.loads(dumped.out.splitlines()[0])["message"]["knownEntries"]
        is_right = known == len(items_of(self.given)) - 1
        self.check.case("the start message of journal cut replay", is_right, known)
        ended = self.run(self.path, "cat", "recorded", "replay", "recorded")
        expected = checks.Run(0, stream + self.given.removeprefix(start) + stream, b"")
        self.check.case("journal cat recorded replay recorded", ended == expected, ended)
        ended = self.run(self.path, "cat", file, file)
        joined = items_of(ended.out)
        dumped = checks.run([self.path, "dump"], ended.out)
        known = json.loads(dumped.out.splitlines()[0])["message"]["knownEntries"]
        self.check.case("journal cat of two with a start message", joined[1:] == [*items, *items], ended)
        self.check.case("the entries that it announces", known == 2 * len(items), known)

    def verdict(self) -> None:
        """A subcommand's output is whole by the first name too."""
        ended = self.run(self.path, "diff", "--json", "recorded", "recorded")
        self.check.case("journal diff --json", json.loads(ended.out) == {"verdict": "same", "commands": 4}, ended)
        made = checks.run([self.path, "make"], self.run(self.path, "dump").out)
        self.check.case("journal dump | journal make", made == checks.Run(0, self.given, b""), made)


def main(check: checks.Check) -> None:
    go_to_streams(check, {"set": SET})
    journal = Journal(check)
    for name in RUNS:
        journal.both_names(name)
    journal.helps()
    journal.no_subcommand()
    journal.paths()
    journal.lists()
    journal.parts()
    journal.verdict()


if __name__ == "__main__":
    checks.perform(main)
