#!/usr/bin/env python3
"""Compares the protocol's description, proto/journal.proto, with what is written by hand from the protocol itself:
tools/judges.py

These share nothing with what tools/generate.py writes: the codes and the lines of conformance/, the tables of the
program that writes comparisons, and the rules of bench/src/rules.rs. The last line is 'N passed, M failed'.
"""
import re
import sys

sys.dont_write_bytecode = True

from generators import ROOT, comparisons  # noqa: E402
from generators.proto import OneOf, earlier, messages, typed  # noqa: E402

counts = [0, 0]


def same(about, described, found):
    """Counts a comparison, and shows what is only on one side."""
    described, found = set(described), set(found)
    counts[described != found or not described] += 1
    if described == found and described:
        return
    print(f"failed: {about}")
    for sign, lines in (("<", described - found), (">", found - described)):
        for line in sorted(map(str, lines))[:20]:
            print(f"{sign} {line}")


def conformance():
    """The cases of conformance/, each the words of a line."""
    for file in sorted((ROOT / "conformance").glob("*.txt")):
        for line in file.read_text(encoding="utf-8").splitlines():
            if line and not line.startswith("#"):
                yield line.split()


def frames():
    """The codes of conformance/frames.txt, and that each message, type and command has cases of its own."""
    cases = list(conformance())
    of_kind = {}
    for words in cases:
        of_kind.setdefault(words[0], set()).add(words[1])
    codes = set()
    for line in (ROOT / "conformance" / "frames.txt").read_text(encoding="utf-8").splitlines():
        if match := re.match(r"frame (\w+) 5 - = ([0-9a-f]{4})", line):
            codes.add(f"{match[2]} {match[1]}")
    same(
        "the codes of conformance/frames.txt",
        {f"{message.code:04x} {message.type_name()}" for message in typed()},
        codes,
    )
    names = {message.name for message in messages()}
    same("the messages and the record lines of conformance", names, of_kind["record"])
    same("the messages and the payload lines of conformance", names, of_kind["payload"])
    same("the types and the frame lines of conformance", {message.type_name() for message in typed()}, of_kind["frame"])
    commands = {message.type_name() for message in typed() if message.is_command()}
    same("the commands and the compare lines of conformance", commands, of_kind["compare"])


def compared():
    """What the program that writes comparisons says of each command."""
    lines = {"never compared": [], "a payload": [], "printed": []}
    for message in typed():
        if not message.is_command():
            continue
        command = message.name.removesuffix("CommandMessage")
        printed = sorted((row.printed, row.name) for row in message.rows if row.printed is not None)
        lines["printed"].append((command, " ".join(name for _, name in printed)))
        never = []
        for row in message.rows:
            members = row.members if isinstance(row, OneOf) else [row]
            if any(member.not_compared for member in members):
                never.append(row.name)
            for member in members:
                if member.payload:
                    lines["a payload"].append((command, row.name, member.name if isinstance(row, OneOf) else None))
        if never:
            lines["never compared"].append((command, " ".join(sorted(never))))
    hand = {
        "never compared": [
            (command, " ".join(sorted(fields.split()))) for command, fields in comparisons.NEVER_COMPARED.items()
        ],
        "a payload": [(command, *field) for command, field in comparisons.PAYLOADS.items()],
        "printed": list(comparisons.PRINTED.items()),
    }
    for about, found in hand.items():
        same(f"what is {about}, in tools/generators/comparisons.py", lines[about], found)
    for what in ("what is never compared", "what is a payload", "what is printed"):
        same(f"{what}, on the page conformance/README.md", {what}, {what} - set(comparisons.said_on_the_page()))


def rules():
    """The version from which on the baseline's rules have another record for suspensions."""
    found = re.findall(
        r"^const TREES: u32 = (\d+);$", (ROOT / "bench" / "src" / "rules.rs").read_text(encoding="utf-8"), re.M
    )
    same(
        "the version of suspensions in bench/src/rules.rs",
        {message.before_version for message, _ in earlier()},
        map(int, found),
    )


def main():
    for judge in (frames, compared, rules):
        judge()
    print(f"{counts[0]} passed, {counts[1]} failed")
    return 1 if counts[1] else 0


if __name__ == "__main__":
    sys.exit(main())
