#!/usr/bin/env python3
"""Gives the protocol other numbers, in the tree that it is run in: tools/permute.py [--force] [SEED]

For a trial on a copy: is the library proved for that description with no edit by hand? It writes proto/journal.proto
with other numbers of fields, codes of types and places of schemas, drawn by SEED (1), and prints one line per
message. `python3 tools/generate.py` then writes all that repeats them, and `rt check` proves it crate by crate. A tree
with changes that are not committed is left as it is, but with --force.

- The field numbers of each message are permuted, members of oneofs with the others, and one of them is replaced by any
  number that a field can have.
- All notifications, and the template that holds their rows, have one such permutation.
- The field that names a command has one number in all commands, which no other field of theirs has.
- The codes of types are rotated among those below 0x0400, among commands and among notifications; that of signals, the
  last one, stays.
- The schemas are permuted.
- The record that is hand-written, Future, has other numbers too, and so its fields in another order.
- Not changed are the numbers of a suspension before version 7, whose lists are written in their order.

Test vectors that are hand-written, bench/src/rules.rs and the numbers in tests hold bytes of the present numbers. They
are not changed: what the trial asks is whether the proofs hold.
"""
import random
import re
import subprocess
import sys

sys.dont_write_bytecode = True

from generators import ROOT  # noqa: E402
from generators.commands import name_number  # noqa: E402
from generators.proto import (
    COMMANDS,
    HAND_WRITTEN,
    NOTIFICATIONS,
    PROTO,
    TEMPLATE,
    fields_of,
    messages,
    of_text,
    schemas,
)  # noqa: E402

# The type that stays: its code is the last one of notifications.
LAST_TYPE = "SignalNotificationMessage"


def refuse(text):
    print(f"permute.py: {text}", file=sys.stderr)
    sys.exit(2)


def any_number(draw, taken):
    """A number that a field can have and that is none of those taken; as many of each length in bits."""
    while True:
        number = draw.randrange(1, 2 ** draw.randint(1, 29))
        if number not in taken and not 19000 <= number < 20000:
            return number


def permuted(draw, numbers, taken=()):
    """Other numbers for these, none of those taken: a permutation, in which one is replaced."""
    held = sorted(set(numbers))
    if not held:
        return {}
    new = list(held)
    new[draw.randrange(len(new))] = any_number(draw, {*held, *taken})
    draw.shuffle(new)
    return dict(zip(held, new))


def numbers_of(message):
    return [field.number for field in fields_of(message)]


def is_kept(message):
    """Whether the message's fields have to stay in their order."""
    return message.before_version is not None


def field_numbers(draw, found):
    """The other number of each field, by the line of the field."""
    template = next(message for message in found if message.name == TEMPLATE)
    common = permuted(draw, numbers_of(template))
    name = name_number()
    other_name = any_number(
        draw, {number for message in found if message.is_command() for number in numbers_of(message)}
    )
    lines = {}
    for message in found:
        if is_kept(message) or message.name in HAND_WRITTEN:
            continue
        if message.is_notification() or message is template:
            new = common
        elif message.is_command():
            new = permuted(draw, [number for number in numbers_of(message) if number != name], {name, other_name})
            new[name] = other_name
        else:
            new = permuted(draw, numbers_of(message))
        for field in fields_of(message):
            lines[field.line] = new[field.number]
    return lines


def numbers_by_hand(draw, found):
    """The same for the records that are hand-written. They are drawn last, so that those above are the same with any of
    these."""
    lines = {}
    for message in found:
        if message.name in HAND_WRITTEN:
            new = permuted(draw, numbers_of(message))
            lines.update((field.line, new[field.number]) for field in fields_of(message))
    return lines


def type_codes(draw, found):
    """The other code of each code: those of each range rotated."""
    coded = {message.code for message in found if message.code is not None and message.name != LAST_TYPE}
    codes = {}
    for least, end in ((0, COMMANDS.start), (COMMANDS.start, COMMANDS.stop), (NOTIFICATIONS.start, NOTIFICATIONS.stop)):
        held = sorted(code for code in coded if least <= code < end)
        by = draw.randrange(1, len(held))
        codes.update(zip(held, held[by:] + held[:by]))
    return codes


def schema_places(draw):
    """The other place of each schema."""
    places = [message.schema for message in schemas()]
    new = list(places)
    draw.shuffle(new)
    return dict(zip(places, new))


def with_numbers(text, found, numbers, codes, places):
    """The description with these numbers, and what is said of each message."""
    lines = text.splitlines()
    said = []
    for message in found:
        parts = [f"schema {message.schema} to {places[message.schema]}"]
        if message.code is not None:
            parts.append(f"code {message.code:04x} to {codes.get(message.code, message.code):04x}")
        for at in range(message.line, len(lines)):
            if lines[at] == "}":
                break
            lines[at] = re.sub(
                r"(option \(schema\) = )\d+", lambda match: f"{match[1]}{places[message.schema]}", lines[at]
            )
            lines[at] = re.sub(
                r"(option \(code\) = )\w+",
                lambda match: f"{match[1]}0x{codes.get(message.code, message.code):04X}",
                lines[at],
            )
        for field in fields_of(message):
            new = numbers.get(field.line, field.number)
            lines[field.line - 1] = re.sub(r"= \d+", f"= {new}", lines[field.line - 1], count=1)
            parts.append(f"{field.name} {field.number} to {new}" if new != field.number else f"{field.name} {new}")
        said.append(f"{message.name}: {', '.join(parts)}")
    return "\n".join(lines) + "\n", said


def main():
    words = sys.argv[1:]
    if words == ["--help"]:
        print(__doc__.strip())
        return 0
    seeds = [word for word in words if word != "--force"]
    if len(seeds) > 1 or not all(seed.isdecimal() for seed in seeds):
        refuse("tools/permute.py [--force] [SEED], where SEED is a number")
    seed = int(seeds[0]) if seeds else 1
    status = subprocess.run(
        ["git", "-C", ROOT, "status", "--porcelain"], check=True, capture_output=True, text=True
    ).stdout
    if status and "--force" not in words:
        refuse("there are changes that are not committed: run it in a clean clone, or with --force")
    draw = random.Random(seed)
    found = messages()
    numbers = field_numbers(draw, found)
    codes = type_codes(draw, found)
    places = schema_places(draw)
    numbers.update(numbers_by_hand(draw, found))
    text, said = with_numbers(PROTO.read_text(encoding="utf-8"), found, numbers, codes, places)
    # what the description cannot say is rejected before it is written
    of_text(text)
    PROTO.write_text(text, encoding="utf-8")
    print("\n".join(said))
    old = {field.line: field.number for message in found for field in fields_of(message)}
    kept = ", ".join(message.name for message in found if is_kept(message))
    print(
        f"seed {seed}: {sum(number != old[line] for line, number in numbers.items())} of {len(old)} fields and "
        f"{sum(code != new for code, new in codes.items())} of "
        f"{len({message.code for message in found} - {None})} codes have "
        f"another number; not those of {kept}"
    )
    print("python3 tools/generate.py writes all that repeats them")
    return 0


if __name__ == "__main__":
    sys.exit(main())
