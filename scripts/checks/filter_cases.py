"""What filters find: the cases of examples/filters.txt; and words that are not a filter."""
from __future__ import annotations

import collections.abc
import pathlib

EXAMPLES = pathlib.Path(__file__).resolve().parent.parent.parent / "examples"

# The words of a filter, and the indices of the items that have them.
Case = tuple[str, list[int]]

# Words that are not a filter, and what is said of them; a number has at most 128 bits.
WRONG: tuple[tuple[str, str], ...] = (
    ("size:big", "size: is followed by a number, as size:49, size:>49 or size:40-60"),
    ("cmd:>1-2", "cmd: is followed by a number, as cmd:49, cmd:>49 or cmd:40-60"),
    ("cmd:", "cmd: is followed by a number, as cmd:49, cmd:>49 or cmd:40-60"),
    ("id:340282366920938463463374607431768211456", "id: is followed by a number, as id:49, id:>49 or id:40-60"),
    ("id:>340282366920938463463374607431768211455", "id: is followed by a number, as id:49, id:>49 or id:40-60"),
    ("is:constructor", "is: is not followed by constructor"),
    ("is:same", "is: is not followed by same"),
)


def cases() -> collections.abc.Iterator[tuple[bytes, list[Case]]]:
    """Each stream with its cases."""
    for block in (EXAMPLES / "filters.txt").read_text(encoding="utf-8").split("\n> ")[1:]:
        name, *lines = block.splitlines()
        path = EXAMPLES / "streams" / name if len(name) < 100 else None
        stream = path.read_bytes() if path else bytes.fromhex(name)
        split = (line.rpartition("=") for line in lines if line)
        yield stream, [(words.rstrip(), [int(index) for index in found.split()]) for words, _, found in split]
