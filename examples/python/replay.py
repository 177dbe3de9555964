"""Checks the replay that comes on the standard input by a recording: replay.py RECORDING [5..9]

It prints each command that is the same. Where the replay leaves the recording it prints how, where both are, which
command the recording has next, the text that the SDKs report, and the fields that differ. The status is 0 if both are
the same, 1 if they differ, and 2 if either cannot be read: a file, a message of more than a mebibyte, a stream that
ends within an item, a command that is malformed. A recording that ends within an item is read up to that: the status
is 1 if the replay differs from its whole items, and otherwise 2.
"""

import sys
from pathlib import Path
from typing import Iterator, List

from pendratsoa import JournalError, Mismatch, Replay, Stream, VerdictKind, type_name

LIMIT = 1 << 20
MALFORMED = (VerdictKind.BAD_RECORDED, VerdictKind.BAD_REPLAYED)


def lines(mismatch: Mismatch, replay: Replay) -> Iterator[str]:
    """The lines of a mismatch."""
    recorded = "-" if mismatch.recorded_offset is None else mismatch.recorded_offset
    places = f"recorded at offset {recorded}, replayed at offset {mismatch.replayed_offset}"
    yield f"{mismatch.kind}, command {mismatch.index}, {places}"
    following = replay.expected()
    if following is not None:
        yield f"next {following.type} at offset {following.offset}"
    if mismatch.text:
        yield mismatch.text
    for field in mismatch.fields:
        yield f"field {field.name}: recorded {field.recorded}, replayed {field.replayed}"


def reject_cut(replay: Replay) -> None:
    """Raises an EOFError if the recording ends within an item."""
    rest = replay.recorded_rest
    if rest > 0:
        what = "1 byte" if rest == 1 else f"{rest} bytes"
        raise EOFError(f"the recording ends within an item, after {what} of it")


def check(replay: Replay) -> int:
    """Prints what is to be said of a replay, and returns the status."""
    mismatch = None
    with open(0, "rb", buffering=0, closefd=False) as source:
        for item in Stream(replay.version, LIMIT).read(source):
            index = replay.index
            mismatch = replay.check(item)
            if mismatch is not None:
                break
            if replay.index > index:
                print(f"same {type_name(item.code)} at offset {item.offset}")
    mismatch = mismatch or replay.finish()
    if mismatch is None:
        reject_cut(replay)
        print(f"same, {replay.index} commands")
        return 0
    print(*lines(mismatch, replay), sep="\n")
    return 2 if mismatch.kind in MALFORMED else 1


def main(words: List[str]) -> int:
    """Checks a replay, and returns the status."""
    if len(words) not in (1, 2) or words[1:] not in ([], *([str(version)] for version in range(5, 10))):
        print("usage: replay.py RECORDING [5..9]", file=sys.stderr)
        return 2
    version = int(words[1]) if len(words) > 1 else 8
    try:
        return check(Replay(version, Path(words[0]).read_bytes()))
    except (JournalError, EOFError, OSError) as error:
        print(f"replay.py: {error}", file=sys.stderr)
        return 2


if __name__ == "__main__":
    sys.exit(main(sys.argv[1:]))
