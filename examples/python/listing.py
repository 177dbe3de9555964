"""Lists the stream that comes on the standard input as examples/c/listing.c does: listing.py [VERSION]"""

import os
import sys
from typing import Iterator, List, Optional

from pendratsoa import Item, Malformed, Message, Stream

CHUNK = 4096
CALLS = ("CallCommand", "OneWayCallCommand")


def quoted(text: str) -> str:
    """A text as the C example prints it: what is not a letter of ASCII as the numbers of its bytes."""
    plain = (chr(byte) if 0x20 <= byte <= 0x7E and byte not in b'"\\' else f"\\x{byte:02x}" for byte in text.encode())
    return f'"{"".join(plain)}"'


def line(item: Item) -> str:
    """The line of an item; that of a call has the names of the service and the handler."""
    if not isinstance(item, Message) or item.type not in CALLS:
        return str(item)
    try:
        call = item.json()
    except Malformed:
        return f"{item} malformed"
    return f"{item} {quoted(call.get('serviceName', ''))} {quoted(call.get('handlerName', ''))}"


class InputFailed(Exception):
    """The standard input cannot be read."""


def chunks() -> Iterator[bytes]:
    """The standard input, chunk by chunk."""
    try:
        with open(0, "rb", closefd=False) as stdin:
            yield from iter(lambda: stdin.read(CHUNK), b"")
    except OSError as error:
        raise InputFailed from error


def main(words: List[str]) -> Optional[str]:
    """Lists the stream, and returns what fails, if anything does."""
    if words not in ([], *([str(version)] for version in range(5, 10))):
        print("usage: listing.py [5..9]", file=sys.stderr)
        sys.exit(2)
    stream = Stream(int(words[0]) if words else 8)
    try:
        for chunk in chunks():
            stream.feed(chunk)
            for item in stream:
                print(line(item))
        print(f"rest {stream.rest}")
        sys.stdout.flush()
    except MemoryError:
        return "listing.py: out of memory"
    except InputFailed:
        return "listing.py: input failed"
    except OSError:
        # what Python still holds would fail once more where it ends
        os.dup2(os.open(os.devnull, os.O_WRONLY), sys.stdout.fileno())
        return "listing.py: output failed"
    return None


if __name__ == "__main__":
    sys.exit(main(sys.argv[1:]))
