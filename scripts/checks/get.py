#!/usr/bin/env python3
"""journal get on examples: fields of each kind, and what is said where there is none.

Standard output, the whole of standard error and the status are compared.
"""
from __future__ import annotations

import checks
import show
from programs import Program, go_to_streams

HEADERS = show.field(1, b"one") + show.field(2, b"1"), show.field(1, b"two") + show.field(2, "é\n".encode())
# An input with headers, a call with numbers, a suspension with lists of numbers, a flag, an error of an enum.
FUTURE = show.field(1, b"\x01\x02") + show.field(4, show.field(1, b"\x05")) + show.field(4, show.field(2, b"\x11"))
ITEMS = (
    show.frame(0x0400, *(show.field(1, header) for header in HEADERS), show.field(14, show.field(1, b"{}"))),
    show.frame(show.CALL, show.field(1, b"S"), show.field(2, b"h"), show.field(10, 1), show.field(11, 2)),
    show.frame(0x0001, show.field(4, FUTURE)),
    show.frame(0x0000, show.field(1, b"key"), show.field(3, 4), show.field(5, 1)),
    show.frame(0x0002, show.field(1, 100), show.field(2, b"boom"), show.field(8, 7), show.field(9, 1)),
    show.frame(show.RUN, b"\n"),
    show.frame(0xFC00, b"abc"),
    # an unusual order, in which a later value comes in place of an earlier one
    show.frame(show.RUN, show.field(12, b"second"), show.field(12, b"last"), b"\x58\x05"),
)

# Words, and the output.
FOUND: tuple[tuple[str, bytes], ...] = (
    ("made 0 headers[0].value", b"1"),
    ("made 0 headers[1].key", b"two"),
    ("made 0 headers[1].value", "é\n".encode()),
    ("made 0 headers[1]", HEADERS[1]),
    ("made 0 value.content", b"{}"),
    ("made 1 resultCompletionId", b"2\n"),
    ("made 2 awaitingOn.waitingCompletions", b"1\n2\n"),
    ("made 2 awaitingOn.nestedFutures[1].waitingSignals", b"17\n"),
    ("made 3 id", b"key"),
    ("made 3 partialState", b"true\n"),
    ("made 4 nextRetryDelay", b"7\n"),
    ("made 4 behavior", b"1\n"),
    ("made 7 name", b"last"),
    ("--protocol 5 recorded 2 parameter", b"hello"),
    ("- 0 value.content", b"input"),
)

# Words, and what is said.
LACKING: tuple[tuple[str, str], ...] = (
    ("made 0 headers[2].value", "item 0: it has no headers[2].value"),
    ("made 0 headers", "item 0: it has no headers"),
    ("made 0 value.contnt", "item 0: no field of it has the name 'contnt'; did you mean content?"),
    ("made 0 value.zzzzzz", "item 0: no field of it has the name 'zzzzzz'; its fields are content"),
    ("made 1 serviceName.x", "item 1: the path goes on after a field that is no message"),
    ("made 1 parameter", "item 1: it has no parameter"),
    ("made 5 name", "item 5: it is malformed"),
    ("made 6 name", "item 6: its type is unknown, or it is a custom entry"),
    ("made 8 name", "no item 8: the stream ends before it"),
    ("unknown_type 0 name", "item 0: its type is unknown, or it is a custom entry"),
    ("--max-message 8 recorded 0 value", "InputCommand at offset 0: 9 bytes of payload, more than the limit of 8"),
)


def main(check: checks.Check) -> None:
    journal = Program(check, "journal", "recorded")
    go_to_streams(check, {"made": b"".join(ITEMS)})
    for words, out in FOUND:
        journal.ends(f"get {words}", out)
    for words, said in LACKING:
        journal.ends(f"get {words}", "", f"journal get: {said}\n", 1)


if __name__ == "__main__":
    checks.perform(main)
