"""What came of a stream, from which items are taken: by ctypes, where the compiled module is not in use."""

from __future__ import annotations

import ctypes
import threading
from typing import Callable, Iterator, List, NoReturn, Optional, Tuple, Union

from ._declared import ITEM_MESSAGE, ITEM_NUMBERS, ITEM_SKIPPED, ITEM_UNKNOWN_CODE
from ._items import Item, Message, Skipped, UnknownCode, came, items_of, message_that_came
from ._library import library

# how many items are looked for at once, since a call costs more than finding one
LOOKED = 32

# a type is made once
Table = ctypes.c_uint64 * (ITEM_NUMBERS * LOOKED)

# the limit that is none
NO_LIMIT = 2**32 - 1

# how many bytes a header has
HEADER = 8


class Pending:
    """What came and is in no item yet, of a stream of a version, and of a limit or None."""

    def __init__(self, version: int, limit: Optional[int]) -> None:
        self._version = version
        self._limit = limit
        # of one thread; whether it is within a call that changes what came, as where a signal comes
        self._lock = threading.RLock()
        self._within = False
        # the numbers of the items that were found last, how many they are, and how many of them were taken
        self._table = Table()
        self._found = 0
        self._taken = 0
        # bytes, their address, and where what is in no item yet begins in them; they change together, also where a
        # signal interrupts
        self._left: Tuple[bytes, int, int] = (b"", 0, 0)
        # what came after them, and is joined to them once it is enough
        self._chunks: List[bytes] = []
        self._chunks_size = 0
        # how many bytes are missing after `_left` at least; 0 if this is not known
        self._missing = 0
        # how many bytes items have taken
        self._offset = 0

    def feed(self, chunk: bytes) -> None:
        """Appends bytes, which are kept."""
        with self._lock:
            self._alone()
            self._within = True
            try:
                self._chunks.append(chunk)
                self._chunks_size += len(chunk)
            finally:
                self._within = False

    def take(self) -> Union[Item, int, None]:
        """The next item, or None if not all of it came; or a number: an error of the library, or a kind of items that
        is not known."""
        with self._lock:
            self._alone()
            self._within = True
            try:
                return self._take()
            finally:
                self._within = False

    def items(self, refuse: Callable[[int], NoReturn]) -> Iterator[Item]:
        """Iterates over the items, as `items_of` does."""
        return items_of(self.take, refuse)

    def rest(self) -> int:
        """The number of pending bytes: those received that no item has yet."""
        with self._lock:
            self._alone()
            data, _, begin = self._left
            return len(data) - begin + self._chunks_size

    def trailing(self) -> bytes:
        """The pending bytes."""
        with self._lock:
            self._alone()
            data, _, begin = self._left
            return b"".join((data[begin:], *self._chunks))

    def offset(self) -> int:
        """The number of bytes that items have taken."""
        return self._offset

    def head(self) -> bytes:
        """The first eight bytes of what is in no item yet, or fewer if fewer came."""
        with self._lock:
            self._alone()
            data, _, begin = self._left
            head = data[begin : begin + HEADER]
            for chunk in self._chunks:
                if len(head) == HEADER:
                    break
                head += chunk[: HEADER - len(head)]
            return head

    def _alone(self) -> None:
        """An error in a finalizer or the handler of a signal that uses a stream within `feed` or `take` of the same
        thread: what came is not whole there, and to wait would be without an end."""
        if self._within:
            raise RuntimeError("a stream is used within a call of it, which has not ended")

    def _take(self) -> Union[Item, int, None]:
        """What `take` returns."""
        if self._taken < self._found:
            return self._cut()
        missing = self._missing or self._look()
        if 0 < missing <= self._chunks_size:
            self._join()
            missing = self._look()
        self._missing = max(0, missing)
        return self._cut() if missing == 0 else missing if missing < 0 else None

    def _look(self) -> int:
        """Looks for items: 0 if some were found, otherwise how many bytes are missing at least, or an error."""
        data, address, begin = self._left
        limit = NO_LIMIT if self._limit is None else self._limit
        rest = self._version, limit, address + begin, len(data) - begin, self._table
        found = library.journal_items(*rest, LOOKED)
        missing = library.journal_next_within(*rest, ITEM_NUMBERS) if found == 0 else min(0, found)
        self._found, self._taken = max(1, found) if missing == 0 else 0, 0
        return missing

    def _join(self) -> None:
        """Joins what came to what is left, so that each byte is joined twice at most."""
        data, _, begin = self._left
        chunks = [data[begin:], *self._chunks] if begin < len(data) else self._chunks
        data = chunks[0] if len(chunks) == 1 else b"".join(chunks)
        self._left = data, ctypes.cast(ctypes.c_char_p(data), ctypes.c_void_p).value or 0, 0
        self._chunks.clear()
        self._chunks_size = 0

    def _cut(self) -> Union[Item, int]:
        """The item that was found, which is taken from the bytes, or its kind if that is not known."""
        first = ITEM_NUMBERS * self._taken
        kind, word, code, requested_ack, size, payload_begin = self._table[first : first + ITEM_NUMBERS]
        if kind > ITEM_SKIPPED:
            self._found = 0
            return int(kind)
        data, address, begin = self._left
        payload = data[begin + payload_begin : begin + size]
        offset = self._offset
        self._left = data, address, begin + size
        self._taken += 1
        self._offset = offset + size
        if kind == ITEM_MESSAGE:
            return message_that_came(Message(self._version, code, payload, requested_ack == 1), word, offset)
        if kind == ITEM_UNKNOWN_CODE:
            return came(UnknownCode(self._version, code, word), offset)
        return came(Skipped(self._version, code, word, payload), offset)
