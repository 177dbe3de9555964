"""A stream that comes in chunks."""

from __future__ import annotations

import contextlib
import inspect
import os
from typing import TYPE_CHECKING, Any, AsyncIterator, Awaitable, Callable, Iterator, List, NoReturn, Optional, Protocol
from typing import Union

from ._errors import Incomplete, MessageTooLong, TooLong
from ._fast import pending_of
from ._items import Item, Message, items_of, name_of, read_as, renumbered, type_of
from ._kinds import BytesLike
from ._named import named
from ._request import Request, byte_count
from ._tables import tables_of

if TYPE_CHECKING:
    from ._numbering import Numbering

# how many bytes are read from a file at a time
CHUNK = 1 << 16

# how many bytes of an item have its code
CODE = 2


class Readable(Protocol):
    """A file that is open for reading bytes."""

    def read(self, size: int, /) -> Optional[bytes]:
        """At most this many bytes, none at its end."""


class Receiver(Protocol):
    """A socket, or what has its method."""

    def recv(self, size: int, /) -> bytes:
        """At most this many bytes, none at its end."""


Source = Union[Readable, Receiver]


class AsyncReadable(Protocol):
    """A reader as `asyncio.StreamReader`."""

    def read(self, size: int, /) -> Awaitable[bytes]:
        """At most this many bytes, none at its end."""


class Stream:
    """A stream of a version from 5 to 9, which comes in chunks of any size.

    Each loop over it continues where the one before stopped, and ends when no whole item is left. More may be fed at
    any time, within the loop too. Several threads may use one stream; each item then comes to one of them.

    A message whose payload has more than `max_message_size` bytes is a `MessageTooLong` as soon as its header came, and
    ends the stream: from then on each loop, `feed`, `read` and `finish` raise the same error, and `trailing` has what
    was received of the message and after it. The eight bytes of a header do not count. None is not a limit.

    With a `numbering` the payload of each message is at the protocol's own field numbers, and `bytes` and `offset` are
    those of the stream that is read. A payload that cannot be read so is a `Malformed`, which names its message; a next
    loop goes on after it.
    """

    def __init__(
        self, version: int = 8, max_message_size: Optional[int] = None, numbering: Optional[Numbering] = None
    ) -> None:
        self._tables = None if numbering is None else tables_of("Stream", numbering)
        # messages for whose payloads there was no memory
        self._unread: List[Message] = []
        self._request = Request("Stream", version=version, max_message_size=max_message_size)
        self._version = self._request.version()
        self._limit = None if max_message_size is None else self._request.length("max_message_size")
        # what came and is in no item yet, which may be used by several threads; the error that ended the stream
        self._pending = pending_of(self._version, self._limit)
        self._ended: Optional[MessageTooLong] = None
        # that there is no such version is known before anything came
        self._next()

    @property
    def version(self) -> int:
        """The version of the stream."""
        return self._version

    @property
    def rest(self) -> int:
        """The number of pending bytes: those received that no item has yet."""
        return self._pending.rest()

    @property
    def trailing(self) -> bytes:
        """The pending bytes, `rest` of them, each time in a copy.

        Once all items were taken, they begin an item that is not whole. A proxy passes them on where its input ends.
        After `Incomplete` they are still there. After `MessageTooLong` they begin with the header of that message.
        """
        return self._pending.trailing()

    def feed(self, data: BytesLike) -> None:
        """Appends bytes to those received. `bytes` are kept, others are copied."""
        chunk = data if type(data) is bytes else Request("feed", data=data).data("data")
        if chunk:
            self._check()
            self._pending.feed(chunk)

    def read(self, file: Source, size: int = CHUNK, strict: bool = True) -> Iterator[Item]:
        """Feeds what a binary file or a socket has, at most `size` bytes at a time, and iterates over the items as they
        come. If the file ends within an item, that is `Incomplete` after all whole items; `trailing` has its bytes.
        With `strict=False` the loop ends there without an error, which suits a file that is still being written.

        A file that does not block and has no bytes yet is a `BlockingIOError`; the call can be repeated.
        """
        receive = _receiver(file)
        return self._read(receive, _checked("read", size), strict)

    def read_async(self, reader: AsyncReadable, size: int = CHUNK, strict: bool = True) -> AsyncIterator[Item]:
        """Feeds what a reader as `asyncio.StreamReader` has, and iterates over the items as they come, for
        `async for`; all else is as for `read`."""
        return self._read_async(reader, _checked("read_async", size), strict)

    def finish(self) -> None:
        """Says that the stream ended: `Incomplete` if there are trailing bytes. Its items have to be taken before."""
        self._finish("finish")

    def __iter__(self) -> Iterator[Item]:
        if self._tables is None:
            return self._pending.items(self._refuse)
        return items_of(self._take_at, self._refuse)

    def __repr__(self) -> str:
        return f"<Stream of version {self._version}, {self.rest} bytes in no item yet>"

    def _check(self) -> None:
        if self._ended is not None:
            # each time it is raised it would hold further frames
            raise self._ended.with_traceback(None)

    def _finish(self, call: str) -> None:
        self._check()
        rest = self.rest
        if rest > 0:
            offset, code = self._pending.offset(), self._code_of_rest()
            item = "an item" if code is None else name_of(code)
            text = f"the stream ended within {item} at offset {offset}, after {byte_count(rest)} of it"
            raise Incomplete(text, call=call, rest=rest, offset=offset, code=code)

    def _code_of_rest(self) -> Optional[int]:
        """The code of the item that the rest begins, or None if its two bytes are not both there."""
        head = self._pending.head()
        return int.from_bytes(head[:CODE], "big") if len(head) >= CODE else None

    def _read(self, receive: Callable[[int], Optional[bytes]], size: int, strict: bool) -> Iterator[Item]:
        yield from self
        while True:
            data = receive(size)
            if data is None:
                raise BlockingIOError("the file has no bytes yet")
            if inspect.isawaitable(data):
                if inspect.iscoroutine(data):
                    data.close()
                raise TypeError("read: the file is read asynchronously, which read_async does")
            if len(data) == 0:
                break
            self.feed(data)
            yield from self
        if strict:
            self._finish("read")

    async def _read_async(self, reader: AsyncReadable, size: int, strict: bool) -> AsyncIterator[Item]:
        for item in self:
            yield item
        while True:
            data = await reader.read(size)
            if len(data) == 0:
                break
            self.feed(data)
            for item in self:
                yield item
        if strict:
            self._finish("read_async")

    def _take_at(self) -> Union[Item, int, None]:
        """What `take` of what came returns, with the payload of a message read by the numbering."""
        item: Union[Item, int, None] = None
        if self._unread:
            # another thread may have taken it
            with contextlib.suppress(IndexError):
                item = self._unread.pop()
        if item is None:
            item = self._pending.take()
        if self._tables is None or not isinstance(item, Message):
            return item
        try:
            payload = renumbered("Stream", item, named.Stream, self._tables._reading)
        except MemoryError:
            self._unread.append(item)
            raise
        return item if payload is None else read_as(item, payload)

    def _next(self) -> Optional[Item]:
        """The next item, or None if not all of it came."""
        item = self._pending.take()
        if isinstance(item, int):
            self._refuse(item)
        return item

    def _refuse(self, number: int) -> NoReturn:
        """Raises the error of a negative number, or that of a kind of items that is not known."""
        if number >= 0:
            raise self._request.unexpected(f"the kind of item {number}")
        self._check()
        if isinstance(self._request.refused(number), TooLong) and self._limit is not None:
            self._ended = self._too_long(self._pending.head(), self._limit)
            raise self._ended
        # no name here holds the error, which holds this frame
        raise self._request.refused(number)

    def _too_long(self, head: bytes, limit: int) -> MessageTooLong:
        """The error of the message of a header, which is longer than the limit."""
        code, length, offset = int.from_bytes(head[:2], "big"), int.from_bytes(head[4:], "big"), self._pending.offset()
        what = f"a message of type {type_of(code)} at offset {offset} has {length} bytes"
        error = self._request.error(MessageTooLong, f"{what}, more than the limit of {limit}", "max_message_size")
        assert isinstance(error, MessageTooLong)
        error.code, error.length, error.limit, error.offset = code, length, limit, offset
        return error


def _checked(call: str, size: int) -> int:
    """How many bytes are read at a time."""
    if size < 1:
        raise ValueError(f"{call}: size {size} is less than 1")
    return size


def _waiting(file: Any, read1: Callable[[int], Optional[bytes]]) -> Callable[[int], Optional[bytes]]:
    """`read1` of a buffered file. Where that does not block, `read1` has no bytes also if none came yet, but `read`
    says None then."""

    def receive(size: int) -> Optional[bytes]:
        data = read1(size)
        if data or not hasattr(file, "raw") or _blocks(file):
            return data
        found: Optional[bytes] = file.read(1)
        return found

    return receive


def _blocks(file: Any) -> bool:
    try:
        return os.get_blocking(file.fileno())
    except (AttributeError, OSError, ValueError):
        # there is no descriptor, as of a file in a tar archive
        return True


def _receiver(file: Source) -> Callable[[int], Optional[bytes]]:
    """What reads from a file: of a buffered one the method that does not wait until all bytes are there."""
    for name in ("recv", "read1", "read"):
        receive: Optional[Callable[[int], Optional[bytes]]] = getattr(file, name, None)
        if receive is not None:
            return _waiting(file, receive) if name == "read1" else receive
    raise TypeError(f"read: file must have a method read or recv, which {type(file).__name__} has not")
