"""Streams and payloads at the field numbers of a runtime's own description."""

from __future__ import annotations

import os
from typing import TYPE_CHECKING, Mapping, Optional, Protocol, Tuple, Union

from ._declared import LIST_LISTED, RENUMBERING_NUMBERS
from ._errors import Malformed, NumberingError, NumberingReason
from ._fast import pending_of
from ._items import Message, renumbered
from ._kinds import BytesLike
from ._named import Renumber, named
from ._request import Request, escaped, quoted
from ._tables import Tables

if TYPE_CHECKING:
    from . import _compiled, _pending

# which argument is wrong, if no numbering comes of them
WRONG = {NumberingReason.NO_SET: "descriptor_set", NumberingReason.NO_RENAME: "renames"}

# how many bytes an entry of a table has
ENTRY = 8 * RENUMBERING_NUMBERS


class File(Protocol):
    """A file that is open for reading bytes."""

    def read(self) -> bytes:
        """All of its bytes."""


class Numbering(Tables):
    """The field numbers of a runtime's own .proto file, by a descriptor set of it.

        numbering = Numbering.load("set.binpb")
        for item in Stream(8, numbering=numbering).read(file):

    `protoc --include_imports -o set.binpb FILE.proto` writes a set. Messages and fields are found by their names.
    `renames` has the messages with other names there, as `{"Fetch": "GetLazyStateCommandMessage"}`. A field that only
    the set has is left out in reading, and one that only the protocol has in writing. Headers and the codes of types
    are the same. A `NumberingError` reports why there is none.

    It does not change, and any thread may use it. As a text it is the list of fields.
    """

    __slots__ = ("_given", "_text")

    def __init__(self, descriptor_set: BytesLike, *, renames: Optional[Mapping[str, str]] = None) -> None:
        request = Request("Numbering", descriptor_set=descriptor_set, renames=renames)
        data, lines = request.data("descriptor_set"), _lines_of(request, renames)
        found, (kind,) = named.Numbering(data, lines)
        self._text = found.decode(errors="replace")
        reason = NumberingReason.of(kind)
        if reason is not None:
            raise _no_numbering(request, reason, self._text)
        if kind != LIST_LISTED:
            raise request.unexpected(f"the kind of numbering {kind}")
        super().__init__(data, lines)
        self._given = data, lines

    @classmethod
    def load(
        cls, source: Union[str, os.PathLike[str], File, BytesLike], *, renames: Optional[Mapping[str, str]] = None
    ) -> Numbering:
        """The numbering of a set in a file, given by its path or open, or in bytes."""
        if isinstance(source, (bytes, bytearray, memoryview)):
            return cls(source, renames=renames)
        if isinstance(source, (str, os.PathLike)):
            with open(source, "rb") as file:
                return cls(file.read(), renames=renames)
        if not hasattr(source, "read"):
            what = type(source).__name__
            raise TypeError(f"Numbering.load: source must be a path, a file or bytes-like, not {what}")
        return cls(source.read(), renames=renames)

    @property
    def text(self) -> str:
        """The list of fields: which are the same, renumbered, only there, only here, or of another kind."""
        return self._text

    def read_stream(self, version: int, stream: BytesLike) -> bytes:
        """A stream at the field numbers of the set, at the protocol's own numbers.

        Of a message only the payload and its length change. Custom entries, other items and trailing bytes are copied.
        `Unknown` if there is no such version; `Malformed`, which names the message; `TooLong`, `OutOfMemory`.
        """
        return _stream_at("read_stream", named.read_stream, self._reading, (version, stream))

    def write_stream(self, version: int, stream: BytesLike) -> bytes:
        """A stream at the protocol's own field numbers, at the numbers of the set; all else is as in `read_stream`."""
        return _stream_at("write_stream", named.write_stream, self._writing, (version, stream))

    def dump(self, version: int, stream: BytesLike) -> str:
        """A stream at the field numbers of the set as JSON, as `journal dump --schema` prints it: an object on one line
        for each item, and a last one for the trailing bytes. It has all fields that the set has. `Unknown` if there is
        no such version; `TooLong`, `OutOfMemory`."""
        return named.dump(version, *self._given, stream).decode()

    def __str__(self) -> str:
        return self._text

    def __repr__(self) -> str:
        return f"<Numbering of {len(self._reading) // ENTRY} fields>"


def _no_numbering(request: Request, reason: NumberingReason, text: str) -> NumberingError:
    """The error that no numbering comes of a set and renames: which of them has a fault, and the fault."""
    argument = WRONG[reason]
    value = request.arguments[argument]
    said = f"{argument.replace('_', ' ')}: {escaped(text)}"
    return NumberingError(said, call=request.call, argument=argument, value=value, reason=reason, text=text)


def _lines_of(request: Request, renames: Optional[Mapping[str, str]]) -> bytes:
    """Renames as lines, in UTF-8."""
    if renames is None:
        return b""
    if not isinstance(renames, Mapping):
        raise TypeError(f"Numbering: renames must be a mapping, not {type(renames).__name__}")
    lines = []
    for names in renames.items():
        for name in names:
            if not isinstance(name, str):
                raise TypeError(f"Numbering: a name in renames must be a str, not {type(name).__name__}")
            if "=" in name or "\n" in name:
                raise _no_numbering(request, NumberingReason.NO_RENAME, f"{quoted(name)} is not the name of a message")
        lines.append("=".join(names) + "\n")
    # half a surrogate is in no name, which the library says
    return "".join(lines).encode("utf-8", "surrogatepass")


def _stream_at(call: str, renumber: Renumber, table: bytes, given: Tuple[int, BytesLike]) -> bytes:
    """A stream of a version at other field numbers."""
    version, stream = given
    data = Request(call, stream=stream).data("stream")
    try:
        return renumber(version, table, data)
    except Malformed:
        pending = pending_of(version, None)
        pending.feed(data)
        _check(call, pending, table)
        raise


def _check(call: str, pending: Union[_pending.Pending, _compiled.Pending], table: bytes) -> None:
    """Raises the error of the first message whose payload cannot be written at other field numbers."""
    while True:
        item = pending.take()
        if item is None or isinstance(item, int):
            return
        if isinstance(item, Message):
            renumbered(call, item, named.read_payload, table)
