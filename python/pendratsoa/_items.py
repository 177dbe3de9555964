"""The items of a stream."""

from __future__ import annotations

import builtins
import dataclasses
import functools
import json
from dataclasses import dataclass, field
from typing import TYPE_CHECKING, Any, Callable, ClassVar, Iterator, Mapping, NoReturn, Optional, Protocol, Type
from typing import TypeVar, Union, cast

from . import _calls
from ._calls import Notification
from ._errors import JournalError, Unknown, _PayloadError
from ._protocol import COMMAND_CODES, NOTIFICATION_CODES
from ._records import MessageRecord, Record, earlier_frame, earlier_schema, schema_of
from ._kinds import BytesLike
from ._named import Renumber, named
from ._request import Request, code_text, shown
from ._tables import schema_of_type, written_at
from .messages import RECORDS, AnyMessage, TypeName

if TYPE_CHECKING:
    from ._numbering import Numbering

M = TypeVar("M", bound=MessageRecord)
T = TypeVar("T")


class Writable(Protocol):
    """A file that is open for writing bytes, or what has its method."""

    def write(self, data: bytes, /) -> object:
        """Writes all of these bytes."""


class _Item:
    """What all items have. `bytes(item)` are its bytes as received, header and payload."""

    def __bytes__(self) -> bytes:
        raise NotImplementedError

    @property
    def type(self) -> Optional[str]:
        """The name of its type, which only a message has; otherwise None."""
        return None

    @property
    def is_command(self) -> bool:
        """Whether it is a message whose code is that of a command."""
        return False

    @property
    def is_notification(self) -> bool:
        """Whether it is a message whose code is that of a notification."""
        return False

    def record(self, record: Type[M], /) -> Optional[M]:
        """The record that its payload means, if it is a message whose record is of this class; otherwise None."""
        _check_class(record)
        return None

    @property
    def bytes(self) -> builtins.bytes:
        """The item as received, byte for byte, header and payload: what a proxy passes on if it does not change it."""
        return self.__bytes__()

    def write_to(self, file: Writable) -> None:
        """Writes the item as received, by one call of `file.write`."""
        file.write(self.__bytes__())


@dataclass(frozen=True, repr=False)
class Message(_Item):
    """A message of a stream of a version.

    `code` is that of its type, and `requested_ack` whether its header requests an acknowledgement. As a text it is the
    name of its type and the length of its payload in bytes.

    `word` is the eight bytes of its header as one big-endian number, and `offset` where it begins in its stream, in
    bytes. Both are None if it came in no stream: what `dataclasses.replace` makes of it did not come. Neither is
    compared.
    """

    version: int
    """The version of its stream."""

    code: int
    """The code of its type."""

    payload: bytes
    """Its payload, in any encoding."""

    requested_ack: bool = False
    """Whether its header requests an acknowledgement."""

    word: Optional[int] = field(init=False, default=None, compare=False, repr=False)
    """The eight bytes of its header as one big-endian number, or None."""

    offset: Optional[int] = field(init=False, default=None, compare=False, repr=False)
    """Where it begins in its stream, in bytes, or None."""

    # its payload as received, if a numbering has read it
    _received: ClassVar[Optional[builtins.bytes]] = None

    @classmethod
    def of(cls, type: Union[int, TypeName], payload: BytesLike = b"", version: int = 8) -> Message:
        """The message of a type, which is given by its code or by its name as "SleepCommand", with a payload.

        It requests an acknowledgement if the header of its type does at this version. The payload is taken as it is:
        `frame` rejects one that is malformed. `Unknown` if there is no such version or type.
        """
        return cls._of(Request("Message.of", version=version, type=type, payload=payload))

    @classmethod
    def from_json(
        cls, type: Union[int, TypeName], json: Union[str, BytesLike, Mapping[str, Any]], version: int = 8
    ) -> Message:
        """The message of a type that JSON means: a text in protobuf's form, its UTF-8 in bytes, or what `json` returns.

        Its payload is canonical, and it requests an acknowledgement if the header of its type does at this version.
        `JsonError` if the text means no such message; `Unknown` if there is no such version or type, or the type is
        that of a custom entry.
        """
        request = Request("Message.from_json", version=version, type=type)
        code = _code_of(request)
        schema = request.step(_calls.schema, request.version(), code)
        text = _text_of(json)
        if not isinstance(text, str):
            # a TypeError names this call
            Request("Message.from_json", json=text).json("json")
        payload = request.step(_calls.from_json, schema, text)
        return cls._of(Request("Message.from_json", version=version, type=code, payload=payload))

    @property
    def type(self) -> str:
        """The name of its type, as "SleepCommand", or "CustomEntry(64513)"."""
        return _calls.type_name(self.code)

    @property
    def schema(self) -> int:
        """The number of its payload's schema. A custom entry has none: `Unknown`."""
        return _calls.schema(self.version, self.code)

    @property
    def is_command(self) -> bool:
        """Whether its code is that of a command.

        A custom entry is a message of any code that no named type has, with one of its upper six bits set, 0x0400 and
        above. By its code it may count as a command or a notification; a replay does not compare it.
        """
        return self.code in COMMAND_CODES

    @property
    def is_notification(self) -> bool:
        """Whether its code is that of a notification. A custom entry may count as one, by its code; see
        `is_command`."""
        return self.code in NOTIFICATION_CODES

    @property
    def message(self) -> Optional[AnyMessage]:
        """The record that its payload means, which is decoded at each access. A custom entry has none: None.
        `Malformed` if the payload means none.

        A record that is written again has only the fields of its type: unknown fields of the payload and ignored bits
        of the header are lost.
        """
        record = _class_of(self.version, self.code)
        return None if record is None else cast(AnyMessage, self._decoded("message", record))

    def record(self, record: Type[M], /) -> Optional[M]:
        """The record that its payload means, if it is of this class; otherwise None, and nothing is decoded.
        `Malformed` if the payload means none: a malformed payload of another type is not found.

        A record that is written again has only the fields of its type: unknown fields of the payload and ignored bits
        of the header are lost.
        """
        found = _class_of(self.version, self.code)
        if found is None or found is not record:
            _check_class(record)
            return None
        return self._decoded("record", record)

    @classmethod
    def of_record(cls, record: MessageRecord, version: int = 8) -> Message:
        """The message of a record at a version. `Unknown` if there is no such version, or it is none of the version."""
        request = Request("Message.of_record", version=version)
        number = request.version()
        return cls.of(record.CODE, request.step(record.frame, number)[8:], number)

    def json(self) -> Any:
        """What its payload means, as protobuf's JSON has it: dicts, lists, texts and numbers. A custom entry has no
        schema: `Unknown`."""
        return json.loads(self._read("json", lambda: _calls.to_json(self.schema, self.payload)))

    def canonical(self) -> bytes:
        """The canonical encoding of its payload. A custom entry has no schema: `Unknown`."""
        return self._read("canonical", lambda: _calls.canonical(self.schema, self.payload))

    def frame(self, version: Optional[int] = None, *, numbering: Optional[Numbering] = None) -> bytes:
        """Its frame at a version, or at its own: the header, and after it the canonical payload, at the field numbers
        of a numbering if one is given.

        The header is that of `header`: whether it requests an acknowledgement depends on the type and the version, and
        not on `requested_ack`. A payload of its own version's schema is `Unknown` at a version that cannot have it: a
        suspension before version 7 has no frame from 7 on, and one since then has a frame at each.
        """
        version = self.version if version is None else version
        data = self._frame("frame", named.frame, version)
        return data if numbering is None else written_at("frame", numbering, version, data)

    def append_frame(
        self, out: bytearray, version: Optional[int] = None, *, numbering: Optional[Numbering] = None
    ) -> int:
        """Appends its frame, as `frame` returns it, and returns its length. After an error `out` is as it was."""
        call = "append_frame"
        if not isinstance(out, bytearray):
            raise TypeError(f"{call}: out must be a bytearray, not {type(out).__name__}")
        version = self.version if version is None else version
        frame = self._frame(call, named.append_frame, version)
        if numbering is not None:
            frame = written_at(call, numbering, version, frame)
        out += frame
        return len(frame)

    def write_frame(
        self, file: Writable, version: Optional[int] = None, *, numbering: Optional[Numbering] = None
    ) -> None:
        """Writes its frame, as `frame` returns it, by one call of `file.write`."""
        file.write(self.frame(version, numbering=numbering))

    def __bytes__(self) -> bytes:
        """The message as received; if it came in no stream, its payload as it is after the header of its type."""
        if self.word is None:
            return _calls.header(self.version, self.code, len(self.payload)) + self.payload
        return _bytes_of(self.word) + (self.payload if self._received is None else self._received)

    def notification(self) -> Notification:
        """Its id and its result, if it is a notification."""
        return self._read("notification", _calls.notification, self.code, self.payload)

    @classmethod
    def _of(cls, request: Request) -> Message:
        """The message of a version, a type and a payload that a call is given."""
        version, code, data = request.version(), _code_of(request), request.data("payload")
        header = request.step(_calls.header, version, code, len(data))
        # the flag is the high bit of the third byte
        return cls(version, code, data, header[2] >= 0x80)

    def _frame(self, call: str, function: Callable[[int, int, builtins.bytes], builtins.bytes], version: int) -> bytes:
        """Its frame at a version, which a function returns."""
        schema = earlier_schema(self.version, self.code)
        if schema is None:
            return self._read(call, function, version, self.code, self.payload)
        return self._read(call, earlier_frame, call, version, self.code, schema, self.payload)

    def _decoded(self, call: str, record: Type[M]) -> M:
        """The record of this class that its payload means."""
        made: Optional[M] = None if record._compiled is None else record._compiled.decode(self.payload)
        return self._read(call, record.decode, self.payload) if made is None else made

    def _read(self, call: str, function: Callable[..., T], *arguments: Any) -> T:
        """What a function returns that reads its payload. An error of the payload says of which message it is."""
        try:
            return function(*arguments)
        except _PayloadError as error:
            where = "" if self.offset is None else f" at offset {self.offset}"
            text = f"{name_of(self.code)}{where}: {error}"
            argument, value = error.argument, error.value
            raise type(error)(
                text, call=call, argument=argument, value=value, code=self.code, offset=self.offset
            ) from None
        except JournalError as error:
            error.call = call
            raise

    def __str__(self) -> str:
        return f"{name_of(self.code)} {len(self.payload)}{' ack' if self.requested_ack else ''}"

    def __repr__(self) -> str:
        return _fields(self)


@dataclass(frozen=True)
class UnknownCode(_Item):
    """Eight bytes with an unassigned code, before version 9; `word` is all eight as one big-endian number, and `offset`
    where they begin in their stream.

    It is what the programs call an unknown header, an item of its own. What follows it is read as the next header.
    """

    version: int
    """The version of its stream."""

    code: int
    """Its unassigned code."""

    word: int
    """Its eight bytes as one big-endian number."""

    offset: Optional[int] = field(init=False, default=None, compare=False, repr=False)
    """Where it begins in its stream, in bytes, or None."""

    def __bytes__(self) -> bytes:
        return _bytes_of(self.word)

    def __str__(self) -> str:
        return f"unknown {self.code:#x}"


@dataclass(frozen=True, repr=False)
class Skipped(_Item):
    """A message of an unknown type, which is skipped with its payload from version 9 on; `word` is its header's eight
    bytes as one big-endian number, and `offset` where it begins in its stream."""

    version: int
    """The version of its stream."""

    code: int
    """Its unassigned code."""

    word: int
    """The eight bytes of its header as one big-endian number."""

    payload: bytes
    """Its payload."""

    offset: Optional[int] = field(init=False, default=None, compare=False, repr=False)
    """Where it begins in its stream, in bytes, or None."""

    def __bytes__(self) -> bytes:
        return _bytes_of(self.word) + self.payload

    def __str__(self) -> str:
        return f"skipped {self.code:#x} {len(self.payload)}"

    def __repr__(self) -> str:
        return _fields(self)


# an item of a stream: a `Message`, an `UnknownCode` or a message that is `Skipped`
Item = Union[Message, UnknownCode, Skipped]
I = TypeVar("I", Message, UnknownCode, Skipped)


def items_of(take: Callable[[], Union[Item, int, None]], refuse: Callable[[int], NoReturn]) -> Iterator[Item]:
    """Iterates over the items that are taken, up to the first of which not all came. A number in place of an item is
    given to a function, which raises its error."""
    while True:
        item = take()
        if item is None:
            return
        if item.__class__ is int:
            refuse(cast(int, item))
        yield cast(Item, item)


def came(item: I, offset: int) -> I:
    """The item, which begins at this offset of its stream."""
    object.__setattr__(item, "offset", offset)
    return item


def message_that_came(message: Message, word: int, offset: int) -> Message:
    """The message, whose header is this word."""
    object.__setattr__(message, "word", word)
    return came(message, offset)


def renumbered(call: str, message: Message, renumber: Renumber, table: bytes) -> Optional[bytes]:
    """The payload of a received message at other field numbers; a custom entry has none."""
    schema = schema_of_type(message.version, message.code)
    return None if schema is None else message._read(call, renumber, schema, table, message.payload)


def longer_by(item: Item) -> int:
    """How many bytes longer an item was as received, since a numbering has read its payload."""
    received = item._received if isinstance(item, Message) else None
    return 0 if received is None else len(received) - len(cast(Message, item).payload)


def read_as(message: Message, payload: bytes) -> Message:
    """The received message with the payload that a numbering has read of its own."""
    made = object.__new__(Message)
    values = {**message.__dict__, "payload": payload, "_received": message.payload}
    object.__setattr__(made, "__dict__", values)
    return made


@functools.lru_cache(maxsize=1024)
def _class_of(version: int, code: int) -> Optional[Type[MessageRecord]]:
    """The class of the records of a type at a version; a custom entry has none. `Unknown` if there is no such version
    or type."""
    try:
        schema = schema_of(version, code)
    except Unknown:
        if _is_custom_entry(version, code):
            return None
        raise
    record: Optional[Type[Record]] = RECORDS[schema] if schema < len(RECORDS) else None
    if record is None or not issubclass(record, MessageRecord):
        raise Request("message").unexpected(f"the schema {schema}")
    return record


def _code_of(request: Request) -> int:
    """The code of the type that a call is given by its code or by its name."""
    type = request.arguments["type"]
    if isinstance(type, str):
        return request.step(_calls.type_code, type)
    return request.integer("type", "an int or a str")


def _is_custom_entry(version: int, code: int) -> bool:
    """Whether a code that has no schema at a version is that of a custom entry, which has a header."""
    try:
        _calls.header(version, code, 0)
    except Unknown:
        return False
    return True


def _check_class(record: object) -> None:
    """Says that what is looked for is not a class of a message's record, as it may be where no types are checked."""
    if not (isinstance(record, type) and issubclass(record, MessageRecord)):
        shown_as = record.__name__ if isinstance(record, type) else f"an object of {type(record).__name__}"
        raise TypeError(f"record: record must be the class of a message's record, not {shown_as}")


def _bytes_of(word: int) -> bytes:
    """The eight bytes of a word."""
    return word.to_bytes(8, "big")


def name_of(code: int) -> str:
    """The name of a type, or its code where a message was made with one that no type has."""
    try:
        return _calls.type_name(code)
    except Unknown:
        return f"code {code_text(code)}"


def type_of(code: int) -> str:
    """The name of a type and its code, or only the code where no type has it."""
    try:
        return f"{_calls.type_name(code)} ({code_text(code)})"
    except Unknown:
        return code_text(code)


def _fields(item: Union[Message, Skipped]) -> str:
    """An item as dataclasses show it, with a long payload cut short."""
    fields = (f"{part.name}={shown(getattr(item, part.name))}" for part in dataclasses.fields(item) if part.repr)
    return f"{type(item).__name__}({', '.join(fields)})"


def _text_of(value: Union[str, BytesLike, Mapping[str, Any]]) -> Union[str, BytesLike]:
    """JSON as a text, where it is a value of Python."""
    return json.dumps(dict(value), allow_nan=False) if isinstance(value, Mapping) else value
