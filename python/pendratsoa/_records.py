"""Records and the table of fields: a record is read from the fields that the library finds in a payload, and written as
those of which the library makes one. Nothing is known here of how a payload is encoded."""

from __future__ import annotations

import ctypes
import dataclasses
import functools
from array import array
from enum import IntEnum
from typing import TYPE_CHECKING, Any, ClassVar, Dict, List, NamedTuple
from typing import NoReturn, Optional, Tuple, Type, TypeVar

from . import _calls
from ._declared import FIELD_BOOL, FIELD_BYTES, FIELD_ENUM, FIELD_MESSAGE, FIELD_STRING
from ._declared import FIELD_NUMBERS as NUMBERS
from ._declared import LAST_VERSION, WRITING_NUMBERS, FieldReason
from ._errors import ERRORS, FieldError, JournalError, NotCanonical, Unknown
from ._kinds import BytesLike
from ._library import library
from ._protocol import SCHEMA_NAMES
from ._request import U64_END, Request, why
from ._tables import written_at

if TYPE_CHECKING:
    from ._compiled import RecordCodec
    from ._numbering import Numbering

# the room that is tried first: for entries, and for bytes
ENTRIES = 64
BYTES = 1024

I64_END = 1 << 63

R = TypeVar("R", bound="Record")


class OpenEnum(IntEnum):
    """An enum that keeps numbers without a name, as proto3 has them."""

    @classmethod
    def _missing_(cls, value: object) -> Any:
        if not isinstance(value, int) or not -(1 << 31) <= value < 1 << 31:
            return None
        member = int.__new__(cls, value)
        member._name_ = f"{cls.__name__}({value})"
        member._value_ = int(value)
        return member


class Row(NamedTuple):
    """A field of a record: its name, or that of the oneof that it is a member of, its number, its kind and its shape,
    what it holds if that is a record or an enum, its own name in a oneof, and the class that tells it apart there."""

    name: str
    number: int
    kind: int
    shape: str
    holds: Any = None
    member: Optional[str] = None
    wrapper: Any = None

    def told_by(self) -> Any:
        """The class by which a value is told apart as one of this member of a oneof."""
        if self.wrapper is not None:
            return self.wrapper
        return self.holds if self.kind == FIELD_MESSAGE else {FIELD_STRING: str, FIELD_BYTES: bytes}.get(self.kind, int)


class Record:
    """What all records have. Each is a frozen dataclass of `pendratsoa.messages`."""

    SCHEMA: ClassVar[int]
    """The number of its schema."""

    # its rows by their numbers and by the attributes that have them, and what each attribute is by default
    _by_number: ClassVar[Dict[int, Row]]
    _by_name: ClassVar[Dict[str, List[Row]]]
    _defaults: ClassVar[Dict[str, Any]]

    # what the compiled module has for it, where that is in use
    _compiled: ClassVar[Optional[RecordCodec]] = None

    def __init_subclass__(cls, **given: Any) -> None:
        super().__init_subclass__(**given)
        # it makes records of its own class, and not of one below that
        cls._compiled = None

    @classmethod
    def decode(cls: Type[R], payload: BytesLike) -> R:
        """The record that a payload means, in any encoding. `Malformed` if it is not well-formed."""
        if cls._compiled is not None:
            made: Optional[R] = cls._compiled.decode(payload)
            if made is not None:
                return made
        schema = cls.SCHEMA
        data = payload if type(payload) is bytes else Request("decode", payload=payload).data("payload")
        scratch = _taken()
        count = library.journal_fields(schema, data, len(data), scratch.table, ENTRIES)
        table = scratch.numbers[: NUMBERS * min(max(0, count), ENTRIES)].tolist()
        _spare.append(scratch)
        if not 0 <= count <= ENTRIES:
            table, data = _table_of(schema, data, count)
        return _read(cls, table, 0, 0, data)[0]

    def encode(self) -> bytes:
        """Its canonical payload. A `FieldError` names the field that a value is wrong for; a value of another type is a
        `TypeError`."""
        if self._compiled is not None:
            payload = self._compiled.encode(self)
            if payload is not None:
                return payload
        schema = self.SCHEMA
        writer = Writer(type(self))
        writer.record(self, 0)
        table = writer.table
        try:
            entries = array("Q", table)
        except OverflowError:
            raise writer.out_of_range() from None
        data = b"".join(writer.parts)
        scratch = _taken()
        count = len(table) // NUMBERS
        parameters = schema, entries.buffer_info()[0], count, data, len(data), scratch.writing, WRITING_NUMBERS
        length = library.journal_payload_of_fields(*parameters, scratch.out, BYTES)
        if length < 0 or length > BYTES or scratch.written[0] != 0:
            payload = _long_payload(writer, parameters, length, scratch)
        else:
            payload = scratch.bytes[:length].tobytes()
        _spare.append(scratch)
        return payload


class MessageRecord(Record):
    """What the records of messages have: the name and the code of the type, and a frame."""

    TYPE: ClassVar[str]
    """The name of the type, as "SleepCommand"."""

    CODE: ClassVar[int]
    """The code of the type."""

    BEFORE_VERSION: ClassVar[Optional[int]] = None
    """The version from which on the type has another record, or None."""

    def frame(self, version: int = 8, *, numbering: Optional[Numbering] = None) -> bytes:
        """Its frame at a version: the header, and its canonical payload, at the field numbers of a numbering if one is
        given. `Unknown` if it is none of the version."""
        if numbering is not None:
            return written_at("frame", numbering, version, self.frame(version))
        if self._compiled is not None:
            frame = self._compiled.frame(self, version)
            if frame is not None:
                return frame
        payload = self.encode()
        if self.BEFORE_VERSION is not None:
            return earlier_frame("frame", version, self.CODE, self.SCHEMA, payload)
        return _calls.frame(version, self.CODE, payload)


def described(record: Type[Record], rows: Tuple[Row, ...]) -> None:
    """Says which fields a record has, which is a dataclass."""
    record._by_number = {row.number: row for row in rows}
    record._by_name = {}
    for row in rows:
        record._by_name.setdefault(row.name, []).append(row)
    record._defaults = {field.name: field.default for field in dataclasses.fields(record)}


@functools.lru_cache(maxsize=1024)
def schema_of(version: int, code: int) -> int:
    """The schema of a type at a version, which is asked once."""
    return _calls.schema(version, code)


def earlier_schema(version: int, code: int) -> Optional[int]:
    """The schema of a type at a version, if the type has another one since. What is not a version or no type has
    none."""
    try:
        schema = schema_of(version, code)
        return None if schema == schema_of(LAST_VERSION, code) else schema
    except (TypeError, Unknown):
        return None


def earlier_frame(call: str, version: int, code: int, schema: int, payload: bytes) -> bytes:
    """The frame at a version of a payload whose schema the type has at earlier versions only: `frame` of the library
    would read it by the later one. `Unknown` if the version has another."""
    request = Request(call, version=version)
    number = request.version()
    if request.step(_calls.schema, number, code) != schema:
        raise Unknown(f"protocol version {version} has no {SCHEMA_NAMES[schema]}", call=call)
    found = request.step(_calls.canonical, schema, payload)
    return request.step(_calls.header, number, code, len(found)) + found


class _Scratch:
    """What a call has that needs no more room: for the numbers of a table, for a payload, and for what a table is
    written as; of each the address, and a view."""

    def __init__(self) -> None:
        self._numbers = (ctypes.c_uint64 * (NUMBERS * ENTRIES))()
        self._bytes = (ctypes.c_char * BYTES)()
        self._writing = (ctypes.c_uint64 * WRITING_NUMBERS)()
        self.table = ctypes.addressof(self._numbers)
        self.out = ctypes.addressof(self._bytes)
        self.writing = ctypes.addressof(self._writing)
        self.numbers = memoryview(self._numbers).cast("B").cast("Q")
        self.bytes = memoryview(self._bytes).cast("B")
        self.written = memoryview(self._writing).cast("B").cast("Q")


# those that no call has: another thread, and a finalizer or the handler of a signal within a call, have their own
_spare: List[_Scratch] = []


def _taken() -> _Scratch:
    """A scratch that no other call has."""
    try:
        return _spare.pop()
    except IndexError:
        return _Scratch()


_NOT_CANONICAL = next(number for number, (kind, _) in ERRORS.items() if kind is NotCanonical)


def _table_of(schema: int, data: bytes, count: int) -> Tuple[List[int], bytes]:
    """The entries of a payload that is not canonical, or has more of them than there is room for, and the payload that
    they are places in: it, or its canonical encoding."""
    if count == _NOT_CANONICAL:
        data = _calls.canonical(schema, data)
        count = library.journal_fields(schema, data, len(data), None, 0)
    if count < 0:
        raise Request("decode", schema=schema, payload=data).refused(count)
    numbers = array("Q", bytes(8 * NUMBERS * count))
    library.journal_fields(schema, data, len(data), numbers.buffer_info()[0], count)
    return numbers.tolist(), data


def _long_payload(writer: Writer, parameters: Tuple[Any, ...], length: int, scratch: _Scratch) -> bytes:
    """The payload of a table that there was no room for, or the error that there is none."""
    request = Request("encode", payload=parameters[3])
    number, index = scratch.written
    if number == 0:
        # nothing is written of an error
        out = ctypes.create_string_buffer(max(0, length))
        length = length if length < 0 else library.journal_payload_of_fields(*parameters, out, len(out))
        if length < 0:
            raise request.refused(length)
        return out.raw[:length]
    reason = FieldReason.of(number)
    if reason is None:
        raise request.unexpected(f"the kind of table {number}")
    raise _field_error(writer.of, writer.table, index, reason)


def _read(record: Type[R], table: List[int], at: int, level: int, data: bytes) -> Tuple[R, int]:
    """The record of the entries of a level, from a place on, and where those after it begin."""
    values = record._defaults.copy()
    lists: Dict[str, List[Any]] = {}
    end = len(table)
    while at < end and table[at] == level:
        row = record._by_number.get(table[at + 1])
        if row is None:
            raise unknown(record.__name__, table[at + 1])
        name, _, kind, shape, holds, _, wrapper = row
        if kind == FIELD_MESSAGE:
            value, at = _read(holds, table, at + NUMBERS, level + 1, data)
        else:
            value = _value(kind, holds, table, at, data)
            at += NUMBERS
        if wrapper is not None:
            value = wrapper(value)
        if shape == "repeated":
            lists.setdefault(name, []).append(value)
        else:
            values[name] = value
    for name, found in lists.items():
        values[name] = tuple(found)
    made = object.__new__(record)
    object.__setattr__(made, "__dict__", values)
    return made, at


def _value(kind: int, holds: Any, table: List[int], at: int, data: bytes) -> Any:
    """The value of the entry at a place, which is not a record."""
    if kind == FIELD_BYTES or kind == FIELD_STRING:
        first = table[at + 4]
        found = data[first : first + table[at + 5]]
        return found if kind == FIELD_BYTES else str(found, "utf-8")
    number = table[at + 3]
    if kind == FIELD_ENUM:
        return holds(signed(number))
    return number != 0 if kind == FIELD_BOOL else number


def signed(number: int) -> int:
    """The number of an enum, which the table has with its sign extended."""
    return number if number < I64_END else number - U64_END


def unknown(name: str, number: int) -> JournalError:
    """The error that a later library knows a further field."""
    return Request("decode").unexpected(f"the field {number} of {name}")


class Writer:
    """The table of a record of a class, and the bytes that its entries are places in."""

    __slots__ = ("of", "table", "parts", "size")

    def __init__(self, of: Type[Record]) -> None:
        self.of = of
        self.table: List[int] = []
        self.parts: List[bytes] = []
        self.size = 0

    def record(self, record: Record, level: int) -> None:
        """Appends the entries of a record."""
        values = record.__dict__
        for name, rows in type(record)._by_name.items():
            row, value = rows[0], values[name]
            if row.shape == "repeated":
                for element in value:
                    self.value(row, level, element)
            elif row.shape == "plain":
                self.value(row, level, value)
            elif value is not None:
                row = row if row.shape == "optional" else self.member(rows, level, value)
                self.value(row, level, value if row.wrapper is None else value.value)

    def member(self, rows: List[Row], level: int, value: Any) -> Row:
        """The member of a oneof that a value is of."""
        found = next((row for row in rows if isinstance(value, row.told_by())), None)
        if found is None:
            self.wrong(rows[0].number, level, value, *(row.told_by() for row in rows))
        return found

    def value(self, row: Row, level: int, value: Any) -> None:
        """Appends the entries of a value."""
        _, number, kind, _, holds, _, _ = row
        if kind == FIELD_MESSAGE:
            if value.__class__ is not holds:
                self.wrong(number, level, value, holds)
            self.table += (level, number, kind, holds.SCHEMA, 0, 0)
            self.record(value, level + 1)
        elif kind == FIELD_STRING or kind == FIELD_BYTES:
            data = self.encoded(number, level, value) if kind == FIELD_STRING else value
            if data.__class__ is not bytes:
                data = self.copied(number, level, value)
            self.table += (level, number, kind, 0, self.size, len(data))
            self.parts.append(data)
            self.size += len(data)
        else:
            if not isinstance(value, int):
                self.wrong(number, level, value, int)
            self.table += (level, number, kind, self.unsigned(value) if kind == FIELD_ENUM else value, 0, 0)

    def encoded(self, number: int, level: int, value: Any) -> bytes:
        """A text as UTF-8."""
        if not isinstance(value, str):
            self.wrong(number, level, value, str)
        # half a surrogate is in no text, which the library says
        return str.encode(value, "utf-8", "surrogatepass")

    def copied(self, number: int, level: int, value: Any) -> bytes:
        """Bytes that may be of another type, or change."""
        try:
            return memoryview(value).tobytes()
        except TypeError:
            self.wrong(number, level, value, bytes)

    def unsigned(self, number: int) -> int:
        """The number of an enum as the table has it; one that is not of 64 bits is negative, and is refused."""
        return number % U64_END if -I64_END <= number < I64_END else -1

    def wrong(self, number: int, level: int, value: Any, *wanted: type) -> NoReturn:
        """Says that a value is of none of the types that its field has."""
        table = [*self.table, level, number, 0, 0, 0, 0]
        path = _path(self.of, table, len(table) // NUMBERS - 1, len(wanted) > 1)
        names = ", ".join(one.__name__ for one in wanted)
        what = f"one of {names}" if len(wanted) > 1 else names
        raise TypeError(f"{self.of.__name__}.{path} must be {what}, not {type(value).__name__}")

    def out_of_range(self) -> FieldError:
        """The error that a number has not 64 bits."""
        at = next(at for at, number in enumerate(self.table) if not 0 <= number < U64_END)
        return _field_error(self.of, self.table, at // NUMBERS, FieldReason.OUT_OF_RANGE)


def _field_error(record: Type[Record], table: List[int], index: int, reason: FieldReason) -> FieldError:
    path = _path(record, table, index)
    return FieldError(f"field {path}: {why(reason)}", call="encode", reason=reason, path=path)


def _path(record: Type[Record], table: List[int], index: int, is_oneof: bool = False) -> str:
    """What leads to an entry of a table, as "headers[2].key"."""
    records: List[Any] = [record]
    counts: List[Dict[int, int]] = [{}]
    names: List[str] = []
    for at in range(0, NUMBERS * (index + 1), NUMBERS):
        level, number = table[at], table[at + 1]
        del records[level + 1 :], counts[level + 1 :], names[level:]
        row = records[level]._by_number[number]
        name = (is_oneof and row.name) or row.member or row.name
        if row.shape == "repeated":
            counts[level][number] = count = counts[level].get(number, -1) + 1
            name = f"{name}[{count}]"
        names.append(name)
        if at < NUMBERS * index and isinstance(row.holds, type) and issubclass(row.holds, Record):
            records.append(row.holds)
            counts.append({})
    return ".".join(names)
