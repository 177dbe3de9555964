"""The functions of the package, each of which is one call of the library."""

from __future__ import annotations

from dataclasses import dataclass
from typing import TYPE_CHECKING, Optional, Type, Union

from ._declared import IdKind, JsonReason, ResultKind, VerdictKind
from ._kinds import BytesLike, K, Schema
from ._named import named
from ._request import Request
from ._tables import written_at

if TYPE_CHECKING:
    from ._numbering import Numbering


@dataclass(frozen=True)
class Notification:
    """The id and the result of a notification.

    The id is a number, or the name of a signal. The result is the canonical payload of a `Value`, a `Failure` or
    `StateKeys`, or the text of an invocation id; of a void it is empty.
    """

    id_kind: IdKind
    """Of which kind the id is."""

    id: Union[int, str]
    """The id."""

    result_kind: ResultKind
    """Of which kind the result is."""

    result: bytes
    """The result."""


@dataclass(frozen=True)
class Verdict:
    """How two journals compare: the index of the first command that differs, or the number of commands if none does,
    and the text of a mismatch, which is empty without one."""

    kind: VerdictKind
    """Which verdict it is."""

    index: int
    """The index of a command, or the number of commands."""

    text: str
    """The text of a mismatch."""


def library_version() -> str:
    """The version of the library, as "0.3.0"."""
    return named.library_version().decode()


def schema(version: int, code: int) -> int:
    """The number of the schema that payloads of a type have at a version.

    `Unknown` if there is no such version, or the code is not that of a named type: a custom entry has no schema.
    """
    return named.schema(version, code)


def type_name(code: int) -> str:
    """The name of the type that has a code, as "SleepCommand", or "CustomEntry(64513)". `Unknown` if no type has it."""
    return named.type_name(code).decode()


def type_code(name: str) -> int:
    """The code of the named type that has a name, as "SleepCommand". `Unknown` if none has it."""
    return named.type_code(name)


def header(version: int, code: int, payload_length: int) -> bytes:
    """The eight bytes before a payload of a length in bytes.

    `Unknown` if there is no such version or type, `TooLong` for a length of more than 4,294,967,295, and a `ValueError`
    for a length below 0.
    """
    return named.header(version, code, payload_length)


def frame(version: int, code: int, payload: BytesLike, *, numbering: Optional[Numbering] = None) -> bytes:
    """The frame, at a version, of the message that a payload means: its header, and the canonical payload after it, at
    the field numbers of a numbering if one is given.

    Its header is that of `header`. `Unknown` if there is no such version, or the code is not that of a named type;
    `Malformed`, `TooLong`, `OutOfMemory`.
    """
    data = named.frame(version, code, payload)
    return data if numbering is None else written_at("frame", numbering, version, data)


def append_frame(
    out: bytearray, version: int, code: int, payload: BytesLike, *, numbering: Optional[Numbering] = None
) -> int:
    """Appends the frame that `frame` returns to `out`, and returns its length in bytes.

    Its errors are those of `frame`; after one of them `out` is as it was.
    """
    if not isinstance(out, bytearray):
        raise TypeError(f"append_frame: out must be a bytearray, not {type(out).__name__}")
    data = named.append_frame(version, code, payload)
    if numbering is not None:
        data = written_at("append_frame", numbering, version, data)
    out += data
    return len(data)


def is_well_formed(schema: Schema, payload: BytesLike) -> bool:
    """Whether a payload is well-formed for a schema. `Unknown` if there is no such schema."""
    return named.is_well_formed(schema, payload) == 1


def canonical(schema: Schema, payload: BytesLike) -> bytes:
    """The canonical encoding of what a payload means.

    `Unknown` if there is no such schema; `Malformed`, `TooLong`, `OutOfMemory`.
    """
    return named.canonical(schema, payload)


def merge(schema: Schema, first: BytesLike, second: BytesLike) -> bytes:
    """The canonical payload of the second payload merged into the first, as protobuf merges messages.

    `Unknown` if there is no such schema; `Malformed`, `TooLong`, `OutOfMemory`.
    """
    return named.merge(schema, first, second)


def to_json(schema: Schema, payload: BytesLike) -> str:
    """The JSON of what a payload means, in protobuf's own form, as a text.

    `Unknown` if there is no such schema; `Malformed`, `TooLong`, `OutOfMemory`.
    """
    return named.to_json(schema, payload).decode()


def from_json(schema: Schema, json: Union[str, BytesLike]) -> bytes:
    """The canonical payload of what a JSON text means, which is in protobuf's own form: a text, or its UTF-8 in bytes.

    `JsonError` if it means no value of the schema; `Unknown` if there is no such schema; `TooLong`, `OutOfMemory`.
    """
    found, (kind, offset) = named.from_json(schema, json)
    if kind == 0:
        return found
    request = Request("from_json", schema=schema, json=json)
    raise request.not_taken(kind_of("from_json", JsonReason, kind, "JSON text"), offset, found.decode())


def notification(code: int, payload: BytesLike) -> Notification:
    """The id and the result of a notification.

    `Unknown` if the code is not that of a notification; `Malformed`, `NoId`, `NoResult`, `TooLong`, `OutOfMemory`.
    """
    found, (kind, number, name_length, result_kind) = named.notification(code, payload)
    id_kind = kind_of("notification", IdKind, kind, "id")
    name, result = found[:name_length], found[name_length:]
    id_: Union[int, str] = name.decode() if id_kind is IdKind.SIGNAL_NAME else number
    return Notification(id_kind, id_, kind_of("notification", ResultKind, result_kind, "result"), result)


def header_eq(code: int, first: BytesLike, second: BytesLike, ignore_payloads: bool = False) -> bool:
    """Whether two commands of a type are the same for a replay.

    `ignore_payloads` leaves the content of user data out of the comparison, but not that of a signal.
    `Unknown` if the code is not that of a command; `Malformed`, `OutOfMemory`.
    """
    return named.header_eq(code, first, second, ignore_payloads) == 1


def difference(code: int, first: BytesLike, second: BytesLike) -> str:
    """A line for each printed field in which two commands of a type differ, each after a line feed; empty if none does.

    `Unknown` if the code is not that of a command; `Malformed`, `OutOfMemory`.
    """
    return named.difference(code, first, second).decode()


def compare_journals(version: int, recorded: BytesLike, replayed: BytesLike, ignore_payloads: bool = False) -> Verdict:
    """Compares a recorded journal with a replayed one, both streams of a version, command by command.

    Other items, custom entries among them, and trailing bytes are skipped. `Unknown` if there is no
    such version; `OutOfMemory`.
    """
    text, (kind, index) = named.compare_journals(version, recorded, replayed, ignore_payloads)
    return Verdict(kind_of("compare_journals", VerdictKind, kind, "verdict"), index, text.decode())


def kind_of(call: str, kinds: Type[K], number: int, what: str) -> K:
    """The kind of a number. A later library may have further ones."""
    kind = kinds.of(number)
    if kind is None:
        raise Request(call).unexpected(f"the kind of {what} {number}")
    return kind
