"""One call of this package: its arguments are checked, and what is wrong is an error that names them."""

from __future__ import annotations

import operator
import re
from typing import Any, Callable, Dict, Optional, SupportsIndex, Tuple, Type, TypeVar, cast

from ._declared import FIRST_VERSION, LAST_VERSION, JsonReason
from ._errors import (
    ERRORS,
    JournalError,
    JsonError,
    Malformed,
    NoId,
    NoResult,
    NoRoom,
    NotCanonical,
    OutOfMemory,
    TooLong,
    Unknown,
)
from ._kinds import BytesLike
from ._protocol import SCHEMA_NAMES

T = TypeVar("T")

# the number of schemas, whose numbers begin at 0
SCHEMAS = len(SCHEMA_NAMES)

TOO_LONG = "is too long: more than 4,294,967,295 bytes"

# what is wrong with a payload, which comes before these words
OF_PAYLOAD = {
    Malformed: "is malformed",
    NoId: "has no id",
    NoResult: "has an id, and no result",
    NotCanonical: "is not canonical",
    TooLong: TOO_LONG,
}

# what is wrong with a call
OF_CALL = {
    NoRoom: "not enough room",
    OutOfMemory: "out of memory",
    Unknown: "unknown, or not of the kind that the call is for",
}

# what each argument is that may be unknown, and which numbers are known
KNOWN = {
    "version": ("protocol version", f"{FIRST_VERSION} to {LAST_VERSION}"),
    "schema": ("schema", f"0 to {SCHEMAS - 1}"),
    "name": ("type", ""),
}

# why a JSON text or a field is rejected, where that is not the name of the reason
REASONS = {
    "not_json": "not JSON",
    "not_utf8": "not UTF-8",
    "several_members": "several members of a oneof",
    "wrong_kind": "wrong kind of value",
}

# what comes after the numbers that fit into 16, 32 and 64 bits
U16_END = 1 << 16
U32_END = 1 << 32
U64_END = 1 << 64

# what ends a line, a terminal takes as a command, or turns the text after it around; and what is in no UTF-8
CONTROLS = re.compile("[\x00-\x1f\x7f-\x9f\u2028-\u202e\u2066-\u2069\ud800-\udfff]")

# how many characters of a name are shown
MOST_SHOWN = 64


def byte_count(count: int) -> str:
    """A number of bytes as texts show it."""
    return "1 byte" if count == 1 else f"{count} bytes"


def escaped(text: str) -> str:
    """A text from outside, as texts of errors have it: on one line, and with no command for a terminal."""
    return CONTROLS.sub(lambda found: f"\\u{ord(found[0]):04x}", text)


def quoted(name: str) -> str:
    """A name from outside, in quotes, of a long one its beginning."""
    return f'"{escaped(name[:MOST_SHOWN])}"{".." if len(name) > MOST_SHOWN else ""}'


def why(reason: str) -> str:
    """Why a JSON text or a field is rejected."""
    return REASONS.get(reason, reason.replace("_", " "))


def code_text(code: int) -> str:
    """The code of a type in hexadecimal digits."""
    return f"{code:#06x}" if 0 <= code < U64_END else shown(code)


def shown(value: object) -> str:
    """A value as texts show it: of long bytes their beginning, and their number. No error shows the bytes of a payload,
    which may be a secret."""
    if isinstance(value, (bytes, bytearray, memoryview)):
        data = bytes(value)
        return repr(data) if len(data) <= 32 else f"{data[:16]!r}.. ({len(data)} bytes)"
    # Python does not write numbers of thousands of digits in decimals
    text = hex(value) if isinstance(value, int) and value.bit_length() > 64 else repr(value)
    return text if len(text) <= 80 else f"{text[:77]}.."


def meant(argument: str, name: str) -> str:
    """The question whether another name was meant: that of a type's record in place of the type's, or the reverse."""
    if argument == "schema":
        other = f"{name}Message"
        is_one = other in SCHEMA_NAMES
    else:
        other = name.partition("Message")[0]
        is_one = name in SCHEMA_NAMES and other != name
    return f"; did you mean {quoted(other)}?" if is_one else ""


class Request:
    """A call by its name in this package, with its arguments by their names. A method that takes the name of an
    argument checks it, and returns what the library takes in its place."""

    __slots__ = ("call", "arguments")

    def __init__(self, call: str, **arguments: object) -> None:
        self.call = call
        self.arguments = arguments

    def checked(self) -> Tuple[Any, ...]:
        """All arguments, as the library takes them."""
        # by a list, since a tuple of a generator is made too long first
        return tuple([CHECKS.get(name, Request.data)(self, name) for name in self.arguments])

    def version(self, argument: str = "version") -> int:
        """The number of a version."""
        return self._unsigned(argument, U32_END)

    def code(self, argument: str) -> int:
        """The code of a type."""
        return self._unsigned(argument, U16_END)

    def schema(self, argument: str) -> int:
        """The number of a schema, which may be given by the name of its record."""
        name = self.arguments[argument]
        if not isinstance(name, str):
            return self._unsigned(argument, U32_END, "an int or a str")
        if name not in SCHEMA_NAMES:
            raise self._unknown(argument)
        return SCHEMA_NAMES.index(name)

    def known_schema(self, argument: str) -> int:
        """The number of a schema that this package knows."""
        number = self.schema(argument)
        if number >= SCHEMAS:
            raise self._unknown(argument)
        return number

    def length(self, argument: str) -> int:
        """The length of a payload in bytes."""
        number = self.integer(argument)
        if number < 0:
            raise ValueError(f"{self.call}: {argument} {shown(number)} is negative")
        if number >= U32_END:
            is_payload = argument == "payload_length"
            text = f"payload of {shown(number)} bytes" if is_payload else f"{argument} {shown(number)}"
            raise self.error(TooLong, f"{text} {TOO_LONG}", argument)
        return number

    def flag(self, argument: str) -> bool:
        """Whether something is so."""
        return bool(self.arguments[argument])

    def text(self, argument: str) -> bytes:
        """A text as UTF-8."""
        value = self.arguments[argument]
        if not isinstance(value, str):
            raise TypeError(f"{self.call}: {argument} must be a str, not {type(value).__name__}")
        # half a surrogate is in no name; a class below str may encode itself otherwise
        return str.encode(value, "utf-8", "surrogatepass")

    def json(self, argument: str) -> bytes:
        """A JSON text, which is a text or its UTF-8 in bytes."""
        is_text = isinstance(self.arguments[argument], str)
        return self.text(argument) if is_text else self.data(argument, "a str or bytes-like")

    def data(self, argument: str, what: str = "bytes-like") -> bytes:
        """Bytes. All but `bytes` are copied: they could change while the call runs."""
        data = self.arguments[argument]
        # and not a class below it, whose length could be another
        if type(data) is bytes:
            return data
        try:
            return memoryview(cast(BytesLike, data)).tobytes()
        except TypeError:
            raise TypeError(f"{self.call}: {argument} must be {what}, not {type(data).__name__}") from None

    def step(self, function: Callable[..., T], *given: Any) -> T:
        """What a function returns, which this call makes: its errors are those of this call."""
        try:
            return function(*given)
        except JournalError as error:
            error.call = self.call
            # a step has a type by its code or by its name
            if error.argument in ("code", "name") and "type" in self.arguments:
                error.argument = "type"
            raise

    def refused(self, number: int) -> JournalError:
        """The error of a negative number. A later library may have further ones."""
        if number not in ERRORS:
            return self.unexpected(f"the error {number}")
        kind, arguments = ERRORS[number]
        argument = next((name for name in arguments if name in self.arguments), None)
        if kind is Unknown and argument is not None:
            return self._unknown(argument)
        if kind in OF_CALL:
            return self.error(kind, OF_CALL[kind])
        if argument is None:
            return self.error(kind, f"payload {OF_PAYLOAD[kind]}")
        what = argument if argument == "payload" else f"{argument} payload"
        return self.error(kind, f"{what} of {byte_count(len(self.data(argument)))} {OF_PAYLOAD[kind]}", argument)

    def error(self, kind: Type[JournalError], text: str, argument: Optional[str] = None) -> JournalError:
        """An error of this call, about one of its arguments or none. Its text does not name the call, which may be one
        that another makes; that of a TypeError or of a ValueError does."""
        value = self.arguments.get(argument) if argument else None
        return kind(text, call=self.call, argument=argument, value=value)

    def not_taken(self, reason: JsonReason, offset: int, path: str) -> JsonError:
        """The error of a rejected JSON text."""
        value = self.arguments["json"]
        is_json = reason is not JsonReason.NOT_JSON
        where = f"{escaped(path)}: " if path else ""
        at = "" if is_json else f" at byte {offset}"
        return JsonError(
            f"JSON of {byte_count(len(self.json('json')))}: {where}{why(reason)}{at}",
            call=self.call,
            argument="json",
            value=value,
            reason=reason,
            offset=None if is_json else offset,
            path=path,
        )

    def unexpected(self, what: str) -> JournalError:
        """The error that a later library may return something new."""
        return self.error(JournalError, f"the library returned {what}, which this package does not know")

    def integer(self, argument: str, what: str = "an int") -> int:
        """A number."""
        value = self.arguments[argument]
        try:
            return operator.index(cast(SupportsIndex, value))
        except TypeError:
            raise TypeError(f"{self.call}: {argument} must be {what}, not {type(value).__name__}") from None

    def _unsigned(self, argument: str, end: int, what: str = "an int") -> int:
        """A number that fits its parameter, below an end; ctypes would cut another."""
        number = self.integer(argument, what)
        if not 0 <= number < end:
            raise self._unknown(argument)
        return number

    def _unknown(self, argument: str) -> JournalError:
        value = self.arguments[argument]
        if argument == "code":
            text = f"unknown code {code_text(operator.index(cast(SupportsIndex, value)))}"
            return self.error(Unknown, f"{text}, or not of the kind that the call is for", argument)
        name, known = KNOWN[argument]
        if isinstance(value, str):
            return self.error(Unknown, f"unknown {name} {quoted(value)}{meant(argument, value)}", argument)
        return self.error(Unknown, f"unknown {name} {shown(value)} ({known})", argument)


# what checks each argument that is not bytes
CHECKS: Dict[str, Callable[[Request, str], Any]] = {
    "version": Request.version,
    "code": Request.code,
    "schema": Request.schema,
    "payload_length": Request.length,
    "index": Request.length,
    "direction": Request.length,
    "max_message_size": Request.length,
    "name": Request.text,
    "json": Request.json,
    "ignore_payloads": Request.flag,
}
