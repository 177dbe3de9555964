"""The errors of the calls."""

from __future__ import annotations

from typing import Dict, Optional, Tuple, Type

from . import _declared
from ._declared import LIST_NO_RENAME, LIST_NO_SET, FieldReason, JsonReason
from ._kinds import Kind


class JournalError(Exception):
    """A call failed, or the library returned what this package does not know.

    `call` is the name of the function, `argument` that of the argument which is at fault, and `value` the value of that
    argument. `argument` is None if no argument is at fault.
    """

    call: Optional[str]
    """The name of the function, or None if it is not known."""

    argument: Optional[str]
    """The name of the argument that is at fault, or None if none is."""

    value: object
    """The value of that argument, or None."""

    def __init__(
        self, *texts: str, call: Optional[str] = None, argument: Optional[str] = None, value: object = None
    ) -> None:
        super().__init__(*texts)
        self.call = call
        self.argument = argument
        self.value = value


class _PayloadError(JournalError, ValueError):
    """An error of a payload. If it is that of a message, `code` is the code of its type, and `offset` where the message
    begins in its stream, in bytes; each is None if it is not known."""

    code: Optional[int]
    """The code of the message's type, or None if it is not known."""

    offset: Optional[int]
    """Where the message begins in its stream, in bytes, or None if it is not known."""

    def __init__(
        self,
        *texts: str,
        call: Optional[str] = None,
        argument: Optional[str] = None,
        value: object = None,
        code: Optional[int] = None,
        offset: Optional[int] = None,
    ) -> None:
        super().__init__(*texts, call=call, argument=argument, value=value)
        self.code = code
        self.offset = offset


class Malformed(_PayloadError):
    """A payload is not well-formed for its schema. `code` and `offset` say of which message, if they are not None."""


class OutOfMemory(JournalError, MemoryError):
    """An allocation failed. The call can be repeated."""


class NoRoom(JournalError):
    """A slice for numbers was too short. This package never passes such a slice."""


class TooLong(JournalError, OverflowError):
    """A payload has, or would have, more than 4,294,967,295 bytes, which no header can say; or, as a `MessageTooLong`,
    more than the limit of its stream."""


class MessageTooLong(TooLong):
    """The payload of a message has more bytes than the limit of its stream. The eight bytes of its header do not count.

    `code` is that of its type, `length` the length of its payload by its header and `limit` the limit, and `offset` is
    where its header begins in the stream, all in bytes.
    """

    code: int
    """The code of its type."""

    length: int
    """The length of its payload by its header, in bytes."""

    limit: int
    """The limit, in bytes."""

    offset: int
    """Where its header begins in the stream, in bytes."""

    def __init__(
        self,
        *texts: str,
        call: Optional[str] = None,
        argument: Optional[str] = None,
        value: object = None,
        code: int = 0,
        length: int = 0,
        limit: int = 0,
        offset: int = 0,
    ) -> None:
        super().__init__(*texts, call=call, argument=argument, value=value)
        self.code = code
        self.length = length
        self.limit = limit
        self.offset = offset


class Unknown(JournalError, LookupError):
    """A version, a schema, a code or a name does not exist, or is not of the kind that the call is for."""


class NoId(_PayloadError):
    """A notification has no id. `code` and `offset` say of which message, if they are not None."""


class NoResult(_PayloadError):
    """A notification has an id, and no result. `code` and `offset` say of which message, if they are not None."""


class NotCanonical(JournalError, ValueError):
    """A payload is well-formed for its schema, and not canonical."""


class JsonError(JournalError, ValueError):
    """A JSON text means no value of its schema.

    `reason` tells why. `offset` is where the text stops being JSON, in bytes of its UTF-8, and None if it is JSON; then
    `path` leads to the rejected value, as "headers[2].key".
    """

    reason: JsonReason
    """Why it is rejected."""

    offset: Optional[int]
    """Where the text stops being JSON, in bytes of its UTF-8, and None if it is JSON."""

    path: str
    """What leads to the rejected value, as "headers[2].key", if the text is JSON; otherwise empty. Names of members are
    as they are in the text. The text of the error has their control characters escaped."""

    def __init__(
        self,
        *texts: str,
        call: Optional[str] = None,
        argument: Optional[str] = None,
        value: object = None,
        reason: JsonReason = JsonReason.NOT_JSON,
        offset: Optional[int] = None,
        path: str = "",
    ) -> None:
        super().__init__(*texts, call=call, argument=argument, value=value)
        self.reason = reason
        self.offset = offset
        self.path = path


class NumberingReason(Kind):
    """Which argument of a numbering has a fault."""

    NO_SET = "no_set", LIST_NO_SET
    """The descriptor set."""

    NO_RENAME = "no_rename", LIST_NO_RENAME
    """One of the renames."""


class NumberingError(JournalError, ValueError):
    """No numbering comes of a descriptor set and renames. `reason` tells which of them has a fault, `text` has the
    fault, and `argument` is "descriptor_set" or "renames"."""

    reason: NumberingReason
    """Which of the two has a fault."""

    text: str
    """The fault, as "a.proto: b.Message.field: number of a later field"."""

    def __init__(
        self,
        *texts: str,
        call: Optional[str] = None,
        argument: Optional[str] = None,
        value: object = None,
        reason: NumberingReason = NumberingReason.NO_SET,
        text: str = "",
    ) -> None:
        super().__init__(*texts, call=call, argument=argument, value=value)
        self.reason = reason
        self.text = text


class Incomplete(JournalError, EOFError):
    """A stream ended within an item; `rest` is the number of bytes of it received, and `offset` where it begins.
    `code` is that of its type, which is its first two bytes, and None if only one was received."""

    rest: int
    """How many bytes of the item were received."""

    offset: int
    """Where the item begins in the stream, in bytes."""

    code: Optional[int]
    """The code of its type, which is its first two bytes, or None if only one was received."""

    def __init__(
        self,
        *texts: str,
        call: Optional[str] = None,
        rest: int = 0,
        offset: int = 0,
        code: Optional[int] = None,
    ) -> None:
        super().__init__(*texts, call=call)
        self.rest = rest
        self.offset = offset
        self.code = code


class FieldError(JournalError, ValueError):
    """A field of a record cannot be encoded. `reason` tells why, and `path` leads to it, as "headers[2].key"."""

    reason: FieldReason
    """Why it cannot be encoded."""

    path: str
    """What leads to the field, as "headers[2].key"."""

    def __init__(
        self,
        *texts: str,
        call: Optional[str] = None,
        reason: FieldReason = FieldReason.UNKNOWN_FIELD,
        path: str = "",
    ) -> None:
        super().__init__(*texts, call=call)
        self.reason = reason
        self.path = path


_KINDS = (Malformed, OutOfMemory, NoRoom, TooLong, Unknown, NoId, NoResult, NotCanonical)

# the error of each negative number that the library returns, and the names of the arguments one of which it is about
ERRORS: Dict[int, Tuple[Type[JournalError], Tuple[str, ...]]] = {
    number: (next(kind for kind in _KINDS if kind.__name__ == name), arguments)
    for number, (name, arguments) in _declared.ERRORS.items()
}
