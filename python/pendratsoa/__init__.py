"""The journal protocol of the Restate SDKs, by the calls of Pendratsoa's shared library.

    stream = Stream(version=8)
    with open("journal", "rb") as file:
        for item in stream.read(file):
            if isinstance(item, Message):
                print(item.type, item.message)

What a call rejects is an exception below `JournalError`, whose text names the argument and its value, of a payload only
its length. A payload's schema is given by its number or by the name of its record, as "SleepCommandMessage". All may be
called from any thread.

The first call loads the library: the file that PENDRATSOA_LIBRARY names, or else that which is installed with this
package, or else what the system finds as libpendratsoa.so.0. Where there is none, the call is an ImportError. COMPILED
tells whether the compiled module makes the calls; it is not used where PENDRATSOA_PURE is set.
"""

from ._calls import (
    Notification,
    Verdict,
    append_frame,
    canonical,
    compare_journals,
    difference,
    frame,
    from_json,
    header,
    header_eq,
    is_well_formed,
    library_version,
    merge,
    notification,
    schema,
    to_json,
    type_code,
    type_name,
)
from ._declared import FIRST_VERSION, LAST_VERSION, FieldReason, IdKind, JsonReason, ResultKind, VerdictKind
from ._errors import (
    FieldError,
    Incomplete,
    JournalError,
    JsonError,
    Malformed,
    MessageTooLong,
    NoId,
    NoResult,
    NoRoom,
    NotCanonical,
    NumberingError,
    NumberingReason,
    OutOfMemory,
    TooLong,
    Unknown,
)
from ._fast import COMPILED
from ._items import Item, Message, Skipped, UnknownCode
from ._kinds import BytesLike, Schema
from ._numbering import Numbering
from ._protocol import SCHEMA_NAMES, TypeCode
from ._replay import ChangedField, Mismatch, Replay
from ._request import SCHEMAS
from ._stream import Stream

__all__ = [
    "COMPILED",
    "FIRST_VERSION",
    "LAST_VERSION",
    "SCHEMAS",
    "SCHEMA_NAMES",
    "BytesLike",
    "ChangedField",
    "FieldError",
    "FieldReason",
    "IdKind",
    "Incomplete",
    "Item",
    "JournalError",
    "JsonError",
    "JsonReason",
    "Malformed",
    "Message",
    "MessageTooLong",
    "Mismatch",
    "NoId",
    "NoResult",
    "NoRoom",
    "NotCanonical",
    "Notification",
    "Numbering",
    "NumberingError",
    "NumberingReason",
    "OutOfMemory",
    "Replay",
    "ResultKind",
    "Schema",
    "Skipped",
    "Stream",
    "TooLong",
    "TypeCode",
    "Unknown",
    "UnknownCode",
    "Verdict",
    "VerdictKind",
    "append_frame",
    "canonical",
    "compare_journals",
    "difference",
    "frame",
    "from_json",
    "header",
    "header_eq",
    "is_well_formed",
    "library_version",
    "merge",
    "notification",
    "schema",
    "to_json",
    "type_code",
    "type_name",
]
