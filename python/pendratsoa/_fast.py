"""The compiled module, where it is there: it makes all calls of the library, reads and writes records, and takes items
from streams. Where it is not, since there was no compiler or this is no CPython, or where PENDRATSOA_PURE is set, all
of it is done in Python, by ctypes. The first call loads the library, whose functions the module takes by their
addresses."""

from __future__ import annotations

import os
from typing import TYPE_CHECKING, Any, Optional, Tuple, Type, Union

from . import _named
from ._items import Message, Skipped, UnknownCode
from ._library import library
from ._pending import Pending
from ._protocol import SCHEMA_NAMES
from ._records import MessageRecord, Record, Row
from .messages import RECORDS as CLASSES

if TYPE_CHECKING:
    from . import _compiled

RECORDS: Tuple[Type[Record], ...] = CLASSES

SHAPES = ("plain", "optional", "repeated", "member")


def _row(row: Row) -> Tuple[Any, ...]:
    """A field, as the compiled module takes it."""
    is_record = isinstance(row.holds, type) and issubclass(row.holds, Record)
    schema = RECORDS.index(row.holds) if is_record else -1
    enum = None if is_record else row.holds
    return row.number, row.kind, SHAPES.index(row.shape), row.name, schema, enum, row.wrapper


def _record(record: Type[Record]) -> Tuple[Any, ...]:
    """A record, as the compiled module takes it: its class, the code of its type or -1, what its fields are by default,
    and its rows."""
    code = record.CODE if issubclass(record, MessageRecord) else -1
    return record, code, record._defaults, tuple(map(_row, record._by_number.values()))


def _imported() -> Optional[Type[_compiled.Native]]:
    """The class of the compiled module, or None."""
    if os.environ.get("PENDRATSOA_PURE"):
        return None
    try:
        from ._compiled import Native
    except ImportError:
        return None
    return Native


_NATIVE = _imported()
# whether the compiled module makes the calls
COMPILED = _NATIVE is not None

# what the compiled module has, once the library is loaded
_native: Optional[_compiled.Native] = None


def native() -> Optional[_compiled.Native]:
    """What has all calls, two functions for each record, and what comes of streams; or None."""
    if _NATIVE is None:
        return None
    schemas = {name: number for number, name in enumerate(SCHEMA_NAMES)}
    items = Message, UnknownCode, Skipped
    records = tuple(map(_record, RECORDS))
    return _NATIVE(library.addresses(), records, items, schemas, _named.checked, _named.refused)


def use() -> None:
    """Makes all calls by the functions of the library."""
    global _native
    if _native is not None:
        _native.point(library.addresses())
        return
    _native = native()
    if _native is None:
        _named.calls.use(_named.by_ctypes)
        return
    _named.calls.use(_native.call)
    for record in RECORDS:
        record._compiled = _native.of(record.SCHEMA)


def pending_of(version: int, limit: Optional[int]) -> Union[Pending, _compiled.Pending]:
    """What comes of a stream and is in no item yet."""
    if _native is None:
        library.load()
    return Pending(version, limit) if _native is None else _native.pending(version, limit)


library.when_loaded.append(use)
