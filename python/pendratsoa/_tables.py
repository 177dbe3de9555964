"""The two tables of a numbering, by which payloads are written at other field numbers."""

from __future__ import annotations

import functools
from typing import TYPE_CHECKING, Optional

from ._declared import NUMBERING_READING, NUMBERING_WRITING
from ._errors import Unknown
from ._kinds import BytesLike, Schema
from ._named import named
from ._request import Request

if TYPE_CHECKING:
    from ._numbering import Numbering

# how many bytes a header has, and how many of them are before its length
HEADER = 8
HEAD = 4


class Tables:
    """The tables of fields of both directions."""

    __slots__ = ("_reading", "_writing")

    def __init__(self, descriptor_set: bytes, renames: bytes) -> None:
        self._reading = named.numbering(NUMBERING_READING, descriptor_set, renames)
        self._writing = named.numbering(NUMBERING_WRITING, descriptor_set, renames)

    def read_payload(self, schema: Schema, payload: BytesLike) -> bytes:
        """A payload at the field numbers of the set, at the protocol's own numbers.

        If it is canonical there, it is canonical here. A field that only the set has is left out. `Unknown` if there is
        no such schema; `Malformed`, `TooLong`, `OutOfMemory`.
        """
        known = Request("read_payload", schema=schema).known_schema("schema")
        return named.read_payload(known, self._reading, payload)

    def write_payload(self, schema: Schema, payload: BytesLike) -> bytes:
        """A payload at the protocol's own field numbers, at the numbers of the set.

        If it is canonical here, it is canonical there. A field that the set has not is left out. `Unknown` if there is
        no such schema; `Malformed`, `TooLong`, `OutOfMemory`.
        """
        known = Request("write_payload", schema=schema).known_schema("schema")
        return named.write_payload(known, self._writing, payload)


def tables_of(call: str, numbering: Numbering) -> Tables:
    """The tables of a numbering."""
    if isinstance(numbering, Tables):
        return numbering
    raise TypeError(f"{call}: numbering must be a Numbering, not {type(numbering).__name__}")


@functools.lru_cache(maxsize=1024)
def schema_of_type(version: int, code: int) -> Optional[int]:
    """The schema of a type at a version; a custom entry has none."""
    try:
        return named.schema(version, code)
    except Unknown:
        return None


def written_at(call: str, numbering: Numbering, version: int, frame: bytes) -> bytes:
    """The frame of a message at the field numbers of a numbering."""
    table = tables_of(call, numbering)._writing
    schema = schema_of_type(version, int.from_bytes(frame[:2], "big"))
    return frame if schema is None else with_payload(frame, named.write_payload(schema, table, frame[HEADER:]))


def with_payload(message: bytes, payload: bytes) -> bytes:
    """A message with another payload: its header is the same but the length."""
    return message[:HEAD] + len(payload).to_bytes(HEADER - HEAD, "big") + payload
