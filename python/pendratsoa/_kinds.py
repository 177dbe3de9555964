"""Kinds, which the library numbers, as words, and what arguments may be."""

from __future__ import annotations

from enum import Enum
from typing import Optional, Type, TypeVar, Union

# bytes that a call reads
BytesLike = Union[bytes, bytearray, memoryview]

# a schema, by its number or by the name of its record, as "SleepCommandMessage"
Schema = Union[int, str]

K = TypeVar("K", bound="Kind")


class Kind(str, Enum):
    """A kind, which is its word: it equals the word, and is printed as it. `number` is what the library calls it."""

    # the type of `value`
    _value_: str

    number: int
    """The number by which the library returns it."""

    def __new__(cls: Type[K], word: str, number: int) -> K:
        kind = str.__new__(cls, word)
        kind._value_ = word
        kind.number = number
        return kind

    __str__ = str.__str__

    @classmethod
    def of(cls: Type[K], number: int) -> Optional[K]:
        """The kind of a number. A later library may have further ones: None."""
        return next((kind for kind in cls if kind.number == number), None)
