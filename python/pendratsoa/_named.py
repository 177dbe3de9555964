"""The calls of the library by their names in this package. They are those of the compiled module, where it is in use,
and otherwise made here, by ctypes. What they take, and what is wrong with it, is one list for both."""

from __future__ import annotations

import ctypes
import functools
from typing import Any, Callable, Dict, List, NoReturn, Protocol, Sequence, Tuple, Type, Union, cast

from ._declared import NAMED_CALLS, NamedCall, NamedCalls
from ._kinds import BytesLike
from ._library import library
from ._request import Request

# calls by the name of what makes them here, where that is another one
ALIASES = {
    "append_frame": "journal_frame",
    "Replay": "journal_verdict",
    "Stream": "journal_renumber",
    "read_payload": "journal_renumber",
    "write_payload": "journal_renumber",
    "read_stream": "journal_renumber_stream",
    "write_stream": "journal_renumber_stream",
}

PLACES = {call.name: place for place, call in enumerate(NAMED_CALLS)}
PLACES.update({name: [call.function for call in NAMED_CALLS].index(function) for name, function in ALIASES.items()})


def request_of(place: int, name: str, given: Tuple[Any, ...]) -> Request:
    """A call with its arguments by their names."""
    call = NAMED_CALLS[place]
    return Request(name, **dict(zip(call.takes, given)))


def checked(place: int, name: str, given: Tuple[Any, ...]) -> Tuple[Any, ...]:
    """The arguments of a call as the library takes them, or the error that one is none."""
    return request_of(place, name, given).checked()


def refused(place: int, name: str, given: Tuple[Any, ...], number: int) -> NoReturn:
    """Raises the error of a negative number that a call returned."""
    raise request_of(place, name, given).refused(number)


def parameters_of(call: NamedCall, values: Sequence[Any]) -> Tuple[List[Any], int]:
    """Checked arguments as parameters of C, where bytes are two, and how many bytes all but a table have."""
    parameters: List[Any] = []
    size = 0
    for name, value in zip(call.takes, values):
        if name == "table":
            parameters += value, len(value) // call.entry
        elif type(value) is bytes:
            parameters += value, len(value)
            size += len(value)
        else:
            parameters.append(value)
    return parameters, size


def by_ctypes(place: int, name: str) -> Callable[..., Any]:
    """A call, made by ctypes."""
    call = NAMED_CALLS[place]
    # a type is made once: it is slow to make, and no memory is freed with it before a collection
    array = ctypes.c_uint64 * call.numbers
    given_array = ctypes.c_uint64 * call.given

    def made(*given: Any) -> Any:
        values = checked(place, name, given)
        changed = given_array.from_buffer_copy(values[-1]) if call.given else given_array()
        numbers = array()
        parameters, size = parameters_of(call, values[:-1] if call.given else values)
        for struct in (changed, numbers):
            parameters += (struct, len(struct)) if len(struct) else ()
        result = written(getattr(library, call.function), call, parameters, size)
        if isinstance(result, int) and result < 0:
            refused(place, name, given, result)
        if call.changes:
            return result, tuple(numbers), bytes(changed)
        return (result, tuple(numbers)) if call.numbers else result

    return made


def written(function: Callable[..., int], call: NamedCall, parameters: List[Any], size: int) -> Union[int, bytes]:
    """What a call returns, or the bytes that it writes. The size is that of what it reads."""
    if call.unit == 0:
        return function(*parameters)
    needed = call.more + call.times * size
    while True:
        out = room_for(call.unit * needed)()
        room = len(out) // call.unit
        needed = function(*parameters, out, room)
        if needed < 0:
            return needed
        if needed <= room:
            return memoryview(out)[: call.unit * needed].tobytes()


@functools.lru_cache(maxsize=None)
def _room(bits: int) -> Type[ctypes.Array[ctypes.c_char]]:
    """Arrays of a power of two of bytes, each made once: a new one for each length would be slow."""
    return ctypes.c_char * (1 << bits)


def room_for(length: int) -> Type[ctypes.Array[ctypes.c_char]]:
    """Arrays of at least this many bytes."""
    return _room((length - 1).bit_length())


class Renumber(Protocol):
    """A call that writes a payload of a schema, or a stream of a version, at other field numbers."""

    def __call__(self, number: int, table: bytes, data: BytesLike, /) -> bytes: ...


class Calls(NamedCalls, Protocol):
    """The calls, with those that have another name here."""

    Stream: Renumber
    read_payload: Renumber
    write_payload: Renumber
    read_stream: Renumber
    write_stream: Renumber

    def append_frame(self, version: int, code: int, payload: BytesLike, /) -> bytes: ...

    def Replay(
        self, version: int, recorded: BytesLike, replayed: BytesLike, ignore_payloads: bool, /
    ) -> Tuple[bytes, Tuple[int, ...]]: ...


class _Calls:
    """The calls, as attributes. The first one that is used loads the library, and is an ImportError if there is
    none."""

    def __getattr__(self, name: str) -> Callable[..., Any]:
        # Python looks here for what is not an attribute yet
        if name not in PLACES:
            raise AttributeError(f"there is no call {name}")
        library.load()
        found: Callable[..., Any] = vars(self)[name]
        return found

    def use(self, made: Callable[[int, str], Callable[..., Any]]) -> None:
        """Makes each call in this way."""
        found: Dict[str, Any] = {name: made(place, name) for name, place in PLACES.items()}
        vars(self).update(found)


calls = _Calls()
named = cast(Calls, calls)
