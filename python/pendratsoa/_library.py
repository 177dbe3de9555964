"""The shared library: where it is found, and its functions with their parameters. The first call loads it, so that the
package can be imported, and its pages made, where there is none."""

from __future__ import annotations

import ctypes
import os
import pathlib
import threading
from typing import Any, Callable, Dict, List, Optional, Tuple

from ._declared import CALLS

# the library that is installed with this package, and the name by which the system finds another
BUNDLED = pathlib.Path(__file__).with_name("libpendratsoa.so")
SONAME = "libpendratsoa.so.0"

# what each word of a call's parameters is for ctypes
_TYPES: Dict[str, List[Any]] = {
    "u16": [ctypes.c_uint16],
    "u32": [ctypes.c_uint32],
    "slice": [ctypes.c_void_p, ctypes.c_size_t],
}

PARAMETERS = {name: [type_ for word in words for type_ in _TYPES[word]] for name, words in CALLS.items()}

# where a library comes from
_SOURCES = "the wheel of a release has one, 'make python' builds one in a clone, and PENDRATSOA_LIBRARY names its file"


def find() -> str:
    """The file that PENDRATSOA_LIBRARY names, or else that of this package, or else the name that the system knows."""
    named = os.environ.get("PENDRATSOA_LIBRARY")
    if named:
        return named
    return str(BUNDLED) if BUNDLED.exists() else SONAME


def load(name: str) -> ctypes.CDLL:
    """The library of a name, with the parameters of each function. An ImportError if it is not there, or is not it."""
    try:
        library = ctypes.CDLL(name)
        for function, parameters in PARAMETERS.items():
            call = getattr(library, function)
            call.argtypes = parameters
            call.restype = ctypes.c_int64
    except (OSError, AttributeError) as error:
        text = f"pendratsoa: the library {name} cannot be used: {error}; {_SOURCES}"
        raise ImportError(text, name=__name__) from error
    return library


class Library:
    """The functions of the library, as attributes. The first one that is used loads it, and is an ImportError if there
    is none."""

    def __init__(self) -> None:
        self.loaded: Optional[ctypes.CDLL] = None
        # what is called once it is loaded
        self.when_loaded: List[Callable[[], object]] = []
        self._lock = threading.RLock()

    def load(self) -> None:
        """Loads it, if that is not done yet."""
        with self._lock:
            if self.loaded is not None:
                return
            found = load(find())
            for function in PARAMETERS:
                setattr(self, function, getattr(found, function))
            for call in self.when_loaded:
                call()
            self.loaded = found

    def addresses(self) -> Tuple[int, ...]:
        """Where the functions are, in the order of the header."""
        return tuple(ctypes.cast(getattr(self, name), ctypes.c_void_p).value or 0 for name in PARAMETERS)

    def __getattr__(self, name: str) -> Callable[..., int]:
        # Python looks here for what is not an attribute yet
        if name not in PARAMETERS:
            raise AttributeError(f"the library has no function {name}")
        self.load()
        found: Callable[..., int] = vars(self)[name]
        return found


library = Library()
