"""The shared library: where it is looked for, and the arguments of its calls."""
import ctypes
import functools
import os
import pathlib
from typing import Any, Dict, List, Tuple

from . import _header

SONAME = f"libfantanolive.so.{_header.VERSION_MAJOR}"

# Where a wheel has the library, and where PREFIX/lib is from this file, PREFIX/share/fantanolive/python/fantanolive/_library.py.
_HERE = pathlib.Path(__file__).resolve()
BESIDE = [_HERE.parent / SONAME] + [_HERE.parents[4] / "lib" / SONAME for _ in range(len(_HERE.parents) > 4)]

BUFFER: List[Any] = [ctypes.c_void_p, ctypes.c_size_t]
COUNT: List[Any] = [ctypes.c_size_t]
YEAR: List[Any] = [ctypes.c_uint64]
RESULT: List[Any] = [ctypes.POINTER(ctypes.c_uint64)]

# The arguments of each call, in the order of fantanolive.h.
CALLS = {
    "apply": BUFFER + COUNT + BUFFER + BUFFER + YEAR + BUFFER + BUFFER + RESULT,
    "apply_journaled": BUFFER + COUNT + BUFFER + BUFFER + YEAR + BUFFER + BUFFER + BUFFER + RESULT,
    "take_back": BUFFER + COUNT + BUFFER + RESULT,
    "totals": BUFFER + RESULT,
    "merge": BUFFER + BUFFER + BUFFER + RESULT,
    "find": BUFFER + COUNT + BUFFER + RESULT,
    "find_many": BUFFER + COUNT + BUFFER + BUFFER + RESULT,
    "reconcile": BUFFER + COUNT + BUFFER + BUFFER + BUFFER + RESULT,
    "pages": BUFFER + COUNT + BUFFER + RESULT,
    "add_cents": BUFFER + COUNT,
    "post": BUFFER + COUNT + BUFFER + BUFFER + RESULT,
    "to_ebcdic": BUFFER + BUFFER + RESULT,
    "to_ascii": BUFFER + BUFFER + RESULT,
    "contacts_update": BUFFER + COUNT + BUFFER + BUFFER + RESULT,
    "contacts_codes": BUFFER + COUNT + BUFFER + BUFFER + RESULT,
    "records_to": BUFFER + BUFFER + BUFFER + BUFFER + RESULT,
}


def path() -> str:
    """The library's path or name: FANTANOLIVE_LIBRARY, else in the module or beside it, else left to the system's search."""
    named = os.environ.get("FANTANOLIVE_LIBRARY")
    if named:
        return named
    return str(next((place for place in BESIDE if place.exists()), SONAME))


@functools.lru_cache(maxsize=1)
def _loaded() -> Tuple[ctypes.CDLL, str]:
    """The library, and its path or name."""
    place = path()
    try:
        library = ctypes.CDLL(place)
    except OSError as error:
        raise OSError(
            f"the library can't be loaded: {error}; FANTANOLIVE_LIBRARY may name the path of {SONAME}"
        ) from None
    return library, place


@functools.lru_cache(maxsize=1)
def version() -> str:
    """The version of the library that is loaded; one with another first number than this module's is no library of it."""
    library, place = _loaded()
    try:
        function = library["fantanolive_version"]
    except AttributeError:
        raise OSError(f"{place} has no call fantanolive_version: it is older than this module") from None
    function.restype = ctypes.c_char_p
    found: str = function().decode("ascii")
    if found.split(".")[0] != str(_header.VERSION_MAJOR):
        raise OSError(f"{place} is version {found}, and this module is of {_header.VERSION}")
    return found


@functools.lru_cache(maxsize=1)
def functions() -> Dict[str, Any]:
    """The C functions by their names without fantanolive_; the library is loaded at the first call."""
    version()
    library, place = _loaded()
    found: Dict[str, Any] = {}
    for name, arguments in CALLS.items():
        try:
            function = library["fantanolive_" + name]
        except AttributeError:
            raise OSError(f"{place} has no call fantanolive_{name}: it is older than this module") from None
        function.argtypes = arguments
        function.restype = ctypes.c_uint64
        found[name] = function
    return found
