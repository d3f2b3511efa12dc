"""Buffers lent to a C call: their addresses and lengths, held for the time of the call."""
import contextlib
import ctypes
import operator
from typing import Any, Dict, List, Optional, Tuple

from . import _header, _library
from .words import Refused

BYTES = 1
NUMBERS_32 = 4
NUMBERS_64 = 8
_FORMATS: Dict[int, Tuple[str, ...]] = {NUMBERS_32: ("I", "L"), NUMBERS_64: ("Q", "L", "N")}

# What an empty buffer's pointer is: never read or written, aligned for every kind of number, and not NULL.
_NOWHERE = ctypes.c_uint64()


class _Export(ctypes.Structure):
    """Py_buffer, as PyObject_GetBuffer fills it in."""

    _fields_ = [
        ("buf", ctypes.c_void_p),
        ("obj", ctypes.c_void_p),
        ("len", ctypes.c_ssize_t),
        ("itemsize", ctypes.c_ssize_t),
        ("readonly", ctypes.c_int),
        ("ndim", ctypes.c_int),
        ("format", ctypes.c_char_p),
        ("shape", ctypes.c_void_p),
        ("strides", ctypes.c_void_p),
        ("suboffsets", ctypes.c_void_p),
        ("internal", ctypes.c_void_p),
    ]


_SIMPLE = 0
_get_buffer = ctypes.pythonapi.PyObject_GetBuffer
_get_buffer.argtypes = [ctypes.py_object, ctypes.POINTER(_Export), ctypes.c_int]
_get_buffer.restype = ctypes.c_int
_release = ctypes.pythonapi.PyBuffer_Release
_release.argtypes = [ctypes.POINTER(_Export)]
_release.restype = None


def view_of(name: str, buffer: Any) -> memoryview:
    """A view of a bytes-like argument, which must be contiguous. While it lives the argument can't be resized."""
    try:
        view = memoryview(buffer)
    except TypeError:
        raise TypeError(f"{name} must be bytes-like, not {type(buffer).__name__}") from None
    if not view.c_contiguous:
        view.release()
        raise BufferError(f"{name} must be contiguous")
    return view


def number(name: str, value: int) -> int:
    """A number that C takes as 64 bits without a sign; ctypes would wrap others."""
    value = operator.index(value)
    if not 0 <= value < 2**64:
        raise OverflowError(f"{name} must be from 0 to 2**64 - 1")
    return value


class Call(contextlib.ExitStack):
    """One call of the library. Used with `with`: what it is lent is given back at the end."""

    def __init__(self, name: str) -> None:
        super().__init__()
        self._name = name
        self._ranges: List[Tuple[str, int, int, bool]] = []

    def read(self, name: str, buffer: Any) -> Tuple[int, int]:
        """The pointer and the length in bytes of a buffer that C reads."""
        view = self.enter_context(view_of(name, buffer))
        return self._lend(name, view, False), view.nbytes

    def write(self, name: str, buffer: Any, item: int = BYTES) -> Tuple[int, int]:
        """The pointer and the length, in items, of a buffer that C writes; its items are bytes or numbers of that size."""
        view = self.enter_context(view_of(name, buffer))
        if view.readonly:
            raise TypeError(f"{name} must be writable, and this {type(buffer).__name__} can only be read")
        if item != BYTES and (view.itemsize != item or view.format.lstrip("@=<") not in _FORMATS[item]):
            raise TypeError(f"{name} must have unsigned items of {item} bytes, such as array('{_FORMATS[item][0]}')")
        pointer = self._lend(name, view, True)
        if pointer % item != 0:
            raise ValueError(f"{name} must be aligned to {item} bytes")
        return pointer, view.nbytes // item

    def run(self, *arguments: Any, place: Optional[ctypes.c_uint64] = None) -> None:
        """Calls the function and raises a refusal; where a place is given, it goes with refusal 16."""
        self._refuse_overlap()
        answer = _library.functions()[self._name](*arguments)
        if answer != _header.DONE:
            raise Refused(self._name, answer, place.value if place is not None and answer == _header.NO_COUNTERPART else None)

    def _lend(self, name: str, view: memoryview, written: bool) -> int:
        if view.nbytes == 0:
            return ctypes.addressof(_NOWHERE)
        export = _Export()
        _get_buffer(view, ctypes.byref(export), _SIMPLE)
        self.callback(_release, ctypes.byref(export))
        self._ranges.append((name, export.buf, export.buf + export.len, written))
        start: int = export.buf
        return start

    def _refuse_overlap(self) -> None:
        for i, (name, start, end, written) in enumerate(self._ranges):
            for other, other_start, other_end, other_written in self._ranges[:i]:
                if (written or other_written) and start < other_end and other_start < end:
                    raise ValueError(f"{other} and {name} must not overlap")
