"""Types of arguments, for people and type checkers."""
import datetime
from typing import TYPE_CHECKING, Any, List, Tuple, Union

if TYPE_CHECKING:
    import array
    import ctypes
    import mmap

    Numbers = array.array[int]
    # A buffer that a call reads.
    Readable = Union[bytes, bytearray, memoryview, array.array[Any], mmap.mmap, ctypes.Array[Any]]
    # A buffer that a call writes.
    Writable = Union[bytearray, memoryview, array.array[Any], mmap.mmap, ctypes.Array[Any]]
else:
    Numbers = Readable = Writable = Any

# A key, state or list of local codes: a str, or the bytes in EBCDIC.
Text = Union[str, "Readable"]
# Keys: a str each, or the bytes of all of them.
Keys = Union[List[str], Tuple[str, ...], "Readable"]
# A date: CCYYMMDD as a str, a datetime.date, or the bytes in EBCDIC.
Date = Union[str, datetime.date, "Readable"]
