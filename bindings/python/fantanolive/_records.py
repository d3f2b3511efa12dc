"""What the records of fantanolive.layouts have in common: reading and writing their fields."""
import dataclasses
import re
from typing import ClassVar, List, Optional, Tuple, Type, TypeVar, Union

BytesLike = Union[bytes, bytearray, memoryview]
R = TypeVar("R", bound="Record")

_SPACE = b"\x40"
_SSN = re.compile(r"\d(?:-?\d){8,}")
_SIGNED = "{ABCDEFGHI"


@dataclasses.dataclass(frozen=True)
class Field:
    """A field of a layout. Columns count from 1. kind is text, number, ssn, amount, set, date or filler."""

    name: str
    title: str
    first: int
    last: int
    kind: str

    @property
    def width(self) -> int:
        return self.last - self.first + 1


class Record:
    """A row or record. Every field is a str without the spaces at its end, but the exclusion set of a row, which is an int."""

    NAME: ClassVar[str]
    WIDTH: ClassVar[int]
    FIELDS: ClassVar[Tuple[Field, ...]]

    @classmethod
    def read(cls: Type[R], record: BytesLike) -> R:
        """Reads a record in EBCDIC (code page 037). Whatever its bytes are, write gives them back."""
        with memoryview(record) as view:
            data = view.tobytes()
        if len(data) != cls.WIDTH:
            raise ValueError(f"a {cls.NAME} has {cls.WIDTH} bytes, not {len(data)}")
        values: List[Union[str, int]] = []
        for field in cls.FIELDS:
            part = data[field.first - 1 : field.last]
            values.append(part[0] if field.kind == "set" else part.rstrip(_SPACE).decode("cp037"))
        return cls(*values)

    @classmethod
    def read_all(cls: Type[R], file: BytesLike) -> List[R]:
        """Reads a file of such records."""
        with memoryview(file) as view, view.cast("B") as data:
            return [cls.read(data[start : start + cls.WIDTH]) for start in range(0, len(data), cls.WIDTH)]

    def write(self) -> bytes:
        """The record in EBCDIC, spaces behind each text. A ValueError names a field that doesn't fit its columns."""
        return b"".join(self._part(field) for field in self.FIELDS)

    def _part(self, field: Field) -> bytes:
        value = getattr(self, field.name)
        if field.kind == "set":
            if not 0 <= value <= 255:
                raise ValueError(f"{field.name} must be from 0 to 255")
            return bytes([value])
        try:
            part: bytes = value.encode("cp037")
        except UnicodeEncodeError:
            raise ValueError(f"{field.name} has a character that EBCDIC has not") from None
        if len(part) > field.width:
            raise ValueError(f"{field.name} does not fit its {field.width} columns")
        return part.ljust(field.width, _SPACE)

    def __repr__(self) -> str:
        """The fields that aren't blank, without SSNs."""
        shown = []
        for field in self.FIELDS:
            value = getattr(self, field.name)
            if value != "":
                shown.append(f"{field.name}={_masked(field, value)!r}")
        return f"{type(self).__name__}({', '.join(shown)})"


def _masked(field: Field, value: Union[str, int]) -> Union[str, int]:
    if isinstance(value, int) or field.kind in ("number", "amount"):
        return value
    if field.kind == "ssn":
        return "*" * len(value[:5]) + value[5:]
    return _SSN.sub(lambda found: re.sub(r"\d(?=(?:-?\d){4})", "*", found.group()), value)


def number_of(text: str, width: int) -> Optional[int]:
    """The number of a text of so many digits, else None."""
    return int(text) if len(text) == width and text.isascii() and text.isdigit() else None


def cents_of(text: str, width: int) -> Optional[int]:
    """The cents of a text of so many digits, the last of which may carry a plus sign, else None."""
    last = text[-1:]
    if last and last in _SIGNED:
        text = text[:-1] + str(_SIGNED.index(last))
    return number_of(text, width)


def digits_of(name: str, number: int, width: int) -> str:
    """A number in so many digits."""
    if not 0 <= number < 10**width:
        raise ValueError(f"{name} does not fit its {width} columns")
    return f"{number:0{width}d}"
