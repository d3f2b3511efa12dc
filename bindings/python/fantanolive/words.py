"""Refusals and codes in words, and refusals as exceptions."""
from typing import Dict, List, NamedTuple, Optional, Tuple

from . import _header
from ._header import Refusal


class Text(NamedTuple):
    """What a number means: what is wrong, where (which columns, or which argument) and how to fix it."""

    number: int
    wrong: str
    where: str
    mend: str


def refusal_text(number: int) -> Optional[Text]:
    """The Text of a refusal, or None."""
    return _text(_header.REFUSAL_TEXTS, number)


def code_text(number: int) -> Optional[Text]:
    """The Text of a code of a verdict, or None: errors are 1 to 18, warnings 51 and 52."""
    return _text(_header.CODE_TEXTS, number)


def codes_of(verdict: int) -> List[int]:
    """The codes of a verdict, rising. A verdict is the sum of 2**code over them."""
    return [code for code in range(64) if verdict >> code & 1]


def _text(texts: Dict[int, Tuple[str, str, str]], number: int) -> Optional[Text]:
    return Text(number, *texts[number]) if number in texts else None


class Refused(Exception):
    """A call answered a refusal; nothing was written. It has the name of the call, the refusal and its number, the text's three
    parts (wrong, where, mend) and, with refusal 16, the place of the byte, the first being 0; else place is None. The refusal is
    None where the library answered a number that this module doesn't know."""

    def __init__(self, call: str, number: int, place: Optional[int] = None) -> None:
        super().__init__(call, number, place)
        self.call = call
        self.number = number
        self.refusal = Refusal(number) if number in _header.REFUSAL_TEXTS else None
        self.place = place
        _, self.wrong, self.where, self.mend = refusal_text(number) or Text(number, "unknown refusal", "", "")

    def __str__(self) -> str:
        at = "" if self.place is None else f" (at byte {self.place})"
        return f"{self.call}: refusal {self.number}: {self.wrong}{at}; {self.where}; {self.mend}"
