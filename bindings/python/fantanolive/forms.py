"""The calls over whole files: arguments are bytes-like and stay as they are, what a call writes is returned as new bytes. A
master and a table are just their rows and records here, with no space behind them. Keys, states, dates and local codes may be
ordinary strings. A refusal is raised as Refused."""
import array
import datetime
from typing import TYPE_CHECKING, Any, Iterable, NamedTuple, Tuple

from . import _header, calls
from ._lending import view_of
from .layouts import Control, Detail

if TYPE_CHECKING:
    from ._types import Date, Keys, Numbers, Readable, Text

TYPE_COLUMN = 73
TYPE_A = 0xC1
STATUS_COLUMN = 196
LIVE = 0x40


def _shown(result: Any) -> str:
    """A result without the bytes of files, which hold SSNs."""
    parts = []
    for name, value in result._asdict().items():
        parts.append(f"{name}=<{len(value)} bytes>" if isinstance(value, bytes) else f"{name}={value!r}")
    return f"{type(result).__name__}({', '.join(parts)})"


class Applied(NamedTuple):
    """What apply leaves: the new master and the reject file, a 64-bit verdict per detail, and the Counts."""

    master: bytes
    rejects: bytes
    verdicts: "Numbers"
    counts: calls.Counts

    def __repr__(self) -> str:
        return _shown(self)


class Journaled(NamedTuple):
    """What apply_journaled leaves: that of apply, and the journal."""

    master: bytes
    rejects: bytes
    verdicts: "Numbers"
    counts: calls.Counts
    journal: bytes

    def __repr__(self) -> str:
        return _shown(self)


class FoundMany(NamedTuple):
    """What find_many finds: a place per key, the first row being 0, or NO_PLACE, and the number of comparisons."""

    places: "Numbers"
    comparisons: int


class Posted(NamedTuple):
    """What post leaves: the new master and the numbers of the listed lines, the first line being 1."""

    master: bytes
    lines: "Numbers"

    def __repr__(self) -> str:
        return _shown(self)


class Updated(NamedTuple):
    """What contacts_update leaves: the new table and the numbers of the faulty records, the first being 1."""

    table: bytes
    faulty: "Numbers"

    def __repr__(self) -> str:
        return _shown(self)


def make_batch(state: str, details: Iterable[Detail]) -> bytes:
    """A batch of details: their records, and a control record of the state with their totals."""
    records = b"".join(detail.write() for detail in details)
    control = Control(state=state, mark="CTL")
    counted = calls.totals(records + control.write())
    control.tanf_records_number = counted.tanf_count
    control.non_tanf_records_number = counted.non_tanf_count
    control.tanf_amount_number = counted.tanf_amount
    control.non_tanf_amount_number = counted.non_tanf_amount
    return records + control.write()


def apply(master: "Readable", batch: "Readable", locals: "Text", year: int) -> Applied:
    """Applies a batch to a master. locals is the list of local codes, such as "001025". Returns Applied."""
    lent = _Lent(master, batch)
    return lent.left(calls.apply(*lent.arguments(locals, year)))


def apply_journaled(master: "Readable", batch: "Readable", locals: "Text", year: int) -> Journaled:
    """Applies a batch to a master, with a journal for take_back. Returns Journaled."""
    lent = _Lent(master, batch)
    journal = bytearray(12 + 205 * lent.details)
    counts = calls.apply_journaled(*lent.arguments(locals, year), journal)
    return Journaled(*lent.left(calls.Counts(*counts[:-1])), _front(journal, counts.journal))


def take_back(master: "Readable", journal: "Readable") -> bytes:
    """The master from before a batch, from the one that it left and its journal."""
    rows, space = _rows_and_space("master", master, _header.ROW, 0)
    return _front(space, _header.ROW * calls.take_back(space, rows, journal))


def merge(first: "Readable", second: "Readable") -> bytes:
    """Two batches of one state merged into one."""
    out = bytearray(_count("first", first, 1) + _count("second", second, 1))
    records = calls.merge(first, second, out)
    return _front(out, _header.RECORD * records)


def find(master: "Readable", key: "Text") -> int:
    """Finds the row of a key, such as "OH123456789N". Returns its place, the first being 0."""
    return calls.find(master, _count("master", master, _header.ROW), _ebcdic("key", key))


def find_many(master: "Readable", keys: "Keys") -> FoundMany:
    """Finds the rows of many keys, twelve bytes each and strictly rising in byte order (letters before digits). Returns FoundMany."""
    looked_for = _ebcdic("keys", "".join(keys)) if isinstance(keys, (list, tuple)) else keys
    places = array.array("I", [0]) * _count("keys", looked_for, _header.KEY)
    comparisons = calls.find_many(master, _count("master", master, _header.ROW), looked_for, places)
    return FoundMany(places, comparisons)


def reconcile(master: "Readable", state: "Text", date: "Date") -> bytes:
    """The reconciliation file of a state, such as "OH", with a date: "20071231" or a datetime.date."""
    rows = _count("master", master, _header.ROW)
    out = bytearray(_header.RECORD * (rows + 1))
    if isinstance(date, datetime.date):
        date = f"{date.year:04d}{date.month:02d}{date.day:02d}"
    records = calls.reconcile(master, rows, _ebcdic("state", state), _ebcdic("date", date), out)
    return _front(out, _header.RECORD * (records + 1))


def pages(master: "Readable") -> bytes:
    """The pages of a master: lines of 132 EBCDIC bytes without line ends, as many as its live rows take."""
    rows = _count("master", master, _header.ROW)
    live = _bytes("master", master)[STATUS_COLUMN - 1 :: _header.ROW].count(LIVE)
    out = bytearray(_header.PAGE_LINE * (live + 2 * -(-live // _header.PAGE_CASES)))
    calls.pages(master, rows, out)
    return bytes(out)


def add_cents(master: "Readable") -> bytes:
    """A master that has no cents yet with 00 cents in every row."""
    rows, space = _rows_and_space("master", master, _header.ROW, 0)
    calls.add_cents(space, rows)
    return bytes(space)


def post(master: "Readable", file: "Readable") -> Posted:
    """Posts a weekly collection file. Returns Posted."""
    rows, space = _rows_and_space("master", master, _header.ROW, 0)
    lines = array.array("I", [0]) * max(_count("file", file, _header.LINE) - 1, 0)
    listed = calls.post(space, rows, file, lines)
    return Posted(bytes(space), lines[:listed])


def to_ebcdic(file: "Readable") -> bytes:
    """A file turned from ASCII into EBCDIC."""
    out = bytearray(_count("file", file, 1))
    calls.to_ebcdic(file, out)
    return bytes(out)


def to_ascii(file: "Readable") -> bytes:
    """A file turned from EBCDIC into ASCII."""
    out = bytearray(_count("file", file, 1))
    calls.to_ascii(file, out)
    return bytes(out)


def contacts_update(table: "Readable", file: "Readable") -> Updated:
    """Reads a contact file into a table. Returns Updated."""
    records = _count("file", file, _header.CONTACT)
    count, space = _rows_and_space("table", table, _header.CONTACT, records)
    faulty = array.array("I", [0]) * records
    counts = calls.contacts_update(space, count, file, faulty)
    return Updated(_front(space, _header.CONTACT * counts.contacts), faulty[: counts.faulty])


def contacts_codes(table: "Readable", state: "Text") -> bytes:
    """The local codes of a state, all but 000: a list as apply takes it."""
    count = _count("table", table, _header.CONTACT)
    out = bytearray(_header.LOCAL_CODE * count)
    codes = calls.contacts_codes(table, count, _ebcdic("state", state), out)
    return _front(out, _header.LOCAL_CODE * codes)


def records_to(row: "Readable", wanted: "Readable", locals: "Text") -> bytes:
    """The C, L, R and M records that lead from a row to a wanted row, one behind the other."""
    out = bytearray(_header.RECORDS_SIZE)
    records = calls.records_to(row, wanted, _ebcdic("locals", locals), out)
    return _front(out, _header.RECORD * records)


class _Lent:
    """What a batch is applied to and writes: a copy of the master with space for new rows, verdicts and reject file."""

    def __init__(self, master: "Readable", batch: "Readable") -> None:
        self.sent = _bytes("batch", batch)
        self.details = max(len(self.sent) // _header.RECORD - 1, 0)
        adds = self.sent[TYPE_COLUMN - 1 :: _header.RECORD].count(TYPE_A)
        self.rows, self.space = _rows_and_space("master", master, _header.ROW, adds)
        self.verdicts = array.array("Q", bytes(8 * self.details))
        self.rejects = bytearray(_header.RECORD * (self.details + 1))

    def arguments(self, locals: "Text", year: int) -> "Tuple[bytearray, int, bytes, Readable, int, Numbers, bytearray]":
        return self.space, self.rows, self.sent, _ebcdic("locals", locals), year, self.verdicts, self.rejects

    def left(self, counts: calls.Counts) -> Applied:
        rejected = self.details - self.verdicts.count(0)
        master = _front(self.space, _header.ROW * counts.rows)
        return Applied(master, _front(self.rejects, _header.RECORD * (rejected + 1)), self.verdicts, counts)


def _ebcdic(name: str, text: "Text") -> "Readable":
    """A str in EBCDIC (code page 037); bytes as they are. What the characters are is left to the call to judge."""
    if not isinstance(text, str):
        return text
    try:
        return text.encode("cp037")
    except UnicodeEncodeError:
        raise ValueError(f"{name} has a character that EBCDIC has not") from None


def _count(name: str, buffer: "Readable", width: int) -> int:
    """How many whole blocks of a width a buffer has; a rest is left to the call to refuse."""
    with view_of(name, buffer) as view:
        return view.nbytes // width


def _bytes(name: str, buffer: "Readable") -> bytes:
    with view_of(name, buffer) as view:
        return view.tobytes()


def _rows_and_space(name: str, buffer: "Readable", width: int, more: int) -> Tuple[int, bytearray]:
    """The number of blocks of a buffer, and a copy of it with space for more."""
    copy = bytearray(_bytes(name, buffer))
    count = len(copy) // width
    copy.extend(bytes(width * more))
    return count, copy


def _front(buffer: bytearray, length: int) -> bytes:
    with memoryview(buffer) as view:
        return bytes(view[:length])
