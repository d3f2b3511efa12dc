"""The calls of fantanolive.h, one function each, over buffers that the caller owns.

Arguments stand in the order of the header, without the lengths: a buffer has its own. What a call writes it writes in place, so
that argument must be a writable buffer (bytearray, array, a writable mmap or memoryview); the others may be any bytes-like
object. Buffers must be contiguous, and one that is written must not overlap another. Numbers of the result are returned; a
refusal is raised as Refused. While a call runs its buffers can't be resized, and other threads go on."""
import ctypes
from typing import NamedTuple

from . import _header
from ._lending import NUMBERS_32, NUMBERS_64, Call, number
from ._types import Numbers, Readable, Writable


class Counts(NamedTuple):
    """The result of apply. Accepted includes warned; rows are those of the master afterwards."""

    accepted: int
    rejected: int
    warned: int
    neither: int
    rows: int


class JournaledCounts(NamedTuple):
    """The result of apply_journaled: that of apply, and the journal's bytes."""

    accepted: int
    rejected: int
    warned: int
    neither: int
    rows: int
    journal: int


class Totals(NamedTuple):
    """The result of totals: the numbers of details, and their amounts."""

    tanf_count: int
    non_tanf_count: int
    tanf_amount: int
    non_tanf_amount: int


class ContactCounts(NamedTuple):
    """The result of contacts_update: the records of the table afterwards, and how many faulty ones are listed."""

    contacts: int
    faulty: int


def apply(
    master: Writable, rows: int, batch: Readable, locals: Readable, year: int, verdicts: Numbers, rejects: Writable
) -> Counts:
    """Applies a batch to a master. verdicts has 64-bit numbers: array('Q', ..). Returns Counts."""
    result = (ctypes.c_uint64 * _header.RESULTS)()
    with Call("apply") as call:
        call.run(
            *call.write("master", master), number("rows", rows), *call.read("batch", batch), *call.read("locals", locals),
            number("year", year), *call.write("verdicts", verdicts, NUMBERS_64), *call.write("rejects", rejects), result,
        )
    return Counts(*result)


def apply_journaled(
    master: Writable, rows: int, batch: Readable, locals: Readable, year: int, verdicts: Numbers, rejects: Writable,
    journal: Writable,
) -> JournaledCounts:
    """Applies a batch as apply does, and writes a journal for take_back into journal. Returns JournaledCounts."""
    result = (ctypes.c_uint64 * _header.JOURNALED_RESULTS)()
    with Call("apply_journaled") as call:
        call.run(
            *call.write("master", master), number("rows", rows), *call.read("batch", batch), *call.read("locals", locals),
            number("year", year), *call.write("verdicts", verdicts, NUMBERS_64), *call.write("rejects", rejects),
            *call.write("journal", journal), result,
        )
    return JournaledCounts(*result)


def take_back(master: Writable, rows: int, journal: Readable) -> int:
    """Takes a batch back with its journal, exactly its bytes. Returns how many rows the master has then."""
    rows_after = ctypes.c_uint64()
    with Call("take_back") as call:
        call.run(*call.write("master", master), number("rows", rows), *call.read("journal", journal), ctypes.byref(rows_after))
    return rows_after.value


def totals(batch: Readable) -> Totals:
    """Adds up the totals of a batch's details, whatever its last record says. Returns Totals."""
    result = (ctypes.c_uint64 * _header.TOTALS)()
    with Call("totals") as call:
        call.run(*call.read("batch", batch), result)
    return Totals(*result)


def merge(first: Readable, second: Readable, out: Writable) -> int:
    """Merges two batches of one state into one. Returns how many records it has."""
    records = ctypes.c_uint64()
    with Call("merge") as call:
        call.run(*call.read("first", first), *call.read("second", second), *call.write("out", out), ctypes.byref(records))
    return records.value


def find(master: Readable, rows: int, key: Readable) -> int:
    """Finds the row of a key. Returns its place, the first being 0."""
    place = ctypes.c_uint64()
    with Call("find") as call:
        call.run(*call.read("master", master), number("rows", rows), *call.read("key", key), ctypes.byref(place))
    return place.value


def find_many(master: Readable, rows: int, keys: Readable, places: Numbers) -> int:
    """Finds the rows of many keys, strictly rising. places has 32-bit numbers: array('I', ..); a key without a row gets NO_PLACE.
    Returns how many comparisons of a key with a row were made."""
    comparisons = ctypes.c_uint64()
    with Call("find_many") as call:
        call.run(
            *call.read("master", master), number("rows", rows), *call.read("keys", keys),
            *call.write("places", places, NUMBERS_32), ctypes.byref(comparisons),
        )
    return comparisons.value


def reconcile(master: Readable, rows: int, state: Readable, date: Readable, out: Writable) -> int:
    """Writes the reconciliation file of a state. Returns the number of REC records."""
    records = ctypes.c_uint64()
    with Call("reconcile") as call:
        call.run(
            *call.read("master", master), number("rows", rows), *call.read("state", state), *call.read("date", date),
            *call.write("out", out), ctypes.byref(records),
        )
    return records.value


def pages(master: Readable, rows: int, out: Writable) -> int:
    """Prints the live rows of a master in key order. Returns the number of pages."""
    count = ctypes.c_uint64()
    with Call("pages") as call:
        call.run(*call.read("master", master), number("rows", rows), *call.write("out", out), ctypes.byref(count))
    return count.value


def add_cents(master: Writable, rows: int) -> None:
    """Gives the rows of a master that have no cents yet 00 cents."""
    with Call("add_cents") as call:
        call.run(*call.write("master", master), number("rows", rows))


def post(master: Writable, rows: int, file: Readable, lines: Numbers) -> int:
    """Posts a weekly collection file. lines has 32-bit numbers: array('I', ..). Returns how many lines are listed there."""
    listed = ctypes.c_uint64()
    with Call("post") as call:
        call.run(
            *call.write("master", master), number("rows", rows), *call.read("file", file),
            *call.write("lines", lines, NUMBERS_32), ctypes.byref(listed),
        )
    return listed.value


def to_ebcdic(file: Readable, out: Writable) -> None:
    """Turns a file from ASCII into EBCDIC. Refused has the place of the first byte without a counterpart."""
    _convert("to_ebcdic", file, out)


def to_ascii(file: Readable, out: Writable) -> None:
    """Turns a file from EBCDIC into ASCII. Refused has the place of the first byte without a counterpart."""
    _convert("to_ascii", file, out)


def contacts_update(table: Writable, count: int, file: Readable, faulty: Numbers) -> ContactCounts:
    """Reads a contact file into a table. faulty has 32-bit numbers: array('I', ..). Returns ContactCounts."""
    result = (ctypes.c_uint64 * _header.CONTACT_RESULTS)()
    with Call("contacts_update") as call:
        call.run(
            *call.write("table", table), number("count", count), *call.read("file", file),
            *call.write("faulty", faulty, NUMBERS_32), result,
        )
    return ContactCounts(*result)


def contacts_codes(table: Readable, count: int, state: Readable, out: Writable) -> int:
    """Writes the local codes of a state, all but 000. Returns how many they are."""
    codes = ctypes.c_uint64()
    with Call("contacts_codes") as call:
        call.run(
            *call.read("table", table), number("count", count), *call.read("state", state), *call.write("out", out),
            ctypes.byref(codes),
        )
    return codes.value


def records_to(row: Readable, wanted: Readable, locals: Readable, out: Writable) -> int:
    """Writes the C, L, R and M records that lead from a row to a wanted row. Returns how many they are."""
    records = ctypes.c_uint64()
    with Call("records_to") as call:
        call.run(
            *call.read("row", row), *call.read("wanted", wanted), *call.read("locals", locals), *call.write("out", out),
            ctypes.byref(records),
        )
    return records.value


def _convert(name: str, file: Readable, out: Writable) -> None:
    place = ctypes.c_uint64()
    with Call(name) as call:
        call.run(*call.read("file", file), *call.write("out", out), ctypes.byref(place), place=place)
