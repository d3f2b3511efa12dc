"""What the descriptions of cases are written with: rows, records, files, and the calls with what is expected of them by hand.

A description gives the inputs, the sentences that it is there for, and what was worked out by hand: the answer and the decisive
bytes. Every other byte is computed by the library and compared with the reference engine; a description whose hand-worked part
isn't what the library leaves is an error."""

import os
import sys

FOLDER = os.path.dirname(os.path.abspath(__file__))
sys.path.insert(0, os.path.dirname(FOLDER))
import run  # noqa: E402

SPACE = 0x40


class Wrong(Exception):
    """What the library leaves isn't what was worked out by hand."""


def text(value):
    """Ordinary letters as EBCDIC bytes; bytes stay as they are."""
    return value if isinstance(value, (bytes, bytearray)) else run.ebcdic(value)


def put(record, columns):
    """A record with texts or bytes put in from a column on."""
    record = bytearray(record)
    for column, value in columns.items():
        value = text(value)
        record[column - 1:column - 1 + len(value)] = value
    return bytes(record)


def over(columns, changes):
    """Columns with some of them changed."""
    return {**columns, **changes}


def blank(width, columns=None):
    return put(bytes([SPACE]) * width, columns or {})


def digits(number, width):
    return str(number).zfill(width)


def row(ssn="123456789", at=None, state="OH", case="A", local="000", last="SMITH", first="JOHN", owed=100, cents="00"):
    """A sound row; `at` puts anything into columns."""
    status = "D" if owed == 0 and cents == "00" else " "
    columns = {1: state, 3: ssn, 12: case, 13: local, 31: last, 51: first, 66: digits(owed, 8), 79: "0000", 83: "00000000",
               195: b"\0", 196: status, 197: cents}
    return put(blank(200, columns), at or {})


def detail(kind, at=None, ssn="123456789", state="OH", case="A", last="SMITH", first=None):
    """A right detail of a type for the case of `row`."""
    columns = {1: state, 6: ssn, 30: last, 73: kind, 74: case}
    if kind in "AB":
        columns[50] = first if first is not None else "JOHN"
    if kind in "AMS":
        columns[65] = "00000100"
    if kind == "C":
        columns[15] = "CASE 7"
    if kind == "S":
        columns[80] = "2007"
    if kind == "T":
        columns[75] = "NY"
    if kind == "Z":
        columns.update({84: "1 MAIN STREET", 144: "COLUMBUS", 169: "OH", 171: "43004"})
    return put(blank(245, columns), at or {})


def totals(details):
    """The two counts and two amounts of details."""
    sums = [0, 0, 0, 0]
    for record in details:
        for place, case in enumerate("AN"):
            if record[73:74] != text(case):
                continue
            sums[place] += 1
            amount = record[64:72]
            if record[72:73] in (text("A"), text("M")) and all(0xF0 <= byte <= 0xF9 for byte in amount):
                sums[place + 2] += int("".join(str(byte - 0xF0) for byte in amount))
    return sums


def control(state, sums, at=None):
    columns = {1: state, 3: "CTL", 6: digits(sums[0], 9), 15: digits(sums[1], 9), 24: digits(sums[2], 11), 35: digits(sums[3], 11)}
    return put(blank(245, columns), at or {})


def batch(details, state="OH", at=None):
    return b"".join(details) + control(state, totals(details), at)


def words(numbers, width):
    return b"".join(number.to_bytes(width, "little") for number in numbers)


def numbers(value, width):
    return [int.from_bytes(value[at:at + width], "little") for at in range(0, len(value), width)]


def codes_of(verdict):
    return [code for code in range(64) if verdict >> code & 1]


class Book:
    """The cases of one subject."""

    def __init__(self, subject):
        self.subject, self.cases = subject, []

    def add(self, name, sentences, call, values, expect):
        """A case with what was worked out by hand: `expect` takes the answer and what is left by name, and tells what is wrong."""
        case = run.Case("%s-%s" % (self.subject, name))
        case.sentences = [sentences] if isinstance(sentences, str) else list(sentences)
        case.call, case.values, case.expect = call, values, expect
        self.cases.append(case)


def hold(what, found, wanted):
    if found != wanted:
        raise Wrong("%s is %r, by hand %r" % (what, found, wanted))


def refused(number):
    """By hand: this refusal, and nothing written."""

    def expect(answer, left):
        hold("the answer", answer, number)
        hold("what is written", sorted(left), [])

    return expect


def hold_columns(what, record, columns):
    for column, value in columns.items():
        value = text(value)
        hold("%s, column %d" % (what, column), record[column - 1:column - 1 + len(value)].hex(), value.hex())


def apply_values(rows, details, year, locals_, state, space, rejects, verdicts, whole, master, count, journal):
    room = b"".join(rows) + b"\xa5" * (200 * space) if master is None else master
    values = {
        "master": room,
        "rows": len(rows) if count is None else count,
        "batch": batch(details, state) if whole is None else whole,
        "locals": text(locals_),
        "year": year,
        "verdicts": words([77] * (len(details) if verdicts is None else verdicts), 8),
        "rejects": b"\xa5" * (245 * (len(details) + 1) if rejects is None else rejects),
    }
    if journal is not None:
        values["journal"] = b"\xa5" * journal
    values["result"] = words([9] * (5 if journal is None else 6), 8)
    return values


def apply(book, name, sentences, details, codes=None, rows=None, answer=0, year=2007, locals_="", state="OH", space=1,
          rejects=None, verdicts=None, whole=None, master=None, count=None, journal=None, result=None, after=None,
          reject=None, entries=None):
    """A batch. By hand: `codes` of each detail, `result`, columns of rows (`after`) and reject records by their place, and of the
    journal its first bytes (`entries`). A batch whose details all have errors leaves the master as it was."""
    rows = [row()] if rows is None else rows
    values = apply_values(rows, details, year, locals_, state, space, rejects, verdicts, whole, master, count, journal)

    def expect(found, left):
        hold("the answer", found, 0)
        told = numbers(left.get("verdicts", values["verdicts"]), 8)[:len(details)]
        hold("the codes", [codes_of(verdict) for verdict in told], codes)
        if details and all(any(code < 51 for code in one) for one in codes):
            hold("whether the master changed", "master" in left, False)
        if result is not None:
            hold("the result", numbers(left["result"], 8)[:5], result)
        whole_master = left.get("master", values["master"])
        for place, columns in (after or {}).items():
            hold_columns("row %d" % place, whole_master[200 * place:200 * place + 200], columns)
        for place, columns in (reject or {}).items():
            hold_columns("reject record %d" % place, left["rejects"][245 * place:245 * place + 245], columns)
        if entries is not None:
            length = numbers(left["result"], 8)[5]
            hold("the journal", left.get("journal", values["journal"])[:length].hex(), entries.hex())

    call = "apply" if journal is None else "apply_journaled"
    book.add(name, sentences, call, values, expect if answer == 0 else refused(answer))


def answered(numbers_wanted, result, **decisive):
    """By hand: carried out, these numbers of the result, and columns of buffers by name: {buffer: {column: text}}."""

    def expect(answer, left):
        hold("the answer", answer, 0)
        if numbers_wanted is not None:
            hold("the result", numbers(left.get(result, b""), 8), numbers_wanted)
        for buffer, columns in decisive.items():
            hold_columns(buffer, left.get(buffer, b""), columns)

    return expect
