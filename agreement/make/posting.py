"""Posting collections, and the conversion."""

from describe import Book, blank, digits, hold, hold_columns, numbers, put, refused, row, words

book = Book("posting")


def amount(cents):
    return digits(cents, 11)


def line(collection=0, adjustment=0, at=None, ssn="123456789", state="OH", case="A"):
    columns = {1: state, 6: ssn, 76: amount(collection), 87: amount(adjustment), 107: case}
    return put(blank(240, columns), at or {})


def last(adjustments, collections, at=None):
    return put(blank(240, {6: "TOTAL", 35: digits(adjustments, 15), 50: digits(collections, 15)}), at or {})


LINE = line(100)


def above(field):
    good = all(0xF0 <= byte <= 0xF9 for byte in field[:10]) and field[10] >> 4 in (0xC, 0xF) and field[10] & 15 < 10
    return good and any(byte & 15 for byte in field)


def post(name, sentences, lines, listed=(), after=None, rows=None, answer=0, room=None, whole=None, end=None):
    """By hand: the numbers of the listed lines, and columns of rows afterwards."""
    rows = [row()] if rows is None else rows
    room = len(lines) if room is None else room
    tail = last(sum(above(one[86:97]) for one in lines), sum(above(one[75:86]) for one in lines)) if end is None else end
    values = {"master": b"".join(rows) + b"\xa5" * 200, "rows": len(rows), "file": b"".join(lines) + tail if whole is None else whole,
              "lines": words([7] * room, 4), "listed": words([9], 8)}

    def expect(found, left):
        hold("the answer", found, 0)
        count = numbers(left.get("listed", values["listed"]), 8)
        hold("how many are listed", count, [len(listed)])
        hold("the listed lines", numbers(left.get("lines", values["lines"]), 4), list(listed) + [7] * (room - len(listed)))
        for place, columns in (after or {}).items():
            hold_columns("row %d" % place, left.get("master", values["master"])[200 * place:200 * place + 200], columns)

    book.add(name, sentences, "post", values, refused(answer) if answer else expect)


def owes(dollars, cents, status=" "):
    return {0: {66: digits(dollars, 8), 196: status + digits(cents, 2)}}


LOWERS = ["a collection (76–86) lowers", "has amounts to the cent"]
post("collection", LOWERS, [line(1)], after=owes(99, 99))
post("collection-of-a-dollar", LOWERS, [line(100)], after=owes(99, 0))
post("collection-of-all-but-a-cent", LOWERS, [line(9999)], after=owes(0, 1))
post("collection-of-all", ["a collection (76–86) lowers", "a case is deleted exactly when both parts are zero"], [line(10000)], after=owes(0, 0, "D"))
post("collection-above", ["a collection (76–86) lowers", "a line's excess being"], [line(10001)], after=owes(0, 0, "D"))
post("collection-of-most", "a collection (76–86) lowers", [line(99999999999)], after=owes(0, 0, "D"))
post("adjustment", "a collection (76–86) lowers", [line(0, 1)], after=owes(100, 1))
post("adjustment-carries", "a collection (76–86) lowers", [line(0, 50)], rows=[row(cents="75")], after=owes(101, 25))
post("two-zeros", "a line with both above zero", [line()], after=owes(100, 0))
post("cents-and-dollars", "there are dollars on the master, cents in the collection file", [line(250)], rows=[row(owed=5, cents="25")], after=owes(2, 75))
# A row of 1.50.
for cents, left in [(49, (1, 1)), (50, (1, 0)), (51, (0, 99)), (100, (0, 50)), (149, (0, 1)), (150, (0, 0, "D")), (151, (0, 0, "D")), (200, (0, 0, "D"))]:
    post("collection-of-%d-from-150" % cents, LOWERS, [line(cents)], rows=[row(owed=1, cents="50")], after=owes(*left))
for cents, left in [(49, (1, 99)), (50, (2, 0)), (51, (2, 1)), (100, (2, 50)), (150, (3, 0))]:
    post("adjustment-of-%d-to-150" % cents, LOWERS, [line(0, cents)], rows=[row(owed=1, cents="50")], after=owes(*left))
MOST = "so is an adjustment that would pass"
post("adjustment-to-the-most", MOST, [line(0, 1)], rows=[row(owed=99999999, cents="98")], after=owes(99999999, 99))
post("adjustment-past-the-most", MOST, [line(0, 2)], [1], rows=[row(owed=99999999, cents="98")], after=owes(99999999, 98))
post("adjustment-of-much", MOST, [line(0, 99999999999)], [1])
BOTH = ["a line with both above zero", "the list is of"]
post("both-above-zero", BOTH, [line(1, 1)], [1], after=owes(100, 0))
post("no-row", BOTH, [line(1, ssn="111223333")], [1])
post("deleted-row", BOTH, [line(0, 100)], [1], rows=[row(owed=0)])
post("other-case-type", "a line's key is its columns", [line(1, case="N")], [1])
post("key-of-another-state", "a line's key is its columns", [line(1, state="NY")], rows=[row(state="NY")], after=owes(99, 99))
post("column-106-free", "a line's key is its columns", [line(1, at={106: "N", 15: "XYZ", 30: "JONES", 108: "ZZ", 237: "X"})], after=owes(99, 99))
post("unsound-key", BOTH, [line(1, ssn="000000000")], [1])
for name, lines in [("one-order", [line(100), line(200, ssn="222334444")]), ("other-order", [line(200, ssn="222334444"), line(100)])]:
    post("keys-in-" + name, "(the order of lines of different keys", lines, rows=[row(), row("222334444")], after=owes(99, 0))
post("in-file-order", "the list is of", [line(1, 1), line(1), line(1, ssn="111223333"), line(2, 2)], [1, 3, 4], after=owes(99, 99))
post("behind-a-deletion", "a line with both above zero", [line(10000), line(0, 100), line(1)], [2, 3], after=owes(0, 0, "D"))
post("one-behind-the-other", ["a collection (76–86) lowers", "for every file, over its posted lines", "the weekly file of Charts 0-4"], [line(2500), line(0, 100), line(7599)], after=owes(0, 1))
DIGIT = "each is ten digits and a last digit"
for byte, is_good in [(0xC0, 1), (0xC1, 1), (0xC9, 1), (0xCA, 0), (0xBF, 0), (0xD0, 0), (0xD5, 0), (0xF0, 1), (0xF9, 1), (0xFA, 0), (0xE5, 0), (0x40, 0)]:
    cents = byte & 15
    post("last-digit-%02x" % byte, DIGIT, [line(10, at={86: bytes([byte])})], [] if is_good else [1], after=owes(99, 90 - cents) if is_good else owes(100, 0))
    post("adjustment-last-digit-%02x" % byte, DIGIT, [line(0, 10, at={97: bytes([byte])})], [] if is_good else [1],
         after=owes(100, 10 + cents) if is_good else owes(100, 0))
for name, at in [("first-column", {76: " "}), ("tenth-column", {85: " "}), ("letter", {80: "A"}), ("sign-in-the-middle", {80: b"\xc1"}), ("adjustment", {87: " "}),
                 ("adjustment-last", {97: b"\xd0"})]:
    post("bad-" + name, [DIGIT, "a line with both above zero"], [line(10, at=at)], [1])
post("bad-adjustment-of-a-right-collection", "then 23 a last record", [line(10, at={97: "X"})], [1], end=last(0, 1))
post("bad-counts-as-zero", "then 23 a last record", [line(10, at={86: "X"})], [1], end=last(0, 0))
post("both-count-in-both", "then 23 a last record", [line(1, 1)], [1], end=last(1, 1))
post("listed-lines-count", "then 23 a last record", [line(1, ssn="111223333")], [1], end=last(0, 1))
post("last-record-alone", "refusal 22 is a file empty", [], [])
for name, whole in [("empty", b""), ("239", last(0, 0)[:239]), ("241", last(0, 0) + b"\x40"), ("479", (LINE + last(0, 1))[:479])]:
    post("file-length-" + name, "refusal 22 is a file empty", [LINE], answer=22, whole=whole)
TOTAL = "then 23 a last record"
for name, end in [("no-total", last(0, 1, {6: "         "})), ("total-shifted", last(0, 1, {6: " TOTAL   "})), ("total-and-more", last(0, 1, {11: "S"})),
                  ("total-column-14", last(0, 1, {14: "X"})), ("adjustments-more", last(1, 1)), ("collections-less", last(0, 0)),
                  ("counts-exchanged", last(1, 0)), ("adjustments-not-digits", last(0, 1, {35: " "})), ("collections-not-digits", last(0, 1, {64: " "}))]:
    post(name, TOTAL, [LINE], answer=23, end=end)
post("rest-of-the-last-record-free", TOTAL, [LINE], end=last(0, 1, {1: "ZZ", 15: b"\0" * 20, 65: b"\xff" * 176}), after=owes(99, 0))
post("list-short", "then 24 a line list", [LINE, LINE], answer=24, room=1)
post("list-short-of-posted-lines", "then 24 a line list", [LINE], answer=24, room=0)
post("list-longer-for-no-lines", ["then 24 a line list", "the list is of"], [], [], room=3)
post("list-longer-for-posted-lines", ["then 24 a line list", "the list is of"], [LINE], room=3, after=owes(99, 0))
post("list-longer", ["then 24 a line list", "the list is of"], [line(1, 1)], [1], room=4)


def convert(name, rows, answer=0, space=1):
    values = {"master": b"".join(rows) + b"\xa5" * (200 * space), "rows": len(rows)}

    def expect(found, left):
        hold("the answer", found, 0)
        after = left.get("master", values["master"])
        wanted = b"".join(put(one, {197: "00"}) for one in rows) + b"\xa5" * (200 * space)
        hold("the master", after.hex(), wanted.hex())

    book.add("cents-" + name, "a conversion, refused by 3 and 4", "add_cents", values, refused(answer) if answer else expect)


OLD = {197: "    "}
convert("one-row", [row(at=OLD)])
convert("deleted-row", [row(at={66: "00000000", 196: "D    "})])
convert("several", [row("111223333", at=OLD), row("222334444", at={66: "00000000", 196: "D    "}), row("333445555", at=OLD)])
convert("no-rows", [])
convert("converted-already", [row()], answer=4)
convert("one-converted-already", [row("111223333", at=OLD), row("222334444")], answer=4)
for column in (197, 198, 199, 200):
    convert("column-%d" % column, [row(at={197: "    ", column: "0"})], answer=4)
convert("zero-and-live", [row(at={66: "00000000", 196: "     "})], answer=4)
convert("balance-and-deleted", [row(at={196: "D    "})], answer=4)
convert("unsound-row", [row(at={13: "  1", 197: "    "})], answer=4)
convert("falling", [row("222334444", at=OLD), row("111223333", at=OLD)], answer=4)
