"""A case's row: what is sound, the order of rows, the set's bits."""

from describe import Book, answered, apply, detail, refused, row, text, words

book = Book("rows")


def find(name, sentences, rows, key, place=None, answer=0, count=None, master=None):
    """Looks for a key. By hand: the place, or the refusal."""
    values = {"master": b"".join(rows) if master is None else master, "rows": len(rows) if count is None else count,
              "key": text(key), "place": words([99], 8)}
    book.add(name, sentences, "find", values, refused(answer) if answer else answered([place], "place"))


KEY = "OH123456789A"
SOUND = ["a sound row has a key free of", "4 an unsound row or order"]
FIELDS = ["digits in 13", "4 an unsound row or order"]

# By hand: column, what stands there, whether the row is sound.
for name, sentences, column, value, is_sound in [
        ("state-outside-the-table", SOUND, 1, "ZZ", 0), ("state-blank", SOUND, 1, "  ", 0),
        ("ssn-zero", SOUND, 3, "000000000", 0), ("ssn-area-000", SOUND, 3, "000121234", 0), ("ssn-area-666", SOUND, 3, "666121234", 0),
        ("ssn-group-00", SOUND, 3, "123001234", 0), ("ssn-serial-0000", SOUND, 3, "123120000", 0),
        ("ssn-with-a-space", SOUND, 3, "12345678 ", 0), ("case-type-b", SOUND, 12, "B", 0), ("case-type-blank", SOUND, 12, " ", 0),
        ("local-code-first-column", FIELDS, 13, " 00", 0), ("local-code-last-column", FIELDS, 13, "00 ", 0),
        ("local-code-letter", FIELDS, 13, "0A0", 0), ("local-code-999", FIELDS, 13, "999", 1),
        ("name-blank", FIELDS, 31, "     ", 0), ("name-of-hyphens", FIELDS, 31, "----", 0), ("name-one-hyphen", FIELDS, 31, "-    ", 0),
        ("name-with-a-gap", FIELDS, 31, "O NE", 0), ("name-from-column-32", FIELDS, 31, " LI  ", 0), ("name-li", FIELDS, 31, "LI   ", 1),
        ("name-hyphen-and-letter", FIELDS, 31, "-A   ", 1), ("name-digit", FIELDS, 31, "SM1TH", 0),
        ("name-column-35-free", FIELDS, 35, "1", 1),
        ("arrearage-first-column", FIELDS, 66, " ", 0), ("arrearage-last-column", FIELDS, 73, " ", 0),
        ("arrearage-letter", FIELDS, 70, "A", 0), ("payment-year-first-column", FIELDS, 79, " ", 0),
        ("payment-year-last-column", FIELDS, 82, " ", 0), ("payment-first-column", FIELDS, 83, " ", 0),
        ("payment-last-column", FIELDS, 90, " ", 0), ("column-78-free", FIELDS, 78, "X", 1), ("column-91-free", FIELDS, 91, "X", 1),
        ("column-74-free", FIELDS, 74, "X", 1),
        ("local-code-blank", FIELDS, 13, "   ", 0), ("local-code-zeros", FIELDS, 13, b"\0\0\0", 0), ("arrearage-blank", FIELDS, 66, " " * 8, 0),
        ("payment-year-blank", FIELDS, 79, " " * 4, 0), ("payment-blank", FIELDS, 83, " " * 8, 0), ("year-and-payment-blank", FIELDS, 79, " " * 12, 0),
        ("ssn-blank", SOUND, 3, " " * 9, 0), ("case-id-blank", FIELDS, 16, " " * 15, 1), ("first-name-blank", FIELDS, 51, " " * 15, 1),
        ("cents-and-rest-blank", "the row's 197", 197, "    ", 0), ("cents-and-rest-zeros", "the row's 197", 197, "0000", 0), ("set-blank", FIELDS, 195, " ", 1),
        ("cents-blank", "the row's 197", 197, "  ", 0), ("cents-first-column", "the row's 197", 197, " 0", 0),
        ("cents-last-column", "the row's 197", 197, "0 ", 0), ("cents-99", "the row's 197", 197, "99", 1),
        ("column-199", "the row's 197", 199, "0", 0), ("column-200", "the row's 197", 200, "0", 0),
        ("status-e", "status is a space", 196, "E", 0), ("status-00", "status is a space", 196, b"\0", 0),
        ("status-d-with-a-balance", "D exactly when the arrearage is zero", 196, "D", 0)]:
    find(name, sentences, [row(at={column: value})], KEY if column > 12 or is_sound else "NY111223333A", 0, 0 if is_sound else 4)
ZERO = ["D exactly when the arrearage is zero", "a case is deleted exactly when both parts are zero"]
find("zero-live", ZERO, [row(owed=0, at={196: " "})], KEY, answer=4)
find("zero-deleted", ZERO, [row(owed=0)], KEY, 0)
find("zero-dollars-one-cent-live", ZERO, [row(owed=0, cents="01")], KEY, 0)
find("zero-dollars-one-cent-deleted", ZERO, [row(owed=0, cents="01", at={196: "D"})], KEY, answer=4)
find("one-dollar-no-cents-deleted", ZERO, [row(owed=1, at={196: "D"})], KEY, answer=4)
find("one-dollar-live", ZERO, [row(owed=1)], KEY, 0)
free = {column: b"\xff" for column in list(range(16, 31)) + list(range(35, 66)) + list(range(74, 79)) + list(range(91, 195))}
find("free-bytes-ff", "other bytes are free", [row(at=free)], KEY, 0)
find("free-bytes-00", "other bytes are free", [row(at={column: b"\0" for column in free})], KEY, 0)
for state in ("GU", "WY", "AK"):
    find("any-state-" + state, "a sound row has a key free of", [row(state=state)], state + "123456789A", 0)

ORDER = ["rows stand in strictly rising byte order", "4 an unsound row or order"]
find("two-rows", ORDER, [row("111223333"), row("222334444")], "OH222334444A", 1)
find("two-rows-turned-round", ORDER, [row("222334444"), row("111223333")], "OH222334444A", answer=4)
find("a-key-twice", ORDER, [row("111223333"), row("111223333")], "OH111223333A", answer=4)
find("a-before-n", ORDER, [row(case="A"), row(case="N")], "OH123456789N", 1)
find("n-before-a", ORDER, [row(case="N"), row(case="A")], "OH123456789N", answer=4)
find("states-rising", ORDER, [row("999999999", state="AK"), row("111223333", state="OH")], "OH111223333A", 1)
find("states-falling", ORDER, [row("111223333", state="OH"), row("999999999", state="AK")], "OH111223333A", answer=4)
find("unsound-row-behind-the-count", "4 an unsound row or order", [row(), bytes(200)], KEY, 0, count=1)
find("last-row-unsound", "4 an unsound row or order", [row("111223333"), row("222334444", at={13: "  1"})], "OH111223333A", answer=4)

WIDTH = ["3 master length no multiple of 200", "a row is 200 bytes"]
find("length-199", WIDTH, [], KEY, answer=3, master=row()[:199], count=0)
find("length-201", WIDTH, [], KEY, answer=3, master=row() + b"\x40", count=1)
find("count-above-the-rows", "3 master length no multiple of 200", [row()], KEY, answer=3, count=2)
find("count-16777216", ["3 master length no multiple of 200", "at most 65,535"], [row()], KEY, answer=3, count=16777216)
find("count-of-64-bits", "3 master length no multiple of 200", [row()], KEY, answer=3, count=2 ** 64 - 1)
find("count-that-wraps", "3 master length no multiple of 200", [row()], KEY, answer=3, count=2 ** 64 // 200 + 1)
find("empty-master", "3 master length no multiple of 200", [], KEY, answer=15)
find("length-1", WIDTH, [], KEY, answer=3, master=b"\x40", count=0)
find("place-by-twelve-bytes", "1–2 state, 3–11 SSN, 12 case type", [row(case="A"), row(case="N")], "OH123456789A", 0)

# By hand: each bit of the set is its word in the columns of a REC.
NAMES = "ADM RET VEN SAL TAX PAS FIN DCK".split()
for bit, name in enumerate(NAMES):
    values = {"master": row(at={195: bytes([1 << bit])}), "rows": 1, "state": text("OH"), "date": text("20070131"),
              "out": b"\xa5" * 490, "records": words([99], 8)}
    book.add("bit-of-" + name.lower(), ["the set's bits, lowest first", "187–194 date issued, 195 exclusion set"], "reconcile", values,
             answered([1], "records", out={82: "   " * bit + name + "   " * (7 - bit)}))
for value, shown in [(0, " " * 24), (255, "".join(NAMES)), (0b10100101, "ADM" + "   " + "VEN" + "   " * 2 + "PAS" + "   " + "DCK")]:
    values = {"master": row(at={195: bytes([value])}), "rows": 1, "state": text("OH"), "date": text("20070131"),
              "out": b"\xa5" * 490, "records": words([99], 8)}
    book.add("set-%02x" % value, "the set's bits, lowest first", "reconcile", values, answered([1], "records", out={82: shown}))

# By hand: the columns of a fresh row.
A = detail("A", {3: "012", 15: "CASE ID 7", 65: "00000250", 84: "LINE 1", 114: "LINE 2", 144: "CITY", 169: "NY", 171: "123456789",
                 180: "20070131", 188: "TAX"}, ssn="111223333", case="N", last="MILLER", first="ANN")
apply(book, "columns-of-a-fresh-row",
      ["13–15 local code, 16–30 case ID", "columns count from 1", "Charts A-1 and A-2 are in", "the charts decide columns", "74–75 transfer state", "91–120 and 121–150 address lines", "187–194 date issued"],
      [A], [[]], rows=[], locals_="012",
      after={0: {1: "OH111223333N012CASE ID 7", 31: "MILLER", 51: "ANN", 66: "00000250", 74: "     ", 79: "000000000000", 91: "LINE 1",
                 121: "LINE 2", 151: "CITY", 176: "NY123456789", 187: "20070131", 195: b"\x10", 196: " 00  "}})
apply(book, "a-deleted-row-keeps-its-place", "a deleted row keeps its place", [detail("D", ssn="222334444")], [[]],
      rows=[row("111223333"), row("222334444"), row("333445555")], result=[1, 0, 0, 0, 3],
      after={0: {3: "111223333"}, 1: {3: "222334444", 66: "00000000", 196: "D"}, 2: {3: "333445555"}})
