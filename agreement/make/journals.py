"""Journals: written byte by byte, and taking a batch back."""

from describe import Book, apply, detail, hold, numbers, refused, row, words

book = Book("journals")
NEW = "111223333"
COUNTS = "the row counts before and after"
MARK = "a mark (00 new, 01 changed) and for 01 the old row"
ENTRY = "then, by rising place, for each key whose row at the end differs"


def journal(name, sentences, details, codes, entries, rows=None, **others):
    """By hand: the journal, byte by byte."""
    apply(book, name, sentences, details, codes, rows=rows, journal=12 + 205 * len(details), space=others.pop("space", 2), entries=entries, **others)


OLD = row()
journal("no-details", [COUNTS, "applying may write a journal"], [], [], b"\1\1")
journal("no-rows-no-details", COUNTS, [], [], b"\0\0", rows=[])
journal("changed", [MARK, "its place after the batch"], [detail("M", {65: "00000200"})], [[]], b"\1\1" + b"\0\1" + OLD)
journal("new", [MARK, COUNTS], [detail("A", ssn=NEW)], [[]], b"\1\2" + b"\0\0")
journal("new-behind", "its place after the batch", [detail("A", ssn="222334444")], [[]], b"\1\2" + b"\1\0")
journal("new-and-changed", ENTRY, [detail("M", {65: "00000200"}), detail("A", ssn=NEW)], [[], []], b"\1\2" + b"\0\0" + b"\1\1" + OLD)
journal("unchanged", ENTRY, [detail("M")], [[]], b"\1\1")
journal("changed-and-changed-back", ENTRY, [detail("M", {65: "00000200"}), detail("M")], [[], []], b"\1\1")
journal("rejected", ENTRY, [detail("M", {65: "00000200", 228: "X"})], [[18]], b"\1\1")
journal("new-and-deleted", MARK, [detail("A", ssn=NEW), detail("D", ssn=NEW)], [[], []], b"\1\2" + b"\0\0")
journal("deleted", MARK, [detail("D")], [[]], b"\1\1" + b"\0\1" + OLD)
DELETED = row(owed=0)
journal("deleted-row-live-again", MARK, [detail("A")], [[]], b"\1\1" + b"\0\1" + DELETED, rows=[DELETED])
journal("one-of-three", "its place after the batch", [detail("M", {65: "00000200"}, ssn="222334444")], [[]],
        b"\3\3" + b"\1\1" + row("222334444"), rows=[row("111223333"), row("222334444"), row("333445555")])
journal("twice-the-same-key", ENTRY, [detail("M", {65: "00000200"}), detail("M", {65: "00000300"})], [[], []], b"\1\1" + b"\0\1" + OLD)
many = [row("12301" + str(at + 1).zfill(4)) for at in range(128)]
GROUPS = ["numbers are in groups of seven bits", "shortest form only"]
journal("numbers-of-127", GROUPS, [detail("M", {65: "00000200"}, ssn="123010127")], [[]], b"\x7f\x7f" + b"\x7e\1" + many[126], rows=many[:127])
journal("numbers-of-128", GROUPS, [detail("M", {65: "00000200"}, ssn="123010128")], [[]], b"\x80\1\x80\1" + b"\x7f\1" + many[127], rows=many)
journal("place-of-128", GROUPS, [detail("A", ssn="999999999")], [[]], b"\x80\1\x81\1" + b"\x80\1\0", rows=many)
for length, number in [(216, 25), (217, 0), (12, 25), (0, 25)]:
    apply(book, "room-of-%d" % length, ["refusal 25 is a journal buffer", "and Item 8's buffer becomes"], [detail("M", {65: "00000200"})], [[]], journal=length, answer=number)
apply(book, "room-without-details-11", "refusal 25 is a journal buffer", [], [], journal=11, answer=25)
apply(book, "room-without-details-12", "refusal 25 is a journal buffer", [], [], journal=12, entries=b"\1\1")
for length in (217 + 1, 217 + 205, 217 + 410):
    apply(book, "room-of-%d-behind-kept" % length, ["refusal 25 is a journal buffer", "applying may write a journal"], [detail("M", {65: "00000200"})], [[]], journal=length,
          entries=b"\1\1\0\1" + OLD)
apply(book, "room-without-details-behind-kept", "refusal 25 is a journal buffer", [], [], journal=422, entries=b"\1\1")
apply(book, "as-without-a-journal", "applying may write a journal", [detail("A", ssn=NEW), detail("M", last="SMYTH")], [[], [17]], journal=422, space=2,
      result=[1, 1, 0, 0, 2], reject={0: {240: "SMIT"}})


def back(name, sentences, rows, given, left_rows=None, answer=0, space=1, count=None):
    """By hand: the rows that are left."""
    values = {"master": b"".join(rows) + b"\xa5" * (200 * space), "rows": len(rows) if count is None else count, "journal": given, "rows_after": words([9], 8)}

    def expect(found, left):
        hold("the answer", found, 0)
        hold("how many rows are left", numbers(left.get("rows_after", values["rows_after"]), 8), [len(left_rows)])
        wanted = b"".join(left_rows)
        hold("the rows", left.get("master", values["master"])[:len(wanted)].hex(), wanted.hex())
        hold("what is behind them", left.get("master", values["master"])[len(wanted):].hex(), values["master"][len(wanted):].hex())

    book.add("back-" + name, sentences, "take_back", values, refused(answer) if answer else expect)


TAKEN = "for every batch carried out, taking it back with its journal"
a, b, c = row("111223333"), row("222334444"), row("333445555")
b2 = row("222334444", owed=500)
back("nothing-changed", TAKEN, [a, b], b"\2\2", [a, b])
back("empty-master", TAKEN, [], b"\0\0", [])
back("changed", [TAKEN, "(a journal that was written is read again"], [a, b2, c], b"\3\3\1\1" + b, [a, b, c])
back("new", TAKEN, [a, b, c], b"\2\3\1\0", [a, c])
back("new-first-and-last", TAKEN, [a, b, c], b"\1\3\0\0\2\0", [b])
back("all-new", TAKEN, [a, b], b"\0\2\0\0\1\0", [])
back("new-and-changed", TAKEN, [a, b2, c], b"\2\3\0\0\1\1" + b, [b, c])
back("old-row-of-another-key", "it fits only a master of its count after", [a, b], b"\2\2\1\1" + c, [a, c])
back("no-room-behind", TAKEN, [a, b], b"\1\2\1\0", [a], space=0)
FULL = row("222334444", at={13: "012", 16: "CASE ID", 74: "NY077", 79: "200500000050", 91: "LINE 1", 121: "LINE 2", 151: "CITY", 176: "NY123456789", 187: "20050131",
                            195: b"\x42", 197: "75"}, last="JONES", first="JANE", owed=7)
back("every-field", TAKEN, [a, FULL, c], b"\3\3\1\1" + b, [a, b, c])
back("every-field-turned-round", TAKEN, [a, b, c], b"\3\3\1\1" + FULL, [a, FULL, c])
back("deleted", TAKEN, [a, row("222334444", owed=0), c], b"\3\3\1\1" + FULL, [a, FULL, c])
back("live-again", TAKEN, [a, FULL, c], b"\3\3\1\1" + row("222334444", owed=0), [a, row("222334444", owed=0), c])
FORM = "refusal 26, after 3 and 4, is a journal that isn't of this byte form"
for name, given in [("empty", b""), ("one-number", b"\2"), ("number-cut", b"\2\x82"), ("byte-behind", b"\2\2\0"), ("mark-missing", b"\2\2\0"), ("mark-02", b"\2\2\0\2"),
                    ("old-row-cut", b"\2\2\0\1" + a[:199]), ("old-row-and-a-byte", b"\2\2\0\1" + a + b"\0"), ("longer-form", b"\x82\0\2"),
                    ("longer-form-of-the-count-after", b"\2\x82\0"), ("longer-form-of-a-place", b"\2\2\x80\0\1" + a)]:
    back("form-" + name, [FORM, "shortest form only"] if "longer" in name else FORM, [a, b], given, answer=26)
# Marks of as many new rows as the count grew.
for mark in (2, 0x40, 0x80, 0xFF):
    back("form-mark-%02x-of-a-new-row" % mark, [FORM, MARK], [a, b], b"\1\2\1" + bytes([mark]), answer=26)
FIT = ["doesn't fit the master", "it fits only a master of its count after"]
for name, given in [("count-after-less", b"\1\1"), ("count-after-more", b"\3\3"), ("place-of-the-count", b"\1\2\2\0"), ("place-far-off", b"\1\2\xff\xff\xff\xff\x0f\0"),
                    ("marks-too-few", b"\1\2"), ("marks-too-many", b"\2\2\0\0"), ("count-shrinks", b"\3\2"), ("number-above-64-bits", b"\1" + b"\xff" * 9 + b"\x7f")]:
    back("fit-" + name, FIT, [a, b], given, answer=26)
# Numbers that are right in their low bits alone.
for bits in (32, 64):
    far = bytes([0x82] + [0x80] * (bits // 7 - 1) + [1 << bits % 7])
    for name, given in [("count-before", far + b"\2"), ("count-after", b"\2" + far), ("both-counts", far + far), ("place", b"\2\3" + far + b"\0")]:
        back("fit-%s-above-%d-bits" % (name, bits), FIT, [a, b, c] if name == "place" else [a, b], given, answer=26)
RISE = "has places out of strictly rising order"
back("places-twice", RISE, [a, b2], b"\2\2\1\1" + b + b"\1\1" + b, answer=26)
back("places-falling", RISE, [a, b], b"\0\2\1\0\0\0", answer=26)
LEFT = "or would leave an unsound master"
back("left-unsound-row", LEFT, [a, b], b"\2\2\1\1" + row("222334444", at={13: "  1"}), answer=26)
back("left-out-of-order", LEFT, [a, b], b"\2\2\1\1" + row("001010001"), answer=26)
back("left-a-key-twice", LEFT, [a, b], b"\2\2\1\1" + a, answer=26)
for name, at in [("deleted-with-a-balance", {196: "D"}), ("live-without-one", {66: "00000000"}), ("cents-and-deleted", {66: "00000000", 196: "D50"}), ("status", {196: "E"}),
                 ("name", {31: "--   "}), ("state", {1: "ZZ"}), ("ssn", {3: "666223333"}), ("case-type", {12: "B"}), ("payment", {90: " "}), ("column-200", {200: "0"})]:
    back("left-unsound-by-" + name, LEFT, [a, b], b"\2\2\1\1" + row("222334444", at=at), answer=26)
back("left-old-form-row", LEFT, [a, b], b"\2\2\1\1" + row("222334444", at={197: "    "}), answer=26)
