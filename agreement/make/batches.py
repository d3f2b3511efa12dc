"""Applying a batch: totals, verdicts, the reject file, counts, and refusals 1 to 11, 20 and 21."""

from describe import Book, apply, batch, control, detail, digits, row, totals

book = Book("batches")
NEW = "111223333"
M = detail("M")

# The paper's example.
SMITH = detail("A", {65: "00000025"}, case="N")
SMYTH = detail("M", {65: "00000100"}, case="N", last="SMYTH")
apply(book, "paper-example", ["the base has: applying", "the machine runs on each detail in turn", "then the control record of Chart 0-2",
                              "the result carries accepted", "the four characters of 17", "the six lowest codes", "columns 1–227",
                              "the verdict list has a 64-bit number",
                              "1. the outcome of each public call", "one refusing all batches", "an engine leaving the master untouched"],
      [SMITH, SMYTH], [[], [17]], rows=[], space=2, result=[1, 1, 0, 0, 1], after={0: {1: "OH123456789N", 66: "00000025"}},
      reject={0: {228: "17          SMIT"}, 1: {1: "OHCTL" + digits(0, 18) + digits(1, 9) + digits(1, 9) + digits(0, 18) + " "}})
apply(book, "control-record-alone", "details, then the control record, told by its place", [], [], result=[0, 0, 0, 0, 1], reject={0: {3: "CTL"}})
apply(book, "detail-that-looks-like-a-control-record", "details, then the control record, told by its place", [control("OH", [0, 0, 0, 0])],
      [[2, 3, 4, 5]], result=[0, 0, 0, 1, 1])
apply(book, "submitting-state", "a batch's submitting state is that in its control record", [detail("A", state="NY", ssn=NEW)], [[]], state="NY", space=2)
apply(book, "submitting-state-of-another", "a batch's submitting state is that in its control record", [detail("A", state="OH", ssn=NEW)], [[1]],
      state="NY", space=2)

# Totals.
NO_TOTAL = "a record of neither case type counts in no total"
apply(book, "neither-case-type", [NO_TOTAL, "the result carries accepted"], [detail("A", {74: "X"}, ssn=NEW)], [[4]], result=[0, 0, 0, 1, 1], space=2,
      whole=batch([detail("A", {74: "X"}, ssn=NEW)]))
SUMS = "amounts sum columns 65–72 of A and M"
for name, record, sums in [("of-s", detail("S"), [1, 0, 0, 0]), ("of-d", detail("D", {65: "00000100"}), [1, 0, 0, 0]),
                           ("of-m", detail("M"), [1, 0, 100, 0]), ("of-n", detail("M", case="N"), [0, 1, 0, 100]),
                           ("of-m-without-digits", detail("M", {65: "0000010A"}), [1, 0, 0, 0]),
                           ("of-an-m-with-errors", detail("M", {1: "ZZ", 228: "X"}), [1, 0, 100, 0])]:
    codes = {"of-n": [9], "of-m-without-digits": [7], "of-an-m-with-errors": [1, 18]}.get(name, [])
    apply(book, "amount-" + name, [SUMS, "Proved table|counting S amounts"] if name == "of-s" else SUMS, [record], [codes],
          whole=record + control("OH", sums))
    wrong = list(sums)
    wrong[2 if sums[1] == 0 else 3] += 1
    apply(book, "amount-%s-one-more" % name, SUMS, [record], answer=8, whole=record + control("OH", wrong))
most = [detail("M", {65: "99999999"})] * 3
apply(book, "amounts-of-three", SUMS, most, [[], [], []], whole=b"".join(most) + control("OH", [3, 0, 299999997, 0]))

# Verdicts, rejects, counts.
apply(book, "verdict-of-two-codes", "the sum of 2 to the power c", [detail("M", {65: "        ", 228: "X"})], [[7, 18]])
apply(book, "verdict-52", "the sum of 2 to the power c", [detail("A", last="JONES")], [[52]], result=[1, 0, 1, 0, 1],
      reject={0: {228: "52              "}, 1: {6: digits(1, 9) + digits(0, 27) + digits(1, 9) + digits(0, 9)}})
apply(book, "reject-file-in-batch-order", ["the reject file has, for each detail with a code", "one giving every record the same verdict",
                                           "a batch's verdict on a detail is read off"],
      [detail("M", {228: "X"}), M, detail("A", last="JONES"), detail("L", last="BROWN")], [[18], [], [52], [17]], result=[2, 2, 1, 0, 1],
      reject={0: {73: "M", 228: "18"}, 1: {73: "A", 228: "52"}, 2: {73: "L", 228: "17", 240: "JONE"}, 3: {3: "CTL"}})
seven = detail("A", {30: "    ", 50: "1", 65: "        ", 169: "ZZ", 180: "BAD DATE", 188: "NONE", 228: "X"}, ssn=NEW)
apply(book, "six-lowest-codes", "the six lowest codes", [seven], [[5, 6, 7, 14, 15, 16, 18]], space=2, reject={0: {228: "050607141516     "}})
apply(book, "filler-built-anew", ["a space, column 245", "columns 1–227"], [detail("M", {228: "ABCDEFGHIJKLMNOPQR"})], [[18]],
      reject={0: {228: "18" + " " * 15 + "R"}})
apply(book, "column-245-copied", "a space, column 245", [detail("M", {245: b"\xff"}, last="JONES")], [[17]], reject={0: {244: b"\x40\xff"}})
apply(book, "columns-1-to-227-copied", "columns 1–227", [detail("M", {3: b"\0\1\2", 15: "X" * 15, 75: b"\xff" * 153}, last="JONES")], [[17]],
      reject={0: {3: b"\0\1\2", 15: "X" * 15, 75: b"\xff" * 153}})
many = [detail("A", ssn=NEW), detail("A", {65: "00000001"}, ssn="222334444"), detail("A", ssn="333445555", case="N"), detail("M", case="N"),
        detail("A", {3: "999"}, ssn="444556666"), detail("A", {3: "999"}, ssn="444556666", case="N"), detail("M", {74: "X"})]
apply(book, "counts", ["then the control record of Chart 0-2", "accepted includes warned", "the result carries accepted",
                       "one whose accepted and rejected are invented"], many,
      [[], [8], [], [9], [51], [51], [4]], space=6, result=[4, 2, 2, 1, 5],
      reject={5: {6: digits(2, 9) + digits(1, 9) + digits(2, 9) + digits(1, 9) + digits(1, 9) + digits(1, 9)}})
apply(book, "bytes-behind-kept", ["bytes past the last row, verdict and reject record", "bytes that a call doesn't write are kept"], [M], [[]], space=2, rejects=600, verdicts=3)
KEEPS = ["bytes past the last row, verdict and reject record", "bytes that a call doesn't write are kept"]
apply(book, "bytes-behind-kept-without-details", KEEPS, [], [], space=2, rejects=735, verdicts=2)
apply(book, "bytes-behind-kept-without-rows", KEEPS, [], [], rows=[], space=2, rejects=735, verdicts=2)
apply(book, "bytes-behind-kept-behind-a-new-row", KEEPS, [detail("A")], [[]], rows=[], space=3, rejects=980, verdicts=3)
apply(book, "bytes-behind-kept-behind-a-reject", KEEPS, [detail("M", {228: "X"})], [[18]], space=2, rejects=980, verdicts=3)
apply(book, "rows-in-key-order", "the machine runs on each detail in turn",
      [detail("A", ssn="999999999"), detail("A", ssn="001010001"), detail("A", ssn="123456789", case="N")], [[], [], []], space=3,
      result=[3, 0, 0, 0, 4], after={0: {3: "001010001A"}, 1: {3: "123456789A"}, 2: {3: "123456789N"}, 3: {3: "999999999A"}})
apply(book, "rows-of-other-states-stay", ["the machine runs on each detail in turn", "a deleted row keeps its place"], [detail("A", ssn=NEW), detail("D")], [[], []],
      rows=[row(state="AK", owed=0), row(state="NY"), row(), row("222334444", owed=0), row(state="WY", owed=0)], result=[2, 0, 0, 0, 6],
      after={0: {1: "AK", 196: "D"}, 1: {1: "NY", 196: " "}, 2: {3: NEW, 196: " "}, 3: {3: "123456789", 196: "D"}, 4: {3: "222334444", 196: "D"}, 5: {1: "WY", 196: "D"}})
apply(book, "judged-at-its-turn", ["the machine runs on each detail in turn", "Proved table|judging a record against the master",
                                   "one working the first detail", "under a key they stand in the batch order"],
      [detail("A", ssn=NEW), detail("M", ssn=NEW), detail("D", ssn=NEW), detail("M", ssn=NEW)], [[], [], [], [9]], space=2, result=[3, 1, 0, 0, 2])
apply(book, "two-keys-apart", ["a detail record has 245 bytes", "the one-case machine starts there and takes"], [detail("A", {65: "00000200"}, ssn=NEW), M], [[], []], space=2,
      after={0: {3: NEW, 66: "00000200"}, 1: {66: "00000100"}})
apply(book, "key-by-its-columns", "its key is columns 1–2, 6–14, 74", [detail("A", {3: "XYZ", 73: "A"}, case="N")], [[51]], space=2, result=[1, 0, 1, 0, 2])

# Names, document 02, item 3.
GIVEN = "for types other than A and B, columns 30–33 may match"
B = detail("B", last="JONES")
J = detail("M", last="JONES")
for name, sentences, details, codes in [
        ("b-before", GIVEN, [B, J], [[], []]), ("b-behind", [GIVEN, "anywhere in the batch"], [J, B], [[], []]),
        ("old-name-behind-b", GIVEN, [B, M], [[], [17]]), ("old-name-of-another-b", GIVEN, [B, detail("B"), J, M], [[], [], [], []]),
        ("old-name-given-behind", "anywhere in the batch", [B, M, detail("B")], [[], [], []]),
        ("no-b", "where it is judged, error 17 holds exactly", [J], [[17]]),
        ("b-of-another-case-type", "records of other keys still have no say", [detail("B", last="JONES", case="N"), J], [[9], [17]]),
        ("b-of-another-ssn", "records of other keys still have no say", [detail("B", last="JONES", ssn=NEW), J], [[9], [17]]),
        ("b-with-05", "that has none of errors 01 to 06 or 18", [detail("B", last="--"), detail("M", last="--")], [[5], [17]]),
        ("b-with-06", "that has none of errors 01 to 06 or 18", [detail("B", {50: "1"}, last="JONES"), J], [[6], [17]]),
        ("b-with-18", "that has none of errors 01 to 06 or 18", [detail("B", {244: "X"}, last="JONES"), J], [[18], [17]]),
        ("a-gives-no-name", GIVEN, [J, detail("A", last="JONES")], [[17], [52]]),
        ("c-gives-no-name", GIVEN, [detail("C", last="JONES"), J], [[17], [17]]),
        ("three-names", GIVEN, [detail("L", last="BROWN"), B, detail("B", last="BROWN"), J], [[], [], [], []])]:
    apply(book, "names-" + name, sentences, details, codes)
apply(book, "names-b-with-09", ["that has none of errors 01 to 06 or 18", "the one-case machine now also reads"],
      [detail("D"), B, detail("A"), J], [[], [9], [], []])
for name, rows in [("no-row", []), ("a-deleted-row", [row(owed=0)])]:
    apply(book, "names-b-with-09-of-" + name, ["that has none of errors 01 to 06 or 18", "anywhere in the batch"], [B, detail("A"), J], [[9], [], []], rows=rows)
    apply(book, "names-b-behind-of-" + name, [GIVEN, "anywhere in the batch"], [detail("A"), J, B], [[], [], []], rows=rows)
apply(book, "names-stored-told-before-b", "(the four characters stay the stored ones)", [detail("M", last="BROWN"), B], [[17], []], reject={0: {240: "SMIT"}})
apply(book, "names-stored-told-beside-two", "(the four characters stay the stored ones)", [detail("M", last="BROWN"), B, detail("B", last="ADAMS")], [[17], [], []],
      reject={0: {240: "SMIT"}})
apply(book, "names-stored-told", "(the four characters stay the stored ones)", [B, detail("M", last="BROWN")], [[], [17]], reject={0: {240: "JONE"}})

# Refusals.
for year, number in [(1899, 1), (1900, 0), (9999, 0), (10000, 1), (0, 1), (2 ** 32 + 2007, 1), (2 ** 64 - 1, 1)]:
    apply(book, "year-%d" % year, "1 year outside 1900", [M], [[]], year=year, answer=number)
for name, listed, number in [("empty", "", 0), ("one", "000", 0), ("three", "001012999", 0), ("twice", "012012", 2), ("falling", "012011", 2),
                             ("two-digits", "01", 2), ("one-more-byte", "0120", 2), ("letter", "01A", 2), ("space", "01 ", 2), ("comma", "012,13", 2)]:
    apply(book, "list-" + name, "2 list not made", [M], [[]], locals_=listed, answer=number)
apply(book, "master-length", "3 master length no multiple", [M], answer=3, master=row() + b"\x40")
apply(book, "master-count", "3 master length no multiple", [M], answer=3, master=row(), count=2)
apply(book, "master-count-of-the-limit", ["3 master length no multiple", "at most 65,535"], [M], answer=3, master=row(), count=16777216)
apply(book, "master-old-row", ["4 an unsound row or order", "batches are judged over the new row"], [M], answer=4, rows=[row(at={197: "    "})])
apply(book, "master-order", "4 an unsound row or order", [M], answer=4, rows=[row("222334444"), row()])
for name, whole in [("empty", b""), ("244", batch([])[:244]), ("246", batch([]) + b"\x40"), ("one-byte", b"\x40"), ("489", batch([M])[:489])]:
    apply(book, "batch-length-" + name, "5 batch empty", [M], answer=5, whole=whole)
CTL = "it now means only that CTL is missing"
for name, column, value in [("ctm", 3, "CTM"), ("blank", 3, "   "), ("ct", 3, "CT "), ("shifted", 3, " CT"), ("lower-case", 3, b"\x83\xa3\x93")]:
    apply(book, "ctl-" + name, [CTL, "6 control record malformed"], [M], answer=6, whole=batch([M], at={column: value}))
for name, state in [("zz", "ZZ"), ("blank", "  "), ("half", "O "), ("lower-case", b"\x96\x88")]:
    apply(book, "control-state-" + name, ["20, a state not in the table", "Chart A-2: state in the table"], [M], answer=20, whole=batch([M], at={1: state}))
FORM = ["then 21, a total that isn't digits", "Chart A-2: state in the table"]
for column in (6, 14, 15, 23, 24, 34, 35, 45):
    apply(book, "control-total-column-%d" % column, FORM, [M], answer=21, whole=batch([M], at={column: " "}))
for column in (46, 100, 245):
    apply(book, "control-filler-column-%d" % column, FORM, [M], answer=21, whole=batch([M], at={column: "0"}))
for name, sums in [("tanf-more", [2, 0, 100, 0]), ("tanf-less", [0, 0, 100, 0]), ("non-tanf-more", [1, 1, 100, 0]), ("exchanged", [0, 1, 100, 0])]:
    apply(book, "count-" + name, "7 a count differs", [M], answer=7, whole=M + control("OH", sums))
for name, sums in [("tanf-more", [1, 0, 101, 0]), ("tanf-less", [1, 0, 99, 0]), ("non-tanf-more", [1, 0, 100, 1]), ("exchanged", [1, 0, 0, 100])]:
    apply(book, "amount-" + name, "8 an amount differs", [M], answer=8, whole=M + control("OH", sums))
# Both counts come before either amount.
for name, sums in [("tanf-count-non-tanf-amount", [2, 0, 100, 1]), ("non-tanf-count-tanf-amount", [1, 1, 101, 0]), ("both-counts-both-amounts", [2, 1, 101, 1])]:
    apply(book, "count-before-amount-" + name, ["7 a count differs", "refused, in order: 1 to 11"], [M], answer=7, whole=M + control("OH", sums))
wide = [detail("M", {65: "99999999"})] * 1001
apply(book, "amount-above-eleven-digits", "8 an amount differs", wide, answer=8, whole=b"".join(wide) + control("OH", [1001, 0, 99998998, 0]))

ROOM = "9 rows plus A records whose key has no row"
A = detail("A", ssn=NEW)
for name, details, rows, space, number in [
        ("just-enough", [A], [row()], 1, 0), ("one-short", [A], [row()], 0, 9), ("repeated", [A, A], [row()], 1, 9),
        ("repeated-enough", [A, A], [row()], 2, 0), ("erroneous", [detail("A", {65: "00000024"}, ssn=NEW)], [row()], 0, 9),
        ("of-neither-case-type", [detail("A", {74: "X"})], [row()], 0, 9), ("of-another-state", [detail("A", state="NY")], [row()], 0, 9),
        ("unsound-key", [detail("A", ssn="000000000")], [row()], 0, 9), ("key-with-a-row", [detail("A")], [row()], 0, 0),
        ("key-with-a-deleted-row", [detail("A")], [row(owed=0)], 0, 0), ("m-without-a-row", [detail("M", ssn=NEW)], [row()], 0, 0)]:
    codes = {"repeated-enough": [[], []], "m-without-a-row": [[9]]}.get(name, [[]])
    tempting = [ROOM, "Proved table|treating a deleted row as absent"] if "deleted" in name else [ROOM, "or pleading 9 or 11 with space left"]
    apply(book, "room-" + name, tempting, details, codes, rows=rows, space=space, answer=number)
apply(book, "room-deleted-rows-take-place", [ROOM, "Proved table|treating a deleted row as absent"], [A], rows=[row(owed=0)], space=0, answer=9)
for count, number in [(0, 10), (1, 10), (2, 0), (3, 0)]:
    apply(book, "verdicts-%d-of-2" % count, "10 verdict list shorter", [M, M], [[], []], verdicts=count, answer=number)
for length, number in [(0, 11), (489, 11), (490, 0), (491, 0)]:
    apply(book, "rejects-of-%d" % length, "11 reject buffer below", [M], [[]], rejects=length, answer=number)
apply(book, "rejects-for-all-details", "11 reject buffer below", [M, M], answer=11, rejects=490)
apply(book, "refusal-leaves-everything", "each leaves every buffer alone", [A, M], answer=11, rejects=734, space=2)
