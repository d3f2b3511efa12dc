"""What holds over several calls: each case is one of them, with what it must leave by hand."""

from describe import Book, apply, control, detail, put, row

book = Book("effects")
OLD = row()
FIRST, SECOND = detail("M", {65: "00000200"}), detail("C", {15: "NEW CASE ID"})
NEW = detail("A", ssn="111223333")
END = {0: {3: "111223333"}, 1: {3: "123456789", 16: "NEW CASE ID", 66: "00000200"}}

# Item 10: a file, and the same sent as two; each part begins with the master that the one before left.
SEVERAL = ["for every list of batches whose details joined", "offices break a long file up"]
apply(book, "several-whole", SEVERAL, [FIRST, NEW, SECOND], [[], [], []], after=END, result=[3, 0, 0, 0, 2])
apply(book, "several-first-part", SEVERAL + ["where it and … all of the list are carried out"], [FIRST, NEW], [[], []], result=[2, 0, 0, 0, 2],
      after={0: {3: "111223333"}, 1: {66: "00000200"}})
apply(book, "several-second-part", ["one behind the other from the same master", "the master and verdicts are the single batch's", "with the same state, year and codes"],
      [SECOND], [[]], rows=[row("111223333"), row(owed=200)], space=0, after=END, result=[1, 0, 0, 0, 2])
PROVISO = "provided no key with a B record has records in two"
B, J = detail("B", last="JONES"), detail("M", last="JONES")
apply(book, "several-b-behind-in-the-whole", PROVISO, [J, B], [[], []])
apply(book, "several-b-in-another-part", PROVISO, [J], [[17]])

# Item 13: the merged batch, and both one behind the other.
MERGED = ["where both, applied one behind the other", "the effect is the same", "and no key with a B has records in both"]
apply(book, "merged", MERGED, [FIRST, SECOND], [[], []], whole=FIRST + SECOND + control("OH", [2, 0, 200, 0]), after={0: {16: "NEW CASE ID", 66: "00000200"}})
apply(book, "merged-first", MERGED[:2], [FIRST], [[]], after={0: {66: "00000200"}})
apply(book, "merged-second", MERGED[:2], [SECOND], [[]], rows=[row(owed=200)], after={0: {16: "NEW CASE ID", 66: "00000200"}})

# Item 11: the records that lead to a wanted row, sent.
LEAD = ["under a control record of the row's state they lead", "(the same in a whole batch"]
WANTED = put(OLD, {13: "034", 16: "NEW CASE", 66: "00000200", 195: b"\x90"})
records = [put(detail(kind), {15: " " * 15, 65: " " * 8, **at}) for kind, at in
           (("C", {15: "NEW CASE"}), ("L", {3: "034"}), ("R", {188: "TAX,DCK"}), ("M", {65: "00000200"}))]
apply(book, "records-sent", LEAD, records, [[], [], [], []], locals_="012034", after={0: {column: WANTED[column - 1:column] for column in range(1, 201)}})

# Demand 3: what one key sees doesn't depend on the others.
ALONE = ["two masters are the same if row count and rows are", "rows are the same when all 200 bytes agree"]
apply(book, "key-alone", ALONE, [FIRST, SECOND], [[], []], space=0, after={0: {16: "NEW CASE ID", 66: "00000200"}})
apply(book, "key-among-others", ALONE, [NEW, FIRST, detail("M", ssn="222334444"), SECOND], [[], [], [9], []], space=3, after=END)
apply(book, "key-without-details", "without details the starting row is also the end", [NEW], [[]], after={1: {1: OLD}})
apply(book, "key-with-17", "the machine's verdicts are the same when the sets", [detail("M", last="JONES"), NEW], [[17], []], reject={0: {240: "SMIT"}})
apply(book, "key-with-17-behind-another", "the machine's verdicts are the same when the sets", [NEW, detail("M", last="JONES")], [[], [17]], reject={0: {240: "SMIT"}})
