"""The records that lead to a wanted case."""

from describe import Book, blank, hold, numbers, put, refused, row, text, words

book = Book("records")
BASE = row(at={13: "012", 16: "OLD CASE", 195: b"\2", 197: "50"}, last="SMITH-JONES")


def lead(name, sentences, wanted, records=None, answer=0, base=BASE, listed="012034", room=980, raw=None):
    """By hand: the records, whole."""
    values = {"row": base, "wanted": put(base, wanted) if raw is None else raw, "locals": text(listed), "out": b"\xa5" * room, "records": words([9], 8)}

    def expect(found, left):
        hold("the answer", found, 0)
        hold("how many", numbers(left.get("records", values["records"]), 8), [len(records)])
        whole = b"".join(records)
        hold("the records", left.get("out", values["out"]).hex(), (whole + b"\xa5" * (room - len(whole))).hex())

    book.add(name, sentences, "records_to", values, refused(answer) if answer else expect)


def sent(kind, at):
    return put(blank(245, {1: "OH", 6: "123456789", 30: "SMITH-JONES", 73: kind, 74: "A"}), at)


C, L, R, M = sent("C", {15: "NEW CASE"}), sent("L", {3: "034"}), sent("R", {188: "TAX,DCK"}), sent("M", {65: "00000200"})
ONE = ["each only if its field differs", "with key, type, stored last name", "and that field"]
lead("case-id", ONE, {16: "NEW CASE"}, [C])
lead("local-code", ONE, {13: "034"}, [L])
lead("local-code-000", ["and that field", "each only if its field differs"], {13: "000"}, [sent("L", {3: "000"})])
lead("exclusions", ONE + ["exclusions in bit order"], {195: b"\x90"}, [R])
lead("exclusions-empty", "else blank", {195: b"\0"}, [sent("R", {})])
lead("exclusions-all", "exclusions in bit order", {195: b"\xff"}, [sent("R", {188: "ADM,RET,VEN,SAL,TAX,PAS,FIN,DCK"})])
lead("exclusions-adm-and-three", "exclusions in bit order", {195: b"\x0f"}, [sent("R", {188: "ADM,RET,VEN,SAL"})])
lead("arrearage", ONE, {66: "00000200", 197: "00"}, [M])
lead("cents-alone", "(M also for the cents)", {197: "00"}, [sent("M", {65: "00000100"})])
lead("deleted", "and that field", {66: "00000000", 196: "D00"}, [sent("M", {65: "00000000"})])
ALL = ["from a row, a wanted row and the list of codes", "a caseworker edits a case", "item 11|the result counts them"]
lead("all-four-in-order", ALL, {13: "034", 16: "NEW CASE", 66: "00000200", 195: b"\x90", 197: "00"}, [C, L, R, M])
lead("two", "each only if its field differs", {16: "NEW CASE", 195: b"\x90"}, [C, R])
lead("none", ["each only if its field differs", "(demand 1) bytes behind the records are kept"], {}, [])
lead("none-of-a-deleted-row", "refusal 29 comes exactly", {}, [], base=row(owed=0))
lead("room-behind", "(demand 1) bytes behind the records are kept", {16: "NEW CASE"}, [C], room=1000)
NONE = "refusal 29 comes exactly"
for name, wanted in [("deleted-row", {66: "00000100", 196: " "}), ("deleted-row-s-code", {13: "034"})]:
    lead("no-way-from-a-" + name, NONE, wanted, answer=29, base=row(owed=0))
for name, wanted in [("key", {3: "222334444"}), ("case-type", {12: "N"}), ("last-name", {31: "BROWN      "}), ("last-name-column-50", {50: "X"}), ("first-name", {51: "JANE"}),
                     ("transfer", {74: "NY"}), ("payment", {90: "1"}), ("address", {91: "X"}), ("zip", {186: "1"}), ("date", {187: "20070131"}),
                     ("blank-case-id", {16: " " * 15}), ("code-not-listed", {13: "035"}), ("adm-alone", {195: b"\1"}), ("adm-and-two", {195: b"\x07"}),
                     ("adm-and-others", {195: b"\xf1"}), ("other-cents", {197: "51"}), ("other-dollars-with-cents", {66: "00000200"})]:
    lead("no-way-to-" + name, NONE, wanted, answer=29)
lead("adm-alone-as-it-was", NONE, {16: "NEW CASE"}, [C], base=put(BASE, {195: b"\1"}))
lead("code-not-listed-as-it-was", NONE, {16: "NEW CASE"}, [C], base=put(BASE, {13: "777"}))
lead("cents-as-they-were", NONE, {16: "NEW CASE"}, [C])
lead("blank-case-id-as-it-was", NONE, {13: "034"}, [L], base=put(BASE, {16: " " * 15}))
BEFORE = "before it 2, then 4 over each"
lead("list-twice", BEFORE, {}, answer=2, listed="012012")
lead("row-unsound", BEFORE, {}, answer=4, base=put(BASE, {13: "  1"}))
lead("wanted-unsound", BEFORE, {13: "  1"}, answer=4)
lead("row-199", BEFORE, {}, answer=4, base=BASE[:199], raw=BASE)
lead("wanted-201", BEFORE, {}, answer=4, raw=BASE + b"\x40")
for room, number in [(979, 30), (0, 30), (245, 30)]:
    lead("room-of-%d" % room, "after it 30", {16: "NEW CASE"}, answer=number, room=room)
lead("room-of-979-for-none", "after it 30", {}, answer=30, room=979)
