"""The contact file: records, the table, the codes of a state."""

from describe import Book, blank, hold, numbers, put, refused, text, words

book = Book("contacts")


def contact(state="OH", code="001", at=None):
    """A good record."""
    columns = {1: state, 3: code, 6: "(301) 555-1212", 42: "BUREAU OF CHILD SUPPORT", 77: "1 MAIN STREET", 182: "COLUMBUS OH 43004"}
    return put(blank(220, columns), at or {})


def update(name, sentences, file, faulty=(), table=(), keys=None, answer=0, space=None, room=None, raw_table=None, raw_file=None, count=None, after=None):
    """By hand: the numbers of the faulty records, the keys of the table afterwards, and its records (`after`)."""
    space = len(file) if space is None else space
    room = len(file) if room is None else room
    values = {"table": b"".join(table) + b"\xa5" * (220 * space) if raw_table is None else raw_table, "count": len(table) if count is None else count,
              "file": b"".join(file) if raw_file is None else raw_file, "faulty": words([7] * room, 4), "result": words([9, 9], 8)}

    def expect(found, left):
        hold("the answer", found, 0)
        told = numbers(left.get("result", values["result"]), 8)
        whole = left.get("table", values["table"])
        hold("the faulty", numbers(left.get("faulty", values["faulty"]), 4)[:told[1]], list(faulty))
        hold("the result", told, [len(keys), len(faulty)])
        found_keys = [whole[220 * at:220 * at + 5] for at in range(told[0])]
        hold("the keys", [key.hex() for key in found_keys], [text(key).hex() for key in keys])
        if after is not None:
            hold("the records", whole[:220 * told[0]].hex(), b"".join(after).hex())

    book.add("update-" + name, sentences, "contacts_update", values, refused(answer) if answer else expect)


def one(name, sentences, at, is_good):
    """One record. By hand: whether it is good."""
    record = contact(at=at)
    update(name, sentences, [record], [] if is_good else [1], keys=["OH001"] if is_good and 1 not in at and 3 not in at else
           [] if not is_good else [at.get(1, "OH") + at.get(3, "001")])


READ = ["offices want to keep the addresses", "read records of 220 bytes by Chart A-3"]
one("good", READ, {}, 1)
STATE = "the state is in the state table, the code three digits"
for name, at, good in [("state-gu", {1: "GU"}, 1), ("state-zz", {1: "ZZ"}, 0), ("state-blank", {1: "  "}, 0), ("code-999", {3: "999"}, 1),
                       ("code-space", {3: "00 "}, 0), ("code-space-first", {3: " 01"}, 0), ("code-letter", {3: "0A1"}, 0), ("code-blank", {3: "   "}, 0)]:
    one(name, STATE, at, good)
one("code-000", [STATE, "000 is the state's own"], {3: "000"}, 1)
TELEPHONE = "telephone 1 has the form"
for name, number, good in [("right", "(000) 000-0000", 1), ("blank", " " * 14, 0), ("no-space", "(301)555-1212 ", 0), ("no-brackets", "301 555-1212  ", 0),
                           ("no-hyphen", "(301) 555 1212", 0), ("short", "(301) 555-121 ", 0), ("letter", "(301) 555-121A", 0), ("bracket-wrong", ")301( 555-1212", 0),
                           ("space-wrong", "(301)-555-1212", 0), ("shifted", " (301) 555-121", 0), ("digit-missing", "(3 1) 555-1212", 0)]:
    one("telephone-1-" + name, TELEPHONE, {6: number}, good)
SECOND = "telephone 2 and both extensions may be blank"
for name, at, good in [("blank", {24: " " * 14}, 1), ("right", {24: "(301) 555-1212"}, 1), ("wrong", {24: "(301)555-1212 "}, 0), ("one-byte", {37: "1"}, 0)]:
    one("telephone-2-" + name, SECOND, at, good)
for column, which in [(20, "1"), (38, "2")]:
    for name, extension, good in [("one", "1   ", 1), ("four", "1234", 1), ("behind-a-space", " 1  ", 0), ("gap", "1 2 ", 0), ("letter", "12A ", 0),
                                  ("last-column", "   1", 0)]:
        one("extension-%s-%s" % (which, name), SECOND, {column: extension}, good)
NAME = "the agency name contains CHILD SUPPORT"
for name, agency, good in [("child", "CHILD SUPPORT", 1), ("family", "FAMILY SUPPORT", 1), ("inside", "XCHILD SUPPORTX", 1), ("last-columns", " " * 22 + "CHILD SUPPORT", 1),
                           ("family-last-columns", " " * 21 + "FAMILY SUPPORT", 1), ("two-spaces", "CHILD  SUPPORT", 0), ("joined", "CHILDSUPPORT", 0),
                           ("cut", "CHILD SUPPOR", 0), ("blank", "", 0), ("turned-round", "SUPPORT CHILD", 0), ("hyphen", "CHILD-SUPPORT", 0)]:
    one("name-" + name, NAME, {42: agency + " " * (35 - len(agency))}, good)
RUN = "IRS and FMS are no whole run of letters"
for name, at, good in [("irs-in-name", {42: "IRS CHILD SUPPORT      "}, 0), ("fms-in-name", {42: "CHILD SUPPORT FMS      "}, 0), ("first", {42: "FIRST CHILD SUPPORT    "}, 1),
                       ("irs-line-1", {77: "IRS BUILDING "}, 0), ("fms-line-2", {112: "FMS"}, 0), ("irs-line-3", {147: "IRS"}, 0), ("fms-line-4", {182: "COLUMBUS FMS 43004"}, 0),
                       ("irs1", {112: "IRS1"}, 0), ("brackets", {112: "(FMS)"}, 0), ("irsa", {112: "IRSA"}, 1), ("airs", {112: "AIRS"}, 1), ("parted", {112: "I RS"}, 1),
                       ("last-columns", {144: "IRS"}, 0), ("two-fields", {110: "IR", 112: "S"}, 1), ("irsfms", {112: "IRSFMS"}, 1), ("hyphen", {112: "A-IRS-B"}, 0)]:
    one("run-" + name, RUN, at, good)
LINES = "at least one of lines 1 to 3, and line 4"
for name, at, good in [("lines-1-to-3-blank", {77: " " * 105}, 0), ("line-2-alone", {77: " " * 35, 112: "X"}, 1), ("line-3-alone", {77: " " * 35, 147: "X"}, 1),
                       ("line-3-last-column", {77: " " * 35, 181: "X"}, 1), ("line-4-blank", {182: " " * 35}, 0), ("line-4-last-column", {182: " " * 34 + "X"}, 1)]:
    one(name, LINES, at, good)
for column in (217, 218, 220):
    one("filler-%d" % column, "the filler is", {column: "X"}, 0)

REPLACES = ["a record replaces whole the one of its state and code", "into a lent table of such records"]
a, b, c = contact(code="001"), contact(code="002"), contact(code="003")
other = contact(code="002", at={77: "2 OTHER STREET"})
bad = contact(code="002", at={217: "X"})
update("rising", REPLACES, [c, a, b], keys=["OH001", "OH002", "OH003"])
update("replaced", REPLACES, [other], table=[a, b, c], keys=["OH001", "OH002", "OH003"], space=0)
update("last-good-one-stays", REPLACES, [b, other], keys=["OH002"])
# Records that have every field, and that have only those which must be there, one in place of the other.
most = contact(code="002", at={20: "1234", 24: "(410) 555-0000", 38: "56  ", 42: "FAMILY SUPPORT OFFICE   ", 77: "LINE 1" + " " * 7, 112: "LINE 2", 147: "LINE 3", 182: "LINE 4" + " " * 11})
least = contact(code="002", at={77: " " * 35, 147: "3 THIRD STREET"})
for name, old, new in [("most-by-least", most, least), ("least-by-most", least, most), ("most-by-one", most, b), ("one-by-least", b, least)]:
    update("replaced-" + name, REPLACES, [new], table=[a, old, c], keys=["OH001", "OH002", "OH003"], space=0, after=[a, new, c])
    update("replaced-in-the-file-" + name, REPLACES, [old, new], keys=["OH002"], after=[new])
update("between", REPLACES, [b], table=[a, c], keys=["OH001", "OH002", "OH003"])
update("states-in-order", REPLACES, [contact("WY"), contact("AK"), contact("OH")], keys=["AK001", "OH001", "WY001"])
update("faulty-undoes-nothing", ["a faulty record is skipped", "and its number, from 1"], [b, bad], [2], keys=["OH002"])
update("faulty-of-the-table-s-key", "a faulty record is skipped", [bad], [1], table=[b], keys=["OH002"], space=0)
update("faulty-numbers", ["and its number, from 1", "the result is the new table count", "the numbers in Item 4's and Item 6's lists"], [bad, a, bad, c, bad], [1, 3, 5], keys=["OH001", "OH003"])
update("empty-file", "the result is the new table count", [], table=[a], keys=["OH001"])
WRONG = "refusal 18 is a file or table length"
update("file-length", WRONG, [a], answer=18, raw_file=a + b"\x40")
update("table-length", WRONG, [a], answer=18, raw_table=b"\xa5" * 219)
update("count-above", WRONG, [a], answer=18, count=2)
update("count-of-64-bits", WRONG, [a], answer=18, count=2 ** 64 - 1)
TABLE = "or a table with a faulty record or out of"
update("table-faulty", TABLE, [a], answer=18, table=[bad])
update("table-falling", TABLE, [a], answer=18, table=[c, b])
update("table-key-twice", TABLE, [a], answer=18, table=[b, b])
FAULTS = [("state", {1: "ZZ"}), ("code", {3: "0 2"}), ("telephone-1", {6: " " * 14}), ("extension-1", {20: " 1"}), ("telephone-2", {24: "1"}), ("extension-2", {38: " 1"}),
          ("name", {42: " " * 35}), ("irs-in-the-name", {42: "IRS CHILD SUPPORT      "}), ("fms-in-line-1", {77: "FMS          "}), ("irs-in-line-2", {112: "IRS"}),
          ("fms-in-line-3", {147: "FMS"}), ("irs-in-line-4", {182: "IRS     "}), ("no-line", {77: " " * 35}), ("no-line-4", {182: " " * 35}), ("filler", {220: "X"})]
for name, at in FAULTS:
    update("table-faulty-by-" + name, TABLE, [], answer=18, table=[contact(code="002", at=at)])
update("table-faulty-last", TABLE, [a], answer=18, table=[a, b, contact(code="003", at={217: "X"})])
update("table-states-falling", TABLE, [a], answer=18, table=[contact("WY", "001"), contact("AK", "002")])
update("table-faulty-behind-the-count", TABLE, [a], table=[b], keys=["OH001", "OH002"], raw_table=b + bytes(220))
SPACE = "then 19, a table without space"
update("space-none", SPACE, [a], answer=19, space=0)
update("space-repeated", SPACE, [a, a], answer=19, space=1)
update("space-repeated-enough", SPACE, [a, a], keys=["OH001"], space=2)
update("space-faulty", SPACE, [bad], answer=19, space=0)
update("space-of-a-key-in-the-table", SPACE, [a], table=[a], keys=["OH001"], space=0)
update("list-short", "or a list shorter than the records", [a, b], answer=19, room=1)
update("list-short-of-good-ones", "or a list shorter than the records", [a], answer=19, room=0)
for name, table in [("no-table", []), ("a-table", [a])]:
    update("kept-behind-without-records-and-" + name, "item 4|(demand 1) bytes behind", [], table=table, keys=["OH001"][:len(table)], space=2, room=2)
update("kept-behind-a-good-record", "item 4|(demand 1) bytes behind", [a], keys=["OH001"], space=3, room=3)
update("kept-behind", "item 4|(demand 1) bytes behind", [bad], [1], keys=[], space=2, room=3)


def codes(name, sentences, table, state, listed=None, room=None, answer=0, count=None, raw=None):
    """By hand: the codes."""
    room = 3 * len(table) if room is None else room
    values = {"table": b"".join(table) if raw is None else raw, "count": len(table) if count is None else count, "state": text(state),
              "out": b"\xa5" * room, "codes": words([9], 8)}

    def expect(found, left):
        hold("the answer", found, 0)
        hold("how many", numbers(left.get("codes", values["codes"]), 8), [len(listed)])
        hold("the codes", left.get("out", values["out"]).hex(), (text("".join(listed)) + b"\xa5" * (room - 3 * len(listed))).hex())

    book.add("codes-" + name, sentences, "contacts_codes", values, refused(answer) if answer else expect)


FULL = [contact("AK"), contact(code="000"), contact(code="001"), contact(code="034"), contact("WY", "999")]
CODES = ["a second call writes the codes of one state", "and its result counts them"]
codes("two", CODES + ["(purpose) the codes of a state"], FULL, "OH", ["001", "034"])
codes("of-another", CODES, FULL, "WY", ["999"])
codes("none", CODES, FULL, "TX", [])
codes("own-code-alone", ["000 is the state's own", "a second call writes"], [contact(code="000")], "OH", [], room=0)
codes("empty-table", CODES, [], "OH", [])
# States that have a letter in the same place.
ALIKE = [contact("NH", "011"), contact("OH", "012"), contact("OK", "013"), contact("OR", "014"), contact("PR", "015")]
for state, code in [("OH", "012"), ("OK", "013"), ("OR", "014"), ("PR", "015"), ("NH", "011")]:
    codes("alike-" + state.lower(), CODES, ALIKE, state, [code], room=3)
REFUSED = "it is refused by 18, by 12, and by 19"
codes("state-zz", REFUSED, FULL, "ZZ", answer=12)
codes("state-of-three", REFUSED, FULL, "OHX", answer=12)
codes("room-exact", REFUSED, FULL, "OH", ["001", "034"], room=6)
codes("room-short", REFUSED, FULL, "OH", answer=19, room=5)
codes("table-length", REFUSED, FULL, "OH", answer=18, raw=b"".join(FULL) + b"\x40")
codes("table-faulty", REFUSED, [bad], "OH", answer=18)
for name, at in FAULTS:
    codes("table-faulty-by-" + name, REFUSED, [contact(code="002", at=at)], "OH", answer=18)
codes("table-falling", REFUSED, [c, b], "OH", answer=18)
codes("table-key-twice", REFUSED, [b, b], "OH", answer=18)
codes("table-states-falling", REFUSED, [contact("WY", "001"), contact("AK", "002")], "WY", answer=18)
codes("count-above", REFUSED, FULL, "OH", answer=18, count=6)
