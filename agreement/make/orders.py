"""Refusals in order: two faults at once, of which the first in the order is answered."""

from describe import Book, batch, detail, refused, row, text, words

book = Book("orders")
A, M = detail("A", ssn="111223333"), detail("M")
BAD_ROW = row(at={13: "  1"})


def apply_values(faults, journaled):
    at = {number: value for number, value in ((6, {3: "XXX"}), (20, {1: "ZZ"}), (21, {46: "0"}), (7, {6: "000000009"}), (8, {24: "00000000009"}))}
    control = {}
    for number in (8, 7, 21, 20, 6):
        if number in faults:
            control.update(at[number])
    whole = batch([A, M], at=control)
    if 5 in faults:
        whole = whole[:-1]
    master = (BAD_ROW if 4 in faults else row()) + (b"" if 9 in faults else b"\xa5" * 200)
    values = {"master": master + (b"\x40" if 3 in faults else b""), "rows": 1, "batch": whole, "locals": text("012011" if 2 in faults else "012"),
              "year": 1899 if 1 in faults else 2007, "verdicts": words([77] * (1 if 10 in faults else 2), 8),
              "rejects": b"\xa5" * (734 if 11 in faults else 735)}
    if journaled:
        values["journal"] = b"\xa5" * (421 if 25 in faults else 422)
    values["result"] = words([9] * (6 if journaled else 5), 8)
    return values


ORDER = [1, 2, 3, 4, 5, 6, 20, 21, 7, 8, 9, 10, 11]
IN_ORDER = "refused, in order: 1 to 11"
for place, first in enumerate(ORDER):
    for second in ORDER[place + 1:place + 3] + ([11] if place < 10 else []):
        control_order = {6, 20, 21, 7, 8} & {first, second}
        sentences = [IN_ORDER] + (["behind it and before 7 stand"] if len(control_order) == 2 else [])
        book.add("apply-%d-before-%d" % (first, second), sentences, "apply", apply_values({first, second}, False), refused(first))
for first in ORDER:
    book.add("apply-journaled-%d-before-25" % first, "refusal 25 is a journal buffer", "apply_journaled", apply_values({first, 25}, True), refused(first))
book.add("apply-all-at-once", IN_ORDER, "apply", apply_values(set(ORDER), False), refused(1))


def master_values(faults, rest):
    values = {"master": (BAD_ROW if 4 in faults else row()) + (b"\x40" if 3 in faults else b""), "rows": 1}
    values.update(rest)
    return values


def pairs(call, sentence, order, make):
    for place, first in enumerate(order):
        for second in order[place + 1:]:
            book.add("%s-%d-before-%d" % (call.replace("_", "-"), first, second), sentence, call, make({first, second}), refused(first))


pairs("find", "Finding a case|refused, in order: 3; 4", [3, 4, 14],
      lambda faults: master_values(faults, {"key": text("OH123456789B" if 14 in faults else "OH123456789A"), "place": words([9], 8)}))
pairs("find_many", "refusal 27, keys unsound", [3, 4, 27, 28],
      lambda faults: master_values(faults, {"keys": text("OH123456789B" if 27 in faults else "OH123456789A"),
                                            "places": words([7] * (0 if 28 in faults else 1), 4), "comparisons": words([9], 8)}))
pairs("reconcile", "Reconciliation|refused, in order: 3; 4", [3, 4, 12, 13, 11],
      lambda faults: master_values(faults, {"state": text("ZZ" if 12 in faults else "OH"), "date": text("20070230" if 13 in faults else "20070131"),
                                            "out": b"\xa5" * (244 if 11 in faults else 490), "records": words([9], 8)}))
pairs("pages", "after 3 and 4 comes refusal 31", [3, 4, 31],
      lambda faults: master_values(faults, {"out": b"\xa5" * (395 if 31 in faults else 396), "pages": words([9], 8)}))
pairs("take_back", "refusal 26, after 3 and 4", [3, 4, 26],
      lambda faults: master_values(faults, {"journal": b"\1\2" if 26 in faults else b"\1\1", "rows_after": words([9], 8)}))
# Each cause of 26 behind 3 and 4.
for name, given in [("empty", b""), ("cut", b"\1"), ("mark", b"\0\1\0\2"), ("count", b"\2\2"), ("place", b"\0\1\1\0"), ("marks", b"\0\1"), ("order", b"\1\1\0\0\0\0"),
                    ("unsound", b"\1\1\0\1" + BAD_ROW)]:
    for first in (3, 4):
        book.add("take-back-%d-before-26-by-%s" % (first, name), "refusal 26, after 3 and 4", "take_back",
                 master_values({first}, {"journal": given, "rows_after": words([9], 8)}), refused(first))
pairs("add_cents", "a conversion, refused by 3 and 4", [3, 4],
      lambda faults: {"master": row(at={197: "    ", 13: "  1" if 4 in faults else "000"}) + (b"\x40" if 3 in faults else b""), "rows": 1})


def post_values(faults):
    from posting import LINE, last
    file = LINE + last(0, 1, {6: "TOTAL   X"} if 23 in faults else {})
    return master_values(faults, {"file": file[:-1] if 22 in faults else file, "lines": words([7] * (0 if 24 in faults else 1), 4),
                                  "listed": words([9], 8)})


pairs("post", "then 24 a line list", [3, 4, 22, 23, 24], post_values)


def records_values(faults):
    return {"row": BAD_ROW if 4 in faults else row(), "wanted": row(last="JONES") if 29 in faults else row(owed=200),
            "locals": text("012011" if 2 in faults else ""), "out": b"\xa5" * (979 if 30 in faults else 980), "records": words([9], 8)}


pairs("records_to", "before it 2, then 4", [2, 4, 29, 30], records_values)


def convert_values(faults):
    return {"in": b"a" if 16 in faults else b"A", "out": b"" if 17 in faults else b"\0", "place": words([9], 8)}


def place_told(answer, left):
    if answer != 16 or left.get("place") != words([0], 8) or "out" in left:
        raise ValueError("16 with the place 0 alone, by hand")


book.add("to-ebcdic-16-before-17", "is checked before 17", "to_ebcdic", convert_values({16, 17}), place_told)


def codes_values(faults):
    from contacts import contact
    return {"table": contact(at={217: "X"} if 18 in faults else {}), "count": 1, "state": text("ZZ" if 12 in faults else "OH"),
            "out": b"\xa5" * (2 if 19 in faults else 3), "codes": words([9], 8)}


pairs("contacts_codes", "it is refused by 18, by 12", [18, 12, 19], codes_values)


def update_values(faults):
    from contacts import contact
    return {"table": contact(at={217: "X"} if 18 in faults else {}) + (b"" if 19 in faults else b"\xa5" * 220), "count": 1,
            "file": contact(code="002"), "faulty": words([7], 4), "result": words([9, 9], 8)}


pairs("contacts_update", "then 19, a table without space", [18, 19], update_values)


def update_by(early, late):
    """A cause of 18 with a cause of 19."""
    from contacts import contact
    table = contact(code="003", at={217: "X"} if early == "record" else {}) + contact(code="001" if early == "order" else "004")
    table += b"" if late == "space" else b"\xa5" * 220
    return {"table": table + (b"\x40" if early == "table" else b""), "count": 4 if early == "count" else 2,
            "file": contact(code="002") + (b"\x40" if early == "file" else b""), "faulty": words([7] * (late != "list"), 4), "result": words([9, 9], 8)}


for early in ("file", "table", "count", "record", "order"):
    for late in ("space", "list"):
        book.add("contacts-update-18-by-%s-before-19-by-%s" % (early, late), "then 19, a table without space", "contacts_update", update_by(early, late), refused(18))


def merge_values(faults):
    at = {6: {3: "XXX"}, 20: {1: "ZZ"}, 21: {46: "0"}, 7: {6: "000000009"}, 8: {24: "00000000009"}}
    control = {}
    for number in (8, 7, 21, 20, 6):
        if number in faults:
            control.update(at[number])
    first = batch([M], at=control)
    return {"first": first[:-1] if 5 in faults else first, "second": batch([], state="NY" if 32 in faults else "OH"),
            "out": b"\xa5" * (489 if 33 in faults else 490), "records": words([9], 8)}


MERGE = [5, 6, 20, 21, 7, 8, 32, 33]
for place, first in enumerate(MERGE):
    for second in MERGE[place + 1:place + 3]:
        book.add("merge-%d-before-%d" % (first, second), "the first input, then the second", "merge", merge_values({first, second}), refused(first))
