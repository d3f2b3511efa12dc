"""Two batches into one, and the totals of details."""

from describe import Book, batch, control, detail, hold, numbers, refused, words

book = Book("merging")
M = detail("M")
N = detail("M", {65: "00000250"}, case="N")
X = detail("A", {74: "X"})
S = detail("S")


def merge(name, sentences, first, second, merged=None, answer=0, room=None):
    """By hand: the merged batch, whole."""
    room = len(first) + len(second) - 245 if room is None else room
    values = {"first": first, "second": second, "out": b"\xa5" * max(room, 0), "records": words([9], 8)}

    def expect(found, left):
        hold("the answer", found, 0)
        hold("how many records", numbers(left.get("records", values["records"]), 8), [len(merged) // 245])
        hold("the batch", left.get("out", values["out"]).hex(), (merged + b"\xa5" * (room - len(merged))).hex())

    book.add(name, sentences, "merge", values, refused(answer) if answer else expect)


BOTH = ["the first's details, the second's", "a state's two offices send a file each"]
merge("one-and-one", BOTH + ["with summed totals"], batch([M]), batch([N]), M + N + control("OH", [1, 1, 100, 250]))
merge("turned-round", BOTH, batch([N]), batch([M]), N + M + control("OH", [1, 1, 100, 250]))
merge("same-case-type", "with summed totals", batch([M, M]), batch([M]), M * 3 + control("OH", [3, 0, 300, 0]))
merge("first-without-details", BOTH, batch([]), batch([M]), M + control("OH", [1, 0, 100, 0]))
merge("second-without-details", BOTH, batch([M]), batch([]), M + control("OH", [1, 0, 100, 0]))
merge("none", BOTH, batch([]), batch([]), control("OH", [0, 0, 0, 0]))
merge("neither-case-type", "with summed totals", batch([X]), batch([S]), X + S + control("OH", [1, 0, 0, 0]))
merge("details-with-errors", BOTH, batch([detail("M", {1: "ZZ", 228: "X"})]), batch([M]), detail("M", {1: "ZZ", 228: "X"}) + M + control("OH", [2, 0, 200, 0]))
merge("room-behind-kept", "and 33 an output shorter", batch([M]), batch([N]), M + N + control("OH", [1, 1, 100, 250]), room=800)
for name, first, second, merged in [("none", [], [], control("OH", [0, 0, 0, 0])), ("one", [M], [], M + control("OH", [1, 0, 100, 0])), ("two", [M], [N], M + N + control("OH", [1, 1, 100, 250]))]:
    for more in (1, 245, 490):
        merge("room-of-%d-behind-%s" % (more, name), "and 33 an output shorter", batch(first), batch(second), merged, room=len(merged) + more)
FIRST = "the first input, then the second"
for name, fault, number in [("empty", b"", 5), ("length", batch([M])[:-1], 5), ("ctl", batch([M], at={3: "XXX"}), 6), ("state", batch([M], at={1: "ZZ"}), 20),
                            ("total", batch([M], at={6: " "}), 21), ("filler", batch([M], at={245: "X"}), 21), ("count", batch([M], at={15: "000000001"}), 7),
                            ("amount", batch([M], at={45: "1"}), 8)]:
    merge("first-" + name, FIRST, fault, batch([N]), answer=number, room=735)
    merge("second-" + name, FIRST, batch([N]), fault, answer=number, room=735)
merge("first-8-before-second-5", FIRST, batch([M], at={45: "1"}), b"", answer=8, room=735)
merge("second-5-before-32", FIRST, batch([M], state="NY"), b"", answer=5, room=735)
for name, at, number in [("ctl", {3: "XXX"}, 6), ("filler", {46: "0"}, 21), ("count", {15: "000000001"}, 7), ("amount", {45: "1"}, 8)]:
    merge("second-%d-before-32" % number, FIRST, batch([N]), batch([M], state="NY", at=at), answer=number, room=735)
CANNOT = "then refusal 32 is two different states"
for name, first, second in [("no-details", [], []), ("details-in-both", [M], [N]), ("details-in-the-second", [], [N])]:
    merge("two-states-" + name, CANNOT, batch(first), batch(second, state="NY"), answer=32)
    merge("two-states-turned-" + name, CANNOT, batch(first, state="NY"), batch(second), answer=32)
merge("two-states", CANNOT, batch([M]), batch([], state="NY"), answer=32)
for case in "AN":
    most = detail("M", {65: "99999999"}, case=case)
    rest = detail("M", {65: "00000999"}, case=case)
    more = detail("M", {65: "00001000"}, case=case)
    sums = [1001, 0, 99999999999, 0] if case == "A" else [0, 1001, 0, 99999999999]
    merge("amount-of-eleven-digits-" + case.lower(), [CANNOT, "with summed totals"], batch([most] * 500), batch([most] * 500 + [rest]),
          most * 1000 + rest + control("OH", sums))
    merge("amount-of-twelve-digits-" + case.lower(), CANNOT, batch([most] * 500), batch([most] * 500 + [more]), answer=32)
merge("room-exact", "and 33 an output shorter", batch([M]), batch([N]), M + N + control("OH", [1, 1, 100, 250]))
merge("room-one-short", "and 33 an output shorter", batch([M]), batch([N]), answer=33, room=734)
merge("room-none", "and 33 an output shorter", batch([]), batch([]), answer=33, room=0)


def total(name, whole, sums=None, answer=0):
    values = {"batch": whole, "totals": words([9] * 4, 8)}

    def expect(found, left):
        hold("the answer", found, 0)
        hold("the totals", numbers(left.get("totals", values["totals"]), 8), sums)

    book.add("totals-" + name, "(ours: the totals that 7 and 8 ask for)", "totals", values, refused(answer) if answer else expect)


total("of-four", M + N + X + S + control("OH", [0, 0, 0, 0]), [2, 1, 100, 250])
total("last-record-any", M + M, [1, 0, 100, 0])
total("one-record", M, [0, 0, 0, 0])
total("above-eleven-digits", detail("M", {65: "99999999"}) * 1002, [1001, 0, 100099998999, 0])
total("without-digits", detail("M", {65: "0000010A"}) + M, [1, 0, 0, 0])
total("empty", b"", answer=5)
total("length-244", M[:244], answer=5)
total("length-246", M + b"\x40", answer=5)
