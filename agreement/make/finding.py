"""Finding a case, and many together."""

from describe import Book, answered, refused, row, text, words

book = Book("finding")
ROWS = [row("111223333"), row("222334444", owed=0), row("222334444", case="N"), row("333445555")]
KEYS = ["OH111223333A", "OH222334444A", "OH222334444N", "OH333445555A"]
NONE = 4294967295


def find(name, sentences, key, place=None, answer=0, rows=None):
    rows = ROWS if rows is None else rows
    values = {"master": b"".join(rows), "rows": len(rows), "key": text(key), "place": words([99], 8)}
    book.add(name, sentences, "find", values, refused(answer) if answer else answered([place], "place"))


PLACE = ["the place of the key's row", "the base has: applying"]
for place, key in enumerate(KEYS):
    find("place-%d" % place, PLACE + ["one finding 15 unlooked"], key, place)
UNSOUND = ["a key not of twelve bytes is unsound", "Finding a case|refused, in order: 3; 4"]
for name, key in [("eleven-bytes", "OH111223333"), ("thirteen-bytes", "OH111223333A "), ("empty", ""), ("state-outside", "ZZ111223333A"),
                  ("ssn-666", "OH666223333A"), ("ssn-letter", "OH11122333AA"), ("case-type-b", "OH111223333B"), ("case-type-blank", "OH111223333 ")]:
    find("key-" + name, UNSOUND, key, answer=14)
MISSING = "Finding a case|refused, in order: 3; 4"
for name, key in [("below", "AK111223333A"), ("between", "OH111223334A"), ("above", "WY111223333A"), ("other-case-type", "OH111223333N")]:
    find("missing-" + name, MISSING, key, answer=15)
find("empty-master", MISSING, "OH111223333A", answer=15, rows=[])


def many(name, sentences, keys, places=None, comparisons=None, answer=0, rows=None, room=None, raw=None):
    """By hand: the places and the number of comparisons."""
    rows = ROWS if rows is None else rows
    room = len(keys) if room is None else room
    values = {"master": b"".join(rows), "rows": len(rows), "keys": text("".join(keys)) if raw is None else text(raw),
              "places": words([7] * room, 4), "comparisons": words([99], 8)}

    def expect(found, left):
        answered([comparisons], "comparisons")(found, left)
        wanted = words(places + [7] * (room - len(places)), 4)
        if left.get("places", values["places"]) != wanted:
            raise ValueError("other places than by hand")

    book.add("many-" + name, sentences, "find_many", values, refused(answer) if answer else expect)


WALK = ["a call centre brings a rising list of keys", "the walk compares the present key", "the number of comparisons with a row"]
many("all", WALK + ["an equal one gives its place"], KEYS, [0, 1, 2, 3], 7)
many("first", "an equal one gives its place", KEYS[:1], [0], 1)
many("last", ["a smaller row is passed", "and is at most rows plus keys"], KEYS[3:], [3], 4)
many("below", "an equal one gives its place", ["AK111223333A"], [NONE], 1)
many("between", ["a smaller row is passed", "none being 4,294,967,295"], ["OH111223334A"], [NONE], 2)
many("above", ["an equal one gives its place", "and is at most rows plus keys"], ["WY111223333A"], [NONE], 4)
many("two-above", "an equal one gives its place", ["WY111223333A", "WY111223334A"], [NONE, NONE], 4)
many("equal-row-met-again", "the number of comparisons with a row", ["OH111223333A", "OH111223333N"], [0, NONE], 3)
many("mixed", "the answers, 32-bit", ["AK111223333A", "OH222334444A", "OH222334445A", "OH333445555A"], [NONE, 1, NONE, 3], 7)
many("no-keys", "a call centre brings a rising list of keys", [], [], 0)
many("no-rows", "an equal one gives its place", KEYS[:2], [NONE, NONE], 0, rows=[])
many("room-behind-kept", "the answers, 32-bit", KEYS[:1], [0], 1, room=3)
many("room-behind-no-keys-kept", "the answers, 32-bit", [], [], 0, room=3)
many("deleted-row-found", "the answers, 32-bit", KEYS[1:2], [1], 2)
for name, keys in [("twice", [KEYS[0], KEYS[0]]), ("falling", [KEYS[1], KEYS[0]]), ("unsound", ["OH666223333A"]), ("n-before-a", [KEYS[2], KEYS[1]])]:
    many("keys-" + name, "refusal 27, keys unsound", keys, answer=27)
for name, key in [("state", "ZZ222334444A"), ("ssn", "OH666223333A"), ("case-type", "OH222334444B")]:
    many("keys-unsound-behind-by-" + name, "refusal 27, keys unsound", [KEYS[0], key], answer=27)
many("keys-cut", "refusal 27, keys unsound", [], answer=27, raw="OH11122333", room=1)
many("keys-and-a-byte", "refusal 27, keys unsound", [], answer=27, raw="OH111223333A0", room=2)
many("list-short", "and before 28", KEYS, answer=28, room=3)
many("list-none", "and before 28", KEYS[:1], answer=28, room=0)
