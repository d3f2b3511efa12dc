"""Case pages."""

from describe import Book, digits, hold, hold_columns, numbers, refused, row, words

book = Book("pages")


def pages(name, sentences, rows, count=None, lines=None, room=None, answer=0):
    """By hand: how many pages, and columns of lines by their number in the output."""
    live = sum(one[195] == 0x40 for one in rows)
    needed = 132 * (live + 2 * -(-live // 58))
    values = {"master": b"".join(rows), "rows": len(rows), "out": b"\xa5" * (needed if room is None else room), "pages": words([9], 8)}

    def expect(found, left):
        hold("the answer", found, 0)
        hold("how many pages", numbers(left.get("pages", values["pages"]), 8), [count])
        for place, columns in (lines or {}).items():
            hold_columns("line %d" % place, left.get("out", values["out"])[132 * place:132 * place + 132], columns)

    book.add(name, sentences, "pages", values, refused(answer) if answer else expect)


def heading(number):
    return {1: "CASES " + digits(number, 6) + " " * 120}


def foot(count):
    return {1: "TOTAL " + digits(count, 4) + " " * 122}


ROW = row(at={13: "012", 49: "X", 65: "Y", 195: b"\x93", 197: "75"}, last="SMITH", first="JOHN")
LINE = {1: "OH123456789A 012 SMITH             X  JOHN          Y 00000100 4" + " " * 68}
pages("one-row", ["a line has the key, a space, the local code", "how many exclusion bits", "the heading is CASES", "the foot TOTAL", "a page is in EBCDIC", "the page number becomes six digits"], [ROW], 1,
      {0: heading(1), 1: LINE, 2: foot(1)})
pages("no-rows", "the result counts the pages", [], 0)
pages("no-live-rows", "the result counts the pages", [row(owed=0)], 0)
pages("deleted-left-out", ["a heading, 58 lines for live rows", "joined, the lines of all pages are the live rows"],
      [row("111223333"), row("222334444", owed=0), row("333445555")], 1, {1: {1: "OH111223333A"}, 2: {1: "OH333445555A"}, 3: foot(2)})
pages("any-state", "supervisors print the master", [row(state="AK"), row(state="WY")], 1, {1: {1: "AK"}, 2: {1: "WY"}})
pages("cents-alone", "a line has the key, a space, the local code", [row(owed=0, cents="50")], 1, {1: {55: "00000000"}})
for value, bits in [(0, "0"), (255, "8"), (128, "1"), (0x55, "4"), (0x7F, "7")]:
    pages("bits-%02x" % value, "how many exclusion bits", [row(at={195: bytes([value])})], 1, {1: {63: " " + bits + " "}})
MANY = [row("12301" + digits(at + 1, 4)) for at in range(117)]
FULL = ["a heading, 58 lines for live rows", "page numbers begin at"]
pages("rows-57", FULL, MANY[:57], 1, {0: heading(1), 58: foot(57)})
pages("rows-58", FULL, MANY[:58], 1, {0: heading(1), 59: foot(58)})
pages("rows-59", FULL, MANY[:59], 2, {59: foot(58), 60: heading(2), 61: {3: "123010059"}, 62: foot(1)})
pages("rows-116", FULL, MANY[:116], 2, {119: foot(58)})
pages("rows-117", FULL, MANY, 3, {60: heading(2), 120: heading(3), 122: foot(1)})
SHORT = "after 3 and 4 comes refusal 31"
pages("room-one-short", SHORT, [ROW], answer=31, room=395)
pages("room-none", SHORT, [ROW], answer=31, room=0)
pages("room-none-for-no-rows", SHORT, [row(owed=0)], 0, room=0)
pages("room-behind-kept", SHORT, [ROW], 1, {3: {1: b"\xa5" * 4}}, room=400)
# Room for lines and pages that aren't there.
for lines in (1, 2, 60, 61):
    pages("room-of-%d-lines-for-no-rows" % lines, SHORT, [], 0, {place: {1: b"\xa5" * 132} for place in (0, lines - 1)}, room=132 * lines)
    pages("room-of-%d-lines-for-no-live-rows" % lines, SHORT, [row(owed=0)], 0, {0: {1: b"\xa5" * 132}}, room=132 * lines)
    pages("room-of-%d-lines-behind" % lines, SHORT, [ROW], 1, {2: foot(1), 3: {1: b"\xa5" * 132}, 2 + lines: {1: b"\xa5" * 132}}, room=132 * (3 + lines))
pages("room-of-a-page-not-asked", SHORT, [ROW, row("222334444")], 1, room=528)
