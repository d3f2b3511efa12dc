"""Characters, and the state table."""

from describe import Book, apply, detail

book = Book("characters")

# By hand: which bytes are letters, seen by error 06 in column 50 of an A.
LETTERS = ["letters are C1", "bytes are EBCDIC", "Proved table|letters as one range"]
for byte, is_letter in [(0xC0, 0), (0xC1, 1), (0xC9, 1), (0xCA, 0), (0xD0, 0), (0xD1, 1), (0xD9, 1), (0xDA, 0), (0xE1, 0),
                        (0xE2, 1), (0xE9, 1), (0xEA, 0), (0xC5, 1), (0xE0, 0), (0x00, 0), (0xFF, 0)]:
    apply(book, "letter-%02x" % byte, LETTERS, [detail("A", {50: bytes([byte])}, ssn="111223333")],
          [[] if is_letter else [6]], space=2)
for byte in (0x81, 0x89, 0x91, 0xA2, 0xA9):
    apply(book, "lower-case-%02x" % byte, "only upper case letters count",
          [detail("A", {50: bytes([byte])}, ssn="111223333")], [[6]], space=2)
for byte in (0x41, 0x5A, 0x61):
    apply(book, "ascii-%02x" % byte, ["bytes are EBCDIC", "judging stays in EBCDIC"],
          [detail("A", {50: bytes([byte])}, ssn="111223333")], [[6]], space=2)

# By hand: which bytes are digits, seen by error 07 in the last column of an M's amount.
for byte, is_digit in [(0xEF, 0), (0xF0, 1), (0xF5, 1), (0xF9, 1), (0xFA, 0), (0xFF, 0), (0x30, 0), (0x39, 0), (0x40, 0)]:
    apply(book, "digit-%02x" % byte, "digits F0", [detail("M", {72: bytes([byte])})], [[] if is_digit else [7]])

# By hand: the hyphen in a name (05), the comma and the space between words (16), and their neighbours.
for byte, codes in [(0x60, []), (0x5F, [5]), (0x61, [5]), (0x40, [5]), (0x6B, [5])]:
    apply(book, "name-with-%02x" % byte, "space 40, hyphen 60, comma 6B",
          [detail("B", {30: "O", 31: bytes([byte]), 32: "NE"})], [codes])
for byte, codes in [(0x6B, []), (0x40, []), (0x6A, [16]), (0x6C, [16]), (0x41, [16]), (0x3F, [16]), (0x60, [16])]:
    apply(book, "words-parted-by-%02x" % byte, "space 40, hyphen 60, comma 6B",
          [detail("R", {188: "RET", 191: bytes([byte]), 192: "PAS"})], [codes])
apply(book, "text-shown", "text below is shown in ordinary letters", [detail("M", {65: "00000123"})], [[]],
      after={0: {66: bytes([0xF0, 0xF0, 0xF0, 0xF0, 0xF0, 0xF1, 0xF2, 0xF3])}})

STATES = ("AK AL AR AZ CA CO CT DC DE FL GA GU HI IA ID IL IN KS KY LA MA MD ME MI MN MO MS MT NC ND NE NH NJ NM NV NY OH OK OR "
          "PA PR RI SC SD TN TX UT VA VI VT WA WI WV WY").split()
apply(book, "states", "state table (54)", [detail("T", {75: state}) for state in STATES], [[] for _ in STATES], after={0: {74: "WY"}})
for state in ("DC", "GU", "PR", "VI"):
    apply(book, "state-" + state.lower(), "state table (54)", [detail("T", {75: state})], [[]], after={0: {74: state}})
OTHERS = ("AA", "AB", "AS", "GY", "KA", "MP", "NB", "ON", "PQ", "TT", "UV", "WZ", "ZZ", "A ", " A", "  ", "00", b"\x96\x88")
apply(book, "no-states", "state table (54)", [detail("T", {75: state}) for state in OTHERS], [[12] for _ in OTHERS])
