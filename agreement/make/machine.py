"""The one-case machine: what each type changes, and what it keeps."""

from describe import Book, apply, detail, over, row

book = Book("machine")
FULL = {13: "012", 16: "OLD CASE ID", 74: "NY", 76: "077", 79: "2005", 83: "00000050", 91: "OLD LINE 1", 121: "OLD LINE 2", 151: "OLD CITY",
        176: "NY", 178: "111112222", 187: "20050101", 195: b"\x42", 197: "75"}
OLD = row(at=FULL)
KEPT = {74: "NY077200500000050"}


def step(name, sentences, details, codes=None, after=None, rows=None, **others):
    """By hand: columns of the row afterwards."""
    rows = [OLD] if rows is None else rows
    codes = [[] for _ in details] if codes is None else codes
    apply(book, name, sentences, details, codes, rows=rows, after={0: after or {}}, locals_="012034", **others)


STATE = "its state is one row or none"
FRESH = ["A with no row, or a deleted one", "transfer fields blank, payment fields zeros"]
A = {3: "034", 15: "NEW CASE ID", 65: "00000250", 84: "NEW LINE 1", 114: "NEW LINE 2", 144: "NEW CITY", 169: "WY", 171: "99999",
     180: "20070131", 188: "TAX"}
NEW_ROW = {13: "034", 16: "NEW CASE ID", 31: "SMITH", 51: "JOHN", 66: "00000250", 74: "     ", 79: "000000000000", 91: "NEW LINE 1",
           121: "NEW LINE 2", 151: "NEW CITY", 176: "WY99999    ", 187: "20070131", 195: b"\x10", 196: " 00  "}
step("a-without-a-row", FRESH + [STATE], [detail("A", A)], rows=[], after=NEW_ROW)
step("a-on-a-deleted-row", FRESH, [detail("A", A)], rows=[row(owed=0, at=over(FULL, {197: "00"}))], after=NEW_ROW)
step("a-blank-on-a-deleted-row", FRESH, [detail("A")], rows=[row(owed=0, at=over(FULL, {197: "00"}))],
     after={13: "000" + " " * 15, 74: "     000000000000" + " " * 104, 195: b"\0", 196: " 00  "})
step("a-blank-without-a-row", FRESH, [detail("A")], rows=[], after={13: "000" + " " * 15, 91: " " * 104, 195: b"\0", 196: " 00  "})
# Columns of other types in an A.
OTHERS = {75: "NY123", 80: "2006"}
for name, rows in [("without-a-row", []), ("on-a-deleted-row", [row(owed=0, at=over(FULL, {197: "00"}))])]:
    step("a-with-columns-of-others-" + name, FRESH, [detail("A", OTHERS)], rows=rows, after={74: "     000000000000"})
LIVE = "on a live row: names, arrearage and exclusions replaced"
step("a-with-columns-of-others-on-a-live-row", LIVE, [detail("A", OTHERS)], after=KEPT)
step("a-on-a-live-row", LIVE, [detail("A", A, first="JANE")], [[52]],
     after=over(KEPT, {13: "034", 16: "NEW CASE ID", 51: "JANE", 66: "00000250", 91: "NEW LINE 1", 121: "NEW LINE 2", 151: "NEW CITY",
                         176: "WY99999    ", 187: "20070131", 195: b"\x10", 196: " 00"}))
step("a-blank-on-a-live-row", [LIVE, "case ID and date replaced unless blank", "all five address fields replaced"], [detail("A")],
     after=over(KEPT, {13: "000", 16: "OLD CASE ID", 66: "00000100", 91: "OLD LINE 1", 121: "OLD LINE 2", 151: "OLD CITY", 176: "NY111112222",
                         187: "20050101", 195: b"\0", 197: "00"}))
UNLESS = "case ID and date replaced unless blank"
step("a-case-id-alone", UNLESS, [detail("A", {29: "X"})], after={16: " " * 14 + "X", 187: "20050101"})
step("a-date-alone", UNLESS, [detail("A", {180: "20070131"})], after={16: "OLD CASE ID", 187: "20070131"})
FIVE = "all five address fields replaced"
for name, at, left in [("line-1", {84: "X"}, {91: "X" + " " * 95}), ("line-2", {114: "X"}, {91: " " * 30 + "X" + " " * 65}),
                       ("city", {144: "X"}, {91: " " * 60 + "X" + " " * 35}), ("state", {169: "WY"}, {91: " " * 85 + "WY" + " " * 9}),
                       ("zip", {171: "12345"}, {91: " " * 87 + "12345" + " " * 4})]:
    step("a-address-of-%s-alone" % name, FIVE, [detail("A", at)], after=left)
CODE = "local code in both: as sent if listed"
for name, code, stored, codes in [("listed", "034", "034", []), ("not-listed", "035", "000", [51]), ("blank", "   ", "000", []), ("zero", "000", "000", []),
                                  ("odd", "1  ", "000", [51])]:
    step("a-local-code-%s-live" % name, CODE, [detail("A", {3: code})], [codes], after={13: stored})
    step("a-local-code-%s-fresh" % name, CODE, [detail("A", {3: code})], [codes], rows=[], after={13: stored})
step("a-names", LIVE, [detail("A", {49: "Z", 64: "Y"}, last="JONES", first="JANE")], [[52]],
     after={31: "JONES" + " " * 14 + "Z" + "JANE" + " " * 10 + "Y"})

REST = over({column: value for column, value in FULL.items() if column != 197}, {31: "SMITH", 51: "JOHN", 66: "00000100", 196: " 75"})


def left(**changed):
    return over(REST, {int(column[1:]): value for column, value in changed.items()})


step("b", "B: both names", [detail("B", {49: "Z", 64: "Y"}, last="JONES", first="JANE")],
     after=left(c31="JONES" + " " * 14 + "Z", c51="JANE" + " " * 10 + "Y"))
step("c", "C: case ID", [detail("C", {15: "ABCDEFGHIJKLMNO"})], after=left(c16="ABCDEFGHIJKLMNO"))
step("l", "L: local code", [detail("L", {3: "034"})], after=left(c13="034"))
step("l-blank", "L: local code", [detail("L")], after=left(c13="000"))
step("l-zero", "L: local code", [detail("L", {3: "000"})], after=left(c13="000"))
step("r", "R: the set", [detail("R", {188: "DCK,TAX"})], after=left(c195=b"\x90"))
step("r-blank", "R: the set", [detail("R")], after=left(c195=b"\0"))
step("r-adm", ["R: the set", "A and R store the widened set"], [detail("R", {188: "ADM"})], after=left(c195=b"\x0f"))
step("a-adm", "A and R store the widened set", [detail("A", {188: "ADM"})], rows=[], after={195: b"\x0f"})
step("z", "Z: the address", [detail("Z", {84: "1" + " " * 29, 114: "2" + " " * 29, 144: "3" + " " * 24, 169: "WY", 171: "123456789"})],
     after=left(c91="1" + " " * 29 + "2" + " " * 29 + "3" + " " * 24 + "WY123456789", c121="2" + " " * 29, c151="3", c176="WY", c178="123456789"))
step("z-line-1-alone", "Z: the address", [detail("Z")], after=left(c91="1 MAIN STREET" + " " * 47, c121=" " * 30, c151="COLUMBUS" + " " * 17, c176="OH", c178="43004    "))
step("z-line-2-alone", "Z: the address", [detail("Z", {84: " " * 30, 114: "X"})], after={91: " " * 30 + "X"})
step("m", ["M: arrearage; zero", "A, D and M set the cents to 00"], [detail("M", {65: "00000250"})], after=left(c66="00000250", c196=" 00"))
step("m-of-1", "M: arrearage; zero", [detail("M", {65: "00000001"})], after=left(c66="00000001", c196=" 00"))
step("m-of-0", "M: arrearage; zero", [detail("M", {65: "00000000"})], after=left(c66="00000000", c196="D00"))
step("m-of-most", "M: arrearage; zero", [detail("M", {65: "99999999"})], after=left(c66="99999999", c196=" 00"))
step("d", ["D: arrearage zero", "A, D and M set the cents to 00"], [detail("D", {65: "00000500"})], after=left(c66="00000000", c196="D00"))
step("a-cents", "A, D and M set the cents to 00", [detail("A")], after={66: "00000100", 196: " 00"})
step("s", "S: payment year and amount", [detail("S", {65: "00000777", 80: "2006"})], after=left(c79="2006", c83="00000777"))
step("t", "T: transfer state", [detail("T", {75: "WY", 77: "A-1"})], after=left(c74="WY", c76="A-1"))
step("t-blank-code", "T: transfer state", [detail("T", {75: "WY"})], after=left(c74="WY", c76="077"))
step("t-code-partly-blank", "T: transfer state", [detail("T", {75: "WY", 77: "  1"})], after=left(c74="WY", c76="  1"))
for kind in "BCDLMRSTZ":
    step("error-changes-nothing-" + kind.lower(), "an error changes nothing", [detail(kind, {228: "X"})], [[18]])
STEPS = "each step gets the row or none that the one before returned"
step("a-twice", [STEPS, "case ID and date replaced unless blank"], [detail("A", A), detail("A")], rows=[], space=2,
     after={13: "000", 16: "NEW CASE ID", 66: "00000100", 91: "NEW LINE 1", 121: "NEW LINE 2", 151: "NEW CITY", 176: "WY99999    ", 187: "20070131", 195: b"\0"})
step("a-s-t-a", [STEPS, "on a live row: names, arrearage"], [detail("A"), detail("S", {65: "00000010"}), detail("T", {77: "123"}), detail("A")], rows=[], space=2,
     after={74: "NY123200700000010"})
step("s-twice", [STEPS, "S: payment year and amount"], [detail("S", {65: "00000010"}), detail("S", {65: "00000005"})], after={79: "200700000005"})
step("s-of-the-stored-year", "S: payment year and amount", [detail("S", {65: "00000005", 80: "2005"})], after={79: "200500000005"})
step("s-of-zero", "S: payment year and amount", [detail("S", {65: "00000000", 80: "2005"})], after={66: "00000100", 79: "200500000000", 196: " 75"})
step("t-twice", [STEPS, "T: transfer state"], [detail("T", {75: "NY", 77: "123"}), detail("T", {75: "PA"})], after={74: "PA123"})
step("r-twice", [STEPS, "R: the set"], [detail("R", {188: "TAX"}), detail("R", {188: "RET"})], after={195: b"\2"})
step("each-step-on-the-row-before", ["each step gets the row or none that the one before returned", "a key's starting row is"],
     [detail("M", {65: "00000200"}), detail("M", {65: "00000300"}), detail("S", {65: "00000001"})], after={66: "00000300", 83: "00000001"})
step("reads-nothing-else", "its step reads the record, the control record's state", [detail("L", {3: "034"}, ssn="123456789")],
     rows=[OLD, row("222334444", at={13: "999"})], after={13: "034"})
step("verdict-with-17", "the verdict is the set of codes, and with 17", [detail("M", last="JONES")], [[17]], reject={0: {228: "17          SMIT"}})

# (a) to (j)
T = "Proved table|"
step("h-deleted-09-live", T + "(h)", [detail("M", {65: "00000000"}), detail("L"), detail("A", {65: "00000025"})], [[], [9], []],
     after={66: "00000025", 196: " 00"})
step("i-two-keys", T + "(i)", [detail("M", {65: "00000200"}), detail("A", {65: "00000300"}, case="N")],
     after={12: "A", 66: "00000200"}, result=[2, 0, 0, 0, 2])
step("j-100-200", T + "(j)", [detail("M", {65: "00000100"}), detail("M", {65: "00000200"})], after={66: "00000200"})
step("j-200-100", T + "(j)", [detail("M", {65: "00000200"}), detail("M", {65: "00000100"})], after={66: "00000100"})
for name, key, record, codes, year in [
        ("a-24", "(a)", detail("A", {65: "00000024"}, ssn="111223333"), [8], 2007), ("a-25", "(a)", detail("A", {65: "00000025"}, ssn="111223333"), [], 2007),
        ("b-1999", "(b)", detail("S", {80: "1999"}), [13], 2007), ("b-2000", "(b)", detail("S", {80: "2000"}), [], 2007),
        ("b-2007", "(b)", detail("S", {80: "2007"}), [], 2007), ("b-2008", "(b)", detail("S", {80: "2008"}), [13], 2007),
        ("c-li", "(c)", detail("B", last="LI"), [], 2007), ("c-o-ne-hyphen", "(c)", detail("B", last="O-NE"), [], 2007),
        ("c-o-ne-space", "(c)", detail("B", last="O NE"), [5], 2007), ("c-blank", "(c)", detail("B", last=""), [5], 2007),
        ("d-three", "(d)", detail("R", {188: "RET,PAS FIN"}), [], 2007), ("d-one", "(d)", detail("R", {188: ",,TAX"}), [], 2007),
        ("d-retpas", "(d)", detail("R", {188: "RETPAS"}), [16], 2007), ("e-20000229", "(e)", detail("A", {180: "20000229"}), [], 2007),
        ("e-19000229", "(e)", detail("A", {180: "19000229"}), [15], 2007), ("f-666123456", "(f)", detail("A", ssn="666123456"), [2], 2007),
        ("f-123004567", "(f)", detail("A", ssn="123004567"), [2], 2007), ("f-900000000", "(f)", detail("A", ssn="900000000"), [], 2007),
        ("g-c9", "(g)", detail("B", {50: b"\xc9"}), [], 2007), ("g-d1", "(g)", detail("B", {50: b"\xd1"}), [], 2007),
        ("g-ca", "(g)", detail("B", {50: b"\xca"}), [6], 2007), ("g-e1", "(g)", detail("B", {50: b"\xe1"}), [6], 2007)]:
    apply(book, "table-" + name, T + key, [record], [codes], year=year, space=1)
