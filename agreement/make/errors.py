"""A record's errors and warnings, each on both sides of its boundary."""

from describe import Book, apply, detail, row

book = Book("errors")
NEW = "111223333"


def one(name, sentences, record, codes, **others):
    """One detail. By hand: its codes."""
    apply(book, name, sentences, [record], [codes], space=2, **others)


def several(name, sentences, details, codes, **others):
    """Details that all have the same codes, by hand."""
    apply(book, name, sentences, details, [codes for _ in details], **others)


# 01
for name, state, codes in [("own", "OH", []), ("of-the-table", "NY", [1]), ("outside", "ZZ", [1]), ("blank", "  ", [1]),
                           ("lower-case", b"\x96\x88", [1]), ("half", "O ", [1])]:
    one("01-" + name, "01: state not in the table", detail("A", {1: state}, ssn=NEW), codes)
one("01-without-09-and-17", ["01: state not in the table", "with 01, 02 or 04, 09 and 17"], detail("M", {1: "NY"}, last="JONES"), [1])

# 02
PARTS = ["02: SSN not nine digits", "area is the first three digits"]
for ssn, codes in [("000000000", [2]), ("000121234", [2]), ("001010001", []), ("665999999", []), ("666000000", [2]), ("666123456", [2]),
                   ("667010001", []), ("123004567", [2]), ("123014567", []), ("123010000", [2]), ("123010001", []), ("899999999", []),
                   ("899009999", [2]), ("899990000", [2]), ("900000000", []), ("900000001", []), ("900010000", []), ("966000000", []),
                   ("999999999", []), ("999000000", [])]:
    one("02-" + ssn, PARTS, detail("A", ssn=ssn), codes)
several("02-space-in-each-column", "02: SSN not nine digits", [detail("A", {column: " "}, ssn=NEW) for column in range(6, 15)], [2], space=9)
one("02-letter", "02: SSN not nine digits", detail("A", {10: "A"}, ssn=NEW), [2])
one("02-fa", "02: SSN not nine digits", detail("A", {14: b"\xfa"}, ssn="999999999"), [2])
one("02-without-09", ["02: SSN not nine digits", "with 01, 02 or 04, 09 and 17"], detail("M", ssn="000000000"), [2])
one("02-of-n", "02: SSN not nine digits", detail("A", ssn="666123456", case="N"), [2])

# 03
several("03-known", "03: type (73)", [detail(kind) for kind in "ABCLMRSTZD"], [])
several("03-unknown", "03: type (73)",
        [detail("D", {73: kind}) for kind in ("E", "F", "K", "N", "O", "U", "X", "Y", " ", "0", b"\x81", b"\0")], [3])
one("03-alone", "with 03, only 01, 02, 04, 05, 18", detail("D", {73: "X", 50: "1", 65: "ABCDEFGH", 80: "XXXX", 169: "ZZ", 180: "BAD DATE",
                                                                 188: "NONE"}, last="JONES"), [3])
for name, others in [("no-row", {"ssn": NEW}), ("another-case-type", {"case": "N"}), ("another-name", {"last": "JONES"})]:
    one("03-without-09-and-17-" + name, "with 03, only 01, 02, 04, 05, 18", detail("D", {73: "X"}, **others), [3])
one("03-without-09-a-deleted-row", "with 03, only 01, 02, 04, 05, 18", detail("D", {73: "X"}), [3], rows=[row(owed=0)])
one("03-with-the-five", "with 03, only 01, 02, 04, 05, 18",
    detail("D", {1: "ZZ", 6: "000000000", 30: "    ", 73: "X", 74: "X", 228: "X"}), [1, 2, 3, 4, 5, 18])
one("03-name-without-letter", ["with 03, only 01, 02, 04, 05, 18", "05, for A and B also without a letter"],
    detail("D", {30: "-    ", 73: "X"}), [3])

# 04
for name, case, codes in [("a", "A", []), ("n", "N", []), ("b", "B", [4]), ("blank", " ", [4]), ("lower-case", b"\x81", [4]),
                          ("m", "M", [4]), ("digit", "1", [4])]:
    one("04-" + name, "04: case type (74)", detail("A", {74: case}, ssn=NEW), codes)
one("04-without-09-and-17", ["04: case type (74)", "with 01, 02 or 04, 09 and 17"], detail("L", {74: "X"}, last="JONES"), [4])

# 05
for name, four, codes in [("li", "LI  ", []), ("o-ne", "O-NE", []), ("hyphen-first", "-A  ", []), ("hyphen-last", "A-  ", []),
                          ("four-letters", "SMIT", []), ("one-letter", "Z   ", []), ("three-hyphens-and-a-letter", "---A", []),
                          ("gap", "O NE", [5]), ("blank", "    ", [5]), ("space-first", " LI ", [5]), ("last-column-only", "   A", [5]),
                          ("two-hyphens", "--  ", [5]), ("hyphen", "-   ", [5]), ("four-hyphens", "----", [5]), ("digit", "L1  ", [5]),
                          ("comma", "A,B ", [5]), ("letter-behind-two-spaces", "A  B", [5])]:
    letter = "05, for A and B also without a letter" if set(four) <= {"-", " "} else "05: 30–33"
    one("05-a-" + name, ["05: 30–33", letter], detail("A", {30: four}, ssn=NEW, last=""), codes)
    if set(four) <= {"-", " "}:
        one("05-b-" + name, ["05: 30–33", letter], detail("B", {30: four}, last=""), codes)
for name, four, codes in [("hyphen", "-   ", [17]), ("two-hyphens", "--  ", [17]), ("blank", "    ", [5]), ("gap", "S IT", [5]),
                          ("stored", "SMIT", [])]:
    one("05-l-" + name, ["05: 30–33", "17 isn't judged where 05 or 09"], detail("L", {30: four}, last=""), codes)
one("05-column-34-free", "05: 30–33", detail("A", {34: b"\0\xff1"}, ssn=NEW), [])
one("05-column-29-free", "05: 30–33", detail("A", {29: "1"}, ssn=NEW), [])

# 06
for kind in "AB":
    for name, byte, codes in [("letter", "J", []), ("blank", " ", [6]), ("digit", "1", [6]), ("hyphen", "-", [6]), ("e1", b"\xe1", [6])]:
        one("06-%s-%s" % (kind.lower(), name), "06 (A, B)", detail(kind, {50: byte}), codes)
several("06-not-of-others", "06 (A, B)", [detail(kind, {50: "1"}) for kind in "CLMRSTZD"], [])

# 07, 08
for kind in "AMS":
    for name, amount, codes in [("digits", "00000100", []), ("blank", "        ", [7]), ("seven", "0000100 ", [7]), ("space-first", " 0000100", [7]),
                                ("letter", "000A0100", [7]), ("sign", "-0000100", [7])]:
        one("07-%s-%s" % (kind.lower(), name), "07 (A, M, S)", detail(kind, {65: amount}), codes)
several("07-not-of-others", "07 (A, M, S)", [detail(kind, {65: "ABCDEFGH"}) for kind in "BCLRTZD"], [])
for amount, codes in [(0, [8]), (1, [8]), (24, [8]), (25, []), (26, []), (99999999, [])]:
    one("08-a-of-%d" % amount, "08 (A)", detail("A", {65: str(amount).zfill(8)}, ssn=NEW), codes)
for kind in "MS":
    one("08-not-of-" + kind.lower(), "08 (A)", detail(kind, {65: "00000024"}), [])
one("08-not-with-07", "08 (A)", detail("A", {65: "0000002A"}, ssn=NEW), [7])
one("08-on-a-live-row", "08 (A)", detail("A", {65: "00000024"}), [8])

# 09
several("09-no-row", "09 (all but A)", [detail(kind, ssn=NEW) for kind in "BCDLMRSTZ"], [9])
several("09-deleted", "09 (all but A)", [detail(kind) for kind in "BCDLMRSTZ"], [9], rows=[row(owed=0)])
one("09-not-of-a", "09 (all but A)", detail("A", ssn=NEW), [])
one("09-other-case-type", "09 (all but A)", detail("M", case="N"), [9])
one("09-without-17", ["09 (all but A)", "17 isn't judged where 05 or 09"], detail("M", ssn=NEW, last="JONES"), [9])
one("09-cents-alone-are-live", "09 (all but A)", detail("M"), [], rows=[row(owed=0, cents="50")])

# 10, 51
for name, code, listed, unknown in [("blank", "   ", "012", 0), ("zero", "000", "012", 0), ("zero-empty-list", "000", "", 0), ("listed", "012", "012", 0),
                                    ("first-of-three", "001", "001012999", 0), ("last-of-three", "999", "001012999", 0),
                                    ("not-listed", "013", "012", 1), ("empty-list", "012", "", 1), ("two-digits", "12 ", "012", 1),
                                    ("space-first", " 12", "012", 1), ("one-digit", "1  ", "001", 1), ("letters", "ABC", "012", 1),
                                    ("across-two-codes", "120", "012034", 1), ("same-two-digits", "019", "012", 1)]:
    one("10-" + name, "10 (L)", detail("L", {3: code}), [10] if unknown else [], locals_=listed)
    if name in ("blank", "zero", "listed", "not-listed", "two-digits", "same-two-digits"):
        one("51-" + name, "51 (A)", detail("A", {3: code}, ssn=NEW), [51] if unknown else [], locals_=listed)
several("10-not-of-others", "10 (L)", [detail(kind, {3: "ABC"}) for kind in "BCMRSTZD"], [])
one("51-not-beside-an-error", ["51 (A)", "warnings come only without errors"], detail("A", {3: "013", 65: "00000024"}, ssn=NEW), [8])

# 11
for name, field, codes in [("blank", " " * 15, [11]), ("first-column", "X" + " " * 14, []), ("last-column", " " * 14 + "X", []),
                           ("byte-00", b"\0" + b"\x40" * 14, [])]:
    one("11-" + name, "11 (C)", detail("C", {15: field}), codes)
one("11-neighbours-dont-count", "11 (C)", detail("C", {14: "9", 15: " " * 15}), [11])
one("11-not-of-l", "11 (C)", detail("L"), [])

# 12
for name, state, codes in [("own", "OH", []), ("other", "WY", []), ("blank", "  ", [12]), ("outside", "ZZ", [12]), ("half", "N ", [12])]:
    one("12-" + name, "12 (T)", detail("T", {75: state}), codes)
one("12-not-of-m", "12 (T)", detail("M", {75: "ZZ"}), [])
one("12-local-code-any", "12 (T)", detail("T", {77: "A-1"}), [])

# 13
for year, paid, codes in [(2007, "1999", [13]), (2007, "2000", []), (2007, "2001", []), (2007, "2006", []), (2007, "2007", []), (2007, "2008", [13]),
                          (2007, "    ", [13]), (2007, "200 ", [13]), (2007, "0000", [13]), (2007, "200A", [13]), (1900, "1892", [13]),
                          (1900, "1893", []), (1900, "1900", []), (1900, "1901", [13]), (9999, "9991", [13]), (9999, "9992", []), (9999, "9999", [])]:
    one("13-%d-%s" % (year, paid.replace(" ", "_")), "13 (S)", detail("S", {80: paid}), codes, year=year)
one("13-not-of-m", "13 (S)", detail("M", {80: "XXXX"}), [])

# 14
ZIP = ["14 (Z)", "a right ZIP is nine digits"]
for name, at, codes in [("right", {}, []), ("line-1-blank", {84: " " * 30, 114: "X"}, []), ("line-2-blank", {114: " " * 30}, []),
                        ("both-lines-blank", {84: " " * 60}, [14]), ("line-1-last-column", {84: " " * 29 + "X"}, []),
                        ("line-2-last-column", {84: " " * 59 + "X"}, []), ("city-blank", {144: " " * 25}, [14]),
                        ("city-last-column", {144: " " * 24 + "X"}, []), ("state-outside", {169: "ZZ"}, [14]), ("state-blank", {169: "  "}, [14]),
                        ("state-of-another", {169: "WY"}, [])]:
    one("14-z-" + name, "14 (Z)", detail("Z", at), codes)
for zip_, codes in [("43004    ", []), ("430041234", []), ("4300     ", [14]), ("43004123 ", [14]), ("43004   4", [14]), ("         ", [14]),
                    ("4300A    ", [14]), ("43004-123", [14]), (" 43004   ", [14]), ("43004 123", [14])]:
    one("14-z-zip-" + zip_.replace(" ", "_"), ZIP, detail("Z", {171: zip_}), codes)
for name, at, codes in [("blank", {}, []), ("state-alone", {169: "NY"}, []), ("state-outside", {169: "ZZ"}, [14]), ("state-half", {169: "N "}, [14]),
                        ("zip-alone", {171: "43004"}, []), ("zip-wrong", {171: "4300"}, [14]), ("zip-nine", {171: "430041234"}, []),
                        ("zip-last-column", {179: "4"}, [14]), ("line-alone", {84: "X"}, []), ("city-alone", {144: "X"}, []),
                        ("state-right-zip-wrong", {169: "NY", 171: "1"}, [14])]:
    one("14-a-" + name, ["14 (A)", "a right ZIP is nine digits"], detail("A", at, ssn=NEW), codes)
one("14-not-of-m", "14 (Z)", detail("M", {169: "ZZ"}), [])

# 15
for date, codes in [("20070131", []), ("        ", []), ("20000229", []), ("19000229", [15]), ("20040229", []), ("20070229", [15]), ("21000229", [15]),
                    ("24000229", []), ("19000101", []), ("18991231", [15]), ("99991231", []), ("00000000", [15]), ("20070230", [15]),
                    ("20070431", [15]), ("20070430", []), ("20070631", [15]), ("20070731", []), ("20070831", []), ("20070931", [15]),
                    ("20070930", []), ("20071031", []), ("20071131", [15]), ("20071231", []), ("20071301", [15]), ("20070001", [15]),
                    ("20070100", [15]), ("20070132", [15]), ("2007013 ", [15]), (" 2007013", [15]), ("200701A1", [15]), ("20070331", []),
                    ("20070531", [])]:
    one("15-" + date.replace(" ", "_"), ["15 (A)", "item 2|for each year of 1900", "however the calendar check finds"], detail("A", {180: date}, ssn=NEW), codes)
one("15-not-of-m", "15 (A)", detail("M", {180: "BAD DATE"}), [])

# 16: the field, and by hand the set that is stored, or none
PARTED = ["16 (A, R)", "16: commas and spaces divide"]
STOPS = ["16 (A, R)", "16: the reading stops"]
for name, sentences, field, stored in [
        ("blank", "R: the set; blank", " ", 0), ("ret", PARTED, "RET", 2), ("three", PARTED, "RET,PAS FIN", 0b1100010), ("commas-first", PARTED, ",,TAX", 16),
        ("commas-alone", PARTED, ",,, ,,", 0), ("joined", STOPS, "RETPAS", None), ("unknown-first", STOPS, "XYZ,TAX", None),
        ("unknown-last", STOPS, "TAX,XYZ", None), ("unknown-among-all", STOPS, "RET VEN AD SAL", None), ("short", STOPS, "TA", None),
        ("long", STOPS, "TAXX", None), ("repeats", "16: repeats count once", "TAX,TAX TAX", 16), ("dck", PARTED, "DCK", 128),
        ("all", PARTED, "ADM,RET,VEN,SAL,TAX,PAS,FIN,DCK", 255), ("all-turned-round", PARTED, "DCK FIN PAS TAX SAL VEN RET ADM", 255),
        ("hyphen", STOPS, "RET-PAS", None), ("at-the-end", PARTED, " " * 37 + "TAX", 16), ("cut-at-the-end", STOPS, " " * 38 + "TA", None),
        ("comma-before-the-end", PARTED, "RET" + " " * 36 + ",", 2), ("lower-case", STOPS, b"\xa3\x81\xa7", None),
        ("adm", ["ADM excludes retirement", "demand 2 and the one-case machine take", "document 01's warning about ADM", "Proved table|expanding ADM"], "ADM", 15), ("adm-tax", "ADM excludes retirement", "ADM,TAX", 31),
        ("tax-adm", "ADM excludes retirement", "TAX ADM", 31), ("adm-twice", "ADM excludes retirement", "ADM ADM RET", 15),
        ("ret-ven-sal", "ADM excludes retirement", "RET,VEN,SAL", 14), ("ven", PARTED, "VEN", 4), ("sal", PARTED, "SAL", 8), ("pas", PARTED, "PAS", 32),
        ("fin", PARTED, "FIN", 64)]:
    codes = [16] if stored is None else []
    for kind in "RA" if name in ("blank", "three", "joined", "unknown-last", "adm", "adm-tax", "repeats") else "R":
        after = None if stored is None else {0: {195: bytes([stored])}}
        one("16-%s-%s" % (kind.lower(), name), sentences, detail(kind, {188: field}), codes, rows=[row(at={195: b"\x81"})], after=after)
one("16-not-of-m", "16 (A, R)", detail("M", {188: "NONE"}), [])
one("16-column-228-is-filler", "16: commas and spaces divide", detail("R", {226: "TAX"}), [16, 18])

# 18
for column in (228, 229, 236, 243, 244):
    one("18-column-%d" % column, "18: 228–244", detail("M", {column: "X"}), [18])
one("18-byte-00", "18: 228–244", detail("M", {230: b"\0"}), [18])
one("18-column-245-free", ["18: 228–244", "notices, request codes"], detail("M", {245: "X"}), [])
one("18-column-227-free", "18: 228–244", detail("M", {227: "X"}), [])
one("18-rejects-alone", "18: 228–244", detail("A", {244: b"\x41"}, ssn=NEW), [18])

# 52
LAST = "52 (A)"
for name, record, codes in [("same", detail("A"), []), ("last-name", detail("A", last="JONES"), [52]), ("first-name", detail("A", first="JANE"), [52]),
                            ("last-name-column-5", detail("A", last="SMITT"), [52]), ("last-name-column-20", detail("A", {49: "X"}), [52]),
                            ("first-name-column-15", detail("A", {64: "X"}), [52]), ("both", detail("A", last="JONES", first="JANE"), [52])]:
    one("52-" + name, LAST, record, codes)
one("52-no-row", LAST, detail("A", ssn=NEW, last="JONES"), [])
one("52-deleted-row", LAST, detail("A", last="JONES"), [], rows=[row(owed=0)])
# The row's names are those at the record's turn.
for name, rows, details, codes in [
        ("new-case-then-another-name", [], [detail("A"), detail("A", last="JONES")], [[], [52]]),
        ("new-case-then-the-same", [], [detail("A"), detail("A")], [[], []]), ("b-then-its-name", None, [detail("B", last="JONES"), detail("A", last="JONES")], [[], []]),
        ("b-then-the-old-name", None, [detail("B", last="JONES"), detail("A")], [[], [52]]),
        ("a-then-its-name", None, [detail("A", last="JONES"), detail("A", last="JONES")], [[52], []]),
        ("deleted-before", None, [detail("D"), detail("A", last="JONES")], [[], []])]:
    apply(book, "52-" + name, [LAST, "Proved table|judging a record against the master"], details, codes, rows=rows, space=2)
one("52-with-51", [LAST, "51 (A)"], detail("A", {3: "013"}, last="JONES"), [51, 52])
one("52-not-beside-an-error", [LAST, "warnings come only without errors"], detail("A", {228: "X"}, last="JONES"), [18])

# Several at once.
ALL = "all that hold form the record's set"
one("several-in-one-a", ALL, detail("A", {30: "    ", 50: "1", 65: "        ", 169: "ZZ", 180: "BAD DATE", 188: "NONE", 228: "X"}, ssn=NEW),
    [5, 6, 7, 14, 15, 16, 18])
one("several-in-one-s", ALL, detail("S", {65: "        ", 80: "    ", 244: "X"}, last="JONES"), [7, 13, 17, 18])
one("several-key-wrong", [ALL, "with 01, 02 or 04, 09 and 17"], detail("A", {1: "ZZ", 6: "000000000", 74: "X", 65: "00000024"}), [1, 2, 4, 8])

# 17
NAME = "17 (all but A, B)"
several("17-stored", NAME, [detail(kind) for kind in "CLMRSTZD"], [])
several("17-other", NAME, [detail(kind, last="SMYTH") for kind in "CDLMRSTZ"], [17], reject={0: {228: "17", 240: "SMIT"}, 7: {240: "SMIT"}})
for kind in "AB":
    one("17-not-of-" + kind.lower(), NAME, detail(kind, last="SMYTH"), [52] if kind == "A" else [])
one("17-fifth-character-free", NAME, detail("M", last="SMITTY"), [])
one("17-fourth-character", NAME, detail("M", last="SMI"), [17])
one("17-short-name", NAME, detail("M", last="LI"), [], rows=[row(last="LI")])
one("17-short-name-and-more", NAME, detail("M", last="LIN"), [17], rows=[row(last="LI")])
one("17-stored-characters-told", "(the four characters stay the stored ones)", detail("M", last="SMYTH"), [17], rows=[row(last="LI")],
    reject={0: {240: "LI  "}})
