"""Reconciliation."""

from describe import Book, answered, digits, refused, row, text, words

book = Book("reconciling")
FULL = {13: "012", 16: "CASE ID 7", 31: "LONGNAME-LONGNAME-LN", 51: "MAXIMILIANUS-JR", 74: "NY077", 79: "200500000050", 91: "LINE 1", 151: "CITY",
        176: "NY123456789", 187: "20050131", 195: b"\x55", 197: "75"}
ROWS = [row("111223333", state="AK"), row("111223333"), row("222334444", owed=0), row("333445555", case="N", owed=0, cents="50"), row("444556666", at=FULL)]


def reconcile(name, sentences, state="OH", date="20070131", records=None, out=None, room=None, answer=0, rows=None):
    """By hand: the number of REC records, and columns of the output (the records one behind the other)."""
    rows = ROWS if rows is None else rows
    room = 245 * (len(rows) + 1) if room is None else room
    values = {"master": b"".join(rows), "rows": len(rows), "state": text(state), "date": text(date), "out": b"\xa5" * room, "records": words([99], 8)}
    book.add(name, sentences, "reconcile", values, refused(answer) if answer else answered([records], "records", out=out or {}))


def rct(state, tanf, non_tanf, date):
    return "RCT" + state + digits(tanf, 9) + digits(non_tanf, 9) + digits(tanf + non_tanf, 9) + date + " "


REC = "for a state and date: a REC record"
reconcile("three-cases", [REC, "then RCT", "the result is the number of REC", "bytes behind RCT are kept", "the base has: applying"], records=3,
          out={1: "RECOH000111223333", 246: "RECOH000333445555", 491: "RECOH012444556666CASE ID 7", 736: rct("OH", 2, 1, "20070131"), 981: b"\xa5" * 490})
reconcile("fields", ["fields as in the row", "first name cut to ten", "80–81 blank", "187–194 date issued"], records=1, rows=ROWS[4:],
          out={1: "RECOH012444556666CASE ID 7      LONGNAME-LONGNAME-LNMAXIMILIAN00000100A20050131  ADM   VEN   TAX   FIN   " + " " * 140})
reconcile("cents-alone", ["reconciliation shows the dollars", "a case is deleted exactly when both parts are zero"], records=1, rows=ROWS[3:4],
          out={63: "00000000N", 246: rct("OH", 0, 1, "20070131")})
reconcile("dollars-without-cents", "reconciliation shows the dollars", records=1, rows=ROWS[4:], out={63: "00000100A"})
reconcile("set-as-stored", "reconciliation prints each row's set as stored", records=1, rows=[row(at={195: b"\1"})], out={82: "ADM" + " " * 21})
reconcile("adm-alone-is-sound", "rows with ADM by itself remain sound", records=1, rows=[row(at={195: b"\1"})])
reconcile("other-state", REC, state="AK", records=1, out={1: "RECAK000111223333", 246: rct("AK", 1, 0, "20070131")})
reconcile("no-case", ["then RCT", REC], state="WY", records=0, out={1: rct("WY", 0, 0, "20070131"), 246: b"\xa5"})
reconcile("no-rows", "then RCT", rows=[], records=0, out={1: rct("OH", 0, 0, "20070131")})
reconcile("deleted-alone", REC, rows=[row(owed=0)], records=0, out={1: rct("OH", 0, 0, "20070131")})
reconcile("deleted-of-both-case-types", ["then RCT", REC], rows=[row("111223333", owed=0), row("111223333", case="N", owed=0), row("222334444"), row("222334444", case="N")],
          records=2, out={1: "RECOH000222334444", 491: rct("OH", 1, 1, "20070131")})
reconcile("deleted-n-alone", ["then RCT", REC], rows=[row(case="N", owed=0)], records=0, out={1: rct("OH", 0, 0, "20070131")})
# States that have a letter in the same place.
ALIKE = [row(state=state) for state in ("NH", "OH", "OK", "OR", "PR")]
for state in ("NH", "OH", "OK", "OR", "PR"):
    reconcile("alike-" + state.lower(), REC, state=state, rows=ALIKE, records=1, out={1: "REC" + state, 246: rct(state, 1, 0, "20070131")})
reconcile("blank-fields", "fields as in the row", rows=[row()], records=1, out={18: " " * 15, 72: " " * 10})
for state in ("ZZ", "  ", "O", "OHX", "", "AB"):
    reconcile("state-" + (state.replace(" ", "_") or "empty"), "12 state not in the table", state=state, answer=12)
for date in ("20070230", "19000229", "18991231", "20071301", "20070100", "        ", "2007013", "200701311", "", "2007 131", "20070431"):
    reconcile("date-" + (date.replace(" ", "_") or "empty"), "13 no calendar date", date=date, answer=13)
for date in ("20000229", "19000101", "99991231", "20040229"):
    reconcile("date-" + date, ["13 no calendar date", "item 2|the dates accepted are the same"], date=date, records=3)
reconcile("room-exact", "11 buffer below 245", room=980, records=3)
for more in (1, 245, 490):
    reconcile("room-of-%d-behind" % more, "bytes behind RCT are kept", rows=[row()], room=490 + more, records=1, out={491: b"\xa5" * more})
    reconcile("room-of-%d-behind-no-rows" % more, "bytes behind RCT are kept", rows=[], room=245 + more, records=0, out={246: b"\xa5" * more})
reconcile("room-one-short", "11 buffer below 245", room=979, answer=11)
reconcile("room-none", "11 buffer below 245", room=0, answer=11, rows=[])
reconcile("room-by-records-not-rows", "11 buffer below 245", state="AK", room=490, records=1)
