"""The example batch of document 01, "The printed line": applied, looked up, reconciled. Prints what
examples/c/expected.txt of the repository has."""
import array

import fantanolive
from fantanolive import calls


def detail(name, first_name, dollars, kind):
    text = f"OH   123456789{'':15}{name:20}{first_name:15}{dollars:08d}{kind}N{'':171}"
    return fantanolive.to_ebcdic(text.encode("ascii"))


def show(name, record, first, last):
    """Prints the columns first to last of a record."""
    print(f"  {name} [{fantanolive.to_ascii(record[first - 1 : last]).decode('ascii')}]")


def show_all(record, fields):
    for name, first, last in fields:
        show(name, record, first, last)


REJECT = [
    ("SSN", 6, 14), ("last name", 30, 49), ("arrearage", 65, 72), ("type", 73, 73), ("case type", 74, 74),
    ("codes", 228, 239), ("stored name", 240, 243),
]
REJECT_CONTROL = [
    ("state", 1, 2), ("TANF accepted", 6, 14), ("TANF rejected", 15, 23), ("Non-TANF accepted", 24, 32),
    ("Non-TANF rejected", 33, 41), ("TANF warned", 42, 50), ("Non-TANF warned", 51, 59),
]
REC = [
    ("state", 4, 5), ("local code", 6, 8), ("SSN", 9, 17), ("case ID", 18, 32), ("last name", 33, 52), ("first name", 53, 62),
    ("arrearage", 63, 70), ("case type", 71, 71), ("date issued", 72, 79), ("exclusions", 82, 105),
]
RCT = [("state", 4, 5), ("TANF", 6, 14), ("Non-TANF", 15, 23), ("total", 24, 32), ("date", 33, 40)]


def show_verdicts(verdicts):
    for number, verdict in enumerate(verdicts, 1):
        codes = " ".join(f"{code:02d}" for code in fantanolive.codes_of(verdict))
        print(f"detail {number}: {codes or 'no codes'}")


def show_reconciliation(master):
    file = fantanolive.reconcile(master, fantanolive.to_ebcdic(b"OH"), fantanolive.to_ebcdic(b"20071231"))
    records = len(file) // fantanolive.RECORD - 1
    print(f"reconciliation: records {records}")
    for number in range(records):
        print(f"REC record {number + 1}")
        show_all(file[fantanolive.RECORD * number :], REC)
    print("RCT record")
    show_all(file[fantanolive.RECORD * records :], RCT)


def main():
    control = fantanolive.to_ebcdic(f"OHCTL{0:09d}{2:09d}{0:011d}{125:011d}{'':200}".encode("ascii"))
    batch = detail("SMITH", "JOHN", 25, "A") + detail("SMYTH", "", 100, "M") + control
    applied = fantanolive.apply(b"", batch, b"", 2007)
    counts = applied.counts
    print("OH " + " ".join(f"{name} {number}" for name, number in counts._asdict().items()))
    show_verdicts(applied.verdicts)
    print("reject record 1")
    show_all(applied.rejects, REJECT)
    print("reject control record")
    show_all(applied.rejects[fantanolive.RECORD :], REJECT_CONTROL)
    place = fantanolive.find(applied.master, fantanolive.to_ebcdic(b"OH123456789N"))
    print(f"key OH123456789N: place {place}")
    show_reconciliation(applied.master)
    try:
        calls.apply(bytearray(400), 0, batch, b"", 2007, array.array("Q", [0]), bytearray(735))
    except fantanolive.Refused as refused:
        print(f"verdict list of 1 for 2 details: refused {refused.number}, nothing written")


main()
