"""The calls in place: the paper's example byte by byte, each refusal of each call, and what is kept."""
import array
import contextlib
import mmap
import unittest

from fantanolive import CONTACT, LINE, MAX_CONTACTS, MAX_RECORDS, MAX_ROWS, NO_PLACE, RECORD, ROW, Refused, calls
from sample import PAPER_BATCH, contact, control, detail, ebcdic, line, row, total


def reject_file():
    reject = bytearray(PAPER_BATCH[245:490])
    reject[227:243] = ebcdic(f"17{'':10}SMIT")
    counts = f"{0:09d}{0:09d}{1:09d}{1:09d}{0:09d}{0:09d}"
    return bytes(reject) + ebcdic(f"OHCTL{counts}{'':186}")


def untouched(length):
    """A buffer of zeros that takes no memory until it is written."""
    return contextlib.closing(mmap.mmap(-1, length, mmap.MAP_PRIVATE | mmap.MAP_ANONYMOUS | 0x4000, mmap.PROT_READ))


class Carried(unittest.TestCase):
    def test_paper_example(self):
        master = bytearray(b"\xee" * 600)
        verdicts = array.array("Q", [7, 7, 7])
        rejects = bytearray(b"\xee" * 1000)
        counts = calls.apply(master, 0, PAPER_BATCH, b"", 2007, verdicts, rejects)
        self.assertEqual(counts, (1, 1, 0, 0, 1))
        self.assertEqual(counts.rows, 1)
        self.assertEqual(bytes(master), row() + b"\xee" * 400)
        self.assertEqual(list(verdicts), [0, 1 << 17, 7])
        self.assertEqual(bytes(rejects), reject_file() + b"\xee" * 510)

    def test_journal(self):
        master = bytearray(row("123456780") + b"\xee" * 400)
        verdicts = array.array("Q", [7, 7, 7])
        rejects = bytearray(b"\xee" * 1000)
        journal = bytearray(b"\xee" * 423)
        counts = calls.apply_journaled(master, 1, PAPER_BATCH, b"", 2007, verdicts, rejects, journal)
        self.assertEqual(counts, (1, 1, 0, 0, 2, 4))
        self.assertEqual((counts.rows, counts.journal), (2, 4))
        self.assertEqual(bytes(master), row("123456780") + row() + b"\xee" * 200)
        self.assertEqual(bytes(rejects), reject_file() + b"\xee" * 510)
        self.assertEqual(bytes(journal), bytes([1, 2, 1, 0]) + b"\xee" * 419)
        self.assertEqual(calls.take_back(master, 2, journal[:4]), 1)
        self.assertEqual(bytes(master), row("123456780") + row() + b"\xee" * 200)

    def test_totals(self):
        self.assertEqual(calls.totals(PAPER_BATCH), (0, 2, 0, 125))
        batch = detail("SMITH", 30, "A", case_type="A") + detail("SMITH", 7, "D", case_type="A") + detail("SMITH", 5, "M", case_type="X") + bytes(245)
        self.assertEqual(calls.totals(batch), (2, 0, 30, 0))
        self.assertEqual(calls.totals(bytes(245)).non_tanf_amount, 0)

    def test_merge(self):
        other = detail("SMITH", 7, "A", ssn="123456780") + control(1, 7)
        out = bytearray(b"\xee" * 990)
        self.assertEqual(calls.merge(PAPER_BATCH, other, out), 4)
        self.assertEqual(bytes(out), PAPER_BATCH[:490] + other[:245] + control(3, 132) + b"\xee" * 10)

    def test_find(self):
        master = row("123456780") + row() + b"\xee" * 200
        self.assertEqual(calls.find(master, 2, ebcdic("OH123456789N")), 1)

    def test_find_with_a_key_in_the_master(self):
        master = memoryview(row("123456780") + row())
        self.assertEqual(calls.find(master, 2, master[200:212]), 1)

    def test_find_many(self):
        master = row("123456780") + row() + b"\xee" * 200
        places = array.array("I", [7, 7, 7, 7])
        keys = ebcdic("OH123456780AOH123456789NOK123456789N")
        self.assertEqual(calls.find_many(master, 2, keys, places), 4)
        self.assertEqual(list(places), [NO_PLACE, 1, NO_PLACE, 7])

    def test_reconcile(self):
        out = bytearray(b"\xee" * 500)
        self.assertEqual(calls.reconcile(row(), 1, ebcdic("OH"), ebcdic("20070102"), out), 1)
        self.assertEqual(out[:3] + out[245:248] + out[490:], ebcdic("RECRCT") + b"\xee" * 10)

    def test_pages(self):
        out = bytearray(b"\xee" * 400)
        self.assertEqual(calls.pages(row() + row("123456790", 0, "D00  "), 2, out), 1)
        line = f"OH123456789N 000 {'SMITH':20} {'JOHN':15} 00000025 0"
        self.assertEqual(out, ebcdic(f"{'CASES 000001':132}{line:132}{'TOTAL 0001':132}") + b"\xee" * 4)

    def test_add_cents(self):
        master = bytearray(row(end="     ") + b"\xee" * 200)
        self.assertIsNone(calls.add_cents(master, 1))
        self.assertEqual(bytes(master), row() + b"\xee" * 200)

    def test_post(self):
        master = bytearray(row())
        lines = array.array("I", [9, 9, 9])
        file = line(collection=1010) + line(1, ssn="123456788") + total(0, 2)
        self.assertEqual(calls.post(master, 1, file, lines), 1)
        self.assertEqual(bytes(master), row(dollars=14, end=" 90  "))
        self.assertEqual(list(lines), [2, 9, 9])

    def test_conversion(self):
        text = b"ABCXYZ0123456789 -,.()/&'#"
        out = bytearray(len(text) + 1)
        calls.to_ebcdic(text, out)
        self.assertEqual(bytes(out), ebcdic(text.decode()) + b"\0")
        back = bytearray(len(text))
        calls.to_ascii(bytes(out[:-1]), back)
        self.assertEqual(bytes(back), text)

    def test_contacts(self):
        table = bytearray(contact("000") + b"\xee" * 660)
        faulty = array.array("I", [9, 9, 9])
        file = contact("002") + contact("001") + contact("003", "(614)555-1212 ")
        self.assertEqual(calls.contacts_update(table, 1, file, faulty), (3, 1))
        self.assertEqual(bytes(table), contact("000") + contact("001") + contact("002") + b"\xee" * 220)
        self.assertEqual(list(faulty), [3, 9, 9])
        out = bytearray(b"\xee" * 9)
        self.assertEqual(calls.contacts_codes(table, 3, ebcdic("OH"), out), 2)
        self.assertEqual(bytes(out), ebcdic("001002") + b"\xee" * 3)

    def test_records_to(self):
        out = bytearray(b"\xee" * 981)
        self.assertEqual(calls.records_to(row(), row(dollars=30), b"", out), 1)
        self.assertEqual(bytes(out), detail("SMITH", 30, "M") + b"\xee" * 736)
        self.assertEqual(calls.records_to(row(), row(dollars=0, end="D00  "), b"", out), 1)
        self.assertEqual(bytes(out), detail("SMITH", 0, "M") + b"\xee" * 736)

    def test_empty_buffers(self):
        self.assertEqual(
            calls.apply(bytearray(), 0, control(0, 0), b"", 2007, array.array("Q"), bytearray(245)), (0, 0, 0, 0, 0)
        )
        self.assertEqual(calls.contacts_update(bytearray(), 0, b"", array.array("I")), (0, 0))
        self.assertIsNone(calls.to_ebcdic(b"", bytearray()))


class Refusals(unittest.TestCase):
    """Each case is a call that is carried out, with one argument or more changed."""

    def refused(self, function, good, number, place=None, **changed):
        arguments = {**good(), **changed}
        before = {name: bytes(value) for name, value in arguments.items() if not isinstance(value, int)}
        with self.subTest(call=function.__name__, number=number, changed=sorted(changed)):
            with self.assertRaises(Refused) as caught:
                function(**arguments)
            self.assertEqual((caught.exception.call, caught.exception.number), (function.__name__, number))
            self.assertEqual(caught.exception.place, place)
            for name, value in before.items():
                self.assertEqual(bytes(arguments[name]), value)

    def test_apply(self):
        def good():
            return {
                "master": bytearray(row("123456780") + bytes(200)), "rows": 1, "batch": PAPER_BATCH, "locals": b"",
                "year": 2007, "verdicts": array.array("Q", [7, 7]), "rejects": bytearray(b"\xee" * 735),
            }

        self.assertEqual(calls.apply(**good()).rows, 2)
        details = PAPER_BATCH[:490]
        refused = [
            (1, {"year": 1899}), (1, {"year": 10000}), (1, {"year": 2**64 - 1}),
            (2, {"locals": ebcdic("01")}), (2, {"locals": ebcdic("002001")}),
            (3, {"master": bytearray(399)}), (3, {"rows": 3}), (3, {"rows": 2**64 - 1}),
            (4, {"master": bytearray(400)}), (4, {"master": bytearray(row() + row("123456780")), "rows": 2}),
            (5, {"batch": b""}), (5, {"batch": PAPER_BATCH[:-1]}),
            (6, {"batch": details}), (20, {"batch": details + control(2, 125, state="XX")}),
            (21, {"batch": details + control(2, 125)[:-1] + b"\0"}),
            (7, {"batch": details + control(1, 125)}), (8, {"batch": details + control(2, 124)}),
            (9, {"master": bytearray(row("123456780"))}),
            (10, {"verdicts": array.array("Q", [7])}), (11, {"rejects": bytearray(734)}),
        ]
        for number, changed in refused:
            self.refused(calls.apply, good, number, **changed)

    def test_over_the_limits(self):
        """Buffers above the limits, of pages that are never touched; they are refused by their length alone."""
        def refused(number, function, *arguments):
            with self.assertRaises(Refused) as caught:
                function(*arguments)
            self.assertEqual(caught.exception.number, number)

        with untouched(RECORD * (MAX_RECORDS + 1)) as file:
            refused(5, calls.apply, bytearray(), 0, file, b"", 2007, array.array("Q"), bytearray())
            refused(5, calls.totals, file)
            refused(5, calls.merge, file, PAPER_BATCH, bytearray())
            refused(5, calls.merge, PAPER_BATCH, file, bytearray())
        with untouched(ROW * (MAX_ROWS + 1)) as master:
            refused(3, calls.find, master, MAX_ROWS + 1, ebcdic("OH123456789N"))
        with untouched(LINE * (MAX_RECORDS + 1)) as file:
            refused(22, calls.post, bytearray(row()), 1, file, array.array("I"))
        with untouched(CONTACT * (MAX_CONTACTS + 1)) as file:
            refused(18, calls.contacts_update, bytearray(), 0, file, array.array("I"))

    def test_totals(self):
        def good():
            return {"batch": PAPER_BATCH}

        for batch in (b"", PAPER_BATCH[:-1]):
            self.refused(calls.totals, good, 5, batch=batch)

    def test_merge(self):
        def good():
            return {"first": PAPER_BATCH, "second": control(0, 0), "out": bytearray(b"\xee" * 735)}

        self.assertEqual(calls.merge(**good()), 3)
        details = PAPER_BATCH[:490]
        refused = [
            (5, {"first": b"", "second": b""}), (6, {"first": details, "second": b""}), (7, {"first": details + control(1, 125)}),
            (20, {"first": details + control(2, 125, state="XX")}), (21, {"first": details + control(2, 125)[:-1] + b"\0"}),
            (8, {"first": details + control(2, 124), "second": b""}), (5, {"second": PAPER_BATCH[1:]}),
            (8, {"second": details + control(2, 124)}), (32, {"second": control(0, 0, state="AL"), "out": bytearray()}),
            (33, {"out": bytearray(734)}),
        ]
        for number, changed in refused:
            self.refused(calls.merge, good, number, **changed)

    def test_find(self):
        def good():
            return {"master": row(), "rows": 1, "key": ebcdic("OH123456789N")}

        refused = [
            (3, {"master": bytes(201)}), (3, {"rows": 2}), (4, {"master": bytes(200)}), (14, {"key": ebcdic("OH123456789")}),
            (14, {"key": b""}), (14, {"key": ebcdic("OH000456789N")}), (15, {"key": ebcdic("OH123456789A")}),
        ]
        for number, changed in refused:
            self.refused(calls.find, good, number, **changed)

    def test_find_many(self):
        def good():
            return {"master": row(), "rows": 1, "keys": ebcdic("OH123456789N"), "places": array.array("I", [7])}

        refused = [
            (3, {"master": bytes(201)}), (3, {"rows": 2}), (4, {"master": bytes(200)}), (27, {"keys": ebcdic("OH123456789")}),
            (27, {"keys": ebcdic("OH000456789N")}), (27, {"keys": ebcdic("OH123456789N" * 2)}), (28, {"places": array.array("I")}),
        ]
        for number, changed in refused:
            self.refused(calls.find_many, good, number, **changed)

    def test_reconcile(self):
        def good():
            return {
                "master": row(), "rows": 1, "state": ebcdic("OH"), "date": ebcdic("20070102"), "out": bytearray(b"\xee" * 490)
            }

        refused = [
            (3, {"master": bytes(201)}), (4, {"master": bytes(200)}), (12, {"state": ebcdic("XX")}), (12, {"state": b""}),
            (13, {"date": ebcdic("20070229")}), (13, {"date": ebcdic("2007")}), (11, {"out": bytearray(b"\xee" * 489)}),
        ]
        for number, changed in refused:
            self.refused(calls.reconcile, good, number, **changed)

    def test_pages(self):
        def good():
            return {"master": row(), "rows": 1, "out": bytearray(b"\xee" * 396)}

        refused = [
            (3, {"master": bytes(201)}), (3, {"rows": 2}), (4, {"master": bytes(200)}), (31, {"out": bytearray(b"\xee" * 395)}),
        ]
        for number, changed in refused:
            self.refused(calls.pages, good, number, **changed)

    def test_add_cents(self):
        def good():
            return {"master": bytearray(row(end="     ")), "rows": 1}

        for number, changed in [(3, {"rows": 2}), (3, {"master": bytearray(199)}), (4, {"master": bytearray(row())})]:
            self.refused(calls.add_cents, good, number, **changed)

    def test_journal(self):
        def good():
            return {
                "master": bytearray(row("123456780") + bytes(200)), "rows": 1, "batch": PAPER_BATCH, "locals": b"",
                "year": 2007, "verdicts": array.array("Q", [7, 7]), "rejects": bytearray(b"\xee" * 735),
                "journal": bytearray(b"\xee" * 422),
            }

        self.assertEqual(calls.apply_journaled(**good()).journal, 4)
        for number, changed in [
            (1, {"year": 1899}), (11, {"rejects": bytearray(734), "journal": bytearray(421)}), (25, {"journal": bytearray(421)}),
        ]:
            self.refused(calls.apply_journaled, good, number, **changed)

        def left():
            return {"master": bytearray(row("123456780") + row()), "rows": 2, "journal": bytes([1, 2, 1, 0])}

        self.assertEqual(calls.take_back(**left()), 1)
        for number, changed in [
            (3, {"rows": 3}), (4, {"master": bytearray(400)}), (26, {"journal": b""}), (26, {"rows": 1}),
            (26, {"journal": bytes([1, 2, 1, 0, 0])}), (26, {"journal": bytes([1, 2, 2, 0])}),
        ]:
            self.refused(calls.take_back, left, number, **changed)

    def test_post(self):
        def good():
            return {
                "master": bytearray(row()), "rows": 1, "file": line(collection=5) + total(0, 1), "lines": array.array("I", [9])
            }

        self.assertEqual(calls.post(**good()), 0)
        refused = [
            (3, {"rows": 2}), (4, {"master": bytearray(row(end="     "))}), (22, {"file": b""}), (22, {"file": bytes(241)}),
            (23, {"file": line(5) + total(1, 1)}), (23, {"file": line(5)}),
            (24, {"lines": array.array("I")}),
        ]
        for number, changed in refused:
            self.refused(calls.post, good, number, **changed)

    def test_conversion(self):
        def good():
            return {"file": b"", "out": bytearray(b"\xee" * 3)}

        self.refused(calls.to_ebcdic, good, 16, 2, file=b"AB\n")
        self.refused(calls.to_ebcdic, good, 16, 3, file=b"ABCd")
        self.refused(calls.to_ebcdic, good, 17, file=b"ABCD")
        self.refused(calls.to_ascii, good, 16, 1, file=b"\xc1\x41")
        self.refused(calls.to_ascii, good, 17, file=ebcdic("ABCD"))

    def test_contacts_update(self):
        def good():
            return {
                "table": bytearray(contact("000") + bytes(220)), "count": 1, "file": contact("001"),
                "faulty": array.array("I", [9]),
            }

        self.assertEqual(calls.contacts_update(**good()), (2, 0))
        refused = [
            (18, {"file": bytes(219)}), (18, {"table": bytearray(441)}), (18, {"count": 3}), (18, {"table": bytearray(440)}),
            (18, {"table": bytearray(contact("001") + contact("000")), "count": 2}),
            (19, {"table": bytearray(contact("000"))}), (19, {"faulty": array.array("I")}),
        ]
        for number, changed in refused:
            self.refused(calls.contacts_update, good, number, **changed)

    def test_contacts_codes(self):
        def good():
            return {"table": contact("001"), "count": 1, "state": ebcdic("OH"), "out": bytearray(b"\xee" * 3)}

        refused = [
            (18, {"table": bytes(220)}), (18, {"count": 2}), (12, {"state": ebcdic("XX")}), (19, {"out": bytearray(2)}),
        ]
        for number, changed in refused:
            self.refused(calls.contacts_codes, good, number, **changed)

    def test_records_to(self):
        def good():
            return {"row": row(), "wanted": row(dollars=30), "locals": b"", "out": bytearray(b"\xee" * 980)}

        self.assertEqual(calls.records_to(**good()), 1)
        refused = [
            (2, {"locals": ebcdic("01")}), (4, {"row": row()[:-1]}), (4, {"row": bytes(200)}), (4, {"wanted": row() + b"\0"}),
            (4, {"wanted": row(end="D00  ")}), (29, {"wanted": row("123456780")}), (29, {"wanted": row(end=" 01  ")}),
            (29, {"row": row(dollars=0, end="D00  ")}), (30, {"out": bytearray(b"\xee" * 979)}),
        ]
        for number, changed in refused:
            self.refused(calls.records_to, good, number, **changed)


if __name__ == "__main__":
    unittest.main()
