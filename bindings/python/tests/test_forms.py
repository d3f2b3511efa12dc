"""The forms that return new bytes: the same as the calls in place, and arguments that stay as they are."""
import datetime
import unittest

import fantanolive
from fantanolive import Refused, layouts
from sample import PAPER_BATCH, contact, control, detail, ebcdic, line, row, total


class Forms(unittest.TestCase):
    def refusal(self, function, *arguments):
        with self.assertRaises(Refused) as caught:
            function(*arguments)
        return caught.exception.number

    def test_paper_example(self):
        applied = fantanolive.apply(b"", PAPER_BATCH, b"", 2007)
        self.assertEqual(applied.counts, (1, 1, 0, 0, 1))
        self.assertEqual(applied.master, row())
        self.assertEqual([fantanolive.codes_of(verdict) for verdict in applied.verdicts], [[], [17]])
        self.assertEqual(len(applied.rejects), 490)
        self.assertEqual(applied.rejects[227:243], ebcdic(f"17{'':10}SMIT"))

    def test_apply_to_a_full_master(self):
        master = row("123456780") + row("123456781")
        batch = detail("SMITH", 30, "A", "JOHN", "123456779") + detail("SMITH", 0, "D", ssn="123456780") + control(2, 30)
        applied = fantanolive.apply(memoryview(master), bytearray(batch), b"", 2007)
        self.assertEqual(applied.master[:200], row("123456779", 30))
        self.assertEqual(applied.master[200:], row("123456780", 0, "D00  ") + row("123456781"))
        self.assertEqual(master, row("123456780") + row("123456781"))

    def test_journal(self):
        master = row("123456780") + row("123456781")
        batch = detail("SMITH", 30, "A", "JOHN", "123456779") + detail("SMITH", 0, "D", ssn="123456780") + control(2, 30)
        left = fantanolive.apply_journaled(master, batch, b"", 2007)
        self.assertEqual(left[:4], fantanolive.apply(master, batch, b"", 2007))
        self.assertEqual(left.journal, bytes([2, 3, 0, 0, 1, 1]) + row("123456780"))
        self.assertEqual(fantanolive.take_back(left.master, left.journal), master)
        self.assertEqual(self.refusal(fantanolive.take_back, master, left.journal), 26)
        self.assertEqual(self.refusal(fantanolive.apply_journaled, b"", b"", b"", 2007), 5)

    def test_apply_refused(self):
        self.assertEqual(self.refusal(fantanolive.apply, b"", b"", b"", 2007), 5)
        self.assertEqual(self.refusal(fantanolive.apply, row()[:-1], PAPER_BATCH, b"", 2007), 3)
        self.assertEqual(self.refusal(fantanolive.apply, bytes(200), PAPER_BATCH, b"", 2007), 4)

    def test_totals_and_merge(self):
        self.assertEqual(fantanolive.totals(PAPER_BATCH).non_tanf_count, 2)
        self.assertEqual(fantanolive.merge(PAPER_BATCH, control(0, 0)), PAPER_BATCH)
        self.assertEqual(self.refusal(fantanolive.merge, PAPER_BATCH, control(0, 0, state="AL")), 32)

    def test_find(self):
        self.assertEqual(fantanolive.find(row("123456780") + row(), ebcdic("OH123456789N")), 1)
        self.assertEqual(self.refusal(fantanolive.find, b"", ebcdic("OH123456789N")), 15)
        self.assertEqual(self.refusal(fantanolive.find, bytes(100), ebcdic("OH123456789N")), 3)

    def test_find_many(self):
        found = fantanolive.find_many(row("123456780") + row(), ebcdic("OH123456789AOH123456789N"))
        self.assertEqual((list(found.places), found.comparisons), ([fantanolive.NO_PLACE, 1], 3))
        self.assertEqual(fantanolive.find_many(b"", b""), (fantanolive.find_many(row(), b"").places, 0))
        self.assertEqual(self.refusal(fantanolive.find_many, row(), bytes(12)), 27)

    def test_reconcile(self):
        file = fantanolive.reconcile(row() + row("123456790", 0, "D00  "), ebcdic("OH"), ebcdic("20070102"))
        self.assertEqual(len(file), 490)
        self.assertEqual(file[245:285], ebcdic("RCTOH00000000000000000100000000120070102"))

    def test_pages(self):
        self.assertEqual(fantanolive.pages(b""), b"")
        self.assertEqual(fantanolive.pages(row(dollars=0, end="D00  ")), b"")
        for live, pages in ((1, 1), (58, 1), (59, 2)):
            printed = fantanolive.pages(b"".join(row(f"1{i:04d}1111") for i in range(1001, 1001 + live)))
            self.assertEqual(len(printed), 132 * (live + 2 * pages))
            self.assertEqual(printed[-132:-122], ebcdic(f"TOTAL {(live - 1) % 58 + 1:04d}"))
        self.assertEqual(self.refusal(fantanolive.pages, bytes(200)), 4)

    def test_add_cents_and_post(self):
        master = fantanolive.add_cents(row(end="     "))
        self.assertEqual(master, row())
        posted = fantanolive.post(master, line(collection=2500) + line(adjustment=1) + total(1, 1))
        self.assertEqual(posted.master, row(dollars=0, end="D00  "))
        self.assertEqual(list(posted.lines), [2])
        self.assertEqual(self.refusal(fantanolive.post, master, b""), 22)
        self.assertEqual(self.refusal(fantanolive.add_cents, master), 4)

    def test_conversion(self):
        self.assertEqual(fantanolive.to_ascii(fantanolive.to_ebcdic(b"O-NE")), b"O-NE")
        self.assertEqual(fantanolive.to_ebcdic(b""), b"")
        self.assertEqual(self.refusal(fantanolive.to_ebcdic, b"a"), 16)

    def test_contacts(self):
        updated = fantanolive.contacts_update(b"", contact("001") + contact("0x1") + contact("000"))
        self.assertEqual(updated.table, contact("000") + contact("001"))
        self.assertEqual(list(updated.faulty), [2])
        self.assertEqual(fantanolive.contacts_codes(updated.table, ebcdic("OH")), ebcdic("001"))
        self.assertEqual(self.refusal(fantanolive.contacts_update, b"", bytes(219)), 18)
        self.assertEqual(self.refusal(fantanolive.contacts_codes, updated.table, b""), 12)

    def test_records_to(self):
        records = fantanolive.records_to(row(), row(dollars=30), b"")
        self.assertEqual(records, detail("SMITH", 30, "M"))
        self.assertEqual(fantanolive.apply(row(), records + control(1, 30), b"", 2007).master, row(dollars=30))
        self.assertEqual(fantanolive.records_to(row(), row(), b""), b"")
        self.assertEqual(self.refusal(fantanolive.records_to, row(), row("123456780"), b""), 29)

    def test_other_than_bytes_like(self):
        for wrong in (12, None, [1, 2]):
            self.assertRaises(TypeError, fantanolive.find, row(), wrong)
        for wrong in ("OH123456789N", 12, None, [1, 2]):
            self.assertRaises(TypeError, fantanolive.apply, wrong, PAPER_BATCH, b"", 2007)

    def test_ordinary_strings(self):
        master = row("123456780") + row()
        self.assertEqual(fantanolive.find(master, "OH123456789N"), 1)
        self.assertEqual(list(fantanolive.find_many(master, ["OH123456780N", "OH123456789N"]).places), [0, 1])
        file = fantanolive.reconcile(master, ebcdic("OH"), ebcdic("20070102"))
        self.assertEqual(fantanolive.reconcile(master, "OH", "20070102"), file)
        self.assertEqual(fantanolive.reconcile(master, "OH", datetime.date(2007, 1, 2)), file)
        table = fantanolive.contacts_update(b"", contact("001") + contact("025")).table
        self.assertEqual(fantanolive.contacts_codes(table, "OH"), ebcdic("001025"))
        listed = detail("SMITH", 30, "A", "JOHN", local="025") + control(1, 30)
        self.assertEqual([fantanolive.apply(b"", listed, codes, 2007).verdicts[0] for codes in ("001025", "001")], [0, 1 << 51])
        for number, wrong in [(14, ("OH", "oh123456789n", "")), (15, ("OH123456789A",))]:
            for key in wrong:
                self.assertEqual(self.refusal(fantanolive.find, master, key), number)
        self.assertEqual(self.refusal(fantanolive.reconcile, master, "XX", "20070102"), 12)
        self.assertEqual(self.refusal(fantanolive.reconcile, master, "OH", "20070229"), 13)
        with self.assertRaisesRegex(ValueError, "key has a character that EBCDIC has not"):
            fantanolive.find(master, "OH12345678\u0660N")

    def test_no_ssn_in_a_repr(self):
        left = fantanolive.apply_journaled(row(), PAPER_BATCH, b"", 2007)
        shown = [left, fantanolive.apply(row(), PAPER_BATCH, b"", 2007), fantanolive.post(row(), total(0, 0))]
        for result in shown + [fantanolive.contacts_update(b"", contact("001"))]:
            self.assertNotIn("\\x", repr(result))
            self.assertRegex(repr(result), r"^\w+\((master|table)=<\d+ bytes>, ")

    def test_made_batch(self):
        details = [layouts.Detail.read(PAPER_BATCH[start : start + 245]) for start in (0, 245)]
        self.assertEqual(fantanolive.make_batch("OH", details), PAPER_BATCH)
        self.assertEqual(fantanolive.make_batch("OH", []), control(0, 0))


if __name__ == "__main__":
    unittest.main()
