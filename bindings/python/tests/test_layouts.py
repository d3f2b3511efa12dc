"""Rows and records as dataclasses: the paper's example through them, numbers and what doesn't fit, and that no SSN is shown."""
import unittest

import fantanolive
from fantanolive.layouts import LAYOUTS, Control, Detail, Line, Row
from sample import PAPER_BATCH


def detail(name, dollars, kind):
    made = Detail(state="OH", ssn="123456789", last_name=name, transaction_type=kind, case_type="N")
    made.arrearage_number = dollars
    return made


def made_batch():
    add = detail("SMITH", 25, "A")
    add.first_name = "JOHN"
    control = Control(state="OH", mark="CTL")
    control.tanf_records_number = control.tanf_amount_number = 0
    control.non_tanf_records_number, control.non_tanf_amount_number = 2, 125
    return add.write() + detail("SMYTH", 100, "M").write() + control.write()


class Layouts(unittest.TestCase):
    def test_paper_example(self):
        self.assertEqual(made_batch(), PAPER_BATCH)
        applied = fantanolive.apply(b"", made_batch(), b"", 2007)
        [row] = Row.read_all(applied.master)
        self.assertEqual((row.last_name, row.arrearage_number, row.cents_number, row.exclusions, row.status), ("SMITH", 25, 0, 0, ""))
        self.assertEqual(row.write(), applied.master)
        self.assertEqual(row, Row.read(memoryview(applied.master)))

    def test_numbers_and_amounts(self):
        line = Line()
        self.assertEqual((line.collection_cents, line.fee_cents), (None, None))
        for text, cents in [
            ("00000001001", 1001), ("0000000100A", 1001), ("0000000100{", 1000), ("0000000100J", None), ("000000A1001", None),
            ("0000001001", None), ("\u0660" * 11, None),
        ]:
            line.collection = text
            self.assertEqual(line.collection_cents, cents)
        line.fee_cents = 99999
        self.assertEqual(line.fee, "99999")
        for wrong in (100000, -1):
            with self.assertRaisesRegex(ValueError, "fee does not fit its 5 columns"):
                line.fee_cents = wrong

    def test_what_does_not_fit(self):
        self.assertEqual(Row().write(), b"\x40" * 194 + b"\0" + b"\x40" * 5)
        with self.assertRaisesRegex(ValueError, "city does not fit its 25 columns"):
            Row(city="A CITY WITH A NAME TOO LONG").write()
        with self.assertRaisesRegex(ValueError, "city has a character that EBCDIC has not"):
            Row(city="\u0141").write()
        with self.assertRaisesRegex(ValueError, "exclusions must be from 0 to 255"):
            Row(exclusions=256).write()
        with self.assertRaisesRegex(ValueError, "a row has 200 bytes, not 199"):
            Row.read(bytes(199))

    def test_no_ssn_is_shown(self):
        row = Row(state="OH", ssn="123456789", case_id="ID 123-45-6789", city="987654321", exclusions=34)
        self.assertEqual(
            repr(row), "Row(state='OH', ssn='*****6789', case_id='ID ***-**-6789', city='*****4321', exclusions=34)"
        )

    def test_blank_records(self):
        for layout in LAYOUTS.values():
            self.assertEqual(layout.read(layout().write()), layout())


if __name__ == "__main__":
    unittest.main()
