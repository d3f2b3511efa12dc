"""Buffers of every kind: those that are taken, those that are not, and what holds while a call runs."""
import array
import ctypes
import mmap
import tempfile
import threading
import unittest

from fantanolive import calls, forms
from fantanolive._lending import Call
from sample import PAPER_BATCH, control, ebcdic, row

KEY = ebcdic("OH123456789N")


def apply(**changed):
    arguments = {
        "master": bytearray(200), "rows": 0, "batch": PAPER_BATCH, "locals": b"", "year": 2007,
        "verdicts": array.array("Q", [7, 7]), "rejects": bytearray(735),
    }
    return calls.apply(**{**arguments, **changed})


class Taken(unittest.TestCase):
    def test_kinds_that_are_read(self):
        with tempfile.TemporaryFile() as file:
            file.write(row())
            file.flush()
            with mmap.mmap(file.fileno(), 0, access=mmap.ACCESS_READ) as mapped:
                kinds = [row(), bytearray(row()), memoryview(row()), array.array("B", row()), mapped]
                kinds += [array.array("Q", row()), (ctypes.c_uint8 * 200)(*row()), memoryview(b"x" + row())[1:]]
                for kind in kinds:
                    self.assertEqual(calls.find(kind, 1, KEY), 0)

    def test_kinds_that_are_written(self):
        with mmap.mmap(-1, 400) as mapped:
            kinds = [bytearray(200), array.array("B", bytes(200)), memoryview(bytearray(201))[1:], mapped]
            kinds += [(ctypes.c_uint8 * 200)(), array.array("Q", bytes(200))]
            for kind in kinds:
                self.assertEqual(apply(master=kind).rows, 1)
                self.assertEqual(bytes(kind)[:200], row())

    def test_kinds_of_numbers(self):
        for numbers in [array.array("Q", [7] * 3), (ctypes.c_uint64 * 3)(7, 7, 7), memoryview(bytearray(24)).cast("Q")]:
            apply(verdicts=numbers)
            self.assertEqual(list(numbers)[:2], [0, 1 << 17])


class NotTaken(unittest.TestCase):
    def test_read_only(self):
        for name in ("master", "rejects"):
            with self.assertRaisesRegex(TypeError, f"{name} must be writable"):
                apply(**{name: bytes(735)})
        with self.assertRaisesRegex(TypeError, "verdicts must be writable"):
            apply(verdicts=memoryview(array.array("Q", [7, 7])).toreadonly())
        with mmap.mmap(-1, 200) as mapped:
            with self.assertRaisesRegex(TypeError, "master must be writable"):
                apply(master=memoryview(mapped).toreadonly())

    def test_not_contiguous(self):
        for function in (calls.to_ebcdic, calls.to_ascii):
            with self.assertRaisesRegex(BufferError, "file must be contiguous"):
                function(memoryview(b"ABCD")[::2], bytearray(4))
        with self.assertRaisesRegex(BufferError, "out must be contiguous"):
            calls.to_ebcdic(b"", memoryview(bytearray(4))[::-1])
        with self.assertRaisesRegex(BufferError, "master must be contiguous"):
            forms.add_cents(memoryview(bytes(400))[::2])

    def test_not_bytes_like(self):
        for wrong in ("OH", 5, None, [1], object()):
            with self.assertRaisesRegex(TypeError, "key must be bytes-like"):
                calls.find(row(), 1, wrong)

    def test_wrong_items(self):
        for numbers in (bytearray(16), array.array("q", [7, 7]), array.array("H", [7] * 8), array.array("d", [7, 7])):
            with self.assertRaisesRegex(TypeError, "verdicts must have unsigned items of 8 bytes"):
                apply(verdicts=numbers)
        for numbers in (bytearray(16), array.array("i", [7]), array.array("H", [7, 7]), array.array("Q", [7])):
            with self.assertRaisesRegex(TypeError, "lines must have unsigned items of 4 bytes"):
                calls.post(bytearray(row()), 1, b"", numbers)
        for numbers in (bytearray(16), array.array("i", [7]), array.array("H", [7, 7]), array.array("Q", [7])):
            with self.assertRaisesRegex(TypeError, "places must have unsigned items of 4 bytes"):
                calls.find_many(row(), 1, KEY, numbers)
        swapped = (ctypes.c_uint64.__ctype_be__ * 2)()
        self.assertRaises(TypeError, apply, verdicts=swapped)

    def test_not_aligned(self):
        with self.assertRaisesRegex(ValueError, "verdicts must be aligned to 8 bytes"):
            apply(verdicts=memoryview(bytearray(33))[1:25].cast("Q"))

    def test_overlap(self):
        shared = bytearray(1000)
        for names in (("master", "rejects"), ("master", "batch"), ("locals", "rejects")):
            with self.assertRaisesRegex(ValueError, "must not overlap"):
                apply(**{name: shared for name in names})
        numbers = array.array("Q", [7] * 100)
        with self.assertRaisesRegex(ValueError, "must not overlap"):
            apply(verdicts=numbers, rejects=numbers)

    def test_numbers(self):
        for wrong in (-1, 2**64):
            self.assertRaises(OverflowError, calls.find, row(), wrong, KEY)
            self.assertRaises(OverflowError, apply, year=wrong)
        for wrong in (1.0, "1", None):
            self.assertRaises(TypeError, calls.find, row(), wrong, KEY)


class Held(unittest.TestCase):
    def test_no_resizing_during_a_call(self):
        for buffer in (bytearray(8), array.array("B", bytes(8))):
            with Call("find") as call:
                call.read("key", buffer)
                self.assertRaises(BufferError, buffer.extend, b"x")
            buffer.extend(b"x")

    def test_given_back_after_an_error(self):
        master = bytearray(200)
        for wrong in ({"verdicts": bytearray(3)}, {"year": 1}, {"rejects": b""}, {"rows": -1}):
            with self.assertRaises(Exception):
                apply(master=master, **wrong)
            master.append(0)
            master.pop()

    def test_threads(self):
        results = []

        def work():
            for _ in range(200):
                applied = forms.apply(b"", PAPER_BATCH, b"", 2007)
                results.append(applied.master == row() and calls.find(applied.master, 1, KEY) == 0)

        threads = [threading.Thread(target=work) for _ in range(4)]
        for thread in threads:
            thread.start()
        for thread in threads:
            thread.join()
        self.assertEqual(results, [True] * 800)

    def test_a_large_batch(self):
        kept = forms.apply(b"", bytes(245 * 65537) + control(0, 0), b"", 2007)
        self.assertEqual(kept.counts, (0, 0, 0, 65537, 0))


if __name__ == "__main__":
    unittest.main()
