"""The words, the exception and where the library is looked for."""
import os
import pathlib
import pickle
import subprocess
import sys
import unittest

import fantanolive
from fantanolive import Refused, _header, _library

MODULE = pathlib.Path(fantanolive.__file__).resolve().parent.parent


def run(environment, code="import fantanolive; print(fantanolive.find(b'', b'x'))"):
    own = {name: value for name, value in os.environ.items() if name not in ("FANTANOLIVE_LIBRARY", "LD_LIBRARY_PATH")}
    own.update(PYTHONPATH=str(MODULE), **environment)
    return subprocess.run([sys.executable, "-B", "-c", code], env=own, capture_output=True, text=True, check=False)


class Words(unittest.TestCase):
    def test_texts(self):
        self.assertEqual(fantanolive.refusal_text(1).wrong, "year outside 1900 to 9999")
        self.assertEqual(fantanolive.code_text(17).number, 17)
        for number in (0, 34, 99):
            self.assertIsNone(fantanolive.refusal_text(number))
        for number in (0, 19, 50, 53):
            self.assertIsNone(fantanolive.code_text(number))

    def test_codes(self):
        self.assertEqual(fantanolive.codes_of(0), [])
        self.assertEqual(fantanolive.codes_of(1 << 1 | 1 << 18 | 1 << 52), [1, 18, 52])

    def test_exception(self):
        with self.assertRaises(Refused) as caught:
            fantanolive.to_ebcdic(b"AB\n")
        refused = caught.exception
        self.assertEqual((refused.call, refused.number, refused.place), ("to_ebcdic", 16, 2))
        self.assertIs(refused.refusal, fantanolive.Refusal.NO_COUNTERPART)
        self.assertEqual([int(refusal) for refusal in fantanolive.Refusal], list(range(1, 34)))
        self.assertIsNone(Refused("find", 99).refusal)
        self.assertIn("refusal 16: a byte without a counterpart in the other character set (at byte 2)", str(refused))
        self.assertIn(refused.mend, str(refused))
        again = pickle.loads(pickle.dumps(refused))
        self.assertEqual((again.number, again.place, str(again)), (16, 2, str(refused)))

    def test_version(self):
        self.assertEqual((fantanolive.__version__, fantanolive.library_version()), (_header.VERSION, _header.VERSION))
        self.assertEqual(_library.SONAME, "libfantanolive.so.%d" % _header.VERSION_MAJOR)


class Library(unittest.TestCase):
    def test_named(self):
        self.assertIn("refusal 14", run({"FANTANOLIVE_LIBRARY": _library.path()}).stderr)

    def test_found_by_the_system(self):
        folder = str(pathlib.Path(_library.path()).resolve().parent)
        self.assertIn("refusal 14", run({"LD_LIBRARY_PATH": folder}).stderr)

    def test_missing(self):
        said = run({"FANTANOLIVE_LIBRARY": "/nowhere/libfantanolive.so"}).stderr
        self.assertIn("the library can't be loaded: /nowhere/libfantanolive.so", said)
        self.assertIn("FANTANOLIVE_LIBRARY", said)

    def test_another_library(self):
        self.assertIn("has no call fantanolive_version", run({"FANTANOLIVE_LIBRARY": "libc.so.6"}).stderr)

    def test_words_without_the_library(self):
        code = "import fantanolive; print(fantanolive.code_text(17).wrong)"
        self.assertEqual(run({"FANTANOLIVE_LIBRARY": "/nowhere"}, code).stdout, "last name differs from the stored one\n")


if __name__ == "__main__":
    unittest.main()
