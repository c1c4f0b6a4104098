"""The bits for the published suite of NIST SP 800-22, as tools/nist.py writes and counts them."""

import contextlib
import io
import os
import pathlib
import sys
import tempfile
import unittest

import tiedraw

sys.path.append(str(pathlib.Path(__file__).resolve().parents[2] / "tools"))

import nist


class Nist(unittest.TestCase):
    @classmethod
    def setUpClass(cls):
        cls.first, cls.second = nist.halves()

    def test_the_counts(self):
        self.assertEqual(self.first[:4], (248, 561, 418, 250_227))
        self.assertEqual(self.second[:4], (-848, 1_093, 1_002, 249_971))
        whole = nist.joined(self.first, self.second)
        self.assertEqual(whole[:4], (-600, 845, 1_161, 500_198))

    def test_the_bits_are_those_of_single_draws(self):
        desk = tiedraw.Generator(nist.CARD, nist.START)
        words = [desk.draw() for _ in range(nist.WORDS)]
        bits = "".join(f"{word:032b}" for word in words).encode()
        self.assertTrue(bits == self.first.bits + self.second.bits, "the words are others")

    def test_what_does_not_agree_is_told(self):
        for name in ("balance", "forward", "backward", "runs"):
            other = self.second._replace(**{name: getattr(self.second, name) + 2})
            with self.assertRaises(SystemExit) as caught:
                nist.joined(self.first, other)
            self.assertEqual(str(caught.exception), "nist: a half, counted here, is not what was told")

    def test_a_run_over_the_cut_is_one(self):
        for first, second, runs in [(b"01", b"10", 3), (b"01", b"01", 4), (b"00", b"00", 1)]:
            self.assertEqual(nist.joined(nist.reckoned(first), nist.reckoned(second)).runs, runs)

    def test_the_file_and_what_is_printed(self):
        before, printed = os.getcwd(), io.StringIO()
        with tempfile.TemporaryDirectory() as folder, contextlib.redirect_stdout(printed):
            os.chdir(folder)
            try:
                nist.main()
                bits = nist.FILE.read_bytes()
            finally:
                os.chdir(before)
        self.assertTrue(bits == self.first.bits + self.second.bits, "the file has other bits")
        self.assertEqual((len(bits), set(bits)), (1_000_000, {ord("0"), ord("1")}))
        for line in nist.table(self.first, self.second):
            self.assertIn(f"{line}\n", printed.getvalue())


if __name__ == "__main__":
    unittest.main()
