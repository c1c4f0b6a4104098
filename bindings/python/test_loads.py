"""The loads that the documents show, as docs/pictures/loads.py counts and draws them."""

import pathlib
import sys
import unittest

PICTURES = pathlib.Path(__file__).resolve().parents[2] / "docs/pictures"
sys.path.append(str(PICTURES))

import loads


class Loads(unittest.TestCase):
    def test_as_shown(self):
        self.assertEqual(loads.before(), [2489, 2496, 1254, 1276, 1240, 1245])
        self.assertEqual(loads.after(), ([1671, 1678, 1668, 1673, 1642, 1668], 13_324))

    def test_over_the_whole_orbit(self):
        """Each word comes up 512 times in its 4,096 states: the remainder gives two words to some shovels, a fair rank one to each."""
        self.assertEqual(loads.before(4_096), [1_024, 1_024, 512, 512, 512, 512])
        self.assertEqual(loads.after(3_072)[0], [512] * 6)

    def test_the_picture_is_as_drawn(self):
        self.assertEqual((PICTURES / "loads.svg").read_text(encoding="utf-8"), loads.loads())


if __name__ == "__main__":
    unittest.main()
