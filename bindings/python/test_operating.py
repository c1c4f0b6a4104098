"""What docs/OPERATING.md shows: as measured, accepted cards whose lots are bad, and new ones whose are not so; and as typed."""

import doctest
import pathlib
import random
import re
import sys
import unittest

from tiedraw import Generator, Refusal, Refused, bad_places, bit_counts, check, new_card, read
from tiedraw._text import hex_bytes

ROOT = pathlib.Path(__file__).resolve().parents[2]
sys.path.append(str(ROOT / "docs/pictures"))

import pictures

OPERATING = ROOT / "docs/OPERATING.md"
SHORT = bytes.fromhex("b0 00 01 00 00 00 00")
NARROW = bytes.fromhex("27 02 02 01 02 03 00 01 00 00 00")


def lots(card, start, ties, count):
    """Of 2 or 4 ties, for which no word is passed over."""
    return [word % ties for word in Generator(card, start).words(count)]


def repeats(row, period):
    return row[period:] == row[:-period]


class Measured(unittest.TestCase):
    def test_an_accepted_card_whose_lots_repeat(self):
        check(SHORT)
        self.assertEqual("".join(map(str, lots(SHORT, [0] * 4, 2, 16))), "0101111000011010")
        row = lots(SHORT, [0] * 4, 4, 100_000)
        self.assertTrue(repeats(row, 256) and repeats([lot % 2 for lot in row], 16))

    def test_they_do_so_from_most_starts(self):
        chance = random.Random(1)
        starts = [[chance.getrandbits(32) for _ in range(4)] for _ in range(100)]
        self.assertGreater(sum(repeats(lots(SHORT, start, 2, 4_000), 16) for start in starts), 85)

    def test_the_counts_of_its_bits(self):
        counts = bit_counts(SHORT, Generator(SHORT, [0] * 4).words(15_625))
        self.assertEqual(counts[:4], (-227_872, 227_872, 227_872, 168_021))

    def test_six_shovels_are_too_many_for_words_of_two_bits(self):
        desk = Generator(NARROW, [0, 0])
        with self.assertRaises(Refused) as caught:
            desk.pick({shovel: 300 for shovel in range(11, 17)})
        self.assertEqual((caught.exception.refusal, desk.state), (Refusal.TOO_MANY_TIES, (0, 0)))

    def test_new_cards_do_not_repeat_so(self):
        for seed in range(20):
            row = lots(new_card(seed=f"pit {seed}"), [0] * 4, 2, 4_000)
            self.assertFalse(any(repeats(row, period) for period in range(1, 2_000)))


class Typed(unittest.TestCase):
    def test_python_answers_as_shown(self):
        done = doctest.testfile(str(OPERATING), module_relative=False, encoding="utf-8")
        self.assertEqual((done.failed, done.attempted), (0, 17))

    def test_the_table_drawn_is_the_one_typed(self):
        text = OPERATING.read_text(encoding="utf-8")
        typed = bytes.fromhex(re.search(r'typed = bytes.fromhex\("(.*)"\)', text).group(1))
        self.assertEqual((read(typed).table, bad_places(typed)), (pictures.TYPED, pictures.BAD_PLACES))
        self.assertEqual(typed[:3] + b"\x0b" + typed[4:], hex_bytes(f"@{ROOT / 'cards/p2.hex'}"))
        self.assertIn("](pictures/broken_ring.svg)", text)


if __name__ == "__main__":
    unittest.main()
