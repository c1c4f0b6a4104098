"""New cards for pits."""

import hashlib
import unittest

import tiedraw

SIZES = [(words, width) for words in range(2, tiedraw.MOST_WORDS + 1) for width in range(2, 33)]


class NewCards(unittest.TestCase):
    def test_many_of_every_size_are_accepted(self):
        """Of more than four words fewer: a table of 256 entries takes its time."""
        for words, width in SIZES:
            for filter in (1, 2):
                for _ in range(100 if words <= 4 else 10):
                    tiedraw.check(tiedraw.new_card(words, width, filter))

    def test_values_are_as_asked(self):
        for words, width in SIZES:
            values = tiedraw.read(tiedraw.new_card(words, width, 2))
            self.assertEqual((values.words, values.width, values.filter), (words, width, 2))
            self.assertEqual((values.odd_power, values.even_power, values.sum_term), (1, 2, 1))
            self.assertEqual((values.constant.bit_length(), values.constant % 2), (width, 1))

    def test_a_seed_gives_the_same_card_everywhere(self):
        self.assertEqual(tiedraw.new_card(seed="pit").hex(), "2403 0d06090c080e04000a0f010502070b 17504d9c".replace(" ", ""))
        for words, width in SIZES:
            self.assertEqual(tiedraw.new_card(words, width, seed="south"), tiedraw.new_card(words, width, seed="south"))
        self.assertNotEqual(tiedraw.new_card(seed="south"), tiedraw.new_card(seed="north"))
        self.assertNotEqual(tiedraw.new_card(), tiedraw.new_card())

    def test_a_seeded_card_is_as_documented(self):
        """Worked out again by hand: all words of these draws are below the last multiple of their bounds."""
        digest = hashlib.sha256("pit".encode() + bytes(8)).digest()
        draws = [int.from_bytes(digest[at : at + 4], "little") for at in range(0, 32, 4)]
        table = [0, 1, 2, 3]
        for last, word in zip((3, 2, 1), draws):
            table[last], table[word % last] = table[word % last], table[last]
        values = tiedraw.read(tiedraw.new_card(2, 9, seed="pit"))
        self.assertEqual((values.table, values.constant), (tuple(table), 256 + 2 * (draws[3] % 128) + 1))

    def test_every_cycle_of_two_words_comes_up(self):
        tables = {tiedraw.read(tiedraw.new_card(2, seed=str(number))).table for number in range(200)}
        self.assertEqual(len(tables), 6)

    def test_what_is_asked_wrongly_is_named(self):
        for message, arguments in {
            "words: 9 is not 2 to 8": {"words": 9},
            "words: 1 is not 2 to 8": {"words": 1},
            "width: 33 is not 2 to 32": {"width": 33},
            "filter: 0 is not 1 to 2": {"filter": 0},
        }.items():
            with self.assertRaises(ValueError) as caught:
                tiedraw.new_card(**arguments)
            self.assertEqual(str(caught.exception), message)
        self.assertRaisesRegex(TypeError, "words: True is not a whole number", tiedraw.new_card, True)
        self.assertRaisesRegex(TypeError, "seed: 7 is not text", tiedraw.new_card, seed=7)


if __name__ == "__main__":
    unittest.main()
