"""Document 02, Six: words that don't repeat early, a card whose words do, and bits of the state."""

import itertools
import random
import unittest

import tiedraw
from test_ranks import any_card
from test_tiedraw import TSC2
from test_words import filtered, stepped
from tiedraw import Generator, new_card

TSC1 = bytes(1)
EARLY = bytes.fromhex("27 02 03 01 03 00 02 01 00 00 00")


def column(state, i):
    return sum((word >> i & 1) << k for k, word in enumerate(state))


def opposite(card, state):
    """The state half the walk on: the top column has gone half round the table's ring, and the others are back."""
    top = card.width - 1
    moved = column(state, top)
    for _ in range(2 ** (card.words - 1)):
        moved = card.table[moved]
    return tuple(word & ~(1 << top) | (moved >> k & 1) << top for k, word in enumerate(state))


def differs(card):
    """Whether the state of zeros has another word than its opposite, by draws of the library: then no word sequence repeats early."""
    written, zeros = tiedraw.write(card), (0,) * card.words
    here, there = (tiedraw.draw(written, tiedraw.step_back(written, state))[0] for state in (zeros, opposite(card, zeros)))
    return here != there


class Walked(unittest.TestCase):
    def test_half_a_walk_on(self):
        chance = random.Random(8)
        for words, width in ((2, 2), (2, 5), (3, 3), (4, 2), (5, 2)):
            for seed in range(3):
                card = tiedraw.read(new_card(words, width, seed=f"{words} {width} {seed}"))
                state = start = tuple(chance.getrandbits(width) for _ in range(words))
                for _ in range(2 ** (words * width - 1)):
                    state = stepped(card, state)
                self.assertEqual(state, opposite(card, start))

    def test_an_accepted_card_whose_words_repeat_early(self):
        card = tiedraw.read(EARLY)
        for start in itertools.product(range(8), repeat=2):
            self.assertEqual(filtered(card, start), filtered(card, opposite(card, start)))
            desk = Generator(EARLY, start)
            words = list(desk.words(64))
            self.assertEqual((words[:32], desk.state), (words[32:], start))
            self.assertNotEqual(words[:16], words[16:32])

    def test_columns_repeat(self):
        """The bits at place i of all words, as one number, after 2^(m (i + 1)) steps, and not after half of that: with P1 16, 256, 4096."""
        desk = Generator(TSC1, [1, 2, 3, 4])
        states = [desk.state]
        for _ in range(3 * 4096):
            desk.step()
            states.append(desk.state)
        for i, period in enumerate((16, 256, 4096)):
            row = [column(state, i) for state in states]
            self.assertEqual(row[period:], row[:-period])
            self.assertNotEqual(row[period // 2 :], row[: -period // 2])


class Wide(unittest.TestCase):
    def test_cards_of_32_bits_by_chance(self):
        chance = random.Random(9)
        for _ in range(200):
            card = tiedraw.read(any_card(chance))
            table, constant = card.table[: 2**card.words], chance.getrandbits(32) | 1
            self.assertTrue(differs(card._replace(width=32, table=table, constant=constant)))

    def test_the_papers_cards(self):
        for card, other, word in ((TSC1, (0, 0, 1 << 31, 0), 0x40), (TSC2, (0, 1 << 31, 1 << 31, 0), 0x202000)):
            values = tiedraw.read(card)
            self.assertEqual((opposite(values, (0,) * 4), filtered(values, other)), (other, word))
            self.assertTrue(differs(values))

    def test_new_cards(self):
        for words in range(2, 9):
            self.assertTrue(differs(tiedraw.read(new_card(words, seed=f"pit {words}"))))


if __name__ == "__main__":
    unittest.main()
