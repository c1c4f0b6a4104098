"""Document 02, Five: cards of up to eight words; those of two to four are as they were."""

import array
import functools
import operator
import random
import unittest

import tiedraw
from test_ranks import any_card, told
from tiedraw import MOST_CARD_BYTES, MOST_WORDS, Generator, Values

FEW, MANY = range(2, 5), range(5, MOST_WORDS + 1)


def values(words, width=32, **others):
    """A card whose table, 5 c + 3 modulo 2^words, is a single cycle."""
    size, constant = 2**words, Values().constant % 2**width
    table = tuple((5 * c + 3) % size for c in range(size))
    return Values(words, width, table, constant=constant)._replace(**others)


LONGEST = values(MOST_WORDS, 31, odd_power=3, even_power=4, constant=0x22334455, filter=2, sum_term=0)


def rotated(word, places, width):
    word, places = word % 2**width, places % width
    return (word << places | word >> width - places) % 2**width


def stepped(card, state):
    """A step as documents 01 and 002 define it, column by column."""
    product = functools.reduce(operator.and_, state)
    selector = (product + card.constant ^ product ^ 2 * sum(state) * card.sum_term) % 2**card.width
    after = [0] * card.words
    for i in range(card.width):
        column = sum((word >> i & 1) << k for k, word in enumerate(state))
        for _ in range(card.odd_power if selector >> i & 1 else card.even_power):
            column = card.table[column]
        for k in range(card.words):
            after[k] |= (column >> k & 1) << i
    return tuple(after)


def filtered(card, state):
    """The word of a state: documents 01 and 02, Five."""
    x0, x1, x2, x3 = (*state, 0, 0)[:4]
    rotate = functools.partial(rotated, width=card.width)
    if card.filter == 1:
        word = rotate(rotate(x0, 9) + x1, 15) + rotate(x2, 7) + x3
    else:
        word = rotate(rotate(x0, 11) + x1, 14) + rotate(rotate(x0, 13) + x2, 22) + rotate(x0, 12) + x3
    return (word + sum(rotate(state[k], k) for k in range(4, card.words))) % 2**card.width


class Walks(unittest.TestCase):
    def test_the_papers_words_are_reckoned(self):
        state = stepped(Values(), (0,) * 4)
        self.assertEqual((state, filtered(Values(), state)), ((0xFFFFFFFF, 0x12488421, 0xEDB77BDE, 0xEDB77BDE), 0x0B857478))

    def as_reckoned(self, card, state):
        """Step, draw and step back."""
        written, after = tiedraw.write(card), stepped(card, state)
        self.assertEqual(tiedraw.step(written, state), after, (written, state))
        self.assertEqual(tiedraw.draw(written, state), (filtered(card, after), after), (written, state))
        self.assertEqual(tiedraw.step_back(written, after), state, (written, state))

    def test_by_chance(self):
        chance = random.Random(6)
        for _ in range(500):
            card = tiedraw.read(any_card(chance))
            self.as_reckoned(card, tuple(chance.getrandbits(card.width) for _ in range(card.words)))

    def test_further_words_of_every_width(self):
        """Also where k is 0 modulo the width, and the word is added as it is."""
        for words in MANY:
            for width in range(2, 33):
                self.as_reckoned(values(words, width, filter=1 + width % 2), (2**width - 1,) * words)

    def test_fills_are_draws(self):
        for words in MANY:
            desk, single = (Generator(tiedraw.write(values(words, 11)), range(words)) for _ in range(2))
            into = array.array("I", [7]) * 100
            desk.fill(into, 20, 60)
            self.assertEqual(list(into), [7] * 20 + [single.draw() for _ in range(60)] + [7] * 20)
            self.assertEqual(desk, single)

    def test_every_state_comes_up_once(self):
        for words in MANY:
            desk, seen = Generator(tiedraw.write(values(words, 2)), [0] * words), set()
            for _ in range(4**words):
                seen.add(desk.state)
                desk.step()
            self.assertEqual((len(seen), desk.state), (4**words, (0,) * words))

    def test_picks_go_by_the_word(self):
        for words in MANY:
            desk = Generator(tiedraw.write(values(words)), [1] * words)
            after = stepped(values(words), [1] * words)
            shovel = (4, 7)[filtered(values(words), after) % 2]
            self.assertEqual(desk.margin({7: 300, 4: 300}).seconds, 1)
            self.assertEqual((desk.pick({7: 300, 4: 300}), desk.state), ((shovel, 2, 1), after))


class Cards(unittest.TestCase):
    def test_the_words_field(self):
        answers = [told(tiedraw.check, bytes([1, words])) for words in range(11)]
        self.assertEqual(answers, [2, 2, 4, 4, 3, 4, 4, 4, 4, 2, 2])
        self.assertEqual([told(tiedraw.read, bytes([1, words])) for words in range(11)], answers)

    def test_read_and_written_again(self):
        for words in MANY:
            card = bytes([5, words, *values(words).table])
            self.assertIsNone(tiedraw.check(card))
            self.assertEqual((tiedraw.read(card), tiedraw.write(values(words))), (values(words), card))

    def test_the_longest(self):
        card = bytes([0xFF, 8, 31, *LONGEST.table, 3, 4, 0x55, 0x44, 0x33, 0x22, 2, 0])
        self.assertEqual(len(card), MOST_CARD_BYTES)
        self.assertIsNone(tiedraw.check(card))
        self.assertEqual((tiedraw.read(card), tiedraw.write(LONGEST)), (LONGEST, card))
        self.assertEqual(tiedraw.write(LONGEST, MOST_CARD_BYTES), card)
        self.assertEqual(told(tiedraw.write, LONGEST, MOST_CARD_BYTES - 1), 16)
        self.assertEqual((told(tiedraw.check, card[:-1]), told(tiedraw.check, card + b"\0")), (1, 5))

    def test_the_table_in_bytes(self):
        for words in MANY:
            table = values(words).table
            self.assertEqual(told(tiedraw.check, bytes([5, words, *table[:-1]])), 1)
            self.assertEqual(told(tiedraw.check, bytes([5, words, 0, *table[1:]])), 7)
            self.assertEqual(told(tiedraw.check, bytes([5, words, 255, *table[1:]])), 7 if words == 8 else 2)

    def test_a_state_of_another_size(self):
        for words in MANY:
            card = tiedraw.write(values(words, 7))
            for count in {0, 4, words - 1, words + 1}:
                self.assertEqual(told(Generator, card, [0] * count), 10)
            self.assertEqual(told(Generator, card, [0] * (words - 1) + [2**7]), 11)


class Written(unittest.TestCase):
    def test_words_out_of_range(self):
        for words in [0, 1, 9, 255]:
            self.assertEqual(told(tiedraw.write, LONGEST._replace(words=words)), 2)

    def test_entries_past_the_table(self):
        size = 2**MOST_WORDS
        for words in [*FEW, *range(5, MOST_WORDS)]:
            card, unused = values(words), [0] * (size - 2**words)
            self.assertEqual(tiedraw.write(card._replace(table=[*card.table, *unused])), tiedraw.write(card))
            for place in {0, len(unused) - 1}:
                other = [*unused[:place], 1, *unused[place + 1 :]]
                self.assertEqual(told(tiedraw.write, card._replace(table=[*card.table, *other])), 2)
            self.assertEqual(told(tiedraw.write, card._replace(table=[*card.table, *unused, 0])), 2)
        self.assertEqual(told(tiedraw.write, LONGEST._replace(table=[*LONGEST.table, 0])), 2)

    def test_entries_that_are_missing_are_zeros(self):
        for words in [*FEW, *MANY]:
            upwards = values(words, table=(*range(1, 2**words), 0))
            self.assertEqual(tiedraw.write(upwards._replace(table=upwards.table[:-1])), tiedraw.write(upwards))
            self.assertEqual(told(tiedraw.write, upwards._replace(table=upwards.table[:-2])), 7)


if __name__ == "__main__":
    unittest.main()
