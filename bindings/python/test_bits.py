"""Document 02, Eight: counts for the NIST tests. Words are written as bits, and what SP 800-22 counts in them is told."""

import array
import ctypes
import itertools
import pickle
import random
import unittest

import tiedraw
from papers import from_hex, numbers, split
from test_margin import REFUSED
from test_ranks import any_card, told
from tiedraw import MOST_STRIP_WORDS, BitCounts, Generator, Refusal, Refused, _library

PROGRAM = bytes.fromhex("27 02 02 01 02 03 00 01 00 00 00")
TOO_LONG, WIDE, SMALL_PAGE = Refusal.STRIP_TOO_LONG, Refusal.STRIP_WORD_TOO_WIDE, Refusal.BIT_PAGE_TOO_SMALL
UNSOUND = {number: REFUSED[number][0] for number in range(1, 10)}  # cards, by the number that refuses them
PI = "11001001000011111101101010100010001000010110100011" "00001000110100110001001100011001100010100010111000"


def card_of(width):
    """A card of words of this width."""
    return tiedraw.new_card(2, width, seed="bits")


def words_of(bits, width):
    return [int(bits[at : at + width], 2) for at in range(0, len(bits), width)]


def excursion(steps):
    """The largest distance from zero of the running sum."""
    return max(map(abs, itertools.accumulate(steps)), default=0)


def reckoned(words, width):
    """Bits and counts by the standard's definitions."""
    bits = "".join(f"{word:0{width}b}" for word in words)
    steps = [1 if bit == "1" else -1 for bit in bits]
    runs = sum(1 for _ in itertools.groupby(bits))
    return BitCounts(sum(steps), excursion(steps), excursion(steps[::-1]), runs, bits.encode())


class Papers(unittest.TestCase):
    def test_cases(self):
        for (card, strip, room), (kind, *answer) in split("nist"):
            case = from_hex(card), numbers(strip, 16), int(room)
            if kind == "refused":
                self.assertEqual(told(tiedraw.bit_counts, *case), int(answer[0]), case)
            else:
                *counts, _, page = answer
                self.assertEqual(tiedraw.bit_counts(*case), (*map(int, counts), page.strip("-.").encode()), case)


class Standard(unittest.TestCase):
    """The examples of SP 800-22, ten bits a word."""

    def counted(self, bits):
        *counts, written = tiedraw.bit_counts(card_of(10), words_of(bits, 10))
        self.assertEqual(written, bits.encode())
        return tuple(counts)

    def test_the_frequency_test(self):
        self.assertEqual(self.counted("1011010101"), (2, 2, 2, 9))

    def test_the_runs_test(self):
        self.assertEqual(self.counted("1001101011"), (2, 2, 3, 7))

    def test_the_cumulative_sums_test(self):
        self.assertEqual(self.counted("1011010111"), (4, 4, 4, 7))

    def test_the_first_binary_digits_of_pi(self):
        self.assertEqual(self.counted(PI), (-16, 16, 19, 52))


class Counts(unittest.TestCase):
    def same(self, found, wanted):
        """Of any length: bits that differ are not shown, which would take minutes."""
        self.assertEqual(found[:4], wanted[:4])
        self.assertTrue(found.bits == wanted.bits, "other bits")

    def as_reckoned(self, card, words):
        counts, width = tiedraw.bit_counts(card, words), tiedraw.read(card).width
        self.same(counts, reckoned(words, width))
        self.within(counts, len(words) * width)
        self.assertTrue(words_of(counts.bits.decode(), width) == list(words), "the bits are not the words")

    def within(self, counts, bits):
        self.assertEqual(len(counts.bits), bits)
        for distance in (counts.forward, counts.backward):
            self.assertTrue(abs(counts.balance) <= distance <= bits)
        self.assertEqual((counts.balance - bits) % 2, 0)

    def test_no_bits(self):
        for width in (2, 10, 32):
            for room in (None, 0, 5):
                self.assertEqual(tiedraw.bit_counts(card_of(width), [], room), (0, 0, 0, 0, b""))

    def test_words_of_every_width(self):
        for width in range(2, 33):
            self.as_reckoned(card_of(width), [1, 0, 2**width - 1, 2 ** (width - 1), 2**width // 3, 1])

    def test_the_words_of_a_generator(self):
        chance = random.Random(8)
        for _ in range(300):
            card = any_card(chance)
            desk = Generator(card, [0] * tiedraw.read(card).words)
            self.as_reckoned(card, desk.words(chance.choice([1, 2, 3, 50, 500])))

    def test_the_sums_may_lie_on_either_side(self):
        for word, counts in {
            0xF0: (0, 4, 4, 2),
            0x0F: (0, 4, 4, 2),
            0x00: (-8, 8, 8, 1),
            0x07: (-2, 5, 3, 2),
            0xE0: (-2, 3, 5, 2),
            0x55: (0, 1, 1, 8),
        }.items():
            self.assertEqual(tiedraw.bit_counts(card_of(8), [word])[:4], counts)

    def test_the_longest_strip(self):
        most = 32 * MOST_STRIP_WORDS
        for word, counts in {
            2**32 - 1: (most, most, most, 1),
            0: (-most, most, most, 1),
            0xAAAAAAAA: (0, 1, 1, most),
        }.items():
            found = tiedraw.bit_counts(b"\0", array.array("I", [word]) * MOST_STRIP_WORDS)
            self.same(found, BitCounts(*counts, f"{word:032b}".encode() * MOST_STRIP_WORDS))
        self.as_reckoned(b"\0", Generator(b"\0", [0] * 4).words(MOST_STRIP_WORDS))

    def test_words_in_a_buffer_are_only_read(self):
        words = array.array("I", [0, 3, 2])
        for given in (words, memoryview(words), memoryview(words).toreadonly()):
            self.assertEqual(tiedraw.bit_counts(PROGRAM, given), (0, 2, 2, 3, b"001110"))
        self.assertEqual(words.tolist(), [0, 3, 2])

    def test_the_answer_has_names_and_travels(self):
        counts = tiedraw.bit_counts(PROGRAM, [0, 3, 2])
        self.assertEqual(repr(counts), "BitCounts(balance=0, forward=2, backward=2, runs=3, bits=b'001110')")
        again = pickle.loads(pickle.dumps(counts))
        self.assertEqual((again, type(again)), (counts, BitCounts))


class Refusing(unittest.TestCase):
    def test_a_card_comes_first(self):
        for number, card in UNSOUND.items():
            for words in ([], [0], [2**32 - 1] * (MOST_STRIP_WORDS + 1)):
                for room in (None, 0):
                    self.assertEqual(told(tiedraw.bit_counts, card, words, room), number)

    def test_then_the_length_of_the_strip(self):
        for word, room in itertools.product((0, 4, 2**32 - 1), (None, 0, 2**40)):
            self.assertEqual(told(tiedraw.bit_counts, PROGRAM, [word] * (MOST_STRIP_WORDS + 1), room), TOO_LONG)
        self.assertEqual(told(tiedraw.bit_counts, PROGRAM, array.array("I", [0]) * 1_000_000), TOO_LONG)

    def test_then_its_words(self):
        for words in ([4, 0, 3], [0, 4, 3], [0, 3, 4], [3, 0, 2**32 - 1], [4] * MOST_STRIP_WORDS):
            for room in (None, 0, 2**40):
                self.assertEqual(told(tiedraw.bit_counts, PROGRAM, words, room), WIDE)

    def test_words_at_the_edge_of_each_width(self):
        for width in range(2, 32):
            card = card_of(width)
            self.assertEqual(tiedraw.bit_counts(card, [2**width - 1]).balance, width)
            for word in (2**width, 2**width + 1, 2**32 - 1):
                self.assertEqual(told(tiedraw.bit_counts, card, [word]), WIDE)

    def test_then_the_page(self):
        for width, count in itertools.product((2, 7, 32), (1, 3, MOST_STRIP_WORDS)):
            card, needed = card_of(width), width * count
            for room in (0, 1, needed - 1):
                self.assertEqual(told(tiedraw.bit_counts, card, [1] * count, room), SMALL_PAGE)
            for room in (needed, needed + 1, 2**40):
                self.assertTrue(tiedraw.bit_counts(card, [1] * count, room) == tiedraw.bit_counts(card, [1] * count))

    def test_they_tell_number_and_trade_word(self):
        for words, room, message in [
            ([0] * (MOST_STRIP_WORDS + 1), None, "refusal 22 (strip too long): the strip has more than 16,384 words"),
            ([4], None, "refusal 23 (strip bits): a strip word is wider than the card says"),
            ([3], 1, "refusal 24 (bit page): the page has fewer bytes than the strip has bits"),
        ]:
            with self.assertRaises(Refused) as caught:
                tiedraw.bit_counts(PROGRAM, words, room)
            self.assertEqual(str(caught.exception), message)


class Pages(unittest.TestCase):
    """The library's own call, on a page that can be looked at."""

    def left(self, card, words, room):
        """The answer and the page after a call."""
        lent, strip = (ctypes.c_uint8 * len(card))(*card), (ctypes.c_uint32 * len(words))(*words)
        page = (ctypes.c_uint8 * room)(*[0xA5] * room)
        answer = _library.count_bits(lent, len(card), strip, len(words), page, room)
        self.assertEqual(list(strip), list(words))
        return tuple(getattr(answer, name) for name, _ in answer._fields_), bytes(page)

    def test_bytes_past_the_last_bit_are_untouched(self):
        for room in (6, 7, 100):
            self.assertEqual(self.left(PROGRAM, [0, 3, 2], room), ((0, 2, 2, 3, 0), b"001110" + b"\xa5" * (room - 6)))
        self.assertEqual(self.left(PROGRAM, [], 5), ((0, 0, 0, 0, 0), b"\xa5" * 5))

    def test_a_refusal_leaves_the_page_and_answers_zeros(self):
        for number, card in UNSOUND.items():
            self.assertEqual(self.left(card, [1], 40), ((0, 0, 0, 0, number), b"\xa5" * 40))
        for number, words, room in [
            (TOO_LONG, [1] * (MOST_STRIP_WORDS + 1), 40_000),
            (WIDE, [1, 3, 4], 40),
            (SMALL_PAGE, [1, 3, 2], 5),
        ]:
            answer, page = self.left(PROGRAM, words, room)
            self.assertEqual((answer, page.strip(b"\xa5")), ((0, 0, 0, 0, number), b""))


if __name__ == "__main__":
    unittest.main()
