"""Document 02, Eleven: the bad bit of the table. The fewest places whose entries alone make every completion get 7."""

import ctypes
import itertools
import random
import unittest

import tiedraw
from papers import from_hex, numbers, split
from test_ranks import told
from tiedraw import MOST_BAD_PLACES, MOST_WORDS, Refusal, Refused, Values, _library

SOUND_RING, BROKEN_RING = Refusal.SINGLE_CYCLE, Refusal.NOT_SINGLE_CYCLE


def card_of(table):
    """The card with this table, and else as TSC-1."""
    if len(table) == 16:
        return b"\0" if tuple(table) == Values().table else bytes([4, *table])
    return bytes([5, len(table).bit_length() - 1, *table])


def cycles(*rows):
    """The table that leads along each row and back to its first place."""
    table = [0] * sum(map(len, rows))
    for row in rows:
        for place, entry in zip(row, [*row[1:], row[0]]):
            table[place] = entry
    return table


def rings(size):
    """Every table of so many places that is a single cycle."""
    return [cycles([0, *order]) for order in itertools.permutations(range(1, size))]


def sets(size):
    """Every set of places: fewer of them first, and as many in the order of comparison."""
    return [places for count in range(size + 1) for places in itertools.combinations(range(size), count)]


def searched(table, rings, sets):
    """The first set with whose entries no ring agrees, so that every completion gets 7; 26 if the table is a ring."""
    agreed = {tuple(entry == other for entry, other in zip(table, ring)) for ring in rings}
    if (True,) * len(table) in agreed:
        return SOUND_RING
    return next(places for places in sets if not any(all(kept[place] for place in places) for kept in agreed))


def reckoned(table):
    """The same by the rule: a place that is its own entry; else a repeat or an exchange; else the shortest cycle."""
    places = range(len(table))
    for place in places:
        if table[place] == place:
            return (place,)
    for i, j in itertools.combinations(places, 2):
        if table[i] == table[j] or (table[i], table[j]) == (j, i):
            return i, j
    shortest = min((walk(table, place) for place in places), key=len)
    return SOUND_RING if len(shortest) == len(table) else tuple(sorted(shortest))


def walk(table, start):
    found = [start]
    while table[found[-1]] != start:
        found.append(table[found[-1]])
    return found


def any_table(chance, size):
    """Of any entries; or a ring with one entry changed, or not; or of cycles, none of them short."""
    kind, order = chance.randrange(4), chance.sample(range(size), size)
    if kind == 0:
        return [chance.randrange(size) for _ in range(size)]
    if kind == 1:
        table = cycles(order)
        table[chance.randrange(size)] = chance.randrange(size)
        return table
    rows, least = [], kind + 1
    while len(order) >= 2 * least:
        cut = chance.randint(least, len(order) - least)
        rows, order = [*rows, order[:cut]], order[cut:]
    return cycles(*rows, order)


def answered(card):
    """The library's own answer: refusal, count, and all 128 places."""
    answer = _library.bad_places((ctypes.c_uint8 * len(card))(*card), len(card))
    return answer.refusal, answer.count, list(answer.places)


class Papers(unittest.TestCase):
    def test_cases(self):
        refusals = set()
        for (card,), (name, *more) in split("badbit"):
            expected = int(more[0]), 0, [0] * MOST_BAD_PLACES
            if name == "places":
                places = numbers(more[1])
                expected = 0, int(more[0]), places + [0] * (MOST_BAD_PLACES - len(places))
            self.assertEqual(answered(from_hex(card)), expected, card)
            refusals.add(expected[0])
        self.assertEqual(refusals, {*range(7), SOUND_RING})


class Places(unittest.TestCase):
    def test_tables_of_two_words(self):
        for table, places in {
            "00 01 02 03": (0,),
            "01 02 03 03": (3,),
            "01 00 03 02": (0, 1),
            "02 03 01 01": (1, 3),
            "03 02 01 01": (1, 2),
            "01 02 01 00": (0, 2),
        }.items():
            found = tiedraw.bad_places(bytes.fromhex("05 02" + table))
            self.assertEqual((found, type(found)), (places, tuple))

    def test_every_table_of_two_words_by_search(self):
        every, counts = (rings(4), sets(4)), {}
        for table in itertools.product(range(4), repeat=4):
            expected, card = searched(table, *every), card_of(table)
            self.assertEqual((told(tiedraw.bad_places, card), reckoned(table)), (expected, expected), table)
            self.assertEqual(told(tiedraw.check, card), None if expected == SOUND_RING else BROKEN_RING)
            kind = 0 if expected == SOUND_RING else len(expected)
            counts[kind] = counts.get(kind, 0) + 1
        self.assertEqual(counts, {0: 6, 1: 175, 2: 75})

    def test_tables_of_three_words_by_search(self):
        every, chance, kinds = (rings(8), sets(8)), random.Random(11), set()
        for _ in range(60):
            table = any_table(chance, 8)
            expected = searched(table, *every)
            self.assertEqual(told(tiedraw.bad_places, card_of(table)), expected, table)
            kinds.add(0 if expected == SOUND_RING else len(expected))
        self.assertEqual(kinds, {0, 1, 2, 3, 4})

    def test_tables_of_every_size_by_the_rule(self):
        chance, kinds = random.Random(12), set()
        for words in range(2, MOST_WORDS + 1):
            for _ in range(100):
                table = any_table(chance, 2**words)
                expected = reckoned(table)
                self.assertEqual(told(tiedraw.bad_places, card_of(table)), expected, table)
                kinds.add(0 if expected == SOUND_RING else min(len(expected), 5))
        self.assertEqual(kinds, {0, 1, 2, 3, 4, 5})

    def test_each_entry_of_tsc_1_changed(self):
        for place, entry in itertools.product(range(16), repeat=2):
            table = list(Values().table)
            same, table[place] = table[place] == entry, entry
            expected = Refusal.REDUNDANT if same else reckoned(table)
            self.assertEqual(told(tiedraw.bad_places, bytes([4, *table])), expected)
        self.assertEqual(told(tiedraw.bad_places, b"\0"), SOUND_RING)

    def test_128_places(self):
        even, odd = [*range(0, 256, 2)], [*range(1, 256, 2)]
        self.assertEqual(tiedraw.bad_places(card_of(cycles(odd[::-1], even))), tuple(even))
        self.assertEqual(tiedraw.bad_places(card_of(cycles(range(255, 127, -1), range(128)))), tuple(range(128)))
        self.assertEqual(tiedraw.bad_places(card_of(cycles(range(129), range(129, 256)))), tuple(range(129, 256)))

    def test_the_answer_has_zeros_past_the_count(self):
        for count in (3, 4, 17, 64, 127, 128):
            bad = list(range(256 - count, 256)) if count < 128 else list(range(128))
            card = card_of(cycles(bad, [place for place in range(256) if place not in bad]))
            self.assertEqual(answered(card), (0, count, bad + [0] * (128 - count)))
        self.assertEqual(answered(card_of(range(256))), (0, 1, [0] * 128))

    def test_while_they_stand_no_change_elsewhere_mends_the_table(self):
        chance, tried = random.Random(13), 0
        for _ in range(100):
            table = any_table(chance, 8)
            bad = told(tiedraw.bad_places, card_of(table))
            if bad == SOUND_RING:
                continue
            for _ in range(30):
                other = any_table(chance, 8)
                card = card_of([table[place] if place in bad else other[place] for place in range(8)])
                self.assertEqual(told(tiedraw.check, card), BROKEN_RING)
                self.assertLessEqual(len(tiedraw.bad_places(card)), len(bad))
                tried += 1
        self.assertGreater(tried, 2_000)


class Refusing(unittest.TestCase):
    def test_what_read_refuses_is_refused_alike(self):
        for number, card in [
            (1, ""),
            (1, "05 02 00 01 02"),
            (2, "05 09"),
            (2, "05 02 00 01 02 04"),
            (3, "08 01"),
            (3, "04 03 05 09 0d 01 06 0b 0f 04 00 08 0e 0a 07 02 0c"),
            (4, "01 03"),
            (5, "05 02 00 01 02 03 00"),
            (5, "05 02 01 02 03 00 00"),
            (6, "07 02 1c 00 01 02 03"),
            (6, "27 02 02 01 02 03 00 04 00 00 00"),
        ]:
            card = bytes.fromhex(card)
            self.assertEqual((told(tiedraw.bad_places, card), told(tiedraw.read, card)), (number, number), card)
            self.assertEqual(answered(card), (number, 0, [0] * MOST_BAD_PLACES))

    def test_a_ring_is_26_whatever_check_tells(self):
        for verdict, card in [
            (None, "00"),
            (8, "27 02 02 01 02 03 00 02 00 00 00"),
            (8, "38 02 03 02 00 00 00"),
            (9, "08 02"),
            (9, "10 03"),
        ]:
            card = bytes.fromhex(card)
            self.assertEqual((told(tiedraw.check, card), told(tiedraw.bad_places, card)), (verdict, SOUND_RING))
            self.assertEqual(answered(card), (SOUND_RING, 0, [0] * MOST_BAD_PLACES))

    def test_a_broken_ring_has_its_places_whatever_else_is_wrong(self):
        for card in ("05 02 02 03 01 01", "27 02 02 02 03 01 01 02 00 00 00", "1d 02 02 03 01 01 02 01"):
            self.assertEqual(tiedraw.bad_places(bytes.fromhex(card)), (1, 3))

    def test_it_tells_number_and_trade_word(self):
        with self.assertRaises(Refused) as caught:
            tiedraw.bad_places(b"\0")
        message = "refusal 26 (sound ring): bad places are asked of a table that is a single cycle"
        self.assertEqual((caught.exception.refusal, str(caught.exception)), (SOUND_RING, message))
        self.assertEqual(MOST_BAD_PLACES, 128)


if __name__ == "__main__":
    unittest.main()
