"""Document 02, Two: fair ranks. Words that would favour the lower numbers are passed over, and a pick tells how many it took."""

import collections
import itertools
import random
import unittest

import tiedraw
from papers import cases, numbers
from tiedraw import MOST_SHOVELS, MOST_TAKEN, MOST_WORDS, Generator, Refusal, Refused

PROGRAM = bytes.fromhex("27 02 02 01 02 03 00 01 00 00 00")
RUNS = bytes.fromhex("e7 02 06 01 02 03 00 31 00 00 00 02 00")  # from 39, 19 on, sixteen words of 33 and more


def told(call, *arguments):
    """What a call answers, or the number by which it refuses."""
    try:
        return call(*arguments)
    except Refused as refused:
        return refused.number


def equal(count):
    """Shovels 1 to count, all equally near."""
    return dict.fromkeys(range(1, count + 1), 300)


def limit(width, ties):
    """L: the largest multiple of the number of ties that is not above 2^width."""
    return 2**width - 2**width % ties


def reckoned(desk, times):
    """A pick by the rule of document 02, from single draws."""
    tied = sorted(shovel for shovel, time in times.items() if time == min(times.values()))
    width, ties = tiedraw.read(desk.card).width, len(tied)
    if ties == 1:
        return tied[0], 1, 0
    if ties > 2**width:
        return Refusal.TOO_MANY_TIES
    for taken in range(1, 17):
        word = desk.draw()
        if word < limit(width, ties):
            break
    return tied[word % ties], ties, taken


def any_card(chance):
    """An accepted card, of narrow words as often as not."""
    width = chance.choice([chance.randint(2, 7), chance.randint(8, 32)])
    card = tiedraw.new_card(chance.randint(2, MOST_WORDS), width, chance.randint(1, 2), str(chance.random()))
    odd, even, sum_term = 2 * chance.randint(0, 5) + 1, 2 * chance.randint(0, 5), chance.randint(0, 1)
    return tiedraw.write(tiedraw.read(card)._replace(odd_power=odd, even_power=even, sum_term=sum_term))


def any_times(chance, width):
    """Shovels in any order, with up to one tie more than there are words."""
    ties = chance.randint(1, min(2**width + 1, MOST_SHOVELS))
    shovels = chance.sample(range(2**16), chance.randint(ties, MOST_SHOVELS))
    near = set(chance.sample(shovels, ties))
    return {shovel: 300 if shovel in near else chance.randint(301, 2**32 - 1) for shovel in shovels}


def situations(count):
    """Generators and lists of shovels, by chance."""
    chance = random.Random(2)
    for _ in range(count):
        card = any_card(chance)
        values = tiedraw.read(card)
        state = [chance.getrandbits(values.width) for _ in range(values.words)]
        yield Generator(card, state), any_times(chance, values.width)


class Papers(unittest.TestCase):
    def test_cases(self):
        for card, state, lists, answer in cases("pick"):
            if not isinstance(answer, int):
                choice = tuple(int(answer[name]) for name in tiedraw.Choice._fields)
                answer = choice, tuple(numbers(answer["state"], 16))
            self.assertEqual(told(tiedraw.pick, card, state, *map(numbers, lists)), answer, (card, state, lists))
        self.assertIn(Refusal.TOO_MANY_TIES, [answer for *_, answer in cases("pick")])

    def test_a_choice_has_names(self):
        choice = Generator(PROGRAM, [2, 3]).pick({5: 60, 8: 60, 9: 60})
        self.assertEqual(repr(choice), "Choice(shovel=9, ties=3, taken=2)")


class Taken(unittest.TestCase):
    def test_words_are_passed_over(self):
        self.assertEqual(list(Generator(PROGRAM, [1, 3]).words(4)), [3, 3, 3, 1])
        desk = Generator(PROGRAM, [1, 3])
        self.assertEqual((desk.pick({5: 60, 8: 60, 9: 60}), desk.state), ((8, 3, 4), (3, 3)))

    def test_the_sixteenth_serves_whatever_it_is(self):
        words = Generator(RUNS, [0x39, 0x19]).words(MOST_TAKEN)
        self.assertTrue(min(words) >= limit(6, 33) and words[-1] == 33 + 7)
        desk = Generator(RUNS, [0x39, 0x19])
        self.assertEqual((desk.pick(equal(33)), desk.state), ((8, 33, 16), (0x3D, 0x1D)))

    def as_reckoned(self, desk, times):
        """Answer and state are as reckoned from draws. How many words were taken, or the refusal."""
        single = Generator(desk.card, desk.state)
        answer = told(desk.pick, times)
        self.assertEqual((answer, desk), (reckoned(single, times), single), times)
        return f"refusal {answer}" if isinstance(answer, int) else answer.taken

    def test_picks_by_chance_are_as_reckoned(self):
        taken = {self.as_reckoned(desk, times) for desk, times in situations(4_000)}
        self.assertTrue(taken >= {"refusal 18", 0, 1, 2, 3, 4}, taken)

    def test_picks_from_all_states_are_as_reckoned(self):
        states = itertools.product(range(2**6), repeat=2)
        taken = {self.as_reckoned(Generator(RUNS, state), equal(33)) for state in states}
        self.assertEqual(taken, {*range(1, MOST_TAKEN + 1)})

    def test_as_many_steps_back_take_a_pick_back(self):
        for desk, times in situations(1_000):
            before, answer = desk.state, told(desk.pick, times)
            for _ in range(0 if isinstance(answer, int) else answer.taken):
                desk.step_back()
            self.assertEqual(desk.state, before)

    def test_and_those_of_a_shift_the_shift(self):
        for card, start in [(PROGRAM, (2, 3)), (RUNS, (0x39, 0x19)), (b"\0", (1, 2, 3, 4))]:
            desk = Generator(card, start)
            for _ in range(sum(desk.pick(equal(1 + truck % 4)).taken for truck in range(400))):
                desk.step_back()
            self.assertEqual(desk.state, start)


class TooMany(unittest.TestCase):
    def test_as_many_as_there_are_words_and_one_more(self):
        for width in range(2, 6):
            desk = Generator(tiedraw.new_card(2, width, seed="crowd"), [1, 2])
            self.assertEqual(desk.pick(equal(2**width))[1:], (2**width, 1))
            before, many = desk.state, equal(2**width + 1)
            self.assertEqual(told(desk.pick, many), Refusal.TOO_MANY_TIES)
            self.assertEqual(told(tiedraw.pick, desk.card, before, [*many], many.values()), Refusal.TOO_MANY_TIES)
            self.assertEqual(desk.pick({**many, 0: 299})[1:], (1, 0))
            self.assertEqual(desk.state, before)

    def test_words_of_six_bits_are_enough_for_any_list(self):
        desk = Generator(RUNS, [0, 0])
        self.assertEqual(desk.pick(equal(MOST_SHOVELS))[1:], (MOST_SHOVELS, 1))


class Order(unittest.TestCase):
    def test_of_one_list(self):
        for shovels in itertools.permutations([5, 8, 9]):
            desk = Generator(PROGRAM, [2, 3])
            self.assertEqual((desk.pick(dict.fromkeys(shovels, 60)), desk.state), ((9, 3, 2), (2, 0)))

    def test_over_a_shift(self):
        chance = random.Random(3)
        for card, start, width in [(PROGRAM, (0, 0), 2), (RUNS, (0, 0), 6), (b"\0", (0, 0, 0, 0), 32)]:
            server, standby = Generator(card, start), Generator(card, start)
            for _ in range(1_000):
                times = any_times(chance, width)
                other = chance.sample(sorted(times.items()), len(times))
                self.assertEqual(told(server.pick, times), told(standby.pick, other))
            self.assertEqual(server, standby)


class Fair(unittest.TestCase):
    def test_first_words_send_as_many_trucks_to_each(self):
        """From each state of the orbit once: a word is that of 2^(width (words - 1)) states, and L / ties words give a rank."""
        for words, width, filter in itertools.product((2, 3), (2, 3), (1, 2)):
            card = tiedraw.new_card(words, width, filter, seed="fair")
            states = list(itertools.product(range(2**width), repeat=words))
            for ties in range(2, 2**width + 1):
                picks = [Generator(card, state).pick(equal(ties)) for state in states]
                sent = collections.Counter(choice.shovel for choice in picks if choice.taken == 1)
                each = limit(width, ties) // ties * 2 ** (width * (words - 1))
                self.assertEqual(sent, dict.fromkeys(equal(ties), each), (card, ties))


if __name__ == "__main__":
    unittest.main()
