"""Document 02, Four: how near it was. The smallest change of one time that would send the truck elsewhere; nothing is moved."""

import array
import itertools
import random
import threading
import unittest

import tiedraw
from papers import cases, numbers
from tiedraw import MOST_SHOVELS, MOST_WORDS, Generator, Margin, Refusal, Refused

PROGRAM = bytes.fromhex("27 02 02 01 02 03 00 01 00 00 00")
MOST = 2**32 - 1


def told(call, *arguments):
    """What a call answers, or the number by which it refuses."""
    try:
        return call(*arguments)
    except Refused as refused:
        return refused.number


def changed(times, shovel, raised, seconds):
    """The times after a change of one."""
    return {**times, shovel: times[shovel] + (seconds if raised else -seconds)}


def picked(card, state, times):
    """The choice of a pick from this state, or its refusal."""
    return told(Generator(card, state).pick, times)


def tried(card, state, times):
    """The first change that sends the truck elsewhere: every amount by pick, lower numbers first, lowered before raised.

    An amount of one more than the times are apart is as good as any larger one.
    """
    unchanged = picked(card, state, times)
    if isinstance(unchanged, int):
        return unchanged
    apart = max(times.values()) - min(times.values())
    for seconds, shovel, raised in itertools.product(range(1, apart + 2), sorted(times), (False, True)):
        other = changed(times, shovel, raised, seconds)
        if 0 <= other[shovel] <= MOST:
            choice = picked(card, state, other)
            if not isinstance(choice, int) and choice.shovel != unchanged.shovel:
                return (shovel, raised, seconds, *choice)
    return Refusal.NO_SUCH_CHANGE


def situations(count):
    """Cards of narrow words, states, and short lists of times that are close together, by chance; also at both ends of a time."""
    chance = random.Random(4)
    for _ in range(count):
        words, width = chance.randint(2, MOST_WORDS), chance.choice([2, 2, 3, 5, 32])
        card = tiedraw.new_card(words, width, chance.randint(1, 2), str(chance.random()))
        apart, shovels = chance.randint(0, 5), chance.sample(range(2**16), chance.randint(1, 7))
        least = chance.choice([0, 0, 300, MOST - apart])
        state = [chance.getrandbits(width) for _ in range(words)]
        yield card, state, {shovel: least + chance.randint(0, apart) for shovel in shovels}


def papers():
    """The cases of a margin in the papers: card, state, shovels and times, and the answer."""
    for card, state, lists, told in cases("margin"):
        if not isinstance(told, int):
            raised = "raised" in told
            seconds = told["raised" if raised else "lowered"]
            told = (int(told["change"]), raised, int(seconds), *(int(told[name]) for name in tiedraw.Choice._fields))
        yield (card, state, *map(numbers, lists)), told


class Papers(unittest.TestCase):
    def test_the_examples(self):
        for order in [(4, 7), (7, 4)]:
            near = {shovel: {4: 300, 7: 305}[shovel] for shovel in order}
            far = {shovel: {4: 0, 7: MOST}[shovel] for shovel in order}
            self.assertEqual(Generator(PROGRAM, [0, 0]).margin(near), (4, True, 6, 7, 1, 0))
            self.assertEqual(Generator(PROGRAM, [2, 3]).margin(near), (4, True, 5, 7, 2, 1))
            self.assertEqual(told(Generator(PROGRAM, [0, 0]).margin, far), Refusal.NO_SUCH_CHANGE)
        for state in itertools.product(range(4), repeat=2):
            self.assertEqual(told(Generator(PROGRAM, state).margin, {7: 300}), Refusal.NO_SUCH_CHANGE)

    def test_cases_by_the_function(self):
        answers = []
        for case, answer in papers():
            self.assertEqual(told(tiedraw.margin, *case), answer, case)
            answers.append(answer)
        self.assertTrue(Refusal.NO_SUCH_CHANGE in answers and any(isinstance(answer, tuple) for answer in answers))

    def test_cases_by_a_generator(self):
        for (card, state, shovels, times), answer in papers():
            if answer not in range(1, 13):
                desk = Generator(card, state)
                self.assertEqual(told(desk.margin, list(zip(shovels, times))), answer, (card, state, shovels, times))
                self.assertEqual(list(desk.state), state)

    def test_a_margin_has_names(self):
        margin = tiedraw.margin(PROGRAM, [2, 3], [4, 7], [300, 300])
        self.assertEqual(repr(margin), "Margin(changed=4, raised=False, seconds=1, shovel=4, ties=1, taken=0)")
        for margin in [margin, Generator(PROGRAM, [0, 0]).margin({4: 300, 7: 300})]:
            self.assertEqual((type(margin), type(margin.raised)), (Margin, bool))


class Smallest(unittest.TestCase):
    def as_tried(self, card, state, times):
        """The answer is the first change that serves. What kind it is: lowered or raised, or the refusal."""
        answer = told(Generator(card, state).margin, times)
        self.assertEqual(answer, tried(card, state, times), (card, state, times))
        return f"refusal {answer}" if isinstance(answer, int) else "raised" if answer.raised else "lowered"

    def test_lists_by_chance(self):
        kinds = {self.as_tried(*situation) for situation in situations(1_500)}
        self.assertEqual(kinds, {"lowered", "raised", "refusal 18", "refusal 19"})

    def test_short_lists_from_all_states(self):
        for state in itertools.product(range(4), repeat=2):
            for count in (1, 2, 3):
                for seconds in itertools.product(range(3), repeat=count):
                    self.as_tried(PROGRAM, state, dict(zip((4, 7, 9), seconds)))

    def test_the_told_change_gives_the_told_pick(self):
        for card, state, times in situations(600):
            margin = told(tiedraw.margin, card, state, [*times], times.values())
            if isinstance(margin, Margin):
                choice = picked(card, state, changed(times, *margin[:3]))
                self.assertEqual(choice, margin[3:], (card, state, times))
                self.assertNotEqual(choice.shovel, picked(card, state, times).shovel)

    def test_large_amounts(self):
        """From 0, 0 a tie of two goes to the lower number."""
        margin = Generator(PROGRAM, [0, 0]).margin
        self.assertEqual(margin({4: 0, 7: MOST - 1}), (4, True, MOST, 7, 1, 0))
        self.assertEqual(margin({4: MOST, 7: 0}), (4, False, MOST, 4, 2, 1))
        self.assertEqual(margin({4: 2**31, 7: MOST}), (7, False, 2**31, 7, 1, 0))


class Order(unittest.TestCase):
    def test_of_one_list(self):
        for shovels in itertools.permutations([(5, 60), (8, 61), (9, 61)]):
            self.assertEqual(Generator(PROGRAM, [1, 3]).margin(shovels), (5, True, 1, 8, 3, 4))

    def test_of_lists_by_chance(self):
        chance = random.Random(5)
        for card, state, times in situations(300):
            other = chance.sample(sorted(times.items()), len(times))
            self.assertEqual(told(Generator(card, state).margin, times), told(Generator(card, state).margin, other))


REFUSED = {
    1: (b"", [0, 0], [7], [300]),
    2: (b"\x01\x09", [0, 0], [7], [300]),
    3: (b"\x01\x04", [0, 0], [7], [300]),
    4: (b"\x01\x03", [0, 0], [7], [300]),
    5: (b"\x00\x00", [0, 0], [7], [300]),
    6: (b"\x02\x1c", [0, 0], [7], [300]),
    7: (bytes.fromhex("05 02 00 01 02 03"), [0, 0], [7], [300]),
    8: (bytes.fromhex("20 02 00 00 00"), [0, 0], [7], [300]),
    9: (b"\x08\x02", [0, 0], [7], [300]),
    10: (PROGRAM, [0], [7], [300]),
    11: (PROGRAM, [0, 4], [7], [300]),
    12: (PROGRAM, [0, 0], [7], [300, 300]),
    13: (PROGRAM, [0, 0], [], []),
    14: (PROGRAM, [0, 0], range(MOST_SHOVELS + 1), [300] * (MOST_SHOVELS + 1)),
    15: (PROGRAM, [0, 0], [7, 7], [300, 300]),
    18: (PROGRAM, [0, 0], range(6), [0] * 6),
}


class Refusing(unittest.TestCase):
    """Lists that no change of one time would help: one shovel, or six at 0 where five can't tie."""

    def test_what_a_pick_refuses_comes_first(self):
        for number, case in REFUSED.items():
            self.assertEqual((told(tiedraw.pick, *case), told(tiedraw.margin, *case)), (number, number))

    def test_a_generator_refuses_lists_in_the_same_way(self):
        desk = Generator(PROGRAM, [0, 0])
        for number in (13, 14, 15, 18):
            _, _, shovels, times = REFUSED[number]
            self.assertEqual(told(desk.margin, zip(shovels, times)), number)
        self.assertEqual(desk.state, (0, 0))

    def test_19_comes_last(self):
        for shovels, times in [([7], [300]), ([4, 7], [0, MOST]), (range(6), [0, 1, 1, 1, 1, 1])]:
            with self.assertRaises(Refused) as caught:
                tiedraw.margin(PROGRAM, [0, 0], shovels, times)
            self.assertIs(caught.exception.refusal, Refusal.NO_SUCH_CHANGE)
            self.assertEqual(tiedraw.pick(PROGRAM, [0, 0], shovels, times), ((shovels[0], 1, 0), (0, 0)))
        self.assertEqual(str(caught.exception), "refusal 19 (firm): no change of one shovel's time sends the truck elsewhere")


class Unmoved(unittest.TestCase):
    def test_the_state_of_a_generator(self):
        for card, state, times in situations(300):
            desk = Generator(card, state)
            first = told(desk.margin, times)
            self.assertEqual((told(desk.margin, times), desk), (first, Generator(card, state)))

    def test_what_is_handed_to_the_function(self):
        state, shovels, times = [2, 3], [7, 4], [305, 300]
        self.assertEqual(tiedraw.margin(PROGRAM, state, shovels, times), (4, True, 5, 7, 2, 1))
        self.assertEqual((state, shovels, times), ([2, 3], [7, 4], [305, 300]))

    def test_a_state_may_be_of_any_kind(self):
        words = array.array("I", [2, 3])
        for state in [(2, 3), bytes([2, 3]), range(2, 4), words, memoryview(words), memoryview(words).toreadonly()]:
            self.assertEqual(tiedraw.margin(PROGRAM, state, (4, 7), (300, 305)), (4, True, 5, 7, 2, 1))
        self.assertEqual(words, array.array("I", [2, 3]))


class Threads(unittest.TestCase):
    def test_a_margin_waits_for_the_lock(self):
        desk, times, answers, begun = Generator(PROGRAM, [1, 2]), {4: 300, 7: 305}, [], threading.Event()
        thread = threading.Thread(target=lambda: (begun.set(), answers.append(desk.margin(times))))
        with desk._lock:
            self.assertEqual(desk.margin(times), (4, True, 6, 7, 1, 0))  # whoever holds it may take it again
            thread.start()
            begun.wait()
            thread.join(0.05)
            self.assertEqual(answers, [])
            desk.step()
        thread.join()
        self.assertEqual((answers, desk.state), ([(4, True, 5, 7, 2, 1)], (2, 3)))


if __name__ == "__main__":
    unittest.main()
