"""A Generator is a value: it compares, prints, copies and travels; and threads may share it."""

import copy
import pickle
import threading
import unittest
import weakref

import tiedraw
from tiedraw import Generator

PROGRAM = bytes.fromhex("27 02 02 01 02 03 00 01 00 00 00")


class Slower(Generator):
    """A kind of Generator that somebody else made."""


class Value(unittest.TestCase):
    def test_equal_where_card_and_state_are(self):
        desk, standby = Generator(PROGRAM, [0, 0]), Generator(list(PROGRAM), (0, 0))
        self.assertEqual(desk, standby)
        desk.draw()
        self.assertNotEqual(desk, standby)
        standby.step()
        self.assertEqual(desk, standby)
        self.assertNotEqual(desk, desk.state)
        self.assertRaises(TypeError, hash, desk)

    def test_other_cards_are_not_equal(self):
        self.assertNotEqual(Generator(b"\0", [0] * 4), Generator(bytes.fromhex("02 1d"), [0] * 4))

    def test_printed_it_can_be_made_again(self):
        desk = Generator(PROGRAM, [2, 3])
        self.assertEqual(repr(desk), "Generator(bytes.fromhex('27 02 02 01 02 03 00 01 00 00 00'), (2, 3))")
        self.assertEqual(eval(repr(desk), dict(vars(tiedraw))), desk)

    def test_copies_go_on_by_themselves(self):
        for kind in (Generator, Slower):
            desk = kind(b"\0", [1, 2, 3, 4])
            desk.draw()
            for again in [copy.copy(desk), copy.deepcopy(desk), pickle.loads(pickle.dumps(desk))]:
                self.assertEqual((again, type(again)), (desk, kind))
                before = desk.state
                word = again.draw()
                self.assertEqual(desk.state, before)
                self.assertNotEqual(again, desk)
                self.assertEqual(tiedraw.draw(b"\0", before), (word, again.state))

    def test_what_was_lent_is_copied(self):
        card, state = bytearray(PROGRAM), [0, 0]
        desk = Generator(card, state)
        card[:], state[0] = b"\xff" * len(card), 3
        desk.draw()
        self.assertEqual((desk.card, desk.state, state), (PROGRAM, (1, 2), [3, 0]))
        for name in ("card", "state"):
            self.assertRaises(AttributeError, setattr, desk, name, b"\0")
        self.assertIs(weakref.ref(desk)(), desk)

    def test_it_passes_through_all_states(self):
        desk = Generator(PROGRAM, [0, 0])
        seen = set()
        for _ in range(16):
            seen.add(desk.state)
            desk.step()
        self.assertEqual((len(seen), desk.state), (16, (0, 0)))


class Threads(unittest.TestCase):
    def run_in_two(self, work):
        results = [[], []]
        threads = [threading.Thread(target=work, args=(result,)) for result in results]
        for thread in threads:
            thread.start()
        for thread in threads:
            thread.join()
        return results[0] + results[1]

    def same(self, found, wanted):
        """In any order. Unequal lists are not printed: comparing such long ones takes hours."""
        self.assertTrue(sorted(found) == sorted(wanted), "threads lose draws, or draw one twice")

    def test_two_threads_draw_what_one_would(self):
        shared, alone, count = Generator(b"\0", [0] * 4), Generator(b"\0", [0] * 4), 20_000
        drawn = self.run_in_two(lambda result: result.extend(shared.draw() for _ in range(count)))
        self.same(drawn, [alone.draw() for _ in range(2 * count)])
        self.assertEqual(shared, alone)

    def test_two_threads_pick_what_one_would(self):
        shared, alone, count = Generator(b"\0", [0] * 4), Generator(b"\0", [0] * 4), 5_000
        times = {shovel: 300 for shovel in range(64)}
        picked = self.run_in_two(lambda result: result.extend(shared.pick(times) for _ in range(count)))
        self.same(picked, [alone.pick(times) for _ in range(2 * count)])
        self.assertEqual(shared, alone)

    def test_a_state_is_seen_between_draws(self):
        shared, alone = Generator(b"\0", [0] * 4), Generator(b"\0", [0] * 4)
        orbit = {alone.state}
        for _ in range(10_000):
            alone.step()
            orbit.add(alone.state)

        def watch(result):
            for _ in range(5_000):
                shared.step()
                result.append(shared.state)

        self.assertTrue(orbit.issuperset(self.run_in_two(watch)))
        self.assertEqual(shared, alone)


if __name__ == "__main__":
    unittest.main()
