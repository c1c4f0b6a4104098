"""The examples of document 01, and what the library's calls answer, through the package."""

import array
import copy
import pickle
import unittest

import tiedraw
from tiedraw import Refusal, Refused, Values

PROGRAM = bytes.fromhex("27 02 02 01 02 03 00 01 00 00 00")
TSC2 = bytes.fromhex("74 05 02 0b 0c 0d 04 03 0e 0f 08 01 06 07 0a 09 00 00 01 00 00 00 02")


class Document(unittest.TestCase):
    def refused(self, refusal, call, *arguments):
        with self.assertRaises(Refused) as caught:
            call(*arguments)
        self.assertEqual((caught.exception.refusal, caught.exception.number), (refusal, refusal.value))

    def test_the_program_draws_as_printed(self):
        desk = tiedraw.Generator(PROGRAM, [0, 0])
        for state, word in [((1, 2), 0), ((2, 3), 0), ((1, 1), 3), ((2, 0), 2)]:
            self.assertEqual((desk.draw(), desk.state), (word, state))
        for state in [(1, 1), (2, 3), (1, 2), (0, 0)]:
            desk.step_back()
            self.assertEqual(desk.state, state)
        desk.step()
        self.assertEqual(desk.state, (1, 2))

    def test_tsc1(self):
        word, state = tiedraw.draw(b"\0", [0] * 4)
        self.assertEqual(state, (0xFFFFFFFF, 0x12488421, 0xEDB77BDE, 0xEDB77BDE))
        self.assertEqual(word, 0x0B857478)
        self.assertEqual(tiedraw.step(b"\0", [0] * 4), state)
        self.assertEqual(tiedraw.step_back(b"\0", state), (0, 0, 0, 0))
        self.assertEqual(tiedraw.write(Values()), b"\0")

    def test_a_tie_goes_by_rank_and_not_by_place(self):
        for numbers in [(7, 4), (4, 7)]:
            for kind in [dict, list, iter, set, lambda pairs: dict(pairs).items()]:
                for state, shovel, after in [((0, 0), 4, (1, 2)), ((2, 3), 7, (1, 1))]:
                    desk = tiedraw.Generator(PROGRAM, state)
                    self.assertEqual(desk.pick(kind([(number, 300) for number in numbers])), (shovel, 2, 1))
                    self.assertEqual(desk.state, after)
        self.assertEqual(tiedraw.pick(PROGRAM, [0, 0], [4, 7], [300, 299]), ((7, 1, 0), (0, 0)))

    def test_what_is_unsound_is_refused_and_changes_nothing(self):
        self.refused(Refusal.TRUNCATED, tiedraw.check, b"")
        self.refused(Refusal.NOT_SINGLE_CYCLE, tiedraw.check, bytes.fromhex("05 02 00 01 02 03"))
        self.refused(Refusal.WORD_COUNT, tiedraw.Generator, PROGRAM, [0])
        self.refused(Refusal.WORD_TOO_WIDE, tiedraw.Generator, PROGRAM, [0, 4])
        self.refused(Refusal.LENGTH_MISMATCH, tiedraw.pick, PROGRAM, [0, 0], [1], [])
        desk = tiedraw.Generator(PROGRAM, [2, 3])
        self.refused(Refusal.NO_SHOVEL, desk.pick, {})
        self.refused(Refusal.NO_SHOVEL, desk.pick, [])
        self.refused(Refusal.TOO_MANY_SHOVELS, desk.pick, {shovel: 1 for shovel in range(tiedraw.MOST_SHOVELS + 1)})
        self.refused(Refusal.DUPLICATE_SHOVEL, desk.pick, [(7, 300), (4, 200), (7, 300)])
        self.refused(Refusal.TOO_MANY_TIES, desk.pick, {shovel: 300 for shovel in range(5)})
        self.assertEqual(desk.state, (2, 3))

    def test_values_become_a_card(self):
        values = Values(words=2, width=2, table=[1, 2, 3, 0], constant=1)
        self.assertEqual(tiedraw.write(values), PROGRAM)
        self.assertEqual(tiedraw.write(values, 2**40), PROGRAM)
        self.refused(Refusal.BUFFER_TOO_SMALL, tiedraw.write, values, 10)
        self.refused(Refusal.BUFFER_TOO_SMALL, tiedraw.write, values, 0)
        self.refused(Refusal.OUT_OF_RANGE, tiedraw.write, Values(table=[0] * 257))

    def test_what_is_checked_is_what_is_kept(self):
        desk = tiedraw.Generator(array.array("H", [0]), array.array("L", [0] * 4))
        self.assertEqual((desk.card, desk.draw()), (b"\0", 0x0B857478))
        self.assertRaises(TypeError, tiedraw.Generator, PROGRAM, {0, 1})
        self.assertRaises(TypeError, tiedraw.Generator, PROGRAM, {0: 5, 1: 9})


class Reading(unittest.TestCase):
    def test_a_card_is_read(self):
        self.assertEqual(tiedraw.read(b"\0"), Values())
        self.assertEqual(tiedraw.read(PROGRAM), Values(words=2, width=2, table=(1, 2, 3, 0), constant=1))
        self.assertEqual(tiedraw.read(bytes.fromhex("80 00")), Values(sum_term=0))
        self.assertEqual(tiedraw.read(bytes.fromhex("18 ff fe")), Values(odd_power=255, even_power=254))

    def test_read_and_written_again(self):
        for card in [b"\0", PROGRAM, TSC2, bytes.fromhex("02 1d"), bytes.fromhex("08 03"), bytes.fromhex("10 00")]:
            values = tiedraw.read(card)
            self.assertEqual((tiedraw.write(values), len(values.table)), (card, 2**values.words))
            self.assertEqual(tiedraw.read(tiedraw.write(values)), values)

    def test_read_refuses_by_1_to_6_alone(self):
        for number, card in enumerate(["", "01 01", "08 01", "01 03", "00 00", "02 1c"], 1):
            with self.assertRaises(Refused) as caught:
                tiedraw.read(bytes.fromhex(card))
            self.assertEqual(caught.exception.number, number)
        for number, card in enumerate(["05 02 00 01 02 03", "20 02 00 00 00", "08 02"], 7):
            tiedraw.read(bytes.fromhex(card))
            with self.assertRaises(Refused) as caught:
                tiedraw.check(bytes.fromhex(card))
            self.assertEqual(caught.exception.number, number)


class Telling(unittest.TestCase):
    def test_a_refusal_tells_its_number_and_trade_word(self):
        with self.assertRaisesRegex(Refused, r"refusal 9 \(powers\): the odd power is even") as caught:
            tiedraw.check(bytes([8, 2]))
        for again in [pickle.loads(pickle.dumps(caught.exception)), copy.copy(caught.exception)]:
            self.assertEqual((again.refusal, str(again)), (Refusal.POWER_PARITY, str(caught.exception)))

    def test_an_unknown_number_is_told_as_such(self):
        unknown = Refused(29)
        for refused in [unknown, pickle.loads(pickle.dumps(unknown)), copy.copy(unknown)]:
            self.assertEqual((refused.number, refused.refusal), (29, None))
            self.assertEqual(str(refused), f"refusal 29: unknown to this binding, version {tiedraw.__version__}")

    def test_every_public_name_is_listed(self):
        self.assertEqual(sorted(set(tiedraw.__all__)), sorted(tiedraw.__all__))
        public = {name for name in vars(tiedraw) if not name.startswith("_")}
        self.assertEqual(public | {"__version__"}, set(tiedraw.__all__))
        self.assertEqual(tiedraw.library_version().rpartition(".")[0], tiedraw.__version__.rpartition(".")[0])


if __name__ == "__main__":
    unittest.main()
