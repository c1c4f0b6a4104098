"""Document 02, Seven: cab and desk. A tie in a recorded pick leaves a record; the desk reads all of it, the cab hears its shovel."""

import ctypes
import itertools
import pickle
import random
import threading
import unittest

import tiedraw
from papers import cases, from_hex, lines, numbers
from test_margin import REFUSED
from test_ranks import RUNS, any_card, any_times, told
from tiedraw import MOST_RECORD_BYTES, MOST_TAKEN, MOST_WORDS, Choice, Generator, Record, Recorded, Refusal, Refused, _library

PROGRAM = bytes.fromhex("27 02 02 01 02 03 00 01 00 00 00")
LEFT = bytes.fromhex("1f 02 01 04 00 02 01 02 00 00 00 00 00 00 00 00")  # by truck 258, of 4 and 7 that tie, from 0, 0
TORN, OTHER_TRUCK, SMALL_PAGE = Refusal.MALFORMED_RECORD, Refusal.TRUCK_MISMATCH, Refusal.BUFFER_TOO_SMALL


def low_first(number, size):
    return number.to_bytes(size, "little")


def written(record):
    """The bytes of a record, as document 02 has them."""
    state = None if record.state is None else bytes([len(record.state)]) + b"".join(low_first(word, 4) for word in record.state)
    ties, taken = (None if number is None else bytes([number]) for number in (record.ties, record.taken))
    fields = [low_first(record.truck, 2), low_first(record.shovel, 2), ties, taken, state]
    found = sum(1 << bit for bit, field in enumerate(fields) if field is not None)
    return bytes([found]) + b"".join(field for field in fields if field is not None)


def whole_records():
    """Each of the 8 sets of further fields, with states of 2 to 8 words; all of truck 513 and shovel 1027."""
    for lacking in itertools.product((False, True), repeat=3):
        for words in range(2, MOST_WORDS + 1):
            fields = [2 * words, 255 - words, tuple(0x01020304 * (k + words) % 2**32 for k in range(words))]
            yield Record(513, 1027, *(None if lacks else field for lacks, field in zip(lacking, fields)))


def situations(count):
    """Generators, trucks and lists that are not refused, by chance."""
    chance = random.Random(7)
    for _ in range(count):
        card = any_card(chance)
        values = tiedraw.read(card)
        state = [chance.getrandbits(values.width) for _ in range(values.words)]
        times = any_times(chance, values.width)
        if not isinstance(told(tiedraw.pick, card, state, [*times], times.values()), int):
            yield Generator(card, state), chance.getrandbits(16), times


class Papers(unittest.TestCase):
    def test_the_example(self):
        for times in [{7: 300, 4: 300}, {4: 300, 7: 300}, [(7, 300), (4, 300)]]:
            desk = Generator(PROGRAM, [0, 0])
            self.assertEqual((desk.pick_recorded(258, times), desk.state), (((4, 2, 1), LEFT), (1, 2)))
        self.assertEqual(tiedraw.read_record(LEFT), Record(258, 4, 2, 1, (0, 0)))
        self.assertEqual(tiedraw.order_for(258, LEFT), 4)

    def test_cases_of_recorded_picks(self):
        for card, state, (shovels, times, truck, room), answer in cases("recpick"):
            case = card, state, numbers(shovels), numbers(times), int(truck), int(room)
            if not isinstance(answer, int):
                choice = tuple(int(answer[name]) for name in Choice._fields)
                record = from_hex(answer["page"])[: 8 + 4 * len(state)] if choice[1] > 1 else None
                answer = (choice, record), tuple(numbers(answer["state"], 16))
            self.assertEqual(told(tiedraw.pick_recorded, *case), answer, case)

    def test_cases_of_the_desk(self):
        for (record,), answer in lines("desk"):
            if not isinstance(answer, int):
                state = answer.pop("state")
                fields = (None if number == "absent" else int(number) for number in answer.values())
                answer = (*fields, None if state == "absent" else tuple(numbers(state, 16)))
            self.assertEqual(told(tiedraw.read_record, from_hex(record)), answer, record)

    def test_cases_of_the_cab(self):
        for (truck, record), answer in lines("cab"):
            shovel_or_refusal = answer if isinstance(answer, int) else [int(answer["shovel"])]
            heard = told(lambda: [tiedraw.order_for(int(truck), from_hex(record))])
            self.assertEqual(heard, shovel_or_refusal, (truck, record))


class Picks(unittest.TestCase):
    def test_a_recorded_pick_is_the_pick_with_its_record(self):
        taken = set()
        for desk, truck, times in situations(2_000):
            before, standby = desk.state, Generator(desk.card, desk.state)
            choice, record = desk.pick_recorded(truck, times)
            self.assertEqual((choice, desk), (standby.pick(times), standby))
            whole = written(Record(truck, *choice, before)) if choice.ties > 1 else None
            self.assertEqual(record, whole, (desk.card, before, times))
            taken.add(choice.taken)
        self.assertTrue(taken >= {0, 1, 2, 3}, taken)

    def test_the_function_and_the_generator_agree(self):
        for desk, truck, times in situations(300):
            before, recorded = desk.state, desk.pick_recorded(truck, times)
            for room in (8 + 4 * len(before), MOST_RECORD_BYTES, 2**40):
                answer = tiedraw.pick_recorded(desk.card, before, [*times], times.values(), truck, room)
                self.assertEqual(answer, (recorded, desk.state))
            self.assertEqual((type(recorded), type(answer[0])), (Recorded, Recorded))

    def test_without_a_tie_there_is_none(self):
        desk = Generator(PROGRAM, [2, 3])
        for times in [{7: 300, 4: 299}, {7: 0}]:
            choice, record = desk.pick_recorded(258, times)
            self.assertEqual((choice.ties, choice.taken, record, desk.state), (1, 0, None, (2, 3)))

    def test_the_order_of_the_list_makes_no_difference(self):
        chance = random.Random(8)
        for desk, truck, times in situations(300):
            other, shuffled = Generator(desk.card, desk.state), chance.sample(sorted(times.items()), len(times))
            self.assertEqual((desk.pick_recorded(truck, times), desk), (other.pick_recorded(truck, shuffled), other))

    def test_trucks_and_shovels_at_the_edges(self):
        """From 0, 0 the lower of two is chosen, from 2, 3 the higher."""
        for truck, number in itertools.product((0, 255, 256, 65535), repeat=2):
            for state, other in [((0, 0), number + 1), ((2, 3), number - 1)]:
                if 0 <= other <= 65535:
                    choice, record = Generator(PROGRAM, state).pick_recorded(truck, {number: 0, other: 0})
                    self.assertEqual((choice.shovel, tiedraw.read_record(record)[:2]), (number, (truck, number)))
                    self.assertEqual(tiedraw.order_for(truck, record), number)

    def test_sixteen_words_taken_and_64_ties(self):
        choice, record = Generator(RUNS, [0x39, 0x19]).pick_recorded(1, dict.fromkeys(range(1, 34), 0))
        self.assertEqual(tiedraw.read_record(record), (1, 8, 33, MOST_TAKEN, (0x39, 0x19)))
        choice, record = Generator(RUNS, [0, 0]).pick_recorded(1, dict.fromkeys(range(64), 0))
        self.assertEqual(tiedraw.read_record(record).ties, 64)

    def test_answers_have_names_and_travel(self):
        recorded = Generator(PROGRAM, [0, 0]).pick_recorded(258, {7: 300, 4: 300})
        self.assertEqual(repr(recorded), f"Recorded(choice=Choice(shovel=4, ties=2, taken=1), record={LEFT!r})")
        record = tiedraw.read_record(recorded.record)
        self.assertEqual(repr(record), "Record(truck=258, shovel=4, ties=2, taken=1, state=(0, 0))")
        for answer in (recorded, record):
            again = pickle.loads(pickle.dumps(answer))
            self.assertEqual((again, type(again)), (answer, type(answer)))


class Desk(unittest.TestCase):
    def test_what_lacks_is_none_and_never_0(self):
        for record, fields in {
            "03 01 02 03 04": (513, 1027, None, None, None),
            "07 01 02 03 04 00": (513, 1027, 0, None, None),
            "0b 01 02 03 04 00": (513, 1027, None, 0, None),
            "13 01 02 03 04 02 00 00 00 00 00 00 00 00": (513, 1027, None, None, (0, 0)),
            "1b ff ff ff ff ff 02 01 02 03 04 ff fe fd fc": (65535, 65535, None, 255, (0x04030201, 0xFCFDFEFF)),
        }.items():
            self.assertEqual(tiedraw.read_record(bytes.fromhex(record)), fields)

    def test_each_set_of_fields(self):
        maps = set()
        for record in whole_records():
            found = tiedraw.read_record(written(record))
            self.assertEqual((found, type(found)), (record, Record))
            maps.add(written(record)[0])
        self.assertEqual(sorted(maps), [0x03, 0x07, 0x0B, 0x0F, 0x13, 0x17, 0x1B, 0x1F])

    def as_recorded(self, desk, truck, times):
        """A pick from the recorded state is the recorded one, and ends where that ended. How many bytes its record has."""
        choice, record = desk.pick_recorded(truck, times)
        if record is None:
            return 0
        found = tiedraw.read_record(record)
        again = Generator(desk.card, found.state)
        self.assertEqual((again.pick(times), again), (choice, desk))
        self.assertEqual(found[:4], (truck, *choice))
        return len(record)

    def test_the_desk_makes_the_pick_again(self):
        sizes = {self.as_recorded(*situation) for situation in situations(1_500)}
        self.assertEqual(sizes, {0, *range(16, MOST_RECORD_BYTES + 1, 4)})

    def test_eight_words_of_32_bits_over_a_shift(self):
        desk = Generator(tiedraw.new_card(8, seed="cab and desk"), range(8))
        for truck in range(300):
            self.assertEqual(self.as_recorded(desk, truck, dict.fromkeys(range(2 + truck % 63), 60)), MOST_RECORD_BYTES)


class Cab(unittest.TestCase):
    def test_a_cab_hears_the_same_whatever_else_a_record_holds(self):
        for record in whole_records():
            heard = [told(tiedraw.order_for, truck, written(record)) for truck in (513, 0, 1, 258, 512, 514, 1027, 65535)]
            self.assertEqual(heard, [1027] + [OTHER_TRUCK] * 7, record)

    def test_its_own_truck_alone(self):
        other = written(Record(258, 4, 9, 16, (0x04030201, 2**32 - 1, 7)))
        for record in (LEFT, other):
            heard = [truck for truck in range(2**16) if told(tiedraw.order_for, truck, record) != OTHER_TRUCK]
            self.assertEqual((heard, tiedraw.order_for(258, record)), ([258], 4))


class Torn(unittest.TestCase):
    def torn(self, record):
        """Told to the desk and to every cab: 20 comes before 21."""
        self.assertEqual(told(tiedraw.read_record, record), TORN, record)
        for truck in (513, 0, 258, 65535):
            self.assertEqual(told(tiedraw.order_for, truck, record), TORN, record)

    def test_one_of_each_kind(self):
        for record in [
            "",
            "03",
            "03 01 02 03",
            "03 01 02 03 04 00",
            "02 01 02 03 04",
            "01 01 02 03 04",
            "00",
            "23 01 02 03 04",
            "43 01 02 03 04",
            "83 01 02 03 04",
            "13 01 02 03 04",
            "13 01 02 03 04 01 00 00 00 00",
            "13 01 02 03 04 09" + " 00" * 36,
        ]:
            self.torn(bytes.fromhex(record))

    def test_lengths(self):
        for record in map(written, whole_records()):
            for length in range(len(record)):
                self.torn(record[:length])
            for more in (b"\0", b"\xff", bytes(40)):
                self.torn(record + more)
        self.torn(bytes(100_000))

    def test_maps(self):
        for record in (bytes.fromhex("03 01 02 03 04"), written(Record(513, 1027, 2, 1, (0, 0)))):
            for found in range(256):
                if found & 0x03 != 0x03 or found & 0xE0:
                    self.torn(bytes([found]) + record[1:])
                    self.torn(bytes([found]) + record[3:])

    def test_counts(self):
        for count in range(256):
            record = bytes.fromhex("13 01 02 03 04") + bytes([count]) + bytes(4 * count)
            if 2 <= count <= MOST_WORDS:
                self.assertEqual(tiedraw.read_record(record).state, (0,) * count)
            else:
                self.torn(record)


class Refusing(unittest.TestCase):
    def test_what_a_pick_refuses_comes_before_the_page(self):
        for number, case in REFUSED.items():
            for room in (0, 15, 16, MOST_RECORD_BYTES):
                self.assertEqual(told(tiedraw.pick_recorded, *case, 258, room), number)

    def test_a_page_that_is_too_small_tie_or_not(self):
        for words in range(2, MOST_WORDS + 1):
            card, needed = tiedraw.new_card(words, 5, seed="page"), 8 + 4 * words
            for times in ([300, 300], [300, 299]):
                case = card, [1] * words, [7, 4], times, 258
                for room in range(needed):
                    self.assertEqual(told(tiedraw.pick_recorded, *case, room), SMALL_PAGE)
                self.assertIsInstance(tiedraw.pick_recorded(*case, needed)[0], Recorded)

    def test_a_generator_stays_where_it_is(self):
        desk = Generator(PROGRAM, [0, 0])
        for number in (13, 14, 15, 18):
            _, _, shovels, times = REFUSED[number]
            self.assertEqual((told(desk.pick_recorded, 258, zip(shovels, times)), desk.state), (number, (0, 0)))

    def test_what_is_handed_over_is_not_changed(self):
        state, shovels, times, record = [0, 0], [7, 4], [300, 300], bytearray(LEFT)
        self.assertEqual(tiedraw.pick_recorded(PROGRAM, state, shovels, times, 258), (((4, 2, 1), LEFT), (1, 2)))
        self.assertEqual((state, shovels, times), ([0, 0], [7, 4], [300, 300]))
        tiedraw.read_record(record)
        self.assertEqual((tiedraw.order_for(258, record), record), (4, LEFT))

    def test_they_tell_number_and_trade_word(self):
        for call, arguments, message in [
            (tiedraw.read_record, (LEFT[1:],), "refusal 20 (torn): a record's map, state count or length is not of its form"),
            (tiedraw.order_for, (259, LEFT), "refusal 21 (other truck): the record is of another truck than the cab's"),
            (
                tiedraw.pick_recorded,
                (PROGRAM, [0, 0], [7], [300], 258, 15),
                "refusal 16 (small page): the page has fewer bytes than the card or the record needs",
            ),
        ]:
            with self.assertRaises(Refused) as caught:
                call(*arguments)
            self.assertEqual(str(caught.exception), message)


class Pages(unittest.TestCase):
    """The library's own call, on a page that can be looked at."""

    def left(self, times, room):
        """The refusal, the page and the state after a pick of 7 and 4 from 0, 0."""
        card, state, shovels = (ctypes.c_uint8 * 11)(*PROGRAM), (ctypes.c_uint32 * 2)(), (ctypes.c_uint16 * 2)(7, 4)
        page = (ctypes.c_uint8 * room)(*[0xA5] * room)
        lists = shovels, 2, (ctypes.c_uint32 * len(times))(*times), len(times)
        answer = _library.pick_recorded(card, 11, state, 2, *lists, 258, page, room)
        return answer.refusal, bytes(page), tuple(state)

    def test_bytes_past_the_record_are_untouched(self):
        for room in (16, 17, 60):
            self.assertEqual(self.left([300, 300], room), (0, LEFT + b"\xa5" * (room - 16), (1, 2)))

    def test_without_a_tie_all_of_it_is(self):
        for room in (16, 17, 60):
            self.assertEqual(self.left([300, 299], room), (0, b"\xa5" * room, (0, 0)))

    def test_a_refusal_leaves_page_and_state(self):
        for room in range(60):
            self.assertEqual(self.left([300], room), (12, b"\xa5" * room, (0, 0)))
        for times, room in itertools.product([[300, 300], [300, 299]], range(16)):
            self.assertEqual(self.left(times, room), (SMALL_PAGE, b"\xa5" * room, (0, 0)))


class Threads(unittest.TestCase):
    def test_two_threads_record_what_one_would(self):
        shared, alone, count = Generator(b"\0", [0] * 4), Generator(b"\0", [0] * 4), 5_000
        times, results = dict.fromkeys(range(64), 300), [[], []]
        work = [lambda result=result: result.extend(shared.pick_recorded(9, times) for _ in range(count)) for result in results]
        threads = [threading.Thread(target=part) for part in work]
        for thread in threads:
            thread.start()
        for thread in threads:
            thread.join()
        recorded = sorted(results[0] + results[1])
        self.assertTrue(recorded == sorted(alone.pick_recorded(9, times) for _ in range(2 * count)), "threads mix up records")
        self.assertEqual(shared, alone)

    def test_a_recorded_pick_waits_for_the_lock(self):
        desk, times, answers, begun = Generator(PROGRAM, [1, 2]), {4: 300, 7: 300}, [], threading.Event()
        thread = threading.Thread(target=lambda: (begun.set(), answers.append(desk.pick_recorded(258, times))))
        with desk._lock:
            thread.start()
            begun.wait()
            thread.join(0.05)
            self.assertEqual(answers, [])
            desk.step()
        thread.join()
        self.assertEqual(tiedraw.read_record(answers[0].record), (258, 7, 2, 1, (2, 3)))


if __name__ == "__main__":
    unittest.main()
