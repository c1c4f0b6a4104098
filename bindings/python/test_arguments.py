"""What can't be handed to the library is named with its place and value; what can is handed over whole."""

import array
import ctypes
import unittest

import tiedraw
from tiedraw import Values

PROGRAM = bytes.fromhex("27 02 02 01 02 03 00 01 00 00 00")
RECORD = bytes.fromhex("1f 02 01 04 00 02 01 02 00 00 00 00 00 00 00 00")


def for_truck(card, state, shovels, times):
    return tiedraw.pick_recorded(card, state, shovels, times, 258)


ON_LISTS = (tiedraw.pick, tiedraw.margin, for_truck)  # of shovels and times


class Index:
    """A whole number that is no int, as numpy has them."""

    def __init__(self, number):
        self.number = number

    def __index__(self):
        return self.number


class Misjudged(list):
    """A list that tells a wrong length."""

    def __len__(self):
        return 1


def on_times():
    """The calls of a Generator on the same lists."""
    desk = tiedraw.Generator(PROGRAM, [0, 0])
    return desk.pick, desk.margin, lambda times: desk.pick_recorded(258, times)


def by_map(card, state, shovels, coordinates):
    return tiedraw.pick_by_map(card, state, 0, 0, shovels, coordinates, coordinates)


def on_places():
    """The calls on places."""
    desk = tiedraw.Generator(PROGRAM, [0, 0])
    return lambda places: desk.pick_by_map(0, 0, places), lambda places: tiedraw.within(0, 0, 5, places)


def on_metres():
    """The calls that take a truck's place, each with one coordinate, or a radius, of theirs."""
    desk = tiedraw.Generator(PROGRAM, [0, 0])
    return {
        "x": [
            lambda x: desk.pick_by_map(x, 0, {7: (0, 0)}),
            lambda x: tiedraw.pick_by_map(PROGRAM, [0, 0], x, 0, [7], [0], [0]),
            lambda x: tiedraw.within(x, 0, 0, {7: (0, 0)}),
        ],
        "y": [
            lambda y: desk.pick_by_map(0, y, {7: (0, 0)}),
            lambda y: tiedraw.pick_by_map(PROGRAM, [0, 0], 0, y, [7], [0], [0]),
            lambda y: tiedraw.within(0, y, 0, {7: (0, 0)}),
        ],
        "radius": [lambda radius: tiedraw.within(0, 0, radius, {7: (0, 0)})],
        "xs[1]": [lambda x: tiedraw.pick_by_map(PROGRAM, [0, 0], 0, 0, [7, 4], [0, x], [0, 0])],
        "ys[0]": [lambda y: tiedraw.pick_by_map(PROGRAM, [0, 0], 0, 0, [7, 4], [0, 0], [y, 0])],
        "places[4][0]": [lambda x, call=call: call({7: (0, 0), 4: (x, 0)}) for call in on_places()],
        "places[0][1][1]": [lambda y, call=call: call([(7, (0, y)), (4, (0, 0))]) for call in on_places()],
    }


def on_trucks():
    """The calls that take a truck's number."""
    desk = tiedraw.Generator(PROGRAM, [0, 0])
    return (
        lambda truck: desk.pick_recorded(truck, {7: 300}),
        lambda truck: tiedraw.pick_recorded(PROGRAM, [0, 0], [7], [300], truck),
        lambda truck: tiedraw.order_for(truck, RECORD),
    )


class Named(unittest.TestCase):
    def told(self, kind, message, call, *arguments):
        with self.assertRaises(kind) as caught:
            call(*arguments)
        self.assertEqual((type(caught.exception), str(caught.exception)), (kind, message))

    def test_times_are_whole_seconds(self):
        for time in [300.5, 300.0, "300", None, True]:
            message = f"times[14]: {time!r} is not a whole number of seconds"
            for call in ON_LISTS:
                self.told(TypeError, message, call, PROGRAM, [0, 0], range(15), [1] * 14 + [time])
            for call in on_times():
                self.told(TypeError, message, call, {3: 1, 14: time})

    def test_times_by_shovel_or_by_place(self):
        for call in on_times():
            self.told(ValueError, "times[7]: -1 is negative", call, {4: 1, 7: -1})
            self.told(ValueError, "a key of times: 65536 is more than 16 bits", call, {65536: 1})
            self.told(TypeError, "a key of times: '7' is not a whole number", call, {"7": 1})
            self.told(ValueError, "times[1][0]: 65536 is more than 16 bits", call, [(4, 1), (65536, 1)])
            self.told(ValueError, "times[0][1]: 4294967296 is more than 32 bits", call, [(4, 2**32)])
            self.told(TypeError, "times[0][1]: 1.5 is not a whole number of seconds", call, iter([(4, 1.5)]))
            self.told(TypeError, "times[1]: 7 is not a pair of shovel and time", call, [(4, 1), 7])
            self.told(TypeError, "times[0]: (4, 1, 1) is not a pair of shovel and time", call, [(4, 1, 1)])
            self.told(TypeError, "times: 5 is not a mapping or pairs", call, 5)

    def test_entries_of_lists_by_place(self):
        for call in ON_LISTS:
            self.told(ValueError, "card[1]: -1 is negative", call, [0, -1], [0] * 4, [7], [1])
            self.told(ValueError, "state[1]: 4294967296 is more than 32 bits", call, PROGRAM, [0, 2**32], [7], [1])
            self.told(ValueError, "shovels[2]: 65536 is more than 16 bits", call, PROGRAM, [0, 0], [1, 2, 65536], [1] * 3)
            self.told(ValueError, "times[1]: -1 is negative", call, PROGRAM, [0, 0], [1, 2], [1, -1])

    def test_entries_by_place(self):
        self.told(ValueError, "state[1]: 4294967296 is more than 32 bits", tiedraw.draw, PROGRAM, [0, 2**32])
        self.told(ValueError, "state[1]: -1 is negative", tiedraw.Generator, PROGRAM, [0, -1])
        self.told(TypeError, "state[0]: 0.0 is not a whole number", tiedraw.step, PROGRAM, [0.0, 0])
        self.told(ValueError, "card[0]: 256 is more than 8 bits", tiedraw.check, [256])
        self.told(TypeError, "card[1]: '02' is not a whole number", tiedraw.read, [1, "02"])
        self.told(ValueError, "card[2]: 256 is more than 8 bits", tiedraw.bad_places, [5, 2, 256, 1, 2, 3])
        self.told(ValueError, "table[3]: 256 is more than 8 bits", tiedraw.write, Values(table=[0, 1, 2, 256]))

    def test_values_by_name(self):
        self.told(ValueError, "words: 260 is more than 8 bits", tiedraw.write, Values(words=260))
        self.told(ValueError, "width: 260 is more than 8 bits", tiedraw.write, Values(width=260))
        self.told(ValueError, "odd_power: -1 is negative", tiedraw.write, Values(odd_power=-1))
        self.told(ValueError, "constant: 4294967296 is more than 32 bits", tiedraw.write, Values(constant=2**32))
        self.told(TypeError, "sum_term: True is not a whole number", tiedraw.write, Values(sum_term=True))
        self.told(ValueError, "room: -1 is negative", tiedraw.write, Values(), -1)

    def test_trucks_are_whole_numbers_of_16_bits(self):
        for call in on_trucks():
            self.told(ValueError, "truck: 65536 is more than 16 bits", call, 65536)
            self.told(ValueError, f"truck: {2**64} is more than 16 bits", call, 2**64)
            self.told(ValueError, "truck: -1 is negative", call, -1)
            for thing in [258.0, "258", None, True, [258], b"\x02\x01"]:
                self.told(TypeError, f"truck: {thing!r} is not a whole number", call, thing)

    def test_the_room_of_a_record_is_a_whole_number(self):
        case = tiedraw.pick_recorded, PROGRAM, [0, 0], [7], [1], 258
        self.told(ValueError, "room: -1 is negative", *case, -1)
        self.told(ValueError, f"room: {2**64} is more than 64 bits", *case, 2**64)
        self.told(TypeError, "room: 16.0 is not a whole number", *case, 16.0)

    def test_records_are_bytes(self):
        for call in (tiedraw.read_record, lambda record: tiedraw.order_for(258, record)):
            self.told(ValueError, "record[1]: 256 is more than 8 bits", call, [3, 256])
            self.told(ValueError, "record[0]: -1 is negative", call, [-1])
            self.told(TypeError, "record[0]: True is not a whole number", call, [True])
            self.told(TypeError, "record: '03 01' is text; bytes.fromhex makes a record of it", call, "03 01")
            self.told(TypeError, "record: {3} is a set, which has no order", call, {3})
            self.told(TypeError, "record: None is not a row of numbers", call, None)

    def test_words_whose_bits_are_counted(self):
        self.told(ValueError, "words[1]: 4294967296 is more than 32 bits", tiedraw.bit_counts, b"\0", [0, 2**32])
        self.told(ValueError, "words[0]: -1 is negative", tiedraw.bit_counts, b"\0", [-1])
        self.told(TypeError, "words[0]: 1.0 is not a whole number", tiedraw.bit_counts, b"\0", [1.0])
        self.told(TypeError, "words: '01' is text; numbers are asked for", tiedraw.bit_counts, b"\0", "01")
        self.told(TypeError, "words: {0} is a set, which has no order", tiedraw.bit_counts, b"\0", {0})
        self.told(TypeError, "words: 5 is not a row of numbers", tiedraw.bit_counts, b"\0", 5)
        self.told(ValueError, "card[0]: 256 is more than 8 bits", tiedraw.bit_counts, [256], [0])
        self.told(ValueError, "room: -1 is negative", tiedraw.bit_counts, b"\0", [0], -1)
        self.told(TypeError, "room: 32.0 is not a whole number", tiedraw.bit_counts, b"\0", [0], 32.0)

    def test_metres_are_whole_numbers(self):
        for place, calls in on_metres().items():
            for call in calls:
                for thing in [5.0, "5", None, True, (5,)]:
                    self.told(TypeError, f"{place}: {thing!r} is not a whole number of metres", call, thing)

    def test_metres_of_any_width_are_off_the_map(self):
        for calls in on_metres().values():
            for call in calls:
                for number in [2**31, 2**32, 2**32 + 1, -(2**31) - 1, -(2**32), -(2**64), 10**30]:
                    with self.assertRaises(tiedraw.Refused) as caught:
                        call(number)
                    self.assertEqual(caught.exception.refusal, tiedraw.Refusal.OFF_MAP)

    def test_places_by_shovel_or_by_place(self):
        for call in on_places():
            self.told(ValueError, "a key of places: 65536 is more than 16 bits", call, {65536: (0, 0)})
            self.told(TypeError, "a key of places: '7' is not a whole number", call, {"7": (0, 0)})
            self.told(ValueError, "places[1][0]: -1 is negative", call, [(4, (0, 0)), (-1, (0, 0))])
            self.told(TypeError, "places[7]: 5 is not a pair of x and y", call, {4: (0, 0), 7: 5})
            self.told(TypeError, "places[7]: (1, 2, 3) is not a pair of x and y", call, {7: (1, 2, 3)})
            self.told(TypeError, "places[0][1]: None is not a pair of x and y", call, [(7, None)])
            self.told(TypeError, "places[1]: (7, 0, 0) is not a pair of shovel and place", call, iter([(4, (0, 0)), (7, 0, 0)]))
            self.told(TypeError, "places: 5 is not a mapping or pairs", call, 5)

    def test_rows_of_coordinates(self):
        self.told(TypeError, "xs: '00' is text; numbers are asked for", by_map, PROGRAM, [0, 0], [7, 4], "00")
        self.told(TypeError, "xs: {0} is a set, which has no order", by_map, PROGRAM, [0, 0], [7], {0})
        self.told(TypeError, "xs: {7: 0} is a dict, which has no order", by_map, PROGRAM, [0, 0], [7], {7: 0})
        self.told(TypeError, "xs: 5 is not a row of numbers", by_map, PROGRAM, [0, 0], [7], 5)
        self.told(ValueError, "shovels[0]: 65536 is more than 16 bits", by_map, PROGRAM, [0, 0], [65536], [0])

    def test_no_bool_is_a_number(self):
        self.told(TypeError, "card[0]: False is not a whole number", tiedraw.check, [False])
        self.told(TypeError, "state[1]: True is not a whole number", tiedraw.draw, PROGRAM, [0, True])
        for call in ON_LISTS:
            self.told(TypeError, "shovels[0]: True is not a whole number", call, PROGRAM, [0, 0], [True], [1])

    def test_text_is_no_card(self):
        for call in (tiedraw.check, tiedraw.read, tiedraw.bad_places):
            self.told(TypeError, "card: '27 02' is text; bytes.fromhex makes a card of it", call, "27 02")
        self.told(TypeError, "state: '0,0' is text; numbers are asked for", tiedraw.draw, PROGRAM, "0,0")
        for call in ON_LISTS:
            self.told(TypeError, "shovels: '4,7' is text; numbers are asked for", call, PROGRAM, [0, 0], "4,7", [1, 1])

    def test_what_has_no_order_is_no_row(self):
        self.told(TypeError, "state: {0} is a set, which has no order", tiedraw.draw, PROGRAM, {0})
        self.told(TypeError, "state: {0: 5} is a dict, which has no order", tiedraw.Generator, PROGRAM, {0: 5})
        for call in ON_LISTS:
            self.told(TypeError, "times: {7: 1} is a dict, which has no order", call, PROGRAM, [0, 0], [7], {7: 1})
            self.told(TypeError, "state: {0} is a set, which has no order", call, PROGRAM, {0}, [7], [1])
        self.told(TypeError, "card: 5 is not a row of numbers", tiedraw.check, 5)
        self.assertRaises(TypeError, tiedraw.write, Values(table={1: 2}))


class Rows(unittest.TestCase):
    def test_the_length_handed_over_is_that_of_the_copy(self):
        wide = array.array("L", list(PROGRAM))
        kept = (ctypes.c_uint16 * len(PROGRAM))(*PROGRAM)
        for card in [list(PROGRAM), bytearray(PROGRAM), wide, memoryview(wide), kept, Misjudged(PROGRAM)]:
            tiedraw.check(card)
            self.assertEqual(tiedraw.read(card).words, 2)
            self.assertEqual(tiedraw.draw(card, Misjudged([2, 3])), (3, (1, 1)))
            self.assertEqual(tiedraw.Generator(card, iter([0, 0])).card, PROGRAM)
        self.assertIsNone(tiedraw.check(map(Index, PROGRAM)))

    def test_lists_of_a_pick_may_be_iterables(self):
        times = {7: 300, 4: 300}
        answer = tiedraw.pick(iter(PROGRAM), iter([2, 3]), iter(times), times.values())
        self.assertEqual(answer, ((7, 2, 1), (1, 1)))
        answer = tiedraw.margin(iter(PROGRAM), iter([2, 3]), iter(times), times.values())
        self.assertEqual(answer, (4, False, 1, 4, 1, 0))
        (choice, _), after = tiedraw.pick_recorded(iter(PROGRAM), iter([2, 3]), iter(times), times.values(), 258)
        self.assertEqual((choice, after), ((7, 2, 1), (1, 1)))

    def test_records_of_any_kind(self):
        wide = array.array("L", list(RECORD))
        for kind in [bytes, list, bytearray, iter, memoryview, Misjudged, lambda numbers: map(Index, numbers)]:
            self.assertEqual(tiedraw.read_record(kind(RECORD)), (258, 4, 2, 1, (0, 0)))
            self.assertEqual(tiedraw.order_for(Index(258), kind(RECORD)), 4)
        for record in [wide, memoryview(wide)]:
            self.assertEqual(tiedraw.read_record(record), (258, 4, 2, 1, (0, 0)))

    def test_words_whose_bits_are_counted(self):
        wide = array.array("L", [0, 3, 2])
        for kind in [list, iter, bytes, Misjudged, lambda numbers: map(Index, numbers)]:
            self.assertEqual(tiedraw.bit_counts(kind(PROGRAM), kind([0, 3, 2]), Index(6)).bits, b"001110")
        for words in [wide, memoryview(wide)]:
            self.assertEqual(tiedraw.bit_counts(PROGRAM, words).bits, b"001110")

    def test_a_broken_card_of_any_kind(self):
        broken = [5, 2, 2, 3, 1, 1]
        for kind in [bytes, list, bytearray, iter, Misjudged, lambda numbers: map(Index, numbers)]:
            self.assertEqual(tiedraw.bad_places(kind(broken)), (1, 3))
        self.assertEqual(tiedraw.bad_places(array.array("L", broken)), (1, 3))

    def test_places_of_any_kind(self):
        wide = array.array("q", [3, -4])
        pairs = [(7, (3, -4)), (4, [-5, 0]), (9, wide), (2, iter([0, 5])), (Index(6), map(Index, [0, 6]))]
        for kind in [dict, iter, Misjudged]:
            pairs[3] = 2, iter([0, 5])
            pairs[4] = Index(6), map(Index, [0, 6])
            self.assertEqual(tiedraw.within(Index(0), Index(0), Index(5), kind(pairs)), [2, 4, 7, 9])
        for kind in [list, iter, tuple, Misjudged, lambda numbers: map(Index, numbers), lambda numbers: array.array("q", numbers)]:
            xs, ys = kind([3, -5, 0]), kind([-4, 0, 5])
            answer = tiedraw.pick_by_map(iter(PROGRAM), iter([2, 3]), Index(0), 0, iter([7, 4, 9]), xs, ys)
            self.assertEqual(answer, ((9, 3, 2), (2, 0)))

    def test_whole_numbers_of_other_kinds(self):
        desk = tiedraw.Generator(PROGRAM, [Index(2), Index(3)])
        times = {Index(7): Index(300), Index(4): Index(300)}
        self.assertEqual((desk.margin(times), desk.pick(times)), ((4, False, 1, 4, 1, 0), (7, 2, 1)))
        self.assertEqual(tiedraw.write(Values(width=Index(29))), bytes.fromhex("02 1d"))
        desk = tiedraw.Generator(PROGRAM, [0, 0])
        self.assertEqual(desk.pick_recorded(Index(258), times), ((4, 2, 1), RECORD))
        self.assertEqual(tiedraw.pick_recorded(PROGRAM, [0, 0], [4, 7], [1, 1], Index(258), Index(16))[0], ((4, 2, 1), RECORD))


if __name__ == "__main__":
    unittest.main()
