"""Document 02, Ten: by the map when times are missing. The nearest by squared distance is picked; those within a radius are listed."""

import ctypes
import itertools
import pathlib
import random
import sys
import threading
import unittest

import tiedraw
from papers import cases, lines, numbers
from test_margin import REFUSED
from test_ranks import any_card, told
from tiedraw import MOST_COORDINATE, MOST_RADIUS, MOST_SHOVELS, Choice, Generator, Refusal, Refused, _library

PICTURES = pathlib.Path(__file__).resolve().parents[2] / "docs/pictures"
sys.path.append(str(PICTURES))

import pictures

PROGRAM = bytes.fromhex("27 02 02 01 02 03 00 01 00 00 00")
FAR = MOST_COORDINATE
OFF_MAP, TOO_MANY_TIES = Refusal.OFF_MAP, Refusal.TOO_MANY_TIES
CIRCLE = [(x, y) for x, y in itertools.product(range(-5, 6), repeat=2) if x * x + y * y == 25]  # twelve places
BEYOND = [FAR + 1, -FAR - 1, 2**31 - 1, -(2**31), -(2**31) - 1, 2**32, 10**30]


def squared_distance(x, y, place):
    return (place[0] - x) ** 2 + (place[1] - y) ** 2


def as_times(x, y, places):
    """Times with which a pick must answer the same: 0 for the nearest, 1 for all others."""
    far = {shovel: squared_distance(x, y, place) for shovel, place in places.items()}
    return {shovel: int(distance > min(far.values())) for shovel, distance in far.items()}


def reckoned(x, y, radius, places):
    """The shovels within the radius, by distance and then by number."""
    near = [(squared_distance(x, y, place), shovel) for shovel, place in places.items()]
    return [shovel for distance, shovel in sorted(near) if distance <= radius**2]


def around(x, y, offsets, first=1):
    """Shovels by number at these places around another."""
    return {shovel: (x + dx, y + dy) for shovel, (dx, dy) in enumerate(offsets, first)}


def situations(count, most=(2, 20, 2_000, FAR)):
    """A truck's place and those of up to 64 shovels, on small maps and on the whole one, by chance."""
    chance = random.Random(10)
    for _ in range(count):
        edge = chance.choice(most)
        shovels = chance.sample(range(2**16), chance.randint(1, MOST_SHOVELS))
        x, y, *coordinates = (chance.randint(-edge, edge) for _ in range(2 + 2 * len(shovels)))
        yield x, y, dict(zip(shovels, zip(coordinates[::2], coordinates[1::2])))


def placed(text):
    """X:Y, as the cases have it."""
    x, y = map(int, text.split(":"))
    return x, y


def apart(text):
    """The two rows of coordinates of a case's places."""
    places = [] if text == "-" else [placed(place) for place in text.split(",")]
    return [x for x, _ in places], [y for _, y in places]


def listed(x, y, radius, shovels, xs, ys):
    """The library's own answer: refusal, count, and all 64 numbers."""
    rows = (ctypes.c_uint16 * len(shovels))(*shovels), (ctypes.c_int32 * len(xs))(*xs), (ctypes.c_int32 * len(ys))(*ys)
    answer = _library.within(x, y, radius, *(argument for row in rows for argument in (row, len(row))))
    return answer.refusal, answer.count, list(answer.shovels)


class Papers(unittest.TestCase):
    def test_cases_of_picks(self):
        for card, state, (truck, shovels, places), answer in cases("mappick"):
            if not isinstance(answer, int):
                answer = tuple(int(answer[name]) for name in Choice._fields), tuple(numbers(answer["state"], 16))
            case = card, state, *placed(truck), numbers(shovels), *apart(places)
            self.assertEqual(told(tiedraw.pick_by_map, *case), answer, case)
        self.assertIn(OFF_MAP, [answer for *_, answer in cases("mappick")])

    def test_cases_of_lists(self):
        for (truck, radius, shovels, places), answer in lines("within"):
            expected = (answer, 0, [0] * MOST_SHOVELS)
            if not isinstance(answer, int):
                expected = 0, int(answer["count"]), numbers(answer["numbers"])
            case = *placed(truck), int(radius), numbers(shovels), *apart(places)
            self.assertEqual(listed(*case), expected, case)
        self.assertIn(OFF_MAP, [answer for _, answer in lines("within")])


class Picks(unittest.TestCase):
    def test_the_nearest_alone_moves_nothing(self):
        desk = Generator(PROGRAM, [2, 3])
        for nearest in range(1, 5):
            places = {**around(-3, 8, [(0, 6), (6, 0), (-6, 0), (0, -6)]), nearest: (1, 12)}  # 32, where the others have 36
            self.assertEqual((desk.pick_by_map(-3, 8, places), desk.state), ((nearest, 1, 0), (2, 3)))
        self.assertEqual(desk.pick_by_map(5, 5, {65535: (5, 5), 0: (5, 6)}), (65535, 1, 0))

    def test_equally_near_ones_go_by_rank_and_not_by_place(self):
        for places in itertools.permutations({5: (3, 4), 8: (-5, 0), 9: (0, -5), 2: (6, 0)}.items()):
            for kind in (dict, list, iter):
                desk = Generator(PROGRAM, [2, 3])
                self.assertEqual((desk.pick_by_map(0, 0, kind(places)), desk.state), ((9, 3, 2), (2, 0)))

    def test_all_places_on_a_circle(self):
        chance = random.Random(11)
        for x, y in [(0, 0), (-70, 900), (FAR - 5, 5 - FAR)]:
            places = {**around(x, y, CIRCLE, 100), **around(x, y, [(-5, 1), (-6, 0), (-4, 4)])}
            server, standby = Generator(b"\0", [1, 2, 3, 4]), Generator(b"\0", [1, 2, 3, 4])
            for _ in range(100):
                choice = server.pick_by_map(x, y, places)
                self.assertEqual(choice.ties, len(CIRCLE))
                self.assertEqual(standby.pick_by_map(x, y, chance.sample(sorted(places.items()), len(places))), choice)
            self.assertEqual(server, standby)

    def test_they_are_drawn_as_in_a_timed_pick(self):
        chance, ties = random.Random(12), set()
        for x, y, places in situations(3_000):
            card = any_card(chance)
            values = tiedraw.read(card)
            state = [chance.getrandbits(values.width) for _ in range(values.words)]
            desk, timed = Generator(card, state), Generator(card, state)
            answer = told(desk.pick_by_map, x, y, places)
            self.assertEqual((answer, desk), (told(timed.pick, as_times(x, y, places)), timed), (card, state, x, y, places))
            ties.add(answer if isinstance(answer, int) else min(answer.ties, 3))
        self.assertEqual(ties, {1, 2, 3, TOO_MANY_TIES})

    def test_both_kinds_of_pick_share_one_state(self):
        chance = random.Random(13)
        server, standby = Generator(b"\0", [5, 6, 7, 8]), Generator(b"\0", [5, 6, 7, 8])
        taken = 0
        for x, y, places in situations(1_000):
            by_map = chance.random() < 0.5
            choice = server.pick_by_map(x, y, places) if by_map else server.pick(as_times(x, y, places))
            self.assertEqual(standby.pick_by_map(x, y, reversed(places.items())), choice)
            taken += choice.taken
        self.assertEqual(server, standby)
        for _ in range(taken):
            server.step_back()
        self.assertEqual((server.state, taken > 100), ((5, 6, 7, 8), True))

    def test_the_function_and_the_generator_agree(self):
        desk = Generator(b"\0", [0] * 4)
        for x, y, places in situations(300):
            xs, ys = zip(*places.values())
            answer = tiedraw.pick_by_map(b"\0", desk.state, x, y, [*places], xs, ys)
            self.assertEqual(answer, (desk.pick_by_map(x, y, places), desk.state))
            self.assertEqual(type(answer[0]), Choice)

    def test_squared_distances_are_not_cut_off(self):
        desk = Generator(b"\0", [0] * 4)
        for x, y, nearest, other in [
            (-FAR, -FAR, (FAR, FAR - 1), (FAR, FAR)),
            (FAR, FAR, (1 - FAR, -FAR), (-FAR, -FAR)),
            (0, 0, (1, 0), (65_536, 0)),
            (0, 0, (1, 1), (65_536, 65_536)),
            (-50_000, 0, (-50_000, 131_071), (81_072, 0)),
            (0, 0, (0, 0), (32_768, 32_768)),
        ]:
            for places in ({7: nearest, 4: other}, {4: other, 7: nearest}):
                self.assertEqual(desk.pick_by_map(x, y, places), (7, 1, 0))

    def test_64_shovels_at_the_corners(self):
        places = dict(enumerate(list(itertools.product((-FAR, FAR), repeat=2)) * 16))
        desk, timed = Generator(b"\0", [0] * 4), Generator(b"\0", [0] * 4)
        for _ in range(100):
            choice = desk.pick_by_map(0, 0, places)
            self.assertEqual((choice, choice.ties), (timed.pick(dict.fromkeys(places, 300)), MOST_SHOVELS))


class Within(unittest.TestCase):
    def test_the_edge_is_counted(self):
        places = {4: (500, 500), 7: (-200, 400), 12: (800, -350), 21: (950, 500)}  # 500, 500, 750 and 850 m away
        for radius, near in {0: [], 499: [], 500: [4, 7], 749: [4, 7], 750: [4, 7, 12], 849: [4, 7, 12], 850: [4, 7, 12, 21]}.items():
            for order in itertools.permutations(places.items()):
                self.assertEqual(tiedraw.within(200, 100, radius, order), near)

    def test_a_radius_of_0_is_a_place(self):
        self.assertEqual(tiedraw.within(-3, 8, 0, {9: (-3, 8), 2: (-3, 9), 5: (-3, 8), 7: (-4, 8)}), [5, 9])

    def test_by_distance_and_then_by_number(self):
        chance, count = random.Random(14), 0
        for x, y, places in situations(3_000):
            edge = int(squared_distance(x, y, chance.choice([*places.values()])) ** 0.5)
            for radius in (0, edge, edge + 1, chance.randint(0, MOST_RADIUS)):
                near = reckoned(x, y, radius, places)
                self.assertEqual(tiedraw.within(x, y, radius, places), near, (x, y, radius, places))
                self.assertEqual(tiedraw.within(x, y, radius, reversed(places.items())), near)
                count += len(near)
        self.assertGreater(count, 10_000)

    def test_from_corner_to_corner(self):
        for x, y in itertools.product((-FAR, FAR), repeat=2):
            for radius, near in {2_828_427: [], 2_828_428: [9], MOST_RADIUS: [9]}.items():  # the root of 8 * 10^12 is 2828427.1
                self.assertEqual(tiedraw.within(x, y, radius, {9: (-x, -y)}), near)
            for radius, near in {1_999_999: [], 2_000_000: [9]}.items():
                self.assertEqual(tiedraw.within(x, y, radius, {9: (x, -y)}), near)

    def test_the_answer_has_zeros_past_the_count(self):
        every = list(range(MOST_SHOVELS, 0, -1))
        for count in (0, 1, 5, MOST_SHOVELS):
            xs = [0 if shovel <= count else 6 for shovel in every]
            answer = listed(0, 0, 5, every, xs, xs)
            self.assertEqual(answer, (0, count, [*range(1, count + 1)] + [0] * (MOST_SHOVELS - count)))

    def test_a_list_of_ints_is_answered(self):
        near = tiedraw.within(0, 0, 5, dict.fromkeys(range(MOST_SHOVELS), (3, 4)))
        self.assertEqual((near, type(near)), ([*range(MOST_SHOVELS)], list))


class Refusing(unittest.TestCase):
    """Whatever is refused by 1 to 15 here has places that are off the map as well."""

    def refused(self, number, card, state, shovels, xs, ys):
        """By a pick, whose state is as it was; and by a list where no card is at fault."""
        off = -(2**31)
        case = 2**31 - 1, off, shovels, [off] * xs, [off] * ys
        self.assertEqual(told(tiedraw.pick_by_map, card, state, *case), number, (card, state, shovels, xs, ys))
        if number > 11:
            for radius in (-1, 5):
                self.assertEqual(listed(*case[:2], radius, *case[2:]), (number, 0, [0] * MOST_SHOVELS))

    def test_card_and_state_come_first(self):
        for number in range(1, 12):
            card, state, *_ = REFUSED[number]
            for shovels, xs, ys in [([7], 1, 1), ([7], 0, 1), ([7, 7], 2, 2), ([], 0, 0)]:
                self.refused(number, card, state, shovels, xs, ys)

    def test_then_the_lists(self):
        many = [*range(1, MOST_SHOVELS + 1), 1]
        for shovels in ([], [7], [7, 7], many):
            for xs, ys in itertools.product((0, 1, 2, 64, 65, 66), repeat=2):
                if not len(shovels) == xs == ys:
                    self.refused(12, PROGRAM, [2, 3], shovels, xs, ys)
        self.refused(13, PROGRAM, [2, 3], [], 0, 0)
        self.refused(14, PROGRAM, [2, 3], many, 65, 65)
        self.refused(15, PROGRAM, [2, 3], [7, 4, 7], 3, 3)
        self.refused(25, PROGRAM, [2, 3], many[:-1], 64, 64)

    def test_a_generator_refuses_lists_in_the_same_way(self):
        desk = Generator(PROGRAM, [2, 3])
        for number, places in {
            13: [],
            14: [(shovel % 64, (FAR + 1, 0)) for shovel in range(65)],
            15: [(7, (FAR + 1, 0)), (4, (0, 0)), (7, (0, 0))],
            25: [(7, (FAR + 1, 0)), (4, (0, 0))],
        }.items():
            self.assertEqual(told(desk.pick_by_map, 0, 0, places), number)
            self.assertEqual(told(tiedraw.within, 0, 0, -1, places), number)
        self.assertEqual(desk.state, (2, 3))

    def test_each_coordinate_may_be_off_the_map(self):
        desk = Generator(PROGRAM, [2, 3])
        for place, coordinate in itertools.product(range(6), [*BEYOND, FAR, -FAR, 0]):
            x, y, x0, y0, x1, y1 = (coordinate if at == place else at for at in range(6))
            places = {4: (x0, y0), 7: (x1, y1)}
            answers = told(desk.pick_by_map, x, y, places), told(tiedraw.within, x, y, 7, places)
            self.assertEqual([answer == OFF_MAP for answer in answers], [coordinate in BEYOND] * 2, (x, y, places))
            if coordinate in BEYOND:
                self.assertEqual(told(tiedraw.pick_by_map, PROGRAM, desk.state, x, y, [4, 7], [x0, x1], [y0, y1]), OFF_MAP)

    def test_a_radius_too(self):
        for radius in (-1, MOST_RADIUS + 1, -MOST_RADIUS, *BEYOND[2:]):
            self.assertEqual(told(tiedraw.within, 0, 0, radius, {7: (0, 0)}), OFF_MAP)
        for radius in (0, 1, FAR + 1, MOST_RADIUS):
            self.assertEqual(tiedraw.within(0, 0, radius, {7: (0, 0)}), [7])

    def test_off_the_map_comes_before_too_many_ties(self):
        desk, places = Generator(PROGRAM, [2, 3]), around(0, 0, CIRCLE[:5])
        self.assertEqual(told(desk.pick_by_map, 0, 0, places), TOO_MANY_TIES)
        self.assertEqual(told(desk.pick_by_map, 0, FAR + 1, places), OFF_MAP)
        self.assertEqual(told(desk.pick_by_map, 0, 0, {**places, 100: (-FAR - 1, 0)}), OFF_MAP)
        self.assertEqual(desk.state, (2, 3))
        self.assertEqual(tiedraw.within(0, 0, 5, places), [1, 2, 3, 4, 5])  # no card, and so no 18

    def test_it_tells_number_and_trade_word(self):
        with self.assertRaises(Refused) as caught:
            tiedraw.within(0, 0, -1, {7: (0, 0)})
        limits = "a coordinate is outside -1,000,000 to 1,000,000, or the radius outside 0 to 3,000,000"
        self.assertEqual((caught.exception.refusal, str(caught.exception)), (OFF_MAP, f"refusal 25 (off map): {limits}"))
        self.assertEqual((MOST_COORDINATE, MOST_RADIUS), (1_000_000, 3_000_000))


class Picture(unittest.TestCase):
    def test_it_is_as_drawn(self):
        self.assertEqual((PICTURES / "by_map.svg").read_text(encoding="utf-8"), pictures.by_map())

    def test_it_shows_what_is_answered(self):
        desk = Generator(PROGRAM, [0, 0])
        self.assertEqual(desk.pick_by_map(*pictures.TRUCK, pictures.PLACES), (4, 2, 1))
        near = tiedraw.within(*pictures.TRUCK, pictures.RADIUS, pictures.PLACES)
        self.assertEqual((near, [*pictures.PLACES]), ([4, 7, 12], [4, 7, 12, 21]))
        self.assertEqual(tiedraw.within(*pictures.TRUCK, pictures.RADIUS - 1, pictures.PLACES), [4, 7])


class Threads(unittest.TestCase):
    def test_a_pick_by_the_map_waits_for_the_lock(self):
        desk, places, answers, begun = Generator(PROGRAM, [1, 2]), {4: (3, 4), 7: (-5, 0)}, [], threading.Event()
        thread = threading.Thread(target=lambda: (begun.set(), answers.append(desk.pick_by_map(0, 0, places))))
        with desk._lock:
            thread.start()
            begun.wait()
            thread.join(0.05)
            self.assertEqual(answers, [])
            desk.step()
        thread.join()
        self.assertEqual((answers, desk.state), ([(7, 2, 1)], (1, 1)))


if __name__ == "__main__":
    unittest.main()
