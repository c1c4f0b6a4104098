"""The picture of a card's table: its places around a circle, an arrow from each to its entry, the bad ones marked."""

import math
import pathlib
import random
import re
import subprocess
import sys
import tempfile
import unittest
from xml.etree import ElementTree

import tiedraw
from test_bad_places import any_table, card_of, cycles
from test_command import HERE, run
from test_ranks import told
from tiedraw import Values, _ring

PICTURES = pathlib.Path(__file__).resolve().parents[2] / "docs/pictures"
sys.path.append(str(PICTURES))

import pictures

SVG = "{http://www.w3.org/2000/svg}"
TSC2 = (5, 2, 11, 12, 13, 4, 3, 14, 15, 8, 1, 6, 7, 10, 9, 0)


def bad_places(table):
    """Of a single cycle none."""
    bad = told(tiedraw.bad_places, card_of(table))
    return () if bad == tiedraw.Refusal.SINGLE_CYCLE else bad


def tables():
    """Of every size: by chance, sound, and of places that lead to themselves; and two of the largest."""
    chance = random.Random(14)
    for words in range(2, 9):
        for _ in range(6 if words > 6 else 12):
            yield any_table(chance, 2**words)
        yield cycles(range(2**words))
        yield [*range(2**words)]
    yield [1, *[0] * 255]
    yield cycles(range(0, 256, 2), range(1, 256, 2))


class Drawn:
    """What a picture shows, as its elements say: of each place its point, whether it is bad, and its arrow's ends."""

    def __init__(self, table):
        self.text = _ring.picture(table, bad_places(table))
        self.root = ElementTree.fromstring(self.text)
        self.size = float(self.root.get("width")), float(self.root.get("height"))
        self.points, self.bad, self.reach = {}, [], {}
        for group in self.root.iter(f"{SVG}g"):
            place, entry = map(int, re.fullmatch(r"place (\d+): entry (\d+)", group.find(f"{SVG}title").text).groups())
            assert entry == table[place]
            self.add(place, group)
        paths = [path.get("d") for path in self.root.findall(f"{SVG}path")]
        self.arrows = dict(zip(self.points, paths))

    def add(self, place, group):
        circle, square = group.find(f"{SVG}circle"), group.find(f"{SVG}rect")
        if group.get("class") == "bad place":
            x, y, side = (float(square.get(name)) for name in ("x", "y", "width"))
            self.bad.append(place)
            self.points[place], self.reach[place] = (x + side / 2, y + side / 2), side / 2 * 2**0.5
        else:
            self.points[place] = float(circle.get("cx")), float(circle.get("cy"))
            self.reach[place] = float(circle.get("r"))
        assert group.find(f"{SVG}text").text == str(place)

    def titles(self):
        return [text.text for text in self.root.findall(f"{SVG}text")]

    def ends(self, place):
        """Where the arrow of a place begins and ends."""
        pairs = re.findall(r"([\d.-]+),([\d.-]+)", self.arrows[place])
        return [tuple(map(float, pair)) for pair in (pairs[0], pairs[-1])]


class Picture(unittest.TestCase):
    def test_the_bad_places_are_marked(self):
        counts = set()
        for table in tables():
            drawn, bad = Drawn(table), bad_places(table)
            self.assertEqual((sorted(drawn.points), sorted(drawn.bad)), ([*range(len(table))], [*bad]))
            counts.add(min(len(bad), 3))
        self.assertEqual(counts, {0, 1, 2, 3})

    def test_not_by_colour_alone(self):
        """A bad place is a square with a bold number; every other is a circle."""
        for group in Drawn([2, 3, 1, 1]).root.iter(f"{SVG}g"):
            bad = group.get("class") == "bad place"
            self.assertEqual(group.find(f"{SVG}rect") is not None, bad)
            self.assertEqual(group.find(f"{SVG}circle") is not None, not bad)
            self.assertEqual(group.find(f"{SVG}text").get("font-weight"), "bold" if bad else None)

    def test_arrows_lead_from_each_place_to_its_entry(self):
        for table in tables():
            drawn = Drawn(table)
            for place, entry in enumerate(table):
                start, end = drawn.ends(place)
                self.assertLess(math.dist(start, drawn.points[place]), drawn.reach[place] + 1)
                self.assertLess(math.dist(end, drawn.points[entry]), drawn.reach[entry] + 5)
                self.assertNotEqual(start, end)

    def test_everything_is_on_the_page_and_no_place_on_another(self):
        for table in tables():
            drawn = Drawn(table)
            for x, y in drawn.points.values():
                self.assertTrue(30 < x < drawn.size[0] - 30 and 60 < y < drawn.size[1] - 30, (x, y, drawn.size))
            around = [*drawn.points.items()]
            centre = [sum(point[axis] for _, point in around) / len(around) for axis in (0, 1)]
            around.sort(key=lambda item: math.atan2(item[1][1] - centre[1], item[1][0] - centre[0]))
            for (one, here), (other, there) in zip(around, around[1:] + around[:1]):
                apart = math.dist(here, there)
                self.assertGreater(apart, min(drawn.reach[one], drawn.reach[other]) * 2, (table, one, other))

    def test_a_sound_ring_looks_like_one(self):
        for table in (TSC2, Values().table, cycles(range(4)), cycles(range(256))):
            drawn, place = Drawn(table), 0
            step = math.dist(drawn.points[0], drawn.points[table[0]])
            for _ in table:
                self.assertIn(" L", drawn.arrows[place])
                self.assertAlmostEqual(math.dist(drawn.points[place], drawn.points[table[place]]), step, delta=0.3)
                place = table[place]
            self.assertEqual(place, 0)
            self.assertNotIn(_ring.BAD[1], re.sub("<defs>.*</defs>", "", drawn.text))

    def test_the_verdict_stands_above_it(self):
        for table, told, why in [
            ([0, 1, 2, 3], "broken ring (7): look at place 0", "place 0 leads to itself"),
            ([2, 3, 1, 1], "broken ring (7): look at places 1, 3", "places 1 and 3 lead to each other"),
            (pictures.TYPED, "broken ring (7): look at places 2, 4", "places 2 and 4 both lead to 13"),
            (TSC2, "sound ring: one cycle of 16", "every place comes up once, and then the first again"),
            (
                cycles([0, 5, 2], [1, 3, 4, 6, 7]),
                "broken ring (7): look at places 0, 2, 5",
                "3 places lead round among themselves, and 5 are left out",
            ),
            (
                cycles(range(128), range(128, 256)),
                "broken ring (7): look at the 128 marked places",
                "128 places lead round among themselves, and 128 are left out",
            ),
        ]:
            drawn = Drawn(table)
            self.assertEqual((drawn.root.find(f"{SVG}title").text, *drawn.titles()[:2]), (told, told, why))

    def test_what_is_reached_by_none_is_dashed(self):
        for table in ([2, 3, 1, 1], [1, 1, 1, 1], TSC2, pictures.TYPED):
            drawn = Drawn(table)
            dashed = [group for group in drawn.root.iter(f"{SVG}g") if any(part.get("stroke-dasharray") for part in group)]
            places = [int(group.find(f"{SVG}text").text) for group in dashed]
            self.assertEqual(sorted(places), sorted({*range(len(table))} - {*table}))
            self.assertEqual("no arrow leads here" in drawn.titles(), bool(places))

    def test_it_has_a_white_ground_and_is_the_same_each_time(self):
        for table in tables():
            drawn = Drawn(table)
            ground = drawn.root.find(f"{SVG}rect")
            self.assertEqual((ground.get("fill"), ground.get("width")), ("white", drawn.root.get("width")))
            self.assertEqual(drawn.text, _ring.picture(tuple(table), list(bad_places(table))))
            self.assertTrue(drawn.text.isascii() and drawn.text.endswith("</svg>\n"))

    def test_it_needs_no_library(self):
        load = "import runpy; print(runpy.run_path('tiedraw/_ring.py')['picture']([1, 0], [0, 1])[:4])"
        done = subprocess.run([sys.executable, "-B", "-c", load], cwd=HERE, capture_output=True, text=True)
        self.assertEqual((done.stdout, done.stderr), ("<svg\n", ""))


class Written(unittest.TestCase):
    def test_read_writes_it_of_every_card_that_is_read(self):
        for card, verdict in {
            "00": None,
            "05 02 02 03 01 01": 7,
            "27 02 02 01 02 03 00 02 00 00 00": 8,
            "08 02": 9,
            "1d 02 02 03 01 01 02 01": 7,
        }.items():
            with tempfile.TemporaryDirectory() as folder:
                file = pathlib.Path(folder, "ring.svg")
                done = run("read", card, "--picture", str(file))
                self.assertEqual((done.returncode, done.stderr), (0, ""))
                table = tiedraw.read(bytes.fromhex(card)).table
                self.assertEqual(file.read_text(encoding="utf-8"), _ring.picture(table, bad_places(table)))
                self.assertEqual(told(tiedraw.check, bytes.fromhex(card)), verdict)

    def test_that_of_the_documents_is_as_drawn(self):
        drawn = (PICTURES / "broken_ring.svg").read_text(encoding="utf-8")
        self.assertEqual(drawn, pictures.broken_ring())
        self.assertEqual(drawn, _ring.picture(pictures.TYPED, bad_places(pictures.TYPED)))


if __name__ == "__main__":
    unittest.main()
