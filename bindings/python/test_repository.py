"""What stands in several files of the repository is the same in each: refusals, versions, bounds."""

import pathlib
import re
import unittest

import tiedraw
from tiedraw import Refusal
from tiedraw._text import hex_bytes

ROOT = pathlib.Path(__file__).resolve().parents[2]


def text(file):
    return (ROOT / file).read_text(encoding="utf-8")


def rust():
    return "\n".join(file.read_text(encoding="utf-8") for file in sorted((ROOT / "bindings/rust/src").rglob("*.rs")))


def shout(name):
    """camelCase and snake_case as SHOUTED_CASE."""
    return re.sub(r"(?<=[a-z])(?=[A-Z])", "_", name).upper()


class Refusals(unittest.TestCase):
    here = [(refusal.name, refusal.value, refusal.trade_word) for refusal in Refusal]

    def test_the_header(self):
        header = re.findall(r"TIEDRAW_(\w+) = (\d+),? +/\* ([a-z ]+):", text("include/tiedraw.h"))
        self.assertEqual([(name, int(number), word) for name, number, word in header], self.here)

    def test_the_code(self):
        variants = re.findall(r"    // ([a-z ]+)\n    (\w+)(?: = 1)?,\n", text("crates/refusals/src/lib.rt"))
        self.assertEqual([(shout(name), number, word) for number, (word, name) in enumerate(variants, 1)], self.here)

    def test_the_definitions(self):
        defined = re.findall(r"\nnumber (\w+) = (\d+) +-- ([a-z ]+)(?=\n)", text("crates/refusals/specs/Refusals.antt"))
        self.assertEqual([(shout(name), int(number), word) for name, number, word in defined], self.here)

    def test_rust(self):
        rows = re.findall(r'    \((\w+), "([a-z ]+)", "(.*)"\),', text("bindings/rust/src/refusal.rs"))
        shouted = [(shout(name), word, when) for name, word, when in rows]
        self.assertEqual(shouted, [(refusal.name, refusal.trade_word, refusal.when) for refusal in Refusal])

    def test_the_table_for_operators(self):
        rows = re.findall(r"^\| ([\d, ]+) \| ([a-z, ]+) \|", text("docs/OPERATING.md"), re.MULTILINE)
        told = [pair for numbers, words in rows for pair in zip(map(int, numbers.split(", ")), words.split(", "))]
        self.assertEqual(sorted(told), [(number, word) for _, number, word in self.here])


class Versions(unittest.TestCase):
    def same(self, file, pattern):
        with self.subTest(file):
            self.assertEqual(".".join(re.findall(pattern, text(file), re.MULTILINE)), tiedraw.__version__)

    def test_the_version_is_the_same_everywhere(self):
        self.same("VERSION", r"^(.+)$")
        self.same("include/tiedraw.h", r"^#define TIEDRAW_VERSION_(?:MAJOR|MINOR|PATCH) (\d+)$")
        self.same("crates/version/specs/Version.antt", r"^version_(?:major|minor|patch) = (\d+)$")
        self.same("crates/version/src/lib.rt", r"^const (?:MAJOR|MINOR|PATCH): u32 = (\d+);$")
        self.same("bindings/rust/Cargo.toml", r'^version = "(.+)"$')

    def test_the_library_that_is_loaded_is_of_this_version(self):
        self.assertEqual(tiedraw.library_version(), tiedraw.__version__)


class Bounds(unittest.TestCase):
    names = ["MOST_WORDS", "MOST_SHOVELS", "MOST_CARD_BYTES", "MOST_TAKEN", "MOST_STRIP_WORDS", "MOST_COORDINATE", "MOST_RADIUS"]

    def same(self, number, found):
        self.assertEqual(found, [str(number)])

    def test_the_header(self):
        for name in self.names:
            self.same(getattr(tiedraw, name), re.findall(rf"#define TIEDRAW_{name} (\d+)\n", text("include/tiedraw.h")))

    def test_the_definitions(self):
        self.same(tiedraw.MOST_WORDS, re.findall(r"\nmost_words = (\d+)\n", text("crates/tsc/specs/Constants.antt")))
        self.same(tiedraw.MOST_SHOVELS, re.findall(r"\nmost_shovels = (\d+)\n", text("crates/ties/specs/Ties.antt")))
        self.same(tiedraw.MOST_CARD_BYTES, re.findall(r"\nmost_card_bytes = (\d+)\n", text("crates/card_format/specs/Fields.antt")))
        self.same(tiedraw.MOST_TAKEN, re.findall(r"\nmost_taken = (\d+)\n", text("crates/samples/specs/Samples.antt")))
        self.same(tiedraw.MOST_STRIP_WORDS, re.findall(r"\nmost_strip_words = (\d+)\n", text("crates/bit_strip/specs/Strip.antt")))
        self.same(tiedraw.MOST_COORDINATE, re.findall(r"\nmost_coordinate = (\d+)\n", text("crates/places/specs/Places.antt")))
        self.same(tiedraw.MOST_RADIUS, re.findall(r"\nmost_radius = (\d+)\n", text("crates/places/specs/Places.antt")))

    def test_rust(self):
        for name in self.names:
            self.same(getattr(tiedraw, name), re.findall(rf"pub const {name}: \w+ = (\d+);", rust()))

    def test_a_record_has_as_many_bytes_as_its_words_take(self):
        sum_of = r"8 \+ 4 \* (?:TIEDRAW_)?MOST_WORDS"
        self.assertEqual(tiedraw.MOST_RECORD_BYTES, 8 + 4 * tiedraw.MOST_WORDS)
        self.assertRegex(text("include/tiedraw.h"), rf"#define TIEDRAW_MOST_RECORD_BYTES \({sum_of}\)\n")
        self.assertRegex(rust(), rf"pub const MOST_RECORD_BYTES: usize = {sum_of};")

    def test_half_the_places_of_a_table_may_be_bad(self):
        self.assertEqual(tiedraw.MOST_BAD_PLACES, 2**tiedraw.MOST_WORDS // 2)
        self.assertRegex(text("include/tiedraw.h"), r"#define TIEDRAW_MOST_BAD_PLACES \(TIEDRAW_TABLE_SIZE / 2\)\n")
        self.assertRegex(rust(), r"pub const MOST_BAD_PLACES: usize = TABLE_SIZE / 2;")


class Cards(unittest.TestCase):
    def test_the_cards_are_read_by_the_command_line(self):
        for file in sorted((ROOT / "cards").glob("*.hex")):
            tiedraw.check(hex_bytes(f"@{file}"))

    def test_the_card_of_eight_words_is_made_by_its_seed(self):
        self.assertEqual(hex_bytes(f"@{ROOT / 'cards/eight.hex'}"), tiedraw.new_card(8, seed="eight"))


if __name__ == "__main__":
    unittest.main()
