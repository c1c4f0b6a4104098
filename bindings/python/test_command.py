"""The command line: what it prints, and its exit status."""

import os
import pathlib
import subprocess
import sys
import tempfile
import unittest

import tiedraw

HERE = pathlib.Path(__file__).resolve().parent
PROGRAM = "27 02 02 01 02 03 00 01 00 00 00"
BROKEN = "05 02 02 03 01 01"
RECORD = "1f 02 01 04 00 02 01 02 00 00 00 00 00 00 00 00"


def run(*arguments):
    return subprocess.run(
        [sys.executable, "-m", "tiedraw", *arguments], cwd=HERE, capture_output=True, text=True, encoding="utf-8"
    )


class Command(unittest.TestCase):
    def printed(self, *arguments):
        done = run(*arguments)
        self.assertEqual((done.returncode, done.stderr), (0, ""))
        return done.stdout.splitlines()

    def fails(self, status, message, *arguments):
        done = run(*arguments)
        self.assertEqual((done.returncode, done.stdout), (status, ""))
        self.assertIn(message, done.stderr)
        self.assertNotIn("Traceback", done.stderr)

    def test_check(self):
        for card in [PROGRAM, PROGRAM.replace(" ", "").upper(), f"# two words\n{PROGRAM} # and so on\n", "00"]:
            self.assertEqual(self.printed("check", card), ["accepted"])

    def test_read(self):
        self.assertEqual(
            self.printed("read", PROGRAM),
            ["words 2", "width 2", "table 1 2 3 0", "odd power 1", "even power 2", "constant 0x1", "filter 1", "sum term 1"],
        )

    def test_badbit(self):
        for card, bad in {BROKEN: (1, 3), "050200010203": (0,), "0502 03020101 # typed": (1, 2)}.items():
            self.assertEqual(self.printed("badbit", card), [f"count {len(bad)}", *(f"place {place}" for place in bad)])

    def test_the_picture_of_a_table(self):
        with tempfile.TemporaryDirectory() as folder:
            file = pathlib.Path(folder, "ring.svg")
            for card, told in {BROKEN: "broken ring (7): look at places 1, 3", PROGRAM: "sound ring: one cycle of 4"}.items():
                self.assertEqual(self.printed("read", card, "--picture", str(file)), self.printed("read", card))
                self.assertIn(f"<title>{told}</title>", file.read_text(encoding="utf-8"))
            self.fails(2, "Is a directory", "read", PROGRAM, "--picture", folder)
            self.fails(2, "none/ring.svg: No such file", "read", PROGRAM, "--picture", f"{folder}/none/ring.svg")

    def test_a_refused_card_has_no_picture(self):
        with tempfile.TemporaryDirectory() as folder:
            file = pathlib.Path(folder, "ring.svg")
            self.fails(1, "refusal 2 (range): ", "read", "05 02 02 03 01 04", "--picture", str(file))
            self.assertFalse(file.exists())
            file.write_text("of another pit", encoding="utf-8")
            self.fails(1, "refusal 6 (wide): ", "read", "07 02 02 02 03 01 01", "--picture", str(file))
            self.assertEqual(file.read_text(encoding="utf-8"), "of another pit")

    def test_draw(self):
        words = [f"word {word:08x}" for word in (0, 0, 3, 2)]
        self.assertEqual(self.printed("draw", PROGRAM, "0,0", "--count", "4"), [*words, "state 00000002,00000000"])
        self.assertEqual(self.printed("draw", PROGRAM, "0,0"), ["word 00000000", "state 00000001,00000002"])
        self.assertEqual(self.printed("draw", "00", "0,0,0,EDB77BDE", "--count", "0"), ["state " + "00000000," * 3 + "edb77bde"])

    def test_bits(self):
        for options, answer in {
            ("0,0", "--count", "4"): ["balance -2", "forward 4", "backward 2", "runs 3", "state 00000002,00000000"],
            ("2,3",): ["balance 2", "forward 2", "backward 2", "runs 1", "state 00000001,00000001"],
            ("2,3", "--count", "0"): ["balance 0", "forward 0", "backward 0", "runs 0", "state 00000002,00000003"],
        }.items():
            self.assertEqual(self.printed("bits", PROGRAM, *options), answer)

    def test_bits_in_a_file(self):
        with tempfile.TemporaryDirectory() as folder:
            file = pathlib.Path(folder, "bits.txt")
            file.write_text("of another pit, and longer", encoding="utf-8")
            printed = self.printed("bits", PROGRAM, "0,0", "--count", "4", "--file", str(file))
            self.assertEqual(printed, self.printed("bits", PROGRAM, "0,0", "--count", "4"))
            self.assertEqual(file.read_bytes(), b"00001110")
            self.fails(2, "Is a directory", "bits", PROGRAM, "0,0", "--file", folder)
            self.fails(2, "none/bits.txt: No such file", "bits", PROGRAM, "0,0", "--file", f"{folder}/none/bits.txt")

    def test_the_longest_strip_of_bits(self):
        most = tiedraw.MOST_STRIP_WORDS
        desk = tiedraw.Generator(b"\0", [0] * 4)
        counts = tiedraw.bit_counts(b"\0", desk.words(most))
        lines = [f"{name} {getattr(counts, name)}" for name in ("balance", "forward", "backward", "runs")]
        state = ",".join(f"{word:08x}" for word in desk.state)
        self.assertEqual(self.printed("bits", "00", "0,0,0,0", "--count", str(most)), [*lines, f"state {state}"])
        for count in (most + 1, 10**19):
            self.fails(1, "refusal 22 (strip too long): ", "bits", "00", "0,0,0,0", "--count", str(count))

    def test_pick(self):
        for times, answer in {
            ("7=300", "4=300"): ["shovel 7", "ties 2", "taken 1", "state 00000001,00000001"],
            ("5=60", "8=60", "9=60"): ["shovel 9", "ties 3", "taken 2", "state 00000002,00000000"],
            ("7=300", "4=299"): ["shovel 4", "ties 1", "taken 0", "state 00000002,00000003"],
        }.items():
            self.assertEqual(self.printed("pick", PROGRAM, "2,3", *times), answer)

    def test_margin(self):
        for state, times, answer in [
            ("0,0", ("7=305", "4=300"), ["change 4", "raised 6", "shovel 7", "ties 1", "taken 0"]),
            ("2,3", ("7=305", "4=300"), ["change 4", "raised 5", "shovel 7", "ties 2", "taken 1"]),
            ("2,3", ("7=300", "4=300"), ["change 4", "lowered 1", "shovel 4", "ties 1", "taken 0"]),
        ]:
            self.assertEqual(self.printed("margin", PROGRAM, state, *times), answer)

    def test_recpick(self):
        for times, answer in {
            ("7=300", "4=300"): ["shovel 4", "ties 2", "taken 1", "state 00000001,00000002", f"record {RECORD}"],
            ("7=300", "4=299"): ["shovel 4", "ties 1", "taken 0", "state 00000000,00000000", "record none"],
        }.items():
            self.assertEqual(self.printed("recpick", PROGRAM, "0,0", "258", *times), answer)
            self.assertEqual(self.printed("pick", PROGRAM, "0,0", *times), answer[:-1])

    def test_mappick(self):
        for (x, y), places, answer in [
            ((200, 100), ("7=-200:400", "4=500:500"), ["shovel 7", "ties 2", "taken 1", "state 00000001,00000001"]),
            ((-3, -4), ("5=0:0", "8=-8:-4", "9=-3:1"), ["shovel 9", "ties 3", "taken 2", "state 00000002,00000000"]),
            ((0, "-0"), ("7=-1000000:1000000", "4=0001:-1"), ["shovel 4", "ties 1", "taken 0", "state 00000002,00000003"]),
        ]:
            self.assertEqual(self.printed("mappick", PROGRAM, "2,3", str(x), str(y), *places), answer)

    def test_within(self):
        places = "21=950:500", "12=800:-350", "7=-200:400", "4=500:500"
        for radius, near in {"750": (4, 7, 12), "749": (4, 7), "499": (), "3000000": (4, 7, 12, 21)}.items():
            answer = [f"count {len(near)}", *(f"shovel {number}" for number in near)]
            self.assertEqual(self.printed("within", "200", "100", radius, *places), answer)
        self.assertEqual(self.printed("within", "-5", "-7", "0", "9=-5:-7"), ["count 1", "shovel 9"])

    def test_desk(self):
        for record, answer in {
            RECORD: ["truck 258", "shovel 4", "ties 2", "taken 1", "state 00000000,00000000"],
            "03 01 02 03 04": ["truck 513", "shovel 1027", "ties absent", "taken absent", "state absent"],
            "070102030400": ["truck 513", "shovel 1027", "ties 0", "taken absent", "state absent"],
            "1b FF ff ff ff ff # another pit's\n 02 01020304 fffefdfc": [
                "truck 65535",
                "shovel 65535",
                "ties absent",
                "taken 255",
                "state 04030201,fcfdfeff",
            ],
        }.items():
            self.assertEqual(self.printed("desk", record), answer)

    def test_cab(self):
        for truck, record, shovel in [("258", RECORD, 4), ("00513", "0301020304", 1027)]:
            self.assertEqual(self.printed("cab", truck, record), [f"shovel {shovel}"])

    def test_a_record_in_a_file(self):
        with tempfile.TemporaryDirectory() as folder:
            file = pathlib.Path(folder, "tie.hex")
            file.write_text(f"{RECORD} # truck 258\n", encoding="utf-8")
            self.assertEqual(self.printed("desk", f"@{file}"), self.printed("desk", RECORD))
            self.assertEqual(self.printed("cab", "258", f"@{file}"), ["shovel 4"])

    def test_new_cards_can_be_given_back(self):
        words = [("--words", str(number)) for number in (3, 5, 6, 7, 8)]
        for size in [(), *words, ("--words", "2", "--width", "7"), ("--filter", "2", "--seed", "south pit")]:
            lines = self.printed("new", *size)
            self.assertEqual([line[:2] for line in lines[1:]], ["# "] * 8)
            with tempfile.TemporaryDirectory() as folder:
                file = pathlib.Path(folder, "pit.hex")
                file.write_text("\n".join(lines), encoding="utf-8")
                self.assertEqual(self.printed("check", f"@{file}"), ["accepted"])
                self.assertEqual(self.printed("read", f"@{file}"), [line[2:] for line in lines[1:]])
        self.assertEqual(lines, self.printed("new", *size))
        self.assertEqual(lines[0], tiedraw.new_card(filter=2, seed="south pit").hex(" "))

    def test_versions_and_help(self):
        versions = [f"binding {tiedraw.__version__}", f"library {tiedraw.library_version()}"]
        self.assertEqual(self.printed("--version"), versions)
        told = "\n".join(self.printed("--help"))
        on_ties = ["pick", "margin", "recpick", "mappick", "within", "desk", "cab"]
        commands = ["check", "read", "badbit", "draw", "bits", *on_ties, "new"]
        for text in [*commands, "words in hex with commas", "@FILE", "Exit status"]:
            self.assertIn(text, told)
        for command in commands:
            self.printed(command, "--help")

    def test_a_refusal_is_told_on_standard_error(self):
        self.fails(1, "refusal 9 (powers): the odd power is even", "check", "08 02")
        self.fails(1, "refusal 1 (short): ", "read", "")
        self.fails(1, "refusal 5 (long): ", "badbit", f"{BROKEN} 00")
        self.fails(1, "refusal 26 (sound ring): bad places are asked of a table that is a single cycle", "badbit", PROGRAM)
        self.fails(1, "refusal 10 (word count): ", "draw", PROGRAM, "0")
        self.fails(1, "refusal 10 (word count): ", "draw", PROGRAM, "")
        self.fails(1, "refusal 11 (high bits): ", "bits", PROGRAM, "0,4")
        self.fails(1, "refusal 13 (no shovel): ", "pick", PROGRAM, "0,0")
        self.fails(1, "refusal 15 (twice): ", "pick", PROGRAM, "0,0", "7=1", "7=2")
        self.fails(1, "refusal 18 (too many equals): ", "pick", PROGRAM, "0,0", "1=60", "2=60", "3=60", "4=60", "5=60")
        self.fails(1, "refusal 13 (no shovel): ", "margin", PROGRAM, "0,0")
        self.fails(1, "refusal 19 (firm): no change of one shovel's time", "margin", PROGRAM, "0,0", "7=300")
        self.fails(1, "refusal 13 (no shovel): ", "recpick", PROGRAM, "0,0", "258")
        self.fails(1, "refusal 13 (no shovel): ", "mappick", PROGRAM, "0,0", "0", "0")
        self.fails(1, "refusal 25 (off map): a coordinate is outside", "mappick", PROGRAM, "0,0", "0", "-1000001", "7=0:0")
        self.fails(1, "refusal 25 (off map): ", "mappick", PROGRAM, "0,0", "0", "0", "7=0:0", "4=99999999999999999999:0")
        self.fails(1, "refusal 25 (off map): ", "within", "0", "0", "-1", "7=0:0")
        self.fails(1, "refusal 15 (twice): ", "within", "0", "0", "-1", "7=0:0", "7=1:1")
        self.fails(1, "refusal 20 (torn): a record's map, state count", "desk", "")
        self.fails(1, "refusal 20 (torn): ", "cab", "259", f"{RECORD} 00")
        self.fails(1, "refusal 21 (other truck): the record is of another truck", "cab", "259", RECORD)

    def test_wrong_usage(self):
        for message, *arguments in [
            ("COMMAND",),
            ("invalid choice", "toss"),
            ("required: CARD", "check"),
            ("'08 0' is not bytes in hex", "check", "08 0"),
            ("'0x00' is not bytes in hex", "check", "0x00"),
            ("no-such-file: No such file", "check", "@no-such-file"),
            ("unrecognized arguments: 02", "check", "08", "02"),
            ("'05 0' is not bytes in hex", "badbit", "05 0"),
            ("expected one argument", "read", PROGRAM, "--picture"),
            ("'0x1' is not a word in hex", "draw", PROGRAM, "0,0x1"),
            ("'' is not a word in hex", "draw", PROGRAM, "0,"),
            ("word 1: 4294967296 is more than 32 bits", "draw", PROGRAM, "0,100000000"),
            ("'-1' is not a whole number", "draw", PROGRAM, "0,0", "--count", "-1"),
            ("'1.5' is not a whole number", "bits", PROGRAM, "0,0", "--count", "1.5"),
            ("expected one argument", "bits", PROGRAM, "0,0", "--file"),
            ("'7' is not SHOVEL=SECONDS", "pick", PROGRAM, "0,0", "7"),
            ("SHOVEL: 65536 is more than 16 bits", "pick", PROGRAM, "0,0", "65536=1"),
            ("'1.5' is not a whole number", "pick", PROGRAM, "0,0", "7=1.5"),
            ("'7' is not SHOVEL=SECONDS", "margin", PROGRAM, "0,0", "7"),
            ("SECONDS: 4294967296 is more than 32 bits", "margin", PROGRAM, "0,0", "7=4294967296"),
            ("truck: 65536 is more than 16 bits", "recpick", PROGRAM, "0,0", "65536", "7=300"),
            ("'7=300' is not a whole number", "recpick", PROGRAM, "0,0", "7=300", "4=300"),
            ("required: Y", "mappick", PROGRAM, "0,0", "-5"),
            ("'7=0:0' is not a whole number of metres", "mappick", PROGRAM, "0,0", "1", "7=0:0"),
            ("'7=0,0' is not SHOVEL=X:Y", "mappick", PROGRAM, "0,0", "0", "0", "7=0,0"),
            ("'7=0:0:0' is not SHOVEL=X:Y", "within", "0", "0", "5", "7=0:0:0"),
            ("'7' is not SHOVEL=X:Y", "within", "0", "0", "5", "7"),
            ("SHOVEL: 65536 is more than 16 bits", "within", "0", "0", "5", "65536=0:0"),
            ("'' is not a whole number of metres", "within", "0", "0", "5", "7=0:"),
            ("'1.5' is not a whole number of metres", "within", "0", "0", "1.5", "7=0:0"),
            ("required: RECORD", "cab", "258"),
            ("'-1' is not a whole number", "cab", "--", "-1", RECORD),
            ("'1f 0' is not bytes in hex", "cab", "258", "1f 0"),
            ("unrecognized arguments: 02", "desk", "1f", "02"),
            ("words: 9 is not 2 to 8", "new", "--words", "9"),
            ("width: 1 is not 2 to 32", "new", "--width", "1"),
            ("'x' is not a whole number", "new", "--filter", "x"),
        ]:
            with self.subTest(arguments):
                self.fails(2, message, *arguments)

    def test_a_file_that_is_no_text(self):
        with tempfile.TemporaryDirectory() as folder:
            file = pathlib.Path(folder, "pit.hex")
            file.write_bytes(b"\xff\xfe")
            self.fails(2, "can't decode", "check", f"@{file}")
            self.fails(2, "Is a directory", "check", f"@{folder}")

    def test_a_seed_that_is_no_text(self):
        self.fails(2, "can't encode", "new", "--seed", os.fsdecode(b"\xff"))

    def test_a_reader_that_leaves_early(self):
        command = [sys.executable, "-m", "tiedraw", "draw", "00", "0,0,0,0", "--count", "200000"]
        with subprocess.Popen(command, cwd=HERE, stdout=subprocess.PIPE, stderr=subprocess.PIPE, env=os.environ) as running:
            self.assertEqual(running.stdout.readline(), b"word 0b857478\n")
            running.stdout.close()
            self.assertEqual((running.stderr.read(), running.wait()), (b"", 0))


if __name__ == "__main__":
    unittest.main()
