"""Document 02, One: a strip of words. Fills are what single draws would be, in whatever buffer they are written into."""

import array
import ctypes
import mmap
import pickle
import sys
import threading
import unittest

import tiedraw
from papers import cases, numbers
from tiedraw import Generator, Refusal, Refused

try:
    import numpy
except ModuleNotFoundError:  # the package needs none
    numpy = None

PROGRAM = bytes.fromhex("27 02 02 01 02 03 00 01 00 00 00")
LENT = 0xA5A5A5A5
WIDEST = ctypes.c_size_t(-1).value
HUGE = [2**31, 2**32 - 1, 2**32, 2**63, WIDEST, WIDEST + 1, WIDEST + 2, 2**64 + 3, 2**200]


def strip(length):
    return array.array("I", [LENT]) * length


def draws(desk, count):
    return [desk.draw() for _ in range(count)]


class Filling(unittest.TestCase):
    def refused(self, call, *arguments):
        with self.assertRaises(Refused) as caught:
            call(*arguments)
        self.assertIs(caught.exception.refusal, Refusal.SPAN_OUT_OF_BOUNDS)


def papers():
    """The cases of a strip in the papers: card, state, strip, place and count, and the answer."""
    for card, state, (lent, place, count), told in cases("strip"):
        answer = told if isinstance(told, int) else (numbers(told["strip"], 16), numbers(told["state"], 16))
        yield (card, state, numbers(lent, 16), int(place), int(count)), answer


class Papers(unittest.TestCase):
    def told(self, call):
        try:
            return tuple(map(list, call()))
        except Refused as refused:
            return refused.number

    def test_by_the_function(self):
        for case, answer in papers():
            self.assertEqual(self.told(lambda: tiedraw.fill(*case)), answer, case)

    def test_by_a_generator(self):
        answers = []
        for (card, state, lent, place, count), answer in papers():
            if answer in range(1, 12):
                continue
            desk, into = Generator(card, state), array.array("I", lent)
            self.assertEqual(self.told(lambda: (desk.fill(into, place, count) or into, desk.state)), answer)
            if answer == 17:
                self.assertEqual((list(into), list(desk.state)), (lent, state))
            answers.append(answer)
        self.assertTrue(17 in answers and any(answer != 17 for answer in answers))


class Spans(Filling):
    def test_every_span_of_short_strips(self):
        for length in range(5):
            for place in range(7):
                for count in [None, *range(7)]:
                    with self.subTest(length=length, place=place, count=count):
                        self.as_single_draws(length, place, count)

    def as_single_draws(self, length, place, count):
        desk, single, into = Generator(b"\0", [1, 2, 3, 4]), Generator(b"\0", [1, 2, 3, 4]), strip(length)
        called = (lambda: desk.fill(into, place)) if count is None else (lambda: desk.fill(into, place, count))
        wanted = length - place if count is None else count
        if place > length or wanted > length - place:
            self.refused(called)
            self.refused(tiedraw.fill, b"\0", [1, 2, 3, 4], into, place, count)
            self.assertEqual((into, desk), (strip(length), single))
            return
        after = [LENT] * place + draws(single, wanted) + [LENT] * (length - place - wanted)
        by_function = tiedraw.fill(b"\0", [1, 2, 3, 4], into, place, count)
        self.assertEqual(into, strip(length))
        self.assertIsNone(called())
        self.assertEqual((list(into), desk), (after, single))
        self.assertEqual(by_function, (tuple(after), single.state))

    def test_cards_of_every_size(self):
        for words in range(2, tiedraw.MOST_WORDS + 1):
            for width in (2, 7, 31, 32):
                card = tiedraw.new_card(words, width, 1 + width % 2, seed="strip")
                desk, single, into = Generator(card, [1] * words), Generator(card, [1] * words), strip(100)
                desk.fill(into)
                self.assertEqual((list(into), desk), (draws(single, 100), single))

    def test_a_fill_and_the_fill_behind_it_are_one(self):
        for cut in (0, 1, 499, 1000):
            desk, other = Generator(b"\0", [0] * 4), Generator(b"\0", [0] * 4)
            parts, whole = strip(1000), strip(1000)
            desk.fill(parts, 0, cut)
            desk.fill(parts, cut)
            other.fill(whole)
            self.assertEqual((parts, desk), (whole, other))

    def test_fills_and_draws_follow_one_another(self):
        desk, single = Generator(b"\0", [0] * 4), Generator(b"\0", [0] * 4)
        drawn = [desk.draw(), *desk.words(3), desk.draw(), *desk.words(1)]
        self.assertEqual((drawn, desk), (draws(single, 6), single))

    def test_by_name_and_by_other_whole_numbers(self):
        class Index:
            def __index__(self):
                return 2

        desk, single, into = Generator(b"\0", [0] * 4), Generator(b"\0", [0] * 4), strip(5)
        desk.fill(into, place=Index(), count=Index())
        self.assertEqual(list(into), [LENT, LENT, *draws(single, 2), LENT])
        desk.fill(buffer=into, count=1)
        self.assertEqual(list(desk.words(Index())), draws(single, 3)[1:])

    def test_what_is_too_wide_for_c_is_refused_too(self):
        desk, into = Generator(PROGRAM, [2, 3]), strip(3)
        for number in HUGE:
            for span in [(number,), (number, 0), (0, number), (2, number), (3, number), (number, number), (number, 1)]:
                self.refused(desk.fill, into, *span)
                self.refused(tiedraw.fill, PROGRAM, [2, 3], [LENT] * 3, *span)
        self.assertEqual((into, desk.state), (strip(3), (2, 3)))

    def test_the_card_is_looked_at_before_the_span(self):
        for number, card, state in [(9, b"\x08\x02", [0] * 4), (10, PROGRAM, [0]), (11, PROGRAM, [0, 4])]:
            with self.assertRaises(Refused) as caught:
                tiedraw.fill(card, state, [], 2**64)
            self.assertEqual(caught.exception.number, number)


class Words(unittest.TestCase):
    def test_words_are_draws(self):
        for count in (0, 1, 2, 1000):
            desk, single = Generator(b"\0", [0] * 4), Generator(b"\0", [0] * 4)
            drawn = desk.words(count)
            self.assertEqual((type(drawn), drawn.typecode, drawn.itemsize), (array.array, "I", 4))
            self.assertEqual((drawn.tolist(), desk), (draws(single, count), single))
            drawn.append(5)

    def test_more_than_there_is_room_for(self):
        desk = Generator(PROGRAM, [2, 3])
        for count in [2**62, 2**63 - 1, *(number for number in HUGE if number >= 2**63)]:
            self.assertRaises(MemoryError, desk.words, count)
        self.assertEqual(desk.state, (2, 3))


def mapped_row(length):
    row = memoryview(mmap.mmap(-1, 4 * length)).cast("I")
    row[:] = strip(length)
    return row


KINDS = {
    "array": strip,
    "view of an array": lambda length: memoryview(strip(length)),
    "part of a view": lambda length: memoryview(strip(length + 5))[3:-2],
    "ctypes": lambda length: (ctypes.c_uint32 * length)(*strip(length)),
    "view of ctypes": lambda length: memoryview((ctypes.c_uint32 * length)(*strip(length))),
    "bytes that can be written": lambda length: memoryview(bytearray(strip(length).tobytes())).cast("I"),
    "the same, named in another way": lambda length: memoryview(bytearray(strip(length).tobytes())).cast("@I"),
    "mapped memory": mapped_row,
}
if numpy:
    KINDS["numpy"] = lambda length: numpy.full(length, LENT, numpy.uint32)
    KINDS["part of numpy's"] = lambda length: numpy.full(length + 5, LENT, numpy.uint32)[3:-2]


def held(buffer):
    """The words in a buffer, whatever it calls them."""
    return list(array.array("I", memoryview(buffer).tobytes()))


class Told(Filling):
    def told(self, error, message, call, *arguments):
        with self.assertRaises(error) as caught:
            call(*arguments)
        self.assertEqual((type(caught.exception), str(caught.exception)), (error, message))

    def wrong(self, buffer, fault, error=TypeError):
        """Told with this fault, whatever the place; and the state stays."""
        wanted = "; a writable row of 32-bit unsigned numbers is asked for, as array.array('I') is"
        desk = Generator(PROGRAM, [2, 3])
        for span in [(), (0, 0), (9, 9), (-1, "")]:
            self.told(error, f"buffer: {fault}{wanted if error is TypeError else ''}", desk.fill, buffer, *span)
        self.assertEqual(desk.state, (2, 3))


class Buffers(Told):
    def test_every_kind_is_written_where_it_is(self):
        for kind, make in KINDS.items():
            with self.subTest(kind):
                desk, single, into = Generator(b"\0", [0] * 4), Generator(b"\0", [0] * 4), make(6)
                desk.fill(into, 2, 3)
                self.assertEqual(held(into), [LENT, LENT, *draws(single, 3), LENT])
                desk.fill(into)
                self.assertEqual((held(into), desk), (draws(single, 6), single))
                filled = held(into)
                self.refused(desk.fill, into, 7)
                self.refused(desk.fill, into, 0, 7)
                self.assertEqual((held(into), desk), (filled, single))

    def test_what_is_around_a_part_is_untouched(self):
        whole = strip(10)
        Generator(b"\0", [0] * 4).fill(memoryview(whole)[3:8])
        self.assertEqual(whole[:3] + whole[8:], strip(5))
        self.assertNotIn(LENT, whole[3:8])

    def test_long_is_as_long_as_it_is(self):
        into = array.array("L", [0])
        if into.itemsize == 4:
            Generator(b"\0", [0] * 4).fill(into)
            self.assertEqual(into[0], 0x0B857478)
        else:
            self.wrong(into, f"array has entries of format 'L' and size {into.itemsize}")

    def test_empty_ones(self):
        desk = Generator(PROGRAM, [2, 3])
        empties = [strip(0), memoryview(strip(4))[4:], memoryview(strip(4))[2:2]]
        if sys.version_info >= (3, 10):  # before, ctypes tells a wrong size of the entries there would be
            empties.append((ctypes.c_uint32 * 0)())
        for empty in empties:
            for span in [(), (0,), (0, 0), (0, None)]:
                desk.fill(empty, *span)
            self.refused(desk.fill, empty, 1)
            self.refused(desk.fill, empty, 0, 1)
        self.assertEqual(desk.state, (2, 3))

    def test_other_things(self):
        for thing in [None, 5, "text", [0, 0], (0,), range(3), {0: 0}]:
            self.wrong(thing, f"{thing!r} is not a buffer")
        self.wrong([7] * 1000, "[7, 7, 7, 7, 7, 7, ...] is not a buffer")

    def test_other_numbers(self):
        self.wrong(bytearray(8), "bytearray has entries of format 'B' and size 1")
        self.wrong(b"12345678", "bytes has entries of format 'B' and size 1")
        for letter in "bBhHilqQfd":
            one = array.array(letter, [0])
            self.wrong(one, f"array has entries of format '{letter}' and size {one.itemsize}")
        for letter in "cbf?":
            size = memoryview(bytearray(8)).cast(letter).itemsize
            self.wrong(memoryview(bytearray(8)).cast(letter), f"memoryview has entries of format '{letter}' and size {size}")
        self.wrong((ctypes.c_int32 * 2)(), "c_int_Array_2 has entries of format '<i' and size 4")
        self.wrong((ctypes.c_float * 2)(), "c_float_Array_2 has entries of format '<f' and size 4")

    def test_the_other_byte_order(self):
        swapped = (ctypes.c_uint32.__ctype_be__ * 2)()
        self.wrong(swapped, f"{type(swapped).__name__} has entries of format '>I' and size 4")

    def test_read_only(self):
        self.wrong(memoryview(b"12345678").cast("I"), "memoryview is read-only")
        self.wrong(memoryview(strip(2)).toreadonly(), "memoryview is read-only")

    def test_not_side_by_side(self):
        for part in [slice(None, None, 2), slice(None, None, -1)]:
            self.wrong(memoryview(strip(4))[part], "memoryview has entries that don't stand side by side")

    def test_dimensions(self):
        self.wrong(ctypes.c_uint32(), "c_uint has 0 dimensions")
        self.wrong(((ctypes.c_uint32 * 2) * 3)(), "c_uint_Array_2_Array_3 has 2 dimensions")
        self.wrong(memoryview(bytearray(24)).cast("I", [2, 3]), "memoryview has 2 dimensions")

    def test_not_aligned(self):
        for offset in (1, 2, 3):
            part = memoryview(bytearray(strip(3)))[offset : offset + 8].cast("I")
            self.wrong(part, "memoryview begins at an address that is no multiple of 4")

    def test_released_and_closed(self):
        view = memoryview(strip(2))
        view.release()
        released = "memoryview can't be lent: operation forbidden on released memoryview object"
        self.wrong(view, released, ValueError)
        closed = mmap.mmap(-1, 8)
        closed.close()
        self.assertRaisesRegex(ValueError, "buffer: mmap can't be lent: ", Generator(PROGRAM, [2, 3]).fill, closed)

    def test_pickle_buffers_are_what_they_hold(self):
        into = strip(2)
        Generator(b"\0", [0] * 4).fill(pickle.PickleBuffer(into))
        self.assertEqual(into, Generator(b"\0", [0] * 4).words(2))

    def test_formats_by_name(self):
        try:
            from _testbuffer import ND_WRITABLE, ndarray
        except ImportError:
            self.skipTest("a module of Python's own tests is not there")
        for name in ["I", "@I", "=I", "<I", "=L", "<L"]:
            into = ndarray([LENT] * 3, shape=[3], format=name, flags=ND_WRITABLE)
            Generator(b"\0", [0] * 4).fill(into, 1)
            self.assertEqual(into.tolist(), [LENT, *Generator(b"\0", [0] * 4).words(2)])
        for name in [">I", "!I", ">L", "!L", "=i", "<l", "<f"]:
            into = ndarray([1, 2, 3], shape=[3], format=name, flags=ND_WRITABLE)
            self.wrong(into, f"ndarray has entries of format '{name}' and size 4")

    @unittest.skipUnless(numpy, "there is no numpy")
    def test_numpy(self):
        for wrong in ["int32", ">u4", "uint64", "float32", "uint8", "bool", "datetime64[s]"]:
            self.assertRaises((TypeError, ValueError), Generator(PROGRAM, [2, 3]).fill, numpy.zeros(4, wrong))
        rows = numpy.zeros((3, 4), numpy.uint32)
        self.wrong(rows, "ndarray has 2 dimensions")
        self.wrong(rows[:, 1], "ndarray has entries that don't stand side by side")
        Generator(b"\0", [0] * 4).fill(rows[1], 0, numpy.int64(4))
        self.assertEqual(rows.tolist(), [[0] * 4, list(Generator(b"\0", [0] * 4).words(4)), [0] * 4])
        rows.flags.writeable = False
        self.wrong(rows[0], "ndarray is read-only")


class Given(Told):
    def test_places_and_counts_are_whole_numbers(self):
        desk, into = Generator(PROGRAM, [2, 3]), strip(3)
        for name, call in {
            "place": lambda number: desk.fill(into, number),
            "count": lambda number: desk.fill(into, 1, number),
            "count ": desk.words,
            "place ": lambda number: tiedraw.fill(PROGRAM, [2, 3], into, number),
            "count  ": lambda number: tiedraw.fill(PROGRAM, [2, 3], into, 0, number),
        }.items():
            name = name.strip()
            for number in [True, False, 1.0, "1", [1]]:
                self.told(TypeError, f"{name}: {number!r} is not a whole number", call, number)
            self.told(ValueError, f"{name}: -1 is negative", call, -1)
            self.assertRaisesRegex(ValueError, f"{name}: -1.* is negative", call, -(2**64))
        self.told(TypeError, "place: None is not a whole number", desk.fill, into, None)
        self.told(TypeError, "count: None is not a whole number", desk.words, None)
        self.assertEqual((into, desk.state), (strip(3), (2, 3)))

    def test_the_strip_of_the_function_is_a_row_of_words(self):
        self.told(ValueError, "strip[1]: 4294967296 is more than 32 bits", tiedraw.fill, PROGRAM, [0, 0], [0, 2**32])
        self.told(TypeError, "strip: 5 is not a row of numbers", tiedraw.fill, PROGRAM, [0, 0], 5)
        lent = [7, 7, 7]
        self.assertEqual(tiedraw.fill(PROGRAM, [0, 0], lent, 1), ((7, 0, 0), (2, 3)))
        self.assertEqual(tiedraw.fill(PROGRAM, [0, 0], iter(lent), 0, 1), ((0, 7, 7), (1, 2)))
        self.assertEqual(lent, [7, 7, 7])


class GivenBack(Told):
    """A buffer that is lent can't be resized, so that these can."""

    def test_after_a_fill(self):
        desk, into, raw = Generator(b"\0", [0] * 4), strip(3), bytearray(8)
        desk.fill(into)
        into.append(LENT)
        with memoryview(raw).cast("I") as view:
            desk.fill(view)
        raw.append(0)
        self.assertEqual(len(into) + len(raw), 13)

    def test_while_an_error_is_kept(self):
        desk = Generator(PROGRAM, [2, 3])
        for into, *span in [(strip(3), 4), (strip(3), 0, 4), (strip(3), -1), (strip(3), 0, "")]:
            with self.assertRaises((Refused, TypeError, ValueError)):
                try:
                    desk.fill(into, *span)
                except Exception as error:
                    into.append(LENT)
                    raise error
        for into in [array.array("i", [0]), bytearray(7)]:
            try:
                desk.fill(into)
            except TypeError:
                into.append(0)
            self.assertIn(len(into), (2, 8))

    def test_not_before(self):
        desk, into = Generator(PROGRAM, [2, 3]), strip(3)

        def resize(*_):
            self.assertRaises(BufferError, into.append, 0)
            return 0

        desk._fill = resize
        desk.fill(into)
        into.append(0)


class Threads(unittest.TestCase):
    def test_threads_that_share_a_generator_fill_as_one_would(self):
        shared, alone, fills, length = Generator(b"\0", [0] * 4), Generator(b"\0", [0] * 4), 50, 1000
        made = []

        def work():
            for _ in range(fills):
                made.append(shared.words(length))

        threads = [threading.Thread(target=work) for _ in range(2)]
        for thread in threads:
            thread.start()
        for thread in threads:
            thread.join()
        wanted = [alone.words(length).tobytes() for _ in range(2 * fills)]
        self.assertTrue(sorted(words.tobytes() for words in made) == sorted(wanted), "fills run into one another")
        self.assertEqual(shared, alone)

    def test_a_fill_waits_for_the_lock(self):
        desk, into, begun = Generator(b"\0", [0] * 4), strip(1), threading.Event()
        thread = threading.Thread(target=lambda: (begun.set(), desk.fill(into)))
        with desk._lock:
            desk.fill(strip(1))  # whoever holds it may take it again
            thread.start()
            begun.wait()
            thread.join(0.05)
            self.assertEqual((into, desk.state), (strip(1), tiedraw.step(b"\0", [0] * 4)))
        thread.join()
        self.assertEqual(into, Generator(b"\0", [0] * 4).words(2)[1:])


if __name__ == "__main__":
    unittest.main()
