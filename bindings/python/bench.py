"""What a call costs in Python, in nanoseconds, and what of that is the binding's. Exit status 1 if a target is missed.

Bare is what a user of ctypes would write without this binding: buffers made once, argument types set, the word taken and
the refusal not looked at. A bare fill of a million words is one call, and so as good as the time in C. All are measured in
turn, part by part, and the best part of each counts. Run it in this folder.
"""

import array
import ctypes
import sys
import time
from ctypes import POINTER, c_size_t, c_uint8, c_uint32

import tiedraw
from tiedraw import _library

PARTS, CALLS, FILL = 20, 50_000, 1_000_000
MOST_OF_DRAW, MOST_OF_FILL = 1.5, 1.1
CARD, WORDS = bytes([0]), 4
TIMES = {3: 300, 9: 240, 14: 410, 21: 240, 40: 365}
ON_STATE = [POINTER(c_uint8), c_size_t, POINTER(c_uint32), c_size_t]


class Word(ctypes.Structure):
    _fields_ = [("word", c_uint32), ("refusal", c_uint8)]


def bare_call(name, answer, *more):
    f = getattr(ctypes.CDLL(_library.LIBRARY._name), name)
    f.argtypes, f.restype = [*ON_STATE, *more], answer
    return f


def bare_draw():
    f = bare_call("tiedraw_draw", Word)
    card_buffer, n = (c_uint8 * len(CARD))(*CARD), len(CARD)
    state_buffer, m = (c_uint32 * WORDS)(), WORDS

    def part(calls):
        for _ in range(calls):
            f(card_buffer, n, state_buffer, m).word

    return part


def bare_fill():
    f = bare_call("tiedraw_fill", c_uint8, POINTER(c_uint32), c_size_t, c_size_t, c_size_t)
    card_buffer, n = (c_uint8 * len(CARD))(*CARD), len(CARD)
    state_buffer, m = (c_uint32 * WORDS)(), WORDS
    strip = (c_uint32 * FILL)()
    return lambda count: f(card_buffer, n, state_buffer, m, strip, FILL, 0, count)


def generator_draw():
    desk = tiedraw.Generator(CARD, [0] * WORDS)

    def part(calls):
        for _ in range(calls):
            desk.draw()

    return part


def generator_pick():
    desk = tiedraw.Generator(CARD, [0] * WORDS)

    def part(calls):
        for _ in range(calls):
            desk.pick(TIMES)

    return part


def generator_margin():
    desk = tiedraw.Generator(CARD, [0] * WORDS)

    def part(calls):
        for _ in range(calls):
            desk.margin(TIMES)

    return part


def generator_fill():
    desk, strip = tiedraw.Generator(CARD, [0] * WORDS), array.array("I", [0]) * FILL
    return lambda count: desk.fill(strip, 0, count)


def generator_words():
    return tiedraw.Generator(CARD, [0] * WORDS).words


def function_draw():
    def part(calls):
        state = (0,) * WORDS
        for _ in range(calls):
            _, state = tiedraw.draw(CARD, state)

    return part


def nanoseconds(part, count):
    start = time.perf_counter_ns()
    part(count)
    return (time.perf_counter_ns() - start) / count


def best_of(parts):
    rounds = [{name: nanoseconds(*part) for name, part in parts.items()} for _ in range(PARTS)]
    return {name: min(times[name] for times in rounds) for name in parts}


def within(name, ratio, most):
    """A ratio, and whether it is within the target."""
    held = ratio <= most
    print(f"{name:28}{ratio:7.2f} at most {most}, {'held' if held else 'MISSED'}")
    return held


def main():
    calls = {
        "bare draw": (bare_draw(), CALLS),
        "Generator.draw": (generator_draw(), CALLS),
        "Generator.pick, 2 of 5 tie": (generator_pick(), CALLS // 10),
        "Generator.margin, the same": (generator_margin(), CALLS // 10),
        "draw": (function_draw(), CALLS // 10),
    }
    words = {
        "bare fill": (bare_fill(), FILL),
        "Generator.fill": (generator_fill(), FILL),
        "Generator.words": (generator_words(), FILL),
    }
    best = best_of({**calls, **words})
    for name, time_of_one in best.items():
        print(f"{name:28}{time_of_one:7.0f} ns a {'call' if name in calls else f'word, of {FILL} at once'}")
    held = [
        within("Generator.draw to bare draw", best["Generator.draw"] / best["bare draw"], MOST_OF_DRAW),
        within("Generator.fill to bare fill", best["Generator.fill"] / best["bare fill"], MOST_OF_FILL),
        within("Generator.words to bare fill", best["Generator.words"] / best["bare fill"], MOST_OF_FILL),
    ]
    return int(False in held)


if __name__ == "__main__":
    sys.exit(main())
