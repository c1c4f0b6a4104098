"""A card and a state that are known to be sound."""

from __future__ import annotations

import sys
from array import array
from ctypes import byref, c_int32, c_size_t, c_uint8, c_uint16, c_uint32
from functools import partial
from threading import RLock
from typing import Any, SupportsIndex

from ._buffers import Buffer, address, words_of
from ._calls import choice_of, margin_of, placed, record_size, recorded_of, step
from ._library import Chosen, MarginAnswer, Word, call
from ._numbers import Numbers, Places, Times, metres, natural, row, shovels_and_times, span, truck_number
from ._refusal import unless_refused
from ._values import Choice, Margin, Recorded

# With their arguments made once, as ctypes objects, the calls have nothing left to convert.
_step = call("tiedraw_step", c_uint8)
_step_back = call("tiedraw_step_back", c_uint8)
_draw = call("tiedraw_draw", Word)
_fill = call("tiedraw_fill", c_uint8)
_pick = call("tiedraw_pick", Chosen)
_pick_recorded = call("tiedraw_pick_recorded", Chosen)
_margin = call("tiedraw_margin", MarginAnswer)
_pick_by_map = call("tiedraw_pick_by_map", Chosen)


def _lists(times: Times) -> tuple[Any, ...]:
    """Shovels and times, as C takes them."""
    shovels, seconds = shovels_and_times(times)
    count = len(shovels)
    return (c_uint16 * count)(*shovels), c_size_t(count), (c_uint32 * count)(*seconds), c_size_t(count)


class Generator:
    """An accepted card and a state of its size; anything else raises Refused when it is made.

    Threads may share one: draws come one after the other, and no lot is drawn twice or lost; no other draw comes between
    the words of a fill. Two are equal where card and state are. A copy, also by pickle, goes on from the same state by
    itself.
    """

    __slots__ = (
        "_card",
        "_state",
        "_lock",
        "_step",
        "_step_back",
        "_draw",
        "_fill",
        "_pick",
        "_pick_recorded",
        "_margin",
        "_pick_by_map",
        "__weakref__",
    )

    def __init__(self, card: Numbers, state: Numbers):
        self._card, size = row(c_uint8, "card", card)
        self._state, words = row(c_uint32, "state", state)
        step(bytes(self._card), tuple(self._state))
        self._lock = RLock()  # one that a signal handler may take again
        lent = (byref(self._card), c_size_t(size), byref(self._state), c_size_t(words))
        self._step = partial(_step, *lent)
        self._step_back = partial(_step_back, *lent)
        self._draw = partial(_draw, *lent)
        self._fill = partial(_fill, *lent)
        self._pick = partial(_pick, *lent)
        self._pick_recorded = partial(_pick_recorded, *lent)
        self._margin = partial(_margin, *lent)
        self._pick_by_map = partial(_pick_by_map, *lent)

    @property
    def card(self) -> bytes:
        return bytes(self._card)

    @property
    def state(self) -> tuple[int, ...]:
        with self._lock:
            return tuple(self._state)

    def step(self) -> None:
        with self._lock:
            refusal = self._step()
        unless_refused(refusal)

    def step_back(self) -> None:
        with self._lock:
            refusal = self._step_back()
        unless_refused(refusal)

    def draw(self) -> int:
        """One step, and its word."""
        with self._lock:
            answer: Word = self._draw()
        if answer.refusal:
            unless_refused(answer.refusal)
        return answer.word

    def fill(self, buffer: Buffer, place: SupportsIndex = 0, count: SupportsIndex | None = None) -> None:
        """Writes the words of `count` draws into the buffer, from `place` on; without a count, all that fit behind it.

        The buffer lends one row of 32-bit unsigned numbers in this machine's byte order, to be written: an array("I"), an
        array of ctypes or numpy, a memoryview of these or by cast("I") of bytes. Anything else raises TypeError. Nothing
        is copied, and other threads run meanwhile: they must not write there until the call returns. A span that is not
        inside is refused by 17, and nothing has changed.
        """
        with words_of(buffer) as view:
            strip = (address(view), *map(c_size_t, span(len(view), place, count)))
            with self._lock:
                refusal = self._fill(*strip)
        unless_refused(refusal)

    def words(self, count: SupportsIndex) -> array[int]:
        """The words of so many draws, in a new array of 32-bit unsigned numbers."""
        drawn = array("I", [0]) * min(natural("count", count), sys.maxsize)
        self.fill(drawn)
        return drawn

    def pick(self, times: Times) -> Choice:
        """The shovel of least time, from {shovel: time} or pairs (shovel, time); ties are broken by a fair draw.

        Words are drawn until one is below the largest multiple of the number of ties that is not above 2^width, 16 at
        most. The last one modulo that number says which of them it is, counted from the lowest shovel number. More than
        2^width ties are refused by 18, and nothing has changed.

        An error names a time by what is written to get it: times[7] of a mapping, times[0][1] of pairs. A number that
        stands twice among pairs is refused by 15.
        """
        lists = _lists(times)
        with self._lock:
            answer: Chosen = self._pick(*lists)
        unless_refused(answer.refusal)
        return choice_of(answer)

    def pick_recorded(self, truck: SupportsIndex, times: Times) -> Recorded:
        """The pick of these times for a truck, and the bytes of the record that a tie leaves; None where there was no tie.

        Choice, refusals and the state after it are those of the pick. The record has every field, and the state as it was
        before: read_record reads it for the desk, order_for tells the truck's cab the shovel, and nothing else.
        """
        number, lists = c_uint16(truck_number(truck)), _lists(times)
        words = len(self._state)
        size = record_size(words)
        page = (c_uint8 * size)()
        with self._lock:
            answer: Chosen = self._pick_recorded(*lists, number, page, c_size_t(size))
        unless_refused(answer.refusal)
        return recorded_of(answer, page, words)

    def margin(self, times: Times) -> Margin:
        """How near the pick of these times would be: the smallest change of one that would send the truck elsewhere.

        The state is not moved: ask before the pick, since a tie moves it. Times are given as for a pick, and what a pick
        refuses is refused. Of equally small changes the one of the lower shovel number is told, then lowered before raised.
        Where no change would send the truck elsewhere, that is refusal 19.
        """
        lists = _lists(times)
        with self._lock:
            answer: MarginAnswer = self._margin(*lists)
        unless_refused(answer.refusal)
        return margin_of(answer)

    def pick_by_map(self, x: SupportsIndex, y: SupportsIndex, places: Places) -> Choice:
        """The shovel nearest to a truck at (x, y), from {shovel: (x, y)} or pairs (shovel, (x, y)); for when times are missing.

        Places are in whole metres, and the nearest has the least squared distance. Ties are broken as by a pick, on the same
        state, and such picks and those by times may follow each other in any order. A coordinate that is not from -1,000,000
        to 1,000,000 is refused by 25, however wide it is, before too many ties by 18; nothing has changed then.

        An error names a coordinate by what is written to get it: places[7][0] of a mapping, places[0][1][0] of pairs.
        """
        place, lists = (c_int32(metres("x", x)), c_int32(metres("y", y))), placed(places)
        with self._lock:
            answer: Chosen = self._pick_by_map(*place, *lists)
        unless_refused(answer.refusal)
        return choice_of(answer)

    def __eq__(self, other: object) -> bool:
        if not isinstance(other, Generator):
            return NotImplemented
        return self.card == other.card and self.state == other.state

    def __repr__(self) -> str:
        return f"{type(self).__name__}(bytes.fromhex('{self.card.hex(' ')}'), {self.state})"

    def __reduce__(self) -> tuple[Any, ...]:
        return type(self), (self.card, self.state)
