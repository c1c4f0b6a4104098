"""The library's calls as functions. The state is a row of words; where a call moves it, the one after the call is returned."""

from __future__ import annotations

import ctypes
from ctypes import c_int32, c_size_t, c_uint8, c_uint16, c_uint32
from typing import Any, Callable, SupportsIndex

from . import _library
from ._library import MOST_CARD_BYTES, MOST_RECORD_BYTES, MOST_STRIP_WORDS, Chosen, MarginAnswer
from ._numbers import Numbers, Places, metres, metres_row, row, seconds_row, shovels_and_places, span, truck_number, whole
from ._refusal import unless_refused
from ._values import BitCounts, Choice, Margin, Record, Recorded, Values


def check(card: Numbers) -> None:
    """Accepts a card, or refuses it by 1 to 9."""
    unless_refused(_library.check(*row(c_uint8, "card", card)))


def read(card: Numbers) -> Values:
    """The eight values of a card, given or absent, or refusal 1 to 6. A card that is read may still be refused by 7 to 9."""
    answer = _library.read(*row(c_uint8, "card", card))
    unless_refused(answer.refusal)
    found = {name: getattr(answer.card, name) for name in Values._fields}
    found["table"] = tuple(found["table"][: 1 << answer.card.words])
    return Values(**found)


def bad_places(card: Numbers) -> tuple[int, ...]:
    """The least to look at in a table that gets 7: the fewest places whose entries alone make every completion get 7.

    Places count from 0, and are ascending; whatever allowed entries stand elsewhere, the table is no single cycle. Of several
    such sets the one that comes first in comparison is told. Or refusal 1 to 6, or 26 where the table is a single cycle; 7 to
    9 are not told here.
    """
    answer = _library.bad_places(*row(c_uint8, "card", card))
    unless_refused(answer.refusal)
    return tuple(answer.places[: answer.count])


def _on_state(call: Callable[..., Any], card: Numbers, state: Numbers, *more: Any) -> tuple[Any, tuple[int, ...]]:
    """A call on a card and a copy of the state: its answer, and the state after it."""
    lent = row(c_uint8, "card", card)
    words, count = row(c_uint32, "state", state)
    answer = call(*lent, words, count, *more)
    unless_refused(answer if isinstance(answer, int) else answer.refusal)
    return answer, tuple(words)


def step(card: Numbers, state: Numbers) -> tuple[int, ...]:
    """The state one step on."""
    return _on_state(_library.step, card, state)[1]


def step_back(card: Numbers, state: Numbers) -> tuple[int, ...]:
    """The one state whose step this is."""
    return _on_state(_library.step_back, card, state)[1]


def draw(card: Numbers, state: Numbers) -> tuple[int, tuple[int, ...]]:
    """The word of a step, and the state after it."""
    answer, after = _on_state(_library.draw, card, state)
    return answer.word, after


def fill(
    card: Numbers, state: Numbers, strip: Numbers, place: SupportsIndex = 0, count: SupportsIndex | None = None
) -> tuple[tuple[int, ...], tuple[int, ...]]:
    """The strip with the words of `count` draws from `place` on, and the state after them. No count: all that fit."""
    words, length = row(c_uint32, "strip", strip)
    after = _on_state(_library.fill, card, state, words, *span(length, place, count))[1]
    return tuple(words), after


def _lists(shovels: Numbers, times: Numbers) -> tuple[Any, ...]:
    """What C is handed of shovels and times."""
    return (*row(c_uint16, "shovels", shovels), *seconds_row(times))


def choice_of(answer: Chosen) -> Choice:
    return Choice(answer.shovel, answer.ties, answer.taken)


def pick(card: Numbers, state: Numbers, shovels: Numbers, times: Numbers) -> tuple[Choice, tuple[int, ...]]:
    """The chosen shovel, the number of ties and of words taken, and the state after the pick."""
    answer, after = _on_state(_library.pick, card, state, *_lists(shovels, times))
    return choice_of(answer), after


def _page(room: SupportsIndex, most: int) -> ctypes.Array[c_uint8]:
    """A page with so much room, or with the most that is ever needed."""
    return (c_uint8 * min(whole("room", room, 64), most))()


def record_size(words: int) -> int:
    """The bytes of the record that a tie leaves, where a state has so many words."""
    return 8 + 4 * words


def recorded_of(answer: Chosen, page: ctypes.Array[c_uint8], words: int) -> Recorded:
    return Recorded(choice_of(answer), bytes(page[: record_size(words)]) if answer.ties > 1 else None)


def pick_recorded(
    card: Numbers,
    state: Numbers,
    shovels: Numbers,
    times: Numbers,
    truck: SupportsIndex,
    room: SupportsIndex = MOST_RECORD_BYTES,
) -> tuple[Recorded, tuple[int, ...]]:
    """A pick for a truck: the choice and the record that a tie leaves, on a page with so much room; and the state after it.

    Room for fewer bytes than a record has, 8 and 4 for each word of the state, is refused by 16, tie or not, after all that a
    pick refuses.
    """
    number, page = truck_number(truck), _page(room, MOST_RECORD_BYTES)
    answer, after = _on_state(_library.pick_recorded, card, state, *_lists(shovels, times), number, page, len(page))
    return recorded_of(answer, page, len(after)), after


def read_record(record: Numbers) -> Record:
    """Every field of a record, for the desk, and None for one that it lacks; or refusal 20, also where bytes stand behind it."""
    answer = _library.read_record(*row(c_uint8, "record", record))
    unless_refused(answer.refusal)
    found = answer.record
    ties = found.ties if found.ties_given else None
    taken = found.taken if found.taken_given else None
    state = tuple(found.state[: found.words]) if found.state_given else None
    return Record(found.truck, found.shovel, ties, taken, state)


def order_for(truck: SupportsIndex, record: Numbers) -> int:
    """The shovel of a record, for the cab of this truck, and nothing else of it; or refusal 20, or 21 for another truck's.

    From two records of the same truck and shovel a cab hears the same.
    """
    answer = _library.order(truck_number(truck), *row(c_uint8, "record", record))
    unless_refused(answer.refusal)
    return answer.shovel


def margin_of(answer: MarginAnswer) -> Margin:
    return Margin(answer.changed, bool(answer.raised), answer.seconds, answer.shovel, answer.ties, answer.taken)


def margin(card: Numbers, state: Numbers, shovels: Numbers, times: Numbers) -> Margin:
    """The smallest change of one time that would send the truck elsewhere from this state, or refusal 19 where none does.

    A pick that is refused is refused here by the same number, and a change whose pick would be refused does not count. Of
    equally small changes the one of the lower shovel number is told, then lowered before raised.
    """
    return margin_of(_on_state(_library.margin, card, state, *_lists(shovels, times))[0])


def pick_by_map(
    card: Numbers, state: Numbers, x: SupportsIndex, y: SupportsIndex, shovels: Numbers, xs: Numbers, ys: Numbers
) -> tuple[Choice, tuple[int, ...]]:
    """The shovel nearest to a truck at (x, y), the number of ties and of words taken, and the state after the pick.

    Coordinates are whole metres, each from -1,000,000 to 1,000,000, and shovel i stands at (xs[i], ys[i]). Others are refused
    by 25, however wide, before too many ties by 18.
    """
    place, listed = (metres("x", x), metres("y", y)), row(c_uint16, "shovels", shovels)
    answer, after = _on_state(_library.pick_by_map, card, state, *place, *listed, *metres_row("xs", xs), *metres_row("ys", ys))
    return choice_of(answer), after


def placed(places: Places) -> tuple[Any, ...]:
    """Shovels and their coordinates, as C takes them."""
    shovels, xs, ys = shovels_and_places(places)
    count, length = len(shovels), c_size_t(len(shovels))
    return (c_uint16 * count)(*shovels), length, (c_int32 * count)(*xs), length, (c_int32 * count)(*ys), length


def within(x: SupportsIndex, y: SupportsIndex, radius: SupportsIndex, places: Places) -> list[int]:
    """The numbers of the shovels within a radius around (x, y), its edge counted, by distance and then by number.

    Places are {shovel: (x, y)} or pairs (shovel, (x, y)), in whole metres; the radius is 0 to 3,000,000 of them. No card is
    needed. Lists are refused by 13 to 15, as those of a pick, and then a coordinate or radius outside its limits by 25.
    """
    answer = _library.within(metres("x", x), metres("y", y), metres("radius", radius), *placed(places))
    unless_refused(answer.refusal)
    return answer.shovels[: answer.count]


def bit_counts(card: Numbers, words: Numbers, room: SupportsIndex | None = None) -> BitCounts:
    """The bits of words, each word's top bit first and as many as the card says, and what NIST SP 800-22 counts in them.

    After all that check refuses, more than MOST_STRIP_WORDS words are refused by 22, and a word that is wider than the card
    says by 23; and where room is given, of a page, fewer bytes than there are bits by 24.
    """
    lent = row(c_uint8, "card", card)
    strip, count = row(c_uint32, "words", words)
    most = 32 * min(count, MOST_STRIP_WORDS)  # more words are refused, and none is written
    page = _page(most if room is None else room, most)
    answer = _library.count_bits(*lent, strip, count, page, len(page))
    unless_refused(answer.refusal)
    bits = ctypes.string_at(page, count * _library.read(*lent).card.width)
    return BitCounts(answer.balance, answer.forward, answer.backward, answer.runs, bits)


def _arguments(name: str, value: Any) -> tuple[Any, ...]:
    """What C is handed of one value of a card."""
    if name == "table":
        return row(c_uint8, name, value)
    return (whole(name, value, 32 if name == "constant" else 8),)


def write(values: Values, room: SupportsIndex = MOST_CARD_BYTES) -> bytes:
    """The bytes of the card of these values, on a page with so much room."""
    arguments = [argument for name, value in values._asdict().items() for argument in _arguments(name, value)]
    page = _page(room, MOST_CARD_BYTES)
    answer = _library.write(*arguments, page, len(page))
    unless_refused(answer.refusal)
    return bytes(page[: answer.length])
