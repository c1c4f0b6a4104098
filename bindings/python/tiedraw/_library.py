"""The calls of include/tiedraw.h with their C types."""

from __future__ import annotations

import ctypes
from ctypes import POINTER, c_int32, c_size_t, c_uint8, c_uint16, c_uint32
from typing import Any, Callable

from ._load import load
from ._version import __version__

LIBRARY, VERSION = load()

MOST_WORDS = 8
MOST_SHOVELS = 64
MOST_CARD_BYTES = 267
MOST_TAKEN = 16
MOST_RECORD_BYTES = 8 + 4 * MOST_WORDS
MOST_STRIP_WORDS = 16384
MOST_BAD_PLACES = (1 << MOST_WORDS) // 2
MOST_COORDINATE = 1000000
MOST_RADIUS = 3000000


class Card(ctypes.Structure):
    _fields_ = [
        ("words", c_uint8),
        ("width", c_uint8),
        ("odd_power", c_uint8),
        ("even_power", c_uint8),
        ("filter", c_uint8),
        ("sum_term", c_uint8),
        ("constant", c_uint32),
        ("table", c_uint8 * (1 << MOST_WORDS)),
    ]
    words: int
    width: int
    odd_power: int
    even_power: int
    filter: int
    sum_term: int
    constant: int
    table: ctypes.Array[c_uint8]


class Reading(ctypes.Structure):
    _fields_ = [("card", Card), ("refusal", c_uint8)]
    card: Card
    refusal: int


class Word(ctypes.Structure):
    _fields_ = [("word", c_uint32), ("refusal", c_uint8)]
    word: int
    refusal: int


class Chosen(ctypes.Structure):
    _fields_ = [("shovel", c_uint16), ("ties", c_uint8), ("taken", c_uint8), ("refusal", c_uint8)]
    shovel: int
    ties: int
    taken: int
    refusal: int


class MarginAnswer(ctypes.Structure):
    _fields_ = [
        ("seconds", c_uint32),
        ("changed", c_uint16),
        ("shovel", c_uint16),
        ("raised", c_uint8),
        ("ties", c_uint8),
        ("taken", c_uint8),
        ("refusal", c_uint8),
    ]
    seconds: int
    changed: int
    shovel: int
    raised: int
    ties: int
    taken: int
    refusal: int


class Written(ctypes.Structure):
    _fields_ = [("length", c_size_t), ("refusal", c_uint8)]
    length: int
    refusal: int


class RecordFields(ctypes.Structure):
    _fields_ = [
        ("state", c_uint32 * MOST_WORDS),
        ("truck", c_uint16),
        ("shovel", c_uint16),
        ("ties_given", c_uint8),
        ("ties", c_uint8),
        ("taken_given", c_uint8),
        ("taken", c_uint8),
        ("state_given", c_uint8),
        ("words", c_uint8),
    ]
    state: ctypes.Array[c_uint32]
    truck: int
    shovel: int
    ties_given: int
    ties: int
    taken_given: int
    taken: int
    state_given: int
    words: int


class RecordReading(ctypes.Structure):
    _fields_ = [("record", RecordFields), ("refusal", c_uint8)]
    record: RecordFields
    refusal: int


class OrderAnswer(ctypes.Structure):
    _fields_ = [("shovel", c_uint16), ("refusal", c_uint8)]
    shovel: int
    refusal: int


class Counted(ctypes.Structure):
    _fields_ = [
        ("balance", c_int32),
        ("forward", c_uint32),
        ("backward", c_uint32),
        ("runs", c_uint32),
        ("refusal", c_uint8),
    ]
    balance: int
    forward: int
    backward: int
    runs: int
    refusal: int


class WithinAnswer(ctypes.Structure):
    _fields_ = [("shovels", c_uint16 * MOST_SHOVELS), ("count", c_uint8), ("refusal", c_uint8)]
    shovels: ctypes.Array[c_uint16]
    count: int
    refusal: int


class BadPlacesAnswer(ctypes.Structure):
    _fields_ = [("places", c_uint8 * MOST_BAD_PLACES), ("count", c_uint8), ("refusal", c_uint8)]
    places: ctypes.Array[c_uint8]
    count: int
    refusal: int


def library_version() -> str:
    """The version of the library that is loaded."""
    return VERSION


def call(name: str, answer: Any, parameters: list[Any] | None = None) -> Callable[..., Any]:
    """A call of the library. Without parameters, whoever calls it hands over ctypes objects of the right types."""
    try:
        found = LIBRARY[name]
    except AttributeError:
        raise ImportError(f"{LIBRARY._name} has no {name}, which binding {__version__} needs") from None
    found.restype = answer
    if parameters is not None:
        found.argtypes = parameters
    return found


_BYTES = [POINTER(c_uint8), c_size_t]
_ON_STATE = [*_BYTES, POINTER(c_uint32), c_size_t]
_LISTS = [POINTER(c_uint16), c_size_t, POINTER(c_uint32), c_size_t]
_SPAN = [POINTER(c_uint32), c_size_t, c_size_t, c_size_t]
_PLACED = [POINTER(c_uint16), c_size_t, POINTER(c_int32), c_size_t, POINTER(c_int32), c_size_t]

check: Callable[..., int] = call("tiedraw_check", c_uint8, _BYTES)
read: Callable[..., Reading] = call("tiedraw_read", Reading, _BYTES)
bad_places: Callable[..., BadPlacesAnswer] = call("tiedraw_bad_places", BadPlacesAnswer, _BYTES)
step: Callable[..., int] = call("tiedraw_step", c_uint8, _ON_STATE)
step_back: Callable[..., int] = call("tiedraw_step_back", c_uint8, _ON_STATE)
draw: Callable[..., Word] = call("tiedraw_draw", Word, _ON_STATE)
fill: Callable[..., int] = call("tiedraw_fill", c_uint8, _ON_STATE + _SPAN)
pick: Callable[..., Chosen] = call("tiedraw_pick", Chosen, _ON_STATE + _LISTS)
pick_recorded: Callable[..., Chosen] = call("tiedraw_pick_recorded", Chosen, _ON_STATE + _LISTS + [c_uint16] + _BYTES)
read_record: Callable[..., RecordReading] = call("tiedraw_read_record", RecordReading, _BYTES)
order: Callable[..., OrderAnswer] = call("tiedraw_order", OrderAnswer, [c_uint16, *_BYTES])
margin: Callable[..., MarginAnswer] = call("tiedraw_margin", MarginAnswer, _ON_STATE + _LISTS)
pick_by_map: Callable[..., Chosen] = call("tiedraw_pick_by_map", Chosen, [*_ON_STATE, c_int32, c_int32, *_PLACED])
within: Callable[..., WithinAnswer] = call("tiedraw_within", WithinAnswer, [c_int32, c_int32, c_int32, *_PLACED])
count_bits: Callable[..., Counted] = call("tiedraw_count_bits", Counted, [*_BYTES, POINTER(c_uint32), c_size_t, *_BYTES])
write: Callable[..., Written] = call(
    "tiedraw_write", Written, [c_uint8, c_uint8, *_BYTES, c_uint8, c_uint8, c_uint32, c_uint8, c_uint8, *_BYTES]
)
