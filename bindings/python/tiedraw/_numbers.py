"""Numbers on their way to C, where ctypes would cut off what is too wide. An error names the place and the value."""

from __future__ import annotations

import ctypes
import operator
from collections.abc import Mapping, Set
from reprlib import repr as shown
from typing import Any, Callable, Iterable, Iterator, SupportsIndex, TypeVar, Union

Kind = TypeVar("Kind", ctypes.c_uint8, ctypes.c_uint16, ctypes.c_uint32)

Numbers = Iterable[SupportsIndex]
Times = Union[Mapping[int, SupportsIndex], Iterable[tuple[SupportsIndex, SupportsIndex]]]
Place = tuple[SupportsIndex, SupportsIndex]
Places = Union[Mapping[int, Place], Iterable[tuple[SupportsIndex, Place]]]

WIDEST_SIZE = ctypes.c_size_t(-1).value
LEAST_INT32, MOST_INT32 = -(2**31), 2**31 - 1


def integer(place: str, number: SupportsIndex, of: str = "") -> int:
    """The number, if it is a whole one."""
    try:
        if isinstance(number, bool):
            raise TypeError
        return operator.index(number)
    except TypeError:
        raise TypeError(f"{place}: {shown(number)} is not a whole number{of}") from None


def natural(place: str, number: SupportsIndex, of: str = "") -> int:
    """The number, if it is a whole one and not negative."""
    found = integer(place, number, of)
    if found < 0:
        raise ValueError(f"{place}: {shown(found)} is negative")
    return found


def whole(place: str, number: SupportsIndex, bits: int, of: str = "") -> int:
    """The number, if it is a whole one of so many bits."""
    found = natural(place, number, of)
    if found >> bits:
        raise ValueError(f"{place}: {shown(found)} is more than {bits} bits")
    return found


def _each(numbers: Numbers, bits: int, place: Callable[[int], str], of: str) -> list[int]:
    """Whole numbers of so many bits. The place is put into words for what is not plainly one."""
    return [
        number if type(number) is int and not number >> bits else whole(place(i), number, bits, of)
        for i, number in enumerate(numbers)
    ]


def _one_by_one(name: str, numbers: Any, what: str) -> Iterator[Any]:
    try:
        return iter(numbers)
    except TypeError:
        raise TypeError(f"{name}: {shown(numbers)} is not {what}") from None


def _ordered(name: str, numbers: Numbers) -> Iterator[Any]:
    """The numbers, in the order in which they stand."""
    if isinstance(numbers, str):
        hint = f"bytes.fromhex makes a {name} of it" if name in ("card", "record") else "numbers are asked for"
        raise TypeError(f"{name}: {shown(numbers)} is text; {hint}")
    if isinstance(numbers, (Mapping, Set)):
        raise TypeError(f"{name}: {shown(numbers)} is a {type(numbers).__name__}, which has no order")
    return _one_by_one(name, numbers, "a row of numbers")


def row(kind: type[Kind], name: str, numbers: Numbers, of: str = "") -> tuple[ctypes.Array[Kind], int]:
    """An array for C, in the order in which the numbers stand, and its length."""
    entries = _each(_ordered(name, numbers), 8 * ctypes.sizeof(kind), lambda i: f"{name}[{i}]", of)
    return (kind * len(entries))(*entries), len(entries)


def truck_number(truck: SupportsIndex) -> int:
    return whole("truck", truck, 16)


def seconds_row(times: Numbers) -> tuple[ctypes.Array[ctypes.c_uint32], int]:
    return row(ctypes.c_uint32, "times", times, " of seconds")


def _size(name: str, number: SupportsIndex) -> int:
    """A number for size_t. One that is too wide becomes the widest, which is more than any strip has."""
    return min(natural(name, number), WIDEST_SIZE)


def span(length: int, place: SupportsIndex, count: SupportsIndex | None) -> tuple[int, int, int]:
    """A strip's length, and a place and count in it; no count is all that fits behind the place. C judges whether it fits."""
    begin = _size("place", place)
    return length, begin, max(length - begin, 0) if count is None else _size("count", count)


def metres(place: str, number: SupportsIndex) -> int:
    """A number for int32_t. One that is too wide becomes the widest on its side of 0, which is off the map as well."""
    return max(LEAST_INT32, min(integer(place, number, " of metres"), MOST_INT32))


def _each_metres(numbers: Numbers, place: Callable[[int], str]) -> list[int]:
    return [
        number if type(number) is int and LEAST_INT32 <= number <= MOST_INT32 else metres(place(i), number)
        for i, number in enumerate(numbers)
    ]


def metres_row(name: str, numbers: Numbers) -> tuple[ctypes.Array[ctypes.c_int32], int]:
    entries = _each_metres(_ordered(name, numbers), lambda i: f"{name}[{i}]")
    return (ctypes.c_int32 * len(entries))(*entries), len(entries)


def _pairs(things: Iterable[Any], place: Callable[[int], str], of: str) -> list[tuple[Any, Any]]:
    def pair(i: int, thing: Any) -> tuple[Any, Any]:
        try:
            first, second = thing
        except (TypeError, ValueError):
            raise TypeError(f"{place(i)}: {shown(thing)} is not a pair of {of}") from None
        return first, second

    return [pair(i, thing) for i, thing in enumerate(things)]


def _by_shovel(name: str, given: Any, what: str) -> tuple[list[int], list[Any], Callable[[int], str]]:
    """Shovel numbers and what is given for each, of a mapping or of pairs; and its place, name[shovel] or name[i][1]."""
    if isinstance(given, Mapping):
        pairs = list(given.items())
        places = (lambda i: f"a key of {name}", lambda i: f"{name}[{shown(pairs[i][0])}]")
    else:
        one_by_one = _one_by_one(name, given, "a mapping or pairs")
        pairs = _pairs(one_by_one, lambda i: f"{name}[{i}]", f"shovel and {what}")
        places = (lambda i: f"{name}[{i}][0]", lambda i: f"{name}[{i}][1]")
    return _each((shovel for shovel, _ in pairs), 16, places[0], ""), [thing for _, thing in pairs], places[1]


def shovels_and_times(times: Times) -> tuple[list[int], list[int]]:
    """Shovel numbers and times, of {shovel: time} or of pairs; an error says times[shovel], or times[place][0 or 1]."""
    shovels, seconds, place = _by_shovel("times", times, "time")
    return shovels, _each(seconds, 32, place, " of seconds")


def shovels_and_places(places: Places) -> tuple[list[int], list[int], list[int]]:
    """Shovel numbers and coordinates, of {shovel: (x, y)} or of pairs; an error says places[7][0], or places[0][1][0]."""
    shovels, found, place = _by_shovel("places", places, "place")
    pairs = _pairs(found, place, "x and y")
    xs = _each_metres((x for x, _ in pairs), lambda i: f"{place(i)}[0]")
    return shovels, xs, _each_metres((y for _, y in pairs), lambda i: f"{place(i)}[1]")
