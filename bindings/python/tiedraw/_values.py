"""What the calls take and answer: the values of a card, the choice of a pick, its record, how near it was, and counts of bits."""

from __future__ import annotations

from typing import NamedTuple, Sequence


class Choice(NamedTuple):
    """What a pick answers: the shovel's number, how many shovels were nearest, and how many words were taken.

    Nearest are those of the least time or, by the map, of the least distance. No word is taken where one alone is, else 1 to
    16. The state has made as many steps, so that as many steps back take the pick back.
    """

    shovel: int
    ties: int
    taken: int


class Recorded(NamedTuple):
    """What a recorded pick answers: the choice, and the bytes of the record that a tie leaves.

    There is no record, None, where one shovel alone had the least time.
    """

    choice: Choice
    record: bytes | None


class Record(NamedTuple):
    """The fields of a record, as the desk reads them. One that other pits' records may lack is None then, which is not 0.

    `state` is that before the pick, 2 to 8 words: a pick from it, with the same card and times, is this pick. The records of
    our picks have every field.
    """

    truck: int
    shovel: int
    ties: int | None
    taken: int | None
    state: tuple[int, ...] | None


class Margin(NamedTuple):
    """What a margin answers: the smallest change of one shovel's time that would send the truck elsewhere.

    `changed` is the number of that shovel. Its time is raised, or else lowered, by so many seconds, 1 at least, and stays
    within 0 to 4294967295; `shovel`, `ties` and `taken` are what the pick would then answer, as in a Choice.
    """

    changed: int
    raised: bool
    seconds: int
    shovel: int
    ties: int
    taken: int


class BitCounts(NamedTuple):
    """The bits of words, and what the tests of NIST SP 800-22 count in them. All four counts are 0 where there are no bits.

    `balance` is ones minus zeros (S_n, frequency test); `forward` and `backward` are the largest distance from zero of the
    running sum of +1 for a one and -1 for a zero, read from the first bit on and from the last bit back (z, cumulative sums
    test); `runs` is the number of runs (V_n, runs test). `bits` is ASCII 0 and 1, as the published suite reads them.
    """

    balance: int
    forward: int
    backward: int
    runs: int
    bits: bytes


class Values(NamedTuple):
    """The eight values of a card; those of TSC-1 unless given. There are 2 to 8 words, and the table has 2^words entries."""

    words: int = 4
    width: int = 32
    table: Sequence[int] = (3, 5, 9, 13, 1, 6, 11, 15, 4, 0, 8, 14, 10, 7, 2, 12)
    odd_power: int = 1
    even_power: int = 2
    constant: int = 0x12488421
    filter: int = 1
    sum_term: int = 1
