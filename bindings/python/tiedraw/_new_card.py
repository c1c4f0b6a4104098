"""Makes a new card for a pit, from the system's randomness or from a seed."""

from __future__ import annotations

import hashlib
import secrets
from itertools import count
from typing import Callable, Iterator

from ._calls import check, write
from ._library import MOST_WORDS
from ._numbers import whole
from ._values import Values

FEWEST_WORDS, NARROWEST, WIDEST = 2, 2, 32
DEFAULT_WORDS = Values().words  # TSC-1's


def between(name: str, number: int, least: int, most: int) -> int:
    """The number, if it is a whole one from least to most."""
    found = whole(name, number, 32)
    if not least <= found <= most:
        raise ValueError(f"{name}: {found} is not {least} to {most}")
    return found


def _seeded(seed: str) -> Iterator[int]:
    """Words of 32 bits. Block k, from 0 on, is SHA-256 of the seed in UTF-8 and k in 8 bytes; low bytes first."""
    for block in count():
        digest = hashlib.sha256(seed.encode() + block.to_bytes(8, "little")).digest()
        for at in range(0, len(digest), 4):
            yield int.from_bytes(digest[at : at + 4], "little")


def _below(words: Iterator[int]) -> Callable[[int], int]:
    """Numbers below a bound, all equally likely: a word modulo the bound. Words past its last multiple are passed over."""
    return lambda bound: next(word % bound for word in words if word < 2**32 - 2**32 % bound)


def _cycle(size: int, below: Callable[[int], int]) -> tuple[int, ...]:
    """A table that is one cycle, by Sattolo's algorithm: all are equally likely."""
    table = list(range(size))
    for last in range(size - 1, 0, -1):
        other = below(last)
        table[last], table[other] = table[other], table[last]
    return tuple(table)


def new_card(words: int = DEFAULT_WORDS, width: int = WIDEST, filter: int = 1, seed: str | None = None) -> bytes:
    """A card that the library accepts, of 2 to 8 words: its table a random cycle, its constant odd, random and of full width.

    Powers and sum term are those of TSC-1. A seed gives the same card on every machine: the table's numbers are drawn
    first, from the last entry down, then the constant's bits between its highest and its lowest, which are 1.
    """
    words = between("words", words, FEWEST_WORDS, MOST_WORDS)
    width = between("width", width, NARROWEST, WIDEST)
    filter = between("filter", filter, 1, 2)
    if not (seed is None or isinstance(seed, str)):
        raise TypeError(f"seed: {seed!r} is not text")
    below = secrets.randbelow if seed is None else _below(_seeded(seed))
    table = _cycle(1 << words, below)
    constant = (1 << width - 1) + 2 * below(1 << width - 2) + 1
    card = write(Values(words=words, width=width, table=table, constant=constant, filter=filter))
    check(card)
    return card
