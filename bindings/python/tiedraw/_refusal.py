"""The refusals: number, trade word, and when each is told."""

from __future__ import annotations

import enum

from ._version import __version__


class Refusal(enum.IntEnum):
    """Why a call was refused, by the library's numbers. `trade_word` is the trade's word for it, `when` says when it is told."""

    trade_word: str
    when: str

    TRUNCATED = 1, "short", "the bytes end before the map, or before the last byte of a field"
    OUT_OF_RANGE = 2, "range", "a field or table entry is outside the allowed values"
    REDUNDANT = 3, "idle", "a field is given that equals its absent value"
    TABLE_MISSING = 4, "tableless", "the words are not 4, and no table is given"
    TRAILING_BYTES = 5, "long", "bytes are left after the last field"
    CONSTANT_TOO_WIDE = 6, "wide", "the constant is wider than a word"
    NOT_SINGLE_CYCLE = 7, "broken ring", "the table is not a single cycle"
    EVEN_CONSTANT = 8, "even constant", "the constant is even"
    POWER_PARITY = 9, "powers", "the odd power is even, or the even power is odd"
    WORD_COUNT = 10, "word count", "the state has not as many words as the card says"
    WORD_TOO_WIDE = 11, "high bits", "a state word is wider than the card says"
    LENGTH_MISMATCH = 12, "uneven", "shovels and times, or shovels and their places, differ in count"
    NO_SHOVEL = 13, "no shovel", "the list is empty"
    TOO_MANY_SHOVELS = 14, "crowd", "more than 64 shovels"
    DUPLICATE_SHOVEL = 15, "twice", "a shovel number stands twice"
    BUFFER_TOO_SMALL = 16, "small page", "the page has fewer bytes than the card or the record needs"
    SPAN_OUT_OF_BOUNDS = 17, "span", "the place is past the strip's end, or the count does not fit behind it"
    TOO_MANY_TIES = 18, "too many equals", "more shovels are nearest than there are words, 2^n"
    NO_SUCH_CHANGE = 19, "firm", "no change of one shovel's time sends the truck elsewhere"
    MALFORMED_RECORD = 20, "torn", "a record's map, state count or length is not of its form"
    TRUCK_MISMATCH = 21, "other truck", "the record is of another truck than the cab's"
    STRIP_TOO_LONG = 22, "strip too long", "the strip has more than 16,384 words"
    STRIP_WORD_TOO_WIDE = 23, "strip bits", "a strip word is wider than the card says"
    BIT_PAGE_TOO_SMALL = 24, "bit page", "the page has fewer bytes than the strip has bits"
    OFF_MAP = 25, "off map", "a coordinate is outside -1,000,000 to 1,000,000, or the radius outside 0 to 3,000,000"
    SINGLE_CYCLE = 26, "sound ring", "bad places are asked of a table that is a single cycle"

    def __new__(cls, number: int, trade_word: str, when: str) -> Refusal:
        self = int.__new__(cls, number)
        self._value_ = number
        self.trade_word = trade_word
        self.when = when
        return self


class Refused(Exception):
    """A refused call. Nothing has changed. `number` is the library's; `refusal` is None where this binding doesn't know it."""

    def __init__(self, number: int):
        super().__init__(int(number))

    @property
    def number(self) -> int:
        number: int = self.args[0]
        return number

    @property
    def refusal(self) -> Refusal | None:
        return next((refusal for refusal in Refusal if refusal == self.number), None)

    def __str__(self) -> str:
        refusal = self.refusal
        if refusal is None:
            return f"refusal {self.number}: unknown to this binding, version {__version__}"
        return f"refusal {self.number} ({refusal.trade_word}): {refusal.when}"


def unless_refused(number: int) -> None:
    """Goes on where the library tells 0."""
    if number:
        raise Refused(number)
