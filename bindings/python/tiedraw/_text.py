"""Cards, states, shovels, places, records and counts as text, for the command line. What is no such text raises ValueError."""

from __future__ import annotations

import re
from pathlib import Path
from reprlib import repr as shown
from typing import Iterable

from ._numbers import truck_number, whole
from ._values import BitCounts, Choice, Record, Values


def _file(name: str) -> str:
    try:
        return Path(name).read_text(encoding="utf-8")
    except OSError as error:
        raise ValueError(f"{name}: {error.strerror}") from None


def save(name: str, text: bytes) -> None:
    """Into a file, in place of what it had."""
    try:
        Path(name).write_bytes(text)
    except OSError as error:
        raise ValueError(f"{name}: {error.strerror}") from None


def hex_bytes(text: str) -> bytes:
    """Bytes in hex; blanks may stand between them, and comments from # to the end of a line. @FILE is a file of such text."""
    if text.startswith("@"):
        text = _file(text[1:])
    try:
        return bytes.fromhex(re.sub("#.*", "", text))
    except ValueError:
        raise ValueError(f"{shown(text)} is not bytes in hex, of two digits each") from None


def state_words(text: str) -> list[int]:
    """Words in hex with commas between them."""
    words = text.split(",") if text else []
    for word in words:
        if not re.fullmatch("[0-9a-fA-F]+", word):
            raise ValueError(f"{shown(word)} is not a word in hex")
    return [whole(f"word {i}", int(word, 16), 32) for i, word in enumerate(words)]


def number(text: str) -> int:
    """A whole number in decimal."""
    if not re.fullmatch("[0-9]{1,20}", text):
        raise ValueError(f"{shown(text)} is not a whole number")
    return int(text)


def truck(text: str) -> int:
    """A truck's number in decimal."""
    return truck_number(number(text))


def shovel_time(text: str) -> tuple[int, int]:
    """SHOVEL=SECONDS in decimal."""
    shovel, equals, seconds = text.partition("=")
    if not equals:
        raise ValueError(f"{shown(text)} is not SHOVEL=SECONDS")
    return whole("SHOVEL", number(shovel), 16), whole("SECONDS", number(seconds), 32)


def metres(text: str) -> int:
    """Whole metres in decimal; negative ones have a minus sign."""
    if not re.fullmatch("-?[0-9]{1,20}", text):
        raise ValueError(f"{shown(text)} is not a whole number of metres")
    return int(text)


def shovel_place(text: str) -> tuple[int, tuple[int, int]]:
    """SHOVEL=X:Y in decimal."""
    found = re.fullmatch("([^=]*)=([^:]*):([^:]*)", text)
    if not found:
        raise ValueError(f"{shown(text)} is not SHOVEL=X:Y")
    shovel, x, y = found.groups()
    return whole("SHOVEL", number(shovel), 16), (metres(x), metres(y))


def state_text(words: Iterable[int]) -> str:
    """As state_words reads it."""
    return ",".join(f"{word:08x}" for word in words)


def choice_lines(choice: Choice) -> list[str]:
    """The name of each field, and the field."""
    return [f"{name} {value}" for name, value in choice._asdict().items()]


def count_lines(counts: BitCounts) -> list[str]:
    """The name of each count, and the count."""
    return [f"{name} {value}" for name, value in counts._asdict().items() if name != "bits"]


def record_lines(record: Record) -> list[str]:
    """The name of each field, and the field, or `absent`."""
    state = None if record.state is None else state_text(record.state)
    fields = {**record._asdict(), "state": state}
    return [f"{name} {'absent' if value is None else value}" for name, value in fields.items()]


def value_lines(values: Values) -> list[str]:
    """The name of each value, and the value."""
    shown_values = {**values._asdict(), "table": " ".join(map(str, values.table)), "constant": f"0x{values.constant:x}"}
    return [f"{name.replace('_', ' ')} {value}" for name, value in shown_values.items()]
