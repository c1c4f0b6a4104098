"""The papers' cases, of cases/papers.txt, for the tests."""

import pathlib

FILE = pathlib.Path(__file__).resolve().parents[2] / "cases/papers.txt"


def numbers(text, base=10):
    return [] if text == "-" else [int(number, base) for number in text.split(",")]


def from_hex(text):
    return bytes.fromhex(text.strip("-"))


def split(call):
    """Of each case of a call: its fields and those of the answer, as they stand."""
    for line in FILE.read_text(encoding="utf-8").splitlines():
        if line.startswith(f"{call} ") and not line.endswith(" => syntax"):
            (_, *fields), answer = (part.split(" ") for part in line.split(" => "))
            yield fields, answer


def lines(call):
    """Of each case of a call: its fields, as they stand; and the answer, its fields by name or the refusal."""
    for fields, answer in split(call):
        told = dict(zip(answer[::2], answer[1::2]))
        yield fields, int(told.get("refused", 0)) or told


def cases(call):
    """Of each case of a call on a state: card, state, the fields behind them; and the answer, its fields by name or the refusal."""
    for (card, state, *more), told in lines(call):
        yield from_hex(card), numbers(state, 16), more, told
