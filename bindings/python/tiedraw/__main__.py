"""The command line: python3 -m tiedraw."""

from __future__ import annotations

import argparse
import os
import sys
from typing import Any, Callable, Iterator

from . import (
    Generator,
    Refusal,
    Refused,
    __version__,
    bad_places,
    bit_counts,
    check,
    library_version,
    new_card,
    order_for,
    read,
    read_record,
    within,
)
from ._library import MOST_STRIP_WORDS, MOST_WORDS
from ._new_card import DEFAULT_WORDS, FEWEST_WORDS, NARROWEST, WIDEST, between
from ._ring import picture
from ._text import (
    choice_lines,
    count_lines,
    hex_bytes,
    metres,
    number,
    record_lines,
    save,
    shovel_place,
    shovel_time,
    state_text,
    state_words,
    truck,
    value_lines,
)

ABOUT = """\
Tie draws for mine dispatch, proved. Each command prints one fact a line, a name and its value.

CARD and RECORD are bytes in hex, with blanks between them or without, and comments from # to the end of a line; or @FILE,
a file of such text. Quote it if it has blanks. STATE is words in hex with commas between them, the first word first.
Trucks, shovels, seconds, metres and counts are decimal. X and Y are a place in whole metres, and may be negative."""

ARGUMENTS: dict[str, Callable[[str], Any]] = {
    "CARD": hex_bytes,
    "STATE": state_words,
    "TRUCK": truck,
    "RECORD": hex_bytes,
    "X": metres,
    "Y": metres,
    "RADIUS": metres,
}

ENDING = "Exit status: 0; 1 if the library refuses, with number and trade word on standard error; 2 if the usage is wrong."


def _check(options: argparse.Namespace) -> Iterator[str]:
    check(options.card)
    yield "accepted"


def _read(options: argparse.Namespace) -> Iterator[str]:
    values = read(options.card)
    if options.picture is not None:
        save(options.picture, picture(values.table, _bad_places_if_any(options.card)).encode())
    yield from value_lines(values)


def _bad_places_if_any(card: bytes) -> tuple[int, ...]:
    """None of a table that is a single cycle."""
    try:
        return bad_places(card)
    except Refused as refused:
        if refused.refusal is not Refusal.SINGLE_CYCLE:
            raise
        return ()


def _badbit(options: argparse.Namespace) -> Iterator[str]:
    bad = bad_places(options.card)
    yield f"count {len(bad)}"
    for place in bad:
        yield f"place {place}"


def _draw(options: argparse.Namespace) -> Iterator[str]:
    desk = Generator(options.card, options.state)
    for _ in range(options.count):
        yield f"word {desk.draw():08x}"
    yield f"state {state_text(desk.state)}"


def _bits(options: argparse.Namespace) -> Iterator[str]:
    desk = Generator(options.card, options.state)
    words = desk.words(min(options.count, MOST_STRIP_WORDS + 1))  # one too many is refused as any more are
    counts = bit_counts(desk.card, words)
    if options.file is not None:
        save(options.file, counts.bits)
    yield from count_lines(counts)
    yield f"state {state_text(desk.state)}"


def _pick(options: argparse.Namespace) -> Iterator[str]:
    desk = Generator(options.card, options.state)
    yield from choice_lines(desk.pick(options.times))
    yield f"state {state_text(desk.state)}"


def _recpick(options: argparse.Namespace) -> Iterator[str]:
    desk = Generator(options.card, options.state)
    choice, record = desk.pick_recorded(options.truck, options.times)
    yield from choice_lines(choice)
    yield f"state {state_text(desk.state)}"
    yield f"record {record.hex(' ') if record else 'none'}"


def _mappick(options: argparse.Namespace) -> Iterator[str]:
    desk = Generator(options.card, options.state)
    yield from choice_lines(desk.pick_by_map(options.x, options.y, options.places))
    yield f"state {state_text(desk.state)}"


def _within(options: argparse.Namespace) -> Iterator[str]:
    near = within(options.x, options.y, options.radius, options.places)
    yield f"count {len(near)}"
    for shovel in near:
        yield f"shovel {shovel}"


def _desk(options: argparse.Namespace) -> Iterator[str]:
    yield from record_lines(read_record(options.record))


def _cab(options: argparse.Namespace) -> Iterator[str]:
    yield f"shovel {order_for(options.truck, options.record)}"


def _margin(options: argparse.Namespace) -> Iterator[str]:
    margin = Generator(options.card, options.state).margin(options.times)
    yield f"change {margin.changed}"
    yield f"{'raised' if margin.raised else 'lowered'} {margin.seconds}"
    yield f"shovel {margin.shovel}"
    yield f"ties {margin.ties}"
    yield f"taken {margin.taken}"


def _new(options: argparse.Namespace) -> Iterator[str]:
    card = new_card(options.words, options.width, options.filter, options.seed)
    yield card.hex(" ")
    for line in value_lines(read(card)):
        yield f"# {line}"


def _parsed(parse: Callable[[str], Any]) -> Callable[[str], Any]:
    """For argparse, which tells the message of no other error."""

    def parsed(text: str) -> Any:
        try:
            return parse(text)
        except ValueError as error:
            raise argparse.ArgumentTypeError(str(error)) from None

    return parsed


def _range(name: str, least: int, most: int) -> Callable[[str], Any]:
    return _parsed(lambda text: between(name, number(text), least, most))


def _parser() -> argparse.ArgumentParser:
    raw = argparse.RawDescriptionHelpFormatter
    parser = argparse.ArgumentParser("python3 -m tiedraw", description=ABOUT, epilog=ENDING, formatter_class=raw)
    versions = f"binding {__version__}\nlibrary {library_version()}"
    parser.add_argument("--version", action="version", version=versions, help="print binding and library version")
    commands = parser.add_subparsers(metavar="COMMAND", required=True)

    def command(run: Callable[[argparse.Namespace], Iterator[str]], about: str, *arguments: str) -> argparse.ArgumentParser:
        added = commands.add_parser(run.__name__[1:], help=about, description=about)
        added.set_defaults(run=run)
        for name in arguments:
            parse = ARGUMENTS[name]
            added.add_argument(name.lower(), metavar=name, type=_parsed(parse), help=parse.__doc__)
        return added

    command(_check, "prints `accepted`, or the card is refused by 1 to 9", "CARD")
    reading = command(_read, "prints the eight values of a card, or it is refused by 1 to 6", "CARD")
    reading.add_argument("--picture", metavar="FILE", help="the table's ring is drawn there, as SVG, with its bad places marked")
    command(_badbit, "prints how many places to look at in a table that gets 7, and which; a sound one is refused by 26", "CARD")
    draw = command(_draw, "prints the word of each draw, then the state after the last", "CARD", "STATE")
    bits = command(_bits, "draws words, and prints what NIST SP 800-22 counts in their bits, then the state", "CARD", "STATE")
    for added in (draw, bits):
        added.add_argument("--count", metavar="N", type=_parsed(number), default=1, help="so many draws (default 1)")
    bits.add_argument("--file", metavar="FILE", help="the bits are written there, as 0 and 1, each word's top bit first")
    pick = command(_pick, "prints the shovel, the number of ties and of words taken, and the state after the pick", "CARD", "STATE")
    margin = command(_margin, "prints the smallest change of one time that sends the truck elsewhere, and that pick", "CARD", "STATE")
    recpick = command(_recpick, "picks for a truck, and prints also the record that a tie leaves", "CARD", "STATE", "TRUCK")
    for added in (pick, margin, recpick):
        added.add_argument("times", metavar="SHOVEL=SECONDS", nargs="*", type=_parsed(shovel_time), help="a shovel and its time")
    mappick = command(_mappick, "picks by places, for a truck at X, Y, and prints what pick prints", "CARD", "STATE", "X", "Y")
    near = command(_within, "prints how many shovels are within RADIUS metres of X, Y, and which, by distance", "X", "Y", "RADIUS")
    for added in (mappick, near):
        added.add_argument("places", metavar="SHOVEL=X:Y", nargs="*", type=_parsed(shovel_place), help="a shovel and its place")
    command(_desk, "prints every field of a record, `absent` for one that it lacks, or it is refused by 20", "RECORD")
    command(_cab, "prints the shovel of a truck's record, or it is refused by 20, or by 21 if it is another's", "TRUCK", "RECORD")
    _new_options(command(_new, "prints a new card in hex, and its values as comments: a file for @FILE"))
    return parser


def _new_options(new: argparse.ArgumentParser) -> None:
    for name, least, most, default, about in [
        ("words", FEWEST_WORDS, MOST_WORDS, DEFAULT_WORDS, "words of a state"),
        ("width", NARROWEST, WIDEST, WIDEST, "bits of a word"),
        ("filter", 1, 2, 1, "filter"),
    ]:
        told = f"{about}, {least} to {most} (default {default})"
        new.add_argument(f"--{name}", metavar="N", type=_range(name, least, most), default=default, help=told)
    new.add_argument("--seed", metavar="TEXT", help="the same card for the same text; else one by the system's randomness")


def main(arguments: list[str] | None = None) -> int:
    parser = _parser()
    options = parser.parse_args(arguments)
    try:
        for line in options.run(options):
            print(line)
        sys.stdout.flush()
    except Refused as refused:
        print(refused, file=sys.stderr)
        return 1
    except ValueError as error:
        parser.error(str(error))
    except BrokenPipeError:  # whoever reads has had enough
        os.dup2(os.open(os.devnull, os.O_WRONLY), sys.stdout.fileno())
    return 0


if __name__ == "__main__":
    sys.exit(main())
