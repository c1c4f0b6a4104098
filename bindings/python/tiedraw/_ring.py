"""The ring of a card's table as a picture (SVG): places around a circle, an arrow from each to its entry, the bad ones marked.

It needs no library, so that the pictures of the documents are drawn without one.
"""

from __future__ import annotations

from cmath import exp
from html import escape
from math import degrees, tau
from typing import Iterator, Sequence

INK, FAINT = "#22303c", "#5f6d7a"
SOUND, PLAIN, BAD = ("#e9f5ea", "#4f9a57"), ("#eef1f5", "#7d8b99"), ("#fbd9d4", "#b3261e")  # fill and edge of a place
LEAST_WIDTH, LEAST_RADIUS, MARGIN, HEAD_ROOM = 600, 90, 24, 64
MOST_INSIDE = 64  # so many places are large enough for their numbers; those of more have them outside the ring
GAP = 0.5  # of a step between two places, where the table does not lead on
MOST_NAMED = 8  # so many bad places are named above the picture


def _apart(count: int) -> float:
    """How far apart neighbours stand in a table of so many places, if it is a whole ring."""
    return 56 if count <= 32 else 40 if count <= MOST_INSIDE else 14 if count <= 128 else 11.3


def _walks(table: Sequence[int]) -> list[list[int]]:
    """The places as the table leads: from 0 on until one comes again, then so from each that no entry leads to, then from each
    that is left."""
    seen: set[int] = set()
    found: list[list[int]] = []
    entries = set(table)
    for place in [0, *(place for place in range(len(table)) if place not in entries), *range(len(table))]:
        walk: list[int] = []
        while place not in seen:
            seen.add(place)
            walk.append(place)
            place = table[place]
        if walk:
            found.append(walk)
    return found


def _around(table: Sequence[int]) -> tuple[dict[int, float], float]:
    """Where each place stands, counted in steps along the circle, and how many steps it has: a walk behind the other, with gaps
    between them. The last has none behind it where it leads to 0, at which the circle closes."""
    at: dict[int, float] = {}
    here = 0.0
    for walk in _walks(table):
        at.update((place, here + i) for i, place in enumerate(walk))
        here += len(walk) + GAP
    return at, here - GAP if table[walk[-1]] == 0 else here


def _named(places: Sequence[int]) -> str:
    if len(places) > MOST_NAMED:
        return f"the {len(places)} marked places"
    return f"place{'s' if len(places) > 1 else ''} {', '.join(map(str, places))}"


def _verdict(table: Sequence[int], bad: Sequence[int]) -> tuple[str, str]:
    """What is said above the picture: the verdict on the table, and why."""
    if not bad:
        return f"sound ring: one cycle of {len(table)}", "every place comes up once, and then the first again"
    entries = {table[place] for place in bad}
    if len(bad) == 1:
        why = f"place {bad[0]} leads to itself"
    elif len(entries) == 1:
        why = f"places {bad[0]} and {bad[1]} both lead to {entries.pop()}"
    elif len(bad) == 2:
        why = f"places {bad[0]} and {bad[1]} lead to each other"
    else:
        why = f"{len(bad)} places lead round among themselves, and {len(table) - len(bad)} are left out"
    return f"broken ring (7): look at {_named(bad)}", why


def _text(x: float, y: float, words: object, size: float, fill: str = INK, more: str = 'text-anchor="middle"') -> str:
    return f'<text x="{x:.1f}" y="{y:.1f}" font-size="{size:.1f}" fill="{fill}" {more}>{escape(str(words))}</text>'


def _mark(x: float, y: float, radius: float, colours: tuple[str, str], dashed: bool) -> str:
    """A place: a circle, or a square with a thick edge if it is bad; the edge is dashed where no arrow leads to it."""
    fill, edge = colours
    thick = max(radius / 6, 1.2) if colours == BAD else max(radius / 11, 0.8)
    dashes = f' stroke-dasharray="{radius / 4:.1f} {radius / 5:.1f}"' if dashed else ""
    drawn = f'fill="{fill}" stroke="{edge}" stroke-width="{thick:.1f}"{dashes}/>'
    if colours == BAD:
        return f'<rect x="{x - radius:.1f}" y="{y - radius:.1f}" width="{2 * radius:.1f}" height="{2 * radius:.1f}" {drawn}'
    return f'<circle cx="{x:.1f}" cy="{y:.1f}" r="{radius:.1f}" {drawn}'


def _pair(point: complex) -> str:
    return f"{point.real:.1f},{point.imag:.1f}"


class _Ring:
    """A table and its bad places, laid out. A point is a complex number, x to the right and y down."""

    def __init__(self, table: Sequence[int], bad: Sequence[int]):
        self.table, self.bad, self.entries = table, set(bad), set(table)
        self.at, self.length = _around(table)
        self.radius = max(LEAST_RADIUS, len(table) * _apart(len(table)) / tau)
        step = tau * self.radius / self.length
        self.mark, self.head = min(16, 0.32 * step), min(9, 0.36 * step)
        self.tip = 0.4 * self.head + 0.5  # of the head, past the end of the line
        self.inside = len(table) <= MOST_INSIDE
        self.figure = 0.8 * self.mark if self.inside else min(10, 0.8 * step)
        room = self.radius + self.mark + MARGIN + (0 if self.inside else 3 * self.figure)
        self.width = max(LEAST_WIDTH, 2 * room)
        self.centre = complex(self.width / 2, HEAD_ROOM + room)
        self.bottom = HEAD_ROOM + 2 * room

    def outward(self, place: int) -> complex:
        """From the centre to a place, of length 1; place 0 is at the top, and others follow clockwise."""
        return -1j * exp(1j * tau * self.at[place] / self.length)

    def point(self, place: int) -> complex:
        return self.centre + self.radius * self.outward(place)

    def reach(self, place: int, way: complex) -> float:
        """How far a mark reaches from its middle in this direction."""
        return self.mark * abs(way) / max(abs(way.real), abs(way.imag)) if place in self.bad else self.mark

    def start(self, place: int, way: complex) -> complex:
        """Where an arrow that leaves in this direction comes out of the mark."""
        return self.point(place) + way / abs(way) * self.reach(place, way)

    def end(self, place: int, way: complex) -> complex:
        """Where an arrow that comes from this direction ends, short of the mark by its tip."""
        return self.point(place) + way / abs(way) * (self.reach(place, way) + self.tip)

    def loop(self, place: int) -> str:
        """An arrow from a place to itself, on the inside."""
        there, back = (-self.outward(place) * exp(turn * 1j) for turn in (0.9, -0.9))
        ways = [self.point(place) + 4 * self.mark * way for way in (there, back)]
        return f"M{_pair(self.start(place, there))} C{_pair(ways[0])} {_pair(ways[1])} {_pair(self.end(place, back))}"

    def line(self, place: int, entry: int) -> str:
        """An arrow to the next place, straight."""
        way = self.point(entry) - self.point(place)
        start, end = self.reach(place, way), self.reach(entry, way) + self.tip
        part = min(1 / abs(way), 0.9 / (start + end))  # less than all that the marks take, where they stand too close
        return f"M{_pair(self.point(place) + way * start * part)} L{_pair(self.point(entry) - way * end * part)}"

    def bow(self, place: int, entry: int) -> str:
        """An arrow to any other place, bent to the centre so that it passes those between them on the inside."""
        middle = (self.point(place) + self.point(entry)) / 2 - self.centre
        pull = 0.6 * abs(self.point(entry) - self.point(place)) + 2 * self.mark
        bend = self.centre + middle * max(0, 1 - pull / max(abs(middle), 1))
        start, end = self.start(place, bend - self.point(place)), self.end(entry, bend - self.point(entry))
        return f"M{_pair(start)} Q{_pair(bend)} {_pair(end)}"

    def arrow(self, place: int) -> str:
        entry = self.table[place]
        if entry == place:
            path = self.loop(place)
        elif (self.at[entry] - self.at[place]) % self.length == 1:
            path = self.line(place, entry)
        else:
            path = self.bow(place, entry)
        bad = place in self.bad
        edge, head = (BAD[1], "bad-head") if bad else (FAINT, "head")
        thick = max(0.3 * self.head, 1.8) if bad else max(0.15 * self.head, 0.8)
        return f'<path d="{path}" fill="none" stroke="{edge}" stroke-width="{thick:.1f}" marker-end="url(#{head})"/>'

    def number(self, place: int) -> str:
        """In its mark, or outside the ring along the way from the centre, never upside down."""
        fill, bold = (BAD[1], ' font-weight="bold"') if place in self.bad else (INK, "")
        at, size = self.point(place), self.figure
        if self.inside:
            return _text(at.real, at.imag + 0.36 * size, place, size, fill, f'text-anchor="middle"{bold}')
        size *= 1.4 if place in self.bad else 1
        turn = degrees(tau * self.at[place] / self.length) - 90
        anchor, turn = ("start", turn) if turn <= 90 else ("end", turn - 180)
        at += (self.mark + 5) * self.outward(place)
        turned = f'transform="translate({_pair(at)}) rotate({turn:.1f})"'
        return _text(0, 0.36 * size, place, size, fill, f'text-anchor="{anchor}" {turned}{bold}')

    def place(self, place: int) -> str:
        """Its mark and number, and by a title, which viewers show under the pointer, its entry."""
        bad, at = place in self.bad, self.point(place)
        colours = BAD if bad else PLAIN if self.bad else SOUND
        mark = _mark(at.real, at.imag, self.mark, colours, place not in self.entries)
        told = f"place {place}: entry {self.table[place]}"
        return f'<g class="{"bad place" if bad else "place"}"><title>{told}</title>{mark}{self.number(place)}</g>'

    def legend(self) -> Iterator[tuple[tuple[str, str], bool, str]]:
        """Of each kind of mark its colours, whether it is dashed, and what it means."""
        yield PLAIN if self.bad else SOUND, False, "a place of the table; its arrow leads to its entry"
        if self.bad:
            yield BAD, False, "bad place: while these entries stand, no change elsewhere mends the ring"
        if len(self.entries) < len(self.table):
            yield PLAIN, True, "no arrow leads here"


def _heads(length: float) -> str:
    """The heads of arrows."""
    size = f'markerWidth="{length:.1f}" markerHeight="{length:.1f}" refX="{0.6 * length:.1f}" refY="{length / 2:.1f}"'
    path = f"M0,0 L{length:.1f},{length / 2:.1f} L0,{length:.1f} z"
    return "".join(
        f'<marker id="{name}" markerUnits="userSpaceOnUse" {size} orient="auto"><path d="{path}" fill="{fill}"/></marker>'
        for name, fill in (("head", FAINT), ("bad-head", BAD[1]))
    )


def picture(table: Sequence[int], bad: Sequence[int]) -> str:
    """The SVG of a table and its bad places, none for one that is a single cycle. The same table gives the same text."""
    ring = _Ring(table, bad)
    told, why = _verdict(table, bad)
    legend = list(ring.legend())
    width, height = round(ring.width), round(ring.bottom) + 24 * len(legend) + 8
    order = sorted(range(len(table)), key=lambda place: place in ring.bad)  # bad ones over the others
    body = [
        f'<svg xmlns="http://www.w3.org/2000/svg" viewBox="0 0 {width} {height}" width="{width}" height="{height}" role="img"'
        ' font-family="DejaVu Sans, Verdana, sans-serif">',
        f"<title>{escape(told)}</title>",
        f"<defs>{_heads(ring.head)}</defs>",
        f'<rect width="{width}" height="{height}" fill="white"/>',
        _text(ring.width / 2, 30, told, 16, more='text-anchor="middle" font-weight="bold"'),
        _text(ring.width / 2, 52, why, 13, FAINT),
        *map(ring.arrow, order),
        *map(ring.place, order),
    ]
    for row, (colours, dashed, words) in enumerate(legend):
        y = ring.bottom + 24 * row
        body += [_mark(ring.width / 2 - 216, y, 8, colours, dashed), _text(ring.width / 2 - 198, y + 4.5, words, 12, more="")]
    return "\n".join([*body, "</svg>", ""])
