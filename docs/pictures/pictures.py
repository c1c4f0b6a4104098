"""Draws layers.svg, the crates and which rests on which, from crates.txt; and orbit.svg, the sixteen states of the program's card (document 01)
in the order in which the step brings them up, beside the same card with an even constant; and halves.svg, the words of two cards of 64 states
in their order, of which one repeats them; and record.svg, the bytes of a record (document 02, Seven) and who is told what of them; and by_map.svg,
a truck and shovels on the grid (document 02, Ten), which of them are nearest and which within a radius; and broken_ring.svg, a table that gets 7 with
its bad places (document 02, Eleven). `make pictures`."""

import importlib.util
import math
import pathlib

HERE = pathlib.Path(__file__).resolve().parent
ROOT = HERE.parents[1]
INK, FAINT = "#22303c", "#8a99a8"


def svg(width, height, body):
    """A picture on a white ground."""
    head = f'<svg xmlns="http://www.w3.org/2000/svg" viewBox="0 0 {width} {height}" width="{width}" height="{height}" font-family="DejaVu Sans, Verdana, sans-serif">'
    ground = f'<rect width="{width}" height="{height}" fill="white"/>'
    return "\n".join([head, ground, *body, "</svg>", ""])


def save(draw):
    """Writes the picture that a function draws into the file of its name."""
    (HERE / f"{draw.__name__}.svg").write_text(draw())


def text(x, y, words, size=13, fill=INK, anchor="middle", more=""):
    return f'<text x="{x:.1f}" y="{y:.1f}" font-size="{size}" fill="{fill}" text-anchor="{anchor}" {more}>{words}</text>'


def arrow_head(fill):
    return f'<defs><marker id="head" markerWidth="8" markerHeight="8" refX="7" refY="3" orient="auto"><path d="M0,0 L7,3 L0,6 z" fill="{fill}"/></marker></defs>'


# ---- The layers.

KINDS = {
    "theory": ("#e8eefc", "#5a7bc4", "definitions and theorems, no code"),
    "code": ("#e9f5ea", "#4f9a57", "proved code"),
    "library": ("#fdf1dc", "#c98f2b", "what C links"),
    "program": ("#f4f4f4", "#9a9a9a", "programs and tests"),
}
BOX, GAP, ROW = 118, 22, 84


def crates():
    """Each crate with the crates it names, the kit's left out. Programs that differ only in their input are one."""
    named = {}
    for line in (ROOT / "crates.txt").read_text().splitlines():
        line = line.split("#")[0]
        if ":" in line:
            name, needs = line.split(":")
            named[name.split()[0]] = needs.split()
    same_program = [name for name in named if name.startswith("inspect_") and name != "inspect_card"]
    return {
        name: {need for need in needs if need in named} for name, needs in named.items() if name not in same_program
    }


def kind(name):
    source = ROOT / "crates" / name / "src"
    if (source / "main.rt").exists():
        return "program"
    lines = [line for file in source.glob("*.rt") for line in file.read_text().splitlines()]
    if any('extern "C" fn' in line for line in lines):
        return "library"
    return "code" if any(line.startswith(("fn ", "pub fn ")) for line in lines) else "theory"


def direct(name, needs):
    """The needs of a crate that it doesn't have through another."""
    return [d for d in needs[name] if not any(d in needs[other] for other in needs[name])]


def levels(needs):
    """How far up each crate stands: above all that it needs. One that needs nothing stands just below the first that needs it."""
    level = {}
    while len(level) < len(needs):
        for name in needs:
            if all(need in level for need in needs[name]):
                level[name] = 1 + max((level[need] for need in needs[name]), default=-1)
    for name in needs:
        if not needs[name]:
            level[name] = min(level[other] for other in needs if name in needs[other]) - 1
    return level


def chains(needs, level):
    """Each arrow as the places that it passes, a level at a time: from the crate, between the boxes, to what it needs."""
    found = []
    for name in needs:
        for need in sorted(direct(name, needs)):
            between = [(name, need, number) for number in range(level[name] - 1, level[need], -1)]
            found.append([name, *between, need])
    return found


def room(node):
    """A box, or an arrow that passes."""
    return BOX + GAP if isinstance(node, str) else 2 * GAP


def apart(row, wanted):
    """The places nearest to the wanted ones, in their order, that are far enough apart: where they crowd, a group is spread about its middle."""
    groups = []
    offset = {}
    for i, node in enumerate(row):
        offset[node] = offset[row[i - 1]] + (room(row[i - 1]) + room(node)) / 2 if i else 0
        groups.append([wanted[node] - offset[node], 1])
        while len(groups) > 1 and groups[-2][0] > groups[-1][0]:
            (a, m), (b, n) = groups[-2:]
            groups[-2:] = [[(a * m + b * n) / (m + n), m + n]]
    flat = [place for place, count in groups for _ in range(count)]
    return {node: place + offset[node] for node, place in zip(row, flat)}


def places(rows, arrows):
    """Where each crate and passing arrow stands in its row: near the middle of what it is joined to."""
    near = {node: [] for row in rows.values() for node in row}
    for chain in arrows:
        for node, other in zip(chain, chain[1:]):
            near[node].append(other)
            near[other].append(node)
    x = {node: float(i) for row in rows.values() for i, node in enumerate(row)}
    for _ in range(300):
        for row in rows.values():
            middle = {node: sum(x[other] for other in near[node]) / len(near[node]) for node in row}
            row.sort(key=lambda node: (middle[node], str(node)))
            x.update(apart(row, middle))
    left = min(x.values()) - BOX / 2 - GAP
    return {node: place - left for node, place in x.items()}


def arrow(chain, x, y):
    """A smooth line through the places of a chain."""
    at = y(chain[0]) + 34
    path = f"M{x[chain[0]]:.1f},{at}"
    for node, other in zip(chain, chain[1:]):
        end = y(other) - 2 if isinstance(other, str) else y(other) + 17
        middle = (at + end) / 2
        path += f" C{x[node]:.1f},{middle} {x[other]:.1f},{middle} {x[other]:.1f},{end}"
        at = end
    return f'<path d="{path}" fill="none" stroke="{FAINT}" stroke-width="1.3" marker-end="url(#head)"/>'


def layers():
    needs = crates()
    level = levels(needs)
    arrows = chains(needs, level)
    rows = {number: [] for number in range(max(level.values()) + 1)}
    for name in needs:
        rows[level[name]].append(name)
    for node in [node for chain in arrows for node in chain[1:-1]]:
        rows[node[2]].append(node)
    x = places(rows, arrows)
    y = lambda node: 80 + (len(rows) - 1 - (level[node] if isinstance(node, str) else node[2])) * ROW
    width, height = round(max(x.values()) + BOX / 2 + GAP), 80 + len(rows) * ROW - 30
    body = [arrow_head(FAINT)] + [arrow(chain, x, y) for chain in arrows]
    for name in needs:
        fill, edge, _ = KINDS[kind(name)]
        body.append(f'<rect x="{x[name] - BOX / 2:.1f}" y="{y(name)}" width="{BOX}" height="34" rx="6" fill="{fill}" stroke="{edge}" stroke-width="1.5"/>')
        body.append(text(x[name], y(name) + 22, name + (" .." if name == "inspect_card" else "")))
    for i, (fill, edge, words) in enumerate(KINDS.values()):
        left, top = GAP + i % 2 * 270, 12 + i // 2 * 24
        body.append(f'<rect x="{left}" y="{top}" width="16" height="16" rx="3" fill="{fill}" stroke="{edge}"/>')
        body.append(text(left + 24, top + 13, words, 12, anchor="start"))
    return svg(width, height, body)


# ---- The orbit. The step by document 002 (12) and (13), for two words, powers 1 and 2, and the sum term.

TABLE = [1, 2, 3, 0]


def step(state, constant, table=TABLE, width=2):
    p, s = state[0] & state[1], sum(state)
    selector = (p + constant) ^ p ^ 2 * s
    after = [0, 0]
    for i in range(width):
        column = (state[0] >> i & 1) + 2 * (state[1] >> i & 1)
        for _ in range(1 if selector >> i & 1 else 2):
            column = table[column]
        after[0] |= (column & 1) << i
        after[1] |= (column >> 1) << i
    return tuple(after)


def cycles(constant):
    """The states in the order in which the step brings them up: a list for each cycle, that of 0, 0 first."""
    left = [(x, y) for x in range(4) for y in range(4)]
    found = []
    while left:
        cycle = [left[0]]
        while step(cycle[-1], constant) != cycle[0]:
            cycle.append(step(cycle[-1], constant))
        found.append(cycle)
        left = [state for state in left if state not in cycle]
    return found


def ring(cycle, x, y, radius, fill, edge):
    """One cycle as a ring of states, from the top on clockwise."""
    body = []
    count = len(cycle)
    at = [(x + radius * math.sin(2 * math.pi * i / count), y - radius * math.cos(2 * math.pi * i / count)) for i in range(count)]
    for i, (u, v) in enumerate(at):
        w, z = at[(i + 1) % count]
        length = math.hypot(w - u, z - v)
        cut = 23 / length
        body.append(f'<path d="M{u + cut * (w - u):.1f},{v + cut * (z - v):.1f} L{w - cut * (w - u):.1f},{z - cut * (z - v):.1f}" stroke="{edge}" stroke-width="1.5" marker-end="url(#head)"/>')
    for i, ((u, v), state) in enumerate(zip(at, cycle)):
        start = 3 if state == (0, 0) else 1.5
        body.append(f'<circle cx="{u:.1f}" cy="{v:.1f}" r="20" fill="{fill}" stroke="{edge}" stroke-width="{start}"/>')
        body.append(text(u, v + 5, f"{state[0]}, {state[1]}"))
    return body


def orbit():
    good, bad = cycles(1), cycles(2)
    body = [arrow_head(INK)]
    body.append(text(230, 30, "the program's card, constant 1: verdict 0", 15, more='font-weight="bold"'))
    body.append(text(230, 50, "every state comes up once, and then the first again", 12, FAINT))
    body += ring(good[0], 230, 275, 185, "#e9f5ea", "#4f9a57")
    body.append(text(230, 280, f"{len(good[0])} states", 15))
    body.append(text(680, 30, "the same with constant 2: refusal 8", 15, more='font-weight="bold"'))
    body.append(text(680, 50, f"from 0, 0 only {len(bad[0])} of the 16 states come up", 12, FAINT))
    for i, cycle in enumerate(bad):
        body += ring(cycle, 575 + 215 * i, 275, 80, "#fbe9e7", "#c0564a")
        body.append(text(575 + 215 * i, 280, f"{len(cycle)} states", 13))
    return svg(920, 490, body)


# ---- Halves of an orbit, for two words of three bits and constant 1: filter 1 turns neither word, so that a word is their sum.

SHADES = ["#ffffff", "#f7e1a8", "#bfe3c4", "#a9d3f0", "#e5c1e8", "#f4b8a9", "#c9c9c9", "#8fc7b5"]


def words(table):
    """The words of the 64 states, from that of zeros on."""
    state, found = (0, 0), []
    for _ in range(64):
        found.append(sum(state) % 8)
        state = step(state, 1, table, 3)
    return found


def dial(row, x, y, radius):
    """The words as a ring of dots, from the top on clockwise; a line joins those that differ from the word half the orbit on."""
    body = []
    at = [(x + radius * math.sin(2 * math.pi * i / 64), y - radius * math.cos(2 * math.pi * i / 64)) for i in range(64)]
    for i in range(32):
        if row[i] != row[i + 32]:
            (u, v), (w, z) = at[i], at[i + 32]
            body.append(f'<path d="M{u:.1f},{v:.1f} L{w:.1f},{z:.1f}" stroke="#c0564a" stroke-width="0.6"/>')
    for (u, v), word in zip(at, row):
        body.append(f'<circle cx="{u:.1f}" cy="{v:.1f}" r="9" fill="{SHADES[word]}" stroke="{INK}" stroke-width="1"/>')
        body.append(text(u, v + 4, word, 11))
    return body


def halves():
    body = []
    for i, (table, head, below) in enumerate(
        [
            ([1, 3, 0, 2], "table 1, 3, 0, 2: the words repeat after 32", "no state differs from the one half the orbit on"),
            ([2, 3, 1, 0], "table 2, 3, 1, 0: after 64, and not before", "lines join states half the orbit apart whose words differ"),
        ]
    ):
        x = 230 + 450 * i
        body.append(text(x, 30, head, 15, more='font-weight="bold"'))
        body.append(text(x, 50, below, 12, FAINT))
        body += dial(words(table), x, 275, 190)
    return svg(910, 490, body)



# ---- The record.

# the record of the papers' example, field by field: name, bytes, whether the cab is told it
FIELDS = [
    ("map", "1f", False),
    ("truck 258", "02 01", False),
    ("shovel 4", "04 00", True),
    ("ties 2", "02", False),
    ("taken 1", "01", False),
    ("words 2", "02", False),
    ("x0 before the pick", "00 00 00 00", False),
    ("x1", "00 00 00 00", False),
]
BYTE = 50


def field_box(x, name, octets, told):
    """The bytes of a field, its name above them."""
    fill, line = ("#fdf1dc", "#c98f2b") if told else ("#e8eefc", "#5a7bc4")
    width = BYTE * len(octets)
    yield f'<rect x="{x}" y="70" width="{width}" height="34" fill="{fill}" stroke="{line}"/>'
    for k, octet in enumerate(octets):
        yield text(x + BYTE * (k + 0.5), 92, octet, more='font-family="DejaVu Sans Mono, monospace"')
    yield text(x + width / 2, 60, name.replace(" ", "\u00a0"), size=10)


def record():
    body, x = [], 20
    for name, octets, told in FIELDS:
        octets = octets.split()
        body += field_box(x, name, octets, told)
        if told:
            body.append(text(x + BYTE * len(octets) / 2, 128, "the cab of truck 258 is told this", size=12, fill="#9a6a14"))
        x += BYTE * len(octets)
    body.append(f'<path d="M20,34 V26 H{x} V34" fill="none" stroke="#5a7bc4"/>')
    body.append(text((20 + x) / 2, 20, "the desk reads all of it, and picks again from this state", size=12))
    return svg(x + 20, 140, body)


# ---- The map.

TRUCK, RADIUS = (200, 100), 750
PLACES = {4: (500, 500), 7: (-200, 400), 12: (800, -350), 21: (950, 500)}
WEST, EAST, SOUTH, NORTH = -620, 1180, -720, 920  # what is shown of the grid, in metres
GRID, METRE, CORNER = 200, 0.33, (56, 20)  # metres between two lines, pixels of a metre, and the place of the grid in the picture
TIED, INSIDE, OUTSIDE = ("#fdf1dc", "#c98f2b"), ("#e9f5ea", "#4f9a57"), ("#f4f4f4", "#9a9a9a")


def squared_distance(place):
    return sum((a - b) ** 2 for a, b in zip(place, TRUCK))


LEAST = min(map(squared_distance, PLACES.values()))


def on_picture(place):
    x, y = place
    return CORNER[0] + (x - WEST) * METRE, CORNER[1] + (NORTH - y) * METRE


def figure(number, sign=""):
    """A number as text, with its sign where that is +."""
    return f"{number:{sign},}".replace("-", "\u2212")


def grid():
    """The lines of the grid, with their metres."""
    (left, top), (right, bottom) = on_picture((WEST, NORTH)), on_picture((EAST, SOUTH))
    yield f'<rect x="{left}" y="{top}" width="{right - left:.1f}" height="{bottom - top:.1f}" fill="#fbfcfd" stroke="#d5dce3"/>'
    for x in range(WEST // GRID * GRID + GRID, EAST, GRID):
        at, _ = on_picture((x, 0))
        yield f'<path d="M{at:.1f},{top} V{bottom:.1f}" stroke="#e3e8ed"/>'
        yield text(at, bottom + 18, figure(x), 11, FAINT)
    for y in range(SOUTH // GRID * GRID + GRID, NORTH, GRID):
        _, at = on_picture((0, y))
        yield f'<path d="M{left},{at:.1f} H{right:.1f}" stroke="#e3e8ed"/>'
        yield text(left - 8, at + 4, figure(y), 11, FAINT, "end")


def shade(place):
    """Of a shovel: nearest, within the radius, or outside."""
    far = squared_distance(place)
    return TIED if far == LEAST else INSIDE if far <= RADIUS**2 else OUTSIDE


def shovel(number, place):
    """A shovel with its place, on the side away from the truck, and a line from the truck to it."""
    (x, y), (u, v), (fill, edge) = on_picture(place), on_picture(TRUCK), shade(place)
    yield f'<path d="M{u:.1f},{v:.1f} L{x:.1f},{y:.1f}" stroke="{edge}" stroke-width="1.3" stroke-dasharray="2 4"/>'
    yield f'<circle cx="{x:.1f}" cy="{y:.1f}" r="14" fill="{fill}" stroke="{edge}" stroke-width="2"/>'
    yield text(x, y + 5, number, 13, more='font-weight="bold"')
    across, anchor = (8, "start") if x > u else (-8, "end")
    yield text(x + across, y - 18 if y < v else y + 26, f"{figure(place[0])}, {figure(place[1])}", 11, anchor=anchor)


def circle(radius, stroke, more, words, at):
    """Around the truck, with words at a place."""
    x, y = on_picture(TRUCK)
    yield f'<circle cx="{x:.1f}" cy="{y:.1f}" r="{radius * METRE:.1f}" stroke="{stroke}" {more}/>'
    yield text(*on_picture(at), words, 12, stroke)


def row_of(number, place, y, left):
    """What is told of a shovel beside the map."""
    fill, edge = shade(place)
    far = squared_distance(place)
    verdict = {TIED: "nearest, a tie", INSIDE: "within, on the edge" if far == RADIUS**2 else "within", OUTSIDE: "outside"}[fill, edge]
    yield f'<circle cx="{left + 18}" cy="{y - 5}" r="12" fill="{fill}" stroke="{edge}" stroke-width="2"/>'
    yield text(left + 18, y, number, 12, more='font-weight="bold"')
    yield text(left + 146, y, ", ".join(figure(a - b, "+") for a, b in zip(place, TRUCK)), 12, anchor="end")
    yield text(left + 256, y, figure(far), 12, anchor="end")
    yield text(left + 272, y, verdict, 12, anchor="start")


def told(left):
    """The table beside the map, and what both calls answer."""
    tied = sorted(number for number, place in PLACES.items() if squared_distance(place) == LEAST)
    near = sorted((squared_distance(place), number) for number, place in PLACES.items() if squared_distance(place) <= RADIUS**2)
    yield text(left, 60, f"truck at {TRUCK[0]}, {TRUCK[1]}", 15, anchor="start", more='font-weight="bold"')
    for x, words in [(38, "shovel"), (146, "from the truck"), (256, "squared distance")]:
        yield text(left + x, 92, words, 11, FAINT, "end")
    for i, (number, place) in enumerate(PLACES.items()):
        yield from row_of(number, place, 122 + 34 * i, left)
    for i, (words, more) in enumerate(
        [
            ("the pick by the map", 'font-weight="bold"'),
            (f"a lot between {' and '.join(map(str, tied))}, as in a timed pick", ""),
            ("", ""),
            (f"within {RADIUS} m", 'font-weight="bold"'),
            (f"{', '.join(str(number) for _, number in near)}: squared distance at most {figure(RADIUS**2)},", ""),
            ("by distance and then by number", ""),
        ]
    ):
        yield text(left, 292 + 22 * i, words, 13, anchor="start", more=more)


def by_map():
    x, y = on_picture(TRUCK)
    body = list(grid())
    body += circle(RADIUS, INSIDE[1], 'fill="#4f9a57" fill-opacity="0.06" stroke-width="2"', f"radius {RADIUS} m, edge counted", (-340, -670))
    body += circle(LEAST**0.5, TIED[1], 'fill="none" stroke-width="1.5" stroke-dasharray="7 4"', f"{LEAST**0.5:.0f} m", (200, 620))
    for number, place in PLACES.items():
        body += shovel(number, place)
    body.append(f'<rect x="{x - 9:.1f}" y="{y - 9:.1f}" width="18" height="18" rx="3" fill="#5a7bc4" stroke="{INK}" stroke-width="1.5"/>')
    body.append(text(x, y + 28, "truck", 12))
    (right, bottom) = on_picture((EAST, SOUTH))
    body.append(text((CORNER[0] + right) / 2, bottom + 38, "metres of the grid", 12, FAINT))
    body += told(right + 34)
    return svg(round(right + 34 + 410), round(bottom + 50), body)


# ---- A broken ring.

TYPED = (5, 2, 13, 12, 13, 4, 3, 14, 15, 8, 1, 6, 7, 10, 9, 0)  # TSC-2's table but for place 2, where that has 11
BAD_PLACES = (2, 4)


def of_the_binding(name):
    """A module of the Python binding that needs no library, by itself."""
    found = importlib.util.spec_from_file_location(name, ROOT / f"bindings/python/tiedraw/{name}.py")
    module = importlib.util.module_from_spec(found)
    found.loader.exec_module(module)
    return module


def broken_ring():
    """As `python3 -m tiedraw read CARD --picture FILE` draws it."""
    return of_the_binding("_ring").picture(TYPED, BAD_PLACES)


if __name__ == "__main__":
    for draw in (layers, orbit, halves, record, by_map, broken_ring):
        save(draw)
