"""Draws words.svg, what a word of fills costs for each number of words, in the library and in Rust column by column, from the table of
docs/PERFORMANCE.md that `make bench` prints. `make pictures`."""

from pictures import FAINT, INK, ROOT, save, svg, text

HEADING = "### The cost for each number of words"
# columns of the table, with how their bars are called and drawn
KINDS = {
    "a word of fills": ("library", "#e9f5ea", "#4f9a57"),
    "Rust column by column": ("Rust column by column, both results joined by a mask", "#f4f4f4", "#9a9a9a"),
}
BAR, GAP, LEFT, BASE, TOP = 48, 20, 30, 340, 270  # a bar's width, what is between two pairs, where they begin and stand, and the height of the tallest


def rows():
    """The rows of the table, each by the names of its columns."""
    section = (ROOT / "docs/PERFORMANCE.md").read_text(encoding="utf-8").split(HEADING)[1].split("\n#")[0]
    lines = [line for line in section.splitlines() if line.startswith("|")]
    head, _, *body = [[cell.strip() for cell in line.strip("|").split("|")] for line in lines]
    return [dict(zip(head, cells)) for cells in body]


def nanoseconds(cell):
    return float(cell.replace(",", ""))


def pair(x, row, scale):
    """The two bars of a number of words."""
    body = [text(x + BAR, BASE + 18, row["m"])]
    for i, (column, (_, fill, edge)) in enumerate(KINDS.items()):
        left, height = x + i * BAR, nanoseconds(row[column]) * scale
        body.append(f'<rect x="{left}" y="{BASE - height:.1f}" width="{BAR}" height="{height:.1f}" fill="{fill}" stroke="{edge}" stroke-width="1.5"/>')
        body.append(text(left + BAR / 2, BASE - height - 6, row[column], 12))
    return body


def legend():
    body, x = [], LEFT
    for name, fill, edge in KINDS.values():
        body.append(f'<rect x="{x}" y="18" width="16" height="16" fill="{fill}" stroke="{edge}" stroke-width="1.5"/>')
        body.append(text(x + 24, 31, name, anchor="start"))
        x += 110
    return body


def words():
    table = rows()
    scale = TOP / max(nanoseconds(row[column]) for row in table for column in KINDS)
    width = len(table) * (2 * BAR + GAP) - GAP
    body = legend()
    for i, row in enumerate(table):
        body += pair(LEFT + i * (2 * BAR + GAP), row, scale)
    body.append(f'<path d="M{LEFT - 10},{BASE} H{LEFT + width + 10}" stroke="{INK}" stroke-width="1.5"/>')
    body.append(text(LEFT + width / 2, BASE + 44, "nanoseconds for a word of fills, by the number m of words in the state; words of 32 bits", 12, FAINT))
    return svg(width + 2 * LEFT, BASE + 60, body)


if __name__ == "__main__":
    save(words)
