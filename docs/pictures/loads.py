"""Counts the loads of six shovels that are equally near to 10,000 trucks, on a card of narrow words: by document 01's remainder of one word, and by
fair ranks (document 02, Two). Prints both rows and the mean number of words taken, and draws loads.svg. `make loads`."""

import collections

import tiedraw
from pictures import FAINT, INK, save, svg, text

# 4 words of 3 bits, TSC-1's table, constant 1; from the state of zeros
CARD, START = bytes.fromhex("22 03 01 00 00 00"), (0, 0, 0, 0)
SHOVELS, TRUCKS = range(1, 7), 10_000


def loads_of(sent):
    """How many trucks were sent to each shovel."""
    counted = collections.Counter(sent)
    return [counted[shovel] for shovel in SHOVELS]


def before(trucks=TRUCKS):
    """The loads by one word a truck, whose remainder is the rank."""
    return loads_of(SHOVELS[word % len(SHOVELS)] for word in tiedraw.Generator(CARD, START).words(trucks))


def after(trucks=TRUCKS):
    """The loads by picks, and how many words they took."""
    desk = tiedraw.Generator(CARD, START)
    picks = [desk.pick(dict.fromkeys(SHOVELS, 300)) for _ in range(trucks)]
    return loads_of(choice.shovel for choice in picks), sum(choice.taken for choice in picks)


BAR, GAP, BASE, SCALE = 56, 10, 340, 0.1  # a bar's width, what is between two, where they stand, and the height of a load


def bars(left, title, about, counts, fill, edge):
    """A bar for each shovel with its loads, and a line at the even share."""
    width, share = len(counts) * (BAR + GAP) - GAP, sum(counts) / len(counts)
    middle, line = left + width / 2, BASE - share * SCALE
    body = [text(middle, 30, title, 15, more='font-weight="bold"'), text(middle, 50, about, 12, FAINT)]
    for i, (shovel, count) in enumerate(zip(SHOVELS, counts)):
        x, height = left + i * (BAR + GAP), count * SCALE
        body.append(f'<rect x="{x}" y="{BASE - height:.1f}" width="{BAR}" height="{height:.1f}" fill="{fill}" stroke="{edge}" stroke-width="1.5"/>')
        body.append(text(x + BAR / 2, BASE - height + 19, f"{count:,}"))
        body.append(text(x + BAR / 2, BASE + 18, shovel))
    body.append(f'<path d="M{left - GAP},{line:.1f} H{left + width + GAP}" stroke="{INK}" stroke-width="1.5" stroke-dasharray="6 4"/>')
    body.append(text(left + width, line - 6, f"even share {share:,.0f}", 12, anchor="end"))
    return body


def loads():
    fair, taken = after()
    body = bars(37, "before: remainder of the first word", "words 6 and 7 count as 0 and 1 again", before(), "#fbe9e7", "#c0564a")
    passed = f"L is 6; a truck takes {taken / TRUCKS:.2f} words on average"
    body += bars(497, "after: words of L or more passed over", passed, fair, "#e9f5ea", "#4f9a57")
    body.append(text(460, 386, f"loads of shovels 1 to 6, equally near to {TRUCKS:,} trucks; words of 3 bits", 12, FAINT))
    return svg(920, 402, body)


def main():
    fair, taken = after()
    print("before", *before())
    print("after ", *fair)
    print(f"words a truck {taken / TRUCKS:.4f}")
    save(loads)


if __name__ == "__main__":
    main()
