"""Writes a million bits of P1, from the state of zeros, into target/nist/p1.txt, as ASCII 0 and 1 for the published suite of NIST SP 800-22, and prints
their counts: of each half as the library tells them, and of all as they are worked out here, after a comparison of the two. `make nist`."""

import array
import itertools
import pathlib
import sys

import tiedraw

CARD, START = b"\0", (0, 0, 0, 0)
WORDS = 31_250  # of 32 bits; half of them are as many as one call may count, or fewer
HALF = WORDS // 2
FILE = pathlib.Path("target/nist/p1.txt")


def halves():
    """What the library tells of the first half of the words, and of the second."""
    strip = array.array("I", [0]) * WORDS
    tiedraw.Generator(CARD, START).fill(strip)
    return [tiedraw.bit_counts(CARD, strip[at : at + HALF]) for at in (0, HALF)]


def excursion(steps):
    """The largest distance from zero of the running sum."""
    return max(map(abs, itertools.accumulate(steps)))


def reckoned(bits):
    """The counts of any bits, by the standard's definitions."""
    steps = [1 if bit == ord("1") else -1 for bit in bits]
    runs = sum(1 for _ in itertools.groupby(bits))
    return tiedraw.BitCounts(sum(steps), excursion(steps), excursion(steps[::-1]), runs, bits)


def stop_unless(holds, what):
    if not holds:
        sys.exit(f"nist: {what}")


def joined(first, second):
    """The counts of all bits, if they go with those of the halves."""
    for half in (first, second):
        stop_unless(reckoned(half.bits) == half, "a half, counted here, is not what was told")
    whole = reckoned(first.bits + second.bits)
    one_run = first.bits[-1] == second.bits[0]  # the last of the first half and the first of the second
    stop_unless(whole.balance == first.balance + second.balance, "the balances of the halves don't add up")
    stop_unless(whole.runs == first.runs + second.runs - one_run, "the runs of the halves don't add up")
    return whole


def line(what, counts, source):
    *numbers, bits = counts
    return f"{what:<16}" + "".join(f"{number:>10,}" for number in (len(bits), *numbers)) + f"  {source}"


def table(first, second):
    """The lines that are printed."""
    yield " " * 16 + "".join(f"{name:>10}" for name in ("bits", "balance", "forward", "backward", "runs"))
    yield line("the first half", first, "proved: tiedraw_count_bits")
    yield line("the second half", second, "proved: tiedraw_count_bits")
    yield line("all", joined(first, second), "not proved: worked out by tools/nist.py")


def main():
    first, second = halves()
    FILE.parent.mkdir(parents=True, exist_ok=True)
    FILE.write_bytes(first.bits + second.bits)
    print(f"{FILE}: {WORDS:,} words of card {CARD.hex()}, from the state of zeros")
    print(*table(first, second), sep="\n")


if __name__ == "__main__":
    main()
