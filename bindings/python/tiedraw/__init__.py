"""Tie draws for mine dispatch, proved: the calls of include/tiedraw.h by ctypes, for simulations.

    import tiedraw
    desk = tiedraw.Generator(bytes.fromhex("27 02 02 01 02 03 00 01 00 00 00"), [0, 0])
    desk.pick({7: 300, 4: 300})     # Choice(shovel=4, ties=2, taken=1)
    desk.state                      # (1, 2)
    desk.margin({7: 305, 4: 300})   # Margin(changed=4, raised=True, seconds=6, shovel=7, ties=1, taken=0)
    desk.words(3)                   # array('I', [0, 3, 2])
    choice, record = desk.pick_recorded(258, {7: 300, 4: 300})
    tiedraw.read_record(record)     # Record(truck=258, shovel=4, ties=2, taken=1, state=(2, 0))
    tiedraw.order_for(258, record)  # 4
    places = {7: (-200, 400), 4: (500, 500), 21: (950, 500)}
    desk.pick_by_map(200, 100, places)     # Choice(shovel=4, ties=2, taken=1)
    tiedraw.within(200, 100, 500, places)  # [4, 7]
    tiedraw.bit_counts(desk.card, [0, 3, 2])  # BitCounts(balance=0, forward=2, backward=2, runs=3, bits=b'001110')
    tiedraw.bad_places(bytes.fromhex("05 02 02 03 01 01"))  # (1, 3)

A Generator holds an accepted card and a state of its size, so its draws and steps can't be refused. Many words at once
cost least by Generator.words, or by Generator.fill into a buffer that is there already. Generator.margin tells how near a
pick would be, and moves nothing. Generator.pick_recorded also gives the record of a tie, as bytes: read_record reads it
for the desk, order_for tells a cab its shovel. Generator.pick_by_map picks by places where times are missing, and within
lists the shovels within a radius. bit_counts gives words as bits for the tests of NIST SP 800-22, and what those count.
bad_places tells what to look at in a table that is no single cycle. The functions check, read, step, step_back, draw, fill,
pick, pick_recorded, pick_by_map, margin and write are the library's own; they take state and strip as sequences, and return
new ones where these change. new_card makes a card for a pit. `python3 -m tiedraw --help` tells of the same on a command line,
and of the picture of a card's table.

A refusal raises Refused. What can't be handed over raises TypeError if it is no whole number, ValueError if it is too
wide or negative, and the error names it: `shovels[2]: 65536 is more than 16 bits`. A place or count of a fill that is too
wide is refused by 17, as every one that does not fit, and a coordinate or radius by 25, as every one off the map.

The library is the file that TIEDRAW_LIBRARY names; else one beside the package, in target/lib of the repository that
the package stands in, or on the system.
"""

from ._calls import (
    bad_places,
    bit_counts,
    check,
    draw,
    fill,
    margin,
    order_for,
    pick,
    pick_by_map,
    pick_recorded,
    read,
    read_record,
    step,
    step_back,
    within,
    write,
)
from ._generator import Generator
from ._library import (
    MOST_BAD_PLACES,
    MOST_CARD_BYTES,
    MOST_COORDINATE,
    MOST_RADIUS,
    MOST_RECORD_BYTES,
    MOST_SHOVELS,
    MOST_STRIP_WORDS,
    MOST_TAKEN,
    MOST_WORDS,
    library_version,
)
from ._new_card import new_card
from ._refusal import Refusal, Refused
from ._values import BitCounts, Choice, Margin, Record, Recorded, Values
from ._version import __version__

__all__ = [
    "MOST_BAD_PLACES",
    "MOST_CARD_BYTES",
    "MOST_COORDINATE",
    "MOST_RADIUS",
    "MOST_RECORD_BYTES",
    "MOST_SHOVELS",
    "MOST_STRIP_WORDS",
    "MOST_TAKEN",
    "MOST_WORDS",
    "BitCounts",
    "Choice",
    "Generator",
    "Margin",
    "Record",
    "Recorded",
    "Refusal",
    "Refused",
    "Values",
    "__version__",
    "bad_places",
    "bit_counts",
    "check",
    "draw",
    "fill",
    "library_version",
    "margin",
    "new_card",
    "order_for",
    "pick",
    "pick_by_map",
    "pick_recorded",
    "read",
    "read_record",
    "step",
    "step_back",
    "within",
    "write",
]
