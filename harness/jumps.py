"""The machine code of the step: no conditional jump but loop ends, no division. Exit status 1 with what was found otherwise.

    python3 harness/jumps.py target/lib/libtiedraw.a

A loop end is a conditional jump of which one way stays in the innermost loop around it and the other leaves that loop; a
loop has one. That it goes backward is not enough: compilers put the end of a branch before its start. Held to this are
one step and one draw as a whole, which step, draw and the pick must call, the loops of many steps, which fill and margin
must call, those of the step back, and whatever these call. One branch in each of three functions is let pass, on the card.
The step of TSC-1 by its gate formulas stands in each function that takes it: one stretch without a jump, known by TSC-1's
constant.
A recorded pick must call the pick. Between two words that it tries, in a loop or one behind the other, it may stop at
several places, and has the one division that makes a rank; it branches nowhere else.
"""

import collections
import re
import subprocess
import sys

STEP = "stepping::step::next_state"
DRAW = "outputs::next::next_output"
ROW = "outputs::row::fill_words"
# A pick asks of each word whether it decides, and divides by the number of ties.
TRIED = "pick::call::pick"
CALLERS = {
    "tiedraw_step": STEP,
    DRAW: STEP,
    "tiedraw_draw": DRAW,
    "tiedraw_fill": ROW,
    "tiedraw_margin": ROW,
    "tiedraw_pick": TRIED,
    "tiedraw_pick_recorded": TRIED,
}
# The loops held are those of so many instructions or more: the smaller ones of a step back check card and state.
LOOPED = {ROW: 0, "tiedraw_step_back": 60}
# The functions that step by the gate formulas, where they add TSC-1's constant. Selector and formulas, put in line, were 76
# instructions and more.
GATED = ["tiedraw_step", "tiedraw_draw", ROW, TRIED]
CONSTANT = re.compile(r"(add|lea)l? .*\b0x12488421\b")
LEAST_STRETCH = 72
OUTSIDE = ["memcpy", "memset"]
# The branches let pass, one in each function: it asks the card, never the state, whether it has more than four words, and
# which of two filters.
LET_PASS = {
    STEP: ("cmp $0x4,", "cmpl $0x4,"),
    DRAW: ("cmp $0x5,", "cmpl $0x5,"),
    "filters::filter::filtered_by": ("cmp $0x2,", "cmpb $0x2,"),
}

NAME = re.compile(r"[0-9a-f]+ <(.*)>:$")
INSTRUCTION = re.compile(r" *([0-9a-f]+):\t([^#]*)")
RELOCATION = re.compile(r"\s+[0-9a-f]+: R_X86_64_\w+\s+(.*)$")
TARGET = re.compile(r"\S+ +([0-9a-f]+) <")
PREFIXES = re.compile(r"((bnd|notrack|data16|lock|rep\w*|[c-gs]s|rex\S*) +)+")
SUFFIX = re.compile("^(jmp|call|ret)q$")
ENDS = {"ret", "ud2", "hlt", "int3"}


class Unexpected(Exception):
    """The archive is not of the kind that can be checked."""


class Instruction:
    def __init__(self, place, text):
        self.place, self.text = place, PREFIXES.sub("", " ".join(text.split()))
        self.kind = SUFFIX.sub(r"\1", re.split("[ ,]", self.text)[0])
        self.symbol = None  # of its relocation
        target = TARGET.match(self.text)
        self.target = int(target[1], 16) if target else None

    def conditional(self):
        return self.kind != "jmp" and self.kind.startswith(("j", "loop"))

    def jumps(self):
        return self.kind == "jmp" or self.conditional()

    def calls(self):
        """Also a jump to another function."""
        return self.kind == "call" or (self.kind == "jmp" and self.symbol is not None)

    def callee(self):
        """The function called, if that is plain."""
        found = re.fullmatch(r"(?:\.text\.)?(.*)-0x4", self.symbol or "")
        return found and found[1]


# ---- The archive.


def functions_of(listing):
    """The instructions of every function, by its name."""
    functions, body = {}, None
    for line in listing.splitlines():
        if name := NAME.match(line):
            if name[1] in functions:
                raise Unexpected(f"{name[1]}: more than one function of this name")
            body = functions[name[1]] = []
        elif instruction := INSTRUCTION.match(line):
            body.append(Instruction(int(instruction[1], 16), instruction[2]))
        elif relocation := RELOCATION.match(line):
            body[-1].symbol = relocation[1]
    return functions


def disassembled(archive):
    command = ["objdump", "-dr", "--no-show-raw-insn", archive]
    return functions_of(subprocess.run(command, check=True, capture_output=True, text=True).stdout)


# ---- Ways through a function, and its loops.


class Ways:
    """Which instruction may come after which, by places, of those that can be reached."""

    def __init__(self, body):
        self.at = {instruction.place: instruction for instruction in body}
        following = [*self.at][1:] + [None]
        self.next = dict(zip(self.at, following))
        self.first = body[0].place
        self.after = {place: self.successors(place) for place in self.at}
        self.reached = {self.first} | spread(self.first, self.after, set(self.at))
        self.before = {place: set() for place in self.at}
        for place in self.reached:
            for after in self.after[place]:
                self.before[after].add(place)

    def successors(self, place):
        instruction = self.at[place]
        if instruction.kind in ENDS or (instruction.kind == "jmp" and instruction.calls()):
            return set()
        ways = {instruction.target} if instruction.jumps() else set()
        if instruction.kind != "jmp":
            ways.add(self.next[place])
        return {way for way in ways if way in self.at}

    def entries(self, loop):
        """Where a loop is come into from outside."""
        return {place for place in loop if place == self.first or self.before[place] - loop}


def spread(start, edges, inside):
    """All that is come to from a place by one edge or more, without leaving `inside`."""
    seen, todo = set(), [start]
    while todo:
        fresh = (edges[todo.pop()] & inside) - seen
        seen |= fresh
        todo.extend(fresh)
    return seen


def loops_in(ways, inside):
    """The outermost loops among some places: sets of places from each of which all others are come to."""
    loops = []
    for start in sorted(ways.at[place].target or 0 for place in inside if ways.at[place].jumps()):
        if start in inside and not any(start in loop for loop in loops):
            loop = spread(start, ways.after, inside) & spread(start, ways.before, inside)
            loops += [loop] if start in loop else []
    return loops


def nested(ways, loop):
    """A loop and all in it, outer ones first."""
    inner = loops_in(ways, loop - ways.entries(loop))
    return [loop] + [each for one in inner for each in nested(ways, one)]


def stretch(ways, place):
    """The places around one that are come through one after the other, without a jump in or out."""
    places = [place]
    for edges, back in (ways.after, ways.before), (ways.before, ways.after):
        here = place
        while len(edges[here]) == 1 and len(back[next(iter(edges[here]))]) == 1:
            (here,) = edges[here]
            places.append(here)
    return places


# ---- The rule.


def plain_faults(ways, place):
    """What is wrong with an instruction wherever it stands."""
    instruction = ways.at[place]
    if re.match(r"v?i?div", instruction.kind):
        yield "a division"
    if instruction.kind == "(bad)":
        yield "no instruction"
    known = instruction.target in ways.at and instruction.symbol is None
    if instruction.jumps() and not instruction.calls() and not known:
        yield "a jump to an unknown place"
    if instruction.calls() and instruction.callee() is None:
        yield "a call of an unknown function"


def lets_pass(name, ways, place):
    """Whether this is a branch on the card that this function may have."""
    compared = [ways.at[before].text.startswith(LET_PASS.get(name, ())) for before in ways.before[place]]
    return compared == [True]


def jump_faults(name, ways, inside, loops):
    """How many loop ends and branches let pass there are; and the other conditional jumps, and loops entered at two places."""
    count, ended, faults = collections.Counter({"loop ends": 0}), set(), []
    for place in sorted(place for place in inside if ways.at[place].conditional()):
        around = max((number for number, loop in enumerate(loops) if place in loop), default=None)
        if around is not None and ways.after[place] - loops[around]:
            count["loop ends"] += 1
            faults += [(place, "leaves its loop a second time")] if around in ended else []
            ended.add(around)
        elif lets_pass(name, ways, place):
            count["branches on the card"] += 1
            faults += [(place, "a second branch on the card")] if count["branches on the card"] > 1 else []
        else:
            faults.append((place, "a branch"))
    faults += [(min(loop), "in a loop entered at two places") for loop in loops if len(ways.entries(loop)) != 1]
    return count, faults


class Check:
    def __init__(self, functions):
        self.functions, self.held, self.faults = functions, set(), []

    def body(self, name):
        if not self.functions.get(name):
            raise Unexpected(f"{name}: not in the archive")
        return self.functions[name]

    def hold(self, name, ways, inside, outer, what):
        """Holds some places of a function to the rule, and all that is called from there."""
        loops = [each for loop in outer for each in nested(ways, loop)]
        count, faults = jump_faults(name, ways, inside, loops)
        calls = sorted({ways.at[place].callee() for place in inside if ways.at[place].calls()} - {None})
        faults += [(place, fault) for place in sorted(inside) for fault in plain_faults(ways, place)]
        told = [f"{len(inside)} instructions", *(f"{kind} {number}" for kind, number in count.items())]
        told += [f"calls {callee}" for callee in calls] + [f"{len(faults)} FAULTS" if faults else "held"]
        print(f"{name}, {what}: {', '.join(told)}", flush=True)
        self.faults += [f"{name}, {place:x}: {ways.at[place].text}: {fault}" for place, fault in faults]
        for callee in calls:
            self.hold_function(callee)

    def hold_function(self, name):
        if name in self.held or name in OUTSIDE:
            return
        self.held.add(name)
        ways = Ways(self.body(name))
        self.hold(name, ways, ways.reached, loops_in(ways, ways.reached), "all of it")

    def calls(self, name, callee):
        """Whether a function calls another: it has no step of its own then."""
        return any(instruction.calls() and instruction.callee() == callee for instruction in self.body(name))

    def hold_tries(self, name):
        """Holds what a function does from one draw to the next, wherever it makes another."""
        ways = Ways(self.body(name))
        draws = {place for place in ways.reached if ways.at[place].calls() and ways.at[place].callee() == DRAW}
        if not draws:
            raise Unexpected(f"{name}: does not call {DRAW}")
        rest = ways.reached - draws
        before_a_draw = set().union(*(spread(place, ways.before, rest) for place in draws))
        between = {place: spread(place, ways.after, rest) & before_a_draw for place in draws}
        inside = set().union(*between.values())
        jumps = [place for place in sorted(inside) if ways.at[place].conditional()]
        branches = [place for place in jumps if not ways.after[place] - inside - draws]
        divisions = [sum("div" in ways.at[place].kind for place in places) for places in between.values()]
        told = f"draws {len(draws)}, ends {len(jumps) - len(branches)}, divisions {max(divisions)} each"
        wrong = branches or max(divisions) > 1
        print(f"{name}, between draws: {len(inside)} instructions, {told}, {'FAULTS' if wrong else 'held'}", flush=True)
        self.faults += [f"{name}, {place:x}: {ways.at[place].text}: a branch" for place in branches]
        self.faults += [f"{name}: {max(divisions)} divisions between two draws"] if max(divisions) > 1 else []

    def hold_gates(self, name):
        """Holds the one step by the gate formulas in a function."""
        ways = Ways(self.body(name))
        added = [place for place in sorted(ways.reached) if CONSTANT.match(ways.at[place].text)]
        if len(added) != 1:
            self.faults.append(f"{name}: adds TSC-1's constant at {len(added)} places")
            return
        inside = stretch(ways, added[0])
        divisions = sum("div" in ways.at[place].kind for place in inside)
        calls = sum(ways.at[place].calls() for place in inside)
        wrong = len(inside) < LEAST_STRETCH or divisions > (name == TRIED) or calls
        told = f"{len(inside)} instructions without a jump, divisions {divisions}, calls {calls}, {'FAULTS' if wrong else 'held'}"
        print(f"{name}, step of TSC-1: {told}", flush=True)
        self.faults += [f"{name}, {added[0]:x}: step of TSC-1: {told}"] if wrong else []

    def hold_loops(self, name, least):
        ways = Ways(self.body(name))
        loops = [loop for loop in loops_in(ways, ways.reached) if len(loop) >= least]
        if not loops:
            raise Unexpected(f"{name}: no loop")
        for loop in loops:
            self.hold(name, ways, loop, [loop], f"loop {min(loop):x} to {max(loop):x}")


def main(archive):
    try:
        check = Check(disassembled(archive))
        check.hold_function(DRAW)
        for name, callee in CALLERS.items():
            if not check.calls(name, callee):
                raise Unexpected(f"{name}: does not call {callee}")
        for name, least in LOOPED.items():
            check.hold_loops(name, least)
        check.hold_tries(TRIED)
        for name in GATED:
            check.hold_gates(name)
    except (Unexpected, OSError, subprocess.CalledProcessError) as error:
        sys.exit(f"jumps: {error}")
    if check.faults:
        sys.exit("\n".join(["jumps: found what the step must not have", *check.faults]))
    print("jumps: no conditional jump but loop ends, no division")


if __name__ == "__main__":
    main(*sys.argv[1:])
