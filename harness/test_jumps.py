"""The check of jumps tried on small archives: one that it must let pass, and such as it must find fault with."""

import contextlib
import io
import pathlib
import subprocess
import tempfile
import unittest

import jumps

# of a loop that is long enough to be held
LONG = "nop\n" * max(jumps.LOOPED.values())
# TSC-1's step, and the way to it from a function's start
HALF = "nop\n" * (jumps.LEAST_STRETCH // 2)
STRETCH = f"{HALF}add $0x12488421,%eax\n{HALF}"
GATES = f"je 9f\n{STRETCH}ret\n9: "
LOOP = f"mov $4,%ecx\n1: {LONG}dec %ecx\njne 1b\nret"
# words tried: a division, and an end in the middle
DRAWN = f'call "{jumps.DRAW}"\n'
TRIES = f"{GATES}1: {DRAWN}test %eax,%eax\nje 2f\ndiv %ecx\ndec %ecx\njne 1b\n2: ret"
# the same one behind the other
TWO_TRIES = f"{GATES}{DRAWN}div %ecx\ntest %eax,%eax\nje 2f\n{DRAWN}div %ecx\n2: ret"
GOOD = {
    jumps.STEP: "xor %eax,%eax\nret",
    **{name: GATES * (name in jumps.GATED) + f'call "{callee}"\nret' for name, callee in jumps.CALLERS.items()},
    **{name: GATES + LOOP for name in jumps.LOOPED},
    jumps.TRIED: TRIES,
}
BRANCH = "test %eax,%eax\nje 2f\ninc %eax\n2: "
# on the number of words, which a step may ask the card for
WORDS = "cmpl $4,(%rsi)\nja 2f\ninc %eax\n2: "
# the branch's end stands before its start, so that it jumps backward
BACKWARD = f"mov $4,%ecx\njmp 1f\n3: inc %eax\njmp 2f\n1: {LONG}test %eax,%eax\njne 3b\n2: dec %ecx\njne 1b\nret"


def archive(functions, folder):
    """Each function in a section of its own, as the compiler lays them out."""
    source = "".join(
        f'.section ".text.{name}","ax",@progbits\n.type "{name}",@function\n"{name}":\n{body}\n'
        for name, body in functions.items()
    )
    path = pathlib.Path(folder)
    (path / "code.s").write_text(source)
    subprocess.run(["gcc", "-c", "code.s"], cwd=folder, check=True)
    subprocess.run(["ar", "rc", "code.a", "code.o"], cwd=folder, check=True)
    return str(path / "code.a")


def found(**changed):
    """What the check says of the good functions with some of them changed; None where it lets them pass."""
    functions = GOOD | {name.replace("__", "::"): body for name, body in changed.items()}
    functions = {name: body for name, body in functions.items() if body is not None}
    with tempfile.TemporaryDirectory() as folder, contextlib.redirect_stdout(io.StringIO()):
        try:
            jumps.main(archive(functions, folder))
        except SystemExit as refused:
            return refused.code
    return None


class Jumps(unittest.TestCase):
    def test_loops_and_calls_pass(self):
        self.assertIsNone(found())
        self.assertIsNone(found(pick__call__pick=TWO_TRIES))

    def test_a_step_that_asks_the_card_twice(self):
        self.assertIsNone(found(stepping__step__next_state=WORDS + "ret"))
        self.assertIn("a second branch on the card", found(stepping__step__next_state=WORDS + WORDS + "ret"))
        self.assertIn("a branch", found(tiedraw_step_back=f"mov $4,%ecx\n1: {LONG}{WORDS}dec %ecx\njne 1b\nret"))

    def test_a_step_that_branches(self):
        self.assertIn("a branch", found(stepping__step__next_state=BRANCH + "ret"))

    def test_a_step_that_divides(self):
        self.assertIn("a division", found(stepping__step__next_state="div %ecx\nret"))

    def test_a_branch_in_what_the_step_calls(self):
        other = {"stepping__step__next_state": 'call "other"\nret', "other": BRANCH + "ret"}
        self.assertIn("a branch", found(**other))

    def test_a_branch_in_a_loop(self):
        body = f"mov $4,%ecx\n1: {BRANCH}dec %ecx\njne 1b\nret"
        self.assertIn("a branch", found(outputs__row__fill_words=body))

    def test_a_branch_that_jumps_backward(self):
        self.assertIn("a branch", found(tiedraw_step_back=BACKWARD))

    def test_a_loop_with_two_ends(self):
        body = "mov $4,%ecx\n1: test %eax,%eax\nje 2f\ndec %ecx\njne 1b\n2: ret"
        self.assertIn("a second time", found(outputs__row__fill_words=body))

    def test_a_caller_with_a_step_of_its_own(self):
        self.assertIn("does not call", found(tiedraw_draw="ret"))
        self.assertIn("does not call", found(tiedraw_fill=LOOP))

    def test_a_pick_that_branches_between_words(self):
        self.assertIn("a branch", found(pick__call__pick=f"1: {DRAWN}{BRANCH}dec %ecx\njne 1b\nret"))
        self.assertIn("a branch", found(pick__call__pick=f"{DRAWN}{BRANCH}{DRAWN}ret"))

    def test_a_pick_that_divides_more_than_once(self):
        self.assertIn("2 divisions", found(pick__call__pick=f"1: {DRAWN}div %ecx\ndiv %ecx\ndec %ecx\njne 1b\nret"))

    def test_a_step_of_tsc1_that_branches_or_divides(self):
        for name, callee in ("tiedraw_step", jumps.STEP), ("tiedraw_draw", jumps.DRAW):
            rest = f'call "{callee}"\nret'
            self.assertIn("step of TSC-1: 3", found(**{name: GATES.replace("add", f"{BRANCH}add") + rest}))
            self.assertIn("divisions 1", found(**{name: GATES.replace("add", "div %ecx\nadd") + rest}))
            self.assertIn("calls 1", found(**{name: GATES.replace("add", 'call "other"\nadd') + rest}))

    def test_what_is_not_there(self):
        self.assertIn("constant at 0 places", found(tiedraw_draw=f"{DRAWN}ret"))
        self.assertIn("constant at 2 places", found(tiedraw_draw=f"{GATES}{GATES}{DRAWN}ret"))
        self.assertIn("not in the archive", found(pick__call__pick=None))
        self.assertIn("does not call", found(pick__call__pick=LOOP))
        self.assertIn("no loop", found(tiedraw_step_back="ret"))
        self.assertIn("no loop", found(tiedraw_step_back=LOOP.replace(LONG, "")))


if __name__ == "__main__":
    unittest.main()
