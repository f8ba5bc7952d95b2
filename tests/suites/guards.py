"""Scripts of `guard`, which are halted once so many events have come or so many slots were fenced."""
from common import *
from fixture import *

SCRUBBED_0, SCRUBBED_1 = "scrubbed stripe 0 cells 1", "scrubbed stripe 1 cells 1"
REPAIRED_0, REPAIRED_1 = "repaired stripe 0 cells 1", "repaired stripe 1 cells 1"


class Guarded(Story):
    def guard(self, limits, script, replies, status, says, counted, **how):
        self.step(f"guard {limits}", status, [*says, counted], lines(*replies), input=Pipe(script), **how)


class Flawed(Guarded):
    """In each of two stripes a cell is damaged."""

    def setUp(self):
        super().setUp()
        self.begin_flawed()

    def test_a_halt_at_the_first_event(self):
        said = [REPAIRED_0, bad(3, 1), "halted after line 1"]
        self.guard("1 9", lines("scrub 0", "scrub 1"), [SCRUBBED_0], 21, said, events(repaired=1), case="a guard")
        said, script = [REPAIRED_1, bad(2, 1), events(repaired=1)], Pipe(lines("scrub 1"))
        self.step("run", 0, said, lines(SCRUBBED_1), input=script, case="the other stripe is as it was")

    def test_a_halt_at_the_last_line(self):
        said = [REPAIRED_0, REPAIRED_1, bad(2, 1), bad(3, 1), "halted after line 3"]
        self.guard("2 1", b"scrub 0\n\nscrub 1", [SCRUBBED_0, SCRUBBED_1], 21, said, events(repaired=2))

    def test_no_halt(self):
        said = [REPAIRED_0, REPAIRED_1, bad(2, 1), bad(3, 1)]
        self.guard("3 1", lines("scrub 0", "scrub 1"), [SCRUBBED_0, SCRUBBED_1], 0, said, events(repaired=2))

    def test_a_line_that_is_refused(self):
        said = [REPAIRED_0, bad(3, 1), "out of range: 3 of 3"]
        self.guard("2 1", lines("scrub 0", "scrub 3", "scrub 1"), [SCRUBBED_0], 11, said, events(repaired=1))

    def test_a_full_output_in_place_of_a_halt(self):
        said = [REPAIRED_0, bad(3, 1), *OUTPUT_FULL]
        self.guard("1 1", lines("scrub 0", "scrub 1"), [], 6, said, events(repaired=1), out=FULL)


class Fences(Guarded):
    """The device of slot 0 is lost. `guard` reports the loss twice while it counts the fenced slots."""

    SCRIPT = lines("read 0")

    def setUp(self):
        super().setUp()
        self.begin(FOUR.fresh)
        self.lose(0)

    def test_a_halt_at_the_opening(self):
        said = ["fenced 0", "fenced 0", "halted after line 0", events(fenced=1)]
        self.step("guard 5 1", 21, said, input=self.SCRIPT, left=len(self.SCRIPT), case="no line is taken")

    def test_two_fences(self):
        said, counted = ["fenced 0", "fenced 0"], events(fenced=1)
        self.guard("5 2", self.SCRIPT, [f"0 {digits('00')}"], 0, said, counted, case="the first fence")
        self.lose(1)
        # The opening before left slot 0 out, by epoch 2.
        said = [*FOUR.left(2, [1], {0: 1}), "too few devices: 0 gone, 1 gone"]
        self.guard("5 2", self.SCRIPT, [], 9, said, events(), case="too few devices")


class Others(Case):
    def test_no_array(self):
        self.expect_in(FOUR.blank, FOUR.blank, "guard 1 1", 7, ["no array", events()], input=Pipe(lines("read 0")))

    def test_what_is_no_line(self):
        self.expect_in(FOUR.fresh, FOUR.opened, "guard 1 1", 18, ["bad line 1", events()], input=Pipe(lines("raed 0")))
