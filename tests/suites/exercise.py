"""`exercise` reads, writes and scrubs by steps that a number gives."""
import pathlib
import shutil
import tempfile

from common import *
from fixture import *


class Model:
    """What blocks are filled with after steps, worked out from the rule of the steps alone."""

    def __init__(self, blocks):
        self.bytes = [0] * blocks

    def exercise(self, number, count):
        """Takes these steps, and returns what `exercise` puts out."""
        state, reads, writes, scrubs, total = number, 0, 0, 0, 0
        for _ in range(count):
            state = (state * 6364136223846793005 + 1442695040888963407) % 2**64
            choice, kind = state >> 36, state >> 33 & 7
            block = choice % len(self.bytes)
            if kind == 0:
                scrubs += 1
            elif kind <= 3:
                reads += 1
                total += self.bytes[block]
            else:
                writes += 1
                self.bytes[block] = choice % 251
        return came_to(number, count, reads, writes, scrubs, total)

    def blocks(self):
        return filled(*self.bytes)


def came_to(number, count, reads=0, writes=0, scrubs=0, total=0):
    return lines(f"exercise {number} {count}: reads {reads} writes {writes} scrubs {scrubs} sum {total}")


class FewSteps(Story):
    """The first step of number 0 fills block 695 with 84, and the second one scrubs stripe 33, by hand."""

    def setUp(self):
        super().setUp()
        self.begin(EIGHT.fresh)

    def test_a_step(self):
        self.step("exercise 0 1", puts=came_to(0, 1, writes=1), case="a step")
        self.step("read 694 3", puts=filled(0, 84, 0), case="the block that it wrote")

    def test_a_full_output(self):
        self.step("exercise 0 1", 6, OUTPUT_FULL, out=FULL, case="a step")
        self.step("read 694 3", puts=filled(0, 84, 0), case="the block that it wrote all the same")

    def test_two_steps(self):
        self.damage(5, 35 + 4 * 33)
        self.step("exercise 0 2", says=["repaired stripe 33 cells 1", bad(5, 1)], puts=came_to(0, 2, writes=1, scrubs=1))

    def test_no_step(self):
        self.expect_in(EIGHT.fresh, EIGHT.opened, "exercise 7 0", puts=came_to(7, 0), input=CLOSED)


class Refused(Case):
    def refused(self, before, after, words, status, says, **how):
        self.expect_in(before, after, f"exercise {words}", status, says, **how)

    def test_too_many_steps(self):
        past = "out of range: 1000001 of 1000001"
        self.refused(EIGHT.fresh, EIGHT.opened, "0 1000001", 11, past, input=STRIPE, left=4096, case="a step too many")
        past = f"out of range: {GREATEST} of 1000001"
        self.refused(FOUR.fresh, FOUR.opened, f"{GREATEST} {GREATEST}", 11, past, case="far too many")

    def test_a_frozen_array(self):
        self.refused(frozen(), opened_frozen(), "0 1000000", 20, "frozen")

    def test_no_array(self):
        self.refused(FOUR.blank, FOUR.blank, "0 1", 7, "no array")

    def test_a_folder_in_use(self):
        self.needs("flock")
        self.refused(FOUR.fresh, FOUR.fresh, "0 1", 75, ".: in use", wrap=["flock", "."])


class ManySteps(Story):
    """Many steps. The array is in memory where there is such a folder, since many steps have many syncs."""

    def setUp(self):
        super().setUp()
        self.model, self.steps = Model(EIGHT.blocks), 100
        if os.access("/dev/shm", os.W_OK):
            place = tempfile.mkdtemp(prefix="stair-tests-", dir="/dev/shm")
            self.addCleanup(shutil.rmtree, place)
            self.work, self.steps = pathlib.Path(place) / "work", 2000
        self.begin(EIGHT.fresh)

    def exercise(self, number, count, says="", **how):
        self.step(f"exercise {number} {count}", 0, says, self.model.exercise(number, count), **how)

    def all_blocks(self, says="", **how):
        self.step("read 0 1280", 0, says, self.model.blocks(), **how)

    def test_all_devices(self):
        self.exercise(1, self.steps, case="many steps")
        self.exercise(99, 50, case="more steps")
        self.all_blocks(case="all blocks")

    def test_a_device_is_lost_and_replaced(self):
        self.lose(3)
        self.exercise(1, self.steps, "fenced 3", case="many steps, without a device")
        self.all_blocks(case="all blocks, without the device")
        self.exercise(99, 50, case="more steps, without the device")
        self.insert(3, 291)
        self.step("replace 3", 0, ["admitted 3", "promoted 3"], lines("replaced 3"), case="another device in its place")
        self.lose(0, 5)
        self.all_blocks(["fenced 0", "fenced 5"], case="all blocks, without two other devices")
