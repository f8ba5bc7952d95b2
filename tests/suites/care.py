"""An array is looked after: replacements and rebuilds of devices, scrubs, and what is not replaced."""
from common import *
from fixture import *

LAST = LARGE.stripes - 1  # the last stripe of LARGE, which has the last block alone
LAST_ROW = LARGE.sectors - 1  # its sector on each device


class Written(Story):
    """All blocks of FOUR are written."""

    def setUp(self):
        super().setUp()
        self.data = os.urandom(15 * 512)
        self.begin(FOUR.fresh)
        self.step("write 0 15", puts=wrote(15), input=self.data)


class Replaced(Written):
    def test_a_blank_device(self):
        # It then has all blocks, also what was written without it, and another device may be lost.
        changed = ONE + self.data[512:]
        self.lose(1)
        self.step("write 0 1", says="fenced 1", puts=wrote(1), input=ONE, case="a block without a device")
        self.insert(1, 17)
        self.step("replace 1", says=["admitted 1", "promoted 1"], puts=lines("replaced 1"), case="a blank device in its place")
        self.step("show", puts=FOUR.shown(6, *FOUR.slots(slot1="live 5")), case="it is live")
        self.step("rebuild", puts=lines("rebuild 0 steps"), case="nothing is to be rebuilt")
        self.take_away(0)
        self.step("read 0 15", says="fenced 0", puts=changed, case="what it has")
        self.reinsert(0)
        said = ["admitted 0", "promoted 0"]
        self.step("replace 0", says=said, puts=lines("replaced 0"), case="a reinserted device takes its own place")
        self.lose(2)
        self.step("read 0 15", says="fenced 2", puts=changed, case="what that device has")


class Scrubs(Written):
    def test_damaged_sectors(self):
        # They are written anew, once.
        for slot, number, at in (3, 14, 543), (2, 11, 0), (0, 12, 20):
            self.damage(slot, number, at)
        said = ["repaired stripe 0 cells 2", "repaired stripe 1 cells 1", bad(0, 1), bad(2, 1), bad(3, 1)]
        self.step("scrub", says=said, puts=lines("scrubbed 3 stripes cells 3"), case="a scrub")
        self.step("scrub", puts=lines("scrubbed 3 stripes cells 0"), case="a scrub again")
        self.lose(1)
        self.step("read 0 15", says="fenced 1", puts=self.data, case="all blocks, without a device")
        self.damage(2, 13)
        self.damage(3, 13)
        said = [bad(2, 1), bad(3, 1), "lost: stripe 1 counts 0 2 1 1"]
        self.step("scrub", 10, said, case="a scrub of a lost stripe")

    def test_a_full_output(self):
        self.step("scrub", 6, OUTPUT_FULL, out=FULL)


class NotReplaced(Story):
    def setUp(self):
        super().setUp()
        self.begin(FOUR.fresh)

    def test_a_live_slot(self):
        self.step("replace 2", 14, "slot busy: slot 2 is live")

    def test_a_slot_that_the_array_does_not_have(self):
        self.step("replace 9", 11, "out of range: 9 of 4")

    def test_devices_that_cannot_take_the_place(self):
        self.lose(2)
        self.step("replace 2", 15, ["fenced 2", "gone: slot 2"], case="no device")
        self.insert(2, 16)
        says = [short(2, 16, FOUR), "small device: slot 2 has 16 of 17 sectors"]
        self.step("replace 2", 13, says, case="a small device")
        stranger = copy(image(OTHER.fresh, 2), image(self.work, 2)).read_bytes()
        self.step("replace 2", 12, "array already: slot 2", case="a device of another array")
        self.same(stranger, image(self.work, 2).read_bytes(), "the device of another array is as it was")


class Large(Story):
    """LARGE, whose stripes have a block each, on slot 0. The first block and the last two are written."""

    def setUp(self):
        super().setUp()
        self.begin(LARGE.fresh)
        self.step("write 0 1", puts=wrote(1), input=AA)
        self.step(f"write {LAST - 1} 2", puts=wrote(2), input=FF + ONE)
        self.blocks = AA + bytes(512 * (LAST - 2)) + FF + ONE

    def reads_all(self, case, **how):
        self.step(f"read 0 {LARGE.blocks}", puts=self.blocks, case=case, **how)

    def writes_the_last(self, block, **how):
        self.blocks = self.blocks[:-512] + block
        self.step(f"write {LAST} 1", puts=wrote(1), input=block, **how)

    def has_cells(self, case):
        """A case: the cells of the last stripe are those of its block, by tests/tools/factors."""
        wanted = b"".join(tool("factors").encoded(LARGE.n, LARGE.m, LARGE.r, LARGE.e, [self.blocks[-512:]]))
        self.same(wanted, b"".join(sector(image(self.work, slot), LAST_ROW) for slot in range(LARGE.n)), case)

    def test_a_device_that_is_replaced(self):
        self.has_cells("the last stripe")
        self.reads_all("all blocks")
        self.lose(0)
        self.step(f"read {LAST} 1", says="fenced 0", puts=ONE, case="the last block without a device")
        self.damage(1, LAST_ROW)
        self.reads_all("all blocks without it, and a bad sector of another one", says=bad(1, 1))
        said = [f"repaired stripe {LAST} cells 1", bad(1, 1)]
        self.step("scrub", says=said, puts=lines(f"scrubbed {LARGE.stripes} stripes cells 1"), case="a scrub")
        self.writes_the_last(FF, case="a write without the device")
        self.insert(0, LARGE.sectors)
        self.step("replace 0", says=["admitted 0", "promoted 0"], puts=lines("replaced 0"), case="a blank device in its place")
        # `replace` is the eighth command that opens the array, by epoch 9. Two more epochs admit the device and make it live.
        self.step("show", puts=LARGE.shown(11, *LARGE.slots(slot0="live 10")), case="it is live")
        self.has_cells("the last stripe on it")
        self.lose(2)
        self.reads_all("all blocks without another device", says="fenced 2")
        self.step(f"read {LAST} 2", 11, f"out of range: {LARGE.blocks} of {LARGE.blocks}", case="a block more")

    def test_a_device_that_was_cut_short(self):
        os.truncate(image(self.work, 0), SEALED * LAST_ROW)
        self.step(f"read {LAST - 1} 2", says=[bad(0, 1), short(0, LAST_ROW, LARGE)], puts=FF + ONE, case="the last two blocks")
        self.writes_the_last(AA, says="fenced 0", case="a write past its end")
        small = f"small device: slot 0 has {LAST_ROW} of {LARGE.sectors} sectors"
        self.step("replace 0", 13, [short(0, LAST_ROW, LARGE), small], case="it is too small")
        self.insert(0, LARGE.sectors)
        # The slot is live with the last stripe, and not before.
        script = lines("replace 0", f"rebuild {LAST}", f"scrub {LAST}", "rebuild 9", f"scrub {LARGE.stripes}")
        replies = lines("admitted 0", f"rebuild {LAST} steps", f"scrubbed stripe {LAST} cells 0", "rebuild 1 steps")
        refused = f"out of range: {LARGE.stripes} of {LARGE.stripes}"
        said = ["admitted 0", "promoted 0", refused, events(admitted=1, promoted=1)]
        self.step("run", 11, said, replies, input=script, case="it is replaced and rebuilt by a script")
        self.has_cells("the last stripe")
        self.damage(2, LAST_ROW)
        said = [f"repaired stripe {LAST} cells 1", bad(2, 1), events(repaired=1)]
        self.step("run", says=said, puts=lines(f"scrubbed stripe {LAST} cells 1"), input=lines(f"scrub {LAST}"), case="a scrub of it")
        self.reads_all("all blocks")
