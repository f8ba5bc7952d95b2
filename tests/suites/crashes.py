"""Writes that were cut off: what the next opening makes of the journal, a program that is killed, a device that is taken away."""
from common import *
from fixture import *


def spoil(folder, at):
    """Makes the byte at this offset of each image file another one."""
    for path in images(folder):
        set_byte(path, at, 0x77)
    return folder


@once
def before_the_gate(folder):
    """FOUR where a write of block 0 was cut off with the bodies whole, but before its gate."""
    patch(copy(bodies(), folder), "0 87=01 95=01 then 1 87=01")


@once
def lost_body(folder):
    """FOUR as `cut`, where the first sector of the body can be read on no device."""
    spoil(copy(cut(), folder), SEALED * 3 + 100)


@once
def lost_body_opened(folder):
    opened(copy(lost_body(), folder))


class Journal(Case):
    """The next opening finishes a write whose gate is open, and drops one whose gate is not."""

    def test_an_open_gate(self):
        self.expect_in(cut(), written(), "read 0 1", puts=ONE)

    def test_an_open_gate_and_a_lost_device(self):
        before, after = self.folder("before", cut()), self.folder("after", written())
        for folder in before, after:
            image(folder, 1).unlink()
        opened(after, "105=030000000000000000")
        self.expect_in(before, after, "read 0 1", says="fenced 1", puts=ONE)

    def test_gates_that_are_torn(self):
        torn = spoil(self.folder("torn", before_the_gate()), SEALED * 2 + 20)
        self.expect_in(torn, bodies(), "read 0 1", says=[bad(slot, 1) for slot in range(4)], puts=ZERO)

    def test_a_body_that_is_lost(self):
        how = {"status": 19, "says": [*(bad(slot, 1) for slot in range(4)), "journal lost: sector 3"]}
        self.expect_in(lost_body(), lost_body_opened(), "read 0 1", **how, case="a read")
        self.expect_in(lost_body(), lost_body_opened(), "write 0 1", **how, input=ONE, left=512, case="a write")


class Meanwhile(Story):
    """A write has written its first block and waits for the second one."""

    def test_a_device_that_is_taken_away(self):
        # Its file stays open, so nothing is noticed before the next opening.
        def take_away():
            self.wait_for(0, 11, ONE)
            self.take_away(2)

        self.begin(FOUR.fresh)
        self.step("write 0 2", puts=wrote(2), input=Pipe(ONE, take_away, FF), case="the write")
        self.step("read 0 2", says="fenced 2", puts=ONE + FF, case="both blocks without the device")
        self.reinsert(2)
        self.step("read 0 2", puts=ONE + FF, case="both blocks with it")

    def test_a_write_that_is_killed(self):
        self.begin(FOUR.fresh)
        talk = self.talk("write 0 2")
        talk.send(ONE)
        self.wait_for(0, 11, ONE)
        self.step("read 0 1", 75, ".: in use", case="a read beside the write")
        talk.kill()
        self.step("read 0 2", puts=ONE + ZERO, case="the block before")
