"""Devices that are lost or hold another thing, damaged sectors that are restored, and stripes that are lost."""
from common import *
from fixture import *

SIZE = 20 * 512  # bytes of the blocks of a stripe of EIGHT


def encoded(blocks):
    """Returns the cells of the stripe of EIGHT that has these bytes as its blocks, row by row, by tests/tools/factors."""
    parts = [blocks[at : at + 512] for at in range(0, SIZE, 512)]
    return b"".join(tool("factors").encoded(EIGHT.n, EIGHT.m, EIGHT.r, EIGHT.e, parts))


def with_block(data, number, block):
    return data[: 512 * number] + block + data[512 * number + 512 :]


class Four(Story):
    def test_a_device_is_lost_and_reinserted(self):
        # The loss is reported once. That the device is reinserted makes no difference.
        self.begin(FOUR.fresh)
        self.step("write 0 1", puts=wrote(1), input=FF, case="a block")
        self.take_away(0)
        self.step("read 0 1", says="fenced 0", puts=FF, case="a lost device")
        self.step("read 0 1", puts=FF, case="a lost device again")
        self.step("write 0 1", puts=wrote(1), input=AA, case="a write without it")
        self.reinsert(0)
        self.step("read 0 1", puts=AA, case="the device is reinserted")
        self.step("show", puts=FOUR.shown(6, *FOUR.slots(slot0="down")), case="it is down")

    def test_a_device_that_was_cut_short(self):
        # What is past its end is bad, and a write there loses the device.
        self.begin(FOUR.fresh)
        os.truncate(image(self.work, 2), SEALED * 12)
        self.step("read 7 1", says=[bad(2, 2), short(2, 12, FOUR)], puts=ZERO, case="a read")
        self.step("write 0 1", says=["fenced 2", bad(2, 1), short(2, 12, FOUR)], puts=wrote(1), input=ONE, case="a write past its end")
        self.step("read 0 1", puts=ONE, case="the block")

    def test_a_lost_device_and_damaged_sectors(self):
        data = os.urandom(15 * 512)
        self.begin(FOUR.blank)
        self.step("create", puts=FOUR.created, input=FOUR.text, case="an array")
        self.step("write 0 15", puts=wrote(15), input=data, case="all blocks")
        self.lose(1)
        self.damage(2, 11, 5)
        says = ["fenced 1", bad(2, 1)]
        self.step("read 0 15", says=says, puts=data, case="a lost device, and a bad sector of another one in the same stripe")
        self.damage(3, 14, 543)
        self.step("read 0 15", says=[bad(2, 1), bad(3, 1)], puts=data, case="a bad sector in the next stripe")
        self.damage(2, 14)
        says = [bad(2, 2), bad(3, 1), "lost: stripe 1 counts 0 2 1 1"]
        self.step("read 0 8", 10, says, data[:3072], case="two bad sectors in a row")


class AnotherThing(Story):
    """Nothing is written to another thing in the place of a device."""

    def in_its_place(self, thing, *says):
        self.begin(FOUR.fresh)
        self.lose(2)
        copy(thing, image(self.work, 2))
        self.step("write 0 1", says=["fenced 2", *says], puts=wrote(1), input=ONE, case="a write")
        self.step("read 0 1", says=says, puts=ONE, case="the block")
        wanted = thing.read_bytes() if thing.is_file() else "folder"
        self.same(wanted, contents(self.work)["dev02.img"], "nothing is written to it")

    def test_a_blank_device(self):
        self.in_its_place(image(FOUR.blank, 2))

    def test_a_device_of_another_array(self):
        self.in_its_place(image(OTHER.fresh, 2))

    def test_a_folder(self):
        self.in_its_place(empty(), "dev02.img: no file and no block device")


class Eight(Story):
    """Forty blocks fill two stripes."""

    def setUp(self):
        super().setUp()
        self.data = os.urandom(2 * SIZE)
        self.changed = with_block(self.data, 27, ONE)
        self.begin(EIGHT.fresh)
        self.step("write 0 40", puts=wrote(40), input=self.data)

    def stripe(self, number):
        """Returns the cells of a stripe, row by row."""
        rows = range(35 + 4 * number, 39 + 4 * number)
        return b"".join(sector(image(self.work, slot), row) for row in rows for slot in range(8))

    def test_whole_stripes(self):
        for number in 0, 1:
            blocks = self.data[SIZE * number : SIZE * number + SIZE]
            self.same(encoded(blocks), self.stripe(number), f"the cells of stripe {number}")
            self.step("stripe up 8 2 4 1 1 2", puts=encoded(blocks), input=blocks, case=f"`stripe` encodes stripe {number}")

    def test_parts_of_stripes(self):
        self.step("write 27 1", puts=wrote(1), input=ONE, case="a block")
        self.same(encoded(self.changed[SIZE:]), self.stripe(1), "the cells of its stripe")
        self.step("check 8 2 4 1 1 2", puts=CODEWORD, input=self.stripe(1), case="a codeword")
        self.step("write 10 25", puts=wrote(25), input=Pipe(self.changed[10 * 512 : 35 * 512]), case="blocks of two stripes")
        self.step("read 0 40", puts=self.changed, case="all blocks")

    def test_as_many_losses_as_the_code_covers(self):
        self.step("write 27 1", puts=wrote(1), input=ONE, case="a block")
        self.lose(2, 7)
        for slot, row, at in (0, 35, 9), (1, 36, 9), (3, 38, 9), (3, 35, 0):
            self.damage(slot, row, at)
        of_stripe_0 = [bad(0, 1), bad(1, 1), bad(3, 2)]
        said = ["fenced 2", "fenced 7", *of_stripe_0]
        self.step("read 0 40", says=said, puts=self.changed, case="two lost devices, and four bad sectors of three others")
        self.step("write 0 1", says=of_stripe_0, puts=wrote(1), input=ONE, case="a block is written")
        self.step("read 0 1", puts=ONE, case="the block")

    def test_a_stripe_that_is_lost(self):
        # All cells of stripe 0 on three devices are bad. What is elsewhere is read, and a block is written if the cells that change with
        # it are elsewhere too. What is refused changes nothing.
        for slot in 0, 1, 2:
            for row in range(35, 39):
                self.damage(slot, row, 300)
        before, lost = self.past_superblocks(), [bad(0, 4), bad(1, 4), bad(2, 4), "lost: stripe 0 counts 4 4 4 0 0 0 0 0"]
        self.step("read 0 1", 10, lost, case="a block that is lost")
        self.step("read 3 5", 10, lost, self.data[3 * 512 : 6 * 512], case="blocks before a lost one")
        self.step("write 0 1", 10, lost, input=ONE, case="a write of a block that is lost")
        self.step("write 0 20", 10, lost, input=Pipe(ONE, TAKEN, bytes(19 * 512)), case="a write whose first block is lost")
        self.same(before, self.past_superblocks(), "nothing of a lost stripe is written")
        self.step("write 3 1", puts=wrote(1), input=ONE, case="a block beside it")
        self.step("read 3 17", 10, lost, ONE + self.data[4 * 512 : 6 * 512], case="what is left of the stripe")
        self.step("write 0 20", puts=wrote(20), input=self.data[:SIZE], case="a whole stripe in place of a lost one")
        self.step("read 0 20", puts=self.data[:SIZE], case="the whole stripe")
