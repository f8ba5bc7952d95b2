"""An array with as many stripes as four devices may have, on sparse files of 2.34 TB."""
import errno

from common import *
from fixture import *
from messages import BEGUN, EINVAL, ENOSPC, READ, WRITE, greeted, reply, request
from rounds import *

SLOW = True
BODY = 3  # the first sector of the body, which has one for each cell of a stripe
CHUNKS = 7  # the first sector of the chunks, which have one each
GATE = b"STAIRGT1"
LAST = LARGEST.stripes - 1
FIRST_OF_LAST = 2 * LAST  # the first block of the last stripe; each stripe has two
MIDDLE = 2**31  # the stripe whose second block is block 2^32 + 1
WRITTEN = 0, 65536, MIDDLE, LAST
EVENT = f"repaired stripe {LAST} cells 1"

# For commands that are refused: one that is not would write for days, and is stopped where it writes past a megabyte.
STOPPED = ulimit("-f", 1000)


def blocks_of(stripe):
    """Returns the two blocks that a stripe has at first."""
    return noise(f"stripe {stripe}", 1024)


def encoded(blocks):
    """Returns the cells of the stripe that has these two blocks, by tests/tools/factors."""
    return tool("factors").encoded(4, 1, 1, [1], [blocks[:512], blocks[512:]])


def with_stripe(folder, stripe, blocks):
    """Writes the cells of a stripe to their places."""
    for slot, cell in enumerate(encoded(blocks)):
        patch(image(folder, slot), f"{CHUNKS + stripe} 0={cell.hex()}")


def sparse(folder):
    """Makes the devices of LARGEST with what `create` writes before their chunks, and with the stripes of WRITTEN. No other stripe was
    written, so all its cells are bad."""
    LARGEST.put_superblocks(blank(folder, 4, LARGEST.sectors))
    patch(folder, f"2 0={GATE.hex()} then 3,4,5,6 0=00")
    for stripe in WRITTEN:
        with_stripe(folder, stripe, blocks_of(stripe))


class Largest(Story):
    """Stories of LARGEST. Most begin with it as it is made, in epoch 1."""

    def setUp(self):
        super().setUp()
        self.work = in_memory(self) / "work"
        try:
            sparse(self.work)
        except OSError as why:
            if why.errno not in (errno.EFBIG, errno.EINVAL, errno.ENOSPC):
                raise
            self.skipTest(f"needs a file system that has sparse files of 2.34 TB: {why}")

    def cells(self, stripe):
        return [sector(image(self.work, slot), CHUNKS + stripe) for slot in range(4)]

    def has_cells(self, stripe, blocks, case):
        """A case: the cells of this stripe are those of these blocks."""
        self.same(b"".join(encoded(blocks)), b"".join(self.cells(stripe)), case)


class Blocks(Largest):
    def test_show(self):
        self.step("show", puts=LARGEST.shown(1, *LARGEST.slots()))

    def test_reads(self):
        for stripe in WRITTEN:
            self.step(f"read {2 * stripe} 2", puts=blocks_of(stripe), case=f"stripe {stripe}")
        self.step(f"read {FIRST_OF_LAST + 1} 1", puts=blocks_of(LAST)[512:], case="the last block")
        self.step(f"read {FIRST_OF_LAST + 1} 2", 11, "out of range: 8589934576 of 8589934576", case="a block more")
        says = [*(bad(slot, 1) for slot in range(4)), f"lost: stripe {LAST - 1} counts 1 1 1 1"]
        self.step(f"read {FIRST_OF_LAST - 1} 1", 10, says, case="a stripe that was never written")

    def test_writes(self):
        changed = ONE + blocks_of(LAST)[512:]
        self.step(f"write {FIRST_OF_LAST} 1", puts=wrote(1), input=ONE, case="a block of the last stripe")
        self.step(f"read {FIRST_OF_LAST} 2", puts=changed, case="the last stripe")
        self.has_cells(LAST, changed, "its cells")
        self.step(f"write {FIRST_OF_LAST - 2} 4", puts=wrote(4), input=AA + FF + FF + ONE, case="a stripe that was never written, and the last")
        self.step(f"read {FIRST_OF_LAST - 2} 4", puts=AA + FF + FF + ONE, case="both stripes")
        self.has_cells(LAST - 1, AA + FF, "the cells of the one")
        self.has_cells(LAST, FF + ONE, "the cells of the other")
        self.step(f"write {FIRST_OF_LAST + 1} 2", 11, "out of range: 8589934576 of 8589934576", input=ONE, left=512, case="a block more")
        for stripe in WRITTEN[:-1]:
            self.has_cells(stripe, blocks_of(stripe), f"the cells of stripe {stripe}")

    def test_superblocks(self):
        # Each of the two commands opens the array by an epoch, and has another one for what it marks.
        self.step("label shelf", puts=lines("labelled"), case="a label")
        self.step("freeze", puts=lines("frozen"), case="a frozen mark")
        self.step("show", puts=LARGEST.shown(5, "label shelf", "frozen", *LARGEST.slots()), case="both")
        block = bytearray(LARGEST.superblock(2))
        block[87] = block[95] = 5
        block[384:391] = b"\1\5shelf"
        found = [sector(image(self.work, 2), place) for place in (0, 1)]
        self.same(bytes(block), max(found, key=lambda it: it[80:96]), "the newest superblock of a device")

    def test_create(self):
        text = LARGEST.text
        self.step("create", 12, "array already: slot 0", input=text, wrap=STOPPED, case="an array again")
        for path in images(self.work):
            path.unlink()
        blank(self.work, 4, LARGEST.sectors)
        os.truncate(image(self.work, 3), SEALED * LARGEST.sectors - 1)
        length = f"dev03.img: {SEALED * LARGEST.sectors - 1} bytes, and the array needs {SEALED * LARGEST.sectors}"
        small = f"small device: slot 3 has {LARGEST.sectors - 1} of {LARGEST.sectors} sectors"
        self.step("create", 13, [length, small], input=text, wrap=STOPPED, case="a device of a sector too few")


class Damage(Largest):
    def test_a_bad_sector(self):
        self.damage(2, CHUNKS + LAST)
        self.step("run", says=[EVENT, bad(2, 1), events(repaired=1)], puts=self.scrubbed(1), input=lines(f"scrub {LAST}"), case="it is mended")
        self.step("run", says=events(), puts=self.scrubbed(0), input=lines(f"scrub {LAST}"), case="it is right")
        self.has_cells(LAST, blocks_of(LAST), "its cells")
        self.expect("report", puts=lines(events(repaired=1)), input=lines(EVENT), case="`report` counts the event")
        past = [f"out of range: {LARGEST.stripes} of {LARGEST.stripes}", events()]
        self.step("run", 11, past, input=lines(f"scrub {LARGEST.stripes}"), case="a stripe more")

    def scrubbed(self, count):
        return lines(f"scrubbed stripe {LAST} cells {count}")

    def test_a_lost_device(self):
        self.lose(0)
        self.step(f"read {FIRST_OF_LAST} 2", says="fenced 0", puts=blocks_of(LAST), case="the last stripe")
        self.damage(1, CHUNKS + LAST)
        self.step(f"read {FIRST_OF_LAST} 2", says=bad(1, 1), puts=blocks_of(LAST), case="a bad sector of another device, too")
        self.step(f"write {FIRST_OF_LAST} 1", says=bad(1, 1), puts=wrote(1), input=ONE, case="a write")
        self.step(f"read {FIRST_OF_LAST} 2", says=bad(1, 1), puts=ONE + blocks_of(LAST)[512:], case="what was written")
        self.damage(1, CHUNKS + LAST, 5)
        self.damage(2, CHUNKS + LAST)
        says = [bad(1, 1), bad(2, 1), f"lost: stripe {LAST} counts 1 1 1 0"]
        self.step(f"read {FIRST_OF_LAST} 1", 10, says, case="two bad sectors")

    def test_a_device_that_was_cut_short(self):
        os.truncate(image(self.work, 0), SEALED * (CHUNKS + LAST))
        is_short = short(0, CHUNKS + LAST, LARGEST)
        self.step(f"read {FIRST_OF_LAST} 2", says=[bad(0, 1), is_short], puts=blocks_of(LAST), case="a read past its end")
        self.step(f"write {FIRST_OF_LAST} 1", says=["fenced 0", bad(0, 1), is_short], puts=wrote(1), input=ONE, case="a write past its end")
        small = f"small device: slot 0 has {LARGEST.sectors - 1} of {LARGEST.sectors} sectors"
        self.step("replace 0", 13, [is_short, small], case="it is too small")

    def test_a_device_that_is_rebuilt(self):
        # What is written in the meantime reaches it too. No stripe but the first one can be rebuilt here.
        self.lose(0)
        self.insert(0, LARGEST.sectors)
        script = lines("replace 0", "rebuild 1", f"write {FIRST_OF_LAST} {ONE.hex()}", "rebuild 1")
        said = ["fenced 0", "admitted 0", bad(1, 1), bad(2, 1), bad(3, 1), "lost: stripe 1 counts 1 1 1 1", events(fenced=1, admitted=1)]
        replies = lines("admitted 0", "rebuild 1 steps", f"wrote {FIRST_OF_LAST}")
        self.step("run", 10, said, replies, input=script, case="a script")
        self.has_cells(0, blocks_of(0), "the first stripe")
        self.has_cells(LAST, ONE + blocks_of(LAST)[512:], "the last stripe")

    def test_larger_devices(self):
        # Of a device as many sectors count as the array needs; what follows them is kept.
        for slot in range(4):
            resize(image(self.work, slot), LARGEST.sectors + 2)
            patch(image(self.work, slot), f"{LARGEST.sectors} 0=01*512 then {LARGEST.sectors + 1} 0=02*512")
        self.step(f"write {FIRST_OF_LAST} 2", puts=wrote(2), input=AA + FF, case="a write")
        self.step(f"read {FIRST_OF_LAST} 2", puts=AA + FF, case="a read")
        for place, block in (LARGEST.sectors, ONE), (LARGEST.sectors + 1, filled(2)):
            found = [sector(image(self.work, slot), place) for slot in range(4)]
            self.same(block * 4, b"".join(found), f"sector {place}")


class Journal(Largest):
    """A write of the first block of the last stripe was cut off once the gate of slot 2 was open."""

    def cut_off(self, stripe):
        # With block 0 of a stripe its cell changes, the global parity on slot 2 and the row parity on slot 3.
        for slot in 0, 2, 3:
            patch(self.work, f"{BODY + slot} 0={encoded(self.changed)[slot].hex()}")
        patch(image(self.work, 2), f"2 8=01 12={stripe:08x} 16=B0")

    def setUp(self):
        super().setUp()
        self.changed = ONE + blocks_of(LAST)[512:]

    def test_a_write_of_the_last_stripe(self):
        self.cut_off(LAST)
        self.step(f"read {FIRST_OF_LAST} 2", puts=self.changed, case="it is done")
        self.has_cells(LAST, self.changed, "its cells")
        self.same(GATE.ljust(512, b"\0") * 4, b"".join(sector(image(self.work, slot), 2) for slot in range(4)), "the gates are closed")

    def test_a_stripe_that_the_array_does_not_have(self):
        self.cut_off(LAST + 1)
        self.step(f"read {FIRST_OF_LAST} 2", puts=blocks_of(LAST), case="nothing is done")


class Serve(Largest):
    def test_a_session(self):
        size, offset = 512 * LARGEST.blocks, 512 * FIRST_OF_LAST
        self.assertEqual(4398046502912, size)
        old = blocks_of(LAST)
        parts = (
            (request(READ, offset, 1024), reply() + old),
            (request(WRITE, offset + 511, 513) + b"\xaa" * 513, reply()),
            (request(READ, offset, 1024), reply() + old[:511] + b"\xaa" * 513),
            (request(READ, size - 1, 1), reply() + b"\xaa"),
            (request(READ, size, 0), reply()),
            (request(READ, size - 1, 2), reply(EINVAL)),
            (request(WRITE, size, 1) + b"\xbb", reply(ENOSPC)),
            (request(READ, 512 * (2 * MIDDLE + 1), 512), reply() + blocks_of(MIDDLE)[512:]),
        )
        given = BEGUN + b"".join(given for given, _ in parts)
        self.step("serve", puts=greeted(size) + b"".join(answer for _, answer in parts), input=given, case="a session")
        self.has_cells(LAST, old[:511] + b"\xaa" * 513, "the cells of the last stripe")


class Volumes(Largest):
    """`low` has the 2^32 blocks after the table, and `high` all that follow."""

    low, high = "low 1 4294967296", "high 4294967297 4294967279"

    def begin_with(self, *volumes):
        self.step("write 0 1", puts=wrote(1), input=table(*volumes), case="a table that is written")
        self.step("vlist", puts=listed(*volumes), case="its list")

    def test_blocks(self):
        self.begin_with(self.low, self.high)
        self.step("vread high 0 1", puts=blocks_of(MIDDLE)[512:], case="the first block behind 2^32")
        self.step("vwrite high 0 1", puts=wrote(1), input=ONE, case="a write of it")
        self.step("vread high 0 1", puts=ONE, case="it was written")
        self.step("vread low 4294967295 1", puts=blocks_of(MIDDLE)[:512], case="the last block of the other volume")
        self.step("vwrite low 4294967295 1", puts=wrote(1), input=FF, case="a write of that")
        self.step("vwrite high 4294967278 1", puts=wrote(1), input=AA, case="a write of the last block")
        self.step("vread low 131071 2", puts=blocks_of(65536), case="blocks of a lower stripe")
        self.has_cells(MIDDLE, FF + ONE, "the cells between the volumes")
        self.has_cells(LAST, blocks_of(LAST)[:512] + AA, "the cells of the last stripe")
        self.step("vread high 4294967279 1", 11, "out of range: 4294967279 of 4294967279", case="a block past the volume")
        self.step("vread low 4294967296 1", 11, "out of range: 4294967296 of 4294967296", case="a block past the other one")

    def test_volumes_that_are_made_and_dropped(self):
        # The volume of five blocks has the second block of a stripe that was written, and two whole stripes.
        self.begin_with(self.low)
        self.step("vmake x 4294967280", 28, "no room: 4294967280 blocks", wrap=STOPPED, case="a block more than there is")
        self.step("vmake five 5", puts=lines("made five first 4294967297 blocks 5"), case="a volume behind 2^32")
        self.step("vread five 0 5", puts=bytes(5 * 512), case="its zeros")
        self.step("read 4294967296 6", puts=blocks_of(MIDDLE)[:512] + bytes(5 * 512), case="where they are")
        self.step("read 0 1", puts=table(self.low, "five 4294967297 5"), case="the block of the table")
        self.step("vmake two 2", puts=lines("made two first 4294967302 blocks 2"), case="another one, of a whole stripe")
        self.step("vdrop low", puts=lines("dropped low"), case="the lower volume is dropped")
        self.step("vlist", puts=listed("five 4294967297 5", "two 4294967302 2"), case="the list")
        self.step("vmake one 1", puts=lines("made one first 1 blocks 1"), case="a volume in its place")

    def test_tables_with_a_fault(self):
        for case, volumes in (
            ("a volume that ends past the array", (self.low, "high 4294967297 4294967280")),
            ("volumes that have a block in common", ("low 1 4294967297", self.high)),
            ("a volume of no block", ("low 1 0",)),
            ("a volume that begins past the array", ("high 8589934576 1",)),
            ("a volume whose end does not fit 64 bits", (f"high {2**64 - 1} 1",)),
        ):
            self.step("write 0 1", puts=wrote(1), input=table(*volumes))
            self.step("vlist", 23, "no volume table", case=case)
