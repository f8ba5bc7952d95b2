"""What `scripts/salvage` writes of arrays that are past tolerance: their blocks, as far as they are determined, and the map of the others."""
import itertools
import random

from beyond import *
from common import *
from fixture import *
from rounds import noise

U = 5  # blocks of a stripe of SMALL: 0, 1 and 2 in row 0 of slots 0 to 2, and 3 and 4 in row 1 of slots 0 and 1
SLOT_BLOCKS = {0: (0, 3), 1: (1, 4), 2: (2,), 3: ()}


def gone(*slots):
    return [f"dev{slot:02}.img: gone" for slot in slots]


def left_out(*slots):
    return "stale devices are left out: " + " ".join(f"dev{slot:02}.img" for slot in slots)


def small_blocks(slots, stripes=range(9)):
    """Returns the blocks of SMALL that lie on these slots, in these stripes."""
    return [U * stripe + block for stripe in stripes for slot in slots for block in SLOT_BLOCKS[slot]]


def new_blocks(array):
    """Returns the blocks of an array that was written twice."""
    return noise(f"new {array.number}", 512 * array.blocks)


class Salvaged(Beyond):
    """Cases that salvage the array in `self.work`."""

    number = 0

    def salvage(self, *words, **how):
        """Runs the script, and returns how it ended and the path of its output."""
        self.number += 1
        out = self.room / f"out{self.number}"
        return self.script("salvage", ".", str(out), *words, **how), out


    def gives(self, blocks, missing=(), stale=(), agreeing=(), says="", words=(), case=None, status=None):
        """A case: the script writes these blocks, except the missing ones, says what each block is, and changes no device."""
        with self.named(case):
            before = contents(self.work)
            ended, out = self.salvage(*words)
            total = len(blocks) // 512
            marks = {block: mark for mark, marked in (("-", missing), ("*", stale), ("/", agreeing)) for block in marked}
            had = total - len(marks)
            puts = lines(f"blocks {total} had {had} agreeing {len(agreeing)} stale {len(stale)} missing {len(missing)}")
            self.check_ended(ended, int(had < total) if status is None else status, says, puts)
            parts = [bytes(512) if marks.get(at) == "-" else blocks[512 * at : 512 * at + 512] for at in range(total)]
            found = out.read_bytes()
            wrong = [at for at, part in enumerate(parts) if found[512 * at : 512 * at + 512] != part]
            self.assertEqual(([], 512 * total), (wrong, len(found)), "blocks are wrong, or the length is")
            self.assertEqual("".join(marks.get(at, "+") for at in range(total)), statuses_of(out), "the map is wrong")
            self.assertEqual("", difference(before, contents(self.work)), "the folder differs")
        return out

    def refuses(self, *says, words=(), **how):
        ended, out = self.salvage(*words, **how)
        self.check_ended(ended, 2, list(says), b"")
        self.assertFalse(out.exists())


def statuses_of(out):
    """Returns the status of each block by the map, whose runs must follow one another."""
    first, *runs = [line.split() for line in pathlib.Path(f"{out}.map").read_text().splitlines() if line[0] != "#"]
    assert first == ["0x00000000", "+"], first
    found = ""
    for at, size, status in runs:
        assert int(at, 16) == 512 * len(found) and int(size, 16) % 512 == 0, (at, size)
        assert found[-1:] != status, "two runs of one status"
        found += status * (int(size, 16) // 512)
    return found


class Lost(Salvaged):
    """Devices and sectors that are lost."""

    def test_whole_arrays(self):
        for array in ARRAYS:
            self.begin_written(array)
            self.gives(new_blocks(array), case=array.words)

    def test_as_many_as_the_code_covers(self):
        """In each stripe the chunks of m devices, and as many cells of further ones as the entries of e say."""
        draw = random.Random(1)
        for array in ARRAYS:
            self.begin_written(array)
            slots = draw.sample(range(array.n), array.m)
            others = [slot for slot in range(array.n) if slot not in slots]
            self.lose(*slots)
            for stripe in range(array.stripes):
                for slot, entry in zip(draw.sample(others, len(array.e)), array.e):
                    for row in draw.sample(range(array.r), entry):
                        self.damage(slot, sector_of(array, stripe, row))
            self.gives(new_blocks(array), says=gone(*sorted(slots)), case=array.words)

    def test_each_two_devices_of_four(self):
        # In each stripe four cells are lost, for which there are three equations. No cell of them is determined.
        for slots in itertools.combinations(range(4), 2):
            self.begin_written(SMALL)
            self.lose(*slots)
            self.gives(new_blocks(SMALL), small_blocks(slots), says=gone(*slots), case=f"slots {slots}")

    def test_two_devices_and_a_sector(self):
        # Beside two devices a sector of a third one: blocks whose own sectors are good are still there.
        self.begin_written(SMALL)
        self.lose(1, 3)
        self.damage(0, sector_of(SMALL, 4, 0))
        self.gives(new_blocks(SMALL), {*small_blocks([1]), 20}, says=gone(1, 3))

    def test_more_devices_than_the_program_takes(self):
        # With one row the n cells are a codeword of a code of which any n - m - 1 determine the others: of seven devices three are enough.
        array = ARRAYS[4]
        for slots in (0, 1, 2, 3), (3, 4, 5, 6), (0, 2, 4, 6):
            self.begin_written(array)
            self.lose(*slots)
            self.step("read 0 1", 7, [*array.left(3, slots), "no array"])
            self.gives(new_blocks(array), says=gone(*slots), case=f"slots {slots}")

    def test_a_lost_stripe_with_rows_that_are_not(self):
        # Row 0 of stripe 2 lacks six cells, more than its two parities and its three global ones give. Row 1 lacks two.
        self.begin_written(WIDE)
        for slot in range(6):
            self.damage(slot, sector_of(WIDE, 2, 0))
        for slot in 0, 5:
            self.damage(slot, sector_of(WIDE, 2, 1))
        says = [*(bad(slot, count) for slot, count in enumerate((2, 1, 1, 1, 1, 2))), "lost: stripe 2 counts 2 1 1 1 1 2 0 0"]
        self.step("read 46 1", 10, says, case="the program refuses a block of row 1")
        self.gives(new_blocks(WIDE), range(40, 46))

    def test_parity_alone(self):
        self.begin_written(WIDE)
        self.lose(*range(7))
        out = self.gives(new_blocks(WIDE), range(WIDE.blocks), says=gone(*range(7)))
        self.assertEqual(0, out.stat().st_blocks, "there are no holes")

    def test_a_map_that_ddrescue_reads(self):
        self.needs("ddrescue")
        self.begin_written(SMALL)
        self.lose(0, 1)
        ended, out = self.salvage()
        self.assertEqual(1, ended.status)
        missing = small_blocks((0, 1))
        for kind, wanted in ("-", sorted(missing)), ("+", [at for at in range(45) if at not in missing]):
            with self.subTest(kind):
                listed = self.run_command(["ddrescuelog", f"--list-blocks={kind}", "-b512", f"{out}.map"])
                self.assertEqual((0, wanted), (listed.status, list(map(int, listed.out.split()))))


class Stale(Salvaged):
    """Slots 1 and 2 of SMALL are lost, of which slot 1 has a device that its array has left behind."""

    def begin_stale(self, *changed):
        """Blocks were written while the device of slot 1 was away. Returns the blocks as they are then."""
        self.begin_written(SMALL)
        self.take_away(1)
        says, blocks = "fenced 1", new_blocks(SMALL)
        for first, count in changed:
            data = noise(f"later {first}", 512 * count)
            self.step(f"write {first} {count}", says=says, puts=wrote(count), input=data)
            says, blocks = "", blocks[: 512 * first] + data + blocks[512 * (first + count) :]
        self.reinsert(1)
        return blocks

    def test_a_device_that_is_down(self):
        # Stripes 0 to 2 were written whole. In stripe 3 only block 15, on slot 0, was, so that slot 1 has what it had.
        blocks = self.begin_stale((0, 15), (15, 1))
        self.lose(2)
        says, both = ["dev01.img: marked down", *gone(2)], small_blocks((1, 2))
        self.gives(blocks, both, says=[*says, left_out(1)], case="left out")
        old = small_blocks([1], range(3))
        mixed = bytearray(blocks)
        for block in old:
            mixed[512 * block : 512 * block + 512] = new_blocks(SMALL)[512 * block : 512 * block + 512]
        self.gives(bytes(mixed), small_blocks([2], range(3)), old, small_blocks((1, 2), range(3, 9)), says, ["--stale"], case="taken")

    def test_row_parities_that_may_be_old(self):
        # A block of slot 2 was written while the row parities of slot 3 were away. The cells of slots 0 and 1 do not show it, so nothing
        # is solved for with slot 3, in no stripe.
        self.begin_written(SMALL)
        self.take_away(3)
        self.step("write 2 1", says="fenced 3", puts=wrote(1), input=ONE)
        self.reinsert(3)
        self.lose(2)
        says = [*gone(2), "dev03.img: marked down"]
        self.gives(new_blocks(SMALL), small_blocks([2]), says=says, words=["--stale"])

    def test_a_stale_device_that_is_not_needed(self):
        blocks = self.begin_stale((0, 20))
        self.gives(blocks, says="dev01.img: marked down", words=["--stale"])

    def test_a_device_that_is_rebuilding(self):
        # It is rebuilt up to stripe 2, and has old cells from there on.
        blocks = self.begin_stale((0, 45))
        says = ["admitted 1", events(admitted=1)]
        self.step("run", input=lines("replace 1", "rebuild 2"), says=says, puts=lines("admitted 1", "rebuild 2 steps"))
        self.lose(2)
        says, rest = ["dev01.img: rebuilding", *gone(2)], range(2, 9)
        self.gives(blocks, small_blocks((1, 2)), says=[*says, left_out(1)], case="left out")
        mixed, old = bytearray(blocks), small_blocks([1], rest)
        for block in old:
            mixed[512 * block : 512 * block + 512] = new_blocks(SMALL)[512 * block : 512 * block + 512]
        self.gives(bytes(mixed), small_blocks([2], rest), old, small_blocks((1, 2), range(2)), says, ["--stale"], case="taken")

    def test_superblocks_that_are_bad(self):
        self.begin_written(SMALL)
        self.lose(2)
        for place in 0, 1:
            self.damage(1, place)
        says = ["dev01.img: no superblock", *gone(2)]
        self.gives(new_blocks(SMALL), small_blocks((1, 2)), says=[*says, left_out(1)], case="left out")
        self.gives(new_blocks(SMALL), agreeing=small_blocks((1, 2)), says=says, words=["--stale"], case="taken")

    def test_an_older_copy(self):
        self.begin_written(SMALL)
        old = copy(image(self.work, 1), self.room / "old")
        self.step("write 0 1", puts=wrote(1), input=ONE)
        copy(old, image(self.work, 1))
        self.lose(2)
        says = ["dev01.img: older copy (draw 3, epoch 4)", *gone(2)]
        blocks = ONE + new_blocks(SMALL)[512:]
        self.gives(blocks, small_blocks((1, 2)), says=[*says, left_out(1)], case="left out")
        self.gives(blocks, agreeing=small_blocks((1, 2)), says=says, words=["--stale"], case="taken")

    def test_devices_that_are_not_used(self):
        """One of another array, and one in the place of another slot."""
        self.begin_written(SMALL)
        copy(image(FOUR.fresh, 1), image(self.work, 1))
        os.rename(image(self.work, 2), self.room / "two")
        copy(image(self.work, 3), image(self.work, 2))
        says = ["dev01.img: other array", "dev02.img: other slot"]
        for words in (), ("--stale",):
            self.gives(new_blocks(SMALL), small_blocks((1, 2)), says=says, words=("--id", SMALL.identity, *words), case=" ".join(words))


class Doubtful(Salvaged):
    def test_a_write_that_was_cut_off(self):
        # The gate and the body of slot 2 are there, and stripe 1 has a 9 in its block on this slot.
        says = [*gone(1, 3), "stripe 0: a write was cut off, and counts as done"]
        self.begin(cut())
        self.lose(1, 3)
        patch(image(self.work, 2), "13 0=09*512")
        others = filled(0, 0, 9) + bytes(7 * 512)
        missing = [5 * stripe + block for stripe in (1, 2) for block in (1, 4)]
        # The journal has the row parities too, so that stripe 0 is determined.
        self.gives(ONE + bytes(4 * 512) + others, missing, says=says, case="its journal is whole")
        for slot in 0, 2:
            self.damage(slot, 3)
        self.gives(ONE + bytes(4 * 512) + others, missing, says=[*says, "journal lost: sector 3"], case="without the block, which is determined")
        for slot in 0, 2:
            self.damage(slot, 6)
        # Row 0 lacks three cells, for which there are its own equation and the global one. The sector of block 0 has the old one.
        says += ["journal lost: sector 3", "journal lost: sector 6"]
        self.gives(bytes(5 * 512) + others, [1, *missing], says=says, case="without its row parity too")

    def test_a_wrong_cell_that_is_singled_out(self):
        old = self.begin_written(WIDE)
        self.lose(5)
        put_back(self.work, old, WIDE, 3, 0, 1)
        self.damage(2, sector_of(WIDE, 3, 0))
        self.gives(new_blocks(WIDE), says=[*gone(5), "stripe 3: wrong dev01.img row 0"])

    def test_cells_that_contradict_each_other(self):
        # Three cells of row 1 of stripe 6 are old, two of them blocks: the first one of the row is block 126. A cell of row 0 is bad.
        old = self.begin_written(WIDE)
        for slot in 0, 2, 7:
            put_back(self.work, old, WIDE, 6, 1, slot)
        self.damage(3, sector_of(WIDE, 6, 0))
        blocks = bytearray(new_blocks(WIDE))
        for block in 126, 128:
            blocks[512 * block : 512 * block + 512] = noise(f"old {WIDE.number}", 512 * WIDE.blocks)[512 * block : 512 * block + 512]
        says = "stripe 6: its cells contradict each other, so no block is solved for"
        self.gives(bytes(blocks), [123], says=says)


class Large(Salvaged):
    def test_one_device_of_three(self):
        # Each stripe has a block, on slot 0, and two parities. Each of the three cells determines the others.
        self.begin(LARGE.fresh)
        last = LARGE.stripes - 1
        for block, data in (0, ONE), (last, FF):
            self.step(f"write {block} 1", puts=wrote(1), input=data)
        self.lose(0, 1)
        ended, out = self.salvage()
        self.check_ended(ended, 0, gone(0, 1), lines(f"blocks {LARGE.blocks} had {LARGE.blocks} agreeing 0 stale 0 missing 0"))
        self.assertTrue(out.read_bytes() == ONE + bytes(512 * (last - 1)) + FF, "blocks are wrong")


class Volumes(Salvaged):
    def begin_volumes(self):
        self.begin(SMALL.fresh)
        self.step("vinit", puts=lines("volumes ready"))
        self.step("vmake home 7", puts=lines("made home first 1 blocks 7"))
        self.step("vmake b_2 9", puts=lines("made b_2 first 8 blocks 9"))
        self.home, self.other = noise("home", 7 * 512), noise("b_2", 9 * 512)
        self.step("vwrite home 0 7", puts=wrote(7), input=self.home)
        self.step("vwrite b_2 0 9", puts=wrote(9), input=self.other)

    def test_a_volume(self):
        # Without slots 1 and 2 the blocks 1, 2 and 4 of each stripe are missing.
        self.begin_volumes()
        self.gives(self.home, words=["--volume", "home"], case="of a whole array")
        self.lose(1, 2)
        self.gives(self.home, [0, 1, 3, 5, 6], says=gone(1, 2), words=["--volume", "home"], case="blocks 1 to 7")
        self.gives(self.other, [1, 3, 4, 6, 8], says=gone(1, 2), words=["--volume", "b_2"], case="blocks 8 to 16")

    def test_what_is_no_volume(self):
        self.begin_volumes()
        self.refuses("salvage: no such volume; there are: home b_2", words=["--volume", "homer"])
        self.lose(0, 1)
        self.refuses(*gone(0, 1), "salvage: block 0, the table of volumes, is missing", words=["--volume", "home"])
        self.begin_written(SMALL)
        self.refuses("salvage: no volume table", words=["--volume", "home"])


class Refused(Salvaged):
    def test_folders(self):
        for case, folder, says in ("no device", empty(), "no array"), ("blank devices", FOUR.blank, "no array"):
            self.begin(folder)
            with self.subTest(case):
                self.refuses(f"salvage: {says}")

    def test_two_arrays(self):
        self.begin(two_arrays())
        identities = f"{EIGHT.identity} {OTHER.identity}"
        self.refuses(f"salvage: more than one array: choose by --id one of {identities}")
        self.gives(bytes(512 * EIGHT.blocks), [at for at in range(EIGHT.blocks) if self.is_on(at, (5,))], words=["--id", EIGHT.identity], says=[
            f"dev0{slot}.img: other array" for slot in (5, 6, 7)
        ])

    def is_on(self, block, slots):
        """Returns whether a block of EIGHT is on one of these slots: rows of six, six, five and three blocks, the last of which are on
        the slots 0 to 2."""
        at = block % 20
        return (at % 6 if at < 12 else at - 12 if at < 17 else at - 17) in slots

    def test_outputs(self):
        self.begin(FOUR.fresh)
        for name, made in ("there", "there"), ("other", "other.map"), ("none/out", None):
            with self.subTest(name):
                if made:
                    (self.room / made).write_bytes(b"kept")
                ended = self.script("salvage", ".", str(self.room / name))
                says = f"{self.room / made}: File exists" if made else f"{self.room / name}: No such file or directory"
                self.check_ended(ended, 2, f"salvage: {says}", b"")
                self.assertTrue(not made or (self.room / made).read_bytes() == b"kept")

    def test_a_full_disk(self):
        self.begin(FOUR.fresh)
        ended = self.run_command(["bash", "-c", 'ulimit -f 4; trap "" XFSZ; exec "$@"', "bash", str(TOP / "scripts" / "salvage"), "work", "out"])
        self.check_ended(ended, 2, "salvage: out: File too large", b"")

    def test_a_folder_in_use(self):
        self.needs("flock")
        self.begin(FOUR.fresh)
        self.refuses("salvage: .: in use", wrap=["flock", "."])

    def test_words(self):
        ended = self.run_command([str(TOP / "scripts" / "salvage"), "."])
        self.assertEqual((2, b""), ended[:2])
        ended = self.run_command([str(TOP / "scripts" / "salvage"), "--help"])
        self.assertEqual((0, b""), (ended.status, ended.err))
        self.assertIn(b"Exit status: 0 if all blocks are the array's", ended.out)
