"""Blocks of an array: reads and writes, what is refused, input of another length, streams that fail, devices that cannot be opened."""
from common import *
from fixture import *

# Five devices, of which one may be lost.
FIVE = Array(5, 5, 1, 2, [2], 3)


class Blocks(Case):
    def opens(self, words, status=0, says="", puts=b"", **how):
        """The new array is opened, and nothing else of it changes."""
        self.expect_in(FOUR.fresh, FOUR.opened, words, status, says, puts, **how)

    def writes(self, words, status=0, says="", puts=b"", **how):
        """Block 0 of the new array is filled with 01."""
        self.expect_in(FOUR.fresh, written(), words, status, says, puts, **how)


class Done(Blocks):
    def test_all_blocks_of_a_new_array(self):
        self.opens("read 0 15", puts=bytes(15 * 512))

    def test_the_last_block(self):
        self.opens("read 14 1", puts=ZERO)

    def test_a_block_is_written(self):
        # The wanted image files are worked out by hand: arrays.written.
        self.writes("write 0 1", puts=wrote(1), input=ONE)

    def test_no_block(self):
        self.opens(f"read {GREATEST} 0", case="is read")
        self.opens(f"write {GREATEST} 0", puts=wrote(0), case="is written")
        self.opens("write 0 0", 4, "input: needed 0, took 1", input=STRIPE, case="is written of a byte")


class Both(Case):
    def refused(self, before, after, status, says, block=0, count=1, **how):
        for command in "read", "write":
            self.expect_in(before, after, f"{command} {block} {count}", status, says, input=STRIPE, left=4096, case=command, **how)


class Refused(Both):
    """A read and a write are refused alike, and take nothing of the input."""

    def past_the_end(self, block, count, reported):
        self.refused(FOUR.fresh, FOUR.opened, 11, f"out of range: {reported} of 15", block, count)

    def test_a_block_past_the_last(self):
        self.past_the_end(15, 1, 15)

    def test_blocks_past_the_last(self):
        self.past_the_end(14, 2, 15)

    def test_a_block_far_past_the_last(self):
        self.past_the_end(GREATEST, GREATEST, GREATEST)

    def test_no_array(self):
        self.refused(FOUR.blank, FOUR.blank, 7, "no array")

    def test_no_device(self):
        self.refused(empty(), empty(), 7, "no array")

    def test_two_arrays(self):
        self.refused(two_arrays(), two_arrays(), 8, f"two arrays: {EIGHT.identity} {OTHER.identity}")

    def test_two_slots_empty(self):
        self.refused(two_left(), two_left(), 9, [*FOUR.left(1, [0, 1]), "too few devices: 0 gone, 1 gone"])

    def test_three_slots_empty(self):
        self.refused(one_left(), one_left(), 7, [*FOUR.left(1, [0, 1, 2]), "no array"])

    def test_more_devices_lost_than_the_code_covers(self):
        covered = self.folder("covered", FIVE.fresh)
        for slot in 2, 4:
            image(covered, slot).unlink()
        self.refused(covered, covered, 9, [*FIVE.left(1, [2, 4]), "too few devices: 2 gone, 4 gone"])

    def test_no_epoch_left(self):
        self.refused(spent(), spent(), 16, "epochs spent")

    def test_too_little_memory(self):
        self.refused(EIGHT.fresh, EIGHT.fresh, 17, "out of memory", wrap=ulimit("-d", 600))


class Frozen(Case):
    """A frozen array is read, and not written."""

    def opens(self, words, status=0, says="", puts=b"", **how):
        self.expect_in(frozen(), opened_frozen(), words, status, says, puts, **how)

    def test_a_read(self):
        self.opens("read 0 1", puts=ZERO)

    def test_a_write(self):
        self.opens("write 0 1", 20, "frozen", input=ONE)

    def test_a_write_past_the_last_block(self):
        self.opens("write 15 1", 11, "out of range: 15 of 15", input=ONE)

    def test_a_write_of_no_block(self):
        self.opens("write 5 0", puts=wrote(0))


class Lengths(Blocks):
    """Input of another length. Each complete block of it is written."""

    def test_a_byte_too_few(self):
        self.opens("write 0 1", 4, "input: needed 512, took 511", input=Pipe(ONE[:511]))

    def test_no_byte(self):
        self.opens("write 0 1", 4, "input: needed 512, took 0")

    def test_bytes_too_many(self):
        # A byte after the block is taken, and no more.
        self.writes("write 0 1", 4, "input: needed 512, took 513", input=BLOCKS, left=2560 - 513, case="five blocks for one")

    def test_blocks_too_few_and_a_part_of_one(self):
        self.writes("write 0 2", 4, "input: needed 1024, took 700", input=Pipe(BLOCKS[:700]))


class Inputs(Blocks):
    def test_inputs_of_a_write_that_fail(self):
        self.opens("write 0 1", 5, INPUT_CLOSED, input=self.room, case="a folder")
        self.opens("write 0 1", 5, INPUT_CLOSED, input=CLOSED, case="a closed input")

    def test_a_read_takes_no_input(self):
        self.opens("read 0 1", puts=ZERO, input=CLOSED, case="a closed input")
        self.opens("read 0 1", puts=ZERO, input=STRIPE, left=4096, case="an input that stays")

    def test_three_closed_streams(self):
        self.opens("write 0 1", 5, input=CLOSED, out=CLOSED, err=CLOSED)


class Outputs(Blocks):
    def test_outputs_of_a_read_that_fail(self):
        self.opens("read 0 1", 6, OUTPUT_CLOSED, out=CLOSED, case="a closed output")
        self.opens("read 0 1", 6, OUTPUT_FULL, out=FULL, case="a full output")

    def test_the_reader_of_a_read_goes(self):
        self.expect_in(EIGHT.fresh, EIGHT.opened, "read 0 1280", 6, OUTPUT_LEFT, bytes(100), out=Reader(100))

    def test_outputs_of_a_write_that_fail(self):
        # The block is written all the same.
        self.writes("write 0 1", 6, OUTPUT_CLOSED, input=ONE, out=CLOSED, case="a closed output")
        self.writes("write 0 1", 6, OUTPUT_FULL, input=ONE, out=FULL, case="a full output")

    def test_a_closed_standard_error(self):
        self.writes("write 0 1", puts=wrote(1), input=ONE, err=CLOSED)


class Devices(Both):
    """Devices that the caller cannot open, and a folder in use. A read opens them as a write does, since an opening writes."""

    def unavailable(self, folder, *says, **how):
        self.refused(folder, folder, 15, says, **how)

    def test_files_that_may_only_be_read(self):
        self.needs(*as_nobody()[:1])
        self.unavailable(read_only(), "dev00.img: Permission denied", "gone: slot 0", nobody=True)

    def test_a_folder_in_use(self):
        self.needs("flock")
        self.refused(FOUR.fresh, FOUR.fresh, 75, [".: in use"], wrap=["flock", "."])

    def test_a_device_in_use(self):
        self.needs("flock")
        self.unavailable(FOUR.fresh, "dev02.img: in use", "gone: slot 2", wrap=["flock", "dev02.img"])

    def test_too_few_open_files_for_all_devices(self):
        self.unavailable(FOUR.fresh, "dev02.img: Too many open files", "gone: slot 2", wrap=ulimit("-n", 9))

    def test_a_file_system_that_may_only_be_read(self):
        self.needs("unshare")
        self.unavailable(FOUR.fresh, "dev00.img: Read-only file system", "gone: slot 0", wrap=mounted_read_only())


class SlowInput(Story):
    """Input that comes slowly: each complete block is written before more is taken."""

    def test_slow_input(self):
        pieces = ONE + FF + os.urandom(13 * 512)
        self.begin(FOUR.fresh)
        self.step("write 0 2", puts=wrote(2), input=Pipe(pieces[:700], TAKEN, pieces[700:1024]), case="a part of a block first")
        self.step("read 0 2", puts=pieces[:1024], case="both blocks")
        self.step("write 0 15", puts=wrote(15), input=Pipe(pieces, each=300, pause=0.01), case="small pieces")
        self.step("read 0 15", puts=pieces, case="all blocks")
