"""Volumes: vinit, vmake, vdrop, vlist, vread and vwrite."""
import os

from common import *
from fixture import *

COMMANDS = "vinit", "vmake home 4", "vdrop home", "vlist", "vread home 0 1", "vwrite home 0 1"


class Volumes(Story):
    def done(self, words, line, **how):
        """A command says this line alone, on standard output."""
        self.step(words, puts=lines(line), case=words, **how)

    def refused(self, words, status, says, case=None):
        """A command is refused, puts nothing out and takes nothing."""
        self.step(words, status, says, input=STRIPE, left=4096, case=case or f"{words}: {says}")


class NoTable(Volumes):
    def test_no_table(self):
        self.begin(FOUR.fresh)
        for words in COMMANDS[1:]:
            self.refused(words, 23, "no volume table")
        self.step("read 0 15", puts=bytes(7680), case="nothing is written")

    def test_no_array(self):
        for words in COMMANDS:
            self.expect_in(FOUR.blank, FOUR.blank, words, 7, "no array", input=ONE, case=words)

    def test_a_folder_in_use(self):
        for words in COMMANDS:
            self.expect_in(FOUR.fresh, FOUR.fresh, words, 75, ".: in use", input=ONE, wrap=["flock", "."], case=words)

    def test_too_little_memory(self):
        self.expect_in(EIGHT.fresh, EIGHT.fresh, "vlist", 17, "out of memory", wrap=ulimit("-d", 600))


class TwoVolumes(Volumes):
    """Stories of a volume `home` of four blocks and a volume `b_2` of three."""

    def begin_two(self):
        self.begin(FOUR.fresh)
        for words in "vinit", "vmake home 4", "vmake b_2 3":
            self.assertEqual(0, self.run_program(words, folder=self.work).status)

    def write_file(self):
        """Writes a file to the volume `home`, and 01 to the second block of the other volume."""
        file = os.urandom(2048)
        self.step("vwrite home 0 4", puts=wrote(4), input=file)
        self.step("vwrite b_2 1 1", puts=wrote(1), input=ONE)
        return file

    def test_a_table_and_two_volumes(self):
        self.begin(FOUR.fresh)
        self.done("vinit", "volumes ready")
        self.step("read 0 2", puts=table() + ZERO, case="the block of a table")
        self.refused("vinit", 24, "volume table already")
        self.step("vlist", case="a list of no volume")
        self.done("vmake home 4", "made home first 1 blocks 4")
        self.done("vmake b_2 3", "made b_2 first 5 blocks 3")
        self.step("read 0 1", puts=table("home 1 4", "b_2 5 3"), case="the block of their table")
        self.step("vlist", puts=listed("home 1 4", "b_2 5 3"), case="their list")
        self.step("vlist", puts=listed("home 1 4", "b_2 5 3"), input=CLOSED, case="their list, and a closed input")

    def test_blocks(self):
        self.begin_two()
        file = os.urandom(2048)
        self.step("vwrite home 0 4", puts=wrote(4), input=file, case="a file into a volume")
        self.step("vread home 0 4", puts=file, case="the file")
        self.step("vread home 1 2", puts=file[512:1536], case="two blocks of it")
        self.step("vwrite b_2 1 1", puts=wrote(1), input=ONE, case="a block of the other volume")
        self.step("read 1 7", puts=file + ZERO + ONE + ZERO, case="where it lies")
        self.step(f"vread home {GREATEST} 0", case="no block is read")
        self.step("vwrite home 9 0", puts=wrote(0), case="no block is written")
        slow = Pipe(file, each=300, pause=0.01)
        self.step("vwrite home 0 4", puts=wrote(4), input=slow, case="a file through a slow pipe")
        self.step("vread home 0 4", puts=file, case="the file, too")

    def test_what_is_refused(self):
        # Nothing is taken.
        self.begin_two()
        self.refused("vmake home 99", 26, "name taken")
        self.refused("vmake c 8", 28, "no room: 8 blocks")
        self.refused(f"vmake c {GREATEST}", 28, f"no room: {GREATEST} blocks")
        self.refused("vdrop c", 25, "no such volume")
        self.refused("vread hom 99 9", 25, "no such volume")
        self.refused("vwrite homes 99 9", 25, "no such volume")
        for command in "vread", "vwrite":
            self.refused(f"{command} home 4 1", 11, "out of range: 4 of 4")
            self.refused(f"{command} home 3 2", 11, "out of range: 4 of 4")
            self.refused(f"{command} home {GREATEST} {GREATEST}", 11, f"out of range: {GREATEST} of 4")
        self.step("vlist", puts=listed("home 1 4", "b_2 5 3"), case="the list afterwards")

    def test_input_of_another_length(self):
        # The whole blocks that came are written.
        self.begin_two()
        file = self.write_file()
        pieces = ONE + FF[:511]
        self.step("vwrite home 0 2", 4, "input: needed 1024, took 1023", input=Pipe(pieces), case="a byte too few")
        self.step("vread home 0 4", puts=ONE + file[512:], case="the block before it")
        self.step("vwrite home 0 4", 4, "input: needed 2048, took 1100", input=Pipe(file[:1100]), case="an input cut within a stripe")
        self.step("vread home 0 4", puts=file, case="the two blocks before it")
        slow = Pipe(FF[:300], TAKEN, FF[:212] + FF, TAKEN, FF[:100])
        self.step("vwrite home 1 3", 4, "input: needed 1536, took 1124", input=slow, case="parts of blocks that come slowly")
        self.step("vread home 0 4", puts=file[:512] + FF + FF + file[1536:], case="the blocks that they are")
        self.step("vwrite home 1 1", 4, "input: needed 512, took 513", input=BLOCKS, left=2047, case="bytes too many")
        self.step("vread home 1 1", puts=ONE, case="the block before them")
        self.step("vwrite home 0 1", 5, INPUT_CLOSED, input=self.room, case="a folder as blocks")
        self.step("vwrite home 0 1", 5, INPUT_CLOSED, input=CLOSED, case="closed blocks")

    def test_outputs_that_fail(self):
        # What cannot be put out is done all the same.
        self.begin_two()
        self.step("vlist", 6, OUTPUT_FULL, out=FULL, case="a full output of vlist")
        self.step("vread home 0 1", 6, OUTPUT_CLOSED, out=CLOSED, case="a closed output of vread")
        self.step("vmake c 7", 6, OUTPUT_FULL, out=FULL, case="a full output of vmake")
        self.step("vlist", puts=listed("home 1 4", "b_2 5 3", "c 8 7"), case="the volume is made")
        self.step("vwrite c 6 1", 6, OUTPUT_FULL, input=FF, out=FULL, case="a full output of vwrite")
        self.step("vread c 5 2", puts=ZERO + FF, case="the block is written")

    def test_room_and_frozen_arrays(self):
        # A volume that is made has zeros, and the others stay where they are.
        self.begin_two()
        self.write_file()
        self.done("vmake c 7", "made c first 8 blocks 7")
        self.done("vdrop home", "dropped home")
        self.done("vmake d 2", "made d first 1 blocks 2")
        self.step("vread d 0 2", puts=ZERO + ZERO, case="it has zeros")
        self.done("vmake abcdefghijklmn_9 1", "made abcdefghijklmn_9 first 3 blocks 1")
        everything = listed("b_2 5 3", "c 8 7", "d 1 2", "abcdefghijklmn_9 3 1")
        self.step("vlist", puts=everything, case="the list of all")
        # No block of a frozen array is written.
        self.done("freeze", "frozen")
        self.refused("vmake e 1", 20, "frozen")
        self.refused("vmake e 2", 28, "no room: 2 blocks")
        self.refused("vdrop d", 20, "frozen")
        self.step("vwrite d 0 1", 20, "frozen", input=ONE, case="a block of a volume")
        self.step("vwrite d 0 1", 4, "input: needed 512, took 511", input=Pipe(ONE[:511]), case="a byte too few for it")
        self.step("vlist", puts=everything, case="the list of a frozen array")
        self.done("thaw", "thawed")

    def test_lost_devices(self):
        self.begin_two()
        volumes = ["b_2 5 3", "d 1 2", "long 3 1"]
        for words in "vdrop home", "vmake d 2", "vmake long 1":
            self.assertEqual(0, self.run_program(words, folder=self.work).status)
        self.step("vwrite d 1 1", puts=wrote(1), input=ONE, case="a block of a volume")
        self.lose(2)
        self.step("vlist", says="fenced 2", puts=listed(*volumes), case="a list, and a device less")
        self.step("vread d 0 2", puts=ZERO + ONE, case="a volume, and a device less")
        self.done("vmake e 1", "made e first 4 blocks 1")
        self.step("vwrite e 0 1", puts=wrote(1), input=AA, case="a write of it")
        self.insert(2, FOUR.sectors)
        self.step("replace 2", says=["admitted 2", "promoted 2"], puts=lines("replaced 2"), case="a blank device in its place")
        self.lose(0)
        self.step("vread e 0 1", says="fenced 0", puts=AA, case="a volume, and another device less")
        self.damage(1, 12)
        self.step("vread e 0 1", says=bad(1, 1), puts=AA, case="a damaged sector of it")
        self.damage(2, 11)
        self.refused("vlist", 10, [bad(1, 1), bad(2, 1), "lost: stripe 0 counts 2 1 1 0"], "a table that is lost")


class ManyVolumes(Volumes):
    """As many volumes as there may be, on an array of eight devices, whoever wrote their table."""

    def test_all_that_there_may_be(self):
        volumes = [f"v{number} {80 * number} 80" for number in range(1, 16)]
        self.begin(EIGHT.fresh)
        self.step("write 0 1", puts=wrote(1), input=Pipe(table(*volumes)), case="a table that is written")
        self.step("vlist", puts=listed(*volumes), case="its list")
        self.refused("vmake v16 1", 27, "table full")
        self.refused("vmake v15 1", 26, "name taken")
        self.done("vdrop v7", "dropped v7")
        self.done("vmake v16 79", "made v16 first 1 blocks 79")

    def test_a_table_of_a_byte_more(self):
        # Its volume ends a block past the array.
        self.begin(EIGHT.fresh)
        self.step("write 0 1", puts=wrote(1), input=Pipe(table("v1 1200 81")), case="a table that is written")
        self.refused("vlist", 23, "no volume table")
