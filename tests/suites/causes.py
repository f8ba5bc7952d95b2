"""What standard error says of the cause: bad sectors, the folder, image files, streams, limits of a geometry, missing devices."""
import os

from common import *
from fixture import *

NEAR = "no device: their names are dev00.img to dev31.img"


class BadSectors(Story):
    """FOUR has its stripe t in the sectors 11 + 2 t and 12 + 2 t of each device. Block 5 t + 2 is in the first one of slot 2."""

    def begin_damaged(self, *places):
        self.begin(FOUR.fresh)
        for slot, number in places:
            self.damage(slot, number)

    def test_of_a_scrub(self):
        self.begin_damaged((2, 11), (2, 13), (2, 14), (0, 16))
        says = ["repaired stripe 0 cells 1", "repaired stripe 1 cells 2", "repaired stripe 2 cells 1", bad(0, 1), bad(2, 3)]
        self.step("scrub", says=says, puts=lines("scrubbed 3 stripes cells 4"), case="a scrub")
        self.step("scrub", puts=lines("scrubbed 3 stripes cells 0"), case="the next one")

    def test_each_counts_once(self):
        # Each block is restored from its whole stripe, so a bad sector is read twice, and those of stripe 0 again at the third line.
        self.begin_damaged((2, 11), (0, 13))
        says = [bad(0, 1), bad(2, 1), events()]
        replies = [f"{block} {digits('00')}" for block in (2, 5, 2)]
        self.step("run", says=says, puts=lines(*replies), input=lines("read 2", "read 5", "read 2"), case="a script")

    def test_of_commands_that_repair_nothing(self):
        self.begin_damaged((2, 11))
        self.step("read 2 1", says=bad(2, 1), puts=ZERO, case="a read")
        self.step("read 0 2", puts=filled(0, 0), case="a read of other blocks")
        self.step("show", puts=FOUR.shown(3, *FOUR.slots()), case="show")

    def test_many(self):
        for stripes, says in (128, bad(2, 256)), (129, "dev02.img: more than 256 bad sectors"):
            array = Array(4, 4, 1, 2, [1], stripes)
            self.begin(array.fresh)
            with open(image(self.work, 2), "r+b") as file:
                file.seek(SEALED * 11)
                file.write(bytes(SEALED * 2 * stripes))
            repaired = [f"repaired stripe {stripe} cells 2" for stripe in range(stripes)]
            puts = lines(f"scrubbed {stripes} stripes cells {2 * stripes}")
            self.step("scrub", says=[*repaired, says], puts=puts, case=f"{2 * stripes} bad sectors")

    def test_a_disk_that_cannot_read_a_sector(self):
        # Of the device superblocks are read in search of older copies, and again, and at the opening; then its gate, and the cell.
        self.needs("strace")
        self.begin(FOUR.fresh)
        self.step("read 2 1", says=bad(2, 1), puts=ZERO, wrap=failing("read:error=EIO:when=8"))

    def test_new_devices_have_none(self):
        self.begin(FOUR.blank)
        self.step("create", puts=FOUR.created, input=FOUR.text, case="an array")
        self.lose(1)
        self.step("read 0 1", says="fenced 1", puts=ZERO)
        self.insert(1, FOUR.sectors)
        self.step("replace 1", says=["admitted 1", "promoted 1"], puts=lines("replaced 1"), case="a replacement")


class Folder(Story):
    """Why the folder cannot be used, and names in it that are close to those of devices."""

    def test_a_folder_that_is_not_there(self):
        self.expect("show", 7, [NOWHERE, "no array"], at="nowhere", case="show")
        self.expect("scrub", 7, [NOWHERE, "no array"], at="nowhere", case="scrub")
        self.expect("create", 15, [NOWHERE, "gone: slot 0"], at="nowhere", input=FOUR.text, case="create")
        self.expect("plan 4 1 2 1", puts=self.run_program("plan 4 1 2 1").out, at="nowhere", case="plan looks at no folder")

    def test_a_file_in_its_place(self):
        # Each device is reported too.
        (self.room / "file").touch()
        devices = [f"dev{slot:02}.img: Not a directory" for slot in range(32)]
        for words in "show", "scrub":
            with self.subTest(words):
                self.check_ended(self.run_program(words, at="file"), 7, ["file: Not a directory", *devices, "no array"], b"")

    def test_a_folder_that_may_not_be_read(self):
        # Devices may be opened in it, but it cannot be locked.
        self.needs(*as_nobody()[:1])
        self.begin(FOUR.fresh)
        for path in images(self.work):
            path.chmod(0o666)
        self.work.chmod(0o711)
        self.step("read 0 1", says=".: Permission denied", puts=ZERO, nobody=True)

    def test_names_that_are_close(self):
        for name in "dev1.img", "dev001.img", "DEV01.IMG", "dev-01.img", "dev32.img", "dev40.img":
            self.begin(FOUR.blank)
            image(self.work, 1).rename(self.work / name)
            with self.subTest(name):
                ended = self.run_program("create", FOUR.text, self.work)
                self.check_ended(ended, 15, [f"{name}: {NEAR}", "gone: slot 1"], b"")

    def test_names_that_are_not(self):
        for name in "dev01.img.bak", "dev01", "notes", "dev1.IMG\n", "xdev01.img":
            self.begin(FOUR.blank)
            image(self.work, 1).rename(self.work / name)
            with self.subTest(name):
                self.check_ended(self.run_program("create", FOUR.text, self.work), 15, "gone: slot 1", b"")
        with self.subTest("all devices are there"):
            self.begin(FOUR.fresh)
            (self.work / "dev1.img").touch()
            self.check_ended(self.run_program("read 0 1", folder=self.work), 0, "", ZERO)

    def test_an_array_without_two_devices(self):
        self.begin(FOUR.fresh)
        for slot in 0, 1:
            image(self.work, slot).rename(self.work / f"dev{slot}.img")
        ended = self.run_program("read 0 1", folder=self.work)
        self.assertEqual((9, b""), ended[:2])
        for slot in 0, 1:
            self.assertIn(lines(f"dev{slot}.img: {NEAR}"), ended.err)


class Images(Story):
    """Lengths of image files. FOUR needs 17 sectors, 9248 bytes."""

    def test_too_short_for_a_new_array(self):
        self.begin(FOUR.blank)
        os.truncate(image(self.work, 2), 9247)
        says = ["dev02.img: 9247 bytes, and the array needs 9248", "small device: slot 2 has 16 of 17 sectors"]
        self.step("create", 13, says, input=FOUR.text, case="an image file")
        image(self.work, 2).unlink()
        image(self.work, 2).touch()
        says = ["dev02.img: 0 bytes, and the array needs 9248", "small device: slot 2 has 0 of 17 sectors"]
        self.step("create", 13, says, input=FOUR.text, case="an empty file")

    def test_cut_short(self):
        # Of slot 2 the sectors 12 to 16 are gone. Sector 12 is a global parity, which a read of stripe 0 does not need.
        self.begin(FOUR.fresh)
        os.truncate(image(self.work, 2), 544 * 12 + 100)
        says = [bad(2, 4), "dev02.img: 6628 bytes, and the array needs 9248"]
        self.step("read 0 15", says=says, puts=bytes(15 * 512))

    def test_within_a_sector(self):
        self.begin(FOUR.fresh)
        with open(image(self.work, 2), "ab") as file:
            file.write(b"x")
        self.step("read 0 1", puts=ZERO, case="what follows the array makes no difference")
        self.damage(2, 11)
        says = [bad(2, 1), "dev02.img: 9249 bytes, which is no multiple of 544"]
        self.step("read 2 1", says=says, puts=ZERO, case="a bad sector on it")

    def test_without_an_array(self):
        self.begin(FOUR.blank)
        os.truncate(image(self.work, 1), 9000)
        self.step("show", 7, ["dev01.img: 9000 bytes, which is no multiple of 544", "no array"])


class Streams(Case):
    def test_inputs(self):
        self.expect("check 4 1 2 1", 5, INPUT_CLOSED, input=CLOSED, case="a closed input")
        self.expect("check 4 1 2 1", 5, INPUT_CLOSED, input=self.room, case="a folder")

    def test_an_input_that_fails(self):
        self.needs("strace")
        (self.room / "given").write_bytes(STRIPE)
        how = {"input": self.room / "given", "wrap": failing("read:error=EIO", self.room / "given")}
        self.expect("check 4 1 2 1", 5, INPUT_FAILED, **how)

    def test_outputs(self):
        for case, out, says in ("closed", CLOSED, OUTPUT_CLOSED), ("full", FULL, OUTPUT_FULL):
            self.expect("check 4 1 2 1", 6, says, input=STRIPE, out=out, case=case)
        self.expect("stripe up 32 3 32 1 2 4", 6, OUTPUT_LEFT, bytes(100), input=Pipe(bytes(921 * 512)), out=Reader(100), case="left")

    def test_too_few_files(self):
        self.expect("check 4 1 2 1", 5, ["/: Too many open files", "input failed"], input=STRIPE, wrap=ulimit("-n", 5))


class Limits(Case):
    """Other suites have each limit of a geometry, for `plan` and for `create`."""

    def test_of_a_command_line(self):
        self.expect("plan 4 2 2 1", 3, ["geometry: n > 2m is needed: n = 4, m = 2", "geometry: limit 3"])

    def test_of_a_text(self):
        text = FOUR.text.replace(b"e = [1]", b"e = [3]")
        says = ["geometry: entries of e from 1 to r are needed, none below the one before: r = 2, e = [3]", "geometry: limit 6"]
        self.expect_in(FOUR.blank, FOUR.blank, "create", 3, says, input=text, case="a limit")
        text = FOUR.text.replace(b"m = 1", b"m = -1")
        self.expect_in(FOUR.blank, FOUR.blank, "create", 3, "geometry: key m", input=text, case="a key")


class Missing(Story):
    """The array that is there if no array can be opened."""

    def test_missing_devices(self):
        for case, folder, missing, status, line in (
            ("two", two_left(), [0, 1], 9, "too few devices: 0 gone, 1 gone"),
            ("three", one_left(), [0, 1, 2], 7, "no array"),
        ):
            for words in "show", "read 0 1":
                self.expect_in(folder, folder, words, status, [*FOUR.left(1, missing), line], case=f"{case}: {words}")

    def test_a_label_and_a_slot_that_is_down(self):
        # In epoch 2 slot 2 is down. Its device stayed as it was in epoch 1. The label is `slot 2`.
        self.begin(FOUR.fresh)
        for slot in 0, 1, 3:
            patch(image(self.work, slot), "1 87=02 95=02 114=030000000000000000 385=06736C6F742032")
        self.lose(0)
        left = FOUR.left(2, [0], {2: 1})
        left[0] += ", label slot 2"
        self.step("show", 9, [*left, "too few devices: 0 gone, 2 marked down"])

    def test_devices_in_other_slots(self):
        self.begin(FOUR.fresh)
        for slot, other in (0, "a"), (1, "b"), (2, "c"), (3, "d"):
            image(self.work, slot).rename(self.work / other)
        for slot, other in (1, "a"), (2, "b"), (3, "c"), (0, "d"):
            (self.work / other).rename(image(self.work, slot))
        head, *missing = FOUR.left(1, range(4))
        strange = [f"dev{slot:02}.img: the device of slot {(slot - 1) % 4}" for slot in range(4)]
        self.step("show", 7, [head, *strange, *missing, "no array"])

    def test_short_devices(self):
        self.begin(two_left())
        os.truncate(image(self.work, 2), 9000)
        says = [*FOUR.left(1, [0, 1]), "dev02.img: 9000 bytes, and the array needs 9248", "too few devices: 0 gone, 1 gone"]
        self.step("show", 9, says)

    def test_no_superblock(self):
        self.begin(FOUR.blank)
        self.step("show", 7, "no array")
