"""What `scripts/verify` finds: bad sectors, wrong cells, broken stripes, older copies; and writes that were cut off, which are none."""
from beyond import *
from common import *
from fixture import *
from rounds import noise


def cell_line(array, stripe, row, slot, what):
    """Returns the line on a cell: the format says that its sector is 3 + n*r + r*stripe + row."""
    return f"dev{slot:02}.img stripe {stripe} row {row} byte {SEALED * sector_of(array, stripe, row)}: {what}"


class Verified(Beyond):
    def verify(self, *words, **how):
        return self.script("verify", ".", *words, **how)

    def finds(self, stripes, *found, says="", status=None, words=(), case=None, wrap=()):
        """A case: the script finds these lines on so many stripes, and changes nothing. It ends with 1 if there is a line."""
        before = contents(self.work)
        counts = [sum(it.endswith(end) for it in found) for end in ("bad sector", "wrong")]
        last = "verified {} stripes bad {} wrong {} broken {}".format(stripes, *counts, len(found) - sum(counts))
        with self.named(case):
            ended = self.verify(*words, wrap=wrap)
            self.check_ended(ended, int(bool(found)) if status is None else status, says, lines(*found, last))
            self.assertEqual("", difference(before, contents(self.work)), "the folder differs")

    def refuses(self, *says, words=(), case=None, **how):
        with self.named(case):
            self.check_ended(self.verify(*words, **how), 2, list(says), b"")


class Cells(Verified):
    """Old sectors that are put back with their tags: those of single cells, of chunks, and of a cell in each of two rows."""

    def test_whole_arrays(self):
        for array in ARRAYS:
            self.begin_written(array)
            self.finds(array.stripes, case=array.words)

    def test_each_cell(self):
        for array in ARRAYS:
            old, found = self.begin_written(array), []
            for stripe in range(array.n * array.r):
                row, slot = divmod(stripe, array.n)
                put_back(self.work, old, array, stripe, row, slot)
                found.append(cell_line(array, stripe, row, slot, "wrong"))
            self.finds(array.stripes, *found, case=array.words)

    def test_each_chunk(self):
        for array in ARRAYS:
            old, found = self.begin_written(array), []
            for slot in range(array.n):
                for row in range(array.r):
                    put_back(self.work, old, array, slot, row, slot)
                    found.append(cell_line(array, slot, row, slot, "wrong"))
            self.finds(array.stripes, *found, case=array.words)

    def test_a_cell_in_each_of_two_rows(self):
        for array in ARRAYS[:4]:
            old, found = self.begin_written(array), []
            for stripe, (one, other) in enumerate(((0, 1), (2, 0), (array.n - 1, 1))):
                for row, slot in (0, one), (1, other):
                    put_back(self.work, old, array, stripe, row, slot)
                    found.append(cell_line(array, stripe, row, slot, "wrong"))
            self.finds(array.stripes, *found, case=array.words)

    def test_beside_erased_cells(self):
        """A device is down, and a sector is bad: a wrong cell of their stripe is still singled out."""
        old = self.begin_written(WIDE)
        self.lose(5)
        self.damage(1, sector_of(WIDE, 3, 0))
        put_back(self.work, old, WIDE, 3, 2, 7)
        found = cell_line(WIDE, 3, 0, 1, "bad sector"), cell_line(WIDE, 3, 2, 7, "wrong")
        self.finds(WIDE.stripes, *found, says="dev05.img: gone")

    def test_some_stripes(self):
        old = self.begin_written(SMALL)
        for stripe in 2, 4:
            put_back(self.work, old, SMALL, stripe, 0, 0)
        found = [cell_line(SMALL, stripe, 0, 0, "wrong") for stripe in (2, 4)]
        self.finds(7, *found, words=("--first", "2"), case="from one on")
        self.finds(2, found[0], words=("--first", "2", "--count", "2"), case="two")
        self.finds(1, words=("--count", "1"), case="the first one")
        self.finds(1, words=("--first", "8", "--count", "9"), case="the last one")


class Broken(Verified):
    """Stripes of which the equations do not single out what is wrong."""

    def test_three_cells_of_a_row(self):
        # Two equations do not tell which three cells of a row are wrong. Each global parity depends on every row.
        old = self.begin_written(WIDE)
        for slot in 0, 2, 7:
            put_back(self.work, old, WIDE, 6, 1, slot)
        self.finds(WIDE.stripes, "stripe 6: broken row 1 parity 0, row 1 parity 1, global 0 0, global 1 0, global 2 0, global 2 1")

    def test_only_a_reduced_equation_is_left(self):
        # Without a chunk the row equations say what it was, and the global one alone is left.
        for slot in range(4):
            old = self.begin_written(SMALL)
            self.lose(slot)
            put_back(self.work, old, SMALL, 1, 1, (slot + 1) % 4)
            found = "stripe 1: broken global 0 0" + " reduced" * (slot < 3)
            self.finds(SMALL.stripes, found, says=f"dev{slot:02}.img: gone", case=f"without slot {slot}")

    def test_no_equation_is_left(self):
        # With two cells of a row erased none is left: a wrong cell cannot be seen.
        old = self.begin_written(SMALL)
        self.lose(3)
        self.damage(0, sector_of(SMALL, 1, 0))
        put_back(self.work, old, SMALL, 1, 1, 1)
        self.finds(SMALL.stripes, cell_line(SMALL, 1, 0, 0, "bad sector"), says="dev03.img: gone")


class Sectors(Verified):
    """Bad sectors of live devices, each of which is named."""

    def test_damage(self):
        self.begin_written(SMALL)
        self.damage(2, sector_of(SMALL, 0, 1), 543)
        self.damage(3, sector_of(SMALL, 5, 0))
        self.finds(SMALL.stripes, cell_line(SMALL, 0, 1, 2, "bad sector"), cell_line(SMALL, 5, 0, 3, "bad sector"))

    def test_a_device_that_was_cut_short(self):
        self.begin_written(SMALL)
        os.truncate(image(self.work, 1), SEALED * sector_of(SMALL, 8, 1) + 543)
        self.finds(SMALL.stripes, cell_line(SMALL, 8, 1, 1, "bad sector"))

    def test_a_disk_that_fails(self):
        # The first read of it is that of its superblocks, the second that of its gate, and the third that of all cells. Then each sector
        # is read on its own.
        self.needs("strace")
        self.begin_written(SMALL)
        self.finds(SMALL.stripes, wrap=failing("pread64:error=EIO:when=3")(self.work), case="once")
        found = [cell_line(SMALL, 0, row, 2, "bad sector") for row in (0, 1)]
        self.finds(SMALL.stripes, *found, wrap=failing("pread64:error=EIO:when=3..5")(self.work), case="at two sectors")


class Devices(Verified):
    def test_a_device_that_is_down(self):
        """It was away while blocks were written. Its old cells are not compared."""
        self.begin_written(SMALL)
        self.take_away(1)
        self.step("write 0 5", says="fenced 1", puts=wrote(5), input=noise("later", 2560))
        self.finds(SMALL.stripes, says="dev01.img: gone", case="away")
        self.reinsert(1)
        self.finds(SMALL.stripes, says="dev01.img: marked down", case="reinserted")

    def test_a_device_that_is_rebuilding(self):
        """It was away while blocks were written, and is rebuilt up to stripe 2. Its cells are not compared."""
        self.begin_written(SMALL)
        self.take_away(1)
        later = noise("later", 512 * SMALL.blocks)
        self.step(f"write 0 {SMALL.blocks}", says="fenced 1", puts=wrote(SMALL.blocks), input=later)
        self.reinsert(1)
        says = ["admitted 1", events(admitted=1)]
        self.step("run", input=lines("replace 1", "rebuild 3"), says=says, puts=lines("admitted 1", "rebuild 3 steps"))
        self.finds(SMALL.stripes, says="dev01.img: rebuilding", case="rebuilding")
        self.step("rebuild", says="promoted 1", puts=lines(f"rebuild {SMALL.stripes} steps"))
        self.finds(SMALL.stripes, case="rebuilt")

    def test_an_older_copy(self):
        """It lacks an epoch in which it was live."""
        self.begin_written(SMALL)
        old = copy(image(self.work, 2), self.room / "old")
        self.step("write 0 5", puts=wrote(5), input=noise("later", 2560))
        copy(old, image(self.work, 2))
        self.finds(SMALL.stripes, says="dev02.img: older copy (draw 3, epoch 4)", status=1, case="both superblocks are older")
        self.damage(2, 0)
        found = [cell_line(SMALL, 0, row, 2, "wrong") for row in (0, 1)]
        self.finds(SMALL.stripes, *found, case="one superblock is bad, so it may be torn")

    def test_an_older_copy_of_the_same_epoch(self):
        """Superblocks do not show it. The equations do, in each stripe that was written since."""
        self.begin_written(SMALL)
        talk = self.talk("run")
        talk.send(lines(f"write 5 {noise('one', 512).hex()}"))
        self.assertEqual(b"wrote 5\n", talk.line())
        old = copy(image(self.work, 0), self.room / "old")
        talk.send(lines(f"write 20 {noise('two', 512).hex()}", f"write 33 {noise('three', 512).hex()}"))
        self.assertEqual(b"wrote 20\nwrote 33\n", talk.take(18))
        talk.close_input()
        talk.end()
        copy(old, image(self.work, 0))
        # Blocks 20 and 33 are the cells (0, 0) of stripe 4 and (1, 0) of stripe 6.
        self.finds(SMALL.stripes, cell_line(SMALL, 4, 0, 0, "wrong"), cell_line(SMALL, 6, 1, 0, "wrong"))


class CutOff(Verified):
    """Writes that were cut off are no corruption."""

    says = "stripe 0: a write was cut off, and counts as done"

    def test_before_its_gate(self):
        self.begin(bodies())
        self.finds(FOUR.stripes)

    def test_behind_its_gate(self):
        self.begin(cut())
        self.finds(FOUR.stripes, says=self.says, case="before its cells")
        patch(image(self.work, 0), "11 0=01*512")
        self.damage(2, 12)
        self.finds(FOUR.stripes, says=self.says, case="with a cell that is written and one that is torn")
        self.damage(0, 3)
        self.finds(FOUR.stripes, says=self.says, case="with a bad sector in the first body")
        for slot in 1, 2, 3:
            self.damage(slot, 3)
        self.finds(FOUR.stripes, says=[self.says, "journal lost: sector 3"], status=1, case="with one in each body")

    def test_a_wrong_cell_of_its_stripe(self):
        """An old sector of a cell that the write does not change."""
        self.begin(cut())
        patch(image(self.work, 1), "11 0=07*512")
        self.finds(FOUR.stripes, cell_line(FOUR, 0, 0, 1, "wrong"), says=self.says)

    def test_killed_at_each_sync(self):
        """A write after an opening: three syncs of each of four devices, and then four."""
        self.needs("strace")
        for number in range(9, 29):
            self.begin(FOUR.fresh)
            kill = f"inject=fdatasync:signal=KILL:when={number}"
            strace = ["strace", "-f", "-qq", "-o", "/dev/null", "-e", "trace=fdatasync", "-e", kill]
            self.assertNotEqual(0, self.run_program("write 0 1", input=ONE, folder=self.work, wrap=strace).status)
            with self.subTest(number):
                ended = self.verify()
                self.assertEqual((0, lines("verified 3 stripes bad 0 wrong 0 broken 0")), ended[:2], ended.err)
                self.assertIn(ended.err, (b"", lines(self.says)))


class Large(Verified):
    def test_the_last_stripe(self):
        self.begin(LARGE.fresh)
        last = LARGE.stripes - 1
        self.step(f"write {last} 1", puts=wrote(1), input=ONE)
        put_back(self.work, LARGE.fresh, LARGE, last, 0, 0)
        verified = f"verified {LARGE.stripes} stripes bad 0 wrong 1 broken 0"
        self.check_ended(self.verify(), 1, "", lines(cell_line(LARGE, last, 0, 0, "wrong"), verified))


class Refused(Verified):
    def test_folders(self):
        for case, folder, *says in (
            ("no device", empty(), "verify: no array"),
            ("blank devices", FOUR.blank, "verify: no array"),
            ("two devices of four", two_left(), "dev00.img: gone", "dev01.img: gone", "verify: too few devices: scripts/salvage reads what is left"),
            ("one device of four", one_left(), "verify: no array"),
            ("two arrays", two_arrays(), f"verify: two arrays: {EIGHT.identity} {OTHER.identity}"),
        ):
            self.begin(folder)
            self.refuses(*says, case=case)

    def test_no_folder(self):
        self.check_ended(self.run_command([str(TOP / "scripts" / "verify"), "none"]), 2, "verify: none: No such file or directory", b"")

    def test_a_folder_in_use(self):
        self.needs("flock")
        self.begin(FOUR.fresh)
        self.refuses("verify: .: in use", wrap=["flock", "."], case="the folder")
        self.refuses("verify: ./dev01.img: in use", wrap=["flock", "dev01.img"], case="a device")
        self.finds(FOUR.stripes, wrap=["flock", "-s", "."], case="one that another reads")

    def test_a_device_that_may_not_be_read(self):
        self.needs("setpriv")
        self.begin(FOUR.fresh)
        image(self.work, 2).chmod(0o200)
        self.refuses("verify: dev02.img: Permission denied", wrap=as_nobody())

    def test_stripes_that_are_not_there(self):
        self.begin(FOUR.fresh)
        for words in ("--first", "3"), ("--first", "-1"), ("--count", "0"):
            self.refuses("verify: the array has the stripes 0 to 2", words=words, case=" ".join(words))

    def test_words(self):
        ended = self.run_command([str(TOP / "scripts" / "verify")])
        self.assertEqual((2, b""), ended[:2])
        ended = self.run_command([str(TOP / "scripts" / "verify"), "--help"])
        self.assertEqual((0, b""), (ended.status, ended.err))
        self.assertIn(b"Exit status: 0 if nothing differs, 1 if something does", ended.out)
