"""Devices that cannot be opened, are in use, are links or no files, and calls of the system on them that fail."""
import concurrent.futures
import os
import subprocess

from fixture import *

LIVE = FOUR.shown(1, *FOUR.slots())
NO_FILE = "no file and no block device"


class Media(Case):
    def created(self, before, after, says="", **how):
        self.expect_in(before, after, "create", 0, says, FOUR.created, input=FOUR.text, **how)

    def not_created(self, says, before=None, after=None, status=15, **how):
        before = before or FOUR.blank
        self.expect_in(before, after or before, "create", status, says, input=FOUR.text, **how)

    def shown(self, slots="", says="", **how):
        puts = FOUR.shown(1, *FOUR.slots(**slots)) if slots else LIVE
        self.expect_in(FOUR.fresh, FOUR.fresh, "show", 0, says, puts, **how)


class Refused(Media):
    """Devices that the caller may not open. Nothing is changed."""

    def test_devices_that_may_not_be_written(self):
        self.needs(*as_nobody()[:1])
        kept = self.folder("kept", FOUR.blank)
        for path in images(kept):
            path.chmod(0o444)
        self.not_created(["dev00.img: Permission denied", "gone: slot 0"], kept, nobody=True)

    def test_devices_that_may_only_be_read_are_shown(self):
        self.needs(*as_nobody()[:1])
        self.expect_in(read_only(), read_only(), "show", puts=LIVE, nobody=True)

    def test_a_device_that_may_not_be_read(self):
        self.needs(*as_nobody()[:1])
        self.shown(
            {"slot2": "live 1 gone"},
            "dev02.img: Permission denied",
            nobody=True,
            change=lambda folder: image(folder, 2).chmod(0),
            undo=lambda folder: image(folder, 2).chmod(0o644),
        )

    def test_a_file_system_that_may_only_be_read(self):
        self.needs("unshare")
        mounted = mounted_read_only()
        self.not_created(["dev00.img: Read-only file system", "gone: slot 0"], wrap=mounted, case="create")
        self.shown(wrap=mounted, case="show")

    def test_too_few_files_at_once(self):
        few = ulimit("-n", 9)
        self.not_created(["dev02.img: Too many open files", "gone: slot 2"], wrap=few, case="create")
        self.shown({"slot3": "live 1 gone"}, "dev03.img: Too many open files", wrap=few, case="show")


class InUse(Media):
    """One file can be only one device, and only one program at a time uses a folder. `show` needs no lock."""

    def test_two_slots_with_one_file(self):
        linked = self.folder("linked", FOUR.blank)
        image(linked, 1).unlink()
        image(linked, 1).symlink_to("dev00.img")
        self.not_created(["dev01.img: in use", "gone: slot 1"], linked)

    def test_a_hard_link(self):
        self.not_created(
            ["dev09.img: in use", "gone: slot 9"],
            change=lambda folder: os.link(image(folder, 3), image(folder, 9)),
            undo=lambda folder: image(folder, 9).unlink(),
        )

    def test_locks_of_others(self):
        self.needs("flock")
        self.not_created(".: in use", status=75, wrap=["flock", "."], case="a folder in use")
        self.not_created(["dev02.img: in use", "gone: slot 2"], wrap=["flock", "dev02.img"], case="a device in use")
        self.shown(wrap=["flock", ".", "flock", "dev02.img"], case="an array in use is shown")
        self.expect_in(
            FOUR.blank, FOUR.blank, "check 4 1 2 1", puts=CODEWORD, input=STRIPE, wrap=["flock", "."], case="a stripe in a folder in use"
        )

    def test_two_at_once(self):
        # One of the two creates the array. The other one finds the folder in use, or the array.
        for time in range(5):
            with self.subTest(f"time {time}"):
                folder = self.folder(f"twice {time}", FOUR.blank)
                with concurrent.futures.ThreadPoolExecutor(2) as pool:
                    both = [pool.submit(self.run_program, "create", FOUR.text, folder) for _ in range(2)]
                one, other = sorted(it.result()[:3] for it in both)
                self.assertEqual((0, FOUR.created, b""), one)
                self.assertIn(other, [(75, b"", b".: in use\n"), (12, b"", b"array already: slot 0\n")])
                self.check_folder(folder, FOUR.fresh)


class NoFiles(Media):
    """What is no file is no device, and nothing waits for it. The array has no slot 5."""

    def test_a_character_device(self):
        before, after = self.folder("before", FOUR.blank), self.folder("after", FOUR.fresh)
        for folder in before, after:
            image(folder, 5).symlink_to("/dev/null")
        self.created(before, after, f"dev05.img: {NO_FILE}")

    def test_a_pipe(self):
        self.shown(
            says=f"dev05.img: {NO_FILE}",
            change=lambda folder: os.mkfifo(image(folder, 5)),
            undo=lambda folder: image(folder, 5).unlink(),
        )


class Links(Media):
    """The image file of slot 2 is a link to a device that is elsewhere."""

    def moved_away(self):
        """Makes devices in `self.work` and moves the one of slot 2 elsewhere. Returns its place."""
        self.begin(FOUR.blank)
        disk = self.room / "disk"
        image(self.work, 2).rename(disk)
        os.truncate(disk, 512 * 20)
        return disk

    def used(self, disk, target):
        image(self.work, 2).symlink_to(target)
        self.step("create", puts=FOUR.created, input=FOUR.text)
        self.step("show", puts=LIVE)
        self.assertEqual(str(target), os.readlink(image(self.work, 2)))
        for slot in 0, 1, 3:
            self.assertEqual(image(FOUR.fresh, slot).read_bytes(), image(self.work, slot).read_bytes())

    def compare(self, disk):
        self.assertEqual(image(FOUR.fresh, 2).read_bytes(), disk.read_bytes()[: SEALED * 17])

    def test_a_file(self):
        disk = self.moved_away()
        self.used(disk, disk)
        self.compare(disk)

    def test_a_block_device(self):
        self.needs("losetup")
        disk = self.moved_away()
        made = subprocess.run(["losetup", "-f", "--show", disk], capture_output=True, text=True)
        if made.returncode != 0:
            self.skipTest("needs loop devices")
        try:
            self.used(disk, made.stdout.strip())
        finally:
            subprocess.run(["losetup", "-d", made.stdout.strip()], check=True)
        self.compare(disk)


class Failing(Media):
    """Calls of the system that fail. A sector whose read fails with EIO is bad. Any other failure takes the device out of use, and its
    reason is reported."""

    def setUp(self):
        super().setUp()
        self.needs("strace")

    def test_sectors_that_cannot_be_read(self):
        self.shown(wrap=failing("read:error=EIO:when=3"), case="one")
        self.shown({"slot2": "live 1 no superblock"}, wrap=failing("read:error=EIO"), case="both superblocks")

    def test_a_device_that_fails(self):
        self.shown({"slot2": "live 1 gone"}, "dev02.img: No such device", wrap=failing("read:error=ENODEV"))

    def test_a_device_that_is_full(self):
        # All sectors but the superblocks are gathered, and go out as each device is synced.
        after = self.folder("full", FOUR.blank)
        for slot in 0, 1, 3:
            with open(image(after, slot), "r+b") as file:
                file.seek(SEALED * 2)
                file.write(image(FOUR.fresh, slot).read_bytes()[SEALED * 2 :])
        said_of_it = ["dev02.img: No space left on device", "gone: slot 2"]
        self.not_created(said_of_it, after=after, wrap=failing("write:error=ENOSPC"))

    def test_a_folder_without_locks(self):
        thin = self.folder("thin", FOUR.blank)
        image(thin, 2).unlink()
        no_locks = ["strace", "-f", "-qq", "-o", "/dev/null", "-e", "trace=flock", "-e", "inject=flock:error=EOPNOTSUPP"]
        self.not_created([".: no locks", "gone: slot 2"], thin, wrap=no_locks)
