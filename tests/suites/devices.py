"""Arrays on loop block devices: each command has the effect that it has on image files, over sizes, losses, damage, locks."""
import collections
import contextlib
import fcntl
import os
import subprocess
import time

from common import bad, events, wrote
from fixture import *
from messages import BEGUN, GREETED, READ, WRITE, reply, request
from rounds import *

SLOW = True

BLKFLSBUF = 0x1261  # the ioctl by which the system drops what it keeps of a block device
LOOP_CTL_ADD, LOOP_CTL_REMOVE = 0x4C80, 0x4C81
BLOCK = 512  # a loop device has the whole blocks of its file
# The 17 sectors of FOUR are 9,248 bytes, which is 18.06 blocks.
NEEDED, FEWEST = SEALED * FOUR.sectors, 19
OLD, NEW = noise("old", BLOCK * FOUR.blocks), noise("new", BLOCK * FOUR.blocks)

Loop = collections.namedtuple("Loop", "path file rest")


def show_lines(epoch, **slots):
    return FOUR.shown(epoch, *FOUR.slots(**slots))


class OnLoops(Case):
    """The folder `self.work` has links to loop devices, and `self.plain` has image files with the same bytes."""

    blocks = [FEWEST, 20, 23, 34]  # of each loop device; 34 blocks are 32 whole sectors

    def setUp(self):
        super().setUp()
        self.needs("losetup")
        if os.getuid():
            self.skipTest("needs root")
        self.loops, self.ours = {}, set()
        self.files, self.plain = in_memory(self), in_memory(self)
        self.work.mkdir()
        for slot, count in enumerate(self.blocks):
            self.insert(slot, count)

    def insert(self, slot, count):
        """Puts a loop device of so many blocks, which is not blank, in a slot of `self.work`, and its first bytes in `self.plain`."""
        file = self.files / f"{slot} of {count}"
        data = noise(file.name, BLOCK * count)
        file.write_bytes(data)
        self.loops[slot] = Loop(self.attached(file), file, data[NEEDED:])
        image(self.work, slot).symlink_to(self.loops[slot].path)
        image(self.plain, slot).write_bytes(data[:NEEDED])

    def attached(self, file, *options):
        """Returns the path of a loop device that has this file. It is detached at the end of the case."""
        made = subprocess.run(["losetup", *options, "--find", "--show", file], stdout=subprocess.PIPE, stderr=subprocess.PIPE)
        if made.returncode:
            self.skipTest(f"needs loop devices; {made.stderr.decode(errors='replace').strip()}")
        path = made.stdout.decode().strip()
        self.keep(path)
        return path

    def keep(self, path):
        """Has a loop device detached at the end of the case."""
        self.ours.add(path)
        self.addCleanup(self.detach, path)

    def detach(self, path):
        """Detaches a loop device once: then another case may have it."""
        if path in self.ours:
            self.ours.remove(path)
            subprocess.run(["losetup", "--detach", path], check=True)

    def lose(self, *slots):
        for slot in slots:
            del self.loops[slot]
            for folder in self.work, self.plain:
                image(folder, slot).unlink()

    def damage(self, slot, number):
        """Writes other bytes to a sector of a device: to the file under the loop device, and to the image file."""
        for path in self.loops[slot].file, image(self.plain, slot):
            with open(path, "r+b") as file:
                file.seek(SEALED * number)
                file.write(noise("damage", SEALED))
        self.flush(slot)

    def flush(self, slot):
        """Has the system read the loop device from its file again."""
        with open(self.loops[slot].path, "rb") as device:
            fcntl.ioctl(device, BLKFLSBUF)

    def both(self, words, status=0, says="", puts=b"", input=b"", of_files=()):
        """The program ends, says and puts out the same in both folders, and leaves the same bytes. It says these lines of files before."""
        self.runs(self.work, words, status, says, puts, input)
        self.runs(self.plain, words, status, [*of_files, says] if of_files else says, puts, input)
        self.compare()

    def runs(self, folder, words, status=0, says="", puts=b"", input=b""):
        """The program ends, says and puts out this in one folder."""
        self.check_ended(self.run_program(words, input=input, folder=folder), status, says, puts)

    def compare(self):
        """The files of the loop devices have what the image files have, and what they had past that. The links are as they were."""
        self.assertEqual({image("", slot).name: f"link to {loop.path}" for slot, loop in self.loops.items()}, contents(self.work))
        for slot, loop in self.loops.items():
            wanted, found = image(self.plain, slot).read_bytes() + loop.rest, loop.file.read_bytes()
            if wanted != found:
                self.fail(f"slot {slot}: {bytes_differ(wanted, found)}")

    def create(self):
        self.both("create", puts=FOUR.created, input=FOUR.text)

    def write(self, data):
        self.both("write 0 15", puts=wrote(15), input=data)


class Lives(OnLoops):
    def test_a_new_array(self):
        self.create()
        self.check_folder(self.plain, FOUR.fresh)
        self.both("show", puts=show_lines(1))
        self.write(OLD)
        self.both("read 0 15", puts=OLD)
        self.both("write 3 1", puts=wrote(1), input=NEW[:BLOCK])
        self.both("read 2 3", puts=OLD[2 * BLOCK : 3 * BLOCK] + NEW[:BLOCK] + OLD[4 * BLOCK : 5 * BLOCK])
        self.both("label shelf 7".split(" ", 1), puts=b"labelled\n")

    def test_a_lost_device_and_another_one_in_its_place(self):
        self.create()
        self.write(OLD)
        self.lose(1)
        self.both("read 0 15", says="fenced 1", puts=OLD)
        self.write(NEW)
        # Each opening made an epoch.
        self.both("show", puts=show_lines(4, slot1="down"))
        self.insert(1, 21)
        self.both("show", puts=show_lines(4, slot1="down"))
        # The opening makes epoch 5, the admission 6, and the promotion 7.
        self.both("replace 1", says=["admitted 1", "promoted 1"], puts=b"replaced 1\n")
        self.both("show", puts=show_lines(7, slot1="live 6"))
        self.lose(2)
        self.both("read 0 15", says="fenced 2", puts=NEW)

    def test_a_rebuild_that_is_continued(self):
        self.create()
        self.write(OLD)
        self.lose(3)
        self.both("read 0 1", says="fenced 3", puts=OLD[:BLOCK])
        self.insert(3, FEWEST)
        script = lines("replace 3", "rebuild 1")
        self.both("run", says=["admitted 3", events(admitted=1)], puts=lines("admitted 3", "rebuild 1 steps"), input=script)
        # The opening of the script made epoch 4, and the admission 5.
        self.both("show", puts=show_lines(5, slot3="rebuilding 5"))
        self.both("rebuild", says="promoted 3", puts=b"rebuild 3 steps\n")
        self.lose(0)
        self.both("read 0 15", says="fenced 0", puts=OLD)

    def test_damaged_sectors(self):
        # Sector 12 of slot 2 is row 1 of stripe 0, and sector 15 of slot 0 is row 0 of stripe 2.
        self.create()
        self.write(OLD)
        self.damage(2, 12)
        self.damage(0, 15)
        self.both("read 0 15", says=bad(0, 1), puts=OLD)
        repaired = ["repaired stripe 0 cells 1", "repaired stripe 2 cells 1", bad(0, 1), bad(2, 1)]
        self.both("scrub", says=repaired, puts=b"scrubbed 3 stripes cells 2\n")
        self.both("scrub", puts=b"scrubbed 3 stripes cells 0\n")
        self.lose(3)
        self.both("read 0 15", says="fenced 3", puts=OLD)

    def test_blocks_that_the_disk_cannot_read(self):
        # The file under the loop device ends early. So the system reads neither sector 15 nor 16 of slot 2, which are its chunk of stripe 2.
        self.create()
        self.write(OLD)
        os.truncate(self.loops[2].file, 8192)
        self.flush(2)
        self.runs(self.work, "read 0 15", says=bad(2, 2), puts=OLD)
        self.runs(self.work, "show", puts=show_lines(3))

    def test_a_script_and_a_session(self):
        self.create()
        script = lines(f"write 14 {'5c' * BLOCK}", "scrub 2", "read 14")
        replies = lines("wrote 14", "scrubbed stripe 2 cells 0", f"14 {'5c' * BLOCK}")
        self.both("run", says=events(), puts=replies, input=script)
        session = BEGUN + request(WRITE, 510, 4) + b"abcd" + request(READ, 509, 6)
        self.both("serve", puts=GREETED + reply() * 2 + b"\0abcd\0", input=session)


class Sizes(OnLoops):
    """18 blocks are 9,216 bytes, which have 16 whole sectors of 17: the loop device of a file of 9,248 bytes has so many."""

    def length(self, slot):
        return f"dev{slot:02}.img: 9216 bytes, and the array needs 9248"

    def test_a_create_on_a_small_device(self):
        self.lose(2)
        self.insert(2, 18)
        self.both("create", 13, "small device: slot 2 has 16 of 17 sectors", input=FOUR.text, of_files=[self.length(2)])

    def test_a_file_that_has_no_whole_blocks(self):
        self.lose(0)
        file = self.files / "part"
        file.write_bytes(noise("part", NEEDED))
        self.loops[0] = Loop(self.attached(file), file, noise("part", NEEDED)[18 * BLOCK :])
        image(self.work, 0).symlink_to(self.loops[0].path)
        image(self.plain, 0).write_bytes(noise("part", NEEDED)[: 18 * BLOCK])
        self.both("create", 13, "small device: slot 0 has 16 of 17 sectors", input=FOUR.text, of_files=[self.length(0)])

    def test_a_replacement_by_a_small_device(self):
        self.create()
        self.lose(1)
        self.both("read 0 0", says="fenced 1")
        self.insert(1, 18)
        self.both("replace 1", 13, "small device: slot 1 has 16 of 17 sectors", of_files=[self.length(1)])


class Detached(OnLoops):
    """A loop device that was detached has no bytes, as an empty file."""

    def insert_own(self, slot, number):
        """Puts a loop device of this number in a slot. It has a great number, so that no other process takes it as the first free one."""
        path, loop = f"/dev/loop{number}", self.loops[slot]
        try:
            with open("/dev/loop-control", "r+b", buffering=0) as control:
                fcntl.ioctl(control, LOOP_CTL_ADD, number)
        except OSError as why:
            self.skipTest(f"needs more loop devices; {why}")
        self.addCleanup(self.remove, number)
        if not os.path.exists(path):
            self.skipTest(f"needs a system that makes {path}")
        self.detach(loop.path)
        subprocess.run(["losetup", path, loop.file], check=True)
        self.keep(path)
        image(self.work, slot).unlink()
        image(self.work, slot).symlink_to(path)
        self.loops[slot] = loop._replace(path=path)

    def remove(self, number):
        """Removes a loop device. The system may release a detached one a while later."""
        with open("/dev/loop-control", "r+b", buffering=0) as control:
            for _ in range(100):
                with contextlib.suppress(OSError):
                    return fcntl.ioctl(control, LOOP_CTL_REMOVE, number)
                time.sleep(0.05)
        return self.fail(f"/dev/loop{number} is not removed")

    def test_a_detached_device(self):
        self.insert_own(1, 1000 + os.getpid())
        self.create()
        self.write(OLD)
        self.detach(self.loops.pop(1).path)
        image(self.plain, 1).write_bytes(b"")
        links = contents(self.work)
        for folder in self.work, self.plain:
            self.runs(folder, "show", puts=show_lines(2, slot1="live 1 no superblock"))
            self.runs(folder, "read 0 15", says="fenced 1", puts=OLD)
            length = ["dev01.img: 0 bytes, and the array needs 9248"] if folder == self.plain else []
            self.runs(folder, "replace 1", 13, [*length, "small device: slot 1 has 0 of 17 sectors"])
        self.assertEqual(links, contents(self.work))
        for folder in self.work, self.plain:
            image(folder, 1).unlink()
        self.insert(1, FEWEST)
        self.both("replace 1", says=["admitted 1", "promoted 1"], puts=b"replaced 1\n")
        self.both("read 0 15", puts=OLD)



class NotAvailable(OnLoops):
    """Devices that cannot be opened for the caller's own reasons: nothing is touched."""

    def refused(self, words, says, input=b""):
        before = contents(self.work), {slot: loop.file.read_bytes() for slot, loop in self.loops.items()}
        self.runs(self.work, words, 15, says, input=input)
        self.assertEqual(before, (contents(self.work), {slot: loop.file.read_bytes() for slot, loop in self.loops.items()}))

    def test_a_device_in_use(self):
        self.create()
        with open(self.loops[2].path, "rb") as held:
            fcntl.flock(held, fcntl.LOCK_EX)
            self.refused("write 0 15", ["dev02.img: in use", "gone: slot 2"], OLD)
        self.write(OLD)

    def test_two_slots_with_one_device(self):
        image(self.work, 1).unlink()
        image(self.work, 1).symlink_to(self.loops[0].path)
        self.refused("create", ["dev01.img: in use", "gone: slot 1"], FOUR.text)

    def test_a_device_that_may_only_be_read(self):
        # The system opens it for writing, and refuses the first write. So it fails in a call, and is down from then on.
        self.create()
        self.write(OLD)
        loop = self.loops.pop(3)
        self.detach(loop.path)
        image(self.work, 3).unlink()
        image(self.work, 3).symlink_to(self.attached(loop.file, "--read-only"))
        before, says = loop.file.read_bytes(), ["fenced 3", "dev03.img: Operation not permitted"]
        self.runs(self.work, "show", puts=show_lines(2))
        self.runs(self.work, "read 0 15", says=says, puts=OLD)
        self.runs(self.work, "show", puts=show_lines(4, slot3="down"))
        self.assertEqual(before, loop.file.read_bytes())
