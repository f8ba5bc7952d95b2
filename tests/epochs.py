"""Commands that establish epochs, cut off at each of their writes of a superblock."""
import shutil
import subprocess

from fixture import *
from rounds import *

PLACES = 2 * SEALED  # the bytes of the two superblock places


class Epochs(Case):
    """Folders of image files are kept as the bytes of each file by its name."""

    def setUp(self):
        super().setUp()
        self.place = in_memory(self)
        self.counted = 0

    def commands(self):
        """Returns the folder and the words of each command, by its name."""
        whole = files_of(FOUR.opened)
        lost = without(whole, 2)
        down = self.after(lost, "read 0 1")
        itself = with_device(down, 2, whole["dev02.img"])
        return {
            "an opening": (whole, "read 0 1"),
            "an opening without a device": (lost, "read 0 1"),
            "a label": (whole, "label shelf"),
            "a replacement by the device itself": (itself, "replace 2"),
            "a replacement by a blank device": (with_device(down, 2, bytes(SEALED * FOUR.sectors)), "replace 2"),
        }

    def laid(self, files):
        """Makes a folder of these image files."""
        folder = self.place / "folder"
        shutil.rmtree(folder, ignore_errors=True)
        folder.mkdir()
        for name, data in files.items():
            (folder / name).write_bytes(data)
        return folder

    def ran(self, files, words, wrap=()):
        """Runs a command in a folder of these image files, which it may change. Returns the folder, and how it ended."""
        folder = self.laid(files)
        command = [*wrap, program(), ".", *words.split()]
        return folder, subprocess.run(command, cwd=folder, stdin=subprocess.DEVNULL, capture_output=True, timeout=LIMIT)

    def after(self, files, words):
        """Returns the image files after a command."""
        return files_of(self.ran(files, words)[0])

    def calls(self, files, words, fails=None):
        """Returns the calls of a command on these image files. The write of this number fails, counted from 1."""
        self.needs("strace")
        trace = self.room / "trace"
        shown = ["-y", "-xx", "-s", "69632", "-e", "trace=open,openat,lseek,read,write,fdatasync"]
        fault = ["-e", f"inject=write:error=ENODEV:when={fails}"] if fails else []
        self.ran(files, words, ["strace", "-qq", "-o", trace, *shown, *fault])
        return tool("power").calls_of(trace)

    def cuts(self, files, words, fails=None):
        """Yields the image files as the command leaves them that is cut off before, within and after each write of a superblock.

        A superblock is synced before the next one is written, so one at most is there in part."""
        calls = self.calls(files, words, fails)
        files, unsynced = {name: bytearray(data) for name, data in files.items()}, set()
        yield files
        for call in calls:
            if call[0] == "sync":
                unsynced.discard(call[1])
            if call[0] != "write":
                continue
            _, name, at, data = call
            if at < PLACES:
                self.assertEqual(set(), unsynced, "a superblock is written while another one is not synced")
                unsynced.add(name)
                files[name][at : at + len(data) // 2] = data[: len(data) // 2]
                yield files
            files[name][at : at + len(data)] = data
            if at < PLACES:
                yield files

    def supers(self, files, words):
        """Returns the numbers of the command's writes that are superblocks, counted from 1 among all its writes, to its output too."""
        power = tool("power")
        writes = iter([call for call in self.calls(files, words) if call[0] == "write"])
        traced = [line for line in (self.room / "trace").read_text().splitlines() if line.startswith("write(")]
        to_image = [bool(power.IMAGE.search(power.plain(line.partition("<")[2].partition(">")[0]))) for line in traced]
        return [number for number, is_image in enumerate(to_image, 1) if is_image and next(writes)[2] < PLACES]

    def expect_no_copy(self, files):
        """`show` reports no older copy among these image files."""
        self.assertNotIn(b"older copy", self.ran(files, "show")[1].stderr)
        self.counted += 1


def files_of(folder):
    return {path.name: path.read_bytes() for path in images(folder)}


def without(files, slot):
    return {name: data for name, data in files.items() if name != f"dev{slot:02}.img"}


def with_device(files, slot, data):
    return {**files, f"dev{slot:02}.img": data}
