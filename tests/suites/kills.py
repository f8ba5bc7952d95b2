"""Commands that are killed at random moments, by time and at calls of the system, and what they leave; two creates at once."""
import subprocess

from cuts import *

SLOW = True

# Of this many stripes a `create` takes a while.
LARGE = Array(8, 8, 2, 4, [1, 1, 2], 2000)


class CreateByTime(Create, KilledByTime):
    array = LARGE


class CreateAtCalls(Create, KilledAtCalls):
    """Half of the calls are syncs: eight of the zeros, and then two of each device's superblocks."""


class WriteByTime(Write, KilledByTime):
    pass


class WriteAtCalls(Write, KilledAtCalls):
    pass


class ServeByTime(Serve, KilledByTime):
    pass


class ServeAtCalls(Serve, KilledAtCalls):
    pass


class MakeVolumeByTime(MakeVolume, KilledByTime):
    pass


class MakeVolumeAtCalls(MakeVolume, KilledAtCalls):
    pass


class WriteVolumeByTime(WriteVolume, KilledByTime):
    pass


class WriteVolumeAtCalls(WriteVolume, KilledAtCalls):
    pass


class Whole(Serve):
    def test_a_session_that_is_not_killed(self):
        with self.copied(self.place) as folder:
            self.reads(folder, "serve", self.answers, given=self.given)
            self.reads_blocks(folder, self.up_to(SMALL.blocks))


class TwoCreates(Create):
    """One of the two creates the array. The other one finds the folder in use, or the array."""

    def test_two_at_once(self):
        for number in range(self.ROUNDS):
            with self.subTest(f"two at once {number}"), self.copied(self.place) as folder:
                both = [ended(process) for process in [self.start(folder), self.start(folder)]]
                refused = [it for it in both if it in ((75, b"", b".: in use\n"), (12, b"", b"array already: slot 0\n"))]
                self.assertEqual([(0, self.array.created, b"")], [it for it in both if it not in refused])
                self.check_folder(folder, self.array.fresh)

    def start(self, folder):
        with regular(self.given) as given:
            command = self.command(self.words)
            return subprocess.Popen(command, cwd=folder, stdin=given, stdout=subprocess.PIPE, stderr=subprocess.PIPE)


def ended(process):
    """Waits for a program, and returns its status, what it put out and what it said."""
    out, err = process.communicate(timeout=LIMIT)
    return process.returncode, out, err
