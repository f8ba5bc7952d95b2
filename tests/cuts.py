"""Commands that are cut off, by a kill or by a loss of power, and what they must leave of an array.

`Cut` is a command that is cut off round by round. Its subclasses here say which command it is and judge what it left. `KilledByTime`,
`KilledAtCalls` and `LosesPower` say how it is cut off. A suite combines the two."""
import collections
import contextlib
import os
import pathlib
import random
import subprocess
import tempfile
import time

from common import bad
from fixture import *
from messages import BEGUN, WRITE, greeted, reply, request
from rounds import *

SMALL = Array(8, 8, 2, 4, [1, 1, 2], 8)
PER_STRIPE = 20  # blocks of a stripe of SMALL
SIZE = 512


def old():
    """Returns the blocks that SMALL has before a command. None is of zeros."""
    return noise("old", SIZE * SMALL.blocks)


def run_whole(folder, words, given=b""):
    """Runs the program in a folder that a case begins with. It must be done."""
    ended = subprocess.run([program(), ".", *words.split()], cwd=folder, input=given, capture_output=True, timeout=LIMIT)
    if ended.returncode:
        raise AssertionError(f"{words} ended with {ended.returncode}, said {ended.stderr[:300]!r}")


def replaced(data, at, new):
    """Returns the bytes with others in place of those from this offset on."""
    return data[:at] + new + data[at + len(new) :]


class Cut(Case):
    """A command that is cut off, in a copy of a folder."""

    ROUNDS = rounds(50)
    words, given = "", b""  # the command, and its input

    def setUp(self):
        super().setUp()
        self.tally, self.place, self.status = collections.Counter(), in_memory(self), None

    def before(self):
        """Returns the folder that the command begins with."""
        raise NotImplementedError

    def judge(self, folder, taken):
        """Fails unless the folder is as the command may leave it that took so many bytes of its input."""
        raise NotImplementedError

    @contextlib.contextmanager
    def copied(self, place):
        """Makes a copy of the folder that the command begins with."""
        with tempfile.TemporaryDirectory(dir=place) as folder:
            yield copy(self.before(), pathlib.Path(folder) / "cut")

    def round(self, name, cut, place=None):
        """A case: a function cuts off the command in a copy of the folder, at this place or in memory, and returns how many bytes the command
        took. What is left is judged in memory, since the judge's commands make many syncs."""
        with self.subTest(name), self.copied(place or self.place) as folder:
            taken = cut(folder)
            released(folder)
            with tempfile.TemporaryDirectory(dir=self.place) as judged:
                self.judge(copy(folder, pathlib.Path(judged) / "cut"), taken)

    def runs(self, folder, wrap=(), after=None):
        """Runs the command in a folder, and kills it after so many seconds. Returns how many bytes it took of its input, a file."""
        with regular(self.given) as given:
            process = subprocess.Popen(
                self.command(self.words, wrap=wrap), cwd=folder, stdin=given, stdout=subprocess.DEVNULL, stderr=subprocess.DEVNULL
            )
            if after is not None:
                time.sleep(after)
                process.kill()
            self.status = process.wait(LIMIT)
            return os.lseek(given.fileno(), 0, os.SEEK_CUR)

    def runs_whole(self, wrap=(), place=None):
        """Runs the command in a copy of its folder, and returns how many seconds that took. It must be done."""
        with self.copied(place or self.place) as folder:
            begun = time.monotonic()
            self.runs(folder, wrap)
            self.assertEqual(0, self.status, self.words)
            return time.monotonic() - begun

    def tell(self, how):
        """Prints how often the rounds left what."""
        print(f"{self.words} {how}:", ", ".join(f"{what} {times}" for what, times in sorted(self.tally.items())))

    def reads(self, folder, words, wanted, says="", given=b""):
        """The program puts out these bytes in the folder, and says these lines."""
        self.check_ended(self.run_program(words, input=given, folder=folder), 0, says, wanted)


# HOW COMMANDS ARE CUT OFF


class KilledByTime(Cut):
    """Kills the command at random moments of the time that it takes. It runs in the room, where a sync may take time."""

    def test_kills_by_time(self):
        whole = self.runs_whole(place=self.room)
        for _ in range(self.ROUNDS):
            after = random.uniform(0, whole)
            name = f"killed after {1e6 * after:.0f} of {1e6 * whole:.0f} microseconds"
            self.round(name, lambda folder: self.runs(folder, after=after), self.room)
        self.tell("killed by time")


class KilledAtCalls(Cut):
    """Kills the command at random writes and syncs of its files."""

    def test_kills_at_calls_of_the_system(self):
        self.needs("strace")
        trace = self.room / "trace"
        self.runs_whole(["strace", "-qq", "-o", trace, "-e", "trace=write,fdatasync"])
        calls = collections.Counter(line.partition("(")[0] for line in trace.read_text().splitlines())
        for number in range(self.ROUNDS):
            kind = ("write", "fdatasync")[number % 2]
            call = random.randrange(calls[kind]) + 1
            fault = ["-e", f"trace={kind}", "-e", f"inject={kind}:signal=KILL:when={call}"]
            wrap = ["strace", "-qq", "-o", "/dev/null", *fault]
            self.round(f"killed at {kind} {call} of {calls[kind]}", lambda folder: self.runs(folder, wrap))
        self.tell("killed at calls of the system")


class LosesPower(Cut):
    """Has the machine lose its power at random moments of the command."""

    def test_losses_of_power(self):
        self.needs("strace")
        power, trace = tool("power"), self.room / "trace"
        shown = ["-y", "-xx", "-s", "69632", "-e", "trace=open,openat,lseek,read,write,fdatasync"]
        self.runs_whole(["strace", "-qq", "-o", trace, *shown])
        calls = power.calls_of(trace)
        for _ in range(self.ROUNDS):
            seed = random.randrange(10**9)
            self.round(f"a loss of power by seed {seed}", lambda folder: power.lose_power(calls, folder, seed))
        self.tell("that lost power")


# COMMANDS


class Create(Cut):
    """Leaves no array, too few devices, or the array with slots that have no superblock."""

    words = "create"
    array = EIGHT

    @property
    def given(self):
        return self.array.text

    def before(self):
        """Devices with bytes that are no sealed sectors, and no zeros."""

        def make(folder):
            folder.mkdir()
            size = SEALED * self.array.sectors
            data = noise("used", self.array.n * size)
            for slot in range(self.array.n):
                image(folder, slot).write_bytes(data[slot * size : (slot + 1) * size])

        return self.array.made("used", make)

    def judge(self, folder, taken):
        with_none = [slot for slot in range(self.array.n) if not self.has_superblock(folder, slot)]
        counted = self.array.n - len(with_none)
        # more than m devices have to count for an array, and at most m may be lost
        if counted <= self.array.m:
            left = self.array.left(1, with_none) if counted else []
            self.expect_shown(folder, "no array", 7, [*left, "no array"])
        elif len(with_none) > self.array.m:
            whys = ", ".join(f"{slot} no superblock" for slot in with_none)
            says = [*self.array.left(1, with_none), f"too few devices: {whys}"]
            self.expect_shown(folder, "too few devices", 9, says)
        else:
            slots = self.array.slots(**{f"slot{slot}": "live 1 no superblock" for slot in with_none})
            self.expect_shown(folder, "the array", 0, "", self.array.shown(1, *slots))

    def has_superblock(self, folder, slot):
        """Returns whether a device has its superblock. Then it must have the closed gate and all zeros of the new array."""
        found, made = (image(place, slot).read_bytes() for place in (folder, self.array.fresh))
        places = slice(0, SEALED), slice(SEALED, 2 * SEALED)
        if not any(found[place] == made[place] for place in places):
            return False
        self.assertTrue(found[2 * SEALED :] == made[2 * SEALED :], f"slot {slot} has a superblock, and other bytes than a new array")
        return True

    def expect_shown(self, folder, what, status, says, puts=b""):
        self.check_ended(self.run_program("show", folder=folder), status, says, puts)
        self.tally[what] += 1


class OfBlocks(Cut):
    """A command over an array of 160 old blocks."""

    def before(self):
        return old_array()

    def reads_blocks(self, folder, blocks, says=""):
        self.reads(folder, f"read 0 {SMALL.blocks}", blocks, says)

    def keeps(self, folder, blocks):
        """The next opening finds the same blocks, and so does one with two devices less."""
        self.reads_blocks(folder, blocks)
        less, says = without_two(folder, folder.parent / "less")
        self.reads_blocks(less, blocks, says)

    def found(self, folder):
        """Returns the blocks that the first opening finds. It reports the superblocks and gates that the cut left in part."""
        torn = collections.Counter(slot for slot in range(SMALL.n) for number in range(3) if is_torn(image(folder, slot), number))
        ended = self.run_program(f"read 0 {SMALL.blocks}", folder=folder)
        self.check_ended(ended, 0, [bad(slot, count) for slot, count in sorted(torn.items())], ended.out)
        return ended.out


def is_torn(path, number):
    """Tells whether a sector of an image file is no sealed one."""
    data = path.read_bytes()[SEALED * number : SEALED * (number + 1)]
    return tool("patch").sealed(number, data[:SIZE]) != data


@once
def old_array(folder):
    """SMALL with its old blocks."""
    run_whole(copy(SMALL.fresh, folder), f"write 0 {SMALL.blocks}", old())


def last_piece(first, past):
    """Returns where the last piece begins of a write from block `first` on that took the blocks before `past`."""
    return max(first, (past - 1) // PER_STRIPE * PER_STRIPE)


class Write(OfBlocks):
    """What it took before the last piece is new, and what it did not take is old. The last piece, which is one step, is one of both. The
    blocks come from a file, so a piece is a stripe, but for the first and the last one, which begin and end within a stripe."""

    first, count = 7, 140
    words = f"write {first} {count}"
    given = noise("new", SIZE * count)

    def up_to(self, past):
        """Returns all blocks, of which those up to this one are new."""
        return replaced(old(), SIZE * self.first, self.given[: SIZE * (past - self.first)])

    def judge(self, folder, taken):
        past = self.first + taken // SIZE
        last = last_piece(self.first, past)
        found = self.found(folder)
        if found not in (self.up_to(last), self.up_to(past)):
            self.fail(f"took {taken} bytes, and other blocks are new; {bytes_differ(self.up_to(past), found)}")
        self.tally["early" if not taken else "old" if found == self.up_to(last) else "new"] += 1
        self.tally["blocks before"] += last - self.first
        self.keeps(folder, found)
        newest = noise("newest", SIZE * SMALL.blocks)
        self.reads(folder, f"write 0 {SMALL.blocks}", lines(f"wrote {SMALL.blocks} blocks"), given=newest)
        self.reads_blocks(folder, newest)


class Serve(OfBlocks):
    """A session with one WRITE that begins and ends within a block. It is done up to the end of a stripe."""

    words = "serve"
    offset, length = SIZE * Write.first + 100, SIZE * Write.count - 300
    data = noise("new", SIZE * Write.count)[-length:]
    given = BEGUN + request(WRITE, offset, length) + data
    answers = greeted(SIZE * SMALL.blocks) + reply()

    def up_to(self, block):
        """Returns all blocks, of which the bytes of the WRITE are new up to this block."""
        return replaced(old(), self.offset, self.data[: max(0, SIZE * block - self.offset)])

    def judge(self, folder, taken):
        found = self.found(folder)
        pasts = [past for past in range(0, SMALL.blocks + 1, PER_STRIPE) if self.up_to(past) == found]
        self.assertTrue(pasts, "the WRITE is not done up to the end of a stripe")
        self.tally[f"up to block {pasts[0]:3}"] += 1
        self.keeps(folder, found)
        self.reads(folder, "serve", self.answers, given=self.given)
        self.reads_blocks(folder, self.up_to(SMALL.blocks))


@once
def volumes(folder):
    """SMALL with the volumes `a` of 30 blocks and `b` of 50. After them 70 blocks are free. But for the table no block is of zeros."""
    copy(SMALL.fresh, folder)
    for words in "vinit", "vmake a 30", "vmake gap 9", "vmake b 50", "vdrop gap":
        run_whole(folder, words)
    run_whole(folder, f"write 1 {SMALL.blocks - 1}", old()[SIZE:])


class OfVolumes(Cut):
    """A command over an array with two volumes. The next opening finds the same as the first one, and so does one with two devices less."""

    two = ["a first 1 blocks 30", "b first 40 blocks 50"]
    three = [*two, "c first 90 blocks 60"]
    first, count = 3, 40
    new = noise("new", SIZE * count)

    def before(self):
        return volumes()

    def b_with(self, count):
        """Returns volume b, so many of whose blocks from the third one on are new."""
        return replaced(old()[SIZE * 40 : SIZE * 90], SIZE * self.first, self.new[: SIZE * count])

    def has(self, folder, listed, count=0, says=""):
        """The array has these volumes: a as it was, b with so many new blocks, and c, if it is there, of zeros."""
        self.reads(folder, "vlist", lines(*listed), says)
        self.reads(folder, "vread a 0 30", old()[SIZE : SIZE * 31])
        self.reads(folder, "vread b 0 50", self.b_with(count))
        if listed == self.three:
            self.reads(folder, "vread c 0 60", bytes(SIZE * 60))

    def keeps(self, folder, listed, count=0):
        self.has(folder, listed, count)
        less, says = without_two(folder, folder.parent / "less")
        self.has(less, listed, count, says)

    def puts_out(self, folder, words):
        """Returns what the first opening puts out."""
        ended = self.run_program(words, folder=folder)
        self.check_ended(ended, 0, "", ended.out)
        return ended.out


class MakeVolume(OfVolumes):
    """It made the volume, or did not."""

    words = "vmake c 60"

    def judge(self, folder, taken):
        made = self.puts_out(folder, "vlist") == lines(*self.three)
        self.tally["made" if made else "not made"] += 1
        self.keeps(folder, self.three if made else self.two)
        if made:
            self.reads(folder, "vdrop c", b"dropped c\n")
        self.reads(folder, self.words, b"made c first 90 blocks 60\n")
        self.has(folder, self.three)


class WriteVolume(OfVolumes):
    """As `Write`: what it took before the last piece is new, and the last piece is old or new."""

    words = f"vwrite b {OfVolumes.first} {OfVolumes.count}"
    given = OfVolumes.new

    def judge(self, folder, taken):
        begin = 40 + self.first
        past = begin + taken // SIZE
        is_new = self.puts_out(folder, "vread b 0 50") == self.b_with(past - begin)
        self.tally["early" if not taken else "new" if is_new else "old"] += 1
        count = (past if is_new else last_piece(begin, past)) - begin
        self.keeps(folder, self.two, count)
        self.reads(folder, self.words, lines(f"wrote {self.count} blocks"), given=self.given)
        self.has(folder, self.two, self.count)
