"""Requests for memory that are refused, calls of the system that fail, unreadable sectors among eight, kills at random moments."""
import collections
import pathlib
import random
import re
import subprocess
import tempfile
import time

from cuts import SMALL, Cut, KilledByTime, old, old_array, replaced, run_whole
from fixture import *
from messages import BEGUN, READ, WRITE, request
from rounds import *

SLOW = True
OLD = noise("old", 7680)  # the blocks of FOUR
NEW = replaced(OLD, 1536, noise("new", 512))  # the same with another block 3


@once
def filled_array(folder):
    """FOUR with old blocks."""
    run_whole(copy(FOUR.fresh, folder), "write 0 15", OLD)


@once
def damaged(folder):
    """The same with a damaged sector of a cell."""
    copy(filled_array(), folder)
    with open(image(folder, 1), "r+b") as file:
        file.seek(SEALED * 11)
        file.write(noise("damage", SEALED))


@once
def blank_in_place(folder):
    """The same with a blank device in the place of one that was lost."""
    copy(filled_array(), folder)
    image(folder, 3).unlink()
    run_whole(folder, "read 0 0")
    resize(image(folder, 3), FOUR.sectors)


@once
def with_volumes(folder):
    """The same with a table of volumes in place of block 0."""
    run_whole(copy(filled_array(), folder), "vinit")


# MEMORY


class Memory(Case):
    """A command must say that it is out of memory, put nothing out, and leave the folder as it was. Or it does without the memory, as
    `clap` does where it need not show a text, and all is as it should be."""

    def setUp(self):
        super().setUp()
        self.needs("gdb")

    def refuse(self, words, folder, given=b""):
        """Each run is a case: the whole one, and those in which a request is refused."""
        (self.room / "given").write_bytes(given)
        env = {"FOLDER": str(folder), "IN": str(self.room / "given"), "PLACE": str(self.room)}
        script = f"python exec(open('{TOOLS / 'refuse'}').read())"
        gdb = self.run_command(["gdb", "-q", "-nx", "-batch", "-ex", script, "--args", *self.command(words)], env=env, limit=3600)
        results = self.room / "results"
        runs = results.read_text().splitlines() if results.exists() else [f"gdb said: {(gdb.out + gdb.err)[-300:]!r}"]
        with self.subTest("the whole run"):
            self.assertEqual("done", runs[0])
        for number, run in enumerate(runs[1:], 1):
            with self.subTest(f"request {number} refused"):
                self.assertIn(run, ("refused", "without"))
        count = collections.Counter(runs[1:])
        print(f"{words}: {count['refused']} requests for memory were refused, and {count['without']} more that it does without")


# Classes run at the same time, so each has about as many requests as another one.


class OfTwoEncoders(Memory):
    def test_stripe_standard(self):
        self.refuse("stripe standard 4 1 2 1", empty(), BLOCKS)

    def test_stripe_up(self):
        self.refuse("stripe up 4 1 2 1", empty(), BLOCKS)


class OfTheOtherEncoders(Memory):
    def test_stripe_down(self):
        self.refuse("stripe down 4 1 2 1", empty(), BLOCKS)

    def test_stripe_fewest(self):
        self.refuse("stripe fewest 4 1 2 1", empty(), BLOCKS)


class OfAStripe(Memory):
    def test_check(self):
        self.refuse("check 4 1 2 1", empty(), STRIPE)

    def test_restore(self):
        self.refuse("restore 4 1 2 1", empty(), b"x......." + STRIPE)

    def test_plan(self):
        self.refuse("plan 4 1 2 1", empty())


class OfBlocks(Memory):
    def test_create(self):
        self.refuse("create", FOUR.blank, FOUR.text)

    def test_read(self):
        self.refuse("read 0 15", filled_array())

    def test_write(self):
        self.refuse("write 0 15", filled_array(), OLD)


class OfSteps(Memory):
    def test_show(self):
        self.refuse("show", filled_array())

    def test_run(self):
        self.refuse("run", blank_in_place(), lines("read 3", "scrub 0", "replace 3", "rebuild 9", "read 3"))

    def test_exercise(self):
        self.refuse("exercise 1 20", filled_array())


class OfOtherUses(Memory):
    def test_serve(self):
        # a WRITE of the last byte of block 3, and a READ of it
        self.refuse("serve", filled_array(), BEGUN + request(WRITE, 2047, 1) + b"w" + request(READ, 2047, 1))

    def test_vmake(self):
        self.refuse("vmake shelf 14", with_volumes())


class OfCare(Memory):
    def test_scrub(self):
        self.refuse("scrub", damaged())

    def test_replace(self):
        self.refuse("replace 3", blank_in_place())

    def test_rebuild(self):
        self.refuse("rebuild", filled_array())


class OfMarks(Memory):
    def test_freeze(self):
        self.refuse("freeze", filled_array())

    def test_thaw(self):
        self.refuse("thaw", filled_array())

    def test_label(self):
        self.refuse("label shelf", filled_array())


# CALLS OF THE SYSTEM, AND KILLS


class Hurt(Cut):
    """A command of which a call of the system fails, or which is killed. What it acknowledged is there. A write that was refused or killed is
    there or not, and stays so. Once all is mended, any one device may be lost."""

    ROUNDS = rounds(200)
    kinds = "statx,openat,flock,lseek,read,write,fdatasync"
    statuses, puts = (), b""  # how it may end if one call fails, and a pattern of what it puts out once it is done

    def fail_each_call(self):
        """Each round is a case: one call of the system fails, of those from the first one on that looks at the folder."""
        self.needs("strace")
        calls = self.calls()
        self.assertTrue(calls)
        for kind, number in calls:
            fault = ["-e", f"trace={kind}", "-e", f"inject={kind}:error=EIO:when={number}"]
            wrap = ["strace", "-qq", "-o", "/dev/null", *fault]
            self.round(f"{kind} {number} fails", lambda folder: self.runs(folder, wrap))
        self.tell(f"of which {len(calls)} calls failed, by statuses")

    def calls(self):
        """Returns the calls, each by its kind and its number among those of its kind."""
        trace, calls, count = self.room / "trace", [], collections.Counter()
        self.runs_whole(["strace", "-qq", "-o", trace, "-e", f"trace={self.kinds}"])
        has_begun = False
        for line in trace.read_text(errors="replace").splitlines():
            kind = line.partition("(")[0]
            if kind in self.kinds.split(","):
                count[kind] += 1
                has_begun = has_begun or line.startswith('statx(AT_FDCWD, "."')
                if has_begun:
                    calls.append((kind, count[kind]))
        return calls

    def runs(self, folder, wrap=(), after=None):
        """Runs the command in a folder, and kills it after so many seconds. Returns its status, what it put out and what it said."""
        with regular(self.given) as given:
            command = self.command(self.words, wrap=wrap)
            process = subprocess.Popen(command, cwd=folder, stdin=given, stdout=subprocess.PIPE, stderr=subprocess.PIPE)
        if after is not None:
            time.sleep(after)
            process.kill()
        out, err = process.communicate(timeout=LIMIT)
        self.status = process.returncode
        return self.status, out, err

    def judge(self, folder, ended):
        status, out, _ = ended
        self.assertIn(status, (*self.statuses, -9), ended)
        if status == 0:
            self.assertRegex(out, b"^%s\n\\Z" % self.puts)
        elif status not in (6, -9):
            self.assertEqual(b"", out)
        blocks = self.blocks_after(folder, status)
        self.assertEqual("", self.mistake(folder, blocks), ended)
        self.mend(folder)
        self.assertEqual("", self.mistake(folder, blocks), ended)
        image(folder, random.randrange(4)).unlink()
        for _ in range(2):
            self.assertEqual("", self.mistake(folder, blocks), ended)
        self.tally["killed" if status == -9 else str(status)] += 1

    def blocks_after(self, folder, status):
        """Returns the blocks that the array must have."""
        return OLD

    def mistake(self, folder, blocks):
        """Returns how a read of all blocks differs from these, or an empty text."""
        ended = self.run_program("read 0 15", folder=folder)
        if ended.status:
            return f"the read ended with {ended.status}, said {ended.err[:300]!r}"
        return "" if ended.out == blocks else bytes_differ(blocks, ended.out)

    def mend(self, folder):
        """Replaces the devices that are down, and finishes a rebuild that was cut off. Then all slots must be live."""

        def run(words, *statuses):
            ended = self.run_program(words, folder=folder)
            self.assertIn(ended.status, (0, *statuses), f"{words}: {ended.err[:300]!r}")
            return ended.out

        for slot in re.findall(rb"^slot ([0-3]) (?:down|live \d+ )", run("show"), re.MULTILINE):
            run(f"replace {slot.decode()}", 14)
        run("rebuild")
        run("scrub")
        self.assertEqual(4, len(re.findall(rb"^slot [0-3] live \d+$", run("show"), re.MULTILINE)))


class HurtWrite(Hurt, KilledByTime):
    words, given = "write 3 1", NEW[1536:2048]
    # done, input failed, output failed, gone
    statuses, puts = (0, 5, 6, 15), b"wrote 1 blocks"

    def test_calls_that_fail(self):
        self.fail_each_call()

    def before(self):
        return filled_array()

    def blocks_after(self, folder, status):
        if status in (0, 6):
            return NEW
        return NEW if self.mistake(folder, OLD) else OLD


class HurtScrub(Hurt, KilledByTime):
    """A read that fails is one more cell to repair. No cell of a slot that fails is written."""

    words = "scrub"
    statuses, puts = (0, 6, 15), b"scrubbed 3 stripes cells [012]"

    def test_calls_that_fail(self):
        self.fail_each_call()

    def before(self):
        return damaged()


class HurtReplacement(Hurt, KilledByTime):
    words = "replace 3"
    # 9: too few devices, since one of four is down already
    statuses, puts = (0, 6, 9, 15), b"replaced 3"

    def test_calls_that_fail(self):
        self.fail_each_call()

    def before(self):
        return blank_in_place()


# SECTORS AMONG EIGHT


class AmongEight(Case):
    """A device of SMALL has one sector that can't be read. It is one of eight that are read at once, so their read fails, and then a read
    of this sector alone. No other sector of the device is taken for bad."""

    eight = 8 * SEALED
    first = SMALL.sectors - SMALL.r * SMALL.stripes  # the first sector of the stripes
    windows = (first + 1, first + 9, first + 17)  # where reads of eight begin, since the first sector is read alone

    def setUp(self):
        super().setUp()
        self.needs("strace")

    def strace(self, folder, slot, *words):
        return ["strace", "-qq", "-P", str(image(folder, slot)), "-e", "trace=read", *words]

    def reads_of_eight(self, before, words, slot):
        """Returns which reads of the device are of eight sectors of stripes: their numbers, in order."""
        folder, trace = copy(before, self.room / f"whole{slot}"), self.room / "trace"
        ended = self.run_program(words, folder=folder, wrap=self.strace(folder, slot, "-o", trace))
        self.assertEqual(0, ended.status, ended)
        sizes = re.findall(r", (\d+)\) += \d+$", trace.read_text(errors="replace"), re.MULTILINE)
        found = [number for number, size in enumerate(sizes, 1) if int(size) == self.eight][-len(self.windows) :]
        self.assertEqual(len(self.windows), len(found), sizes)
        return found

    def each_sector(self, before, words, slot, judge):
        """Each run is a case: the read of eight fails alone, or with the read of one of its sectors. Then `judge` is called with what
        ended, the folder, and the stripe of the sector or None."""
        for begin, number in zip(self.windows, self.reads_of_eight(before, words, slot)):
            for at in (None, *range(8)):
                when = number if at is None else f"{number}..{number + 1 + at}+{1 + at}"
                name = f"eight from {begin} of slot {slot}" if at is None else f"sector {begin + at} of slot {slot}"
                with self.subTest(name), tempfile.TemporaryDirectory(dir=self.room) as place:
                    folder = copy(before, pathlib.Path(place) / "folder")
                    wrap = self.strace(folder, slot, "-o", "/dev/null", "-e", f"inject=read:error=EIO:when={when}")
                    ended = self.run_program(words, folder=folder, wrap=wrap)
                    judge(ended, folder, None if at is None else (begin + at - self.first) // SMALL.r)

    def test_scrub(self):
        """It repairs this sector, and no other one."""

        def judge(ended, folder, stripe):
            says = "" if stripe is None else f"repaired stripe {stripe} cells 1"
            self.check_ended(ended, 0, says, lines(f"scrubbed {SMALL.stripes} stripes cells {int(stripe is not None)}"))
            self.check_ended(self.run_program(f"read 0 {SMALL.blocks}", folder=folder), 0, "", old())

        for slot in 5, 7:  # data with parities, and parities
            self.each_sector(old_array(), "scrub", slot, judge)

    def test_read(self):
        """Two devices are lost, so the stripe would be lost if the sectors beside this one were taken for bad."""
        folder = copy(old_array(), self.room / "less")
        for slot in 0, 1:
            image(folder, slot).unlink()
        self.run_program("read 0 0", folder=folder)

        def judge(ended, folder, stripe):
            self.check_ended(ended, 0, "", old())

        self.each_sector(folder, f"read 0 {SMALL.blocks}", 2, judge)
