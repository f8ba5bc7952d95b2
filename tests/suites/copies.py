"""Devices that were copied at an earlier moment, and whose copies are put in their places later."""
import itertools
import subprocess

from common import *
from epochs import *
from fixture import *
from messages import BEGUN
from rounds import *

FOURS = Array(7, 4, 1, 2, [1], 3)
EIGHTS = Array(7, 8, 2, 4, [1, 1, 2], 2)
SIZE = 512
# Each command that opens an array, but for those with other inputs and lines.
OPENING = ["write 0 1", "read 0 1", "scrub", "replace 2", "rebuild", "freeze", "thaw", "label shelf", "exercise 0 1", "vinit", "vmake a 1"]
OPENING += ["vdrop a", "vlist", "vread a 0 1", "vwrite a 0 1"]


def blocks_of(array, age):
    return noise(age, SIZE * array.blocks)


def written(array, age):
    """Returns the folder of the array with old blocks, or of the same array once all blocks are new.

    The epoch of `create` is 1. The write of the old blocks establishes epoch 2, that of the new ones epoch 3."""

    def make(folder):
        copy(array.fresh if age == "old" else written(array, "old"), folder)
        command = [program(), ".", "write", "0", str(array.blocks)]
        subprocess.run(command, cwd=folder, input=blocks_of(array, age), stdout=subprocess.DEVNULL, check=True)

    return array.made(age, make)


def older(*slots, draw=2, epoch=3, few=True):
    """Returns the line on each of these slots, whose devices are older copies. Without them few enough are lost, or too many."""
    return [
        f"dev{slot:02}.img: older copy (draw {draw}, epoch {epoch}): "
        + (f"take it away, open the array once, then replace {slot}" if few else "too many to replace")
        for slot in slots
    ]


class Copies(Story):
    array = FOURS

    def put_back(self, slots):
        """Puts the old copies of these devices in their places."""
        for slot in slots:
            copy(image(written(self.array, "old"), slot), image(self.work, slot))

    def reads(self, age, says="", case=None):
        self.step(f"read 0 {self.array.blocks}", says=says, puts=blocks_of(self.array, age), case=case)

    def refused(self, words, says, first, *after, **how):
        """A case: the command ends with status 15 after these lines, takes no input, and changes nothing."""
        says = [*says, f"gone: slot {first}", *after]
        self.expect_in(self.work, self.work, words, 15, says, input=ONE, left=SIZE, case=words, **how)


class OfLiveDevices(Copies):
    """An older copy of a live device is reported. No command opens the array with it."""

    def test_sets_of_devices(self):
        for count in 1, 2, 3:
            for slots in itertools.combinations(range(4), count):
                self.begin(written(FOURS, "new"))
                self.put_back(slots)
                says = older(*slots, few=count == 1)
                with self.subTest(f"older copies of live devices: {slots}"):
                    self.step("show", says=says, puts=FOURS.shown(3, *FOURS.slots()))
                    self.step("read 0 1", 15, [*says, f"gone: slot {slots[0]}"])

    def test_all_devices(self):
        # This is the array as it was.
        self.begin(written(FOURS, "old"))
        self.step("show", puts=FOURS.shown(2, *FOURS.slots()))
        self.reads("old")

    def test_each_command(self):
        self.begin(written(FOURS, "new"))
        self.put_back([1])
        says = older(1)
        for words in OPENING:
            self.refused(words, says, 1)
        for words in "run", "guard 9 9":
            self.refused(words, says, 1, events())
        self.expect_in(self.work, self.work, "serve", 15, [*says, "gone: slot 1"], input=BEGUN, left=len(BEGUN), case="serve")
        self.expect_in(self.work, self.work, "create", 12, "array already: slot 0", input=FOURS.text, case="create")
        self.expect_in(self.work, self.work, "plan 4 1 2 1", 0, "", self.run_program("plan 4 1 2 1").out, case="plan")

    def test_with_other_devices_lost(self):
        self.array = EIGHTS
        self.begin(written(EIGHTS, "new"))
        self.put_back([1])
        self.lose(0)
        self.step("read 0 1", 15, [*older(1), "gone: slot 1"], case="one lost, and one copy")
        self.put_back([2])
        self.step("read 0 1", 15, [*older(1, 2, few=False), "gone: slot 1"], case="one lost, and two copies")
        self.lose(3, 4)
        whys = ", ".join(f"{slot} gone" for slot in (0, 3, 4))
        self.step("read 0 1", 9, [*EIGHTS.left(3, [0, 3, 4]), f"too few devices: {whys}"], case="three lost")


class Mended(Copies):
    """What the line says makes the array whole."""

    def mend(self, slots):
        self.put_back(slots)
        self.step("show", says=older(*slots), puts=self.array.shown(3, *self.array.slots()))
        self.lose(*slots)
        self.reads("new", [f"fenced {slot}" for slot in slots])
        self.put_back(slots)
        for slot in slots:
            self.step(f"replace {slot}", says=[f"admitted {slot}", f"promoted {slot}"], puts=lines(f"replaced {slot}"))
        self.reads("new")
        # Each opening, each admission and each promotion establishes an epoch: after 3 that of the read, and three for each slot.
        joined = {f"slot{slot}": f"live {6 + 3 * at}" for at, slot in enumerate(slots)}
        self.step("show", puts=self.array.shown(5 + 3 * len(slots), *self.array.slots(**joined)))
        lost = [slot for slot in range(self.array.n) if slot not in slots][: self.array.m]
        self.lose(*lost)
        self.reads("new", [f"fenced {slot}" for slot in lost])

    def test_each_of_four_devices(self):
        for slot in range(4):
            with self.subTest(f"slot {slot}"):
                self.begin(written(FOURS, "new"))
                self.mend([slot])

    def test_two_of_eight_devices(self):
        self.array = EIGHTS
        self.begin(written(EIGHTS, "new"))
        self.mend([1, 6])

    def test_the_newer_device_is_taken_away(self):
        # The others are the array as it was when they were copied. An empty device takes the place of that one.
        self.begin(written(FOURS, "new"))
        self.put_back([1, 2, 3])
        self.lose(0)
        self.reads("old", "fenced 0")
        self.insert(0, FOURS.sectors)
        self.step("replace 0", says=["admitted 0", "promoted 0"], puts=lines("replaced 0"))
        self.reads("old")


class NotReported(Copies):
    """What cannot be told from a device of the array."""

    def test_a_copy_of_this_epoch(self):
        # The script has opened the array once it replies. Its epoch is the newest one.
        self.begin(written(FOURS, "old"))
        old = blocks_of(FOURS, "old")
        talk = self.talk("run")
        talk.send(b"read 1\n")
        self.assertEqual(lines(f"1 {old[SIZE : 2 * SIZE].hex()}"), talk.line())
        kept = copy(image(self.work, 1), self.room / "copy")
        talk.send(lines(f"write 1 {digits('FF')}", f"write 2 {digits('FF')}"))
        talk.close_input()
        self.assertEqual((0, lines(events())), talk.end())
        copy(kept, image(self.work, 1))
        # Block 1 is on slot 1, and block 2 on slot 2.
        self.step("show", puts=FOURS.shown(3, *FOURS.slots()))
        self.step("read 0 3", puts=old[: 2 * SIZE] + FF)

    def test_a_copy_with_a_damaged_superblock(self):
        # So may damage leave a device that is no copy.
        for place in 0, 1:
            self.begin(written(FOURS, "new"))
            self.put_back([1])
            self.damage(1, place)
            self.step("show", puts=FOURS.shown(3, *FOURS.slots()), case=f"place {place}")


class OfDevicesThatAreDown(Copies):
    """Copies of devices that the array continued without, as many as it may lose, are left out: their slots stay down. With another
    device lost there are too few. This holds if the devices themselves are reinserted, too."""

    def judge(self, slots):
        self.begin(written(self.array, "old"))
        self.lose(*slots)
        says = [f"fenced {slot}" for slot in slots]
        self.step(f"write 0 {self.array.blocks}", says=says, puts=wrote(self.array.blocks), input=blocks_of(self.array, "new"))
        self.put_back(slots)
        self.reads("new")
        # that of `create`, of the write of the old blocks, of the new ones, and of the read
        self.step("show", puts=self.array.shown(4, *self.array.slots(**{f"slot{slot}": "down" for slot in slots})))
        other = next(slot for slot in range(self.array.n) if slot not in slots)
        self.lose(other)
        whys = {**{slot: "marked down" for slot in slots}, other: "gone"}
        says = "too few devices: " + ", ".join(f"{slot} {why}" for slot, why in sorted(whys.items()))
        # By the copies their slots were live in epoch 2, in which the old blocks were written.
        left = self.array.left(4, [other], {slot: 2 for slot in slots})
        self.step(f"read 0 {self.array.blocks}", 9, [*left, says])


class OfOneOfFour(OfDevicesThatAreDown):
    def test_each_device(self):
        for slot in range(4):
            with self.subTest(f"an older copy of a device that is down: {slot}"):
                self.judge([slot])


class OfTwoOfEight(OfDevicesThatAreDown):
    array = EIGHTS

    def test_each_pair(self):
        for slots in itertools.combinations(range(8), 2):
            with self.subTest(f"older copies of devices that are down: {slots}"):
                self.judge(slots)


class AfterCuts(Epochs):
    """Whatever a command leaves that is cut off, none of its devices is an older copy."""

    def test_each_command(self):
        for name, (before, words) in self.commands().items():
            with self.subTest(name):
                counted = self.counted
                for files in self.cuts(before, words):
                    self.expect_no_copy(files)
                # an opening writes at least six superblocks of three devices
                self.assertLess(counted + 12, self.counted)
