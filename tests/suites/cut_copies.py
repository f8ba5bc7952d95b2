"""Commands that are cut off while a device fails, or before an opening without a device: none of the devices is an older copy."""
from epochs import *
from fixture import *

SLOW = True


class Failing(Epochs):
    """A write of a superblock fails, so its device is left out and the epoch is established in another round."""

    def test_each_superblock(self):
        for name, (before, words) in self.commands().items():
            for number in self.supers(before, words):
                with self.subTest(f"{name}: write {number} fails"):
                    for files in self.cuts(before, words, number):
                        self.expect_no_copy(files)
        print(f"writes that fail: {self.counted} folders")


class Reinserted(Epochs):
    """After the command one of the four devices is away during an opening, which is cut off, too. Then it is reinserted."""

    def judge(self, name):
        before, words = self.commands()[name]
        for number, files in enumerate(self.cuts(before, words)):
            files = {path: bytes(data) for path, data in files.items()}
            for slot in range(4):
                if f"dev{slot:02}.img" not in files:
                    continue
                with self.subTest(f"{name}: cut {number}, slot {slot} away"):
                    for later in self.cuts(without(files, slot), "read 0 1"):
                        self.expect_no_copy(with_device(later, slot, files[f"dev{slot:02}.img"]))
        print(f"{name}: {self.counted} folders")

    def test_an_opening(self):
        self.judge("an opening")

    def test_an_opening_without_a_device(self):
        self.judge("an opening without a device")

    def test_a_label(self):
        self.judge("a label")

    def test_a_replacement_by_the_device_itself(self):
        self.judge("a replacement by the device itself")

    def test_a_replacement_by_a_blank_device(self):
        self.judge("a replacement by a blank device")
