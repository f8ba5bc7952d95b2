"""What suites of an array's commands share: lines that they expect, and steps on the array of a story."""
import os
import time

from fixture import FOUR, SEALED, Case, difference, filled, flip, image, images, lines, resize, sector

FF, AA = filled(0xFF), filled(0xAA)
GREATEST = 2**64 - 1  # the greatest number that the program takes


def wrote(count):
    """Returns what `write` puts out once it has written so many blocks."""
    return lines(f"wrote {count} blocks")


def digits(byte):
    """Returns the digits of a block that is filled with the byte of these two."""
    return byte * 512


def events(fenced=0, repaired=0, admitted=0, promoted=0):
    """Returns the line that counts events, the last one on standard error of a script."""
    return f"events: fenced {fenced} repaired {repaired} admitted {admitted} promoted {promoted}"


def bad(slot, count):
    """Returns the line on standard error on the bad sectors of a device."""
    return f"dev{slot:02}.img: {count} bad sector{'' if count == 1 else 's'}"


def short(slot, sectors, array):
    """Returns the line on an image file that has so many sectors, fewer than the array needs."""
    return f"dev{slot:02}.img: {SEALED * sectors} bytes, and the array needs {SEALED * array.sectors}"


def table(*volumes):
    """Returns the block that is the table of these volumes, each of which is its name, its first block and how many it has."""
    block = b"STAIRVT1" + bytes([len(volumes)]) + bytes(23)
    for volume in volumes:
        name, first, blocks = volume.split()
        high, low = divmod(int(blocks), 2**32)
        block += bytes([len(name)]) + name.encode().ljust(18, b"\0") + bytes([high]) + int(first).to_bytes(8, "big") + low.to_bytes(4, "big")
    return block.ljust(512, b"\0")


def listed(*volumes):
    """Returns what `vlist` puts out of these volumes."""
    return lines(*("{} first {} blocks {}".format(*volume.split()) for volume in volumes))


class Story(Case):
    """Cases whose steps are on the devices in `self.work`."""

    def lose(self, *slots):
        for slot in slots:
            image(self.work, slot).unlink()

    def insert(self, slot, sectors):
        """Puts a blank device into this slot."""
        resize(image(self.work, slot), sectors)

    def take_away(self, slot):
        os.rename(image(self.work, slot), self.room / "away")

    def reinsert(self, slot):
        os.rename(self.room / "away", image(self.work, slot))

    def damage(self, slot, number, at=0):
        """Inverts a byte of a sector of a device."""
        flip(image(self.work, slot), SEALED * number + at)

    def begin_flawed(self):
        """Begins with FOUR where all blocks are written, and a cell of stripe 0 and one of stripe 1 are damaged."""
        self.begin(FOUR.fresh)
        self.step("write 0 15", puts=wrote(15), input=filled(*range(1, 16)))
        self.damage(3, 11, 543)
        self.damage(2, 13)

    def past_superblocks(self):
        return {path.name: path.read_bytes()[2 * SEALED :] for path in images(self.work)}

    def same(self, wanted, found, case):
        """A case: these bytes, or results of `contents`, are the same."""
        with self.subTest(case):
            if not isinstance(wanted, dict):
                wanted, found = {"it": wanted}, {"it": found}
            self.assertEqual("", difference(wanted, found))

    def wait_for(self, slot, number, data):
        """Waits until a sector of a device has these bytes, for at most ten seconds."""
        end = time.monotonic() + 10
        while sector(image(self.work, slot), number) != data and time.monotonic() < end:
            time.sleep(0.01)
