"""The devices of an array, read and never written: which are live, and the cells of each stripe as the next opening finds them."""
import errno
import fcntl
import os
import signal
import stat
import sys
import time
import typing

from formats import DOWN, LIVE, MOST_SECTORS, MOST_SLOTS, REBUILDING, SEALED, redo_of, superblock_of, unsealed

# Reasons that are the caller's, and not the device's.
CALLERS = {errno.EACCES, errno.EPERM, errno.EMFILE, errno.ENFILE, errno.ENOMEM}
BATCH = 2**22  # bytes of cells that are read at once, or one stripe

# Why a slot's device may hold blocks of the array that are not the live ones.
STALE = {"no superblock", "marked down", "other joined", "rebuilding", "older copy"}


def end_by_signals():
    """Lets an interrupt, or an output that is closed, end the script without a traceback."""
    for number in signal.SIGINT, signal.SIGPIPE:
        signal.signal(number, signal.SIG_DFL)


class Refused(Exception):
    """The array cannot be read, for a reason."""


# What clears a line of a terminal.
CLEARED = "\r\033[K"


def clear():
    if sys.stderr.isatty():
        print(CLEARED, end="", file=sys.stderr, flush=True)


def say(line):
    clear()
    print(line, file=sys.stderr, flush=True)


def lock(file, path):
    """Shares a lock, so that no command opens the array meanwhile. A file system may have none."""
    try:
        fcntl.flock(file, fcntl.LOCK_SH | fcntl.LOCK_NB)
    except BlockingIOError:
        raise Refused(f"{path}: in use") from None
    except OSError:
        say(f"{path}: no locks")


class Device:
    """An image file or a block device."""

    def __init__(self, path):
        self.file = os.open(path, os.O_RDONLY | os.O_CLOEXEC)
        lock(self.file, path)
        self.sectors = min(os.lseek(self.file, 0, os.SEEK_END) // SEALED, MOST_SECTORS)

    def bytes_of(self, first, count):
        """Returns the bytes of these sectors, or fewer if the device ends."""
        data, left = b"", SEALED * count
        while left and (piece := os.pread(self.file, left, SEALED * first + len(data))):
            data, left = data + piece, left - len(piece)
        return data

    def read(self, first, count):
        """Returns the payload of each of these sectors, or None for one that is bad."""
        try:
            data = self.bytes_of(first, count)
        except OSError:
            return [None] if count == 1 else [it for number in range(first, first + count) for it in self.read(number, 1)]
        return [unsealed(first + at, data[SEALED * at : SEALED * at + SEALED]) for at in range(count)]


def opened(path):
    """Returns the device of a path, or None if there is none."""
    try:
        mode = os.stat(path).st_mode
        if not stat.S_ISREG(mode) and not stat.S_ISBLK(mode):
            say(f"{os.path.basename(path)}: not a device")
            return None
        return Device(path)
    except FileNotFoundError:
        return None
    except OSError as why:
        if why.errno in CALLERS:
            raise Refused(f"{os.path.basename(path)}: {why.strerror}") from None
        say(f"{os.path.basename(path)}: {why.strerror}")
        return None


class Slot(typing.NamedTuple):
    """A slot's device, its newest superblock, and whether both places of superblocks can be read."""

    device: Device
    superblock: object
    is_whole: bool

    def belongs(self, slot, kind):
        """Returns whether the device counts for an array, which is its identity and its geometry."""
        return self.superblock is not None and self.superblock[:2] == kind and self.superblock.slot == slot

    def why_not(self, slot, kind, current):
        """Returns why the device is not the live one of its slot by the current superblock, or None if it is."""
        if self.device is None:
            return "gone"
        own = self.superblock
        if own is None:
            return "no superblock"
        if own[:2] != kind:
            return "other array"
        if own.slot != slot:
            return "other slot"
        mark, admitted = current.entries[slot]
        if mark == DOWN:
            return "marked down"
        if own.admitted != admitted:
            return "other joined"
        if mark == REBUILDING:
            return "rebuilding"
        # The draw of an epoch is synced on every live device before a superblock of this epoch is written anywhere.
        if self.is_whole and own.entries[slot][0] == LIVE and own.draw < current.epoch:
            return "older copy"
        return None


def slot_of(device):
    """Returns what is in a slot that has this device or None."""
    if device is None:
        return Slot(None, None, False)
    places = device.read(0, 2)
    found = [superblock_of(it) for it in places if it is not None]
    newest = max((it for it in found if it), key=lambda it: (it.draw, it.epoch), default=None)
    return Slot(device, newest, None not in places)


def survey(folder):
    """Locks a folder and returns what is in its slots."""
    try:
        lock(os.open(folder, os.O_RDONLY | os.O_DIRECTORY | os.O_CLOEXEC), folder)
    except OSError as why:
        raise Refused(f"{folder}: {why.strerror}") from None
    return [slot_of(opened(os.path.join(folder, f"dev{slot:02}.img"))) for slot in range(MOST_SLOTS)]


def kinds_of(slots):
    """Returns the slots that count for each array, an array being its identity and its geometry."""
    found = {}
    for slot, it in enumerate(slots):
        if it.superblock and it.superblock.slot == slot:
            found.setdefault(it.superblock[:2], []).append(slot)
    return found


class Array:
    """An array, the devices of its live slots, and why the other slots are not live."""

    def __init__(self, slots, kind):
        self.identity, self.geometry = kind
        counting = [it.superblock for slot, it in enumerate(slots) if it.belongs(slot, kind)]
        self.current = max(counting, key=lambda it: it.epoch)  # the first one of the greatest epoch
        self.superblocks = [it.superblock for it in slots]
        self.live, self.whys, self.stale = {}, {}, {}
        for slot, it in enumerate(slots[: self.geometry.n]):
            why = it.why_not(slot, kind, self.current)
            if why is None:
                self.live[slot] = it.device
                continue
            self.whys[slot] = why
            if why in STALE:
                self.stale[slot] = it.device
        self.redo = self.read_redo()

    def name(self, slot):
        return f"dev{slot:02}.img"

    def say_slots(self):
        """Reports each slot that is not live, and why."""
        for slot, why in self.whys.items():
            if why == "older copy":
                why += f" (draw {self.superblocks[slot].draw}, epoch {self.current.epoch})"
            say(f"{self.name(slot)}: {why}")

    def read_redo(self):
        """Returns what the next opening writes of a write that was cut off: its stripe, and the bytes of each cell. A cell whose
        sector in the journal no live device has is None. Returns None if no write is in doubt."""
        n = self.geometry.n
        for device in self.live.values():
            gate = device.read(2, 1)[0]
            redo = gate and redo_of(gate, self.geometry)
            if redo:
                stripe, cells = redo
                copies = ((cell, (device.read(3 + cell, 1)[0] for device in self.live.values())) for cell in cells)
                return stripe, {cell: next((it for it in found if it is not None), None) for cell, found in copies}
        return None

    @property
    def journal_lost(self):
        """The sectors of the journal that the write in doubt needs and no live device has."""
        return [3 + cell for cell, data in self.redo[1].items() if data is None] if self.redo else []

    def say_redo(self):
        """Reports a write that is in doubt."""
        if self.redo:
            say(f"stripe {self.redo[0]}: a write was cut off, and counts as done")
        for number in self.journal_lost:
            say(f"journal lost: sector {number}")

    def cells(self, first, end, devices):
        """Returns the cells of these stripes from devices by slot, without the journal: a list for each stripe."""
        n, r = self.geometry.n, self.geometry.r
        columns = [devices[j].read(self.geometry.sector(first, 0), r * (end - first)) if j in devices else None for j in range(n)]
        return [[column and column[r * at + i] for i in range(r) for column in columns] for at in range(end - first)]

    def stripes(self, first, end):
        """Yields stripes in batches: the first one's number, and a list of the cells of each, with None for a cell that is on no live
        device or cannot be read."""
        size = max(1, BATCH // (SEALED * self.geometry.n * self.geometry.r))
        for begin in range(first, end, size):
            batch = self.cells(begin, min(begin + size, end), self.live)
            if self.redo and begin <= self.redo[0] < begin + len(batch):
                for cell, data in self.redo[1].items():
                    batch[self.redo[0] - begin][cell] = data
            yield begin, batch


def grouped(batch):
    """Returns the places in a batch of the stripes that lack the same cells, by these cells."""
    groups = {}
    for at, cells in enumerate(batch):
        groups.setdefault(tuple(cell for cell, data in enumerate(cells) if data is None), []).append(at)
    return groups


def joined(batch, places):
    """Returns the cells of these stripes as if they were one: the bytes of each cell one stripe after the other."""
    return [None if parts[0] is None else b"".join(parts) for parts in zip(*(batch[at] for at in places))]


class Progress:
    """After a second, a line on a terminal that says how far a script is. It is cleared before any other line, and at the end."""

    def __init__(self, total):
        self.total, self.is_terminal, self.next = total, sys.stderr.isatty(), time.monotonic() + 1

    def show(self, done):
        if self.is_terminal and time.monotonic() > self.next:
            self.next = time.monotonic() + 0.2
            print(f"{CLEARED}{done} of {self.total} stripes", end="", file=sys.stderr, flush=True)
