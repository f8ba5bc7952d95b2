"""What slow suites share: how many rounds they make, bytes that look random, and a folder in memory."""
import functools
import hashlib
import os
import pathlib
import random
import shutil
import tempfile

from arrays import copy, image


def rounds(default):
    """Returns how many rounds a slow suite makes: this number, or the value of the environment variable STAIR_ROUNDS."""
    return int(os.environ.get("STAIR_ROUNDS", default))


@functools.lru_cache(maxsize=8)
def noise(name, count):
    """Returns so many bytes that look random, always the same for a name."""
    return hashlib.shake_128(name.encode()).digest(count)


def in_memory(case):
    """Returns a new folder for a case. It is in memory where this machine has a gigabyte of room there: then a sync takes no time."""
    place = "/dev/shm"
    if not os.path.isdir(place) or not os.access(place, os.W_OK) or shutil.disk_usage(place).free < 2**30:
        place = case.room
    folder = tempfile.mkdtemp(prefix="stair-tests-", dir=place)
    case.addCleanup(shutil.rmtree, folder, ignore_errors=True)
    return pathlib.Path(folder)


def without_two(folder, target):
    """Makes a copy of a folder without a device of slots 0 to 3 and one of slots 4 to 7. Returns it, and the lines on these devices."""
    slots = random.randrange(4), random.randrange(4, 8)
    copy(folder, target)
    for slot in slots:
        image(target, slot).unlink()
    return target, [f"fenced {slot}" for slot in slots]
