"""Bytes, image files, and the arrays that the suites share."""
import atexit
import functools
import importlib.machinery
import importlib.util
import os
import pathlib
import shutil
import tempfile

TOP = pathlib.Path(__file__).resolve().parent.parent
TOOLS = TOP / "tests" / "tools"
SEALED = 544  # bytes of an image file for a sector of 512 bytes


@functools.lru_cache(maxsize=None)
def tool(name):
    """Returns a program of tests/tools as a module."""
    loader = importlib.machinery.SourceFileLoader(f"tools_{name}", str(TOOLS / name))
    module = importlib.util.module_from_spec(importlib.util.spec_from_loader(loader.name, loader))
    loader.exec_module(module)
    return module


# BYTES AND FILES


def lines(*texts):
    """Returns these lines, each with its end."""
    return b"".join((text if isinstance(text, bytes) else text.encode()) + b"\n" for text in texts)


def filled(*numbers):
    """Returns a block of 512 bytes for each number, filled with this byte."""
    return b"".join(bytes([number]) * 512 for number in numbers)


def cells(digits):
    """Returns a block for each pair of hexadecimal digits, as `01 00 F4`, filled with this byte."""
    return filled(*bytes.fromhex(digits))


def with_byte(data, at, value):
    """Returns the bytes with another one at this offset."""
    return data[:at] + bytes([value]) + data[at + 1 :]


def set_byte(path, at, value):
    """Makes the byte of a file at this offset another one."""
    with open(path, "r+b") as file:
        file.seek(at)
        file.write(bytes([value]))


def flip(path, at):
    """Inverts the byte of a file at this offset."""
    with open(path, "rb") as file:
        file.seek(at)
        old = file.read(1)
    set_byte(path, at, old[0] ^ 255)


def sector(path, number):
    """Returns the 512 bytes of a sector of an image file."""
    with open(path, "rb") as file:
        file.seek(SEALED * number)
        return file.read(512)


def image(folder, slot):
    return pathlib.Path(folder) / f"dev{slot:02}.img"


def images(folder):
    return sorted(pathlib.Path(folder).glob("dev??.img"))


def blank(folder, n, sectors):
    """Makes n image files of so many sectors, of which none was written."""
    folder = pathlib.Path(folder)
    folder.mkdir(exist_ok=True)
    for slot in range(n):
        resize(image(folder, slot), sectors)
    return folder


def resize(path, sectors, more=0):
    """Gives a file, which is made where there is none, the size of so many sectors and bytes."""
    with open(path, "ab") as file:
        file.truncate(SEALED * sectors + more)


def patch(place, words):
    """Changes sectors of an image file, or of each image file of a folder: the arguments are those of tests/tools/patch."""
    tool("patch").main(str(place), words.split())
    return place


def opened(folder, changes=""):
    """Changes a new array as its first opening does: a draw in the second superblock of each device, and then epoch 2, with these
    changes, in the first one."""
    return patch(folder, f"1 87=02 then 0 87=02 95=02 {changes}")


def copy(source, target):
    """Copies a folder or a file, links as links."""
    if os.path.isdir(source):
        return pathlib.Path(shutil.copytree(source, target, symlinks=True))
    return pathlib.Path(shutil.copy(source, target))


def contents(folder):
    """Returns what is in a folder: for each path the bytes of a file, or what else it is."""
    found = {}
    for path in sorted(pathlib.Path(folder).rglob("*")):
        if path.is_symlink():
            what = f"link to {os.readlink(path)}"
        elif path.is_file():
            what = path.read_bytes()
        else:
            what = "folder" if path.is_dir() else "other"
        found[str(path.relative_to(folder))] = what
    return found


def difference(wanted, found):
    """Returns how two results of `contents` differ, in words, or an empty text."""
    said = [f"{path} is missing" for path in wanted if path not in found]
    said += [f"{path} is new" for path in found if path not in wanted]
    for path in wanted:
        one, other = wanted[path], found.get(path, wanted[path])
        if one != other:
            said.append(f"{path}: {bytes_differ(one, other) if bytes is type(one) is type(other) else f'{other!r:.60}, not {one!r:.60}'}")
    return "\n".join(said)


def bytes_differ(wanted, found):
    """Returns the first difference of two strings of bytes, in words."""
    at = next((at for at, (one, other) in enumerate(zip(wanted, found)) if one != other), min(len(wanted), len(found)))
    return (
        f"{len(found)} bytes, not {len(wanted)}; the first difference is at {at} (sector {at // SEALED}, offset {at % SEALED}): "
        f"{found[at : at + 12]!r}, not {wanted[at : at + 12]!r}"
    )


# ARRAYS

LARGE_KEY = lines("large = true")


@functools.lru_cache(maxsize=None)
def shared():
    """Returns the folder of what is made once for all cases of this process."""
    folder = tempfile.mkdtemp(prefix="shared-")
    os.chmod(folder, 0o755)
    owner = os.getpid()
    atexit.register(lambda: os.getpid() == owner and shutil.rmtree(folder, ignore_errors=True))
    return pathlib.Path(folder)


def once(make):
    """Turns a function that makes a folder at a given path into one that returns this folder. A process makes it once: copy it,
    never change it."""

    @functools.lru_cache(maxsize=None)
    def made():
        folder = shared() / f"{make.__module__}.{make.__qualname__}"
        make(folder)
        return folder

    made.__doc__ = make.__doc__
    return made


@once
def empty(folder):
    """An empty folder."""
    folder.mkdir()


class Array:
    """A geometry, and the folders of image files of an array that has it. The folders are shared: copy them, never change them.

    Its text has the key `large` if it needs it."""

    def __init__(self, number, n, m, r, e, stripes):
        self.number, self.n, self.m, self.r, self.e, self.stripes = number, n, m, r, e, stripes
        self.identity = f"{number:032x}"
        self.sectors = 3 + n * r + stripes * r
        self.blocks = stripes * (r * (n - m) - sum(e))
        self.words = " ".join(map(str, (n, m, r, *e)))
        self.text = lines(
            f"n = {n}", f"m = {m}", f"r = {r}", f"e = {e}", f"stripes = {stripes}", f'id = "{self.identity}"'
        )
        if tool("fresh").is_large(n, r, stripes):
            self.text += LARGE_KEY
        self.created = lines(f"created {self.identity} blocks {self.blocks}")

    def shown(self, epoch, *rest):
        """Returns what `show` puts out: the array, its geometry, the epoch, and the rest of the lines."""
        shape = " ".join(map(str, self.e))
        return lines(
            f"array {self.identity}",
            f"geometry n {self.n} m {self.m} r {self.r} e {shape} stripes {self.stripes} blocks {self.blocks}",
            f"epoch {epoch}",
            *rest,
        )

    def slots(self, **changed):
        """Returns the lines of `show` for the slots: all live since epoch 1, except those that are named, as slot2="down"."""
        return [f"slot {slot} " + changed.get(f"slot{slot}", "live 1") for slot in range(self.n)]

    def left(self, epoch, missing=(), down=None):
        """Returns the lines of standard error on an array of which too few devices are left: slots that are missing, and those that are
        down, each with the last epoch in which it was live."""
        shape = " ".join(map(str, self.e))
        head = f"array {self.identity}: n {self.n} m {self.m} r {self.r} e {shape} stripes {self.stripes}, epoch {epoch}"
        lives = {**{slot: ("missing", epoch) for slot in missing}, **{slot: ("down", last) for slot, last in (down or {}).items()}}
        return [head, *(f"{what}: slot {slot}, last live in epoch {last}" for slot, (what, last) in sorted(lives.items()))]

    def made(self, name, make):
        folder = shared() / f"{self.number} {self.words} {self.stripes} {name}"
        if not folder.exists():
            make(folder)
        return folder

    @property
    def blank(self):
        """The folder of devices on which nothing was written."""
        return self.made("blank", lambda folder: blank(folder, self.n, self.sectors))

    @property
    def fresh(self):
        """The folder of a new array, by tests/tools/fresh."""

        def make(folder):
            folder.mkdir()
            tool("fresh").write_images(str(folder), bytes.fromhex(self.identity), self.stripes, self.n, self.m, self.r, *self.e)

        return self.made("fresh", make)

    def superblock(self, slot):
        """Returns the first superblock of a slot, by tests/tools/fresh."""
        return tool("fresh").superblock(slot, bytes.fromhex(self.identity), self.n, self.m, self.r, self.e, self.stripes)

    def put_superblocks(self, folder):
        """Writes the first superblocks to both places of each image file of a folder, and nothing else."""
        for slot in range(self.n):
            patch(image(folder, slot), f"0,1 0={self.superblock(slot).hex()}")
        return folder

    @property
    def opened(self):
        """The folder of the new array once it was opened."""
        return self.made("opened", lambda folder: opened(copy(self.fresh, folder)))


# Of four and of eight devices, of 17 and of 291 sectors, one of 32, and another one of eight with the same geometry.
FOUR = Array(4, 4, 1, 2, [1], 3)
EIGHT = Array(8, 8, 2, 4, [1, 1, 2], 64)
MANY = Array(4, 32, 1, 2, [1], 1)
OTHER = Array(9, 8, 2, 4, [1, 1, 2], 64)

# Two large ones: three devices with a stripe more than they may have without `large = true`, of 107 MB together, and four devices with
# as many stripes as they may have. The files of these four are 2.34 TB long, so they are made sparse, and never copied or read as a whole.
LARGE = Array(6, 3, 1, 1, [1], 65537)
LARGEST = Array(7, 4, 1, 1, [1], 4294967288)

# The blocks 01 00 00 00 00 of FOUR and their stripe, by hand: 1/3 = F4 in the first row parity, and the global parity and its row
# parity 46.
BLOCKS = cells("01 00 00 00 00")
STRIPE = cells("01 00 00 F4 00 00 46 46")
ONE, ZERO = cells("01"), cells("00")
CODEWORD = b"codeword\n"


# FOLDERS OF FOUR DEVICES


@once
def bodies(folder):
    """FOUR, opened, with the redo of block 0 in the body of each device: its cell, the row parity of its row, and the global parity
    and its row parity, by hand as for STRIPE."""
    patch(copy(FOUR.opened, folder), "3 0=01*512 then 6 0=F4*512 then 9,10 0=46*512")


@once
def written(folder):
    """FOUR after a write of 01 to block 0: its cell on slot 0, the row parities on slot 3, and the global parity on slot 2."""
    copy(bodies(), folder)
    patch(image(folder, 0), "11 0=01*512")
    patch(image(folder, 2), "12 0=46*512")
    patch(image(folder, 3), "11 0=F4*512 then 12 0=46*512")


@once
def frozen(folder):
    """FOUR with the frozen mark in both superblocks of each device."""
    patch(copy(FOUR.fresh, folder), "0,1 384=01")


@once
def opened_frozen(folder):
    opened(copy(frozen(), folder))


@once
def cut(folder):
    """FOUR where a write of block 0 was cut off with the gate of slot 2 open and the bodies whole, but before its cells."""
    patch(copy(bodies(), folder), "0 87=01 95=01 then 1 87=01")
    patch(image(folder, 2), "2 8=01 16=93")


@once
def two_left(folder):
    """FOUR without slots 0 and 1."""
    copy(FOUR.fresh, folder)
    for slot in 0, 1:
        image(folder, slot).unlink()


@once
def one_left(folder):
    """FOUR with slot 3 alone."""
    copy(two_left(), folder)
    image(folder, 2).unlink()


@once
def two_arrays(folder):
    """Five devices of EIGHT and three of another array with its geometry."""
    copy(EIGHT.fresh, folder)
    for slot in 5, 6, 7:
        copy(image(OTHER.fresh, slot), image(folder, slot))


@once
def spent(folder):
    """FOUR with the last draw that there is on slot 2."""
    patch(image(copy(FOUR.fresh, folder), 2), "1 80=FFFFFFFFFFFFFFFF")


@once
def read_only(folder):
    """FOUR whose files may only be read."""
    for path in images(copy(FOUR.fresh, folder)):
        path.chmod(0o444)
