"""The code of a stripe, and what is on a device and in block 0, as docs/on-disk.md and docs/reference.md define them.

The scripts `verify` and `salvage` and the tools of the tests use it. It shares nothing with the program.
Cell (i, j) of a stripe, row i of chunk j, has the number n*i + j."""
import functools
import hashlib
import typing

SIZE = 512  # bytes of a block, and of a sector's payload
SEALED = 544  # bytes of a sector on a device
MOST_SLOTS, MOST_SECTORS = 32, 4294967295
LIVE, REBUILDING, DOWN = 1, 2, 3


# THE FIELD


def product(a, b):
    """Returns the product of two polynomials over two elements, modulo x^8 + x^4 + x^3 + x^2 + 1."""
    result = 0
    for bit in range(8):
        if b >> bit & 1:
            result ^= a << bit
    for bit in range(14, 7, -1):
        if result >> bit & 1:
            result ^= 0x11D << bit - 8
    return result


PRODUCT = [bytes(product(a, b) for b in range(256)) for a in range(256)]
INVERSE = [None] + [row.index(1) for row in PRODUCT[1:]]


def scaled(data, factor):
    """Returns the product of each byte with a factor."""
    return data if factor == 1 else data.translate(PRODUCT[factor])


def number_of(data):
    """Returns bytes as a number, so that xor adds them."""
    return int.from_bytes(data, "little")


def combined(factors, parts):
    """Returns the sum of strings of bytes, each times its factor, as a number. Parts that are None do not count."""
    total = 0
    for factor, part in zip(factors, parts):
        if factor and part is not None:
            total ^= number_of(scaled(part, factor))
    return total


def eliminated(rows, columns):
    """Eliminates these columns from rows of coefficients, by Gauss and Jordan.

    Returns the pivot rows by column, and the other rows by their number. The row of a column has 1 there, and every other row has 0.
    A column has no pivot row if the rows do not determine it apart from the columns before it; the other rows have 0 there too."""
    pivots, rest = {}, dict(enumerate(rows))
    for column in columns:
        number = next((number for number, row in rest.items() if row[column]), None)
        if number is None:
            continue
        pivot = rest.pop(number)
        pivot = scaled(pivot, INVERSE[pivot[column]])
        for group in pivots, rest:
            for key, row in group.items():
                if row[column]:
                    group[key] = (number_of(row) ^ number_of(scaled(pivot, row[column]))).to_bytes(len(row), "little")
        pivots[column] = pivot
    return pivots, rest


# THE CODE


def equations(n, m, r, e):
    """Yields the rows of coefficients over all cells whose sums are zero in a codeword: those of the row parities, by row and
    parity, and then those of the global parities, by entry of e."""
    data = n - m
    row_matrix = [[INVERSE[data + k ^ j] for j in range(data)] for k in range(m + len(e))]
    column_matrix = [[INVERSE[r + h ^ i] for i in range(r)] for h in range(e[-1])]
    for i in range(r):
        for k in range(m):
            row = bytearray(r * n)
            row[i * n : i * n + data] = row_matrix[k]
            row[i * n + data + k] = 1
            yield bytes(row)
    for l in range(len(e)):
        for h in range(e[l]):
            row = bytearray(r * n)
            for i in range(r):
                row[i * n : i * n + data] = scaled(bytes(row_matrix[m + l]), column_matrix[h][i])
            yield bytes(row)


def equation_names(n, m, r, e):
    """Returns the name of each equation, in the words of `check`."""
    return [f"row {i} parity {k}" for i in range(r) for k in range(m)] + [f"global {l} {h}" for l in range(len(e)) for h in range(e[l])]


def is_parity(n, m, r, e, cell):
    """Returns whether a cell holds a row parity or a global parity."""
    i, j = divmod(cell, n)
    l = j - (n - m - len(e))
    return j >= n - m or 0 <= l and i >= r - e[l]


class Geometry(typing.NamedTuple):
    """The numbers of an array. The vector e is a tuple."""

    n: int
    m: int
    r: int
    e: tuple
    stripes: int

    @property
    def data_cells(self):
        """The cells that hold the blocks of a stripe, in order."""
        return [cell for cell in range(self.n * self.r) if not is_parity(*self[:4], cell)]

    @property
    def blocks(self):
        return self.stripes * (self.r * (self.n - self.m) - sum(self.e))

    @property
    def sectors(self):
        """How many sectors the array needs on each device."""
        return 3 + self.n * self.r + self.stripes * self.r

    def sector(self, stripe, row):
        """Returns the sector of a cell, on the device of its chunk."""
        return 3 + self.n * self.r + self.r * stripe + row

    def keeps_limits(self):
        n, m, r, e, stripes = self
        return (
            3 <= n <= MOST_SLOTS
            and m >= 1
            and n > 2 * m
            and 1 <= len(e) <= n - m
            and 1 <= r <= 32
            and all(1 <= entry <= r for entry in e)
            and list(e) == sorted(e)
            and r * (n - m) > sum(e)
            and stripes >= 1
            and self.sectors <= MOST_SECTORS
        )


def is_large(n, r, stripes):
    """Returns whether only a geometry text with `large = true` may have so many stripes."""
    return stripes > 65536 or n * r * stripes > 4194304


class Code:
    """The equations of a geometry, solved for cells that are erased.

    Erased cells are a tuple of cells in rising order. Contents are a list that has bytes for each cell that is held, all of one length,
    and None for each that is erased."""

    def __init__(self, n, m, r, e):
        self.n, self.r = n, r
        self.rows, self.names = list(equations(n, m, r, e)), equation_names(n, m, r, e)
        self.parities, _ = eliminated(self.rows, [cell for cell in range(n * r) if is_parity(n, m, r, e, cell)])
        self.without = functools.lru_cache(maxsize=256)(lambda erased: eliminated(self.rows, erased))
        self.shows_changes = functools.lru_cache(maxsize=256)(self.find_whether_it_shows_changes)

    def restored(self, erased, cells):
        """Returns the contents of each erased cell that the held ones determine."""
        pivots, _ = self.without(erased)
        free = [cell for cell in erased if cell not in pivots]
        size = next((len(it) for it in cells if it is not None), 0)
        return {cell: combined(row, cells).to_bytes(size, "little") for cell, row in pivots.items() if not any(row[it] for it in free)}

    def checks(self, erased):
        """Returns the equations that the held cells have to meet by themselves, by number."""
        return self.without(erased)[1]

    def broken(self, erased, cells):
        """Returns the sum of each of these equations that is not zero."""
        size = next((len(it) for it in cells if it is not None), 0)
        sums = {number: combined(row, cells) for number, row in self.checks(erased).items()}
        return {number: total.to_bytes(size, "little") for number, total in sums.items() if total}

    def find_whether_it_shows_changes(self, erased, cells):
        """Returns whether these held cells have to be current if all equations hold that the held cells meet by themselves: a change of
        any one block that they depend on breaks one of these, if they alone stay as they were."""
        for block in range(self.n * self.r):
            factors = [self.parities[cell][block] if cell in self.parities else int(cell == block) for cell in cells]
            if block not in self.parities and any(factors) and not any(
                functools.reduce(int.__xor__, (PRODUCT[row[cell]][factor] for cell, factor in zip(cells, factors)))
                for row in self.checks(erased).values()
            ):
                return False
        return True

    def name(self, erased, number):
        """Returns the name of an equation, and whether erased cells were eliminated from it."""
        return self.names[number] + (" reduced" if self.checks(erased)[number] != self.rows[number] else "")

    def wrong(self, erased, broken):
        """Returns the held cells of a stripe that are wrong, or an empty list if the broken equations do not single them out.

        These are the least that explain the sums: one cell, else cells of one chunk, else one cell in each row whose own equations are
        broken. They are singled out if no other cell, chunk or choice explains the sums too."""
        checks = self.checks(erased)
        held = [cell for cell in range(self.n * self.r) if cell not in erased]
        chunks = ([cell for cell in held if cell % self.n == chunk] for chunk in range(self.n))
        for choices in ([cell] for cell in held), chunks, self.one_in_each_row(checks, broken, held):
            found = [it for it in (errors(checks, broken, choice) for choice in choices) if it is not None]
            if found:
                return sorted(found[0]) if len(found) == 1 else []
        return []

    def one_in_each_row(self, checks, broken, held, most=1000):
        """Yields the choices of one cell in each row whose own equations are broken, or none if there are more than `most`."""
        choices = [[]]
        for row in range(self.r):
            begin, end = self.n * row, self.n * row + self.n
            own = {number: it for number, it in checks.items() if not any(it[:begin]) and not any(it[end:])}
            if any(number in broken for number in own):
                cells = [cell for cell in held if begin <= cell < end and errors(own, broken, [cell]) is not None]
                choices = [[*choice, cell] for choice in choices for cell in cells]
                if len(choices) > most:
                    return
        yield from choices


def errors(checks, broken, cells):
    """Returns what is wrong in these cells if no others are: what has to be added to each that is wrong, or nothing if the equations
    do not tell. Returns None if that does not explain the sums of the broken equations."""
    if len(cells) == 1 and any((row[cells[0]] != 0) != (number in broken) for number, row in checks.items()):
        return None
    zeros = bytes(len(next(iter(broken.values()))))
    rows = [bytes(row[cell] for cell in cells) + broken.get(number, zeros) for number, row in checks.items()]
    pivots, rest = eliminated(rows, range(len(cells)))
    if any(map(number_of, rest.values())):
        return None
    found = {cell: pivots[at][len(cells) :] for at, cell in enumerate(cells) if len(pivots) == len(cells)}
    return {cell: error for cell, error in found.items() if number_of(error)}


# SECTORS


def sealed(number, payload):
    """Returns the bytes of a sector on a device: the payload, and its tag."""
    return payload + hashlib.sha256(number.to_bytes(8, "big") + payload).digest()


def unsealed(number, data):
    """Returns the payload of a sector, or None if its tag differs or it is not whole."""
    return data[:SIZE] if len(data) == SEALED and sealed(number, data[:SIZE]) == data else None


def big(data):
    return int.from_bytes(data, "big")


class Superblock(typing.NamedTuple):
    """What a superblock says. Each of the 32 entries is the mark of a slot, and the epoch in which its device was admitted."""

    identity: bytes
    geometry: Geometry
    slot: int
    admitted: int
    draw: int
    epoch: int
    entries: tuple
    frozen: int
    label: bytes


def superblock_of(data):
    """Returns the superblock that a payload is, or None."""
    version = {b"STAIRSB1": 1, b"STAIRSB2": 2, b"STAIRSB3": 3}.get(bytes(data[:8]))
    if version is None:
        return None
    n, m, r, classes = data[24:28]
    geometry = Geometry(n, m, r, tuple(data[28 : 28 + classes]), big(data[60:64]))
    if classes > 32 or not geometry.keeps_limits() or is_large(n, r, geometry.stripes) != (version == 3):
        return None
    slot, admitted, draw, epoch = data[64], big(data[72:80]), big(data[80:88]), big(data[88:96])
    entries = [(data[96 + 9 * j], big(data[97 + 9 * j : 105 + 9 * j])) for j in range(n)]
    named = set(range(28 + classes)) | set(range(60, 65)) | set(range(72, 96 + 9 * n))
    frozen, label = 0, b""
    if version >= 2:
        frozen, label = data[384], bytes(data[386 : 386 + data[385]])
        named |= set(range(384, 386 + data[385]))
        if frozen > 1 or data[385] > 64 or any(not 0x20 <= byte <= 0x7E for byte in label):
            return None
    if any(data[at] for at in range(SIZE) if at not in named):
        return None
    for mark, since in entries:
        if mark not in (LIVE, REBUILDING, DOWN) or not (since == 0 if mark == DOWN else 1 <= since <= epoch):
            return None
    if slot >= n or not 1 <= epoch <= draw or entries[slot][0] == DOWN or entries[slot][1] != admitted:
        return None
    entries += [(DOWN, 0)] * (MOST_SLOTS - n)
    return Superblock(bytes(data[8:24]), geometry, slot, admitted, draw, epoch, tuple(entries), frozen, label)


def redo_of(data, geometry):
    """Returns the stripe and the cells that an open gate names, or None if a payload is no open gate of this geometry."""
    stripe, cells = big(data[12:16]), [cell for cell in range(1024) if data[16 + cell // 8] >> 7 - cell % 8 & 1]
    is_whole = data[:12] == b"STAIRGT1\1\0\0\0" and not any(data[144:])
    if is_whole and stripe < geometry.stripes and cells and cells[-1] < geometry.n * geometry.r:
        return stripe, cells
    return None


class Volume(typing.NamedTuple):
    name: str
    first: int
    blocks: int


NAME_BYTES = frozenset(b"abcdefghijklmnopqrstuvwxyz0123456789_")


def volumes_of(data, blocks):
    """Returns the volumes of the table that block 0 is, or None if it is no table of an array of so many blocks."""
    if data[:8] != b"STAIRVT1" or data[8] > 15:
        return None
    named, found = set(range(9)), []
    for entry in range(32, 32 + 32 * data[8], 32):
        name = data[entry + 1 : entry + 1 + data[entry]]
        if not 1 <= data[entry] <= 16 or not NAME_BYTES.issuperset(name):
            return None
        named |= {entry} | set(range(entry + 1, entry + 1 + data[entry])) | set(range(entry + 19, entry + 32))
        found.append(Volume(name.decode(), big(data[entry + 20 : entry + 28]), data[entry + 19] << 32 | big(data[entry + 28 : entry + 32])))
    if any(data[at] for at in range(SIZE) if at not in named) or len({it.name for it in found}) < len(found):
        return None
    if any(it.first < 1 or it.blocks < 1 or it.first + it.blocks > blocks for it in found):
        return None
    in_order = sorted(found, key=lambda it: it.first)
    if any(one.first + one.blocks > other.first for one, other in zip(in_order, in_order[1:])):
        return None
    return found
