"""What suites of the scripts `verify` and `salvage` share: arrays whose blocks were all written twice, and old sectors that are put back."""
import sys

from common import Story, wrote
from fixture import SEALED, TOP, Array, copy, image, shared
from rounds import noise

# With a stripe for each cell, and one more.
SHAPES = (4, 1, 2, [1]), (8, 2, 4, [1, 1, 2]), (5, 2, 3, [1, 2]), (6, 1, 4, [2, 3]), (7, 3, 1, [1]), (4, 1, 3, [2])
ARRAYS = [Array(0x80 + at, n, m, r, e, n * r + 1) for at, (n, m, r, e) in enumerate(SHAPES)]
SMALL, WIDE = ARRAYS[:2]


def sector_of(array, stripe, row):
    return 3 + array.n * array.r + array.r * stripe + row


def put_back(folder, old, array, stripe, row, slot):
    """Puts an old sector of a cell back, with its tag."""
    at = SEALED * sector_of(array, stripe, row)
    with open(image(old, slot), "rb") as source, open(image(folder, slot), "r+b") as target:
        source.seek(at)
        target.seek(at)
        target.write(source.read(SEALED))


class Beyond(Story):
    def script(self, name, *words, wrap=(), **how):
        """Runs a script in `self.work`, as `run_command` does."""
        return self.run_command([*wrap, sys.executable, "-B", str(TOP / "scripts" / name), *words], folder=self.work, **how)

    def begin_written(self, array):
        """Begins with an array whose blocks were all written twice. Returns the folder as it was between the two."""
        old, new = (shared() / f"verify {array.number} {name}" for name in ("old", "new"))
        if not new.exists():
            self.begin(array.fresh)
            for name, folder in ("old", old), ("new", new):
                self.step(f"write 0 {array.blocks}", puts=wrote(array.blocks), input=noise(f"{name} {array.number}", 512 * array.blocks))
                copy(self.work, folder)
        self.begin(new)
        return old
