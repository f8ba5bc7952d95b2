"""Stripes without an array: check, stripe and restore, limits of a geometry, input of another length."""
from fixture import *

# Another byte of a row parity, and another last byte of the stripe.
BROKEN = with_byte(STRIPE, 3 * 512, 0xF5)
LAST = with_byte(STRIPE, 8 * 512 - 1, 0x47)
# A data cell and its row parity together, which break a global equation alone; and two equations at once.
GLOBAL = with_byte(with_byte(STRIPE, 5, 0), 3 * 512 + 5, 0)
BOTH = with_byte(GLOBAL, 8 * 512 - 1, 0x47)
LONG = STRIPE + BLOCKS


class Check(Case):
    def test_a_codeword(self):
        self.expect("check 4 1 2 1", input=STRIPE, puts=CODEWORD)

    def test_a_folder_that_is_not_there(self):
        self.expect("check 4 1 2 1", at="-x", input=STRIPE, puts=CODEWORD)

    def test_what_is_no_codeword(self):
        # Of two broken equations the first is reported.
        for case, stripe, says in (
            ("a broken row", BROKEN, "row 0 parity 0 byte 0"),
            ("the last byte", LAST, "row 1 parity 0 byte 511"),
            ("a broken global equation", GLOBAL, "global 0 0 byte 5"),
            ("two broken equations", BOTH, "row 1 parity 0 byte 511"),
        ):
            self.expect("check 4 1 2 1", 1, f"not a codeword: {says}", input=stripe, case=case)

    def test_small_pieces_through_a_slow_pipe(self):
        self.expect("check 4 1 2 1", input=Pipe(STRIPE, each=37, pause=0.01), puts=CODEWORD)

    def test_too_little_memory(self):
        # The stripe of 512 KiB and the program's other data exceed 600 KiB. No input is taken.
        self.expect("check 32 3 32 1 2 4", 17, "out of memory", input=STRIPE, left=4096, wrap=ulimit("-d", 600), case="memory")


class Encode(Case):
    def test_each_method(self):
        for method in "standard", "up", "down", "fewest":
            self.expect(f"stripe {method} 4 1 2 1", input=BLOCKS, puts=STRIPE, case=method)


def erased(pattern):
    """Returns the input of `restore`, the zero codeword with EE in each erased cell."""
    return pattern.encode() + filled(*(0xEE if mark == "x" else 0 for mark in pattern))


def counts(pattern, n):
    """Returns how many cells of each chunk are erased."""
    return " ".join(str(pattern[chunk::n].count("x")) for chunk in range(n))


class Restore(Case):
    def test_cells_of_a_stripe(self):
        # One whole chunk and one cell of another are erased, then two whole chunks, then none of a stripe that is broken.
        spoiled = cells("AA 00 00 F4 AA 00 46 AA")
        self.expect("restore 4 1 2 1", input=Pipe(b"x...x..x", spoiled), puts=STRIPE, case="erased cells restored")
        self.expect("restore 4 1 2 1", 10, "lost: stripe 0 counts 2 2 0 0", input=Pipe(b"xx..xx..", STRIPE), case="lost cells")
        self.expect("restore 4 1 2 1", 1, "no codeword holds these cells", input=Pipe(b"........", BROKEN), case="no codeword")

    def test_rows_with_few_erased_cells(self):
        # Rows with at most m erased cells are restored whatever the others have; the counts are those of all erased cells.
        for case, words, pattern in (
            ("a cell in each row of three", "5 1 3 1", "x.....x.....x.."),
            ("two cells in a row", "5 1 3 1", "xx.....x.....x."),
            ("two cells in each row of two parities", "8 2 4 1 1 2", "xx........xx........xx........xx"),
        ):
            self.expect(f"restore {words}", input=Pipe(erased(pattern)), puts=filled(*[0] * len(pattern)), case=case)
        self.expect(
            "restore 5 1 3 1", 10, "lost: stripe 0 counts 3 3 0 0 0", input=Pipe(erased("xx...xx...xx...")), case="two cells in each row"
        )

    def test_each_map_of_a_stripe(self):
        # Cell k is erased where bit k of the map's number is set. Whether its cells can be restored was worked out elsewhere from the
        # definition: a bit for each map, sixteen in a word.
        verdicts = "fee8 fee8 fee8 e880 fee8 e880 e880 0000 fee8 e880 e880 0000 e880 0000 0000 0000".split()
        for word, verdict in enumerate(verdicts):
            with self.subTest(f"maps {16 * word} to {16 * word + 15}"):
                for bit in range(16):
                    pattern = "".join("x" if (16 * word + bit) >> cell & 1 else "." for cell in range(8))
                    ended = self.run_program("restore 4 1 2 1", input=Pipe(erased(pattern)))
                    if int(verdict, 16) >> (15 - bit) & 1:
                        self.assertEqual((0, filled(*[0] * 8), b""), ended[:3], pattern)
                    else:
                        self.assertEqual((10, b"", lines(f"lost: stripe 0 counts {counts(pattern, 4)}")), ended[:3], pattern)


class Limits(Case):
    """Each limit of a geometry that a single stripe can break. No input is taken."""

    def refused(self, limit, words, asked):
        says = [f"geometry: {asked}", f"geometry: limit {limit}"]
        for command in "check", "stripe up", "restore", "plan":
            self.expect(f"{command} {words}", 3, says, input=STRIPE, left=4096, case=f"limit {limit} by {words}: {command}")

    def test_limits(self):
        entries = "entries of e from 1 to r are needed, none below the one before"
        for limit, words, asked in (
            (1, "2 1 2 1", "3 <= n <= 32 is needed: n = 2"),
            (1, "33 1 2 1", "3 <= n <= 32 is needed: n = 33"),
            (2, "4 0 2 1", "m >= 1 is needed: m = 0"),
            (3, "4 2 2 1", "n > 2m is needed: n = 4, m = 2"),
            (4, "3 1 2 1 1 1", "1 to n-m entries of e are needed: n = 3, m = 1, entries of e = 3"),
            (4, f"32 15 1{' 1' * 40}", "1 to n-m entries of e are needed: n = 32, m = 15, entries of e = 40"),
            (5, "4 1 33 1", "1 <= r <= 32 is needed: r = 33"),
            (6, "4 1 2 2 1", f"{entries}: r = 2, e = [2, 1]"),
            (6, "4 1 2 0", f"{entries}: r = 2, e = [0]"),
            (7, "3 1 1 1 1", "r(n-m) > sum(e) is needed: n = 3, m = 1, r = 1, e = [1, 1]"),
        ):
            self.refused(limit, words, asked)


class Lengths(Case):
    """Input of another length. At most one byte after the needed ones is taken."""

    def refused(self, words, needed, took, given, **how):
        self.expect(words, 4, f"input: needed {needed}, took {took}", input=given, **how)

    def test_check(self):
        self.refused("check 4 1 2 1", 4096, 0, b"", case="no input")
        self.refused("check 4 1 2 1", 4096, 4095, Pipe(STRIPE[:4095]), case="a byte too few")
        self.refused("check 4 1 2 1", 4096, 4097, LONG, left=2559, case="bytes too many")

    def test_stripe(self):
        self.refused("stripe up 4 1 2 1", 2560, 2559, Pipe(BLOCKS[:2559]), case="blocks too few")
        self.refused("stripe up 4 1 2 1", 2560, 2561, STRIPE, left=4096 - 2561, case="blocks too many")

    def test_restore(self):
        self.refused("restore 4 1 2 1", 4104, 4105, Pipe(b"........", LONG), case="cells too many")
        self.refused("restore 4 1 2 1", 4104, 8, Pipe(b"........"), case="a map alone")
