"""How many calls of the system a command makes, and calls that fail within scripts, volumes and sessions."""
import re

from messages import *


def runs(numbers):
    """Returns how many rows of following numbers these are."""
    return sum(number - 1 not in numbers for number in numbers)


def cost_of(*steps):
    """Returns the writes, sectors and syncs of steps, each of which writes these blocks of a stripe of EIGHT.

    The blocks and their parities change (tests/tools/factors). Each device gets the cells that change in the body of its journal, in
    which cells follow each other row by row, and its gate is opened and closed. Then each changed cell goes to its own device."""
    n, m, r, e = EIGHT.n, EIGHT.m, EIGHT.r, EIGHT.e
    cells_of_blocks, parities = tool("factors").dependencies(n, m, r, e)
    writes = sectors = 0
    for step in steps:
        own = {cells_of_blocks[block] for block in step}
        cells = own | {cell for cell, factors in parities.items() if any(factors[place] for place in own)}
        writes += n * (runs(cells) + 2) + sum(runs({cell // n for cell in cells if cell % n == slot}) for slot in range(n))
        sectors += n * (len(cells) + 2) + len(cells)
    return writes, sectors, 4 * n * len(steps)


STRIPE = range(20)  # the blocks of one


class Calls(Story):
    """Each command makes so many writes of image files, of so many sectors, and so many syncs more than an opening.

    EIGHT has 20 blocks a stripe."""

    def setUp(self):
        super().setUp()
        self.needs("strace")
        self.begin(EIGHT.fresh)

    def traced(self, words, input=b""):
        """Returns the lines of a trace of a command, which must be done."""
        trace = self.room / "trace"
        wrap = ["strace", "-f", "-qq", "-o", str(trace), "-e", "trace=write,fdatasync"]
        ended = self.run_program(words, input=input, folder=self.work, wrap=wrap)
        self.assertEqual((0, b""), (ended.status, re.sub(rb"events: .*\n", b"", ended.err)))
        return trace.read_text().splitlines()

    def count(self, trace):
        """Returns how many writes of image files a trace has, of one to 128 sectors each, how many sectors these are, and how many syncs."""
        found = [re.search(r"^\d* *write\((\d+), .*\) *= (\d+)$", line) for line in trace]
        sizes = [int(write[2]) for write in found if write and int(write[1]) > 2]
        self.assertTrue(all(size % SEALED == 0 and size // SEALED in range(1, 129) for size in sizes), sizes)
        return len(sizes), sum(sizes) // SEALED, sum("fdatasync(" in line for line in trace)

    def costs(self, case, cost, words, input=b""):
        """Returns the trace."""
        trace = []
        with self.subTest(case):
            opening, trace = self.count(self.traced("read 0 0")), self.traced(words, input)
            found = self.count(trace)
            self.assertEqual(cost, tuple(more - less for more, less in zip(found, opening)))
        return trace

    def done(self, *words):
        for command in words:
            self.assertEqual(0, self.run_program(command, folder=self.work).status)

    def test_blocks(self):
        self.costs("a block", cost_of([10]), "write 10 1", ONE)
        self.costs("a whole stripe", cost_of(STRIPE), "write 20 20", bytes(range(256)) * 40)
        self.costs("a read", cost_of(), "read 0 40")
        self.costs("two blocks that come slowly", cost_of([10], [11]), "write 10 2", Pipe(ONE, TAKEN, 0.5, ONE))

    def test_lines(self):
        self.costs("two lines", cost_of([10], [11]), "run", Pipe(lines(f"write 10 {digits('01')}", f"write 11 {digits('01')}")))

    def test_volumes(self):
        # The zeros of a stripe are one step, and the table is another one. The blocks of a stripe that come at once are one step, too.
        self.done("vinit")
        self.costs("a volume of the rest of a stripe", cost_of(STRIPE[1:], [0]), "vmake v 19")
        self.costs("a volume of a stripe", cost_of(STRIPE, [0]), "vmake w 20")
        self.costs("a volume that is dropped", cost_of([0]), "vdrop v")
        self.costs("two blocks of a volume", cost_of([0, 1]), "vwrite w 0 2", Pipe(ONE + ONE))
        self.costs("two blocks of a volume that come slowly", cost_of([0], [1]), "vwrite w 0 2", Pipe(ONE, TAKEN, 0.5, ONE))
        self.costs("a list", cost_of(), "vlist")

    def test_sessions(self):
        # A READ is put out in few pieces, and a WRITE is done a stripe at a time.
        trace = self.costs("a READ of all blocks", cost_of(), "serve", BEGUN + request(READ, 0, 655360))
        with self.subTest("its pieces"):
            self.assertIn(sum(bool(re.search(r"^\d* *write\(1,", line)) for line in trace), range(1, 16))
        whole = Pipe(BEGUN + request(WRITE, 10240, 10240) + bytes(range(256)) * 40)
        self.costs("a WRITE of a whole stripe", cost_of(STRIPE), "serve", whole)
        self.costs("a WRITE over two stripes", cost_of([19], [0]), "serve", Pipe(BEGUN + request(WRITE, 10239, 2) + spelt("AABB")))


class Failing(Sessions):
    """Commands within which calls fail: those on the device of slot 2, or those on the input."""

    says_lost = ["fenced 2", "dev02.img: No such device"]

    def setUp(self):
        super().setUp()
        self.needs("strace")

    def input_failing(self, given, fault):
        """Returns how a command is run on a file with these bytes, of which calls fail."""
        path = self.room / "given"
        path.write_bytes(given)
        return {"input": path, "wrap": failing(fault, path)}

    def test_blocks(self):
        # Of a part of the second block the first one is written.
        how = self.input_failing(BLOCKS[:700], "read:error=EIO:when=2")
        self.expect_in(FOUR.fresh, written(), "write 0 2", 5, INPUT_FAILED, case="an input that fails", **how)
        how = self.input_failing(ONE, "read:error=EINTR:when=1")
        self.expect_in(FOUR.fresh, written(), "write 0 1", puts=wrote(1), case="an input that is interrupted", **how)
        how = {"wrap": failing("read:error=EIO:when=6")}
        self.expect_in(FOUR.fresh, FOUR.opened, "read 2 1", puts=ZERO, case="a sector that is read no more", **how)

    def test_a_device_within_a_write(self):
        self.begin(FOUR.fresh)
        wrap = failing("write:error=ENODEV:when=5+")
        self.step("write 0 1", says=self.says_lost, puts=wrote(1), input=ONE, wrap=wrap, case="the write")
        self.step("read 0 1", puts=ONE, case="the block without it")

    def test_a_device_within_a_session(self):
        self.begin(device())
        given = BEGUN + request(WRITE, 511, 2) + spelt("AABB") + request(READ, 510, 4)
        answers = GREETED + reply() + reply() + spelt("01AABB00")
        wrap = failing("write:error=ENODEV:when=5+")
        self.step("serve", says=self.says_lost, puts=answers, input=given, wrap=wrap, case="the session")
        self.step("read 0 15", puts=ONE[:511] + spelt("AABB") + bytes(7167), case="the blocks without it")

    def test_a_device_at_a_read(self):
        self.begin(device())
        answers = GREETED + reply() + spelt("0000")
        wrap = failing("read:error=ENODEV:when=6+")
        self.step("serve", says=self.says_lost, puts=answers, input=Pipe(BEGUN + request(READ, 1535, 2)), wrap=wrap, case="a READ")

    def test_the_input_of_a_session(self):
        read = request(READ, 510, 3)
        how = self.input_failing(BEGUN + read * 2, "read:error=EIO:when=4")
        self.expect_session(GREETED + reply() + spelt("010100"), 5, INPUT_FAILED, case="it fails", **how)
        how = self.input_failing(BEGUN + read * 2, "read:error=EINTR:when=3")
        self.expect_session(GREETED + (reply() + spelt("010100")) * 2, case="it is interrupted", **how)

    def test_a_line_that_is_refused(self):
        # The step finds the device gone, and then its stripe lost: both are reported.
        self.begin(FOUR.fresh)
        self.damage(0, 11)
        self.damage(1, 11)
        says = [*self.says_lost, bad(0, 1), bad(1, 1), "lost: stripe 0 counts 1 1 2 0", events(fenced=1)]
        given, wrap = Pipe(lines("read 3", "read 0", "read 3")), failing("read:error=ENODEV:when=6+")
        self.step("run", 10, says, lines(f"3 {digits('00')}"), input=given, wrap=wrap, case="the events of the line")

    def test_the_input_of_a_script(self):
        # The file ends within its second line.
        how = self.input_failing(f"write 0 {digits('01')}\nread 0".encode(), "read:error=EIO:when=2")
        self.expect_in(FOUR.fresh, written(), "run", 5, [*INPUT_FAILED, events()], lines("wrote 0"), case="it fails", **how)
