"""Sessions of `serve`: what each message of a client is answered."""
import os

from messages import *

ZEROS = bytes(124)  # what follows the size and the flags unless the client leaves it out


class Spelt(Sessions):
    """Sessions whose messages and answers are spelt by hand."""

    def test_a_read_over_two_blocks(self):
        self.served(
            "a READ over two blocks",
            spelt("4e42444d41474943 49484156454f5054 0003 0000000000001e00 0005 67446698 00000000 0000000000000007 01010000"),
            spelt("00000003 49484156454f5054 00000001 00000000 25609513 0000 0000 0000000000000007 00000000000001fe 00000004"),
        )

    def test_requests_past_the_size(self):
        self.served(
            "a READ and a WRITE past the size",
            GREETED + spelt("67446698 00000016 0000000000000009 67446698 0000001c 0000000000000009"),
            BEGUN
            + spelt("25609513 0000 0000 0000000000000009 0000000000001e00 00000001")
            + spelt("25609513 0000 0001 0000000000000009 0000000000001e00 00000001 AA"),
        )

    def test_an_unknown_option_and_abort(self):
        self.served(
            "an unknown option, and ABORT",
            spelt("4e42444d41474943 49484156454f5054 0003")
            + spelt("0003e889045565a9 00000007 80000001 00000000 0003e889045565a9 00000002 00000001 00000000"),
            spelt("00000003 49484156454f5054 00000007 00000002 AABB 49484156454f5054 00000002 00000000"),
        )

    def test_unknown_flags(self):
        self.served("unknown flags", spelt("4e42444d41474943 49484156454f5054 0003"), spelt("00000004"), 22, "bad message 1")

    def test_a_write_over_two_blocks(self):
        answers = GREETED + spelt("67446698 00000000 0000000000000007")
        given = (
            BEGUN
            + spelt("25609513 0000 0001 0000000000000007 00000000000001ff 00000002 AABB")
            + spelt("25609513 0000 0002 0000000000000008 0000000000000000 00000000")
        )
        wanted = ONE[:511] + spelt("AABB") + bytes(7167)
        cells_of_it = b"".join(tool("factors").encoded(4, 1, 2, [1], [wanted[at : at + 512] for at in range(0, 2560, 512)]))
        for way, input in ("in one piece", given), ("byte by byte", Pipe(given, each=1, packets=True)):
            self.begin(device())
            self.step("serve", puts=answers, input=input, case=f"the WRITE, {way}")
            found = b"".join(sector(image(self.work, slot), row) for row in (11, 12) for slot in range(4))
            self.step("read 0 15", puts=wanted, case=f"its blocks, {way}")
            self.step("check 4 1 2 1", puts=CODEWORD, input=found, case=f"its stripe, {way}")
            with self.subTest(f"its cells, {way}"):
                self.assertEqual(cells_of_it, found)


class Options(Sessions):
    def test_zeros(self):
        # They are left out for a client that asks for this.
        for number in 0, 1:
            self.served(f"flags {number}", GREETED + ZEROS, flags(number) + option(EXPORT_NAME))
        for number in 2, 3:
            self.served(f"flags {number}", GREETED, flags(number) + option(EXPORT_NAME, 7) + b"\xff" * 7)

    def test_no_zeros_and_a_read(self):
        self.served("no zeros, and a READ", GREETED + reply() + b"\x01", BEGUN + request(READ, 0, 1))

    def test_the_longest(self):
        for kind, answers in (
            (EXPORT_NAME, GREETED + reply()),
            (ABORT, GREETING + option_answer(ABORT, ACK)),
            (7, GREETING + option_answer(7, UNKNOWN)),
        ):
            given = flags(3) + option(kind, 4096) + os.urandom(4096) + (request(FLUSH) if kind == EXPORT_NAME else b"")
            self.expect_session(answers, input=Pipe(given), case=f"option {kind} of 4096 bytes")


class Ends(Sessions):
    """A message ends the session, and what follows it is left."""

    def test_abort(self):
        given = flags(3) + option(ABORT, 1) + b"\xaa" + option(EXPORT_NAME) + b"\xbb"
        self.served("ABORT", GREETING + option_answer(ABORT, ACK), given, left=17)

    def test_disc(self):
        given = BEGUN + request(DISC, 1, 1) + b"\xaa" + request(READ, 0, 1)
        self.served("DISC", GREETED, given, left=29)


class Ranges(Sessions):
    """Requests are in range up to the size, also where there is nothing to read or write, and nowhere past it."""

    def test_reads(self):
        parts = (
            (request(READ, 7679, 1), reply() + b"\0"),
            (request(READ, 7680, 0), reply()),
            (request(READ, 7681, 0), reply(EINVAL)),
            (request(READ, 7679, 2), reply(EINVAL)),
            (request(READ, -1, 1), reply(EINVAL)),
            (request(READ, -512, 1024), reply(EINVAL)),
            (request(READ, 3, 0), reply()),
        )
        self.served_parts("READs at the size", parts)

    def test_writes(self):
        parts = (
            (request(WRITE, 7680, 0), reply()),
            (request(WRITE, 7681, 0), reply(ENOSPC)),
            (request(WRITE, 7679, 2) + spelt("AABB"), reply(ENOSPC)),
            (request(WRITE, -1, 1) + spelt("AA"), reply(ENOSPC)),
            (request(WRITE, -2, 4) + spelt("AABBCCDD"), reply(ENOSPC)),
            (request(WRITE, 3, 0), reply()),
        )
        self.served_parts("WRITEs past the size, and of no byte", parts)

    def test_all_blocks(self):
        self.served("all blocks", GREETED + reply() + ONE + bytes(7168), BEGUN + request(READ, 0, 7680))

    def served_parts(self, case, parts):
        self.served(case, GREETED + b"".join(answer for _, answer in parts), BEGUN + b"".join(given for given, _ in parts))


class Types(Sessions):
    def test_other_types(self):
        # They have no bytes after their headers, and FLUSH has none.
        given = request(TRIM, 0, 512) + request(6, 0, 512) + request(256, 0, 1) + request(65535, 0, 1) + request(FLUSH, -1, 2**32 - 1)
        self.served("other types", GREETED + reply(EINVAL) * 4 + reply(), BEGUN + given)

    def test_flags_of_requests(self):
        # Nobody looks at them.
        self.served("flags of requests", GREETED + reply() + b"\x01", BEGUN + request(READ, 0, 1, flags=0xFFFF))


class Longest(Sessions):
    """The longest READ and WRITE are past the size of this array, and those of a byte more are too long; their bytes are dropped."""

    def long_session(self, answers, *parts, status=0, says="", case=None):
        """Is given a session in parts: bytes as they are, and a number for so many zeros."""
        parts = [bytes(part) if isinstance(part, int) else part for part in parts]
        self.expect_session(GREETED + answers, status, says, input=Pipe(BEGUN, *parts, each=65536), case=case)

    def test_reads(self):
        given = request(READ, 0, LONGEST) + request(READ, 0, LONGEST + 1) + request(READ, -1, 2**32 - 1) + request(READ, 511, 1)
        self.served("the longest READ, and one of a byte more", GREETED + reply(EINVAL) * 3 + reply() + b"\x01", BEGUN + given)

    def test_writes(self):
        self.long_session(
            reply(ENOSPC) + reply(EINVAL) * 2 + reply() + b"\x01",
            request(WRITE, 0, LONGEST),
            LONGEST,
            request(WRITE, 0, LONGEST + 1),
            LONGEST + 1,
            request(WRITE, -1, LONGEST + 1),
            LONGEST + 1,
            request(READ, 511, 1),
        )

    def test_writes_that_are_cut(self):
        # The header has 28 bytes.
        for name, length in ("a WRITE too long", LONGEST + 1), ("the longest WRITE", LONGEST):
            says = f"input: needed {28 + length}, took {27 + length}"
            self.long_session(b"", request(WRITE, 0, length), length - 1, status=4, says=says, case=name)


class Frozen(Sessions):
    """What needs no step is answered as ever."""

    def test_a_session(self):
        parts = (
            (request(WRITE, 0, 2) + spelt("AABB"), reply(EIO)),
            (request(READ, 0, 2), reply() + spelt("0000")),
            (request(WRITE, 7680, 1) + spelt("AA"), reply(ENOSPC)),
            (request(TRIM, 0, 1), reply(EINVAL)),
            (request(WRITE, 9, 0), reply()),
            (request(FLUSH), reply()),
            (request(WRITE, 7679, 1) + spelt("AA"), reply(EIO)),
        )
        answers = GREETED + b"".join(answer for _, answer in parts)
        given = BEGUN + b"".join(given for given, _ in parts)
        self.served("a session over a frozen array", answers, given, before=frozen(), after=opened_frozen())

    def test_a_write_too_long(self):
        given = Pipe(BEGUN, request(WRITE, 0, LONGEST + 1), bytes(LONGEST + 1), each=65536)
        self.expect_in(frozen(), opened_frozen(), "serve", puts=GREETED + reply(EINVAL), input=given)
