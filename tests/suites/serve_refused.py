"""Sessions of `serve` that are refused: messages that are cut or bad, arrays that are not served, streams that fail."""
from messages import *

# A session of each kind of message: the bytes of a message, the length of its header, and its answer.
MESSAGES = (
    (flags(2), 4, b""),
    (option(7, 3) + spelt("AABBCC"), 16, option_answer(7, UNKNOWN)),
    (option(EXPORT_NAME, 2) + b"AB", 16, spelt("0000000000001e00 0005")),
    (request(READ, 510, 3), 28, reply() + spelt("010100")),
    (request(FLUSH, 1, 9), 28, reply()),
    (request(TRIM, 0, 1), 28, reply(EINVAL)),
    (request(WRITE, 1023, 2) + spelt("AABB"), 28, reply()),
    (request(DISC, 1, 9), 28, b""),
)
# The WRITE is the last one that is answered. What it writes are the last byte of block 1 and the first one of block 2.
WRITE_AT = 6
BLOCKS_WRITTEN = [ONE, with_byte(ZERO, 511, 0xAA), with_byte(ZERO, 0, 0xBB), ZERO, ZERO]


@once
def device_written(folder):
    """The device once the session was held."""
    changed(copy(opened_device(), folder), BLOCKS_WRITTEN, [1, 2])


class CutSessions(Sessions):
    """The session, cut before each byte of one of its messages."""

    def cut(self, number):
        before = b"".join(message for message, _, _ in MESSAGES[:number])
        answers = GREETING + b"".join(answer for _, _, answer in MESSAGES[:number])
        message, header, _ = MESSAGES[number]
        for past in range(len(message)):
            self.expect_in(
                device(),
                device_written() if number > WRITE_AT else opened_device(),
                "serve",
                4 if past else 0,
                f"input: needed {header if past < header else len(message)}, took {past}" if past else "",
                answers,
                case=f"message {number + 1}, cut before byte {past}",
                input=Pipe(before + message[:past]),
            )


class CutHandshakes(CutSessions):
    def test_flags(self):
        self.cut(0)

    def test_another_option(self):
        self.cut(1)

    def test_the_name_of_the_export(self):
        self.cut(2)


class CutRequests(CutSessions):
    def test_read(self):
        self.cut(3)

    def test_flush(self):
        self.cut(4)

    def test_another_type(self):
        self.cut(5)


class CutWrites(CutSessions):
    def test_write(self):
        # Before its end nothing is written.
        self.cut(WRITE_AT)

    def test_disc(self):
        self.cut(7)

    def test_the_whole_session(self):
        given = b"".join(message for message, _, _ in MESSAGES)
        answers = GREETING + b"".join(answer for _, _, answer in MESSAGES)
        self.expect_in(device(), device_written(), "serve", puts=answers, input=Pipe(given), case="all messages")
        self.begin(device())
        self.step("serve", puts=answers, input=Pipe(given[:-28]), case="the messages up to the WRITE")
        self.step("read 0 15", puts=b"".join(BLOCKS_WRITTEN) + bytes(5120), case="what they wrote")


class Bad(Sessions):
    """Messages that are refused, and how much is taken of them."""

    def refused(self, case, number, answers, given, left):
        """The message of this number is a bad one, and of what follows its header as much is left."""
        self.served(case, answers, given, 22, f"bad message {number}", left)

    def test_flags(self):
        for number in 4, 7, 0x80000000, 0x10003, 0xFFFFFFFF:
            self.refused(f"flags {number:08x}", 1, GREETING, flags(number) + option(EXPORT_NAME), 16)

    def test_options_of_another_magic(self):
        another = b"IHAVEOPU"
        given = flags(1) + option(7, 2, another) + spelt("AABB")
        self.refused("an option of another magic", 2, GREETING, given, 2)
        given = flags(1) + option(3) + option(1, magic=b"\0\0\0\0EOPT")
        self.refused("a name of another magic", 3, GREETING + option_answer(3, UNKNOWN), given, 0)

    def test_options_of_a_byte_too_many(self):
        for kind in EXPORT_NAME, ABORT, 7:
            self.refused(f"option {kind}", 2, GREETING, flags(3) + option(kind, 4097) + spelt("AABB"), 2)

    def test_requests_of_another_magic(self):
        given = BEGUN + request(FLUSH) + request(DISC, magic=0x25609514) + request(DISC)
        self.refused("a request of another magic", 4, GREETED + reply(), given, 28)
        given = BEGUN + reply() + request(DISC)[:12] + spelt("AABB")
        self.refused("a reply for a request", 3, GREETED, given, 2)


@once
def cut_and_damaged(folder):
    """FOUR with an open gate, and a sector of the body that is bad on each device."""
    for path in images(copy(cut(), folder)):
        set_byte(path, SEALED * 3 + 100, 0x77)


@once
def journal_lost(folder):
    """The same, once it was opened."""
    opened(copy(cut_and_damaged(), folder))


class NotServed(Sessions):
    """What is refused before the greeting. Nothing is taken."""

    GIVEN = BEGUN + request(WRITE, 0, 1) + b"\xaa" + request(READ, 0, 2) + request(DISC)

    def not_served(self, case, folder, status, says, after=None, **how):
        left = len(self.GIVEN)
        self.expect_in(folder, after or folder, "serve", status, says, left=left, case=case, input=self.GIVEN, **how)

    def test_no_array(self):
        for case, folder in ("blank devices", FOUR.blank), ("no device", empty()):
            self.not_served(case, folder, 7, "no array")
        self.not_served("one device of four", one_left(), 7, [*FOUR.left(1, [0, 1, 2]), "no array"])

    def test_other_arrays(self):
        self.not_served("two arrays", two_arrays(), 8, f"two arrays: {8:032x} {9:032x}")
        self.not_served("too few devices", two_left(), 9, [*FOUR.left(1, [0, 1]), "too few devices: 0 gone, 1 gone"])
        self.not_served("no epoch left", spent(), 16, "epochs spent")
        says = [*(bad(slot, 1) for slot in range(4)), "journal lost: sector 3"]
        self.not_served("a body that is lost", cut_and_damaged(), 19, says, journal_lost())

    def test_what_is_in_use(self):
        self.not_served("a folder in use", FOUR.fresh, 75, ".: in use", wrap=["flock", "."])
        self.not_served("a device in use", FOUR.fresh, 15, ["dev02.img: in use", "gone: slot 2"], wrap=["flock", "dev02.img"])

    def test_devices_that_may_only_be_read(self):
        says = ["dev00.img: Permission denied", "gone: slot 0"]
        self.not_served("read-only", read_only(), 15, says, nobody=True)

    def test_too_little_memory(self):
        for kilobytes in 600, 30000:
            self.not_served(f"{kilobytes} KiB", FOUR.fresh, 17, "out of memory", wrap=ulimit("-d", kilobytes))


class Streams(Sessions):
    """Streams that fail."""

    def test_inputs(self):
        self.expect_session(GREETING, 5, INPUT_CLOSED, input=CLOSED, case="a closed input")
        self.expect_session(GREETING, 5, INPUT_CLOSED, input=self.room, case="a folder as an input")
        self.expect_session(GREETING, input=b"", case="no message")

    def test_outputs(self):
        given = NotServed.GIVEN
        self.expect_session(b"", 6, OUTPUT_CLOSED, input=given, out=CLOSED, case="a closed output")
        self.expect_session(b"", 6, OUTPUT_FULL, input=given, out=FULL, case="a full output")

    def test_standard_error(self):
        self.expect_session(b"", 6, input=CLOSED, out=CLOSED, err=CLOSED, case="three closed streams")
        self.expect_session(GREETING, 22, input=Pipe(flags(4)), err=CLOSED, case="a closed standard error")
