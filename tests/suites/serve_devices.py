"""Sessions of `serve` over devices that are lost or damaged, and sessions that are held message by message."""
import random

from messages import *


def answers(*parts):
    """Returns what is put out to BEGUN and requests."""
    return GREETED + b"".join(parts)


class Steps(Sessions):
    """Sessions over devices that stay from one session to the next."""

    def serve(self, case, requests, wanted, status=0, says=""):
        self.step("serve", status, says, wanted, input=BEGUN + requests, case=case)


class Lost(Steps):
    def test_lost_devices(self):
        # The loss of a device before a session is reported once, and all goes on.
        self.begin(device())
        self.lose(1)
        given = request(READ, 510, 3) + request(WRITE, 1023, 2) + spelt("AABB") + request(READ, 1022, 4)
        again = request(READ, 1022, 4)
        found = answers(reply() + spelt("00AABB00"))
        self.serve("a device less", given, answers(reply() + spelt("010100"), reply(), reply() + spelt("00AABB00")), says="fenced 1")
        self.serve("another session", again, found)
        self.insert(1, FOUR.sectors)
        self.step("replace 1", says=["admitted 1", "promoted 1"], puts=lines("replaced 1"), case="a device in its place")
        self.lose(2)
        self.serve("a session over it, and another device less", again, found, says="fenced 2")
        self.lose(0)
        # Two sessions, the replacement with three epochs, and the session that fenced slot 2 come after epoch 1.
        says = [*FOUR.left(7, [0], {2: 6}), "too few devices: 0 gone, 2 gone"]
        self.serve("two devices less", again, b"", 9, says)


class Damaged(Steps):
    """Damaged sectors are restored. Of stripe 1, whose blocks are 5 to 9, blocks 5, 6, 8 and 9 are then lost, and 7 is not: a READ that
    touches one of them is refused as a whole, and a WRITE too where it has to read one or what depends on one. Both are answered EIO,
    and the session goes on."""

    says_lost = [bad(0, 2), bad(1, 2)]

    def test_a_damaged_sector(self):
        self.begin(FOUR.fresh)
        self.step("write 0 15", puts=wrote(15), input=filled(*range(1, 16)), case="blocks")
        self.damage(2, 11)
        self.serve("a READ of all blocks", request(READ, 0, 7680), answers(reply() + filled(*range(1, 16))), says=bad(2, 1))

    def begin_lost(self):
        self.begin(FOUR.fresh)
        self.step("write 0 15", puts=wrote(15), input=filled(*range(1, 16)))
        self.damage(2, 11)
        for slot in 0, 1:
            self.damage(slot, 13)
            self.damage(slot, 14)

    def test_reads(self):
        self.begin_lost()
        parts = (
            (request(READ, 2559, 2), reply(EIO)),
            (request(READ, 2559, 1), reply() + b"\x05"),
            (request(READ, 3584, 512), reply() + filled(8)),
            (request(READ, 4096, 1), reply(EIO)),
            (request(READ, 5120, 1), reply() + b"\x0b"),
        )
        given, wanted = b"".join(given for given, _ in parts), answers(*(answer for _, answer in parts))
        self.serve("READs of a lost stripe and next to it", given, wanted, says=self.says_lost)

    def test_writes(self):
        self.begin_lost()
        before = self.past_superblocks()
        # Block 4 and a part of block 5; then a part of block 3, block 4 and a part of block 5: what they are to keep of block 5 cannot be
        # read.
        given = b"".join(request(WRITE, at, length) + bytes(length) for at, length in ((2048, 513), (2047, 514), (2560, 512)))
        self.serve("WRITEs that are refused before anything is written", given, answers(reply(EIO) * 3), says=self.says_lost)
        self.same(before, self.past_superblocks(), "nothing of them is written")
        # Blocks 3 to 6 as a whole: stripe 0 is written, and then stripe 1 is refused.
        given = request(WRITE, 1536, 2048) + AA * 4 + request(READ, 1536, 1024) + request(READ, 2560, 1)
        wanted = answers(reply(EIO), reply() + AA * 2, reply(EIO))
        self.serve("a WRITE that is refused at its second stripe", given, wanted, says=self.says_lost)
        # All of stripe 1.
        given = request(WRITE, 2560, 2560) + filled(0xBB) * 5 + request(READ, 1535, 3586)
        wanted = AA * 2 + filled(0xBB) * 5
        answered = answers(reply(), reply() + b"\x03" + wanted + b"\x0b")
        self.serve("a WRITE of all of a lost stripe", given, answered, says=bad(2, 1))
        self.step("read 0 15", says=bad(2, 1), puts=filled(1, 2, 3) + wanted + filled(*range(11, 16)), case="all blocks afterwards")


class Talks(Sessions):
    """Messages that are sent once the answer to the one before came."""

    def setUp(self):
        super().setUp()
        self.begin(device())
        self.session = self.talk("serve")

    def answered(self, case, wanted, *pieces):
        """These bytes are answered after these pieces of messages."""
        with self.subTest(case):
            self.session.send(*pieces)
            self.assertEqual(wanted.hex(), self.session.take(len(wanted)).hex())

    def ends(self, case, status=0, says=""):
        with self.subTest(case):
            self.assertEqual((status, said(says)), self.session.end())

    def first_block(self):
        return sector(image(self.work, 0), 11)

    def test_message_by_message(self):
        self.answered("a greeting before any message", GREETING)
        pieces = spelt("000000"), spelt("03"), spelt("494841"), spelt("56454f5054000000"), spelt("0800000000")
        self.answered("an option in pieces", option_answer(8, UNKNOWN), *pieces)
        self.answered("the name of the export", spelt("0000000000001e00 0005"), option(EXPORT_NAME))
        self.step("read 0 1", 75, ".: in use", case="a read at the same time")
        self.step("serve", 75, ".: in use", input=BEGUN, case="a session at the same time")
        self.answered("two READs in one piece", reply() + spelt("0100") + reply() + spelt("01"), request(READ, 511, 2) + request(READ, 0, 1))
        self.session.send(request(WRITE, 0, 512) + FF[1:], pause=0.1)
        self.same(ONE, self.first_block(), "a WRITE whose last byte is not there is not done")
        self.answered("its last byte", reply(), b"\xff")
        self.same(FF, self.first_block(), "a WRITE is answered once it is done")
        self.answered("a FLUSH", reply(), request(FLUSH))
        self.session.send(request(DISC))
        self.ends("the end")

    def test_a_reader_that_goes(self):
        self.answered("a WRITE before the reader goes", GREETED + reply(), BEGUN, request(WRITE, 0, 512) + FF)
        self.session.close_output()
        self.session.send(request(WRITE, 512, 512) + AA + request(WRITE, 1024, 1) + b"\xaa")
        self.ends("the end", 6, OUTPUT_LEFT)
        self.step("read 0 3", puts=FF + AA + ZERO, case="the WRITEs up to there")

    def test_a_kill(self):
        self.answered("a WRITE before a kill", GREETED + reply(), BEGUN, request(WRITE, 511, 2) + spelt("AABB"))
        self.session.kill()
        released(self.work)
        self.step("read 0 2", puts=ONE[:511] + spelt("AABB") + bytes(511), case="what it wrote")


class Random(Sessions):
    """Random sessions, against the model of tests/tools/nbd."""

    def test_sessions(self):
        array = tool("nbd").Array(program(), self.folder("array"))
        first = random.randrange(2**32)
        failed = [line for seed in range(first, first + 20) for line in array.failures_of(seed)]
        self.assertEqual([], failed, "run tests/tools/nbd with one of these seeds")
