"""The longest script and the longest WRITE, and what is a byte longer."""
from common import events
from cuts import SIZE, old, old_array
from fixture import *
from messages import BEGUN, EINVAL, LONGEST, WRITE, greeted, reply, request
from rounds import *

SLOW = True
LONGEST_SCRIPT = 1_073_741_824
MINUTES = 30  # for a call


def script(length):
    """Returns a pipe with a script of so many bytes. All lines are empty, but for the last one, which lacks its end."""
    last, piece = b"read 0", bytes(65536).replace(b"\0", b"\n")
    whole, rest = divmod(length - len(last), len(piece))
    return Pipe(*[piece] * whole, piece[:rest], last)


class Script(Case):
    def test_the_longest(self):
        self.begin(old_array())
        replies = lines(f"0 {old()[:SIZE].hex()}")
        self.step("run", says=events(), puts=replies, input=script(LONGEST_SCRIPT), limit=60 * MINUTES)


class LongerScript(Case):
    def test_a_byte_more(self):
        self.begin(old_array())
        says = [f"input: needed {LONGEST_SCRIPT}, took {LONGEST_SCRIPT + 1}", events()]
        self.step("run", 4, says, input=script(LONGEST_SCRIPT + 1), limit=60 * MINUTES)


class Write(Case):
    """At an odd offset, so that it touches a block more than it fills."""

    def test_the_longest(self):
        array = Array(8, 8, 2, 4, [1, 1, 2], 3278)
        self.work = in_memory(self) / "work"
        self.begin(array.fresh)
        data = noise("the longest WRITE", LONGEST)
        given = BEGUN + request(WRITE, 1, LONGEST) + data + request(WRITE, 1, LONGEST + 1) + bytes(LONGEST + 1)
        answers = greeted(SIZE * array.blocks) + reply() + reply(EINVAL)
        self.step("serve", puts=answers, input=given, limit=60 * MINUTES)
        # 65,538 blocks are 33,555,456 bytes.
        self.step("read 0 65538", puts=bytes(1) + data + bytes(1023), limit=60 * MINUTES)
