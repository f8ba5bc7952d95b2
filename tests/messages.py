"""Messages of NBD sessions as bytes, and cases of sessions of `serve`."""
import struct

from common import *
from fixture import *

EXPORT_NAME, ABORT = 1, 2
ACK, UNKNOWN = 1, 0x80000001
READ, WRITE, DISC, FLUSH, TRIM = range(5)
EIO, EINVAL, ENOSPC = 5, 22, 28
LONGEST = 33_554_432  # bytes of a READ or a WRITE


def spelt(digits):
    """Returns the bytes of hexadecimal digits, between which there may be blanks."""
    return bytes.fromhex(digits)


def flags(number):
    """Returns the flags of a client."""
    return struct.pack(">I", number)


def option(kind, length=0, magic=b"IHAVEOPT"):
    return struct.pack(">8sII", magic, kind, length)


def option_answer(kind, answer):
    return struct.pack(">QIII", 0x0003E889045565A9, kind, answer, 0)


def request(kind, offset=0, length=0, flags=0, magic=0x25609513):
    """Returns the header of a request with the cookie 7; a negative offset counts from 2^64."""
    return struct.pack(">IHHQQI", magic, flags, kind, 7, offset % 2**64, length)


def reply(error=0):
    return struct.pack(">IIQ", 0x67446698, error, 7)


def greeted(size):
    """Returns the answers to BEGUN, over a disk of so many bytes."""
    return GREETING + struct.pack(">QH", size, 5)


GREETING = spelt("4e42444d41474943 49484156454f5054 0003")
BEGUN = flags(3) + option(EXPORT_NAME)
GREETED = greeted(512 * FOUR.blocks)


def changed(folder, blocks, numbers):
    """Changes a folder of FOUR, once opened, as a step does that writes the blocks of stripe 0 with these numbers. `blocks` are all
    blocks of the stripe after it. The body of each device gets the cells that change, which are these blocks and the three parities;
    then these cells are written to their places."""
    stripe = tool("factors").encoded(4, 1, 2, [1], blocks)
    places = [(0, 1, 2, 4, 5)[number] for number in numbers] + [3, 6, 7]
    for cell in places:
        patch(folder, f"{3 + cell} 0={stripe[cell].hex()}")
        patch(image(folder, cell % 4), f"{11 + cell // 4} 0={stripe[cell].hex()}")
    return folder


@once
def device(folder):
    """FOUR whose block 0 is filled with 01. Its bodies are empty."""
    copy(FOUR.fresh, folder)
    for slot, words in (0, "11 0=01*512"), (2, "12 0=46*512"), (3, "11 0=F4*512 then 12 0=46*512"):
        patch(image(folder, slot), words)


@once
def opened_device(folder):
    opened(copy(device(), folder))


class Sessions(Story):
    """Cases of whole sessions: all bytes of the client, and all bytes of the answers."""

    def served(self, case, answers, given, status=0, says="", left=None, before=None, after=None):
        """The session is served twice: given in one piece, and byte by byte, where each byte comes by a read of its own."""
        folders = before or device(), after or opened_device()
        for name, input in (case, given), (f"{case}, byte by byte", Pipe(given, each=1, packets=True)):
            self.expect_in(*folders, "serve", status, says, answers, left, name, input=input)

    def expect_session(self, answers, status=0, says="", **how):
        """The program gives these answers, over the device, and leaves it opened."""
        self.expect_in(device(), opened_device(), "serve", status, says, answers, **how)
