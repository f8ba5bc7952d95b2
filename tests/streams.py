"""Streams of a program under test: files, slow pipes, pipes whose reader closes, closed streams, terminals; and limits of resources."""
import contextlib
import fcntl
import os
import pathlib
import pty
import re
import struct
import tempfile
import termios
import threading
import time

CLOSED = "closed"  # as a stream: it is closed
FULL = pathlib.Path("/dev/full")  # as an output: each write fails
TAKEN = "taken"  # as a part of a Pipe: waits until the program has read all bytes so far


class Pipe:
    """As an input: a pipe into which these parts are written.

    Bytes are written in pieces of `each` bytes, with `pause` seconds after each piece. A number is a pause in seconds. A function is
    called. TAKEN waits until the program has read all bytes so far, at most ten seconds. With `packets` each read of the program gets
    one piece."""

    def __init__(self, *parts, each=None, pause=0, packets=False):
        self.parts, self.each, self.pause, self.packets = parts, each, pause, packets

    def feed(self, end):
        with contextlib.suppress(BrokenPipeError):
            for part in self.parts:
                if callable(part):
                    part()
                elif isinstance(part, (int, float)):
                    time.sleep(part)
                elif part is TAKEN:
                    self.wait_until_taken(end)
                else:
                    self.write(end, part)
        os.close(end)

    def wait_until_taken(self, end):
        last = time.monotonic() + 10
        while time.monotonic() < last and any(struct.unpack("i", fcntl.ioctl(end, termios.FIONREAD, bytes(4)))):
            time.sleep(0.01)

    def write(self, end, data):
        each = self.each or max(len(data), 1)
        for at in range(0, len(data), each):
            piece = data[at : at + each]
            while piece:
                piece = piece[os.write(end, piece) :]
            time.sleep(self.pause)

    def open(self):
        """Returns the end to read from, and the thread that writes, which the caller starts."""
        ours, theirs = os.pipe2(os.O_CLOEXEC | (os.O_DIRECT if self.packets else 0))
        return ours, threading.Thread(target=self.feed, args=(theirs,), daemon=True)


class Reader:
    """As an output: a pipe whose reader reads so many bytes and then closes it."""

    def __init__(self, count):
        self.count, self.taken = count, b""

    def take(self, end):
        while len(self.taken) < self.count:
            piece = os.read(end, self.count - len(self.taken))
            if not piece:
                break
            self.taken += piece
        os.close(end)

    def open(self):
        """Returns the end to write to, and the thread that reads, which the caller starts."""
        ours, theirs = os.pipe()
        return theirs, threading.Thread(target=self.take, args=(ours,), daemon=True)


class Terminal:
    """A terminal that says that it has so many columns, 0 where it doesn't know. `written` has the bytes that were written to it."""

    def __init__(self, columns=0):
        self.ours, self.theirs = pty.openpty()
        fcntl.ioctl(self.theirs, termios.TIOCSWINSZ, struct.pack("HHHH", 0, columns, 0, 0))
        self.written = b""
        self.reader = threading.Thread(target=self.read, daemon=True)
        self.reader.start()

    def read(self):
        try:
            while True:
                self.written += os.read(self.ours, 4096)
        except OSError:
            pass  # its other end was closed

    def close(self):
        os.close(self.theirs)
        self.reader.join()
        os.close(self.ours)


def screen(written):
    """Returns what bytes leave on a terminal, and each line that was shown and then cleared."""
    left, over, line, column = "", [], "", 0
    for piece in re.findall(r"\x1b\[K|[\r\n]|[^\x1b\r\n]+", written.decode()):
        if piece == "\r":
            column = 0
        elif piece == "\n":
            left, line = f"{left}{line}\n", ""
        elif piece == "\x1b[K":
            line = line[:column]
            over += [line] if line else []
        else:
            line = line[:column] + piece + line[column + len(piece) :]
            column += len(piece)
    return left + line, over


def regular(data):
    """Returns a file with these bytes that has no name."""
    file = tempfile.TemporaryFile()
    file.write(data)
    file.flush()
    file.seek(0)
    return file


def left_of(source, thread):
    """Returns how many bytes of an input are left. Of a pipe these are all that are still written to it."""
    if thread is None:
        return os.fstat(source).st_size - os.lseek(source, 0, os.SEEK_CUR)
    count = 0
    while True:
        piece = os.read(source, 65536)
        if not piece:
            return count
        count += len(piece)


def ulimit(option, value):
    """Returns the command that runs another one with a limit, as ulimit("-n", 9) for nine open files."""
    return ["bash", "-c", f'ulimit {option} {value} && exec "$@"', "bash"]


def closing(*streams):
    """Returns the command that runs another one with these of the streams 0, 1 and 2 closed."""
    return ["bash", "-c", 'exec "$@" ' + " ".join({0: "<&-", 1: ">&-", 2: "2>&-"}[stream] for stream in streams), "bash"]
