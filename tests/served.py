"""Arrays that real clients have as a disk, by sessions of `serve`."""
import contextlib
import functools
import os
import select
import pathlib
import shlex
import socket
import subprocess
import time

from fixture import *
from rounds import *

CLIENT_LIMIT = 300  # seconds for a client


@functools.lru_cache(maxsize=None)
def python_with_nbd():
    """Returns the Python that has libnbd's module, or None. Debian's package puts it where only Debian's own Python finds it."""
    for python in "python3", "/usr/bin/python3":
        with contextlib.suppress(OSError):
            if not subprocess.run([python, "-c", "import nbd"], stderr=subprocess.DEVNULL).returncode:
                return python
    return None


def until(is_so, seconds=60):
    """Waits until this holds, and returns whether it does."""
    end = time.monotonic() + seconds
    while not is_so() and time.monotonic() < end:
        time.sleep(0.02)
    return is_so()


def free_port():
    """Returns a port of this host that nothing listens on."""
    with socket.socket() as some:
        some.bind(("127.0.0.1", 0))
        return some.getsockname()[1]


def is_listened_on(port):
    """Returns whether a process listens on this port. No connection is made: that would be a client."""
    sockets = (line.split() for line in pathlib.Path("/proc/net/tcp").read_text().splitlines())
    return any(place.endswith(f":{port:04X}") and state == "0A" for _, place, _, state, *_ in sockets)


class Served(Case):
    """An array of so many stripes in `self.work`. `self.serve` is a command that serves it: it waits until the session before it has
    released the folder, and is killed after as many seconds as its argument says. What sessions say goes to the file `self.log`."""

    stripes = 820

    def setUp(self):
        super().setUp()
        self.needs("flock")
        self.array = Array(8, 8, 2, 4, [1, 1, 2], self.stripes)
        self.size = 512 * self.array.blocks
        self.work = copy(self.array.fresh, in_memory(self) / "served")
        self.log, self.serve, self.socket = (self.room / name for name in ("log", "serve", "socket"))
        self.uri = f"nbd+unix:///?socket={self.socket}"
        self.log.touch()
        place, command, log = (shlex.quote(str(it)) for it in (self.work, program(), self.log))
        self.serve.write_text(
            f"#!/usr/bin/env bash\ncd {place} && flock . true && exec timeout -s KILL ${{1:-{CLIENT_LIMIT}}} {command} . serve 2>> {log}\n"
        )
        self.serve.chmod(0o755)

    def needs_python(self):
        """Returns the words that run tests/tools/client."""
        if not python_with_nbd():
            self.skipTest("needs the module nbd of Python (package python3-libnbd)")
        return [python_with_nbd(), TOOLS / "client"]

    @contextlib.contextmanager
    def sessions(self):
        """Yields the end of a pipe for processes that start sessions. At the end all sessions, which inherit it, must end."""
        ours, theirs = os.pipe()
        try:
            yield theirs
        finally:
            os.close(theirs)
            have_ended = select.select([ours], [], [], CLIENT_LIMIT)[0]
            os.close(ours)
        self.assertTrue(have_ended, "a session has not ended")

    @contextlib.contextmanager
    def listening(self, seconds=CLIENT_LIMIT, port=None):
        """Has a session for each client that comes to the socket, or to this port, which is killed after so many seconds."""
        with contextlib.suppress(FileNotFoundError):
            self.socket.unlink()
        place = f"UNIX-LISTEN:{self.socket}" if port is None else f"TCP-LISTEN:{port},bind=127.0.0.1"
        listens = self.socket.exists if port is None else lambda: is_listened_on(port)
        with self.sessions() as end, open(self.room / "listened", "wb") as log:
            command = ["socat", f"{place},fork", f"EXEC:{self.serve} {seconds:.6f}"]
            socat = subprocess.Popen(command, pass_fds=[end], stderr=log)
            try:
                self.assertTrue(until(listens), "socat does not listen")
                yield
            finally:
                socat.terminate()
                socat.wait()

    @contextlib.contextmanager
    def judged(self, case, says=""):
        """A case: what is done in this context succeeds, and sessions say these lines alone."""
        with self.subTest(case):
            self.log.write_bytes(b"")
            yield
            released(self.work)
            self.assertEqual(said(says), self.log.read_bytes())

    def client(self, *command, status=0, fds=(), **how):
        """Runs a client, which must end with this status, and returns what it put out."""
        ended = self.run_command(list(map(str, command)), limit=CLIENT_LIMIT, **how)
        self.assertEqual(status, ended.status, f"{command} said: {ended.err[:300]!r}")
        return ended.out

    def runs(self, words, says="", puts=b"", given=b""):
        """The program runs on the array, between two sessions."""
        released(self.work)
        self.check_ended(self.run_program(words, input=given, folder=self.work, limit=CLIENT_LIMIT), 0, says, puts)

    def holds(self, data):
        """The array has these bytes."""
        self.runs(f"read 0 {self.array.blocks}", puts=data)

    def same(self, wanted, found):
        if wanted != found:
            self.fail(bytes_differ(wanted, found))
