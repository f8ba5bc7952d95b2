"""What the suites share: the program under test, and cases that run it in folders of image files.

A test method is one case. If it calls `expect`, `expect_in` or `step` with the name of a case (`case`), each of these calls is one.
All names of `arrays` and `streams` are exported too."""
import collections
import contextlib
import fcntl
import functools
import os
import pathlib
import select
import shutil
import signal
import subprocess
import tempfile
import time
import unittest

from arrays import *
from streams import *

# The tools that suites can use, and their Debian packages.
PACKAGES = {
    "ar": "binutils",
    "bash": "bash",
    "cc": "gcc",
    "ddrescue": "gddrescue",
    "debugfs": "e2fsprogs",
    "e2fsck": "e2fsprogs",
    "fish": "fish",
    "flock": "util-linux",
    "fusermount3": "fuse3",
    "gdb": "gdb",
    "git": "git",
    "groff": "groff",
    "losetup": "mount",
    "man": "man-db",
    "mandoc": "mandoc",
    "mke2fs": "e2fsprogs",
    "nbdcopy": "libnbd-bin",
    "nbdfuse": "libnbd-bin",
    "nbdinfo": "libnbd-bin",
    "nbdkit": "nbdkit",
    "nbdsh": "python3-libnbd",
    "qemu-img": "qemu-utils",
    "setpriv": "util-linux",
    "socat": "socat",
    "strace": "strace",
    "systemd-socket-activate": "systemd",
    "unshare": "util-linux",
    "zsh": "zsh",
}
# A tool that is installed may still lack a privilege: such a call shows it.
TRIALS = {"strace": ["strace", "-o", "/dev/null", "true"], "unshare": ["unshare", "-m", "true"]}

USAGE = (
    "usage: stair FOLDER check|stripe|restore|create|show|read|write|scrub|replace|rebuild|run|exercise|freeze|thaw|label|guard|report"
    "|serve|vinit|vmake|vdrop|vlist|vread|vwrite|plan"
)

# The lines of standard error if standard input or output fails. A closed input is the directory `/`.
INPUT_CLOSED = ["standard input: closed, or a directory", "input failed"]
INPUT_FAILED = ["standard input: Input/output error", "input failed"]
OUTPUT_CLOSED = ["standard output: Bad file descriptor", "output failed"]
OUTPUT_FULL = ["standard output: No space left on device", "output failed"]
OUTPUT_LEFT = ["standard output: Broken pipe", "output failed"]
OUTPUT_LIMITED = ["standard output: File too large", "output failed"]
NOWHERE = "nowhere: No such file or directory"

LIMIT = int(os.environ.get("STAIR_LIMIT", 60))  # seconds; a call that has not ended by then has failed

Ended = collections.namedtuple("Ended", "status out err left")


def program():
    """Returns the path of the program under test."""
    named = os.environ.get("STAIR_PROGRAM")
    return os.path.abspath(named) if named else str(TOP / "crates" / "stair_cli" / "out" / "stair_cli")


@functools.lru_cache(maxsize=None)
def is_there(name):
    """Returns whether a tool is installed and, if it is one of TRIALS, permitted to work."""
    if not shutil.which(name):
        return False
    return name not in TRIALS or subprocess.run(TRIALS[name], stdin=subprocess.DEVNULL, capture_output=True).returncode == 0


@functools.lru_cache(maxsize=None)
def public_program():
    """Returns the path of a copy of the program that each user can run."""
    path = shutil.copy(program(), shared() / "stair_cli")
    os.chmod(path, 0o755)
    return str(path)


def as_nobody():
    """Returns the command that runs another one as a user who owns nothing, or nothing if the tests are not run by root."""
    return ["setpriv", "--reuid=65534", "--regid=65534", "--clear-groups"] if os.getuid() == 0 else []


def mounted_read_only():
    """Returns the command that runs another one in its folder, mounted read-only."""
    mount = 'mount --bind . . && mount -o remount,bind,ro . && cd "$PWD" && exec "$@"'
    return ["unshare", "-m", "bash", "-c", mount, "bash"]


def failing(fault, path="dev02.img"):
    """Returns a function of the folder, for `wrap`: the strace command that runs another one and makes its calls on a file fail.

    The fault is that of strace's option `inject`, as `read:error=EIO:when=1`."""

    def words(folder):
        calls = fault.partition(":")[0]
        return ["strace", "-f", "-qq", "-o", "/dev/null", "-P", str(folder / path), "-e", f"trace={calls}", "-e", f"inject={fault}"]

    return words


def released(folder):
    """Waits until a killed program has released its locks on the folder and the devices."""
    for place in (folder, *images(folder)):
        with contextlib.suppress(OSError):
            end = os.open(place, os.O_RDONLY)
            fcntl.flock(end, fcntl.LOCK_EX)
            os.close(end)


def words_of(words):
    return words.split() if isinstance(words, str) else list(words)


def said(lines_said):
    """Returns the bytes of a line or of a list of lines. An empty text has none."""
    if isinstance(lines_said, bytes):
        return lines_said
    return lines(*([lines_said] if isinstance(lines_said, str) else lines_said)) if lines_said else b""


def put_wrapper(path, program):
    """Makes this path a script that has the options of the script `stair`, and runs this program."""
    tables = TOP / "scripts"
    path.write_text(f"#!/bin/sh\nset -u\nprogram='{program}' tables='{tables}'\n. '{tables}/options'\nrun_stair \"$@\"\n")
    path.chmod(0o755)


class Case(unittest.TestCase):
    """A test with a temporary folder, `self.room`, and in it the folder `self.work` for tests of many steps."""

    maxDiff = None

    def setUp(self):
        self.room = pathlib.Path(tempfile.mkdtemp(prefix="room-")).resolve()
        self.addCleanup(shutil.rmtree, self.room, ignore_errors=True)
        os.chmod(self.room, 0o755)
        self.work = self.room / "work"

    def needs(self, *tools):
        """Skips the case if one of these tools is missing."""
        for name in tools:
            if not is_there(name):
                self.skipTest(f"needs {name} (package {PACKAGES[name]})")

    def folder(self, name, source=None):
        """Makes a folder in the room, empty or a copy of another one, and returns it."""
        if source is not None:
            return copy(source, self.room / name)
        (self.room / name).mkdir()
        return self.room / name

    @contextlib.contextmanager
    def opened_input(self, given):
        """Opens an input: bytes as a file, a Pipe, a path, or an open file's descriptor. Yields its descriptor, and the thread that
        writes to it or None."""
        if isinstance(given, Pipe):
            source, thread = given.open()
        elif isinstance(given, (bytes, bytearray)):
            with regular(given) as file:
                yield file.fileno(), None
            return
        else:
            source, thread = (given if isinstance(given, int) else os.open(given, os.O_RDONLY)), None
        try:
            yield source, thread
        finally:
            if not isinstance(given, int):
                os.close(source)
            if thread is not None and thread.ident:
                thread.join()

    @contextlib.contextmanager
    def opened_output(self, wanted):
        """Opens an output: a file if None is given, a Reader, or a path. Yields its descriptor, and a function that returns what was
        written."""
        if isinstance(wanted, Reader):
            end, thread = wanted.open()
            thread.start()

            def taken():
                os.close(end)
                thread.join()
                return wanted.taken

            yield end, taken
        elif wanted is None:
            with tempfile.TemporaryFile() as file:
                yield file.fileno(), lambda: (file.seek(0), file.read())[1]
        else:
            end = os.open(wanted, os.O_WRONLY)
            yield end, lambda: (os.close(end), b"")[1]

    def command(self, words, at=".", wrap=(), closed=(), nobody=False):
        """Returns a whole command line: the commands that run the program, the program, its FOLDER unless None, and its arguments."""
        shell = closing(*closed) if closed else []
        user = [*as_nobody(), public_program()] if nobody else [program()]
        return [*wrap, *shell, *user, *([] if at is None else [at]), *words_of(words)]

    def run_program(self, words, input=b"", folder=None, at=".", wrap=(), out=None, err=None, nobody=False, env=None, limit=LIMIT, left=False):
        """Runs the program in a folder with these arguments. Returns its status, standard output, standard error and, if `left`, how
        many bytes of the input are left.

        A string of arguments is split at blanks. `at` is the FOLDER of the command line. `input`, `out` and `err` may be CLOSED. `wrap`
        is a command that runs the program, as ["flock", "."]. `at` and `wrap` may be functions of the folder."""
        folder = pathlib.Path(folder or self.room)
        wrap, at = (it(folder) if callable(it) else it for it in (wrap, at))
        closed = [number for number, stream in enumerate((input, out, err)) if stream is CLOSED]
        given, wanted, told = (None if stream is CLOSED else stream for stream in (input, out, err))
        command = self.command(words, at, wrap, closed, nobody)
        return self.run_command(command, b"" if given is None else given, folder, wanted, told, env, limit, left)

    def run_command(self, command, input=b"", folder=None, out=None, err=None, env=None, limit=LIMIT, left=False):
        """Does the same for a whole command line."""
        with self.opened_input(input) as (source, feeder), self.opened_output(out) as (output, put), self.opened_output(err) as (errors, told):
            process = subprocess.Popen(
                command,
                stdin=source,
                stdout=output,
                stderr=errors,
                cwd=folder or self.room,
                env={**os.environ, "LC_ALL": "C", **(env or {})},
                start_new_session=True,
            )
            if feeder is not None:
                feeder.start()
            try:
                status = process.wait(limit)
            except subprocess.TimeoutExpired:
                self.fail(f"{command} has not ended after {limit} seconds")
            finally:
                if process.poll() is None:
                    os.killpg(process.pid, signal.SIGKILL)
                    process.wait()
            return Ended(status, put(), told(), left_of(source, feeder) if left else None)

    def check_ended(self, ended, status, says, puts):
        """Fails if a run ended otherwise. `says` are all lines of standard error, `puts` all bytes of standard output."""
        found = f"ended with {ended.status}, put out {len(ended.out)} bytes, said: {ended.err[:300].decode(errors='replace')}"
        self.assertEqual((status, said(says)), (ended.status, ended.err), found)
        if ended.out != puts:
            self.fail(f"standard output: {bytes_differ(puts, ended.out)}\n{found}")

    def check_folder(self, folder, wanted):
        differs = difference(contents(wanted), contents(folder))
        if differs:
            self.fail(f"the folder differs:\n{differs}")

    def check_left(self, ended, left, case):
        if left is not None:
            with self.named(case and f"{case}: what is left of the input"):
                self.assertEqual(left, ended and ended.left, "bytes of the input are left")

    def named(self, case):
        return contextlib.nullcontext() if case is None else self.subTest(case)

    def expect_in(self, before, after, words, status=0, says="", puts=b"", left=None, case=None, change=None, undo=None, **how):
        """Runs the program in a copy of the folder `before`. Fails unless its status, its lines on standard error and its output are
        these, and the copy then has the files of the folder `after` and no others.

        `left`, which is checked as a case of its own, is how many bytes of the input are left. `change` and `undo` are called with the
        copy before and after the run. Other arguments are those of `run_program`."""
        with tempfile.TemporaryDirectory(dir=self.room) as place:
            os.chmod(place, 0o755)
            ended = None
            with self.named(case):
                folder = copy(before, pathlib.Path(place) / "folder")
                if change:
                    change(folder)
                ended = self.run_program(words, folder=folder, left=left is not None, **how)
                if undo:
                    undo(folder)
                self.check_ended(ended, status, says, puts)
                self.check_folder(folder, after)
            self.check_left(ended, left, case)

    def expect(self, words, status=0, says="", puts=b"", left=None, case=None, **how):
        """Does the same in an empty folder, which must stay empty."""
        self.expect_in(empty(), empty(), words, status, says, puts, left, case, **how)

    def begin(self, source):
        """Makes `self.work` a copy of this folder."""
        shutil.rmtree(self.work, ignore_errors=True)
        copy(source, self.work)

    def step(self, words, status=0, says="", puts=b"", left=None, case=None, **how):
        """Runs the program in `self.work`, which stays as it is for the next step. Fails as `expect_in` does, or if `self.work` has
        other files than image files."""
        ended = None
        with self.named(case):
            ended = self.run_program(words, folder=self.work, left=left is not None, **how)
            self.check_ended(ended, status, says, puts)
            strangers = [path for path in self.work.rglob("*") if not path.match("dev??.img")]
            self.assertEqual([], strangers, "the folder has other files")
        self.check_left(ended, left, case)

    def talk(self, words, **how):
        """Starts the program in `self.work` with pipes as its input and output, and returns the Talk with it."""
        talk = Talk(self.command(words, **how), self.work)
        self.addCleanup(talk.drop)
        return talk


class Talk:
    """A program that runs while the test sends input to it and reads its output."""

    def __init__(self, command, folder):
        self.err = tempfile.TemporaryFile()
        self.process = subprocess.Popen(
            command,
            stdin=subprocess.PIPE,
            stdout=subprocess.PIPE,
            stderr=self.err,
            bufsize=0,
            cwd=folder,
            env={**os.environ, "LC_ALL": "C"},
        )

    def send(self, *pieces, pause=0.01):
        for piece in pieces:
            self.process.stdin.write(piece)
            time.sleep(pause)

    def take(self, count, limit=10):
        """Returns the next bytes of the output: so many, or fewer if the output ends or `limit` seconds have passed."""
        return self.until(lambda taken: len(taken) == count, lambda taken: count - len(taken), limit)

    def line(self, limit=10):
        """Returns the next line of the output, with its end."""
        return self.until(lambda taken: taken.endswith(b"\n"), lambda taken: 1, limit)

    def until(self, is_whole, wanted, limit):
        taken, end = b"", time.monotonic() + limit
        while not is_whole(taken):
            ready, _, _ = select.select([self.process.stdout], [], [], max(0, end - time.monotonic()))
            piece = os.read(self.process.stdout.fileno(), wanted(taken)) if ready else b""
            if not piece:
                break
            taken += piece
        return taken

    def close_input(self):
        self.process.stdin.close()

    def close_output(self):
        self.process.stdout.close()

    def end(self, limit=LIMIT):
        """Waits until the program ends, and returns its status and its standard error."""
        status = self.process.wait(limit)
        self.err.seek(0)
        return status, self.err.read()

    def kill(self):
        self.process.kill()
        self.process.wait()

    def drop(self):
        if self.process.poll() is None:
            self.kill()
        self.err.close()
        with contextlib.suppress(OSError):
            self.process.stdin.close()
        self.process.stdout.close()
