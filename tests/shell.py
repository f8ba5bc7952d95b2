"""Cases that run the sessions of a document in a shell."""
import contextlib
import difflib
import functools
import os
import pathlib
import re
import select
import signal
import subprocess
import tempfile
import time

from documents import is_printed, sessions
from fixture import LIMIT, PACKAGES, TOP, Case, is_there, program, put_wrapper

# Takes commands from standard input, each ended by a zero byte. What a command prints goes to the file $1, and then its status to standard
# output. A command finds the status of the one before in `$?`.
DRIVER = r"""
_gives() { return "$1"; }
_status=0
while IFS= read -r -d '' _command; do
  _gives "$_status"
  eval "$_command" < /dev/null > "$1" 2>&1
  _status=$?
  echo "$_status"
done
"""


class Stopped(Exception):
    """A command has not ended, or has ended the shell. No other command can be run."""


class Shell:
    """A bash in the folder `work` of a room, which is an empty folder. `stair` on its path is the script `stair`, and `stair-verify` and
    `stair-salvage` are those of `scripts`."""

    def __init__(self, room):
        self.room, self.printed, self.why = room, room / "printed", None
        for name in "bin", "home", "tmp", "work":
            (room / name).mkdir()
        put_script(room / "bin" / "stair")
        for name in "verify", "salvage":
            (room / "bin" / f"stair-{name}").symlink_to(TOP / "scripts" / name)
        own = {"PATH": f"{room / 'bin'}:{os.environ['PATH']}", "HOME": str(room / "home"), "TMPDIR": str(room / "tmp"), "STAIR_ROOM": str(room)}
        self.process = subprocess.Popen(
            ["bash", "--norc", "-c", DRIVER, "bash", str(self.printed)],
            stdin=subprocess.PIPE,
            stdout=subprocess.PIPE,
            stderr=subprocess.DEVNULL,
            bufsize=0,
            cwd=room / "work",
            env={**os.environ, "LC_ALL": "C", "BASH_ENV": "", **own},
            start_new_session=True,
        )

    def run(self, command, limit=LIMIT):
        """Runs a command. Returns its status, and what it printed, to which the end of the last line is added if it has none. Raises Stopped
        if the command ends the shell, or has not ended after so many seconds."""
        if self.why:
            raise Stopped(f"not run, since {self.why}")
        self.printed.unlink(missing_ok=True)
        with contextlib.suppress(BrokenPipeError):
            self.process.stdin.write(command.encode() + b"\0")
        answer = self.answer(limit)
        if not answer.isdigit():
            self.why = answer
            raise Stopped(answer)
        text = self.printed.read_bytes().decode(errors="backslashreplace")
        return int(answer), text if not text or text.endswith("\n") else f"{text}\n"

    def answer(self, limit):
        """Returns the digits of the status of the command, or why there is none."""
        answer, end = b"", time.monotonic() + limit
        while not answer.endswith(b"\n"):
            if not select.select([self.process.stdout], [], [], max(0, end - time.monotonic()))[0]:
                return f"a command has not ended after {limit} seconds"
            piece = os.read(self.process.stdout.fileno(), 1)
            answer += piece
            if not piece:
                break
        # Nothing else is printed there, unless by a trap as the shell ends.
        status = answer.decode(errors="replace").removesuffix("\n")
        return status if status.isdigit() else "a command has ended the shell"

    def close(self):
        """Ends the shell and all processes that it began, and releases what is mounted in the room."""
        os.killpg(self.process.pid, signal.SIGKILL)
        self.process.wait()
        end = time.monotonic() + 10
        while (found := processes_of(self.room)) and time.monotonic() < end:
            for number in found:
                with contextlib.suppress(OSError):
                    os.kill(number, signal.SIGKILL)
            time.sleep(0.01)
        self.process.stdin.close()
        self.process.stdout.close()
        release(self.room)


def put_script(path):
    """Makes this path the script `stair`. If STAIR_PROGRAM names a program, the script runs that one, and builds nothing."""
    if "STAIR_PROGRAM" not in os.environ:
        path.symlink_to(TOP / "stair")
        return
    put_wrapper(path, program())
    own = f"case ${{1-}} in --build) exit ;; --help | --version | --install | --uninstall) exec '{TOP}/stair' \"$@\" ;; esac\n"
    path.write_text(path.read_text().replace("run_stair", f"{own}run_stair"))


def processes_of(room):
    """Returns the numbers of the processes that were begun by shells in a room, or in folders of it, and have not ended."""
    found, mark = [], os.fsencode(f"STAIR_ROOM={room}")
    for place in pathlib.Path("/proc").glob("[0-9]*/environ"):
        with contextlib.suppress(OSError):
            if any(it.startswith(mark) for it in place.read_bytes().split(b"\0")):
                found.append(int(place.parent.name))
    return found


def release(room):
    """Unmounts what is mounted in a room, and detaches the loop devices of its files."""
    for line in reversed(pathlib.Path("/proc/self/mountinfo").read_text().splitlines()):
        place = re.sub(r"\\(\d{3})", lambda it: chr(int(it[1], 8)), line.split()[4])
        if pathlib.Path(place).is_relative_to(room):
            subprocess.run(["fusermount3", "-uz", place] if os.getuid() else ["umount", "-l", place], stderr=subprocess.DEVNULL)
    for path in pathlib.Path("/sys/block").glob("loop*/loop/backing_file"):
        with contextlib.suppress(OSError):
            if pathlib.Path(path.read_text().rstrip("\n")).is_relative_to(room):
                subprocess.run(["losetup", "--detach", f"/dev/{path.parts[3]}"], stderr=subprocess.DEVNULL)


@functools.lru_cache(maxsize=None)
def has_loop_devices():
    if not is_there("losetup"):
        return False
    with tempfile.NamedTemporaryFile() as file:
        file.truncate(512)
        made = subprocess.run(["losetup", "--find", "--show", file.name], stdout=subprocess.PIPE, stderr=subprocess.DEVNULL)
        return made.returncode == 0 and subprocess.run(["losetup", "--detach", made.stdout.decode().strip()]).returncode == 0


# What a session may need, apart from packages.
CONDITIONS = {
    "root": lambda: os.getuid() == 0,
    "loop": has_loop_devices,
    "fuse": lambda: os.access("/dev/fuse", os.R_OK | os.W_OK),
}


class Documented(Case):
    """Cases of documents. The sessions of one are run in order in one shell, and each of them is a case."""

    limit = LIMIT  # seconds for a command

    def run_sessions(self, path):
        """Runs the sessions of a document. It must have one."""
        found = sessions(path.read_text())
        self.assertTrue(found, f"{path} has no session")
        with contextlib.closing(Shell(pathlib.Path(tempfile.mkdtemp(dir=self.room)))) as shell:
            for session in found:
                with self.subTest(f"{path.name}:{session.line}"):
                    self.needs_all(session.needs)
                    faults = [f"{path.name}:{step.line}: {fault}" for step in session.steps for fault in self.faults_of(shell, step)]
                    if faults:
                        self.fail("\n".join(faults))

    def needs_all(self, needs):
        """Skips the case if one of these needs is missing. Fails if one is neither a condition nor a package that suites can use."""
        for need in needs:
            tools = [tool for tool, package in PACKAGES.items() if package == need]
            if need not in CONDITIONS and not tools:
                self.fail(f"{need} is no condition of tests/shell.py and no package of tests/fixture.py")
            if not (CONDITIONS[need]() if need in CONDITIONS else all(map(is_there, tools))):
                self.skipTest(f"needs {need}" if need in CONDITIONS else f"needs {' and '.join(tools)} (package {need})")

    def faults_of(self, shell, step):
        """Yields what is wrong with a step."""
        try:
            status, text = shell.run(step.command, self.limit)
        except Stopped as why:
            yield f"{step.command}\n{why}"
            return
        if status != step.status:
            yield f"{step.command}\nended with {status}, not {step.status}"
        if not is_printed(step.printed, text):
            yield "\n".join([step.command, "printed other lines:", *difflib.ndiff(step.printed, text.splitlines())])
