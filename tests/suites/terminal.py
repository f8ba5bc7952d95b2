"""What a command shows on a terminal of how far it is, and the longest READ, over an array of 100,000 blocks."""
import os
import re
import signal
import subprocess
import time

from messages import *

LARGE = Array(8, 8, 2, 4, [1, 1, 2], 5000)
# How much of a whole is done, how many percent that are, and after a second how much a second, and the time that is left.
REACH = r"(?P<done>[0-9]+) of (?P<whole>{}), (?P<percent>[0-9]+) %"
PACE = r", (?P<rate>[0-9]+) a second(, ((?P<hours>[0-9]+) h )?((?P<minutes>[0-9]+) min ?)?((?P<seconds>[0-9]+) s)? left)?"
STRIPES = REACH.format("5000 stripes") + f"({PACE})?"
SECTORS = r"read [0-9]+ written [0-9]+ sectors"
SCRIPT = lines(*(f"scrub {stripe}" for stripe in range(5000)))


def has_devices(process):
    """Returns whether a process has opened devices."""
    files = f"/proc/{process.pid}/fd"
    try:
        return any(os.path.realpath(f"{files}/{it}").endswith(".img") for it in os.listdir(files))
    except OSError:
        return False  # it has just ended


def hold(process, works=(0.02,)):
    """Stops a process for a second once it has opened devices and worked for so many seconds, so that it works for more than a second;
    and again after each further time."""
    while process.poll() is None and not has_devices(process):
        time.sleep(0.002)
    for seconds in works:
        time.sleep(seconds)
        if process.poll() is None:
            process.send_signal(signal.SIGSTOP)
            time.sleep(1.05)
            process.send_signal(signal.SIGCONT)


class Progress(Story):
    def held(self, words, input, out, err, **how):
        """Runs a command in the folder of the story that is held for a second, or as often as `works` says, and returns its status."""
        process = subprocess.Popen([program(), ".", *words.split()], cwd=self.work, stdin=input, stdout=out, stderr=err)
        try:
            hold(process, **how)
            return process.wait(LIMIT)
        except subprocess.TimeoutExpired:
            process.kill()
            process.wait()
            self.fail(f"{words} has not ended after {LIMIT} seconds")

    def held_on_terminal(self, words, input, out, **how):
        """Runs a command with standard error on a terminal. Returns how it ended, and each line that was shown and then cleared."""
        terminal = Terminal()
        with regular(input) as given, open(out or self.room / "out", "wb") as file:
            status = self.held(words, given, file, terminal.theirs, **how)
        terminal.close()
        left, over = screen(terminal.written)
        put = b"" if out else (self.room / "out").read_bytes()
        return Ended(status, put, left.encode(), None), over

    def shows(self, case, words, pattern, status=0, says="", puts=b"", input=b"", out=None):
        """A command ends so with standard error on a terminal. Some of the lines that it shows and clears are of this pattern, and each of
        them is of this pattern or of that of sectors."""
        ended, over = self.held_on_terminal(words, input, out)
        with self.subTest(case):
            self.check_ended(ended, status, says, puts)
        with self.subTest(f"{case}: what is shown"):
            self.assertTrue([line for line in over if re.fullmatch(pattern, line)], f"no line is of {pattern}")
            self.assertEqual([], [line for line in over if not re.fullmatch(f"{pattern}|{SECTORS}", line)][:3])

    def paced(self, case, words, **how):
        """Some of the lines that a command shows have a rate and the time that is left. All are right in themselves."""
        _, over = self.held_on_terminal(words, **how)
        found = [it for it in (re.fullmatch(STRIPES, line) for line in over) if it]
        with self.subTest(case):
            self.assertTrue([it for it in found if it["rate"] and it["seconds"]], over[:3])
            for it in found:
                done = int(it["done"])
                self.assertEqual(100 * done // 5000, int(it["percent"]), it[0])
                if it["rate"] and it["seconds"] and not it["hours"]:
                    rate, left = int(it["rate"]), 60 * int(it["minutes"] or 0) + int(it["seconds"])
                    self.assertLessEqual(rate * left, 5000 - done, it[0])
                    self.assertLess(5000 - done, (rate + 1) * (left + 1), it[0])

    def scripts(self):
        """How much of a script is done is known if it is a file."""
        replies = lines(*(f"scrubbed stripe {stripe} cells 0" for stripe in range(5000)))
        of_bytes = REACH.format(f"{len(SCRIPT)} bytes of the script") + f"({PACE})?"
        self.shows("a script", "run", of_bytes, says=events(), puts=replies, input=SCRIPT)

    def sessions(self):
        """A session shows nothing: it may run in the background of a shell."""
        reads = request(READ, 0, LONGEST - 512)
        ended, over = self.held_on_terminal("serve", BEGUN + reads, None)
        with self.subTest("a session"):
            self.check_ended(ended, 0, "", greeted(512 * LARGE.blocks) + reply() + bytes(LONGEST - 512))
            self.assertEqual([], over)

    def test_commands(self):
        blank(self.work, LARGE.n, LARGE.sectors)
        self.shows("an array", "create", STRIPES, puts=LARGE.created, input=LARGE.text)
        self.damage(3, 20034)
        # The event is reported over what is shown.
        says = ["repaired stripe 4999 cells 1", bad(3, 1), *OUTPUT_FULL]
        self.shows("a scrub", "scrub", STRIPES, 6, says, out="/dev/full")
        self.shows("a read", "read 0 100000", STRIPES, out="/dev/null")
        self.paced("a scrub and its pace", "scrub", input=b"", out=None, works=(0.02, 0.1))
        self.scripts()
        self.sessions()
        self.damage(3, 20034)
        self.held_off_terminals()
        self.longest_reads()

    def held_off_terminals(self):
        """Elsewhere nothing of this is shown."""
        out, err = self.room / "out", self.room / "err"
        with open(out, "wb") as put, open(err, "wb") as told:
            status = self.held("scrub", subprocess.DEVNULL, put, told)
        with self.subTest("a scrub on no terminal"):
            ended = Ended(status, out.read_bytes(), err.read_bytes(), None)
            self.check_ended(ended, 0, ["repaired stripe 4999 cells 1", bad(3, 1)], lines("scrubbed 5000 stripes cells 1"))

    def longest_reads(self):
        """At an odd offset the longest READ touches a block more than it fills. A READ of a byte more is refused."""
        self.step("write 0 1", puts=wrote(1), input=ONE, case="a block at its beginning")
        self.step("write 65536 1", puts=wrote(1), input=FF, case="a block at its end")
        found = ONE[1:] + bytes(LONGEST - 512) + b"\xff"
        given = BEGUN + request(READ, 1, LONGEST) + request(READ, 0, LONGEST + 1)
        answers = greeted(512 * LARGE.blocks) + reply() + found + reply(EINVAL)
        self.step("serve", puts=answers, input=Pipe(given), case="the longest READ")
