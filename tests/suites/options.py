"""The options of the script `stair` that need a built program: --wait, --health and --metrics."""
import fcntl
import re

from common import wrote
from fixture import *

WAIT = "usage: stair --wait SECONDS FOLDER COMMAND .."
# Adds a line to the file `calls`, and ends with the status that the file `answers` has for this call. It takes its input unless that is 75.
SHIM = """#!/bin/sh
echo "$*" >> calls
status=$(sed -n "$(wc -l < calls)p" answers)
case $status in
  75) echo "$1: in use" >&2; exit 75 ;;
  held) exec sleep 300 ;;
esac
cat
exit "$status"
"""
METRICS = """\
# HELP stair_health Health of the array: 0 whole, 1 degraded or rebuilding, 2 not readable.
# TYPE stair_health gauge
stair_health{LABELS} 1
# HELP stair_devices Devices of the array in each state.
# TYPE stair_devices gauge
stair_devices{LABELS,state="live"} 5
stair_devices{LABELS,state="rebuilding"} 1
stair_devices{LABELS,state="down"} 0
stair_devices{LABELS,state="missing"} 2
# HELP stair_tolerance How many more devices may fail.
# TYPE stair_tolerance gauge
stair_tolerance{LABELS} 0
# HELP stair_epoch Number of the configuration of the slots.
# TYPE stair_epoch gauge
stair_epoch{LABELS} 2
# HELP stair_frozen Whether the array is read-only.
# TYPE stair_frozen gauge
stair_frozen{LABELS} 1
"""


class Options(Case):
    def setUp(self):
        super().setUp()
        self.stair = self.room / "stair"
        put_wrapper(self.stair, program())

    def call(self, *words, **how):
        return self.run_command([str(self.stair), *words], **how)


class Health(Options):
    def shows(self, case, folder, status, text, name="work", also=()):
        """The health of a folder is this line, and this status. The folder stays as it is."""
        with self.subTest(case):
            self.begin(folder)
            ended = self.call("--health", name)
            self.assertEqual((status, b"", 1), (ended.status, ended.err, ended.out.count(b"\n")))
            found = ended.out.decode().rstrip("\n")
            self.assertEqual(f"{name}: {text}", found) if not also else self.assertTrue(all(it in found for it in (text, *also)), found)
            self.check_folder(self.work, folder)

    def patched(self, array, changes):
        """Returns a copy of a new array whose second superblocks are of epoch 2, with these changes."""
        return patch(self.folder(f"{array.n} {changes}", array.fresh), f"1 87=02 95=02 {changes}")

    def without(self, folder, *slots):
        for slot in slots:
            image(folder, slot).unlink()
        return folder

    def test_whole(self):
        self.shows("four devices", FOUR.fresh, 0, "whole, 4 of 4 devices live, 1 more may fail")
        self.shows("eight devices", EIGHT.fresh, 0, "whole, 8 of 8 devices live, 2 more may fail")
        large = LARGEST.put_superblocks(blank(self.folder("large"), 4, 2))
        self.shows("a large array", large, 0, "whole, 4 of 4 devices live, 1 more may fail")
        # The label is `slot 0 down`.
        marked = self.patched(FOUR, "384=01736C6F74203020646F776E")
        self.shows("a label and a frozen mark", marked, 0, "whole, 4 of 4 devices live, 1 more may fail")

    def test_degraded(self):
        of_four = "degraded, 3 of 4 devices live, 0 more may fail; "
        self.shows("a device is gone", self.without(self.folder("one", FOUR.fresh), 0), 1, f"{of_four}slot 0 live 1 gone")
        self.shows("a slot is down", self.patched(FOUR, "114=030000000000000000"), 1, f"{of_four}slot 2 down")
        torn = self.folder("torn", FOUR.fresh)
        for at in 543, 1087:
            flip(image(torn, 1), at)
        self.shows("no superblock", torn, 1, f"{of_four}slot 1 live 1 no superblock")
        of_eight = "degraded, 7 of 8 devices live, 1 more may fail; slot 7 live 1 gone"
        self.shows("one of eight", self.without(self.folder("eight", EIGHT.fresh), 7), 1, of_eight)

    def test_the_reason_of_a_device(self):
        folder = self.without(self.folder("reason", FOUR.fresh), 2)
        image(folder, 2).mkdir()
        said_of_it = "dev02.img: no file and no block device", "slot 2 live 1 gone"
        self.shows("a folder", folder, 1, "work: degraded, 3 of 4 devices live, 0 more may fail; ", also=said_of_it)

    def test_rebuilding(self):
        of_four, of_eight = "3 of 4 devices live, 0 more may fail; ", "6 of 8 devices live, 0 more may fail; "
        rebuilt = "114=020000000000000001"
        self.shows("a slot", self.patched(FOUR, rebuilt), 1, f"rebuilding, {of_four}slot 2 rebuilding 1")
        both = self.without(self.patched(EIGHT, rebuilt), 5)
        self.shows("and another one is gone", both, 1, f"degraded, {of_eight}slot 2 rebuilding 1; slot 5 live 1 gone")
        another = self.patched(FOUR, "114=020000000000000002")
        self.shows("its device is another one", another, 1, f"degraded, {of_four}slot 2 rebuilding 2 other joined")

    def test_not_readable(self):
        self.shows("no array", FOUR.blank, 2, "not readable; no array")
        self.shows("two arrays", two_arrays(), 2, f"not readable; two arrays: {EIGHT.identity} {OTHER.identity}")
        self.shows("too few devices", two_left(), 2, "work: not readable; ", also=["too few devices: 0 gone, 1 gone"])
        self.shows("a folder that is not there", FOUR.fresh, 2, "nowhere: not readable; ", name="nowhere", also=["; no array"])

    def test_a_program_that_is_not_there(self):
        put_wrapper(self.stair, str(self.room / "none"))
        ended = self.call("--health", "work")
        self.assertEqual((2, b"", 1), (ended.status, ended.err, ended.out.count(b"\n")))
        self.assertTrue(ended.out.startswith(b"work: not readable; "), ended.out)

    def test_an_array_in_use(self):
        self.begin(FOUR.fresh)
        talk = self.talk("run")
        talk.send(lines("scrub 0"))
        self.assertEqual(b"scrubbed stripe 0 cells 0\n", talk.line())
        whole = lines("work: whole, 4 of 4 devices live, 1 more may fail")
        self.assertEqual((0, whole, b""), self.call("--health", "work")[:3])
        talk.close_input()
        self.assertEqual(0, talk.end()[0])

    def test_faulty_command_lines(self):
        for option in "--health", "--metrics":
            for words in [option], [option, "work", "show"]:
                with self.subTest(" ".join(words)):
                    self.assertEqual((2, b"", lines(f"usage: stair {option} FOLDER")), self.call(*words)[:3])
        with self.subTest("a folder of such a name"):
            self.folder("--health", FOUR.fresh)
            self.assertEqual((0, FOUR.shown(1, *FOUR.slots()), b""), self.call("./--health", "show")[:3])


class Metrics(Options):
    def test_an_array(self):
        """Slot 2 is being rebuilt, and the devices of two slots are missing."""
        array = Array(4, 8, 3, 2, [1], 3)
        folder = patch(self.folder('a "b\\c\n', array.fresh), "1 87=02 95=02 114=020000000000000001 384=01")
        for slot in 0, 7:
            image(folder, slot).unlink()
        ended = self.call("--metrics", folder.name)
        labels = 'folder="a \\"b\\\\c\\n",array="00000000000000000000000000000004"'
        self.assertEqual((0, METRICS.replace("LABELS", labels), b""), (ended.status, ended.out.decode(), ended.err))

    def test_a_whole_array(self):
        self.begin(FOUR.fresh)
        ended = self.call("--metrics", "work")
        labels = 'folder="work",array="00000000000000000000000000000004"'
        wanted = METRICS.replace("LABELS", labels).replace("} 2", "} 0").replace("} 1", "} 0")
        for name, value in ('devices{LABELS,state="live"}', 4), ("tolerance{LABELS}", 1), ("epoch{LABELS}", 1):
            name = name.replace("LABELS", labels)
            wanted = re.sub(rf"(?m)^stair_{re.escape(name)} .*$", f"stair_{name} {value}", wanted)
        self.assertEqual((0, wanted, b""), (ended.status, ended.out.decode(), ended.err))

    def test_no_array(self):
        """Neither nothing nor too few devices have an identity here, whatever else is said of them."""
        copy(two_left(), self.room / "few")
        for name in "nowhere", "few":
            with self.subTest(name):
                ended = self.call("--metrics", name)
                wanted = METRICS.partition("# HELP stair_devices")[0].replace("LABELS", f'folder="{name}",array=""').replace("} 1", "} 2")
                self.assertEqual((0, wanted, b""), (ended.status, ended.out.decode(), ended.err))

    def test_lines_of_standard_error(self):
        put_wrapper(self.stair, str(self.room / "program"))
        told = f"array {FOUR.identity}: n 4 m 1 r 2 e 1 stripes 3\nmissing: slot 0\ntoo few devices: 0 gone, 1 gone\n"
        (self.room / "program").write_text(f"#!/bin/sh\ncat >&2 << END\n{told}END\nexit 9\n")
        (self.room / "program").chmod(0o755)
        self.assertIn(b'{folder="work",array=""} 2\n', self.call("--metrics", "work").out)
        line = "work: not readable; " + told.strip().replace("\n", "; ")
        self.assertEqual((2, lines(line), b""), self.call("--health", "work")[:3])


class Wait(Options):
    def shim(self, *answers):
        """Has the script run a program that answers so, call by call."""
        (self.room / "program").write_text(SHIM)
        (self.room / "program").chmod(0o755)
        (self.room / "answers").write_bytes(lines(*map(str, answers)))
        (self.room / "calls").unlink(missing_ok=True)
        self.work.mkdir(exist_ok=True)
        put_wrapper(self.stair, str(self.room / "program"))

    def waits(self, case, answers, seconds, status, calls, puts=b"", **how):
        """A call ends with this status after so many calls of the program, and its last one has the whole input."""
        with self.subTest(case):
            self.shim(*answers)
            begun = time.monotonic()
            ended = self.call("--wait", str(seconds), "work", "write", "0", "1", input=ONE, **how)
            passed = time.monotonic() - begun
            told = ["work: in use"] * answers[:calls].count(75)
            if told and seconds:
                told.insert(1, f"stair: waiting for {seconds} seconds at most")
            self.assertEqual((status, puts, lines(*told)), ended[:3])
            self.assertEqual(["work write 0 1"] * calls, (self.room / "calls").read_text().splitlines())
            return passed

    def test_until_it_is_free(self):
        self.waits("at once", [0], 30, 0, 1, ONE)
        self.waits("a refusal", [75, 0], 30, 0, 2, ONE)
        self.waits("and its status", [75, 21], 30, 21, 2, ONE)
        passed = self.waits("others that come first", [75, 75, 75, 0], 50, 0, 4, ONE)
        self.assertTrue(passed is None or 3 <= passed, passed)

    def test_other_refusals(self):
        self.waits("another status", [15], 30, 15, 1, ONE)

    def test_until_the_time_is_over(self):
        self.waits("no time", [75, 0], 0, 75, 1)
        with self.subTest("two seconds"):
            self.shim(*[75] * 9)
            begun = time.monotonic()
            ended = self.call("--wait", "2", "work", "scrub")
            self.assertEqual((75, b""), ended[:2])
            self.assertTrue(1 < time.monotonic() - begun < 30)
            self.assertIn(len((self.room / "calls").read_text().splitlines()), range(1, 4))

    def test_a_small_system(self):
        """It has neither setpriv nor a view of locks."""
        tools = self.folder("tools")
        for name in "cat", "grep", "sed", "sh", "sleep", "wc":
            (tools / name).symlink_to(shutil.which(name))
        self.waits("only what there has to be", [75, 75, 0], 50, 0, 3, ONE, env={"PATH": str(tools)})

    def test_a_lock(self):
        """The command goes on when the lock is free, with its whole input."""
        self.begin(FOUR.fresh)
        held = os.open(self.work, os.O_RDONLY)
        fcntl.flock(held, fcntl.LOCK_EX)
        waits = lines("work: in use", "stair: waiting for 500 seconds at most")
        with open(self.room / "err", "wb") as err, regular(cells("01 02")) as given:
            words = [str(self.stair), "--wait", "500", "work", "write", "0", "2"]
            process = subprocess.Popen(words, cwd=self.room, stdin=given, stdout=subprocess.PIPE, stderr=err)
            self.until(lambda: (self.room / "err").read_bytes() == waits)
            os.close(held)
            self.assertEqual((wrote(2), 0), (process.communicate(timeout=LIMIT)[0], process.returncode))
        self.assertEqual(waits, (self.room / "err").read_bytes())
        self.step("read 0 3", puts=cells("01 02 00"))

    def test_a_lock_that_stays(self):
        self.begin(FOUR.fresh)
        before = contents(self.work)
        held = os.open(self.work, os.O_RDONLY)
        self.addCleanup(os.close, held)
        fcntl.flock(held, fcntl.LOCK_EX)
        ended = self.call("--wait", "3", "work", "write", "0", "1", input=Pipe(ONE), left=True)
        self.assertEqual((75, b"", len(ONE)), (ended.status, ended.out, ended.left))
        # On a busy machine the time may be over at once.
        self.assertIn(ended.err, [lines("work: in use"), lines("work: in use", "stair: waiting for 3 seconds at most", "work: in use")])
        self.assertEqual("", difference(before, contents(self.work)))
        with self.subTest("a command that takes no lock does not wait"):
            self.assertEqual((0, FOUR.shown(1, *FOUR.slots()), b""), self.call("--wait", "50", "work", "show")[:3])

    def test_many_at_once(self):
        """Each of eight commands has its turn."""
        self.begin(FOUR.fresh)
        calls = []
        for at in range(8):
            (self.room / f"{at}").write_bytes(filled(at + 1))
            with open(self.room / f"{at}", "rb") as given:
                words = [str(self.stair), "--wait", "50", "work", "write", f"{at}", "1"]
                calls.append(subprocess.Popen(words, cwd=self.room, stdin=given, stdout=subprocess.PIPE, stderr=subprocess.DEVNULL))
        found = [it.communicate(timeout=LIMIT)[0] for it in calls]
        self.assertEqual([(0, wrote(1))] * 8, [(it.returncode, out) for it, out in zip(calls, found)])
        self.step("read 0 8", puts=filled(*range(1, 9)))

    def test_a_script_that_is_killed(self):
        """Neither the program nor what waits for the lock outlives it."""
        self.needs("setpriv")
        for number in signal.SIGTERM, signal.SIGKILL:
            for case, answers in ("the program runs", ["held"]), ("it waits", [75, "held"]):
                with self.subTest(f"{case}, {number.name}"):
                    self.shim(*answers)
                    lock = os.open(self.work, os.O_RDONLY)
                    fcntl.flock(lock, fcntl.LOCK_EX)
                    process = subprocess.Popen([str(self.stair), "--wait", "50", "work", "scrub"], cwd=self.room, stderr=subprocess.DEVNULL)
                    self.addCleanup(lambda it=process: it.poll() is None and (it.kill(), it.wait()))
                    found = []
                    self.until(lambda: found.extend(children(process.pid, "sleep")) or found)
                    process.send_signal(number)
                    process.wait(LIMIT)
                    self.until(lambda: not is_running(found[0]))
                    os.close(lock)

    def until(self, is_so):
        end = time.monotonic() + LIMIT
        while not is_so():
            self.assertLess(time.monotonic(), end, "it is not so")
            time.sleep(0.02)

    def test_faulty_command_lines(self):
        for words in [], ["5"], ["5", "work"], ["work", "show", "5"]:
            with self.subTest(" ".join(words)):
                self.assertEqual((2, b"", lines(WAIT)), self.call("--wait", *words)[:3])
        for seconds in "", "-1", "05", "1s", "1.5", "1000000000":
            with self.subTest(f"{seconds!r} seconds"):
                self.assertEqual((2, b"", lines(WAIT)), self.call("--wait", seconds, "work", "show")[:3])


def children(process, name):
    """Returns the processes with this name whose parent is this one."""
    found = []
    for path in pathlib.Path("/proc").glob("[0-9]*/stat"):
        with contextlib.suppress(OSError):
            number, command, parent = re.fullmatch(r"(\d+) \((.*)\) \S+ (\d+) .*", path.read_text(), re.S).groups()
            if int(parent) == process and command == name:
                found.append(int(number))
    return found


def is_running(process):
    try:
        return pathlib.Path(f"/proc/{process}/stat").read_text().rpartition(") ")[2][0] not in "XZ"
    except OSError:
        return False
