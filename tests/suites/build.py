"""The script `stair` and how it builds the program, over a repository of four crates and a kit that writes programs without a proof."""
import os
import re
import shlex
import shutil
import signal
import subprocess

from fixture import *

# `rattle build` writes a library, which is the crate's text over those of the libraries below, or a program that prints its words, and for
# the word `processor` the one that it was built for. Each proof adds a line to the file `proofs` of the kit. A crate whose text has the
# word `wrong` is not proved. What else happens to a proof is in a file `fault.CRATE` of the kit: `held` until it is killed, its process
# being in the file `held`; `slow`; `killed` once it wrote the library; `large`, and then killed if it has more than one job.
RT = r"""#!/usr/bin/env bash
case $1 in
  version) echo "${KIT_VERSION:-a kit that proves nothing}" ;;
  doc) echo "${0%/*}/START-HERE.md" ;;
  *) exit 2 ;;
esac
"""
RATTLE = r"""#!/usr/bin/env bash
kit=${0%/bin/*} below=() fault=
[ "$1" = build ] || exit 2
shift
while [ $# -gt 0 ]; do
  case $1 in
    --crate-name) crate=$2 ;;
    --extern) case $2 in "${2%%=*}=$kit"/rlibs/*) ;; *) below+=("${2#*=}/format") ;; esac ;;
    --jobs) jobs=$2 ;;
    --cpu) cpu=$2 ;;
    -o) to=$2 ;;
    --statements | src/lib.rt | src/main.rt) shift; continue ;;
  esac
  shift 2
done
echo "proving $crate"
echo "$crate" >> "$kit/proofs"
[ ! -e "$kit/fault.$crate" ] || fault=$(< "$kit/fault.$crate")
if grep -q wrong src/lib.rt; then
  echo "error: $crate is wrong"
  exit 1
fi
case $fault in
  held)
    echo $$ > "$kit/new"
    mv "$kit/new" "$kit/held"
    exec sleep 300
    ;;
  large) [ "$jobs" = 1 ] || kill -KILL $$ ;;
  slow) sleep 2 ;;
esac
if [ -n "${cpu-}" ]; then
  cat "${below[@]}" > /dev/null || exit 2
  printf '#!/bin/sh\n# %s\n[ "$1" != processor ] || set -- %s\necho "$@"\n' "$(cat src/lib.rt)" "$cpu" > "$to"
else
  text=$(cat src/lib.rt "${below[@]}") || exit 2
  mkdir -p "$to"
  echo "$text" > "$to/format"
fi
[ "$fault" != killed ] || kill -KILL $$
"""
LINK = r"""#!/usr/bin/env bash
while [ "$1" != -o ]; do shift; done
if grep -q unlinked "$3"; then
  echo "error: an unknown symbol"
  exit 1
fi
cp "$3" "$2"
chmod +x "$2"
"""
# Builds on a processor with the features that its words name, and runs the program with the word `processor`. JOBS is how many processors
# there are, MINUTE how many seconds a minute has, and CRATE the program, if it isn't the usual one.
ON = """#!/usr/bin/env bash
top=${0%/*}
. "$top/scripts/build"
words=$* minute=${MINUTE:-$minute}
features() { echo "$words"; }
[ -z "${JOBS-}" ] || lanes_that_fit() { echo "$JOBS"; }
build stair "${CRATE:-stair_cli}" 'a while'
exec "$program" processor
"""
CRATES = "low", "high", "stair_cli", "other"
KIT = "rattle-kit-13f logic dac8208d650f15bf"
TABLE = [re.split("  +", line) for line in (TOP / "scripts" / "commands").read_text().splitlines()]
# So that no sum is within half a minute below whole minutes.
LAST_TIME = "low 560", "high 300", "stair_cli 70"
LOG = "(log: crates/stair_cli/out/build.log)"
FIRST = "stair: building once: 3 crates to prove, 10 to 30 minutes on 4 cores " + LOG
FIRST_ON = "stair: building once: 3 crates to prove, a while " + LOG
AGAIN = "stair: building again: {} crates to prove, about 1 min " + LOG
ON_WITH = "stair: going on with the build: {} crates to prove " + LOG
BUILT = "stair: built in TIME"
NOT_BUILT = "stair: not built, see crates/stair_cli/out/build.log"
WIDE = "fpu sse4_2 popcnt avx f16c fma abm movbe bmi1 avx2 bmi2 avx512f".split()


def without(feature):
    return [it for it in WIDE if it != feature]


def write_script(path, text):
    path.write_text(text)
    path.chmod(0o755)


def told(text):
    """Returns the lines of standard error, apart from times and numbers of jobs."""
    return re.sub(", jobs: [0-9]+,", "", re.sub("[0-9]+m[0-9]+s$", "TIME", text, flags=re.MULTILINE)).splitlines()


def heed_signals():
    """A shell that began to ignore a signal can't do otherwise, and who runs the tests may have it ignored."""
    for number in signal.SIGINT, signal.SIGTERM, signal.SIGHUP:
        signal.signal(number, signal.SIG_DFL)


def is_running(process):
    try:
        state = pathlib.Path(f"/proc/{process}/stat").read_text().rpartition(") ")[2][0]
    except OSError:
        return False
    return state not in "XZ"


class Build(Case):
    def setUp(self):
        super().setUp()
        self.kit, self.repository = self.folder("kit"), self.folder("a repository")
        self.out = self.repository / "crates" / "stair_cli" / "out"
        self.env = {"PATH": f"{self.kit}:{os.environ['PATH']}"}
        (self.kit / "bin").mkdir()
        for path, text in ("rt", RT), ("bin/rattle", RATTLE), ("bin/rattle-link", LINK):
            write_script(self.kit / path, text)
        write_script(self.repository / "on", ON)
        for name in "stair", "scripts", "VERSION", "KIT":
            copy(TOP / name, self.repository / name)
        (self.room / "link").symlink_to(self.repository / "stair")
        self.uses("low:", "high: low byteorder", "other: low", "stair_cli: high")
        for crate in CRATES:
            self.source(crate, "tests/case.rt").parent.mkdir(parents=True)
            self.source(crate).write_text("proved\n")

    def uses(self, *crates):
        (self.repository / "crates.txt").write_bytes(lines("# Crates.", *crates))

    def source(self, crate, path="lib.rt"):
        return self.repository / "crates" / crate / "src" / path

    def touch(self, crate, path="lib.rt"):
        self.source(crate, path).touch()

    def change(self, crate, text="proved again"):
        self.source(crate).write_text(f"{text}\n")

    def proofs(self):
        """Returns the crates that the kit proved since the last call."""
        path = self.kit / "proofs"
        found = path.read_text().split() if path.exists() else []
        path.unlink(missing_ok=True)
        return found

    def stair(self, *words, **env):
        return self.run_command([str(self.room / "link"), *words], env={**self.env, **env})

    def builds(self, case, status, puts, *says, proofs=None, command=None, **env):
        """A call, of the script by its link with the word `word` if no other is given, ends so, and the kit then proved these crates."""
        with self.subTest(case):
            ended = self.run_command(command or [str(self.room / "link"), "word"], env={**self.env, **env})
            found = self.proofs()
            self.assertEqual((status, lines(puts) if puts else b"", list(says)), (ended.status, ended.out, told(ended.err.decode())))
            if proofs is not None:
                self.assertEqual(list(proofs), found)

    def build_first(self):
        ended = self.stair("word")
        self.assertEqual((0, b"word\n"), (ended.status, ended.out))
        self.proofs()

    def fault(self, crate, what):
        path = self.kit / f"fault.{crate}"
        path.write_text(what) if what else path.unlink()

    def lack_setpriv(self):
        """Makes the system one on which nothing but the script itself ends the kit's runs."""
        write_script(self.kit / "setpriv", "#!/bin/sh\nexit 1\n")

    def wait_until(self, is_so, what):
        end = time.monotonic() + LIMIT
        while not is_so():
            self.assertLess(time.monotonic(), end, f"{what} is not so after {LIMIT} seconds")
            time.sleep(0.02)

    def begin(self, err, command=None, **env):
        """Begins a call whose standard error is this file."""
        process = subprocess.Popen(
            command or [str(self.room / "link"), "word"],
            cwd=self.room,
            env={**os.environ, "LC_ALL": "C", **self.env, **env},
            stdin=subprocess.DEVNULL,
            stdout=subprocess.DEVNULL,
            stderr=err,
            start_new_session=True,
            preexec_fn=heed_signals,
        )
        self.addCleanup(self.end, process)
        return process

    def end(self, process):
        if process.poll() is None:
            os.killpg(process.pid, signal.SIGKILL)
            process.wait()

    def begin_held(self, crate, err, **how):
        """Begins a call, and returns it and the run of the kit for this crate, which is held."""
        self.fault(crate, "held")
        process = self.begin(err, **how)
        self.wait_until((self.kit / "held").exists, f"the proof of {crate}")
        self.fault(crate, None)
        run = int((self.kit / "held").read_text())
        (self.kit / "held").unlink()
        self.addCleanup(lambda: is_running(run) and os.kill(run, signal.SIGKILL))
        return process, run


class Script(Build):
    def test_builds(self):
        self.builds("a first build", 0, "word", FIRST, BUILT, proofs=["low", "high", "stair_cli"])
        self.builds("a second call", 0, "word", proofs=[])
        self.touch("low", "tests/case.rt")
        self.touch("other")
        self.builds("a change of tests and of a crate that the program does not use", 0, "word", proofs=[])
        self.change("high")
        self.builds("a change", 0, "word", AGAIN.format("2 of 3"), BUILT, proofs=["high", "stair_cli"])
        self.touch("low")
        self.builds("a file that is written anew, with the same text", 0, "word", AGAIN.format("1 of 3"), BUILT, proofs=["stair_cli"])
        self.change("stair_cli")
        self.builds("a change after it", 0, "word", AGAIN.format("1 of 3"), BUILT, proofs=["stair_cli"])
        self.uses("low: byteorder", "high: low byteorder", "other: low", "stair_cli: high")
        self.builds("another library of the kit", 0, "word", AGAIN.format("3 of 3"), BUILT, proofs=["low", "high", "stair_cli"])
        self.change("stair_cli", "proved once more")
        every = dict(KIT_VERSION="another kit", proofs=["low", "high", "stair_cli"])
        self.builds("a change under another kit", 0, "word", AGAIN.format("3 of 3"), BUILT, **every)
        shutil.rmtree(self.repository / "crates" / "low" / "out")
        self.builds("a library that is gone, beside a program that is current", 0, "word", proofs=[])
        (self.out / "stair_cli").unlink()
        once = f"stair: building once: 3 crates to prove, about 1 min {LOG}"
        self.builds("a library that is gone", 0, "word", once, BUILT, **every)

    def test_two_programs(self):
        """A library that was proved over others than stand below it now is proved anew."""
        self.build_first()
        self.change("low")
        call = [str(self.repository / "on")]
        other = "stair: building once: 2 crates to prove, a while (log: crates/other/out/build.log)"
        self.builds("another program", 0, "x86-64-v2", other, BUILT, command=call, proofs=["low", "other"], CRATE="other")
        self.builds("the program", 0, "word", AGAIN.format("2 of 3"), BUILT, proofs=["high", "stair_cli"])

    def test_a_failed_build(self):
        self.build_first()
        self.change("low")
        self.change("high", "wrong")
        # The end of the log follows.
        log = "== low at TIME", "proving low", "== high at TIME", "proving high", "error: high is wrong", "== high ended with status 1"
        self.builds("a failed build", 126, "", AGAIN.format("3 of 3"), *log, NOT_BUILT, proofs=["low", "high"])
        with self.subTest("the earlier binary stays"):
            self.assertTrue(os.access(self.out / "stair_cli", os.X_OK))
            self.assertFalse((self.out / "logs").exists())
        self.change("high")
        self.builds("the next build", 0, "word", AGAIN.format("2 of 3"), BUILT, proofs=["high", "stair_cli"])

    def test_a_failed_program(self):
        self.change("stair_cli", "wrong")
        log = "== low at TIME", "proving low", "== high at TIME", "proving high"
        log += "== stair_cli at TIME", "proving stair_cli", "error: stair_cli is wrong", "== stair_cli ended with status 1"
        self.builds("a failed build", 126, "", FIRST, *log, NOT_BUILT)
        self.change("stair_cli")
        self.builds("the next build", 0, "word", ON_WITH.format("1 of 3"), BUILT, proofs=["stair_cli"])

    def test_a_program_that_is_not_linked(self):
        self.change("stair_cli", "unlinked")
        log = "== low at TIME", "proving low", "== high at TIME", "proving high", "== stair_cli at TIME", "proving stair_cli"
        self.builds("a failed build", 126, "", FIRST, *log, "error: an unknown symbol", NOT_BUILT)
        self.assertFalse((self.out / "stair_cli").exists())
        self.change("stair_cli")
        going_on = ON_WITH.replace("prove", "prove, about 1 min").format("1 of 3")
        self.builds("the next build", 0, "word", going_on, BUILT, proofs=["stair_cli"])

    def test_a_failed_build_ends_other_runs(self):
        self.lack_setpriv()
        self.uses("low:", "high:", "stair_cli: low high")
        self.change("high", "wrong")
        with open(self.room / "err", "wb") as err:
            process, run = self.begin_held("low", err, command=[str(self.repository / "on")], JOBS="2")
            self.assertEqual(126, process.wait(LIMIT))
        self.assertFalse(is_running(run))

    def test_no_kit(self):
        tools = self.folder("tools")
        for name in "bash", "cat", "dirname", "find", "readlink", "sed":
            (tools / name).symlink_to(shutil.which(name))
        self.env["PATH"] = str(tools)
        no_kit = lines(f"stair: the kit's command rt is not on the path: install {KIT}")
        for words in ["word"], ["--build"]:
            with self.subTest(f"{words}"):
                self.assertEqual((126, b"", no_kit), self.stair(*words)[:3])
        with self.subTest("--version"):
            puts = lines("stair 1.0.0", "kit none: its command rt is not on the path")
            self.assertEqual((0, puts, b""), self.stair("--version")[:3])
        with self.subTest("--help"):
            self.assertEqual((0, b""), self.stair("--help")[::2])

    def test_a_kit_that_does_not_run(self):
        write_script(self.kit / "bin/rattle", "#!/bin/sh\necho 'rattle: no such logic' >&2\nexit 2\n")
        log = "== low at TIME", "rattle: no such logic", "== low ended with status 2"
        self.builds("a build", 126, "", FIRST, *log, NOT_BUILT)
        write_script(self.kit / "rt", "#!/bin/sh\necho 'rt: no such toolchain' >&2\nexit 127\n")
        self.builds("a build without its scripts", 126, "", "rt: no such toolchain", "stair: the kit's command rt failed")
        with self.subTest("--version"):
            puts = lines("stair 1.0.0", "kit unknown: rt version failed")
            self.assertEqual((0, puts, b""), self.stair("--version")[:3])

    def test_a_kit_that_is_killed(self):
        """A library counts only if the run of the kit that wrote it ended with 0."""
        self.fault("high", "killed")
        log = "== low at TIME", "proving low", "== high at TIME", "proving high", "== high ended with status 137"
        call = [str(self.repository / "on")]
        self.builds("a build", 126, "", FIRST_ON, *log, NOT_BUILT, proofs=["low", "high"], command=call, JOBS="1")
        self.fault("high", None)
        self.builds("the next build", 0, "word", ON_WITH.format("2 of 3"), BUILT, proofs=["high", "stair_cli"])

    def test_a_kit_that_lacks_memory(self):
        """A proof that is killed is begun once more, with one job."""
        self.fault("high", "large")
        every = dict(command=[str(self.repository / "on")], JOBS="2", proofs=["low", "high", "high", "stair_cli"])
        self.builds("a build", 0, "x86-64-v2", FIRST_ON, BUILT, **every)
        found = re.findall("^== ([a-z_]+), jobs: ([0-9]+)", (self.out / "build.log").read_text(), re.M)
        self.assertEqual([("low", "2"), ("high", "2"), ("high", "1"), ("stair_cli", "2")], found)


class Options(Build):
    def builds_nothing(self):
        self.assertEqual([], self.proofs())
        self.assertFalse(self.out.exists())

    def test_build(self):
        call = [str(self.room / "link"), "--build"]
        self.builds("a first build", 0, "", FIRST, BUILT, command=call, proofs=["low", "high", "stair_cli"])
        self.builds("a second one", 0, "", command=call, proofs=[])
        self.builds("a call of the program", 0, "word", proofs=[])
        self.change("low", "wrong")
        log = "== low at TIME", "proving low", "error: low is wrong", "== low ended with status 1"
        self.builds("a failed build", 126, "", AGAIN.format("3 of 3"), *log, NOT_BUILT, command=call)

    def test_help(self):
        ended = self.stair("--help")
        self.assertEqual((0, b""), (ended.status, ended.err))
        found = [re.split("  +", line.strip()) for line in ended.out.decode().splitlines()]
        for row in TABLE:
            with self.subTest(row[0]):
                self.assertIn(row, found)
        for option in "--build", "--help", "--version", "--health FOLDER", "--install [PREFIX]":
            with self.subTest(option):
                self.assertIn(option, [row[0] for row in found])
        with self.subTest("lines of a terminal"):
            self.assertEqual([], [line for line in ended.out.decode().splitlines() if len(line) > 80])
        with self.subTest("nothing is built"):
            self.builds_nothing()

    def test_the_table(self):
        """It has the commands of the man page, with their operands, and a text for each."""
        page = (TOP / "docs" / "stair.1").read_text()
        synopsis = page[page.index(".SH SYNOPSIS") : page.index(".SH DESCRIPTION")]
        wanted = ["".join(shlex.split(line)[1:]) for line in synopsis.splitlines() if line.startswith(".BI")]
        found = [row[0] for row in TABLE if not row[0].startswith("--")]
        self.assertEqual(sorted(it.removeprefix("stair FOLDER ") for it in wanted), sorted(found))
        self.assertEqual([], [row for row in TABLE if len(row) != 2])

    def test_version(self):
        version = "stair " + (TOP / "VERSION").read_text().strip()
        self.assertEqual("stair 1.0.0", version)
        kit = "kit a kit that proves nothing"
        with self.subTest("no commit"):
            self.assertEqual((0, lines(version, kit), b""), self.stair("--version")[:3])
        with self.subTest("nothing is built"):
            self.builds_nothing()

    def commit(self, folder):
        """Makes a folder a repository of git, with a commit, and returns its name."""
        who = ["-c", "user.name=nobody", "-c", "user.email=nobody@example.invalid"]
        for words in ["init", "-q"], [*who, "commit", "-q", "--allow-empty", "-m", "first"]:
            self.assertEqual(0, self.run_command(["git", *words], folder=folder).status)
        return self.run_command(["git", "rev-parse", "HEAD"], folder=folder).out.decode().strip()

    def test_the_commit(self):
        self.needs("git")
        version, kit = "stair 1.0.0", "kit a kit that proves nothing"
        self.commit(self.room)
        with self.subTest("the commit of a repository around it"):
            self.assertEqual((0, lines(version, kit), b""), self.stair("--version")[:3])
        name = self.commit(self.repository)
        with self.subTest("its own commit"):
            self.assertEqual((0, lines(version, f"commit {name}", kit), b""), self.stair("--version")[:3])

    def test_other_words(self):
        """An option counts as the first and only word."""
        self.build_first()
        for words in (
            ["--help", "show"],
            ["show", "--help"],
            ["--build", "--build"],
            ["--version", ""],
            ["./--help", "show"],
            ["./--build"],
            ["--hel"],
            ["-h"],
            ["--"],
            [" --help"],
            [],
        ):
            with self.subTest(f"{words}"):
                # The program is called, and puts out its words.
                self.assertEqual((0, " ".join(words).encode() + b"\n", b""), self.stair(*words)[:3])


class Interrupted(Build):
    """A build that is interrupted leaves what it proved, and the next one goes on."""

    def interrupts(self, case, crate, send, number, begun, proved):
        """A call is ended by a signal while a crate is proved, and leaves neither the run of the kit nor its log."""
        with self.subTest(case):
            with open(self.room / "err", "wb") as err:
                process, run = self.begin_held(crate, err)
                send(process.pid, number)
                self.assertEqual(-number, process.wait(LIMIT))
            says = f"stair: interrupted: {proved} crates are proved, and the next build goes on from there"
            self.assertEqual([begun, says], told((self.room / "err").read_text()))
            self.assertFalse(is_running(run))
            self.assertFalse((self.out / "logs").exists())

    def test_a_first_build(self):
        self.lack_setpriv()
        # Ctrl-C reaches all processes of a terminal, the others one.
        self.interrupts("Ctrl-C", "high", os.killpg, signal.SIGINT, FIRST, "1 of 3")
        self.assertEqual(["low", "high"], self.proofs())
        self.interrupts("kill", "high", os.kill, signal.SIGTERM, ON_WITH.format("2 of 3"), "0 of 2")
        self.assertEqual(["high"], self.proofs())
        self.interrupts("a terminal that is closed", "stair_cli", os.killpg, signal.SIGHUP, ON_WITH.format("2 of 3"), "1 of 2")
        self.assertEqual(["high", "stair_cli"], self.proofs())
        self.builds("the next build", 0, "word", ON_WITH.format("1 of 3"), BUILT, proofs=["stair_cli"])
        self.builds("the call after it", 0, "word", proofs=[])

    def test_a_later_build(self):
        """What stands above a crate that was proved anew is proved anew, though its own text is older than its stamp."""
        self.build_first()
        self.change("low")
        self.interrupts("Ctrl-C", "high", os.killpg, signal.SIGINT, AGAIN.format("3 of 3"), "1 of 3")
        self.assertEqual(["low", "high"], self.proofs())
        self.builds("the next build", 0, "word", AGAIN.format("2 of 3"), BUILT, proofs=["high", "stair_cli"])

    def kill(self):
        """Kills a call while the crate `high` is proved, and returns the run of the kit."""
        with open(self.room / "err", "wb") as err:
            process, run = self.begin_held("high", err)
            process.kill()
            process.wait()
        self.assertTrue((self.out / "logs" / "high").exists())
        self.assertEqual(["low", "high"], self.proofs())
        return run

    def test_a_script_that_is_killed(self):
        self.needs("setpriv")
        run = self.kill()
        self.wait_until(lambda: not is_running(run), "the end of the kit's run")
        # A library that a run left counts for nothing.
        made = self.repository / "crates" / "high" / "out" / "statements" / "high.rlib"
        made.mkdir()
        (made / "format").write_text("proved\nproved\n")
        self.builds("the next build", 0, "word", ON_WITH.format("2 of 3"), BUILT, proofs=["high", "stair_cli"])
        self.assertFalse((self.out / "logs").exists())

    def test_a_run_that_outlives_the_script(self):
        """The next build waits for it."""
        self.lack_setpriv()
        run = self.kill()
        self.assertTrue(is_running(run))
        with open(self.room / "err", "wb") as err:
            process = self.begin(err)
            waits = "stair: waiting for another build"
            self.wait_until(lambda: told((self.room / "err").read_text()) == [waits], "the line that it waits")
            self.assertEqual([], self.proofs())
            os.kill(run, signal.SIGKILL)
            self.assertEqual(0, process.wait(LIMIT))
        self.assertEqual([waits, ON_WITH.format("2 of 3"), BUILT], told((self.room / "err").read_text()))
        self.assertEqual(["high", "stair_cli"], self.proofs())


class Progress(Build):
    """How far a build is, and how long it lasts."""

    def begin_on_terminal(self, columns=0, **how):
        terminal = Terminal(columns)
        return terminal, self.begin(terminal.theirs, **how)

    def shown(self, terminal, process, status=0):
        """Returns what is left on a terminal once a call has ended so, and each line that was shown and then cleared."""
        self.assertEqual(status, process.wait(LIMIT))
        terminal.close()
        left, over = screen(terminal.written)
        return told(left), over

    def last_time(self, *texts):
        self.out.mkdir(exist_ok=True)
        (self.out / "build.seconds").write_bytes(lines(*texts))

    def shows(self, case, left, *over, columns=0, **how):
        """A call on a terminal leaves these lines, and shows and clears these."""
        with self.subTest(case):
            self.assertEqual((list(left), list(over)), self.shown(*self.begin_on_terminal(columns, **how)))

    def test_on_a_terminal(self):
        parts = [f"stair: {proved} of 3 crates proved, 0 min, now {crate}" for proved, crate in enumerate(CRATES[:3])]
        self.shows("a first build", [FIRST, BUILT], *parts)
        self.shows("a second call", [])
        self.change("low")
        parts = [f"stair: {proved} of 3 crates proved, 0 of about 1 min, now {crate}" for proved, crate in enumerate(CRATES[:3])]
        self.shows("a narrow terminal", [AGAIN.format("3 of 3"), BUILT], *[part[:39] for part in parts], columns=40)
        self.change("low", "wrong")
        log = "== low at TIME", "proving low", "error: low is wrong", "== low ended with status 1"
        with self.subTest("a failed build"):
            left, over = self.shown(*self.begin_on_terminal(), status=126)
            self.assertEqual(([AGAIN.format("3 of 3"), *log, NOT_BUILT], parts[:1]), (left, over))

    def test_interrupted_on_a_terminal(self):
        terminal = Terminal()
        process, _ = self.begin_held("low", terminal.theirs)
        self.wait_until(lambda: b"now low\x1b[K" in terminal.written, "the line")
        os.killpg(process.pid, signal.SIGINT)
        says = "stair: interrupted: 0 of 3 crates are proved, and the next build goes on from there"
        self.assertEqual(([FIRST, says], ["stair: 0 of 3 crates proved, 0 min, now low"]), self.shown(terminal, process, -signal.SIGINT))

    def test_side_by_side(self):
        self.uses("low:", "high:", "stair_cli: low high")
        self.last_time(*LAST_TIME)
        self.fault("high", "slow")
        with self.subTest("what is being proved"):
            _, over = self.shown(*self.begin_on_terminal(command=[str(self.repository / "on")], JOBS="2"))
            self.assertIn(over[0], [f"stair: 0 of 3 crates proved, 0 of about 11 min, now {both}" for both in ("low high", "high low")])
            self.assertEqual("stair: 1 of 3 crates proved, 0 of about 7 min, now high", over[1])
            self.assertEqual("stair: 2 of 3 crates proved, 0 of about 2 min, now stair_cli", over[-1])

    def test_a_line_a_minute(self):
        """Where there is no terminal. What lasts longer than the last time raises the estimate."""
        self.last_time("low 0", "high 1", "stair_cli 0")
        self.fault("high", "slow")
        ended = self.run_command([str(self.repository / "on")], env={**self.env, "MINUTE": "1"})
        first, *parts, built = told(ended.err.decode())
        self.assertRegex(first, "^stair: building once: 3 crates to prove, about [0-9]+ min ")
        self.assertEqual(BUILT, built)
        pattern = "stair: ([0-2]) of 3 crates proved, ([0-9]+) of about ([0-9]+) min, now (low|high|stair_cli)"
        found = [re.fullmatch(pattern, it) for it in parts]
        self.assertNotIn(None, found, f"{parts}")
        self.assertIn("high", [it[4] for it in found])
        minutes = [int(it[2]) for it in found]
        self.assertEqual(sorted(set(minutes)), minutes)
        self.assertEqual([], [it[0] for it in found if int(it[3]) < int(it[2])])

    def test_estimates(self):
        self.last_time(*LAST_TIME)
        parts = [
            "stair: 0 of 3 crates proved, 0 of about 16 min, now low",
            "stair: 1 of 3 crates proved, 0 of about 7 min, now high",
            "stair: 2 of 3 crates proved, 0 of about 2 min, now stair_cli",
        ]
        first = f"stair: building once: 3 crates to prove, about 16 min {LOG}"
        self.shows("one crate after the other", [first, BUILT], *parts)

    def test_estimates_by_processors(self):
        self.uses("low:", "high:", "stair_cli: low high")
        for jobs, minutes in (1, 16), (2, 11), (4, 11):
            self.last_time(*LAST_TIME)
            shutil.rmtree(self.repository / "crates" / "low" / "out", ignore_errors=True)
            shutil.rmtree(self.repository / "crates" / "high" / "out", ignore_errors=True)
            (self.out / "stair_cli").unlink(missing_ok=True)
            first = f"stair: building once: 3 crates to prove, about {minutes} min {LOG}"
            call = [str(self.repository / "on")]
            self.builds(f"on {jobs} processors", 0, "x86-64-v2", first, BUILT, command=call, JOBS=str(jobs))

    def test_the_longest_chain_goes_first(self):
        """The crate with the most code of its own and above it is begun first, with a job for each processor, and others have one."""
        self.uses("low:", "high:", "other: low", "stair_cli: high other")
        for case, sizes, begun in (
            ("by a crate above", (1, 9, 10), [("high", "1"), ("low", "4")]),
            ("by its own code", (1, 90, 10), [("high", "4"), ("low", "1")]),
            ("where both are the same", (1, 11, 10), [("high", "4"), ("low", "1")]),
        ):
            for crate, size in zip(("low", "high", "other"), sizes):
                shutil.rmtree(self.repository / "crates" / crate / "out", ignore_errors=True)
                self.source(crate).write_text("proved\n" * size)
            (self.out / "stair_cli").unlink(missing_ok=True)
            with self.subTest(case):
                self.run_command([str(self.repository / "on")], env={**self.env, "JOBS": "4"})
                found = re.findall("^== ([a-z_]+), jobs: ([0-9]+)", (self.out / "build.log").read_text(), re.M)
                self.assertEqual(begun, sorted(it for it in found if it[0] in ("low", "high")))
                self.assertIn(("stair_cli", "4"), found)
        with self.subTest("on one processor the order is that of the chains"):
            self.source("high").write_text("proved\n" * 90)
            for crate in "low", "other":
                shutil.rmtree(self.repository / "crates" / crate / "out")
            self.run_command([str(self.repository / "on")], env={**self.env, "JOBS": "1"})
            self.assertEqual("high", self.proofs()[-4])

    def test_no_estimate(self):
        """There is none where a crate has no seconds of a last time."""
        parts = [f"stair: {proved} of 3 crates proved, 0 min, now {crate}" for proved, crate in enumerate(CRATES[:2])]
        last = "stair: 2 of 3 crates proved, 0 of about 2 min, now stair_cli"
        for case, *texts in (
            ("a crate is missing", "low 560", "stair_cli 70"),
            ("a damaged line", "low 560", "high 08", "stair_cli 70"),
            ("damaged lines", "", "low", "high 3 0", "high $(false)", "stair_cli 70", "1 1", "a[0] 7"),
        ):
            self.last_time(*texts)
            self.shows(case, [FIRST, BUILT], *parts, last)
            for crate in CRATES[:3]:
                shutil.rmtree(self.repository / "crates" / crate / "out")

    def test_seconds_are_kept(self):
        self.fault("high", "slow")
        self.build_first()
        kept = self.out / "build.seconds"
        found = re.fullmatch("low ([0-9]+)\nhigh ([0-9]+)\nstair_cli ([0-9]+)\n", kept.read_text())
        self.assertTrue(found, kept.read_text())
        self.assertGreaterEqual(int(found[2]), 1)
        with self.subTest("the next build goes by them"):
            self.change("high")
            ended = self.run_command([str(self.repository / "on")], env={**self.env, "MINUTE": "1"})
            again = re.match("stair: building again: 2 of 3 crates to prove, about ([0-9]+) min", ended.err.decode())
            # On a slow machine some seconds have passed already.
            self.assertIn(int(again[1]) - int(found[2]) - int(found[3]), range(30))
        with self.subTest("a crate whose text is the same keeps its seconds"):
            self.last_time(*LAST_TIME)
            self.touch("low")
            self.stair("word")
            self.assertRegex(kept.read_text(), "^low 560\nhigh 300\nstair_cli [0-9]+\n$")
        with self.subTest("an interrupted build keeps those of what it proved"):
            self.change("low")
            with open(self.room / "err", "wb") as err:
                process, _ = self.begin_held("high", err)
                process.terminate()
                process.wait(LIMIT)
            self.assertRegex(kept.read_text(), "^low (?!560)[0-9]+\nhigh 300\nstair_cli [0-9]+\n$")


class Processors(Build):
    """The program says for which processor it was built."""

    def builds_on(self, case, features, cpu, *says):
        self.builds(case, 0, cpu, *says, command=[str(self.repository / "on"), *features])

    def test_processors(self):
        self.build_first()
        self.change("high", "proved at last")
        two = AGAIN.format("2 of 3"), BUILT
        one = AGAIN.format("1 of 3"), BUILT
        self.builds_on("a processor with AVX2", WIDE, "x86-64-v3", *two)
        self.builds_on("a processor without AVX2", without("avx2"), "x86-64-v2", *one)
        self.builds_on("a processor with AVX2 and without FMA", without("fma"), "x86-64-v2")
        (self.out / "stair_cli").touch()
        self.builds_on("a program that another command built", WIDE, "x86-64-v2")
