"""`stair --install`: what it puts where, that the installed program needs neither sources nor kit, and that nothing is left of it."""
import re

from common import wrote
from fixture import *
from suites.build import BUILT, FIRST, KIT, Build, told, write_script

ONE = FIRST.replace("3 crates", "1 crates")
# Writes the program under test, whatever was built.
LINK = """#!/bin/sh
while [ "$1" != -o ]; do shift; done
cp '{}' "$2"
chmod +x "$2"
"""
UNITS = (
    "stair-check@.service",
    "stair-check@.timer",
    "stair-mail@.service",
    "stair-scrub@.service",
    "stair-scrub@.timer",
    "stair-shelf.socket",
    "stair-shelf@.service",
)
FILES = {
    "bin/stair": 0o755,
    "bin/stair-salvage": 0o755,
    "bin/stair-verify": 0o755,
    "libexec/stair/commands": 0o644,
    "libexec/stair/devices.py": 0o644,
    "libexec/stair/files": 0o644,
    "libexec/stair/formats.py": 0o644,
    "libexec/stair/guarded-scrub": 0o755,
    "libexec/stair/options": 0o644,
    "libexec/stair/prefix": 0o644,
    "libexec/stair/salvage": 0o755,
    "libexec/stair/stair": 0o755,
    "libexec/stair/uninstall": 0o644,
    "libexec/stair/verify": 0o755,
    "libexec/stair/version": 0o644,
    "share/bash-completion/completions/stair": 0o644,
    "share/fish/vendor_completions.d/stair.fish": 0o644,
    "share/man/man1/stair.1": 0o644,
    "share/zsh/site-functions/_stair": 0o644,
    **{f"lib/systemd/system/{name}": 0o644 for name in UNITS},
}


class Install(Build):
    def setUp(self):
        super().setUp()
        (self.repository / "docs").mkdir()
        for name in "stair.1", "systemd":
            copy(TOP / "docs" / name, self.repository / "docs" / name)
        self.uses("stair_cli:")
        self.dest = self.folder("a destination")
        self.env.update(DESTDIR=str(self.dest), KIT_VERSION=KIT)

    def link_the_program(self):
        write_script(self.kit / "bin/rattle-link", LINK.format(program()))

    def installs(self, *words, prefix="/usr", says=(ONE, BUILT)):
        ended = self.stair("--install", *words)
        says = [*says, f"stair: installed in {self.dest}{prefix}"]
        self.assertEqual((0, b"", says), (ended.status, ended.out, told(ended.err.decode())))

    def uninstalls(self, *words, prefix="/usr", says=()):
        ended = self.stair("--uninstall", *words)
        self.assertEqual((0, b"", lines(*says, f"stair: removed from {self.dest}{prefix}")), ended[:3])

    def files(self):
        """Returns the mode of each file below DESTDIR, by its path."""
        found = [path for path in self.dest.rglob("*") if not path.is_dir()]
        return {str(path.relative_to(self.dest)): path.lstat().st_mode & 0o7777 for path in found}

    def installed(self, *words, **how):
        """Runs the installed script in a system without a kit."""
        return self.run_command([str(self.dest / "usr/bin/stair"), *words], **how)


class Installed(Install):
    def setUp(self):
        super().setUp()
        self.link_the_program()
        self.installs("/usr")
        shutil.rmtree(self.repository)
        shutil.rmtree(self.kit)

    def test_the_options(self):
        with self.subTest("--version"):
            puts = lines("stair 1.0.0", f"kit {KIT}", "processor x86-64-v2")
            self.assertEqual((0, puts, b""), self.installed("--version")[:3])
        with self.subTest("--help"):
            ended = self.installed("--help")
            self.assertEqual((0, b""), (ended.status, ended.err))
            text = ended.out.decode()
            for word in "create", "--wait", "--health", "--metrics", "--uninstall", "man stair":
                self.assertIn(word, text)
            for word in "--build", "--install", "PREFIX":
                self.assertNotIn(word, text)
        with self.subTest("other options are the program's"):
            self.assertEqual(2, self.installed("--build").status)

    def test_the_program(self):
        copy(FOUR.blank, self.work)
        self.assertEqual((0, FOUR.created, b""), self.installed("work", "create", input=FOUR.text)[:3])
        self.assertEqual((0, wrote(2), b""), self.installed("--wait", "5", "work", "write", "0", "2", input=cells("01 02"))[:3])
        self.assertEqual((0, cells("01 02"), b""), self.installed("work", "read", "0", "2")[:3])
        image(self.work, 1).unlink()
        with self.subTest("--health"):
            line = lines("work: degraded, 3 of 4 devices live, 0 more may fail; slot 1 live 1 gone")
            self.assertEqual((1, line, b""), self.installed("--health", "work")[:3])
        with self.subTest("--metrics"):
            ended = self.installed("--metrics", "work")
            self.assertEqual((0, b""), (ended.status, ended.err))
            self.assertIn(f'\nstair_health{{folder="work",array="{FOUR.identity}"}} 1\n', ended.out.decode())
        with self.subTest("the scripts that read devices"):
            verified = "verified 3 stripes bad 0 wrong 0 broken 0"
            ended = self.run_command([str(self.dest / "usr/bin/stair-verify"), "work"])
            self.assertEqual((0, lines(verified)), (ended.status, ended.out))
            ended = self.run_command([str(self.dest / "usr/bin/stair-salvage"), "work", "saved"])
            self.assertEqual((0, cells("01 02")), (ended.status, (self.room / "saved").read_bytes()[:1024]))
        with self.subTest("by a link"):
            (self.room / "linked").symlink_to(self.dest / "usr/bin/stair")
            self.assertEqual(1, self.run_command([str(self.room / "linked"), "--health", "work"]).status)

    def scrubs(self, case, status, *wanted, parts=None):
        with self.subTest(case):
            call = [str(self.dest / "usr/libexec/stair/guarded-scrub"), "work", *([parts] if parts else [])]
            ended = self.run_command(call)
            # What else is said of devices and of the folder is not of the log's own.
            found = [it for it in ended.out.splitlines() if not re.match(rb"dev\d\d\.img: |work: [A-Z]", it)]
            self.assertEqual((status, lines(*wanted), b""), (ended.status, lines(*found), ended.err))

    def test_guarded_scrubs(self):
        none = "events: fenced 0 repaired 0 admitted 0 promoted 0"
        whole = "work: whole, 4 of 4 devices live, 1 more may fail"
        copy(FOUR.fresh, self.work)
        self.scrubs("a whole array", 0, none, whole)
        # Sector 13 is of stripe 1, the second part.
        flip(image(self.work, 2), 544 * 13)
        repaired = "events: fenced 0 repaired 1 admitted 0 promoted 0"
        self.scrubs("a damaged sector", 0, none, "repaired stripe 1 cells 1", repaired, none, whole, parts="1")
        image(self.work, 3).unlink()
        fenced = "events: fenced 1 repaired 0 admitted 0 promoted 0"
        degraded = "work: degraded, 3 of 4 devices live, 0 more may fail; slot 3 down"
        self.scrubs("a device that is lost", 21, "fenced 3", "fenced 3", "halted after line 0", fenced, degraded, parts="1")
        self.scrubs("a slot that is down", 1, none, none, degraded, parts="2")
        shutil.rmtree(self.work)
        with self.subTest("no array"):
            ended = self.run_command([str(self.dest / "usr/libexec/stair/guarded-scrub"), "work"])
            self.assertEqual((2, b""), (ended.status, ended.err))
            self.assertRegex(ended.out, rb"no array\nwork: not readable; (.*; )?no array\n\Z")

    def test_completion(self):
        script = self.dest / "usr/share/bash-completion/completions/stair"
        offers = '. "$0"; COMP_WORDS=(stair -) COMP_CWORD=1; _stair; printf "%s\\n" "${COMPREPLY[@]}"'
        ended = self.run_command(["bash", "-uc", offers, str(script)])
        options = {"--health", "--help", "--metrics", "--uninstall", "--version", "--wait"}
        self.assertEqual((0, options), (ended.status, set(ended.out.decode().split())))

    def test_units(self):
        folder = self.dest / "usr/lib/systemd/system"
        for name in UNITS:
            with self.subTest(name):
                text = (folder / name).read_text()
                self.assertNotIn("/usr/local", text)
                for call in re.findall("(?m)^ExecStart=(/usr/(?:bin/stair|libexec)[^ ]*)", text):
                    self.assertTrue(os.access(f"{self.dest}{call}", os.X_OK), call)
        with self.subTest("calls of what is installed"):
            found = [re.findall("ExecStart=/usr/(.*stair\\S*) ", (folder / name).read_text()) for name in UNITS]
            self.assertEqual([["bin/stair"], [], [], ["libexec/stair/guarded-scrub"], [], [], ["bin/stair"]], found)

    def test_units_by_systemd(self):
        self.needs("systemd-socket-activate")
        units = copy(self.dest / "usr/lib/systemd/system", self.room / "units")
        for path in units.iterdir():
            path.write_text(path.read_text().replace("=/usr/bin/stair", "=/bin/true").replace("=/usr/libexec/stair/guarded-scrub", "=/bin/true"))
        for name in UNITS:
            with self.subTest(name):
                ended = self.run_command(["systemd-analyze", "verify", "--man=no", str(units / name)])
                self.assertEqual((0, b""), (ended.status, ended.err))

    def test_uninstall(self):
        (self.dest / "usr/bin/other").touch()
        ended = self.installed("--uninstall")
        self.assertEqual((0, b"", lines(f"stair: removed from {self.dest}/usr")), ended[:3])
        self.assertEqual(["usr", "usr/bin", "usr/bin/other"], sorted(contents(self.dest)))


class Places(Install):
    def test_all_files(self):
        self.installs("/usr")
        self.assertEqual({f"usr/{path}": mode for path, mode in FILES.items()}, self.files())
        self.uninstalls("/usr")
        self.assertEqual({}, contents(self.dest))

    def test_no_prefix(self):
        self.installs(prefix="/usr/local")
        self.assertEqual({f"usr/local/{path}": mode for path, mode in FILES.items()}, self.files())
        self.uninstalls(prefix="/usr/local")
        self.assertEqual({}, contents(self.dest))

    def test_the_root(self):
        self.installs("/", prefix="")
        self.assertEqual(FILES, self.files())
        self.uninstalls("/", prefix="")
        self.assertEqual({}, contents(self.dest))

    def test_folders_that_were_there(self):
        (self.dest / "usr/share/man").mkdir(parents=True)
        self.installs("/usr/")
        self.uninstalls("/usr")
        self.assertEqual(["usr", "usr/share", "usr/share/man"], sorted(contents(self.dest)))

    def test_processors(self):
        self.installs("/usr")
        native = self.stair("processor").out
        self.assertEqual(b"x86-64-v2\n", self.installed("processor").out)
        self.assertEqual(0, self.stair("--install", "--native", "/usr").status)
        self.assertEqual(native, self.installed("processor").out)
        self.assertIn(b"processor " + native, self.installed("--version").out)
        self.uninstalls("/usr")
        self.assertEqual({}, contents(self.dest))

    def test_faulty_command_lines(self):
        for words in ["usr"], ["/usr", "/usr"], ["--other"], ["/a b"], ["/a|b"], ["/usr", "--native"], [""] * 2:
            with self.subTest(f"{words}"):
                usage = lines("usage: stair --install [--native] [PREFIX]")
                self.assertEqual((2, b"", usage), self.stair("--install", *words)[:3])
                self.assertEqual((2, b"", lines("usage: stair --uninstall [PREFIX]")), self.stair("--uninstall", *words)[:3])
        with self.subTest("DESTDIR"):
            self.env["DESTDIR"] = "dest"
            for option in "--install", "--uninstall":
                self.assertEqual((126, b"", lines("stair: DESTDIR is no absolute path")), self.stair(option)[:3])
        self.assertEqual(([], {}), (self.proofs(), contents(self.dest)))

    def test_a_user_who_may_not(self):
        self.needs("setpriv")
        self.dest.chmod(0o555)
        self.addCleanup(self.dest.chmod, 0o755)
        ended = self.run_command([*as_nobody(), str(self.room / "link"), "--install", "/usr"], env=self.env)
        self.assertEqual((126, b"", lines(f"stair: can't write to {self.dest}")), ended[:3])
        self.assertEqual([], self.proofs())

    def test_a_mask_of_modes(self):
        """Each user may read what is installed."""
        call = ["bash", "-c", 'umask 077; exec "$0" --install /usr', str(self.room / "link")]
        self.assertEqual(0, self.run_command(call, env=self.env).status)
        self.assertEqual({f"usr/{path}": mode for path, mode in FILES.items()}, self.files())
        self.assertEqual({0o755}, {path.stat().st_mode & 0o777 for path in self.dest.rglob("*") if path.is_dir()})


class Again(Install):
    """An installation over another one, over other files, and of which files were changed."""

    def setUp(self):
        super().setUp()
        self.installs("/usr")
        self.changed = self.dest / "usr/lib/systemd/system/stair-check@.timer"

    def test_a_later_version(self):
        (self.repository / "VERSION").write_text("1.0.1\n")
        (self.repository / "docs/systemd/stair-check@.timer").unlink()
        (self.repository / "docs/systemd/stair-new@.timer").write_text("[Timer]\n")
        self.installs("/usr", says=())
        wanted = {*FILES, "lib/systemd/system/stair-new@.timer"} - {"lib/systemd/system/stair-check@.timer"}
        self.assertEqual({f"usr/{path}" for path in wanted}, set(self.files()))
        self.assertIn(b"stair 1.0.1\n", self.installed("--version").out)
        self.uninstalls("/usr")
        self.assertEqual({}, contents(self.dest))

    def test_a_file_that_was_changed(self):
        self.changed.write_text("[Timer]\nOnCalendar=daily\n")
        before = contents(self.dest)
        with self.subTest("another installation changes nothing"):
            says = f"stair: {self.changed} is another file: remove it first"
            self.assertEqual((126, b"", lines(says)), self.stair("--install", "/usr")[:3])
            self.assertEqual("", difference(before, contents(self.dest)))
        with self.subTest("it stays"):
            self.uninstalls("/usr", says=[f"stair: left, since it was changed: {self.changed}"])
            self.assertEqual([self.changed.relative_to(self.dest)], [path.relative_to(self.dest) for path in self.dest.rglob("*.*")])

    def test_a_file_that_is_gone(self):
        self.changed.unlink()
        self.uninstalls("/usr")
        self.assertEqual({}, contents(self.dest))

    def test_nothing_installed(self):
        self.uninstalls("/usr")
        says = lines(f"stair: nothing is installed in {self.dest}/usr")
        self.assertEqual((1, b"", says), self.stair("--uninstall", "/usr")[:3])

    def test_a_file_of_another_one(self):
        self.uninstalls("/usr")
        (self.dest / "usr/bin").mkdir(parents=True)
        (self.dest / "usr/bin/stair").symlink_to(self.repository / "stair")
        before = contents(self.dest)
        says = f"stair: {self.dest}/usr/bin/stair is another file: remove it first"
        self.assertEqual((126, b"", lines(says)), self.stair("--install", "/usr")[:3])
        self.assertEqual("", difference(before, contents(self.dest)))

    def test_an_installation_that_was_cut_off(self):
        """Its list is not there yet."""
        (self.dest / "usr/libexec/stair/files").unlink()
        self.installs("/usr", says=())
        self.assertEqual({f"usr/{path}" for path in FILES}, set(self.files()))


class Kits(Install):
    def refused(self, *says):
        ended = self.stair("--install", "/usr")
        self.assertEqual((126, b"", lines(*says), {}), (*ended[:3], contents(self.dest)))

    def test_another_kit(self):
        self.env["KIT_VERSION"] = "a kit that proves nothing"
        self.refused(f"stair: the kit is a kit that proves nothing: install {KIT}")
        self.assertEqual([], self.proofs())

    def test_no_kit(self):
        (self.kit / "rt").unlink()
        if shutil.which("rt"):
            tools = self.folder("tools")
            for name in "bash", "cat", "dirname", "find", "readlink", "sed":
                (tools / name).symlink_to(shutil.which(name))
            self.env["PATH"] = str(tools)
        self.refused(f"stair: the kit's command rt is not on the path: install {KIT}")

    def test_a_build_that_fails(self):
        self.change("stair_cli", "wrong")
        ended = self.stair("--install", "/usr")
        self.assertEqual((126, b"", {}), (*ended[:2], contents(self.dest)))

    def test_the_kit_of_the_documents(self):
        self.assertEqual(KIT, (TOP / "KIT").read_text().strip())
        for name in "README.md", "docs/proofs.md":
            self.assertIn(f"`{KIT}`", (TOP / name).read_text())
