"""The fixture and the runner: each fault of a program under test or of a document makes a case fail, and cases are counted."""
import importlib.machinery
import importlib.util
import os
import shutil
import unittest
import unittest.mock

from documents import *
from fixture import *
from shell import CONDITIONS, Documented, processes_of


def runner():
    """Returns tests/run as a module."""
    loader = importlib.machinery.SourceFileLoader("runner", str(TOP / "tests" / "run"))
    module = importlib.util.module_from_spec(importlib.util.spec_from_loader(loader.name, loader))
    loader.exec_module(module)
    return module


class Fake(Case):
    def use(self, path):
        """Makes this the program under test."""
        changed = unittest.mock.patch.dict(os.environ, STAIR_PROGRAM=str(path))
        changed.start()
        self.addCleanup(changed.stop)

    def fake(self, text):
        """Makes this text of bash the program under test."""
        path = self.room / "fake"
        path.write_text(f"#!/bin/bash\n{text}\n")
        path.chmod(0o755)
        self.use(path)

    def fails(self, call):
        """A test that makes this call fails, and no other way than by an assertion. Returns the text."""

        class Inner(Case):
            def runTest(self):
                call(self)

        result = unittest.TestResult()
        Inner().run(result)
        self.assertEqual((1, []), (len(result.failures), result.errors))
        return result.failures[0][1]


class Expectations(Fake):
    """Each difference from what a case expects is a failure."""

    def test_what_is_as_expected(self):
        self.fake('echo "$@"; echo said >&2; exit 3')
        self.expect("a b", 3, "said", b". a b\n")
        self.expect_in(FOUR.blank, FOUR.blank, ["a  b"], 3, "said", b". a  b\n")
        self.begin(FOUR.blank)
        self.step("a", 3, "said", b"a\n", at=None)

    def test_status(self):
        self.fake("exit 3")
        self.assertIn("(2, b'') != (3, b'')", self.fails(lambda it: it.expect("a", 2)))

    def test_standard_error(self):
        for text, says in (("", "said"), ("echo said >&2", ""), ("echo said >&2", "says"), ("echo said >&2; echo >&2", "said")):
            self.fake(text)
            with self.subTest(f"{text!r} for {says!r}"):
                self.assertIn("said", self.fails(lambda it: it.expect("a", says=says)))

    def test_standard_output(self):
        for text, puts in (("", b"put\n"), ("echo put", b""), ("echo put", b"puts"), ("echo put; echo", b"put\n")):
            self.fake(text)
            with self.subTest(f"{text!r} for {puts!r}"):
                self.assertIn("standard output", self.fails(lambda it: it.expect("a", puts=puts)))

    def test_folders(self):
        for text, says in (
            ("rm dev01.img", "dev01.img is missing"),
            (": > dev04.img", "dev04.img is new"),
            (": > rest", "rest is new"),
            ("mkdir rest", "rest is new"),
            ("ln -sf dev00.img dev01.img", "link to dev00.img"),
            (": > dev01.img", "0 bytes, not 9248"),
            ("printf '\\1' | dd of=dev01.img bs=1 seek=544 conv=notrunc status=none", "at 544 (sector 1, offset 0)"),
        ):
            self.fake(text)
            with self.subTest(text):
                self.assertIn(says, self.fails(lambda it: it.expect_in(FOUR.blank, FOUR.blank, "a")))

    def test_the_folder_of_steps(self):
        self.fake(": > rest")
        self.begin(FOUR.blank)
        self.assertIn("rest", self.fails(lambda it: (it.begin(FOUR.blank), it.step("a"))))

    def test_an_empty_folder(self):
        self.fake(": > rest")
        self.assertIn("rest is new", self.fails(lambda it: it.expect("a")))

    def test_what_is_left_of_the_input(self):
        for name, given in (("a file", STRIPE), ("a pipe", Pipe(STRIPE))):
            self.fake("exec dd bs=1 count=100 of=/dev/null status=none")
            with self.subTest(name):
                self.expect("a", input=given, left=3996)
                self.assertIn("3997 != 3996", self.fails(lambda it: it.expect("a", input=given, left=3997)))

    def test_a_run_without_end(self):
        self.fake("sleep 9 & sleep 9")
        self.assertIn("has not ended", self.fails(lambda it: it.expect("a", limit=0.2)))


class Streams(Fake):
    def test_closed_streams(self):
        self.use(shutil.which("test"))
        for closed in ([], ["input"], ["out"], ["err"], ["input", "out", "err"]):
            with self.subTest(closed):
                for number, stream in enumerate(("input", "out", "err")):
                    ended = self.run_program(f"-e /proc/self/fd/{number}", at=None, **{it: CLOSED for it in closed})
                    self.assertEqual(int(stream in closed), ended.status, stream)

    def test_a_full_output(self):
        self.fake("echo put")
        self.expect("a", 1, f"{program()}: line 2: echo: write error: No space left on device", out=FULL)

    def test_a_reader_that_closes(self):
        self.fake("exec head -c 1000000 /dev/zero")
        self.assertEqual((-13, bytes(10)), self.run_program("a", out=Reader(10))[:2])

    def test_pipes(self):
        self.fake("exec cat")
        called = []
        self.expect("a", input=Pipe(b"one", 0.01, lambda: called.append(1), b"two", each=2), puts=b"onetwo")
        self.assertEqual([1], called)
        self.fake("exec dd bs=100 count=2 status=none")
        self.expect("a", input=Pipe(b"abc", each=1, packets=True), puts=b"ab", left=1)
        self.fake("dd bs=100 count=1 status=none; echo; exec cat")
        self.expect("a", input=Pipe(b"one", TAKEN, b"two"), puts=b"one\ntwo")

    def test_limits(self):
        self.fake("ulimit -n")
        self.expect("a", puts=b"9\n", wrap=ulimit("-n", 9))


class Runner(Case):
    def test_counts(self):
        class Inner(unittest.TestCase):
            def test_one(self):
                pass

            def test_two_of_three(self):
                for number in range(3):
                    with self.subTest(number):
                        self.assertNotEqual(1, number)

            def test_skipped(self):
                self.skipTest("needs nothing")

            def test_skipped_within(self):
                for number in range(2):
                    with self.subTest(number):
                        self.skipTest("needs nothing")

            def test_broken(self):
                with self.subTest("whole"):
                    pass
                raise OSError

        result = runner().Result()
        unittest.defaultTestLoader.loadTestsFromTestCase(Inner).run(result)
        self.assertEqual((4, 2, 3), (result.passed, len(result.broken()), len(result.skips)))

    def test_patterns(self):
        for patterns, count in (([], 2), (["counts"], 1), (["Runner.test_p"], 1), (["*Runner*patt*", "counts"], 2), (["no such"], 0)):
            with self.subTest(patterns):
                self.assertEqual(count, runner().cases_of(Runner, patterns).countTestCases())


def session(*lines, kind="console", needs=()):
    """Returns a document with a session of these lines."""
    return "\n".join(["# A document", "", *(f"<!-- needs: {it} -->" for it in needs), f"```{kind}", *lines, "```", ""])


class Sessions(Case):
    """How the sessions of documents are read."""

    def test_steps(self):
        text = session("$ one", "a", "", "$ two \\", ">  more", "> > end", "b", "> c", "[status 3]", "$ three", needs=["root socat"])
        steps = [Step(5, "one", ["a", ""], 0), Step(8, "two \\\n more\n> end", ["b", "> c"], 3), Step(14, "three", [], 0)]
        self.assertEqual([Session(4, ["root", "socat"], steps)], sessions(text))

    def test_other_blocks(self):
        other = "```sh\n$ one\n```\n~~~\n```console\n$ two\n```\n~~~\n    $ three\n"
        self.assertEqual([], sessions(other))
        text = other + "```console\n$ four\n```\n   ````console\n   $ five\n   ```\n   ````\n"
        self.assertEqual([Session(10, [], [Step(11, "four", [], 0)]), Session(13, [], [Step(14, "five", ["```"], 0)])], sessions(text))

    def test_what_is_no_session(self):
        for case, text, says in (
            ("a block without an end", "```console\n$ one\n", "1: this block has no end"),
            ("another kind", session("$ one", kind="Console"), "3: a session is of the kind"),
            ("a blank in front of the kind", session("$ one", kind=" console"), "3: a session is of the kind"),
            ("no command", session(), "4: a session begins with a command"),
            ("lines before the first command", session("a", "$ one"), "4: a session begins with a command"),
            ("a command without its end", session("$ one \\", "two"), "4: the next line does not go on"),
            ("a last command without its end", session("$ one", "$ two \\"), "5: the next line does not go on"),
            ("status 0", session("$ one", "[status 0]"), "4: a status is 1 to 255"),
            ("status 256", session("$ one", "[status 256]"), "4: a status is 1 to 255"),
            ("a status before a line", session("$ one", "[status 1]", "a"), "4: a status is 1 to 255"),
            ("two statuses", session("$ one", "[status 1]", "[status 1]"), "4: a status is 1 to 255"),
            ("needs of nothing", "<!-- needs: root -->\n\n" + session("$ one"), "1: no session begins"),
            ("needs of another block", session("$ one", kind="sh", needs=["root"]), "3: no session begins"),
        ):
            with self.subTest(case):
                with self.assertRaises(ValueError) as caught:
                    sessions(text)
                self.assertIn(says, str(caught.exception))

    def test_what_is_printed(self):
        for wanted, found, is_so in (
            ([], "", True),
            ([], "a\n", False),
            (["a"], "a\n", True),
            (["a"], "", False),
            (["a"], "a\n\n", False),
            (["a", ""], "a\n\n", True),
            (["a."], "ab\n", False),
            (["..."], "", True),
            (["..."], "a\nb\n", True),
            (["a", "...", "d"], "a\nb\nc\nd\n", True),
            (["a", "...", "d"], "a\nb\nc\n", False),
            (["a...d"], "abcd\n", True),
            (["a...d"], "ad\n", True),
            (["a...d"], "a\nd\n", False),
            (["took ... s", "b"], "took 1.5 s\nb\n", True),
            (["took ... s", "b"], "took 1.5 s\nc\n", False),
        ):
            with self.subTest(f"{wanted} {found!r}"):
                self.assertEqual(is_so, is_printed(wanted, found))


class Shells(Fake):
    """How sessions are run."""

    def result_of(self, text, limit=LIMIT):
        """Runs the sessions of a text, and returns the result."""
        path = self.room / "page.md"
        path.write_text(text)

        class Inner(Documented):
            def runTest(inner):
                inner.limit, self.room_of_inner = limit, inner.room
                inner.run_sessions(path)

        result = runner().Result()
        Inner().run(result)
        return result

    def faults(self, *lines, **how):
        """Returns the texts of the failures of a session of these lines."""
        result = self.result_of(session(*lines), **how)
        self.assertEqual([], result.errors)
        return [text for _, text in result.failures]

    def test_what_is_as_written(self):
        self.fake('echo "$@"; exit 3')
        text = session("$ x=1; printf 'a\\nb'; echo c >&2", "a", "bc", "$ stair a \\", ">   'b  c' > file", "[status 3]", "$ echo $? $x", "3 1")
        text += session("$ cat file $(ls ../work) - <<< $x", "a b  c", "a b  c", "1", "$ cat; read line", "[status 1]")
        text += session("$ cat << end", "> $x", "> end", "1")
        result = self.result_of(text)
        self.assertEqual((3, []), (result.passed, result.broken()))

    def test_each_fault(self):
        for case, lines, says in (
            ("another line", ["$ echo a", "b"], "page.md:4: echo a\nprinted other lines:\n- b\n+ a"),
            ("a line too few", ["$ echo a", "a", "b"], "page.md:4: echo a\nprinted other lines:\n  a\n- b"),
            ("a line too many", ["$ echo a; echo b >&2", "a"], "printed other lines:\n  a\n+ b"),
            ("a line that the session lacks", ["$ true", "$ echo a"], "page.md:5: echo a\nprinted other lines:\n+ a"),
            ("another status", ["$ exit_with() { return $1; }; exit_with 2", "[status 3]"], "ended with 2, not 3"),
            ("a status that the session lacks", ["$ false"], "page.md:4: false\nended with 1, not 0"),
            ("a status of a command that succeeds", ["$ true", "[status 1]"], "page.md:4: true\nended with 0, not 1"),
            ("no command of bash", ["$ if", "$ no-such-command", "..."], "page.md:5: no-such-command\nended with 127, not 0"),
            ("the end of the shell by a trap", ["$ trap 'echo ended' EXIT; exit"], "trap 'echo ended' EXIT; exit\na command has ended the shell"),
            ("the end of the shell", ["$ exit", "$ true"], "page.md:4: exit\na command has ended the shell\npage.md:5: true\nnot run, since"),
        ):
            with self.subTest(case):
                (text,) = self.faults(*lines)
                self.assertIn(says, text)

    def test_a_command_without_end(self):
        (text,) = self.faults("$ sleep 9 & sleep 9", "$ true", limit=0.2)
        self.assertIn("a command has not ended after 0.2 seconds\npage.md:5: true\nnot run, since", text)

    def test_a_fault_of_one_session(self):
        result = self.result_of(session("$ false") + session("$ true"))
        self.assertEqual((1, 1), (result.passed, len(result.failures)))

    def test_the_example_of_the_readme(self):
        result = self.result_of((TOP / "tests" / "README.md").read_text())
        self.assertEqual((1, []), (result.passed, result.broken()))

    def test_a_text_without_sessions(self):
        self.assertEqual(1, len(self.result_of("# A document\n").failures))

    def test_what_is_left(self):
        lines = ["$ (cd /; setsid sleep 60) & disown", "$ sleep 60 &", "$ mktemp > $HOME/file; echo $STAIR_ROOM", "/..."]
        result = self.result_of(session(*lines))
        self.assertEqual((1, []), (result.passed, result.broken()))
        self.assertEqual((False, []), (self.room_of_inner.exists(), processes_of(self.room_of_inner)))

    def test_needs(self):
        for known, more in (CONDITIONS, {"root": lambda: False, "loop": lambda: True}), (PACKAGES, {"no-such-tool": "none"}):
            changed = unittest.mock.patch.dict(known, more)
            changed.start()
            self.addCleanup(changed.stop)
        text = session("$ false", needs=["root"]) + session("$ false", needs=["loop none"]) + session("$ true", needs=["bash loop"])
        result = self.result_of(text)
        self.assertEqual((1, []), (result.passed, result.broken()))
        self.assertEqual(["needs root", "needs no-such-tool (package none)"], [it.rpartition(": ")[2] for it in result.skips])
        self.assertIn("no-such-package", self.result_of(session("$ true", needs=["no-such-package"])).failures[0][1])


class Links(Case):
    """Where the links of documents lead."""

    def test_anchors(self):
        text = "# One\n## One: `two`, [three](four.md)_5 #\n# One\n```\n# Six\n```\n<a name=\"seven\"></a>\n"
        self.assertEqual({"one", "one-two-three_5", "one-1", "seven"}, anchors(text))

    def test_links(self):
        text = """[a](b.md) ![c](d.svg "title") `[e](f.md)` [g][h] [`i`](<j.md>) <!-- [k](l.md) -->
```sh
[m](n.md)
```
[h]: o.md#p
<img src="q.svg"> [![r](s.svg)](t.md)
"""
        self.assertEqual([(1, "b.md"), (1, "d.svg"), (1, "j.md"), (5, "o.md#p"), (6, "q.svg"), (6, "s.svg"), (6, "t.md")], sorted(links(text)))

    def test_labels(self):
        self.assertEqual([], list(undefined("a[i][j] [k](l.md)")))
        self.assertEqual([(1, "j"), (3, "o")], list(undefined("[a][i] [b][j] `[c][k]` [d][M]\n[I]: l.md\n[n][o]\n[m]: #p\n")))

    def test_where_they_lead(self):
        (self.room / "docs").mkdir()
        (self.room / "docs" / "other.md").write_text("# A heading\n")
        (self.room / "docs" / "a b.svg").touch()
        path = self.room / "docs" / "page.md"
        for target, says in (
            ("other.md", ""),
            ("other.md#a-heading", ""),
            ("a%20b.svg", ""),
            ("..", ""),
            ("#here", ""),
            ("https://example.org/other#none", ""),
            ("none.md", "is not there"),
            ("other.md#heading", "is no anchor there"),
            ("a%20b.svg#a-heading", "is no anchor there"),
            ("#there", "is no anchor there"),
            ("/docs/other.md", "is not relative"),
            ("../../other.md", "is not relative"),
        ):
            with self.subTest(target):
                path.write_text(f"# Here\n[words]({target})\n")
                wanted, found = f"{path}:2: {target} {says}", broken_links(path, self.room)
                self.assertEqual([wanted] if says else [], [it[: len(wanted)] for it in found])
