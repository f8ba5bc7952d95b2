"""Completion of the command line by bash, zsh and fish, all made from one table."""
import pty
import re

from fixture import *

NEEDS_PROGRAM = False
SHELLS = "bash", "zsh", "fish"
COMMANDS = USAGE.partition("FOLDER ")[2].split("|")
METHODS = "standard", "up", "down", "fewest"
OPTIONS = "--build", "--health", "--help", "--install", "--metrics", "--uninstall", "--version", "--wait"
# Prints what bash offers for the last of some words, a line each.
BASH = """. "$0"
COMP_WORDS=("$@") COMP_CWORD=$(($# - 1))
_stair
[ "${#COMPREPLY[@]}" = 0 ] || printf "%s\\n" "${COMPREPLY[@]}"
"""
# The same by zsh, on a terminal: what is offered goes to a file, and not to the line.
ZSH = """PS1= PS2= fpath=("$ZDOTDIR" $fpath)
autoload -U compinit; compinit -u -D
compadd() {
  local -a found
  [[ " $* " == *" -"[OAD]" "* ]] || { builtin compadd -O found "$@"; (($#found)) && print -rl -- $found >> "$OFFERED" }
  builtin compadd "$@"
}
complete_all() { _main_complete; print end >> "$OFFERED"; compstate[insert]=; compstate[list]= }
zle -C complete_all complete-word complete_all
bindkey '^I' complete_all
print ready >> "$OFFERED"
"""
# The same by fish.
FISH = 'source $SCRIPT; complete -C "$LINE"'


class Completion(Case):
    shell = "bash"

    def setUp(self):
        super().setUp()
        self.needs(self.shell)
        self.script = TOP / "scripts" / f"stair.{self.shell}"
        self.names = self.folder("names")
        for name in "folder", "rack":
            (self.names / name).mkdir()
        (self.names / "file").touch()

    def found(self, *words):
        """Returns what the shell offers for the last of these words."""
        return getattr(self, f"found_by_{self.shell}")(words)

    def found_by_bash(self, words):
        return self.lines_of(["bash", "-uc", BASH, str(self.script), *words])

    def found_by_fish(self, words):
        env = {"SCRIPT": str(self.script), "LINE": " ".join(words), "HOME": str(self.room)}
        return [it.partition("\t")[0].rstrip("/") for it in self.lines_of(["fish", "--no-config", "-c", FISH], env)]

    def lines_of(self, command, env=None):
        ended = self.run_command(command, folder=self.names, env=env)
        self.assertEqual((0, b""), (ended.status, ended.err))
        return ended.out.decode().splitlines()

    def found_by_zsh(self, words):
        offered = self.room / "offered"
        if not offered.exists():
            self.terminal = self.begin_zsh(offered)
        offered.write_text("")
        # The key before erases the line of the last call.
        os.write(self.terminal, b"\x15" + " ".join(words).encode() + b"\t")
        self.read_until(offered, "end")
        return set(offered.read_text().splitlines()) - {"end"}

    def begin_zsh(self, offered):
        """Begins a shell for all calls of a case, and returns its terminal."""
        offered.write_text("")
        (self.room / ".zshrc").write_text(ZSH)
        copy(self.script, self.room / "_stair")
        process, terminal = pty.fork()
        if process == 0:
            os.chdir(self.names)
            own = {"ZDOTDIR": str(self.room), "OFFERED": str(offered), "TERM": "dumb"}
            os.execvpe("zsh", ["zsh", "-i"], {**os.environ, **own})
        self.addCleanup(os.close, terminal)
        self.addCleanup(os.waitpid, process, 0)
        self.addCleanup(os.kill, process, signal.SIGKILL)
        self.terminal = terminal
        self.read_until(offered, "ready")
        return terminal

    def read_until(self, path, line):
        """Takes what is shown on the terminal until this line is in the file."""
        end = time.monotonic() + LIMIT
        while line not in path.read_text().splitlines():
            self.assertLess(time.monotonic(), end, f"{path} has no line {line}")
            if select.select([self.terminal], [], [], 0.02)[0]:
                os.read(self.terminal, 4096)

    def offers(self, case, wanted, *words):
        """For the last of these words, the ones of a command line, the shell offers these words, in whatever order, and nothing else."""
        with self.subTest(case):
            self.assertEqual(sorted(wanted), sorted(self.found(*words)))


class Bash(Completion):
    def test_folders(self):
        self.offers("a folder", ["folder", "rack"], "stair", "")
        self.offers("the beginning of a folder", ["rack"], "./stair", "ra")
        self.offers("no file as a folder", [], "stair", "fi")
        for option in "--health", "--metrics", "--install", "--uninstall":
            self.offers(f"a folder after {option}", ["rack"], "stair", option, "ra")
            self.offers(f"no word after the folder of {option}", [], "stair", option, "rack", "")
        self.offers("a word of --install", ["--native"], "stair", "--install", "-")
        self.offers("a folder after it", ["rack"], "stair", "--install", "--native", "ra")

    def test_options(self):
        self.offers("each option", OPTIONS, "stair", "-")
        self.offers("the beginning of an option", ["--health", "--help"], "./stair", "--he")
        # Fish looks for the letters in the texts of options too.
        self.offers("no other option", [], "stair", "-zz")
        for option in "--build", "--help", "--version":
            self.offers(f"no word after {option}", [], "stair", option, "")
        self.offers("a command after a folder of such a name", ["scrub"], "stair", "./--help", "sc")
        self.offers("no option as a command", [], "stair", "rack", "--")

    def test_commands(self):
        self.offers("each command", COMMANDS, "stair", "rack", "")
        beginning_with_re = ["read", "rebuild", "replace", "report", "restore"]
        self.offers("the beginning of a command", beginning_with_re, "./stair", "rack", "re")
        self.offers("a whole command", ["scrub"], "stair", "rack", "scrub")
        self.offers("no command", [], "stair", "rack", "verify")

    def test_methods(self):
        self.offers("each method", METHODS, "stair", "rack", "stripe", "")
        self.offers("the beginning of a method", ["standard"], "stair", "rack", "stripe", "s")
        self.offers("no word after a method", [], "stair", "rack", "stripe", "up", "")

    def test_wait(self):
        """After the seconds, words are completed as without the option."""
        self.offers("no word as seconds", [], "stair", "--wait", "")
        self.offers("a folder", ["folder", "rack"], "stair", "--wait", "60", "")
        self.offers("a command", ["scrub"], "stair", "--wait", "60", "rack", "sc")
        self.offers("a method", METHODS, "stair", "--wait", "60", "rack", "stripe", "")
        self.offers("no word after a command", [], "stair", "--wait", "60", "rack", "scrub", "")

    def test_no_other_words(self):
        for command in COMMANDS if self.shell == "bash" else ("create", "write", "plan"):
            self.offers(f"no word after {command}", [], "stair", "rack", command, *["up"] * (command == "stripe"), "")
        self.offers("no word after all of them", [], "stair", "rack", "write", "0", "1", "")

    def test_files(self):
        self.offers("a file after the words", ["file"], "stair", "rack", "write", "0", "1", "<", "fi")


class Zsh(Bash):
    """The file is the function `_stair` of a folder of functions, as where it is installed."""

    shell = "zsh"

    def test_a_file_that_is_read(self):
        ended = self.run_command(["zsh", "-fc", 'autoload -U compinit; compinit -u -D; . "$0"; print $_comps[stair]', str(self.script)])
        self.assertEqual((0, b"_stair\n", b""), ended[:3])


class Fish(Bash):
    shell = "fish"


class Made(Case):
    """Each of the three is made from the table."""

    def made(self, shell, *words):
        ended = self.run_command([str(TOP / "scripts" / "completion"), shell, *words])
        self.assertEqual((0, b""), (ended.status, ended.err))
        return ended.out.decode()

    def test_from_the_table(self):
        for shell in SHELLS:
            with self.subTest(shell):
                self.assertEqual((TOP / "scripts" / f"stair.{shell}").read_text(), self.made(shell))

    def test_from_another_table(self):
        table = self.room / "table"
        table.write_text("show            shows it\nscan METHOD N   scans it\n--wait SECONDS FOLDER ..  waits\n--tell FOLDER  tells 'it'\n")
        for shell in SHELLS:
            with self.subTest(shell):
                text = self.made(shell, str(table))
                for word in "scan", "--tell", "3:*:scan", "2:--tell:*", "standard":
                    self.assertIn(word, text)
                for word in COMMANDS:
                    self.assertEqual(word == "show", bool(re.search(rf"\b{word}\b", text.partition("case")[2])), word)
        with self.subTest("bash"):
            (self.room / "made").write_text(self.made("bash", str(table)))
            ended = self.run_command(["bash", "-uc", BASH, str(self.room / "made"), "stair", "rack", "s"])
            self.assertEqual((0, lines("show", "scan"), b""), ended[:3])

    def test_each_row_is_in_each_file(self):
        """Names and, but for bash, texts, whatever shells are installed."""
        for row in (TOP / "scripts" / "commands").read_text().splitlines():
            words, text = re.split("  +", row)
            for shell in SHELLS:
                with self.subTest(f"{shell}: {words}"):
                    made = (TOP / "scripts" / f"stair.{shell}").read_text()
                    self.assertRegex(made, rf"(?<![\w-]){words.split()[0]}(?![\w-])")
                    if shell != "bash":
                        self.assertIn(text, made)

    def test_both_names_of_the_script(self):
        ended = self.run_command(["bash", "-c", '. "$0/scripts/stair.bash" && complete -p stair ./stair', str(TOP)])
        self.assertEqual((0, lines("complete -F _stair stair", "complete -F _stair ./stair"), b""), ended[:3])
