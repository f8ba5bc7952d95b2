"""The man page is made from docs/reference.md, and both have the commands and exit statuses of the program; docs/definitions.md is generated."""
import re

from fixture import *

NEEDS_PROGRAM = False
PAGE = TOP / "docs" / "stair.1"
REFERENCE = TOP / "docs" / "reference.md"
STATUSES = TOP / "crates" / "stair_status" / "specs" / "Status.antt"
COMMANDS = USAGE.partition("FOLDER ")[2].split("|")
# Statuses and lines that are not those of a call: of the script, of the loader, and of the folder's lock.
OTHER_CODES, OTHER_LINES = {75, 126, 127}, {"stair: ..", "FOLDER: in use"}


def part(title, text=None):
    """Returns the part of the reference, or of a part of it, with this heading, such as "## Commands"."""
    level = title.partition(" ")[0]
    return re.search(rf"^{re.escape(title)}\n(.*?)(?=^#{{1,{len(level)}}} |\Z)", text or REFERENCE.read_text(), re.M | re.S)[1]


def headings(level, text):
    return re.findall(rf"^{level} (.*)$", text, re.M)


def rows():
    """Returns the code and the line of each row of the table of exit statuses, with `|` for its escaped form."""
    cells = [re.split(r"(?<!\\)\|", line) for line in part("## Exit statuses").splitlines() if line.startswith("|")]
    return [(int(code), line.strip().strip("`").replace(r"\|", "|")) for _, code, line, *_ in cells[2:]]


def specified():
    """Returns the code of each status of the specification, and a pattern of its line."""
    text = STATUSES.read_text()
    codes = {name: int(code) for name, code in re.findall(r"^code_of \(?(\w+)[^=]*= (\d+)$", text, re.M)}
    found = {}
    for name, line in re.findall(r"^line_of \(?(\w+)[^=]*= (.*(?:\n .*)*)", text, re.M):
        parts = [re.fullmatch(r'codes "(.*)"', it) for it in re.split(r"\s*\+\+\s*", line.replace("[]", 'codes ""'))]
        found[name] = codes.pop(name), "".join(re.escape(it[1]) if it else ".+" for it in parts)
    assert found and not codes, codes
    return found


class Manual(Case):
    def setUp(self):
        super().setUp()
        self.needs("man", "groff")

    def page(self):
        """Returns the lines of the page as it is shown."""
        ended = self.run_command(["groff", "-man", "-Tascii", "-P-cbu", str(PAGE)])
        self.assertEqual(0, ended.status)
        return ended.out.decode().splitlines()

    def section(self, name):
        """Returns the lines of a section."""
        lines = self.page()
        begin = lines.index(name) + 1
        end = next((at for at in range(begin, len(lines)) if re.match("[^ ]", lines[at])), len(lines))
        return lines[begin:end]

    def paragraphs(self, name):
        """Returns the paragraphs of a section, each a list of its lines. The first line is indented by seven blanks and comes after
        one that is indented by fewer; other lines are indented by seven or more."""
        found, before = [], ""
        for line in self.section(name):
            if re.match(" {7}[^ ]", line) and not before.startswith(" " * 7):
                found.append([])
            if found:
                found[-1].append(line)
            before = line
        return found


class Shown(Manual):
    def shows(self, *command):
        # A warning is on standard error, or on standard output if that is all that is printed.
        ended = self.run_command([*command, str(PAGE)])
        self.assertEqual((0, b""), (ended.status, ended.err))
        return ended.out

    def test_by_man(self):
        self.assertIn(b"NAME\n", self.shows("man", "-l"))

    def test_by_groff(self):
        for device in "ascii", "utf8":
            with self.subTest(device):
                self.assertEqual(b"", self.shows("groff", "-man", f"-T{device}", "-ww", "-z"))

    def test_by_mandoc(self):
        self.needs("mandoc")
        self.assertEqual(b"", self.shows("mandoc", "-T", "lint"))

    def test_lines(self):
        lines = self.page()
        self.assertTrue(lines)
        self.assertEqual([], [line for line in lines if len(line) > 80])


class Made(Case):
    def test_from_the_reference(self):
        ended = self.run_command([str(TOP / "scripts" / "manpage")])
        self.check_ended(ended, 0, "", PAGE.read_bytes())

    def test_definitions_from_the_specifications(self):
        ended = self.run_command([str(TOP / "scripts" / "definitions")])
        self.check_ended(ended, 0, "", (TOP / "docs" / "definitions.md").read_bytes())


class Commands(Manual):
    def test_those_of_the_reference(self):
        self.assertEqual(sorted(COMMANDS), sorted(headings("###", part("## Commands"))))

    def test_the_words_of_each(self):
        commands = part("## Commands")
        for name in COMMANDS:
            with self.subTest(name):
                words = re.match(r"\n`stair FOLDER (\w+)((?: [A-Z]+)*(?:\.\.)?)`\n", part(f"### {name}", commands))
                self.assertEqual(name, words and words[1])
                for operand in words[2].replace("..", "").split():
                    self.assertRegex(part("## Command line"), rf"(?m)^\|[^|]*\b{operand}\b", "an operand that is not described")

    def test_those_of_the_page(self):
        names = [line.strip() for line in self.section("COMMANDS") if re.match("   [^ ]", line)]
        self.assertEqual(sorted(COMMANDS), sorted(names))

    def test_those_of_the_synopsis(self):
        self.assertEqual(sorted(COMMANDS), sorted(line.split()[2] for line in self.section("SYNOPSIS") if line))


class Statuses(Manual):
    def test_the_codes_of_the_specification(self):
        self.assertEqual({code for code, _ in specified().values()} | OTHER_CODES, {code for code, _ in rows()})

    def test_the_line_of_each_row(self):
        self.assertIn((2, USAGE), rows())
        for code, line in rows():
            if code not in OTHER_CODES and line not in OTHER_LINES:
                with self.subTest(line):
                    self.assertTrue([it for it in specified().values() if it[0] == code and re.fullmatch(it[1], line)], "no status has it")

    def test_a_row_of_each_line(self):
        for name, (code, pattern) in specified().items():
            with self.subTest(name):
                self.assertTrue([it for it in rows() if it[0] == code and re.fullmatch(pattern, it[1])], f"no row has {pattern}")

    def test_those_of_the_errors(self):
        commands = part("## Commands")
        found = {int(code) for it in re.findall(r"\(([1-9]\d*(?:, [1-9]\d*)*)\)", commands) for code in it.split(", ")}
        self.assertEqual({code for code, _ in rows()} - {0, 126, 127}, found)

    def test_those_of_the_page(self):
        # Texts are compared without blanks, since a line may be broken at each of them.
        found = ["".join(lines).replace(" ", "") for lines in self.paragraphs("EXIT STATUS")[1:]]
        self.assertEqual(len(rows()), len(found))
        for (code, line), paragraph in zip(rows(), found):
            with self.subTest(f"{code} {line}"):
                self.assertTrue(paragraph.startswith(f"{code}{line}".replace(" ", "")), paragraph)
