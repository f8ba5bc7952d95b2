"""Comments and documents have no idioms in place of plain words, but those that `tests/style.txt` counts."""
import collections
import functools
import os
import re
import unittest

from documents import fences
from fixture import TOP

NEEDS_PROGRAM = False

# How many idioms a crate or a document still has: a place and its count on each line.
COUNTS = TOP / "tests" / "style.txt"

# An idiom, and what to write instead. Where an idiom has a blank, a line may end. Code in back quotes is read as `c`.
IDIOMS = {
    "behind": "in time: after, past, next, in order",
    "beside": "in addition to, as well as; in space: next to",
    r"bears? (?:\S+ )?out|borne out": "refines, follows",
    "want of memory|memory was short|(?:was|were) short of": "out of memory",
    "can(?:not|'t) be had|(?:may|can|to) be had": "cannot be opened; is available",
    "(?:came|comes?) of": "the result of",
    "it (?:is|was) so|(?:is|are|was|were) so (?:of|once|still|where|with)": "this holds, holds for",
    "so (?:it is|they are) (?:after|also|in|now|of|once|still|then|where|with)": "this holds where .., holds for ..",
    "and so (?:is|are)": "as does ..; the same holds for ..",
    "in the midst": "during",
    "let(?:s|ting)? go of": "releases, drops",
    "(?:is|are|was|were|be|been|being) told|(?:tells?|told) of|telling": "reported, given; shows",
    "(?:goes|go|going|went) by": "uses, depends on",
    "of `c` alone": "`c` only",
    r"(?:has|have|had|having) (?:\S+ ){1,2}for itself": "locks exclusively",
    "its words": "its command line, its arguments",
    "stands?|stood|standing": "is, holds, depends on, represents",
    "(?:came|comes?|coming) back": "is reinserted",
    "one like it|such an? one": "name it",
    "deeds?": "action, item of the trace",
    "story|stories": "trace",
    "calm": "within tolerance",
}
GAP = r"(?: +| *\n *)"
PATTERNS = [(re.compile(rf"(?<!\w)(?:{idiom.replace(' ', GAP)})(?!\w)", re.I), advice) for idiom, advice in IDIOMS.items()]

# What begins a comment, and the line of one: code, with its strings, and the comment.
CODE = r"""(?:'"'|"(?:\\.|[^"\\])*"|[^"])*?(?<!\S)"""
COMMENTS = {".rt": ("//", re.compile(CODE + "//[/!]?(.*)")), ".antt": ("--", re.compile(CODE + "--(.*)"))}

Hit = collections.namedtuple("Hit", "path line words advice")


def prose(text, kind):
    """Returns the words of a file of this suffix, line for line: of code the comments, of a document all but its fenced blocks."""
    lines = text.split("\n")
    if kind == ".md":
        for number, _, _, inside in fences(text):
            lines[number - 1 : number + len(inside) + 1] = [""] * (len(inside) + 2)
    else:
        mark, comment = COMMENTS[kind]
        lines = [found[1] if mark in line and (found := comment.match(line)) else "" for line in lines]
    return re.sub(r"`[^`\n]+`", "`c`", "\n".join(lines))


def hits(path, text, kind):
    """Returns each idiom of a file, in order."""
    words = prose(text, kind)
    found = [(it.start(), it[0], advice) for pattern, advice in PATTERNS for it in pattern.finditer(words)]
    return [Hit(path, words.count("\n", 0, at) + 1, " ".join(it.split()), advice) for at, it, advice in sorted(found)]


def place_of(path):
    """Returns the crate of a file, or the document."""
    return "/".join(path.split("/")[:2]) if path.startswith("crates/") else path


@functools.lru_cache(maxsize=None)
def all_hits():
    """Returns the idioms of the repository by their places."""
    # docs/definitions.md is generated from the comments of the crates.
    documents = [TOP / "README.md", *(it for it in (TOP / "docs").rglob("*.md") if it.name != "definitions.md")]
    files = [it for it in (TOP / "crates").rglob("*") if it.suffix in (".md", *COMMENTS) and "out" not in it.parts]
    found = collections.defaultdict(list)
    for path in sorted(documents + files):
        name = str(path.relative_to(TOP))
        found[place_of(name)] += hits(name, path.read_text(), path.suffix)
    return found


def read_counts():
    return {place: int(count) for place, count in map(str.split, COUNTS.read_text().splitlines())}


def shrink(counts, found):
    """Returns these counts without what is gone. None rises."""
    least = {place: min(count, len(found.get(place, []))) for place, count in sorted(counts.items())}
    return {place: count for place, count in least.items() if count}


def fault_of(place, found, count):
    """Returns what is wrong with a place that has these idioms and may have `count`, or an empty text."""
    if len(found) < count:
        return f"{place} has {len(found)} idioms and not {count}: STAIR_STYLE=shrink tests/run style mends tests/style.txt"
    if len(found) == count:
        return ""
    lines = (f"{it.path}:{it.line}: {it.words}: write: {it.advice}" for it in found)
    return "\n".join([f"{place} has {len(found)} idioms, and may have {count}:", *lines])


class Style(unittest.TestCase):
    def test_places(self):
        if os.environ.get("STAIR_STYLE") == "shrink":
            COUNTS.write_text("".join(f"{place} {count}\n" for place, count in shrink(read_counts(), all_hits()).items()))
        counts = read_counts()
        for place in sorted({*counts, *all_hits()}):
            with self.subTest(place):
                fault = fault_of(place, all_hits()[place], counts.get(place, 0))
                if fault:
                    self.fail(fault)


SAMPLE = """\
//! It stands, `it stands` behind `a`, of `guard` alone. Standard outstanding history.
let text = "\\" // behind"; let quote = '"'; // what it is
// told, and so
let behind = x//behind
// are others

// such a

// one
"""
FOUND = [(1, "stands"), (1, "behind"), (1, "of `c` alone"), (2, "is told")]
DOCUMENT = "# Behind\n```\nbehind\n```\n- in the\n  midst\n\n`behind`"
EACH = """behind beside,bears it out,want of memory,can't be had,came of,it was so,so it is where,and so are,in the midst,let go of,are told,
goes by,of `guard` alone,has the folder for itself,its words,stood,comes back,such a one,deeds,stories,calm"""


class Itself(unittest.TestCase):
    """What the suite finds, and when it fails."""

    def test_comments(self):
        for kind, mark in (".rt", "//"), (".antt", "--"):
            with self.subTest(kind):
                found = hits("a", SAMPLE.replace("//!", mark).replace("//", mark), kind)
                self.assertEqual(FOUND, [(it.line, it.words) for it in found])

    def test_documents(self):
        self.assertEqual([(1, "Behind"), (5, "in the midst")], [(it.line, it.words) for it in hits("a", DOCUMENT, ".md")])

    def test_each_idiom(self):
        self.assertEqual(list(IDIOMS.values()), [it.advice for it in hits("a", EACH, ".md")])

    def test_places(self):
        self.assertEqual("crates/stair_gf", place_of("crates/stair_gf/src/lib.rt"))
        self.assertEqual("docs/gate.md", place_of("docs/gate.md"))

    def test_faults(self):
        found = hits("docs/a.md", "It\nstands.", ".md")
        self.assertEqual("", fault_of("docs/a.md", found, 1))
        self.assertIn("docs/a.md:2: stands: write: is, holds", fault_of("docs/a.md", found, 0))
        self.assertIn("docs/a.md has 1 idioms and not 2", fault_of("docs/a.md", found, 2))

    def test_counts_only_shrink(self):
        self.assertEqual({"b": 1, "c": 1}, shrink({"c": 1, "a": 1, "b": 2}, {"b": [0], "c": [0, 0], "d": [0]}))
