"""What documents in Markdown have: sessions, which tests/README.md describes, and links."""
import collections
import pathlib
import re
import urllib.parse

# The number of the first line, what the session needs, and its steps; of a step, the number of its line, the command, the lines that it prints,
# and its status.
Session = collections.namedtuple("Session", "line needs steps")
Step = collections.namedtuple("Step", "line command printed status")

FENCE = re.compile("( *)(`{3,}|~{3,})([^`]*)")
NEEDS = re.compile(r"\s*<!--\s*needs:(.*)-->\s*")
STATUS = re.compile(r"\[status (\d+)\]")


def fences(text):
    """Yields each fenced block: the number of its first line, its kind, the line before it, and the lines in it."""
    lines = iter(enumerate(text.split("\n"), 1))
    before = ""
    for number, line in lines:
        opened = FENCE.fullmatch(line)
        if opened:
            indent, mark, kind = opened.groups()
            inside = []
            for _, line in lines:
                if re.fullmatch(rf"\s*{re.escape(mark[0])}{{{len(mark)},}}\s*", line):
                    break
                inside.append(re.sub(f"^ {{0,{len(indent)}}}", "", line))
            else:
                raise ValueError(f"{number}: this block has no end")
            yield number, kind, before, inside
        before = line


def sessions(text):
    """Returns the sessions of a document. Raises ValueError, with the number of the line, for what is in none of the forms above."""
    found = []
    for number, kind, before, inside in fences(text):
        if kind == "console":
            needs = NEEDS.fullmatch(before)
            found.append(Session(number, needs[1].split() if needs else [], list(steps_of(number, inside))))
        elif "console" in kind.lower():
            raise ValueError(f"{number}: a session is of the kind `console`, not `{kind}`")
    begins = {it.line for it in found}
    for number, line in enumerate(text.split("\n"), 1):
        if NEEDS.fullmatch(line) and number + 1 not in begins:
            raise ValueError(f"{number}: no session begins on the next line")
    return found


def steps_of(number, lines):
    """Yields the steps of the session whose first line has this number."""
    starts = [at for at, line in enumerate(lines) if line.startswith("$ ")]
    if not starts or starts[0] != 0:
        raise ValueError(f"{number + 1}: a session begins with a command")
    for start, end in zip(starts, [*starts[1:], len(lines)]):
        count = 1
        while start + count < end and re.match("> |>$", lines[start + count]):
            count += 1
        command, printed = [line[2:] for line in lines[start : start + count]], lines[start + count : end]
        if command[-1].endswith("\\"):
            raise ValueError(f"{number + start + count}: the next line does not go on with the command")
        says = STATUS.fullmatch(printed[-1]) if printed else None
        if says:
            printed.pop()
        if says and not 1 <= int(says[1]) <= 255 or any(map(STATUS.fullmatch, printed)):
            raise ValueError(f"{number + start + 1}: a status is 1 to 255, and stands in the last line")
        yield Step(number + 1 + start, "\n".join(command), printed, int(says[1]) if says else 0)


def is_printed(wanted, found):
    """Returns whether a text is what these lines say."""
    patterns = (r"(?:.*\n)*" if line == "..." else ".*".join(map(re.escape, line.split("..."))) + r"\n" for line in wanted)
    return re.fullmatch("".join(patterns), found) is not None


# LINKS


def prose(text):
    """Returns the lines of a document outside its fenced blocks, by their numbers, without comments and what is in back quotes."""
    left = dict(enumerate(text.split("\n"), 1))
    for number, _, _, inside in fences(text):
        for line in range(number, number + len(inside) + 2):
            del left[line]
    return {number: re.sub(r"<!--.*?-->|(`+)(?!`).*?(?<!`)\1(?!`)", "", line) for number, line in left.items()}


def links(text):
    """Yields the number of a line and the target, for each link and picture."""
    for number, line in prose(text).items():
        for target in re.findall(r"""\]\(\s*<?([^\s<>()]+)|^ {0,3}\[[^\]]+\]:\s*(\S+)|\b(?:href|src|srcset)="([^"\s]+)""", line):
            yield number, "".join(target)


def anchors(text):
    """Returns the anchors of a document: those that GitHub gives headings, and those of elements with a name."""
    found, counts = set(), collections.Counter()
    inside = {line for number, _, _, lines in fences(text) for line in range(number, number + len(lines) + 2)}
    for number, line in enumerate(text.split("\n"), 1):
        if number in inside:
            continue
        found.update(re.findall(r'<a\s+(?:id|name)="([^"]+)"', line))
        heading = re.fullmatch(r" {0,3}#{1,6}\s+(.*?)(?:\s+#+)?\s*", line)
        if heading:
            words = re.sub(r"\[([^\]]*)\]\([^)]*\)", r"\1", heading[1])
            name = re.sub(r"[^\w\- ]", "", words.lower()).replace(" ", "-")
            found.add(f"{name}-{counts[name]}" if counts[name] else name)
            counts[name] += 1
    return found


def undefined(text):
    """Yields the number of a line and a label, for each label that a link has and that is not defined. In a document that defines none,
    brackets are no labels."""
    lines = prose(text)
    defined = {it[1].lower() for line in lines.values() if (it := re.match(r" {0,3}\[([^\]]+)\]:", line))}
    for number, line in lines.items():
        yield from ((number, label) for label in re.findall(r"\]\[([^\]]+)\]", line) if defined and label.lower() not in defined)


def broken_links(path, top):
    """Returns a line for each relative link of a document that leads to no file or anchor below this folder, and each label that is not
    defined."""
    text = path.read_text()
    faults = [(number, f"{target} {why}") for number, target in links(text) if (why := fault_of(path, target, top))]
    faults += [(number, f"[{label}] is not defined") for number, label in undefined(text)]
    return [f"{path}:{number}: {fault}" for number, fault in sorted(faults)]


def fault_of(path, target, top):
    """Returns why a link of a document leads nowhere, or an empty text."""
    if re.match("[a-z][a-z0-9+.-]*:", target):
        return ""
    name, _, anchor = target.partition("#")
    place = (path.parent / urllib.parse.unquote(name)).resolve() if name else path.resolve()
    if name.startswith("/") or not place.is_relative_to(top):
        return "is not relative to the document, or leads out of the repository"
    if not place.exists():
        return "is not there"
    if anchor and (place.suffix != ".md" or anchor not in anchors(place.read_text())):
        return "is no anchor there"
    return ""
