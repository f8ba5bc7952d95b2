"""Must-fail edits of both sets, the gate's and tests/edits: the prover refuses each. Takes names of crates."""
import os
import re
import shutil
import subprocess
import tempfile
import unittest

from fixture import TOP

SLOW = True
NEEDS_PROGRAM = False

# What the kit says of an edit that the prover refused, and of any edit that it tried.
REFUSED = "refused, as it must be"
TOLD = re.compile(r"(?:rt: )?must-fail (\w+)/(\w+)\.edit: (.*)")


def edits_of(crate):
    """Returns the paths of a crate's edits, by their names."""
    found = {}
    for folder in (TOP / "crates" / crate / "must-fail", TOP / "tests" / "edits" / crate):
        for path in folder.glob("*.edit"):
            if path.stem in found:
                raise ValueError(f"{crate} has two edits {path.stem}")
            found[path.stem] = path
    return found


def crates():
    """Returns the crates to try: those that the command line names, or all that have edits."""
    named = os.environ.get("STAIR_CRATES", "").split()
    return named or sorted(path.name for path in (TOP / "crates").iterdir() if edits_of(path.name))


def lay_out(room, chosen):
    """Copies the repository's crates. Those that are chosen get the edits of both sets, all others none."""
    skipped = shutil.ignore_patterns("out", "must-fail")
    shutil.copytree(TOP / "crates", f"{room}/crates", ignore=skipped)
    for name in ("crates.txt", "HANDLES"):
        shutil.copy(TOP / name, room)
    for crate in chosen:
        os.mkdir(f"{room}/crates/{crate}/must-fail")
        for path in edits_of(crate).values():
            shutil.copy(path, f"{room}/crates/{crate}/must-fail")


def try_all(room, chosen):
    """Has the kit try the edits, and returns its output. It proves first what this machine has not kept."""
    env = {key: value for key, value in os.environ.items() if key != "CI"}
    env.setdefault("RT_JOBS", str(len(os.sched_getaffinity(0))))
    ran = subprocess.run(["rt", "ci", *chosen], cwd=room, env=env, stdin=subprocess.DEVNULL, stdout=subprocess.PIPE,
                         stderr=subprocess.STDOUT, text=True, errors="replace")
    return ran.stdout


class Edits(unittest.TestCase):
    def test_the_prover_refuses_each(self):
        chosen = crates()
        with tempfile.TemporaryDirectory(prefix="stair-edits-") as room:
            lay_out(room, chosen)
            output = try_all(room, chosen)
        told = {(crate, name): what for crate, name, what in TOLD.findall(output)}
        for crate in chosen:
            for name in sorted(edits_of(crate)):
                with self.subTest(f"{crate} {name}"):
                    self.assertIn(REFUSED, told.get((crate, name), f"not tried: {output[-2000:]}"))
