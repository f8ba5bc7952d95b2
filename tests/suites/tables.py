"""All cases of the tables of the program stair_fault_tables, over racks in memory."""
from fixture import *

SLOW = True
NEEDS_PROGRAM = False
PROGRAM = TOP / "crates" / "stair_fault_tables" / "out" / "stair_fault_tables"
# Whether the program is newer than its sources, by the script that builds programs.
IS_CURRENT = 'top=$1 program=$2; . "$top/scripts/build"; find_crates stair_fault_tables; find_cpu; is_current'
# The parts, and how many calls or cases each has in the whole: crates/stair_fault_tables/README.md works them out.
PARTS = [
    ("stops in a write of a block", "116 calls"),
    ("stops in a write of all blocks", "260 calls"),
    ("stops in a scrub of two bad cells", "126 calls"),
    ("stops in a replacement", "130 calls"),
    ("stops in a freeze", "84 calls"),
    ("stops in an opening with open gates", "80 calls"),
    ("stops in a script", "348 calls"),
    ("stops in a making of a volume", "295 calls"),
    ("damage and pulls in a write of a block", "116 calls"),
    ("pulls in a write and returns in the next opening", "63104 cases"),
    ("superblocks that can't be read", "38 cases"),
    ("places of a superblock", "262144 cases"),
    ("gates and bodies that can't be read", "30 cases"),
    ("places of an open gate", "3065 cases"),
    ("commands over racks that aren't honest", "3000 cases"),
    ("commands whose input or output fails", "162 cases"),
]


class Tables(Case):
    def test_whole(self):
        how = f"needs {PROGRAM.relative_to(TOP)}, by: bash -c 'top=$PWD; . scripts/build; build tables stair_fault_tables'"
        if not PROGRAM.exists():
            self.skipTest(how)
        if self.run_command(["bash", "-c", IS_CURRENT, "bash", TOP, PROGRAM]).status:
            self.skipTest(f"{how}; the one that is there is older than its sources")
        ended = self.run_command([PROGRAM, "whole"], limit=1800)
        with self.subTest("whole"):
            self.assertEqual((0, b"", len(PARTS)), (ended.status, ended.err, ended.out.count(b"\n")), ended.out.decode())
        for line, (name, count) in zip(ended.out.decode().splitlines(), PARTS):
            with self.subTest(name):
                self.assertRegex(line, f"^{name}: {count}(, [0-9]+ cases)?$")
