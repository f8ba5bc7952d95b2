"""Command lines that are refused: status 2, the usage line, and no input is taken."""
from fixture import *


class Words(Case):
    def refused(self, *lists, at="."):
        """Each of these command lines is refused: words with blanks between them, or a list."""
        for words in lists:
            self.expect(words, 2, USAGE, at=at, input=STRIPE, left=4096, case=f"{at} {words!r}")

    def test_no_command(self):
        self.refused([], at=None)
        self.refused([], "verify 4 1 2 1", "reed 0 1")

    def test_folders(self):
        self.refused("check 4 1 2 1", at="")
        self.refused("check 4 1 2 1", at=b"\xff")

    def test_stripes(self):
        self.refused(
            "check 4 1 2",
            "check +4 1 2 1",
            "check 4 1 2 01",
            "check 4 1 2 18446744073709551616",
            "check -- 4 1 2 1",
            "check 4 1 2 1 --help",
            ["check", b"\xff", "1", "2", "1"],
            "stripe sideways 4 1 2 1",
        )

    def test_arrays(self):
        self.refused("create 4", "show 4", "freeze now", "thaw now")

    def test_labels(self):
        self.refused("label", ["label", ""], ["label", "shelf", "7"], ["label", "shelf\t7"], ["label", "0" * 65])

    def test_blocks(self):
        self.refused("read", "read 0", "read 0 1 2", "read --help 1", "write 0", "write 00 1", "write 0 18446744073709551616")

    def test_care(self):
        self.refused("scrub 0", "replace", "replace 1 2", "replace -1", "replace 01", "rebuild 3")

    def test_scripts(self):
        self.refused("run 1", "run --help")
        self.refused("guard", "guard 1", "guard 0 1", "guard 1 0", "guard 1 1 1", "guard 1 18446744073709551616")
        self.refused("report 1")
        self.refused("exercise 0", "exercise 0 1 2", "exercise 0 01", "exercise 18446744073709551616 1")

    def test_serve(self):
        self.refused("serve 1", "serve --help")

    def test_volumes(self):
        self.refused("vinit 1", "vlist home", "vlist --help", "vdrop", "vdrop home b_2", ["vdrop", "hôme".encode()])
        self.refused("vmake", "vmake home", "vmake home 0", "vmake home 01", "vmake home 4 4")
        self.refused("vmake Home 4", "vmake ho-me 4", "vmake -- 4", "vmake abcdefghijklmnopq 4", ["vmake", "", "4"])
        self.refused("vread home 0", "vread home -1 1", "vread 0 1")
        self.refused("vwrite home 0", "vwrite home 0 18446744073709551616", "vwrite home 0 1 1")

    def test_plan(self):
        self.refused("plan", "plan 4 1 2", "plan up 4 1 2 1", "plan 4 1 2 01")
