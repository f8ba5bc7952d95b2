"""An array is frozen, thawed and labelled."""
from common import *
from fixture import *


class Marks(Story):
    def test_frozen_and_labelled(self):
        # A frozen array is read and scrubbed; a label may have blanks.
        self.begin(FOUR.fresh)
        self.step("freeze", puts=lines("frozen"), case="freeze")
        self.step("freeze", puts=lines("frozen"), case="freeze again")
        self.step("write 0 1", 20, "frozen", input=ONE, case="a write of a frozen array")
        self.step("read 0 1", puts=ZERO, case="a read of it")
        self.step("scrub", puts=lines("scrubbed 3 stripes cells 0"), case="a scrub of it")
        self.step(["label", "shelf 7, left"], puts=lines("labelled"), case="a label")
        self.step("show", puts=FOUR.shown(10, "label shelf 7, left", "frozen", *FOUR.slots()), case="both are shown")
        self.step("thaw", puts=lines("thawed"), case="thaw")
        self.step("write 0 1", puts=wrote(1), input=ONE, case="a write of a thawed array")
