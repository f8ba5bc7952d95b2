"""Streams that are closed, full, folders, or whose reader closes: for a stripe, and for a new array."""
import os

from fixture import *

BROKEN = with_byte(STRIPE, 3 * 512, 0xF5)


class Stripes(Case):
    def test_inputs(self):
        self.expect("check 4 1 2 1", 5, INPUT_CLOSED, input=self.room, case="a folder as input")
        self.expect("check 4 1 2 1", 5, INPUT_CLOSED, input=CLOSED, case="a closed input")
        self.expect("restore 4 1 2 1", 5, INPUT_CLOSED, input=self.room, case="a folder as input of restore")

    def test_outputs(self):
        self.expect("check 4 1 2 1", 6, OUTPUT_CLOSED, input=STRIPE, out=CLOSED, case="a closed output")
        self.expect("check 4 1 2 1", 6, OUTPUT_FULL, input=STRIPE, out=FULL, case="a full output")

    def test_a_reader_that_closes(self):
        given = Pipe(bytes(921 * 512))
        self.expect("stripe up 32 3 32 1 2 4", 6, OUTPUT_LEFT, bytes(100), input=given, out=Reader(100))

    def test_a_closed_standard_error(self):
        self.expect("check 4 1 2 1", 1, input=BROKEN, err=CLOSED)


class Arrays(Case):
    """No image file gets the number of a closed stream: lines would be written into it."""

    def created(self, status=0, says="", puts=b"", input=FOUR.text, **how):
        self.expect_in(FOUR.blank, FOUR.fresh, "create", status, says, puts, input=input, **how)

    def not_created(self, status, says="", before=None, input=FOUR.text, **how):
        before = before or FOUR.blank
        self.expect_in(before, before, "create", status, says, input=input, **how)

    def test_inputs(self):
        self.not_created(5, INPUT_CLOSED, input=self.room, case="a folder as a text")
        self.not_created(5, INPUT_CLOSED, input=CLOSED, case="a closed text")

    def test_outputs(self):
        self.created(6, OUTPUT_CLOSED, out=CLOSED, case="an array and a closed output")
        self.created(6, OUTPUT_FULL, out=FULL, case="an array and a full output")

    def test_a_closed_standard_error(self):
        self.created(puts=FOUR.created, err=CLOSED, case="an array")
        self.created(6, out=CLOSED, err=CLOSED, case="an array and a closed output")
        self.not_created(12, before=FOUR.fresh, err=CLOSED, case="a refusal")

    def test_three_closed_streams(self):
        self.not_created(5, input=CLOSED, out=CLOSED, err=CLOSED)

    def test_too_few_files_at_once(self):
        self.not_created(5, ["/: Too many open files", "input failed"], wrap=ulimit("-n", 5))

    def test_a_codeword_in_a_folder_of_devices(self):
        self.expect_in(FOUR.blank, FOUR.blank, "check 4 1 2 1", puts=CODEWORD, input=STRIPE)


class Script(Case):
    """The script `stair` passes its arguments and streams to the program, and ends with its status."""

    def setUp(self):
        super().setUp()
        if "STAIR_PROGRAM" in os.environ:
            self.skipTest("STAIR_PROGRAM names another program than the script's")

    def command(self, words, *rest, **how):
        return [str(TOP / "stair") if word == program() else word for word in super().command(words, *rest, **how)]

    def test_streams(self):
        self.expect("check 4 1 2 1", puts=CODEWORD, input=STRIPE, case="a codeword")
        self.expect("check 4 1 2 1", 1, "not a codeword: row 0 parity 0 byte 0", input=BROKEN, case="no codeword")
        self.expect("check 4 1 2 1", 5, INPUT_CLOSED, input=CLOSED, case="a closed input")
        self.expect("check 4 1 2 1", 6, OUTPUT_CLOSED, input=STRIPE, out=CLOSED, case="a closed output")
        self.expect("check 4 1 2 1", 1, input=BROKEN, err=CLOSED, case="a closed standard error")
        self.expect_in(FOUR.blank, FOUR.blank, "create", 5, input=CLOSED, out=CLOSED, err=CLOSED, case="three closed streams")

    def test_words(self):
        for words, at in (([], None), (["label", ""], "."), (["label", "a  b", "c"], "."), (["check", b"\xff"], "."), ([], "")):
            self.expect(words, 2, USAGE, at=at, input=STRIPE, left=4096, case=f"{at} {words}")

    def test_an_array(self):
        self.expect_in(FOUR.blank, FOUR.fresh, "create", puts=FOUR.created, input=FOUR.text, at=str, case="an absolute path")
        self.expect_in(FOUR.fresh, FOUR.fresh, "show", puts=FOUR.shown(1, *FOUR.slots()), at="../folder", case="a path with ..")
