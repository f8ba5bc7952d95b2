"""Scripts of `run`: each kind of line, what is no line, lines that are refused, and streams that fail."""
from common import *
from fixture import *

ZEROS = f"0 {digits('00')}"  # the reply to `read 0` of a new array
# The words that run a command which may write at most 10 KiB to a file.
LIMITED = ["bash", "-c", 'trap "" XFSZ; ulimit -f 10; exec "$@"', "bash"]
# Each kind of line of a script over `replaced`, and its reply. The rebuild has three steps, one for each stripe.
EACH_KIND = (
    ("read 0", ZEROS),
    (f"write 14 {digits('5C')}", "wrote 14"),
    ("", None),
    ("scrub 2", "scrubbed stripe 2 cells 0"),
    ("replace 1", "admitted 1"),
    ("rebuild 0", "rebuild 0 steps"),
    ("rebuild 2", "rebuild 2 steps"),
    (f"rebuild {GREATEST}", "rebuild 1 steps"),
    ("rebuild 1", "rebuild 0 steps"),
    (f"write 0 {digits('eF')}", "wrote 0"),
    ("read 14", f"14 {digits('5c')}"),
    ("read 0", f"0 {digits('ef')}"),
)


@once
def replaced(folder):
    """FOUR with a blank device in slot 1."""
    copy(image(FOUR.blank, 1), image(copy(FOUR.fresh, folder), 1))


class Script(Story):
    def run_in(self, before, after, script, replies=(), status=0, says=(), counted=events(), **how):
        """A script, the bytes of a pipe, gets these replies, and the events are counted last on standard error."""
        self.expect_in(before, after, "run", status, [*says, counted], lines(*replies), input=Pipe(script), **how)

    def run_step(self, script, replies=(), status=0, says=(), counted=events(), **how):
        self.step("run", status, [*says, counted], lines(*replies), input=Pipe(lines(*script)), **how)

    def opens(self, script, replies=(), status=0, *says, **how):
        self.run_in(FOUR.fresh, FOUR.opened, script, replies, status, says, **how)


class Lines(Script):
    def test_empty_lines(self):
        self.opens(b"", case="no line")
        self.opens(lines("", "", ""), case="empty lines alone")
        self.opens(lines("", "", "read 0", "", "raed 0"), [ZEROS], 18, "bad line 5", case="empty lines are counted")

    def test_a_line_that_is_misspelt(self):
        self.opens(lines("read 0", "raed 0"), [ZEROS], 18, "bad line 2")

    def test_each_kind_of_line(self):
        script, replies = lines(*(line for line, _ in EACH_KIND)), [reply for _, reply in EACH_KIND if reply]
        says, counted = ["fenced 1", "admitted 1", "promoted 1"], events(fenced=1, admitted=1, promoted=1)
        self.begin(replaced())
        self.step("run", 0, [*says, counted], lines(*replies), input=Pipe(script), case="each kind of line")
        # The end of the last line makes no difference to the image files.
        after = self.folder("after", self.work)
        self.run_in(replaced(), after, script[:-1], replies, 0, says, counted, case="the last line without its end")
        self.lose(2)
        self.step("read 0 15", says="fenced 2", puts=filled(0xEF, *[0] * 13, 0x5C), case="the blocks afterwards")

    def test_a_bad_last_line_without_its_end(self):
        self.opens(b"read 0\nread", [ZEROS], 18, "bad line 2")


class NoLines(Script):
    def no_line(self, case, line):
        self.opens(lines(line, "read 0"), [], 18, "bad line 1", case=case)

    def test_reads(self):
        for line in " ", "read", "read ", "read  0", " read 0", "read 0 ", "read\t0", "read 0\r", "read 0 1", "Read 0", b"read \xff":
            self.no_line(repr(line), line)

    def test_numbers(self):
        for line in "read 00", "read +1", f"read {GREATEST + 1}", "scrub", "replace -1", "rebuild":
            self.no_line(repr(line), line)

    def test_another_command(self):
        self.no_line("show", "show")

    def test_writes(self):
        for case, line in (
            ("no digit", "write 0"),
            ("two blanks", f"write 0  {digits('00')}"),
            ("a digit too many", f"write 0 {digits('00')}0"),
            ("a digit too few", f"write 0 {digits('00')[1:]}"),
            ("what is no digit", f"write 0 {digits('0g')}"),
            ("a blank at the end", f"write 0 {digits('00')} "),
        ):
            self.no_line(case, line)

    def test_a_byte_0(self):
        self.opens(b"read 0\0\n", [], 18, "bad line 1")

    def test_long_lines(self):
        # A line of the grammar has at most 1,051 bytes, and 1,100 bytes are taken of a line.
        for length in 1100, 1101, 100000:
            line = "write 0 ".ljust(length, "0")
            self.opens(lines("", line, "read 0"), [], 18, "bad line 2", case=f"{length} bytes")

    def test_the_longest_line(self):
        self.opens(lines(f"write {GREATEST} {digits('Aa')}"), [], 11, f"out of range: {GREATEST} of 15")


class Refused(Script):
    """A line that is refused ends the run, and the lines before it are done."""

    def refused(self, line, status, says):
        script = lines(f"write 0 {digits('01')}", line, f"write 1 {digits('02')}")
        self.run_in(FOUR.fresh, written(), script, ["wrote 0"], status, [says], case=line[:40])

    def test_numbers_out_of_range(self):
        self.refused("read 15", 11, "out of range: 15 of 15")
        self.refused(f"write 15 {digits('03')}", 11, "out of range: 15 of 15")
        self.refused("scrub 3", 11, "out of range: 3 of 3")
        self.refused("scrub 4294967296", 11, "out of range: 4294967296 of 3")
        self.refused("replace 4", 11, "out of range: 4 of 4")
        self.refused("replace 256", 11, "out of range: 256 of 4")

    def test_a_live_slot(self):
        self.refused("replace 2", 14, "slot busy: slot 2 is live")

    def test_what_is_no_line(self):
        self.refused(f"write 1 {digits('0x')}", 18, "bad line 2")

    def test_replacements(self):
        self.begin(replaced())
        said, counted = ["fenced 1", "admitted 1", "slot busy: slot 1 is rebuilding"], events(fenced=1, admitted=1)
        script = ["replace 1", "rebuild 2", "replace 1", "rebuild 5"]
        self.run_step(script, ["admitted 1", "rebuild 2 steps"], 14, said, counted, case="a slot that is rebuilding")
        self.step("show", puts=FOUR.shown(3, *FOUR.slots(slot1="rebuilding 3")), case="it is shown as rebuilding")
        self.run_step(["rebuild 4"], ["rebuild 3 steps"], 0, ["promoted 1"], events(promoted=1), case="a rebuild that begins again")
        self.lose(1)
        self.run_step(["replace 1"], [], 15, ["fenced 1", "gone: slot 1"], events(fenced=1), case="no device")
        self.insert(1, 16)
        said = [short(1, 16, FOUR), "small device: slot 1 has 16 of 17 sectors"]
        self.run_step(["replace 1"], [], 13, said, case="a small device")
        copy(image(OTHER.fresh, 1), image(self.work, 1))
        self.run_step(["replace 1"], [], 12, ["array already: slot 1"], case="a device of another array")

    def test_a_frozen_array(self):
        script = lines("read 0", "scrub 0", f"write 0 {digits('01')}", "read 0")
        replies = [ZEROS, "scrubbed stripe 0 cells 0"]
        self.run_in(frozen(), opened_frozen(), script, replies, 20, ["frozen"], case="a write")
        script = lines(f"write 15 {digits('01')}")
        self.run_in(frozen(), opened_frozen(), script, [], 11, ["out of range: 15 of 15"], case="a write past the last block")

    def test_no_array(self):
        self.run_in(FOUR.blank, FOUR.blank, lines("read 0"), [], 7, ["no array"])

    def test_a_folder_in_use(self):
        self.needs("flock")
        self.run_in(FOUR.fresh, FOUR.fresh, lines("read 0"), [], 75, [".: in use"], wrap=["flock", "."])


class Repairs(Script):
    def test_a_repaired_stripe_and_a_lost_one(self):
        self.begin(FOUR.fresh)
        self.step("write 0 15", puts=wrote(15), input=Pipe(filled(*range(1, 16))), case="all blocks")
        for slot, number, at in (3, 11, 543), (2, 13, 0), (3, 13, 0):
            self.damage(slot, number, at)
        self.lose(1)
        said = ["fenced 1", "repaired stripe 0 cells 1", bad(2, 1), bad(3, 2), "lost: stripe 1 counts 0 2 1 1"]
        replies = ["scrubbed stripe 0 cells 1", f"5 {digits('06')}"]
        self.run_step(["scrub 0", "read 5", "scrub 1", "read 0"], replies, 10, said, events(fenced=1, repaired=1), case="a script")

    def test_a_lost_device_of_eight_is_replaced(self):
        blocks = filled(*range(196))
        self.begin(EIGHT.blank)
        self.step("create", puts=EIGHT.created, input=EIGHT.text, case="an array")
        self.step("write 0 196", puts=wrote(196), input=blocks, case="blocks")
        self.lose(3)
        self.insert(3, 291)
        script = ["read 5", f"write 5 {digits('aa')}", "scrub 0", "replace 3", "rebuild 5000", "read 5"]
        replies = [f"5 {digits('05')}", "wrote 5", "scrubbed stripe 0 cells 0", "admitted 3", "rebuild 64 steps", f"5 {digits('aa')}"]
        said, counted = ["fenced 3", "admitted 3", "promoted 3"], events(fenced=1, admitted=1, promoted=1)
        self.step("run", 0, [*said, counted], lines(*replies), input=lines(*script), case="a script")
        self.step("show", puts=EIGHT.shown(5, *EIGHT.slots(slot3="live 4")), case="the new device is live")
        self.lose(0, 6)
        wanted = filled(*range(5), 0xAA, *range(6, 196), 0, 0)
        self.step("read 0 198", says=["fenced 0", "fenced 6"], puts=wanted, case="all blocks, without two devices")


class Streams(Script):
    """Streams that fail. The lines before stay done, and so does the line whose reply could not be put out."""

    TWO = lines(f"write 0 {digits('01')}", f"write 1 {digits('02')}")

    def test_inputs(self):
        how = {"status": 5, "says": [*INPUT_CLOSED, events()]}
        self.expect_in(FOUR.fresh, FOUR.opened, "run", **how, input=CLOSED, case="a closed script")
        self.expect_in(FOUR.fresh, FOUR.opened, "run", **how, input=self.room, case="a folder")

    def test_outputs(self):
        for case, out, says in ("a closed output", CLOSED, OUTPUT_CLOSED), ("a full output", FULL, OUTPUT_FULL):
            self.expect_in(FOUR.fresh, written(), "run", 6, [*says, events()], input=self.TWO, out=out, case=case)

    def test_a_closed_standard_error(self):
        script, replies = lines(f"write 0 {digits('01')}", "read 0"), lines("wrote 0", f"0 {digits('01')}")
        self.expect_in(FOUR.fresh, written(), "run", puts=replies, input=Pipe(script), err=CLOSED)

    def test_an_output_that_is_full_within_a_reply(self):
        # A file may have 10 KiB, so the output is full within the reply to the tenth read.
        script = lines(f"write 0 {digits('01')}", *["read 0"] * 16, f"write 1 {digits('02')}")
        replies = lines("wrote 0", *[f"0 {digits('01')}"] * 16)[:10240]
        said = [*OUTPUT_LIMITED, events()]
        self.expect_in(FOUR.fresh, written(), "run", 6, said, replies, input=Pipe(script), wrap=LIMITED)


class Dialogues(Script):
    """Lines that are sent once the reply to the one before has come."""

    def begin_talk(self):
        self.begin(FOUR.fresh)
        self.dialogue = self.talk("run")

    def replies(self, reply, *pieces, case):
        """A case: after these pieces this reply comes."""
        with self.subTest(case):
            self.dialogue.send(*pieces)
            self.assertEqual(lines(reply), self.dialogue.line())

    def ends(self, status, *says, case):
        """A case: the script ends so."""
        with self.subTest(case):
            self.assertEqual((status, lines(*says)), self.dialogue.end())

    def block_0(self, data, case):
        self.same(data, sector(image(self.work, 0), 11), case)

    def test_pieces_of_lines(self):
        self.begin_talk()
        self.replies(ZEROS, b"r", b"ea", b"d ", b"0", b"\n", case="a line in pieces")
        self.step("read 0 1", 75, ".: in use", case="a read beside a script")
        self.dialogue.send(f"write 0 {digits('01')}".encode(), pause=0.1)
        self.block_0(ZERO, "half a line is not done")
        self.replies("wrote 0", b"\n", case="the rest of it")
        self.block_0(ONE, "a reply comes once its line is done")
        self.replies(f"0 {digits('01')}", lines("", "read 0", "scrub 0"), case="two lines in one piece")
        self.replies("scrubbed stripe 0 cells 0", case="the second reply")
        self.dialogue.send(b"read 0")
        self.dialogue.close_input()
        self.replies(f"0 {digits('01')}", case="a last line without its end")
        self.ends(0, events(), case="the end")
        self.same(b"", self.dialogue.take(1), "no more replies")

    def test_a_line_that_is_too_long_before_its_end(self):
        self.begin_talk()
        self.dialogue.send(b"0" * 1101)
        self.ends(18, "bad line 1", events(), case="the end")

    def test_a_reader_that_goes(self):
        self.begin_talk()
        self.replies("wrote 0", lines(f"write 0 {digits('01')}"), case="a line before")
        self.dialogue.close_output()
        self.dialogue.send(lines(f"write 1 {digits('FF')}", f"write 2 {digits('AA')}"))
        self.ends(6, *OUTPUT_LEFT, events(), case="the end")
        self.step("read 0 3", puts=ONE + FF + ZERO, case="the lines up to there")

    def test_a_script_that_is_killed(self):
        self.begin_talk()
        self.replies("wrote 1", lines(f"write 1 {digits('01')}"), case="a line before")
        self.dialogue.kill()
        self.step("read 0 2", puts=ZERO + ONE, case="it is done")
