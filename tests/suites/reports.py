"""`report` counts the events of a log. It reads no device."""
from common import *
from fixture import *


class Reports(Story):
    def counted(self, log, counts, *slots, **how):
        """The log, the bytes of a pipe, has so many events, and these lines follow."""
        self.expect("report", puts=lines(counts, *slots), input=Pipe(log), **how)

    def refused(self, log, number, **how):
        self.expect("report", 18, f"bad line {number}", input=Pipe(log), **how)


class Counted(Reports):
    def test_three_events(self):
        self.counted(lines("fenced 3", "repaired stripe 0 cells 2", "fenced 3"), events(fenced=2, repaired=1), "slot 3 fenced 2")

    def test_no_end_of_the_last_line(self):
        counts = events(fenced=1, admitted=1, promoted=1)
        self.counted(b"admitted 0\npromoted 0\nfenced 31", counts, "slot 31 fenced 1")

    def test_no_line(self):
        self.expect("report", puts=lines(events()))

    def test_slots_in_their_order(self):
        slots = ["slot 0 fenced 1", "slot 2 fenced 1", "slot 10 fenced 2"]
        self.counted(lines("fenced 10", "fenced 2", "fenced 0", "fenced 10"), events(fenced=4), *slots)

    def test_a_folder_that_is_not_there(self):
        self.counted(lines("fenced 1"), events(fenced=1), "slot 1 fenced 1", at="-x")

    def test_stripes_of_large_arrays(self):
        for stripe in 65535, 65536, 4294967294:
            self.counted(lines(f"repaired stripe {stripe} cells 1"), events(repaired=1), case=f"stripe {stripe}")

    def test_a_million_events(self):
        log = b"".join(b"repaired stripe %d cells 1\n" % (number % 65536) for number in range(1000000))
        self.expect("report", puts=lines(events(repaired=1000000)), input=log)

    def test_the_log_of_a_script(self):
        self.begin_flawed()
        self.lose(1)
        ended = self.run_program("run", lines("scrub 0", "read 0"), self.work)
        kinds = b"fenced ", b"repaired ", b"admitted ", b"promoted "
        log = b"".join(line for line in ended.err.splitlines(True) if line.startswith(kinds))
        self.counted(log, events(fenced=1, repaired=1), "slot 1 fenced 1")


class Refused(Reports):
    def test_a_slot_past_the_last(self):
        self.refused(lines("fenced 32"), 1)

    def test_a_stripe_past_the_last(self):
        for stripe in 4294967295, 4294967296, 4295032832, GREATEST:
            self.refused(lines(f"repaired stripe {stripe} cells 1"), 1, case=f"stripe {stripe}")

    def test_empty_lines(self):
        self.refused(lines("fenced 1", "", "fenced 1"), 2, case="an empty line")
        self.refused(b"fenced 1\n\n", 2, case="two ends")

    def test_another_line_of_a_log(self):
        self.refused(lines("fenced 1", "halted after line 1"), 2)

    def test_long_lines(self):
        self.refused(b"fenced %057d\n" % 1, 1, case="64 bytes")
        self.refused(b"fenced %058d" % 1, 1, case="65 bytes, whose end is not seen")

    def test_streams_that_fail(self):
        self.expect("report", 5, INPUT_CLOSED, input=CLOSED, case="a closed log")
        self.expect("report", 6, OUTPUT_FULL, input=Pipe(lines("fenced 1")), out=FULL, case="a full output")
