"""Tests of tests/lib/trace: a small run of two connections that has no fault, and tampered ones, each of which is found."""

import os
import re
import shutil
import subprocess
import sys
import tempfile
import unittest

HERE = os.path.dirname(os.path.realpath(__file__))
TOP = os.path.abspath(os.path.join(HERE, "..", "..", ".."))
sys.path[:0] = [HERE, os.path.join(TOP, "tools")]
from lib.pcap import ACK, PUSH, Side, file_header, frame, handshake, record  # noqa: E402
from lib.pdu import lun_of  # noqa: E402
from lib.sessions import find  # noqa: E402
from lib.frames import Segment  # noqa: E402
from checks import judge  # noqa: E402
from observed import read_trace  # noqa: E402

PROGRAM = os.path.join(TOP, "tests", "lib", "trace")
PORT, FIRST, TSIH, OTHER, BEGIN = 3260, 0xfffffffe, 7, 8, 1_700_000_000
COMPLETE, NO_TASK = 0, 1
ABORT_TASK, ABORT_TASK_SET, CLEAR_TASK_SET, LOGICAL_UNIT_RESET = 1, 2, 4, 5
SIMPLE, ORDERED, HEAD = 1, 2, 3


def header(opcode, flags, tag, **places):
    """A header: fields stand by their place, `at_8=bytes`."""
    content = bytearray(48)
    content[0:2], content[16:20] = bytes((opcode, flags)), tag.to_bytes(4, "big")
    for place, value in places.items():
        begin = int(place.removeprefix("at_"))
        content[begin:begin + len(value)] = value
    return bytes(content)


def four(number):
    return (number % 2**32).to_bytes(4, "big")


class Run:
    """A capture and a trace, put together event by event. Each event takes a millisecond. Connection 3 is another
    session's."""

    def __init__(self):
        self.frames, self.segments, self.milliseconds, self.lines, self.sides = [], [], 0, ["# a trace"], {}
        self.stat_sns = {1: 1, 2: 1, 3: 1}
        for cid in (1, 2, 3):
            self.sides[cid] = (Side(b"\2" * 6, b"\x7f\0\0\1", 40000 + cid), Side(b"\3" * 6, b"\x7f\0\0\1", PORT))
            for content in handshake(*self.sides[cid]):
                self.add(content)
            self.log_in(cid)

    def add(self, content):
        self.milliseconds += 1
        self.frames.append((BEGIN * 1_000_000 + self.milliseconds * 1000, content))

    def put(self, cid, content, from_initiator):
        opener, listener = self.sides[cid]
        ways = (opener, listener) if from_initiator else (listener, opener)
        sequence = ways[0].sequence
        self.add(frame(*ways, PUSH | ACK, content))
        ends = [(side.address, side.port) for side in ways]
        self.segments.append(Segment(len(self.frames), self.milliseconds / 1000, *ends, sequence, False, content, 0, None))

    def log_in(self, cid):
        asked, given = (TSIH if cid == 2 else 0).to_bytes(2, "big"), (OTHER if cid == 3 else TSIH).to_bytes(2, "big")
        isid = b"\x80\0\0\0\0" + given[1:]
        self.put(cid, header(0x43, 0x87, 1, at_8=isid + asked, at_20=cid.to_bytes(2, "big"), at_24=four(FIRST)), True)
        self.put(cid, header(0x23, 0x87, 1, at_8=isid + given, at_28=four(FIRST), at_32=four(FIRST + 31)), False)

    def command(self, cid, number, tag, attribute=SIMPLE, unit=0, opcode=0x01):
        self.put(cid, header(opcode, 0xc0 | attribute, tag, at_8=lun_of(unit), at_24=four(FIRST + number),
                             at_32=b"\x28"), True)

    def function(self, cid, number, tag, function, unit=0, ref=0xffffffff, refsn=0):
        self.put(cid, header(0x42, 0x80 | function, tag, at_8=lun_of(unit), at_20=four(ref),
                             at_24=four(FIRST + number), at_32=four(FIRST + refsn)), True)

    def reply(self, cid, opcode, tag, response=0, flags=0x80, exp=1, greatest=32, status=0):
        """A reply with the next StatSN, which all but a Data-In, an R2T and a NOP-In of the target's own take."""
        self.put(cid, header(opcode, flags, tag, at_2=bytes((response, status)), at_24=four(self.stat_sns[cid]),
                             at_28=four(FIRST + exp), at_32=four(FIRST + greatest)), False)
        self.stat_sns[cid] += opcode not in (0x25, 0x31) and tag != 0xffffffff

    def answer(self, cid, tag, **numbers):
        self.reply(cid, 0x21, tag, **numbers)

    def data(self, cid, tag, **numbers):
        self.reply(cid, 0x25, tag, flags=0, **numbers)

    def complete(self, cid, tag, response=COMPLETE, **numbers):
        self.reply(cid, 0x22, tag, response=response, **numbers)

    def work(self, ticket, tag, number, unit=0, outcome="completed", took=1, before=0, tsih=TSIH):
        """A worker takes a command now, or so many milliseconds before."""
        began = BEGIN * 10**9 + (self.milliseconds - before) * 10**6
        self.lines.append(f"{ticket} {tag:08x} {(FIRST + number) % 2**32:08x} {unit} {began} {began + took * 10**6} "
                          f"{outcome} {tsih:04x}")
        self.milliseconds += took

    @property
    def capture(self):
        return file_header() + b"".join(record(*one) for one in self.frames)

    @property
    def trace(self):
        return "".join(f"{line}\n" for line in self.lines)

    def faults(self, *more):
        """What the checks find of it, without tshark."""
        return judge(find(self.segments)[0], BEGIN * 10**9, read_trace(self.trace), *(more or (False,)))[1]


def good_run():
    """Held and missing commands, an abort of a live command, one of a missing command, and a reset."""
    run = Run()
    run.command(2, 1, 0x11)
    run.command(1, 0, 0x10)
    run.work(1, 0x10, 0)
    run.work(2, 0x11, 1)
    run.data(1, 0x10)
    run.answer(1, 0x10)
    run.answer(2, 0x11)
    run.command(1, 2, 0x12)
    run.function(1, 3, 0x20, ABORT_TASK, ref=0x12, refsn=2)
    run.work(3, 0x12, 2, outcome="stopped")
    run.complete(1, 0x20)
    run.function(2, 4, 0x21, ABORT_TASK, ref=0x13, refsn=3)
    run.complete(2, 0x21)
    run.command(1, 4, 0x14, ORDERED)
    run.work(4, 0x14, 4)
    run.answer(1, 0x14)
    run.command(2, 3, 0x13)
    run.command(1, 5, 0x15, unit=1)
    run.function(1, 6, 0x22, LOGICAL_UNIT_RESET, unit=1)
    run.complete(1, 0x22)
    run.command(1, 6, 0x16, unit=1)
    run.work(5, 0x16, 6, unit=1)
    run.answer(1, 0x16)
    return run


class Checks(unittest.TestCase):
    """Each kind of fault, by the checks themselves."""

    def found(self, run, why, has_fence=False):
        self.assertRegex("\n".join(run.faults(has_fence)), why)

    def test_no_fault(self):
        self.assertEqual([], good_run().faults(True))

    def test_a_line_twice(self):
        run = good_run()
        run.lines.append(re.sub(r"^2 ", "9 ", run.lines[2]))
        self.found(run, r"line 7 .* tag 00000011, .* was started already")
        run.lines[-1] = run.lines[2]
        self.found(run, r"line 7 .*: ticket 2 was started in line 3 already")

    def test_a_command_that_never_came(self):
        run = good_run()
        run.work(6, 0x99, 9)
        self.found(run, r"tag 00000099, CmdSN 00000007 and unit 0 isn't in the capture")
        run = good_run()
        run.lines[1] = run.lines[1].replace(f" {TSIH:04x}", " 0009")
        self.found(run, r"line 2 of the trace: no session 0009 is in the capture")

    def test_started_before_it_came(self):
        run = Run()
        run.command(1, 0, 0x10)
        run.work(1, 0x10, 0, before=1)
        run.answer(1, 0x10)
        self.found(run, r"tag 00000010 and CmdSN fffffffe was started before it came")

    def test_started_while_a_number_was_missing(self):
        run = Run()
        run.command(2, 1, 0x11)
        run.work(1, 0x11, 1)
        run.command(1, 0, 0x10)
        run.answer(2, 0x11)
        self.found(run, r"tag 00000011 and CmdSN ffffffff was started while a lower CmdSN was missing")
        run = Run()
        run.command(2, 1, 0x11)
        run.work(1, 0x11, 1)
        run.answer(2, 0x11)
        self.found(run, r"was started while a lower CmdSN was missing")

    def test_a_number_that_an_unanswered_abort_may_have_voided(self):
        for refsn in (0, 7):
            run = Run()
            run.command(2, 1, 0x11)
            run.function(1, 2, 0x20, ABORT_TASK, ref=0x10, refsn=refsn)
            run.work(1, 0x11, 1)
            run.answer(2, 0x11)
            if refsn == 0:
                self.assertEqual([], run.faults())
            else:
                self.found(run, r"was started while a lower CmdSN was missing")

    def test_a_missing_number_that_no_abort_voids(self):
        for response in (COMPLETE, NO_TASK):
            run = Run()
            run.command(1, 1, 0x11)
            run.function(1, 2, 0x20, ABORT_TASK, ref=0x10, refsn=0)
            run.work(1, 0x11, 1)
            run.complete(1, 0x20, response)
            run.answer(1, 0x11)
            self.assertEqual(response != COMPLETE, bool(run.faults()))

    def aborted(self, answer_on=1, function=ABORT_TASK, **numbers):
        run = Run()
        run.command(answer_on, 0, 0x10)
        run.work(1, 0x10, 0)
        run.function(1, 1, 0x20, function, ref=0x10)
        run.complete(1, 0x20, exp=1, greatest=33)
        run.data(answer_on, 0x10, **numbers)
        run.answer(answer_on, 0x10, **numbers)
        return run

    def test_an_answer_after_the_abort(self):
        for function in (ABORT_TASK, ABORT_TASK_SET, LOGICAL_UNIT_RESET):
            run = self.aborted(function=function)
            for name in ("SCSI Data-In", "SCSI Response"):
                self.found(run, rf"{name} of READ\(10\) with tag 00000010 .* after the abort of it was answered")
        self.found(self.aborted(answer_on=2, greatest=34), r"SCSI Response .* after the abort of it was answered")

    def test_an_answer_that_was_overtaken(self):
        run = self.aborted(answer_on=2, function=ABORT_TASK_SET, greatest=33)
        self.assertEqual([], run.faults())
        self.assertEqual(2, len(run.faults(True)))
        self.found(run, r"SCSI Response .* after the abort of it was answered", has_fence=True)

    def none_found(self, answer_on=2, unit=0, refsn=0, number=1, opcode=0x01, **numbers):
        """A command completes, an ABORT TASK of it finds none, and behind that answer come its data and its response."""
        run = Run()
        run.command(answer_on, 0, 0x10, opcode=opcode)
        run.work(1, 0x10, 0)
        run.function(1, number, 0x20, ABORT_TASK, unit=unit, ref=0x10, refsn=refsn)
        run.complete(1, 0x20, NO_TASK, greatest=33)
        run.data(answer_on, 0x10, greatest=33, **numbers)
        run.answer(answer_on, 0x10, greatest=33, **numbers)
        return run

    def test_an_answer_that_none_was_found_overtakes_what_completed(self):
        for answer_on in (1, 2):
            run = self.none_found(answer_on)
            for name in ("SCSI Data-In", "SCSI Response"):
                self.found(run, rf"{name} of READ\(10\) with tag 00000010 .* after the abort of it was answered", has_fence=True)
        self.assertEqual([], self.none_found().faults())
        self.assertEqual(2, len(self.none_found(answer_on=2, exp=2).faults()))
        for other in ({"unit": 1}, {"refsn": 7}, {"number": 0}, {"opcode": 0x41}):
            self.assertEqual([], self.none_found(**other).faults(True), other)

    def test_a_command_that_comes_after_its_abort(self):
        run = good_run()
        run.work(6, 0x13, 3)
        self.found(run, r"tag 00000013 .* was started, and came after the abort of it was answered")
        run = good_run()
        run.answer(2, 0x13)
        self.found(run, r"SCSI Response of READ\(10\) with tag 00000013 .* after the abort of it was answered")

    def test_numbers_that_do_not_go_on(self):
        for name, numbers in (("ExpCmdSN", {"exp": 0}), ("MaxCmdSN", {"greatest": 31})):
            run = good_run()
            run.command(1, 7, 0x17)
            run.work(6, 0x17, 7)
            run.answer(1, 0x17, **numbers)
            self.found(run, rf"\A.*SCSI Response for tag 00000017 has a {name} that is 1 lower than what was shown "
                            r"before\Z")

    def test_stat_sns_that_do_not_count(self):
        for cid, tag in ((1, 0x17), (2, 0x17)):
            run = good_run()
            run.command(cid, 7, tag)
            run.work(6, tag, 7)
            run.stat_sns[cid] += 1
            run.answer(cid, tag)
            run.reply(cid, 0x20, 0xffffffff)
            wanted = run.stat_sns[cid] - 2
            self.found(run, rf"\A.*SCSI Response for tag 00000017 has the StatSN {wanted + 1:08x}, and not "
                            rf"{wanted:08x}\Z")
        run = good_run()
        run.stat_sns[1] -= 1
        run.reply(1, 0x20, 0xffffffff)
        self.found(run, r"\A.*NOP-In for tag ffffffff has the StatSN 00000005, and not 00000006\Z")

    def test_answers_twice_or_of_no_command(self):
        run = good_run()
        run.answer(1, 0x14)
        self.found(run, r"tag 00000014 and CmdSN 00000002 after it was answered in frame")
        run = good_run()
        run.complete(1, 0x20)
        self.found(run, r"a function with tag 00000020 is answered that isn't there, or twice")
        run = good_run()
        run.answer(1, 0x98)
        self.found(run, r"SCSI Response for tag 00000098, which no command has")

    def test_an_answer_of_what_a_worker_stopped(self):
        run = Run()
        run.command(1, 0, 0x10)
        run.work(1, 0x10, 0, outcome="stopped")
        run.answer(1, 0x10)
        self.found(run, r"tag 00000010 .* was stopped, and is answered in frame")
        run = Run()
        run.command(1, 0, 0x10)
        run.work(1, 0x10, 0, outcome="stopped")
        run.answer(1, 0x10, status=0x40)
        self.assertEqual([], run.faults())

    def worked_on(self, function, outcome, took=20, tsih=TSIH):
        """A command of one session or the other is worked on for so long, from before a function to behind its answer."""
        run, cid = Run(), 1 if tsih == TSIH else 3
        run.command(cid, 0, 0x10)
        run.milliseconds += 10
        run.function(1, 1 if cid == 1 else 0, 0x20, function, ref=0x10)
        run.complete(1, 0x20)
        run.work(1, 0x10, 0, outcome=outcome, took=took, before=10, tsih=tsih)
        return run

    def test_work_behind_the_answer_to_an_abort(self):
        for function in (ABORT_TASK, ABORT_TASK_SET, LOGICAL_UNIT_RESET):
            why = r"tag 00000010 .* was worked on when the abort of it was answered in frame"
            run = self.worked_on(function, "stopped")
            self.assertEqual([], run.faults())
            self.assertRegex("".join(run.faults(True, (0,))), why)
            self.assertEqual([], run.faults(True, (1,)))
            self.assertEqual([], self.worked_on(function, "stopped", took=9).faults(True, (0,)))
            self.found(self.worked_on(function, "completed"), why)

    def test_work_behind_the_reset_of_another_session(self):
        why = r"tag 00000010 .* of another session was worked on when a LOGICAL UNIT RESET was answered in frame"
        for outcome, disks in (("completed", ()), ("stopped", (0,))):
            run = self.worked_on(LOGICAL_UNIT_RESET, outcome, tsih=OTHER)
            self.assertEqual([], run.faults(True, disks))
            self.assertRegex("".join(run.faults(True, disks, True)), why)
            run = self.worked_on(LOGICAL_UNIT_RESET, outcome, took=9, tsih=OTHER)
            self.assertEqual([], run.faults(True, disks, True))
        self.assertEqual([], self.worked_on(ABORT_TASK_SET, "completed", tsih=OTHER).faults(True, (0,), True))

    def cleared(self, function, unit=0, is_late=False, is_answered=True):
        """Whether it is a fault that a command ends with TASK ABORTED when another session has sent this function."""
        run = Run()
        steps = [lambda: run.command(3, 0, 0x10), lambda: run.function(1, 0, 0x20, function, unit=unit)]
        for step in steps[:1] * (not is_late) + steps[1:]:
            step()
        if is_answered:
            run.complete(1, 0x20)
        if is_late:
            steps[0]()
        run.answer(3, 0x10, status=0x40)
        self.assertEqual([], run.faults(True))
        faults = "".join(run.faults(True, (), True))
        return bool(re.search(r"tag 00000010 .* ends with TASK ABORTED in frame .* no other session reset its unit", faults))

    def test_a_command_that_no_other_session_reset(self):
        self.assertFalse(self.cleared(LOGICAL_UNIT_RESET))
        self.assertFalse(self.cleared(LOGICAL_UNIT_RESET, is_answered=False))
        self.assertTrue(self.cleared(CLEAR_TASK_SET))
        self.assertTrue(self.cleared(LOGICAL_UNIT_RESET, unit=1))
        self.assertTrue(self.cleared(LOGICAL_UNIT_RESET, is_late=True))

    def overlapping(self, *attributes):
        run = Run()
        for number, attribute in enumerate(attributes):
            run.command(1, number, 0x10 + number, attribute)
        for number in range(len(attributes)):
            run.work(number + 1, 0x10 + number, number, took=20)
            run.milliseconds -= 19
            run.answer(1, 0x10 + number)
        return run

    def test_the_order_of_attributes(self):
        for bad in ((SIMPLE, ORDERED), (ORDERED, SIMPLE), (ORDERED, ORDERED), (HEAD, ORDERED)):
            self.found(self.overlapping(*bad), rf"\(attribute {bad[1]}\) was started before the end of .*tag 00000010 ")
        for right in ((SIMPLE, SIMPLE), (SIMPLE, HEAD), (ORDERED, HEAD)):
            self.assertEqual([], self.overlapping(*right).faults(), right)

@unittest.skipUnless(shutil.which("tshark"), "there is no tshark")
class Script(unittest.TestCase):
    """The script over files: a run without a fault, and tampered ones."""

    def play(self, run, *words, trace=None):
        with tempfile.TemporaryDirectory() as folder:
            paths = [os.path.join(folder, name) for name in ("trace", "capture.pcap")]
            for path, content in zip(paths, ((trace or run.trace).encode(), run.capture)):
                with open(path, "wb") as file:
                    file.write(content)
            return subprocess.run([sys.executable, "-B", PROGRAM, *paths, *words], capture_output=True, text=True)

    def test_no_fault(self):
        done = self.play(good_run(), "--fence")
        self.assertEqual((0, ""), (done.returncode, done.stderr), done.stdout)
        self.assertRegex(done.stdout,
                         r"7 commands, 5 started, 4 answered, 3 aborted by number or tag, 0 others, 3 aborts")
        self.assertTrue(done.stdout.endswith("5 lines of the trace, 0 faults\n"), done.stdout)

    def test_tampered_files(self):
        run = good_run()
        done = self.play(run, trace=run.trace + run.lines[2] + "\n")
        self.assertEqual((1, ""), (done.returncode, done.stderr))
        self.assertRegex(done.stdout, r"ticket 2 was started in line 3 already[^$]*6 lines of the trace, 2 faults\n\Z")
        run.answer(1, 0x12)
        done = self.play(run)
        self.assertEqual((1, ""), (done.returncode, done.stderr))
        self.assertRegex(done.stdout, r"SCSI Response of .* tag 00000012 .* after the abort of it was answered")

    def test_what_can_not_be_read(self):
        run = good_run()
        for trace, why in (("hello\n", "line 1 of the trace: not a line of a trace"),
                           (run.lines[1].replace("completed", "done") + "\n", "line 1 of the trace")):
            done = self.play(run, trace=trace)
            self.assertEqual(2, done.returncode)
            self.assertRegex(done.stderr, rf"\Atrace: {why}")
        run.frames = run.frames[5:]
        self.assertEqual(2, self.play(run).returncode)


if __name__ == "__main__":
    unittest.main()
