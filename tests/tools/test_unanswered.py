"""Tests of what is said of requests that have no answer: where each is, how old it is, and that none is said of one that has."""

import json
import math
import os
import re
import sys
import tempfile
import unittest

from helpers import TOP, replay, run_tool
from test_capture import CAPTURES, Wire, command, pdu, response, write_pcap
from test_explain import command as line_of
from test_statistics import recording_of

sys.path.insert(0, os.path.join(TOP, "tools"))
from lib import report, unanswered  # noqa: E402

ORDERED = 0x82


def ordered(tag, cmd_sn):
    request = bytearray(command(tag, cmd_sn))
    request[1] = ORDERED
    return bytes(request)


def function(number, tag, cmd_sn, referenced=0xffffffff, ref_cmd_sn=0):
    """An immediate function of task management."""
    return pdu(0x42, 0x80 | number, tag, (referenced, cmd_sn, 0, ref_cmd_sn))


class Case(unittest.TestCase):
    def setUp(self):
        folder = tempfile.TemporaryDirectory()
        self.addCleanup(folder.cleanup)
        self.folder = folder.name

    def path(self, name):
        return os.path.join(self.folder, name)

    def read(self, name):
        with open(self.path(name), encoding="utf-8") as file:
            return file.read()

    def tool(self, name, *words, text=None):
        done = run_tool(name, *words, text=text)
        self.assertEqual((0, ""), (done.returncode, done.stderr))
        return done.stdout

    def look(self, capture):
        self.tool("look", capture, "-o", self.folder)
        self.index = self.read("index.html")

    def of_wire(self, *segments):
        """What `compare` says of a session of these segments: pairs of whether it is the initiator's and its bytes."""
        wire = Wire()
        wire.log_in(0)
        for side, payload in segments:
            wire.put(0, side, payload)
        write_pcap(self.path("made.pcap"), wire.segments)
        self.look(self.path("made.pcap"))
        return self.compared("made-1")

    def compared(self, name):
        return json.loads(self.tool("compare", self.path(name), "--json"))["unanswered"]

    def of_report(self, tool, name, *words):
        return self.tool(tool, self.path(f"{name}.report"), "--recording", self.path(f"{name}.recording"), *words)

    def states(self, rows):
        return [(row["tag"], row["state"], row["where"]) for row in rows]


class Captures(Case):
    def test_a_capture_that_ends_before_an_answer(self):
        """The last segment acknowledges alone, 2 ms behind the request."""
        rows = self.of_wire((True, command(0xa1, 1)), (False, response(0xa1, 1, 2, 33)), (True, command(0xa2, 2)), (False, b""), (True, b""))
        self.assertEqual([("a2", "started", "started, at unit 0 for 2.000 ms")], self.states(rows))
        self.assertEqual([("TEST UNIT READY", 1, 0, 3, 7, 2000)],
                         [(*(row[key] for key in ("name", "cid", "unit", "event", "frame")), round(row["seconds"] * 1e6)) for row in rows])
        self.assertEqual(rows, json.loads(self.of_report("statistics", "made-1", "--json"))["unanswered"])
        told = ["without an answer at the end: 1",
                "       2.000 ms  TEST UNIT READY, tag a2, CID 1, unit 0, frame 7; started, at unit 0 for 2.000 ms"]
        self.assertEqual(told, self.of_report("statistics", "made-1").splitlines()[:2])
        self.assertEqual(["", *told], self.of_report("explain", "made-1").splitlines()[-3:])

    def test_it_is_the_first_of_the_index(self):
        self.of_wire((True, command(0xa1, 1)), (False, response(0xa1, 1, 2, 33)), (True, command(0xa2, 2)))
        heads, row = (re.findall(f"<{cell}>(.*?)</{cell}>", self.index) for cell in ("th", "td"))
        self.assertEqual('<span class="sick">1</span>', row[heads.index("unanswered")])
        listed = self.index.index("<li>0.000 ms old at the capture's end: TEST UNIT READY, tag a2, CID 1, unit 0, "
                                  '<a href="made-1.html#3">frame 7</a>; started, at unit 0 for 0.000 ms</li>')
        self.assertLess(self.index.index("Without an answer"), listed)
        self.assertLess(listed, self.index.index("Slowest commands"))

    def test_a_command_behind_an_ordered_one(self):
        rows = self.of_wire((True, ordered(0xa1, 1)), (True, command(0xa2, 2)))
        self.assertEqual([("a1", "started", "started, at unit 0 for 1.000 ms"),
                          ("a2", "dormant", "may not start yet: it stands behind ticket 1 (ORDERED TEST UNIT READY, tag a1)")],
                         self.states(rows))

    def test_what_bars_a_command_is_that_of_the_end(self):
        """It came behind two, of which one has ended."""
        rows = self.of_wire((True, command(0xa1, 1)), (True, command(0xa2, 2)), (True, ordered(0xa3, 3)),
                            (False, response(0xa1, 1, 4, 33)))
        self.assertEqual(("a3", "dormant", "may not start yet: it stands behind ticket 2 (SIMPLE TEST UNIT READY, tag a2)"),
                         self.states(rows)[1])

    def test_held_for_a_number(self):
        rows = self.of_wire((True, command(0xa1, 1)), (False, response(0xa1, 1, 2, 33)), (True, command(0xa3, 3)), (True, command(0xa5, 5)),
                            (True, function(2, 0xb1, 6)))
        self.assertEqual([("a3", "held", "held: CmdSN 2 is missing"), ("a5", "held", "held: CmdSNs 2 and 4 are missing"),
                          ("b1", "waits", "waits for its turn: CmdSNs 2 and 4 are missing")], self.states(rows))

    def test_held_where_nothing_tells_the_first_number(self):
        self.assertEqual([("a2", "held", "held: lower CmdSNs are missing")], self.states(self.of_wire((True, command(0xa2, 2)))))

    def test_a_function_that_the_target_does_not_answer(self):
        """The command that it takes out isn't one that is never answered, and is named with the function."""
        rows = self.of_wire((True, command(0xa1, 1)), (True, function(5, 0xb1, 2)))
        self.assertEqual([("b1", "answered by the program alone",
                           "the program answers Task Management Function Response function complete, the target nothing; "
                           "it takes out TEST UNIT READY, tag a1, CID 1")], self.states(rows))
        self.assertEqual([], json.loads(self.of_report("statistics", "made-1", "--json"))["unanswered"])

    def test_requests_of_other_kinds(self):
        """A Text Request, a NOP-Out with a tag and a Logout; a NOP-Out without a tag asks for no answer."""
        requests = [pdu(0x40, 0x80, 0xffffffff, (0xffffffff, 1)), pdu(4, 0x80, 0xc1, (0xffffffff, 1)),
                    pdu(0x40, 0x80, 0xc2, (0xffffffff, 2)), pdu(6, 0x80, 0xc3, (0, 2))]
        rows = self.of_wire(*((True, request) for request in requests))
        self.assertEqual([("Text Request", "c1"), ("NOP-Out", "c2"), ("Logout (close the session)", "c3")],
                         [(row["name"], row["tag"]) for row in rows])
        answers = [pdu(0x24, 0x80, 0xc1, (0xffffffff, 1, 2, 33)), pdu(0x20, 0x80, 0xc2, (0xffffffff, 2, 2, 33)),
                   pdu(0x26, 0x80, 0xc3, (0, 3, 3, 34))]
        both = [(True, requests[0])]
        for request, answer in zip(requests[1:], answers):
            both += [(True, request), (False, answer)]
        self.assertEqual([], self.of_wire(*both))

    def test_what_the_target_alone_answers_is_no_such_request(self):
        """The program doesn't, as an ORDERED one bars it: that is a difference, and the other one is open."""
        rows = self.of_wire((True, ordered(0xa1, 1)), (True, command(0xa2, 2)), (False, response(0xa2, 1, 3, 34)))
        self.assertEqual(["a1"], [row["tag"] for row in rows])
        self.assertEqual({"missing reply": 1}, json.loads(self.tool("compare", self.path("made-1"), "--json"))["counts"])

    def test_a_tag_that_is_used_again(self):
        """The first NOP-Out isn't answered, the second one is."""
        ping = [pdu(0x40, 0x80, 0xc2, (0xffffffff, 1)), pdu(0x20, 0x80, 0xc2, (0xffffffff, 1, 1, 32))]
        rows = self.of_wire((True, ping[0]), (True, ping[0]), (False, ping[1]))
        self.assertEqual([5], [row["frame"] for row in rows])

    def test_a_reply_that_the_capture_lacks(self):
        """The target sent it, as its next StatSN shows: that to a command, or to a NOP-Out."""
        ping = pdu(0x40, 0x80, 5, (0xffffffff, 1)), pdu(0x20, 0x80, 5, (0xffffffff, 1, 3, 34))
        for first, lost in ((command(5, 1), response(5, 1, 4, 35)), ping):
            wire = Wire()
            wire.log_in(0)
            number = 1 if first is ping[0] else 2
            for request in (first, command(6, number), command(7, number + 1)):
                wire.put(0, True, request)
            wire.lose(0, False, lost)
            wire.put(0, False, response(6, 2, number + 2, number + 33))
            write_pcap(self.path("made.pcap"), wire.segments)
            self.look(self.path("made.pcap"))
            self.assertIn(" lost 00000005 ", self.read("made-1.target"))
            self.assertEqual(["7"], [row["tag"] for row in self.compared("made-1")])

    def test_a_hole_behind_the_last_answer(self):
        """What no StatSN tells may have been lost. Where an answer comes behind the hole, its StatSN tells that nothing was."""
        doubt = "started, at unit 0 for {} ms; the capture lacks PDUs, and may lack the answer"
        for is_read_again in (False, True):
            wire = Wire()
            wire.log_in(0)
            for tag in (5, 6):
                wire.put(0, True, command(tag, tag - 4))
            wire.lose(0, False, bytes(48))
            wire.put(0, False, bytes(range(1, 61)))
            if is_read_again:
                wire.put(0, False, response(5, 1, 3, 34))
            write_pcap(self.path("made.pcap"), wire.segments)
            self.look(self.path("made.pcap"))
            rows = self.compared("made-1")
            if is_read_again:
                self.assertEqual([("6", "started", "started, at unit 0 for 2.000 ms")], self.states(rows))
            else:
                self.assertEqual([("5", "started", doubt.format("2.000")), ("6", "started", doubt.format("1.000"))], self.states(rows))
                self.assertIn("the capture lacks PDUs, and may lack the answer</li>", self.index)

    def test_what_comments_tell_of_the_end(self):
        """Of many holes the last isn't told; what is none of these lines tells nothing."""
        for words, hole in (("1 frame(s): 12", 12), ("2 frame(s): 40, 12", 40), ("9 frame(s): 1, 2, 3, 4, 5, 6, 7, 8 ..", math.inf),
                            ("1 frame(s): , ", None), ("1 frame(s): " + "9" * 5000, None), ("a frame", None)):
            end = unanswered.End([f"# PDUs are lacking behind {words}\n", "# the capture ends at 1.500000 s\n", "# the capture ends at x s"])
            self.assertEqual((1.5, hole), (end.seconds, end.last_hole), words)

    def test_real_targets(self):
        """istgt never answers the command behind its reset, nor one Logout, and ends a connection before it answers a command."""
        for name, tag, kind, state in (("istgt-reset", "24", "TEST UNIT READY", "started"),
                                       ("istgt-out-of-order", "11", "TEST UNIT READY", "started"),
                                       ("istgt-abort", "32", "Logout (close the session)", "answered by the program alone")):
            self.look(os.path.join(CAPTURES, f"{name}.pcapng"))
            self.assertEqual([(tag, kind, state)], [(row["tag"], row["name"], row["state"]) for row in self.compared(f"{name}-1")])
            self.assertIn("Without an answer", self.index)

    def test_sessions_in_which_all_is_answered(self):
        for name in ("libiscsi", "abort-live", "istgt-reset-live", "two-connections", "after-login", "digests"):
            self.look(os.path.join(CAPTURES, f"{name}.pcapng"))
            sessions = re.findall(r'<h2 id="(.*?)">', self.index)
            self.assertTrue(sessions)
            self.assertNotIn("Without an answer", self.index)
            for session in sessions:
                self.assertEqual([], self.compared(session), session)
                self.assertNotIn("without an answer", self.of_report("statistics", session) + self.of_report("explain", session))


class Reports(Case):
    def rows(self, recording, *words):
        return json.loads(self.tool("statistics", "--json", text=replay(recording, *words)))["unanswered"]

    def test_without_times(self):
        rows = self.rows(f"conn 1 00000001\n{line_of(1, 0xa1)}\n{line_of(2, 0xa2)}\nD 1 00\n")
        self.assertEqual([("a2", "started", "started, at unit 0")], self.states(rows))
        self.assertEqual((None, None, 2), tuple(rows[0][key] for key in ("seconds", "frame", "event")))

    def test_a_request_that_was_made_up(self):
        """Nobody saw it, so nobody is told that it has no answer."""
        recording = recording_of((0.0, line_of(1, 0xa1)), (0.1, line_of(2, 0xa2)))
        self.assertEqual(["a1", "a2"], [row["tag"] for row in self.rows(recording)])
        with open(self.path("made.recording"), "w", encoding="ascii") as file:
            file.write(recording.replace("frame 1: ", "frame 1: made up, since the capture lacks it: "))
        told = self.tool("statistics", "-", "--json", "--recording", self.path("made.recording"), text=replay(recording))
        self.assertEqual(["a2"], [row["tag"] for row in json.loads(told)["unanswered"]])

    def test_above_the_window_and_twice(self):
        """What is above MaxCmdSN has no answer; what comes twice asks once."""
        begin = f"conn 1 00000001\n{line_of(1, 0xa1)}\nD 1 00\n"
        rows = self.rows(f"{begin}{line_of(3, 0xa3)}\n{line_of(3, 0xa3)}\n{line_of(9, 0xa9)}\n{line_of(1, 0xa1)}\n", "--window", "4")
        self.assertEqual([("a3", "held", "held: CmdSN 2 is missing"),
                          ("a9", "outside", "passed over: its CmdSN is above MaxCmdSN")], self.states(rows))

    def test_every_worked_report(self):
        """Where a command is live at the end it is told, and no other is; and nothing is told that a later line answers."""
        cases, told = os.path.join(TOP, "tests", "cases"), 0
        for name in sorted(os.listdir(cases)):
            path = os.path.join(cases, name, "report")
            if not os.path.isfile(path):
                continue
            with open(path, encoding="ascii") as file:
                lines = file.read().splitlines()
            rows = unanswered.unanswered((event, None) for event in report.read(lines)).all()
            entered, left = (sum(line.startswith(f"  {kind} ") for line in lines) for kind in ("enter", "leave"))
            self.assertEqual(entered - left, sum(row.state in ("dormant", "started") for row in rows), name)
            events = [place for place, line in enumerate(lines) if line.startswith("> ")]
            for row in rows:
                tag = lines[events[row.event - 1]].split()[3][32:40].lower()
                behind = [line.split()[-1] for line in lines[events[row.event - 1]:] if line.startswith(f"  send {row.cid} ")]
                asked = sum(line.startswith(f"> C {row.cid} ") and line.split()[3][32:40].lower() == tag for line in lines)
                answered = sum(tag == pdu[32:40] for pdu in behind)
                self.assertLess(answered, asked, (name, row))
            told += len(rows)
        self.assertGreater(told, 50)

    def test_many(self):
        """The oldest first, and no more than thirty as text."""
        recording = recording_of(*((number / 1000, line_of(number, number)) for number in range(1, 41)))
        with open(self.path("made.report"), "w", encoding="ascii") as file:
            file.write(replay(recording, "--window", "64"))
        with open(self.path("made.recording"), "w", encoding="ascii") as file:
            file.write(recording)
        lines = self.of_report("statistics", "made").splitlines()
        self.assertEqual("without an answer at the end: 40", lines[0])
        self.assertTrue(lines[1].startswith("      39.000 ms  READ(10), tag 1, "), lines[1])
        self.assertEqual("  and 10 more", lines[31])
        self.assertEqual(40, len(json.loads(self.of_report("statistics", "made", "--json"))["unanswered"]))


if __name__ == "__main__":
    unittest.main()
