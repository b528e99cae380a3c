"""Tests of tools/compare: each kind of difference, and what is left out."""

import json
import os
import re
import subprocess
import sys
import tempfile
import unittest

from helpers import TOP, replay, run_tool

sys.path.insert(0, os.path.join(TOP, "tools"))
from lib.answers import read as read_answers  # noqa: E402
from lib.differences import Comparison, Place, Replay, longest_rise  # noqa: E402
from lib.report import read as read_report  # noqa: E402

CAPTURES = os.path.join(TOP, "tests", "tools", "captures")
OPTIONS = "--first 00000001 --window 32 --units 1 --depth 1024 --level 1"


def header(opcode, flags, tag, cmd_sn, referenced=0):
    return (f"{opcode:02x}{flags:02x}0000" + "00000000" * 3 + f"{tag:08x}{referenced:08x}{cmd_sn:08x}").ljust(96, "0")


COMMANDS = [(f"C 1 {header(0x01, 0x81, tag, tag)}", 10 * tag) for tag in (1, 2)]
NOP = (f"C 1 {header(0x00, 0x80, 3, 3)}", 30)
TEXT = (f"C 1 {header(0x04, 0x80, 4, 4)}", 40)
DONE = [("D 1 00", 51), ("D 2 00", 52)]
EVENTS = [*COMMANDS, NOP, *DONE, (f"C 1 {header(0x42, 0x81, 6, 4, referenced=9)}", 60)]
ANSWERS = {
    "nop": "31 0.310000 1 nop-in 00000003 00000001 00000004 00000021 --",
    "one": "51 0.510000 1 scsi-response 00000001 00000002 00000004 00000022 00 GOOD",
    "two": "52 0.520000 1 data-in-status 00000002 00000003 00000004 00000023 00 GOOD",
    "abort": "61 0.610000 1 function-response 00000006 00000004 00000004 00000023 01 task does not exist",
}


class Rising(unittest.TestCase):
    def test_longest_rising_parts(self):
        self.assertEqual(set(), longest_rise([]))
        self.assertEqual({0, 1, 2}, longest_rise([1, 5, 9]))
        self.assertEqual({1, 2, 3}, longest_rise([9, 1, 2, 3]))
        self.assertEqual({0, 1, 3}, longest_rise([1, 2, 9, 3]))
        self.assertEqual(1, len(longest_rise([3, 2, 1])))


class Session(unittest.TestCase):
    """A session that was written by hand, with what its target is to have answered."""

    def setUp(self):
        folder = tempfile.TemporaryDirectory()
        self.addCleanup(folder.cleanup)
        self.base = os.path.join(folder.name, "made-1")

    def write(self, answers, events=tuple(EVENTS), options=OPTIONS):
        lines = [f"# iscsi-replay: {options}", "# the target's widest window: 32", "conn 1 00000001"]
        for event, frame in events:
            lines += [f"# time 0.{frame:02d}0000 frame {frame}", event]
        self.put(".recording", "\n".join(lines) + "\n")
        self.put(".target", "# what the target answered\n" + "\n".join(answers) + "\n")

    def put(self, ending, text):
        with open(self.base + ending, "wb") as file:
            file.write(text.encode() if isinstance(text, str) else text)

    def compare(self, *words):
        done = run_tool("compare", self.base, *words)
        self.assertEqual((0, ""), (done.returncode, done.stderr))
        return done.stdout

    def changed(self, *changes):
        """What compare says of answers in which these words were replaced: a name, the old words, the new ones."""
        answers = dict(ANSWERS)
        for name, old, new in changes:
            self.assertIn(old, answers[name])
            answers[name] = answers[name].replace(old, new)
        self.write(answers.values())
        return self.compare("--all")


class Kinds(Session):
    def test_no_difference(self):
        self.write(ANSWERS.values())
        self.assertIn("Compared: 4 replies of the target, 4 of the program.\nNo difference.\n", self.compare())

    def test_the_answers_are_those_of_the_program(self):
        self.write(ANSWERS.values())
        with open(f"{self.base}.recording", encoding="utf-8") as file:
            sends = [line.split()[2] for line in replay(file.read(), *OPTIONS.split()).splitlines() if "  send" in line]
        told = [answer.split()[4:8] for answer in ANSWERS.values()]
        self.assertEqual(told, [[sent[32:40], sent[48:56], sent[56:64], sent[64:72]] for sent in sends])

    def test_status(self):
        told = self.changed(("one", "00 GOOD", "08 BUSY"))
        self.assertIn("frame 51 (0.510000 s), connection 1, status:\n  TEST UNIT READY with tag 00000001: the target "
                      "answers SCSI Response 08 (BUSY), the program SCSI Response 00 (GOOD)\n", told)
        self.assertIn("Differences: 1 x status.\n", told)

    def test_response(self):
        told = self.changed(("abort", "01 task does not exist", "00 function complete"))
        self.assertRegex(told, r"frame 61 .* response:\n  ABORT TASK .* 00 \(function complete\), "
                               r".* 01 \(task does not exist\)")

    def test_another_kind(self):
        told = self.changed(("abort", "function-response", "reject"))
        self.assertRegex(told, r"frame 61 .* another kind:\n.* Reject 01 .*, "
                               r"the program Task Management Function Response 01")

    def test_exp_cmd_sn(self):
        told = self.changed(("one", "00000004 00000022", "00000003 00000022"))
        self.assertIn("the target says ExpCmdSN 00000003, the program 00000004\n  a choice of this target: ", told)
        self.assertIn("\nDifferences: 1 x ExpCmdSN.\n", told)

    def test_max_cmd_sn(self):
        told = self.changed(("one", "00000022", "00000028"))
        self.assertIn("the target says MaxCmdSN 00000028, the program 00000022\n  a choice of this target: ", told)
        self.assertIn("\nDifferences: 1 x MaxCmdSN.\n", told)

    def test_a_fixed_window(self):
        told = self.changed(("nop", "00000021", "00000023"), ("one", "00000022", "00000023"))
        self.assertIn("The target holds MaxCmdSN at ExpCmdSN + 31 in all its replies; the program takes the live commands off. "
                      "By that alone MaxCmdSN differs in 2 of them.\n", told)
        self.assertEqual("No other difference.", told.splitlines()[-1])

    def test_max_cmd_sn_that_differs_with_exp_cmd_sn(self):
        """The program's window is as wide as the target's fixed one there, so that one doesn't explain it."""
        told = self.changed(("nop", "00000021", "00000023"), ("one", "00000022", "00000023"),
                            ("abort", "00000004 00000023", "00000005 00000024"))
        self.assertIn("By that alone MaxCmdSN differs in 2 of them.\n", told)
        self.assertIn("Differences: 1 x ExpCmdSN; 1 x MaxCmdSN.\n", told)

    def test_what_the_fixed_window_makes_is_not_the_first_difference(self):
        self.changed(("nop", "00000021", "00000023"), ("one", "00000022", "00000023"), ("two", "00 GOOD", "08 BUSY"))
        self.assertIn("The first difference: frame 52 ", self.compare())

    def test_json(self):
        self.changed(("nop", "00000021", "00000023"), ("one", "00000022", "00000023"), ("two", "00 GOOD", "08 BUSY"))
        told = json.loads(self.compare("--json"))
        self.assertEqual({"status": 1}, told["counts"])
        self.assertEqual([("status", 52, 1, 2)], [(one["kind"], one["frame"], one["cid"], one["tag"]) for one in told["differences"]])
        self.assertEqual({"size": 32, "replies": 2}, told["fixed_window"])
        self.assertEqual({"target": 4, "program": 4}, told["compared"])

    def test_replies_that_the_capture_lacks(self):
        """Neither side counts them, and the StatSNs of those behind them stand beside the program's."""
        answers = dict(ANSWERS, one="52 0.520000 1 lost 00000001 00000002 00000000 00000000 --")
        self.write(answers.values())
        told = self.compare("--all")
        self.assertIn("Left out, since the capture lacks the target's: 1 of the program's replies.\n", told)
        self.assertIn("Compared: 3 replies of the target, 3 of the program.\n", told)
        self.assertEqual("No difference.", told.splitlines()[-1])

    def test_stat_sn_counts_once_where_it_stays_shifted(self):
        told = self.changed(("two", "00000003 00000004", "00000009 00000004"),
                            ("abort", "00000004 00000004", "0000000a 00000004"))
        self.assertIn("the target says StatSN 00000009, the program 00000003 at this place\n"
                      "  not judged: no rule covers this difference\nDifferences: 1 x StatSN.\n", told)

    def test_stat_sn_of_two_replies_that_changed_places(self):
        """The replies behind them, whose StatSNs are the program's again, are no difference."""
        told = self.changed(("nop", "00000001 00000004", "00000002 00000004"),
                            ("one", "00000002 00000004", "00000001 00000004"))
        self.assertIn("the target says StatSN 00000002, the program 00000001 at this place\n", told)
        self.assertIn("the target says StatSN 00000001, the program 00000002 at this place\n"
                      "  not allowed (RFC 7143 section 4.2.2.2): ", told)
        self.assertIn("\nDifferences: 2 x StatSN.\n", told)

    def test_missing_reply_of_a_command_that_was_aborted(self):
        abort = (f"C 1 {header(0x42, 0x81, 6, 4, referenced=1)}", 45)
        self.write(ANSWERS.values(), (*COMMANDS, NOP, abort, *DONE))
        told = self.compare()
        self.assertIn("The first difference: frame 51 (0.510000 s), connection 1, missing reply:\n  TEST UNIT READY "
                      "with tag 00000001: the target answers SCSI Response 00 (GOOD), the program nothing: ticket 1 "
                      "left its task set at frame 45, by ABORT TASK with tag 00000006\n", told)

    def test_missing_reply_of_a_command_that_is_not_enabled(self):
        ordered = (f"C 1 {header(0x01, 0x82, 1, 1)}", 10)
        self.write([ANSWERS["nop"], ANSWERS["two"]], (ordered, COMMANDS[1], NOP, DONE[1]))
        self.assertIn("ticket 2 isn't enabled yet", self.compare())

    def test_missing_reply_of_a_request_that_is_ignored(self):
        far = (f"C 1 {header(0x00, 0x80, 3, 0x99)}", 30)
        self.write([ANSWERS["nop"]], (far,))
        self.assertIn("NOP-Out with tag 00000003: the target answers NOP-In, the program nothing: "
                      "it ignored the request as outside", self.compare())

    def test_missing_reply_of_a_request_that_waits_for_its_turn(self):
        self.write([ANSWERS["two"]], (COMMANDS[1],))
        self.assertIn("TEST UNIT READY with tag 00000002: the target answers Data-In with status 00 (GOOD), "
                      "the program nothing: the request waits for a lower CmdSN\n", self.compare())
        self.write([ANSWERS["abort"]], (COMMANDS[1], (f"C 1 {header(0x42, 0x82, 6, 4)}", 60), COMMANDS[0]))
        self.assertIn("ABORT TASK SET with tag 00000006: the target answers Task Management Function Response 01 "
                      "(task does not exist), the program nothing: the request waits for a lower CmdSN\n",
                      self.compare())

    def test_missing_reply_without_a_request(self):
        self.write([*ANSWERS.values(), ANSWERS["abort"].replace("00000006", "00000077")])
        self.assertIn("tag 00000077: the target answers Task Management Function Response 01 (task does not exist), "
                      "the program nothing: the recording has no such request", self.compare())

    def test_additional_reply(self):
        self.write([answer for name, answer in ANSWERS.items() if name != "abort"])
        self.assertRegex(self.compare(), r"frame 60 .* additional reply:\n  ABORT TASK with tag 00000006: the program "
                                         r"answers Task Management Function Response 01 \(task does not exist\), "
                                         r"the target nothing")

    def test_order(self):
        late = ANSWERS["nop"].replace("31 0.310000", "55 0.550000").replace("00000001 00000004", "00000003 00000004")
        one = ANSWERS["one"].replace("00000002 00000004", "00000001 00000004")
        two = ANSWERS["two"].replace("00000003 00000004", "00000002 00000004")
        self.write([one, two, late, ANSWERS["abort"]])
        told = self.compare("--all")
        self.assertRegex(told, r"frame 55 .* order:\n  NOP-Out with tag 00000003: it stands elsewhere .* "
                               r"event of frame 30\n")
        self.assertIn("Differences: 1 x order.\n", told)

    def test_a_tag_that_is_used_again(self):
        again = (f"C 1 {header(0x00, 0x80, 1, 4)}", 70)
        reply = "71 0.710000 1 nop-in 00000001 00000005 00000005 00000024 --"
        self.write([*ANSWERS.values(), reply], (*EVENTS, again))
        self.assertIn("No difference.", self.compare())
        self.write([*list(ANSWERS.values())[1:], reply], (*EVENTS, again))
        self.assertIn("1 x additional reply", self.compare())

    def test_replies_of_other_kinds_are_left_out(self):
        others = ["41 0.410000 1 text-response 00000004 00000002 00000005 00000022 --",
                  "42 0.420000 1 r2t 00000001 00000003 00000005 00000022 --",
                  "43 0.430000 1 data-in 00000001 00000000 00000005 00000022 --",
                  "44 0.440000 1 ping ffffffff 00000003 00000005 00000022 --"]
        later = ["51 0.510000 1 scsi-response 00000001 00000003 00000005 00000023 00 GOOD",
                 "52 0.520000 1 scsi-response 00000002 00000004 00000005 00000024 00 GOOD"]
        self.write([ANSWERS["nop"], *others, *later], (*COMMANDS, NOP, TEXT, *DONE))
        told = self.compare()
        self.assertIn("Left out, since the program sends none: 1 x Data-In without status; "
                      "1 x NOP-In of the target's own; 1 x R2T; 1 x Text Response.\n", told)
        self.assertIn("the program's Rejects of the requests, 1.\n"
                      "Compared: 3 replies of the target, 3 of the program.\nNo difference.", told)


def sent(opcode, tag, stat_sn, exp_cmd_sn, max_cmd_sn):
    """The line of a report for a reply without data on connection 1."""
    numbers = f"{stat_sn:08x}{exp_cmd_sn:08x}{max_cmd_sn:08x}"
    return f"  send 1 {opcode:02x}800000{'0' * 24}{tag:08x}00000000{numbers}".ljust(105, "0")


class ByMoment(unittest.TestCase):
    """A target that gives numbers as PDUs go out, and lets the answer to an abort wait; beside a report that was written
    by hand: two commands, a NOP-Out, an abort of the first command, and the end of the second one, ten frames apart."""
    REPORT = "\n".join((
        f"> {COMMANDS[0][0]}", "  deliver 1 00000001 00000001", "  enter 1 0 simple", "  enable 1",
        f"> {COMMANDS[1][0]}", "  deliver 1 00000002 00000002", "  enter 2 0 simple", "  enable 2",
        f"> {NOP[0]}", "  deliver 1 00000003 00000003", sent(0x20, 3, 1, 4, 0x21),
        f"> C 1 {header(0x42, 0x81, 6, 4, referenced=1)}", "  immediate 1 00000004 00000006", "  leave 1",
        sent(0x22, 6, 2, 4, 0x22), "> D 2 00", "  leave 2", sent(0x21, 2, 3, 4, 0x23)))

    @staticmethod
    def nop(frame=31, stat_sn=1, exp_cmd_sn=4, max_cmd_sn=0x21):
        return f"{frame} 0.1 1 nop-in 00000003 {stat_sn:08x} {exp_cmd_sn:08x} {max_cmd_sn:08x} --"

    @staticmethod
    def second(frame=50, stat_sn=2, max_cmd_sn=0x23):
        return f"{frame} 0.1 1 scsi-response 00000002 {stat_sn:08x} 00000004 {max_cmd_sn:08x} 00 GOOD"

    @staticmethod
    def abort(frame=51, stat_sn=3, exp_cmd_sn=4, max_cmd_sn=0x23):
        return f"{frame} 0.1 1 function-response 00000006 {stat_sn:08x} {exp_cmd_sn:08x} {max_cmd_sn:08x} 00 complete"

    def differences(self, *answers, moment=(1, 32)):
        """The differences of a target's answers: the kind of each, and what of it stands behind the request."""
        replay = Replay(list(read_report(self.REPORT.splitlines())), [Place(frame, frame / 100) for frame in (10, 20, 30, 40, 50)])
        answers = list(read_answers(answer.replace(" 0.1 ", " 0.100000 ") for answer in answers))
        return [(one.kind, one.words.partition(": ")[2]) for one in Comparison(replay, answers, moment).differences]

    def test_an_answer_that_had_to_wait(self):
        answers = self.nop(), self.second(), self.abort()
        self.assertEqual([], self.differences(*answers))
        self.assertEqual(["MaxCmdSN", "order"], sorted(kind for kind, _ in self.differences(*answers, moment=None)))

    def test_one_that_did_not_wait(self):
        abort = self.abort(frame=41, stat_sn=2, max_cmd_sn=0x22)
        self.assertEqual([], self.differences(self.nop(), abort, self.second(stat_sn=3)))

    def test_others_keep_their_order(self):
        nop = self.nop(frame=51, stat_sn=2, max_cmd_sn=0x23)
        found = self.differences(self.second(stat_sn=1), nop, self.abort(frame=52))
        self.assertEqual(["order"], [kind for kind, _ in found])

    def test_an_answer_that_may_wait_is_never_early(self):
        abort, nop = self.abort(frame=41, stat_sn=1, max_cmd_sn=0x22), self.nop(frame=42, stat_sn=2, max_cmd_sn=0x22)
        found = self.differences(abort, nop, self.second(stat_sn=3))
        self.assertEqual(["order"], [kind for kind, _ in found])

    def test_numbers_below_those_of_the_event(self):
        low = self.nop(exp_cmd_sn=3, max_cmd_sn=0x20)
        self.assertEqual([("ExpCmdSN", "the target says ExpCmdSN 00000003, the program 00000004 at its event already"),
                          ("MaxCmdSN", "the target says MaxCmdSN 00000020, the program 00000021 at its event already")],
                         self.differences(low, self.second(), self.abort()))

    def test_numbers_below_those_that_were_shown(self):
        self.assertEqual([("MaxCmdSN", "the target says MaxCmdSN 00000022, and said 00000023 before")],
                         self.differences(self.nop(), self.second(), self.abort(max_cmd_sn=0x22)))

    def test_numbers_that_can_not_be_yet(self):
        self.assertEqual([("ExpCmdSN", "the target says ExpCmdSN 00000005, and it can't be above 00000004 yet")],
                         self.differences(self.nop(), self.second(), self.abort(exp_cmd_sn=5)))
        self.assertEqual([("MaxCmdSN", "the target says MaxCmdSN 00000024, and it can't be above 00000023 yet")],
                         self.differences(self.nop(), self.second(), self.abort(max_cmd_sn=0x24)))

    def test_stat_sns_count_in_the_order_of_sending(self):
        found = self.differences(self.nop(), self.second(stat_sn=3), self.abort(stat_sn=2))
        self.assertEqual(["StatSN", "StatSN"], [kind for kind, _ in found])


class Faults(Session):
    def refused(self, why, *words):
        done = run_tool("compare", *(words or (self.base,)))
        self.assertEqual((1, ""), (done.returncode, done.stdout))
        self.assertRegex(done.stderr, rf"\Acompare: .*{why}.*\n\Z")

    def test_files(self):
        self.refused("made-1.recording: No such file")
        self.write(ANSWERS.values())
        os.remove(f"{self.base}.target")
        self.refused("made-1.target: No such file")
        os.mkdir(f"{self.base}.target")
        self.refused("made-1.target: Is a directory")

    def test_recordings(self):
        for text in ("", "hello\n", "conn 1 00000001\n", "# iscsi-replay: rm -rf\n",
                     f"# iscsi-replay: {OPTIONS}\nconn 1 00000001\nD 1 00\n"):
            self.write(ANSWERS.values())
            self.put(".recording", text)
            self.refused("not a recording that tools/capture made")
        self.put(".recording", bytes(range(256)))
        self.refused("not a text")

    def test_answers(self):
        self.write(["hello"])
        self.refused("made-1.target: line 2: not a reply of a target")
        self.put(".target", bytes(range(256)))
        self.refused("not a text")

    def test_what_the_program_refuses(self):
        self.write(ANSWERS.values(), [("C 9 00", 10)])
        self.refused("iscsi-replay: line 5: not a line of a recording")

    def test_a_closed_pipe(self):
        self.write([answer.replace(" 00 ", " 08 ") for answer in ANSWERS.values()])
        with subprocess.Popen([os.path.join(TOP, "tools", "compare"), self.base], stdout=subprocess.PIPE,
                              stderr=subprocess.PIPE, text=True) as process:
            process.stdout.close()
            told = process.stderr.read()
        self.assertEqual((1, "compare: the output was closed\n"), (process.returncode, told))

    def test_bad_command_lines(self):
        for words in ((), ("a", "b"), ("a", "--none")):
            self.assertEqual(2, run_tool("compare", *words).returncode, words)


class RealCases(unittest.TestCase):
    """The captures of this repository, with the differences that docs/CAPTURES.md explains."""
    COUNTS = {
        "abort-live-1": "1 x missing reply; 1 x response",
        "abort-write-1": "1 x missing reply; 1 x response",
        "reset-1": "2 x missing reply; 1 x order",
        "out-of-order-1": "1 x ExpCmdSN; 1 x MaxCmdSN; 1 x missing reply",
        "attributes-1": "1 x missing reply",
        "narrow-window-1": None, "after-login-1": "2 x missing reply; 1 x order",
        "two-connections-1": None, "two-connections-2": None, "digests-1": None,
        "libiscsi-1": None, "libiscsi-2": None, "libiscsi-3": None,
        "istgt-connections-1": "1 x ExpCmdSN; 7 x MaxCmdSN",
        "istgt-abort-1": "2 x MaxCmdSN; 4 x StatSN; 1 x additional reply; 2 x missing reply; 1 x response",
        "istgt-reset-1": "1 x MaxCmdSN",
        "istgt-reset-live-1": "2 x missing reply",
        "istgt-out-of-order-1": "1 x missing reply",
        "istgt-attributes-1": None,
        "istgt-libiscsi-1": None,
        "istgt-libiscsi-2": "1 x ExpCmdSN; 1 x MaxCmdSN", "istgt-libiscsi-3": "1 x ExpCmdSN; 1 x MaxCmdSN",
    }

    # In how many replies MaxCmdSN differs by the target's fixed window alone.
    BY_FIXED_WINDOW = {"reset-1": 1, "out-of-order-1": 2, "attributes-1": 3, "narrow-window-1": 9, "after-login-1": 1}

    def test_counts(self):
        with tempfile.TemporaryDirectory() as folder:
            for name, counts in self.COUNTS.items():
                capture = os.path.join(CAPTURES, f"{name.rpartition('-')[0]}.pcapng")
                self.assertEqual(0, run_tool("capture", capture, "-o", folder).returncode)
                told = run_tool("compare", os.path.join(folder, f"{name}.recording")).stdout
                window = self.BY_FIXED_WINDOW.get(name)
                none = "No other difference." if window else "No difference."
                self.assertEqual(f"Differences: {counts}." if counts else none, told.splitlines()[-1], name)
                self.assertEqual(bool(window), f"MaxCmdSN differs in {window} of them." in told, name)

    def test_every_session_of_every_capture_is_counted(self):
        captures = {name.removesuffix(".pcapng") for name in os.listdir(CAPTURES)}
        self.assertEqual(captures, {name.rpartition("-")[0] for name in self.COUNTS})

    def test_an_aborted_command_s_place_of_the_window(self):
        """istgt never gives it back, so MaxCmdSN is one lower from the abort on, on all connections."""
        with tempfile.TemporaryDirectory() as folder:
            run_tool("capture", os.path.join(CAPTURES, "istgt-connections.pcapng"), "-o", folder)
            told = run_tool("compare", os.path.join(folder, "istgt-connections-1"), "--all").stdout
        found = re.findall(r"^frame (\d+) .*, connection (\d), MaxCmdSN:\n"
                           r".*says MaxCmdSN ([0-9a-f]{8}), the program ([0-9a-f]{8})", told, re.MULTILINE)
        self.assertEqual([("41", "3"), ("44", "1"), ("48", "2"), ("51", "2"), ("58", "1"), ("61", "3"), ("64", "1")],
                         [(frame, cid) for frame, cid, _, _ in found])
        self.assertEqual([1] * 6 + [2], [int(ours, 16) - int(theirs, 16) for _, _, theirs, ours in found])


if __name__ == "__main__":
    unittest.main()
