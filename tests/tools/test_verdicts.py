"""Tests of the verdicts on differences: each row of their table, and those of whole sessions."""

import json
import os
import sys
import tempfile
import unittest
from collections import Counter

from helpers import TOP, run_tool
from test_compare import ANSWERS, COMMANDS, DONE, NOP, Session, header

sys.path.insert(0, os.path.join(TOP, "tools"))
from lib.verdicts import ALLOWED, NOT_ALLOWED, NOT_JUDGED, TABLE, Row, judge  # noqa: E402

CAPTURES = os.path.join(TOP, "tests", "tools", "captures")
# What is known where each row is the one that fits, in the order of the table.
EXAMPLES = (
    {"by": "ABORT TASK", "end": "before", "answer": 1},
    {"by": "LOGICAL UNIT RESET", "end": "before", "answer": 0},
    {"by": "ABORT TASK SET", "end": "behind", "answer": 0, "waited": True},
    {"by": "ABORT TASK", "end": "behind", "answer": 1},
    {"by": "CLEAR TASK SET", "end": "behind", "answer": 0, "waited": False},
    {"silent": "lower CmdSN", "expects": "lower CmdSN"},
    {"request": "ABORT TASK", "target": 1, "program": 0, "end": "before"},
    {"request": "ABORT TASK", "target": 1, "program": 0, "end": "behind"},
    {"request": "CLEAR TASK SET", "target": 5, "program": 0},
    {"request": "ABORT TASK SET", "target": 0, "program": 255},
    {"target": 0, "program": 0x28},
    {"request": "command", "program_kind": "reject"},
    {"moment": False, "request": "ABORT TASK SET"},
    {"moment": False, "request": "NOP-Out"},
    {"stat_sn": "back"},
    {"stat_sn": "early"},
    {"moment": False, "exp": "not sent"},
    {"moment": False, "exp": "of its moment"},
    {"moment": False, "exp": "lower"},
    {"moment": False, "window": "shut twice"},
    {"moment": False},
)


def row_of(kind, known):
    """The row that fits first, or None."""
    return next((row for row in TABLE if row.fits(kind, known)), None)


class Rows(unittest.TestCase):
    def test_each_row_has_a_case_in_which_it_fits(self):
        self.assertEqual(len(TABLE), len(EXAMPLES))
        for row, known in zip(TABLE, EXAMPLES):
            self.assertIs(row, row_of(row.kind, known | {"whole": True}), row)

    def test_no_row_fits_where_one_of_its_needs_is_lacking(self):
        for row, known in zip(TABLE, EXAMPLES):
            for name in row.needs:
                self.assertFalse(row.fits(row.kind, known | {"whole": True, name: "another"}), (row, name))
            self.assertFalse(row.fits("another", known | {"whole": True}))

    def test_nothing_is_not_allowed_where_the_capture_lacks_something(self):
        for row, known in zip(TABLE, EXAMPLES):
            self.assertNotEqual(NOT_ALLOWED, judge(row.kind, known | {"whole": False}).verdict)

    def test_what_is_allowed_or_not_names_its_section(self):
        for row in TABLE:
            self.assertIsInstance(row, Row)
            self.assertEqual(row.verdict in (ALLOWED, NOT_ALLOWED), row.section.startswith("RFC 7143 section "), row)

    def test_what_no_row_covers(self):
        verdict = judge("additional reply", {"whole": True})
        self.assertEqual(("not judged", "not judged: no rule covers this difference"), (verdict.verdict, verdict.words))


class Made(Session):
    """Sessions that were written by hand."""

    def verdicts(self):
        """The kind and the verdict of each difference."""
        return [(one["kind"], one["verdict"]) for one in json.loads(self.compare("--json"))["differences"]]

    def answers_to_an_abort(self, *order, outcome="00 function complete"):
        """A session whose first command is aborted, and answered in this order."""
        abort = "47 0.470000 1 function-response 00000006 00000002 00000004 00000022 " + outcome
        lines = {"abort": abort, "one": ANSWERS["one"], "two": ANSWERS["two"], "nop": ANSWERS["nop"]}
        self.write([lines[name] for name in order], (*COMMANDS, NOP, (f"C 1 {header(0x42, 0x81, 6, 4, referenced=1)}", 45), *DONE))

    def test_a_reply_behind_the_answer_that_the_function_is_complete(self):
        self.answers_to_an_abort("nop", "abort", "one", "two")
        self.assertIn(("missing reply", NOT_ALLOWED), self.verdicts())

    def test_a_reply_before_it(self):
        self.answers_to_an_abort("nop", "one", "abort", "two")
        self.assertIn(("missing reply", ALLOWED), self.verdicts())

    def test_an_abort_that_is_not_answered_says_nothing(self):
        self.answers_to_an_abort("nop", "one", "two")
        self.assertIn(("missing reply", NOT_JUDGED), self.verdicts())

    def test_a_session_of_which_something_was_made_up(self):
        self.answers_to_an_abort("nop", "abort", "one", "two")
        with open(f"{self.base}.recording", encoding="utf-8") as file:
            text = file.read()
        self.put(".recording", text.replace("frame 30\n", "frame 30: made up, since the capture lacks it: NOP-Out, tag 00000003\n"))
        self.assertIn(("missing reply", NOT_JUDGED), self.verdicts())

    def test_a_command_that_is_executed_before_a_lower_number(self):
        for expected, verdict in (("00000001", NOT_ALLOWED), ("00000003", NOT_JUDGED)):
            self.write([ANSWERS["two"].replace("00000004 00000023", f"{expected} 00000023")], (COMMANDS[1],))
            self.assertEqual([("missing reply", verdict)], self.verdicts())

    def test_a_number_that_counts_an_immediate_request(self):
        """It is one that wasn't sent, or that of a command which came before the reply went out."""
        ping = (f"C 1 {header(0x40, 0x80, 7, 3)}", 25)
        reply = "35 0.350000 1 nop-in 00000007 00000001 00000004 00000021 --"
        for events, verdict in (((*COMMANDS, ping), NOT_ALLOWED), ((*COMMANDS, ping, NOP), "a choice of this target")):
            self.write([reply], events)
            self.assertIn(("ExpCmdSN", verdict), self.verdicts())

    def test_a_window_that_is_less_than_shut(self):
        for most, verdict in (("00000003", "a choice of this target"), ("00000002", NOT_ALLOWED)):
            self.write([*list(ANSWERS.values())[:3], ANSWERS["abort"].replace("00000023", most)])
            self.assertEqual([("MaxCmdSN", verdict)], self.verdicts())

    def test_the_words(self):
        self.answers_to_an_abort("nop", "abort", "one", "two", outcome="01 task does not exist")
        self.assertIn("\n  not allowed (RFC 7143 section 11.6.1): the target answers the command behind this, so the task did exist\n",
                      self.compare("--all"))
        one = json.loads(self.compare("--json"))["differences"][0]
        self.assertEqual(("response", NOT_ALLOWED, "RFC 7143 section 11.6.1", "the target answers the command behind this, so the task did exist"),
                         tuple(one[name] for name in ("kind", "verdict", "section", "sentence")))


class RealCases(unittest.TestCase):
    """The verdicts of the captures: allowed, a choice, not allowed, not judged."""
    COUNTS = {
        "abort-live-1": (2, 0, 0, 0), "abort-write-1": (0, 0, 2, 0), "reset-1": (3, 0, 0, 0), "after-login-1": (3, 0, 0, 0),
        "attributes-1": (0, 0, 0, 1), "out-of-order-1": (0, 3, 0, 0), "istgt-libiscsi-2": (0, 1, 1, 0),
        "istgt-connections-1": (0, 8, 0, 0), "istgt-abort-1": (2, 2, 4, 2), "istgt-reset-1": (0, 1, 0, 0),
        "istgt-reset-live-1": (2, 0, 0, 0), "istgt-out-of-order-1": (0, 0, 0, 1),
    }
    NAMES = (ALLOWED, "a choice of this target", NOT_ALLOWED, NOT_JUDGED)

    def test_counts(self):
        with tempfile.TemporaryDirectory() as folder:
            for name, counts in self.COUNTS.items():
                run_tool("capture", os.path.join(CAPTURES, f"{name.rpartition('-')[0]}.pcapng"), "-o", folder)
                told = json.loads(run_tool("compare", os.path.join(folder, name), "--json").stdout)
                found = Counter(one["verdict"] for one in told["differences"])
                self.assertEqual(counts, tuple(found[verdict] for verdict in self.NAMES), name)

    def test_the_index_shows_what_is_not_allowed_in_red_and_the_others_in_grey(self):
        for name, cell in (("abort-write", '<span class="sick">1 × missing reply, 1 × response not allowed</span>'),
                           ("abort-live", '<span class="quiet">1 × missing reply, 1 × response</span>')):
            with tempfile.TemporaryDirectory() as folder:
                run_tool("look", os.path.join(CAPTURES, f"{name}.pcapng"), "-o", folder)
                with open(os.path.join(folder, "index.html"), encoding="utf-8") as file:
                    index = file.read()
            self.assertIn(f"<td>{cell}</td>", index)
            self.assertEqual(name == "abort-write", 'class="sick"' in index)
            self.assertIn("RFC 7143 section 11.6.1", index)


if __name__ == "__main__":
    unittest.main()
