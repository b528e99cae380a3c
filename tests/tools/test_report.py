"""Tests of what the tools share: headers and reports."""

import os
import sys
import unittest

from helpers import TOP, replay

sys.path.insert(0, os.path.join(TOP, "tools"))
from lib.pdu import Request, lun_of, unit_of  # noqa: E402
from lib.report import BadReport, read  # noqa: E402

HEADER = "01820000" "00000000" "00020000" "00000000" "000000a1" "00000000" "00000007" "00000000" "28" + "00" * 15


class Headers(unittest.TestCase):
    def test_fields(self):
        request = Request(bytes.fromhex(HEADER))
        self.assertEqual(("READ(10)", 7, 0xa1, 2, 2, False, True),
                         (request.name, request.cmd_sn, request.tag, request.unit, request.attribute, request.immediate,
                          request.is_numbered))

    def test_units(self):
        for unit in (0, 3, 255, 256, 16383):
            self.assertEqual(unit, unit_of(lun_of(unit)))
        self.assertEqual(3, unit_of(bytes.fromhex("4003000000000000")))
        self.assertIsNone(unit_of(bytes.fromhex("0003000100000000")))
        self.assertIsNone(unit_of(bytes.fromhex("8003000000000000")))


class Reports(unittest.TestCase):
    def test_events_and_effects(self):
        report = replay(f"conn 1 00000001\nC 1 {HEADER}\nD 1 00\n", "--first", "00000007", "--units", "3")
        arrival, done = read(report.splitlines())
        self.assertEqual(["deliver", "enter", "enable"], [effect.kind for effect in arrival.effects])
        self.assertEqual((7, 0xa1), (arrival.effects[0].cmd_sn, arrival.effects[0].tag))
        enter = arrival.effects[1]
        self.assertEqual((1, 2, "ordered"), (enter.ticket, enter.unit, enter.attribute))
        self.assertEqual((1, 0), (done.ticket, done.status))
        self.assertEqual(("GOOD", 8), (done.effects[1].reply.outcome, done.effects[1].reply.exp_cmd_sn))

    def test_sense(self):
        report = replay(f"conn 1 00000001\nC 1 {HEADER}\n", "--first", "00000007")
        (arrival,) = read(report.splitlines())
        self.assertEqual("CHECK CONDITION (ILLEGAL REQUEST, LOGICAL UNIT NOT SUPPORTED)",
                         arrival.effects[-1].reply.outcome)

    def test_other_lines_are_refused(self):
        for text, why in ((f"C 1 {HEADER}", "line 1: .*a recording"), ("> C 1 00", "line 1: not an event"),
                          (f"> D 1 00\n  leave", "line 2: not an effect"), ("> D 1 00\nhello", "line 2: not a line")):
            with self.assertRaisesRegex(BadReport, why):
                list(read(text.split("\n")))


if __name__ == "__main__":
    unittest.main()
