"""Captures of a busy session, as they come: begun late, with packets lost, with the first bytes of each packet alone. What the program
answers is what the target did, but for what the tools say was lost. The session is made here, with a fixed seed; `tests/by-hand/long-captures` does
the same with captures of tgt from the loopback.
"""

import json
import os
import random
import re
import tempfile
import unittest

import perf
from helpers import run_tool
from test_capture import Wire, command, login, login_response, pdu, response, write_pcap

COMMANDS, DEPTH, WINDOW = 3000, 32, 129
DATA_IN, FINAL_WITH_STATUS, NO_TAG = 0x25, 0x81, 0xffffffff
# So many replies are compared at least. In a capture that begins late and is cut, those behind the first one of a segment can't be found.
LEAST, LEAST_OF_LATE_AND_CUT = 1000, 500


def busy_session(seed):
    """The segments of a session with many commands at once, which are answered in another order; several PDUs may share a segment."""
    chance, wire = random.Random(seed), Wire()
    wire.open(0)
    wire.put(0, True, login(1, 0, 1))
    wire.put(0, False, login_response(7, 0, 1, WINDOW))
    live, sent, stat_sn = [], 0, 0
    while sent < COMMANDS or live:
        requests = min(chance.randint(0, 3), DEPTH - len(live), COMMANDS - sent)
        if requests:
            numbers = range(sent + 1, sent + requests + 1)
            wire.put(0, True, b"".join(command(number, number) for number in numbers))
            live, sent = [*live, *numbers], sent + requests
        answers = b""
        for _ in range(min(chance.randint(0, 3), len(live))):
            stat_sn += 1
            tag = live.pop(chance.randrange(min(len(live), 5)))
            answers += answer(tag, stat_sn, sent, chance.random() < 0.3)
        if answers:
            wire.put(0, False, answers)
    return wire.segments


def answer(tag, stat_sn, sent, has_response):
    """The end of a READ: a SCSI Response, or a Data-In that has the status."""
    numbers = stat_sn, sent + 1, sent + WINDOW
    return response(tag, *numbers) if has_response else pdu(DATA_IN, FINAL_WITH_STATUS, tag, (NO_TAG, *numbers), bytes(512))


class Spoilt(unittest.TestCase):
    @classmethod
    def setUpClass(cls):
        cls.folder = tempfile.TemporaryDirectory()
        cls.addClassCleanup(cls.folder.cleanup)
        cls.path = os.path.join(cls.folder.name, "whole.pcap")
        write_pcap(cls.path, busy_session(9))

    def compared(self, path):
        """What the tool says of the capture, and the comparison of its one session."""
        made = run_tool("capture", path, "-o", self.folder.name)
        self.assertEqual((0, ""), (made.returncode, made.stderr))
        base = f"{path.removesuffix('.pcap')}-1"
        return made.stdout, json.loads(run_tool("compare", base, "--json").stdout), base

    def made_up(self, said):
        found = re.search(r"made up: (\d+) requests and (\d+) replies", said)
        return (int(found[1]), int(found[2])) if found else (0, 0)

    def test_the_whole(self):
        said, told, _ = self.compared(self.path)
        self.assertEqual(({}, (0, 0)), (told["counts"], self.made_up(said)))
        self.assertEqual(COMMANDS, told["compared"]["target"])

    def test_spoilt(self):
        for name, path in perf.spoilt(self.folder.name, self.path):
            with self.subTest(name):
                said, told, base = self.compared(path)
                requests, replies = self.made_up(said)
                self.assertGreater(requests + replies, 0)
                # Statuses, StatSNs and ExpCmdSNs are the target's, and what the capture lacks is named and counted.
                self.assertEqual({}, told["counts"])
                self.assertEqual(replies, told["lost"])
                least = LEAST_OF_LATE_AND_CUT if name == "late-and-cut" else LEAST
                self.assertGreater(told["compared"]["target"], least)
                with open(f"{base}.recording", encoding="utf-8") as file:
                    made = sum("made up, since the capture lacks it: " in line for line in file)
                self.assertGreater(made, 0)


if __name__ == "__main__":
    unittest.main()
