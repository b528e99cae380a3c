"""Tests of tools/header."""

import os
import sys
import unittest

from helpers import TOP, replay, run_tool

sys.path.insert(0, os.path.join(TOP, "tools"))
from lib.pdu import Request  # noqa: E402
from lib.report import read  # noqa: E402

WORDS = ("--cid", "1", "--itt", "a1")


def line(*words):
    done = run_tool("header", *words)
    if done.returncode:
        raise AssertionError(done.stderr)
    return done.stdout


def request(*words):
    return Request(bytes.fromhex(line(*words).split()[2]))


class Lines(unittest.TestCase):
    def test_scsi(self):
        made = request("scsi", *WORDS, "--cmdsn", "1f", "--lun", "3", "--attr", "ordered", "--immediate", "--cdb",
                       "2A01")
        self.assertEqual((1, True, 2, 3, 0xa1, 0x1f),
                         (made.opcode, made.immediate, made.attribute, made.unit, made.tag, made.cmd_sn))
        self.assertEqual(bytes.fromhex("2a01") + bytes(14), made.cdb)

    def test_task_management(self):
        made = request("task-management", *WORDS, "--cmdsn", "2", "--function", "abort-task", "--rtt", "a2",
                       "--refcmdsn", "7")
        self.assertEqual((2, 1, 0xa2, 7, False),
                         (made.opcode, made.function, made.referenced_tag, made.ref_cmd_sn, made.immediate))
        reset = request("task-management", *WORDS, "--cmdsn", "2", "--function", "lun-reset", "--lun",
                        "4003000000000000")
        self.assertEqual((5, 3, 0xffffffff), (reset.function, reset.unit, reset.referenced_tag))
        self.assertEqual(99, request("task-management", *WORDS, "--cmdsn", "2", "--function", "99").function)

    def test_logout(self):
        made = request("logout", *WORDS, "--cmdsn", "2", "--reason", "connection", "--logout-cid", "65535")
        self.assertEqual((6, 1, 65535), (made.opcode, made.function, made.cid))
        self.assertEqual(1, request("logout", *WORDS, "--cmdsn", "2", "--reason", "1").cid)

    def test_greatest_numbers(self):
        self.assertEqual("conn 65535 ffffffff\n", line("conn", "65535", "FFFFFFFF"))
        self.assertEqual("D 18446744073709551615 0f\n", line("done", "18446744073709551615", "f"))
        self.assertEqual(16383, request("scsi", *WORDS, "--cmdsn", "ffffffff", "--lun", "16383").unit)

    def test_the_documented_header(self):
        with open(os.path.join(TOP, "examples", "recordings", "abort-task.recording"), encoding="ascii") as file:
            recording = file.read().splitlines()
        self.assertIn(line("scsi", "--cid", "1", "--itt", "a3", "--cmdsn", "3").rstrip(), recording)
        self.assertIn(line("task-management", "--cid", "1", "--itt", "b1", "--cmdsn", "5", "--immediate",
                           "--function", "abort-task", "--rtt", "a2", "--refcmdsn", "2").rstrip(), recording)

    def test_a_replay(self):
        """One line of each kind, and what the session makes of it."""
        cid = ("--cid", "7")
        recording = "".join((
            line("conn", "7", "10"),
            line("scsi", *cid, "--itt", "a1", "--cmdsn", "1", "--attr", "head", "--cdb", "28"),
            line("nop", *cid, "--itt", "a2", "--cmdsn", "2"),
            line("text", *cid, "--itt", "a3", "--cmdsn", "3", "--immediate"),
            line("data-out", *cid, "--itt", "a1"),
            line("snack", *cid, "--itt", "a1", "--begrun", "1", "--runlength", "2"),
            line("task-management", *cid, "--itt", "b1", "--cmdsn", "3", "--immediate", "--function", "query-task",
                 "--rtt", "a1"),
            line("done", "1", "0"),
            line("logout", *cid, "--itt", "c1", "--cmdsn", "3", "--reason", "session")))
        events = list(read(replay(recording, "--level", "2").splitlines()))
        self.assertEqual([["deliver", "enter", "enable"], ["deliver", "send"], ["immediate", "send"], ["ignore"],
                          ["ignore"], ["immediate", "send"], ["leave", "send"], ["deliver", "send", "close-session"]],
                         [[effect.kind for effect in event.effects] for event in events])
        replies = [effect.reply for event in events for effect in event.effects if effect.reply]
        self.assertEqual(["NOP-In", "Reject", "Task Management Function Response", "SCSI Response", "Logout Response"],
                         [reply.name for reply in replies])
        self.assertEqual([0x10, 0x11, 0x12, 0x13, 0x14], [reply.stat_sn for reply in replies])
        self.assertEqual(7, replies[2].response)


class Refusals(unittest.TestCase):
    def test_bad_words(self):
        numbered = (*WORDS, "--cmdsn", "1")
        for words, why in (
                (("conn", "65536", "1"), "a CID is decimal, from 0 to 65535"), (("conn", "-1", "1"), ""),
                (("conn", "1", "123456789"), "a sequence number has 1 to 8 hexadecimal digits"),
                (("done", "18446744073709551616", "0"), "a ticket is decimal"),
                (("done", "1", "100"), "a status has 1 to 2"),
                (("scsi", *WORDS), "required: --cmdsn"),
                (("scsi", "--cid", "1", "--itt", "xyz", "--cmdsn", "1"), "a tag has"),
                (("scsi", *numbered, "--cdb", "281"), "a CDB has"),
                (("scsi", *numbered, "--cdb", "00" * 17), "a CDB has"),
                (("scsi", *numbered, "--attr", "8"), "an attribute is one of"),
                (("scsi", *numbered, "--lun", "16384"), "a LUN is"),
                (("scsi", *numbered, "--lun", "٣"), "a LUN is"),
                (("task-management", *numbered, "--function", "128"), "a function is"),
                (("task-management", *numbered, "--function", "abort-task"), "ABORT TASK needs --rtt"),
                (("logout", *numbered, "--reason", "later"), "a reason is one of"),
                (("data-out", *numbered), "unrecognized"),
                (("hello",), "invalid choice"), ((), "required: KIND")):
            done = run_tool("header", *words)
            self.assertEqual((2, ""), (done.returncode, done.stdout), words)
            self.assertIn(why, done.stderr.splitlines()[-1])
            self.assertNotIn("Traceback", done.stderr)


if __name__ == "__main__":
    unittest.main()
