"""Tests of tools/to-pcap."""

import os
import shutil
import struct
import subprocess
import sys
import tempfile
import unittest
from collections import defaultdict

from helpers import TOP, replay, run_tool

sys.path.insert(0, os.path.join(TOP, "tools"))
from lib.report import read  # noqa: E402

# A WRITE(10) that announces an AHS of two words and 512 bytes of data, and an unknown opcode that is rejected.
WRITE = "C 1 01a1000002000200" "0000000000000000" "000000a7" "00000200" "{cmd_sn:08x}" "00000000" "2a" + "00" * 15
UNKNOWN = "C 1 1e80000000000300" + "00" * 40


def example(name):
    with open(os.path.join(TOP, "examples", "recordings", name + ".recording"), encoding="ascii") as file:
        return file.read()


REPORTS = {
    "logout": replay(example("logout"), "--window", "4"),
    "abort": replay(example("abort-task"), "--window", "4"),
    "refused": replay(example("refused-commands")),
    "lengths": replay(f"conn 1 fffffffe\n{WRITE.format(cmd_sn=1)}\nD 1 02\n{UNKNOWN}\n"
                      f"{WRITE.format(cmd_sn=2)}\nD 2 00\n"),
}


def captured(report):
    """The bytes of the capture of a report."""
    with tempfile.TemporaryDirectory() as folder:
        path = os.path.join(folder, "made.pcap")
        done = run_tool("to-pcap", "-", "-o", path, text=report)
        if done.returncode:
            raise AssertionError(done.stderr)
        with open(path, "rb") as file:
            return file.read()


def frames(content):
    """The frames of a capture, with their times in microseconds."""
    if struct.unpack_from(">IHHiIII", content) != (0xa1b2c3d4, 2, 4, 0, 0, 65535, 1):
        raise AssertionError("not the head of a capture")
    at = 24
    while at < len(content):
        seconds, micros, kept, length = struct.unpack_from(">IIII", content, at)
        if kept != length or at + 16 + kept > len(content):
            raise AssertionError("a frame is cut")
        yield seconds * 1000000 + micros, content[at + 16:at + 16 + kept]
        at += 16 + kept


def ones_sum(content):
    """The sum of words that is ffff where the checksum among them is right."""
    content += bytes(len(content) % 2)
    total = sum(content[at] << 8 | content[at + 1] for at in range(0, len(content), 2))
    while total > 0xffff:
        total = total // 0x10000 + total % 0x10000
    return total


def expected_payloads(report):
    """The payloads of a report in their order: the CID, whether the target sends, and the bytes."""
    for event in read(report.splitlines()):
        if event.is_arrival:
            header = bytearray(event.request.header)
            header[4:8] = bytes(4)
            yield event.cid, True, bytes(header)
        for effect in event.effects:
            if effect.reply:
                yield effect.cid, False, effect.reply.header + effect.reply.tail


class Bytes(unittest.TestCase):
    def test_checksums_and_numbers(self):
        for name, report in REPORTS.items():
            following = defaultdict(lambda: None)
            before = 0
            for time, frame in frames(captured(report)):
                self.assertLessEqual(before, time, name)
                before = time
                self.check_frame(frame, following)

    def check_frame(self, frame, following):
        """The checksums of a frame, and its numbers against `following`, the next ones by the frames before."""
        packet = frame[14:]
        self.assertEqual((b"\x08\x00", 0x45, 6), (frame[12:14], packet[0], packet[9]))
        self.assertEqual(len(packet), struct.unpack_from(">H", packet, 2)[0])
        self.assertEqual(0xffff, ones_sum(packet[:20]))
        segment = packet[20:]
        self.assertEqual(0xffff, ones_sum(packet[12:20] + struct.pack(">HH", 6, len(segment)) + segment))
        source, target, sequence, acknowledged = struct.unpack_from(">HHII", segment)
        if following[source, target] is not None:
            self.assertEqual(following[source, target], sequence)
        if segment[13] & 16:
            self.assertEqual(following[target, source], acknowledged)
        following[source, target] = sequence + len(segment) - 20 + (segment[13] >> 1 & 1)

    def test_payloads(self):
        for name, report in REPORTS.items():
            ports, payloads = {}, []
            for _, frame in frames(captured(report)):
                source, target = struct.unpack_from(">HH", frame, 34)
                self.assertIn(3260, (source, target))
                port = source if target == 3260 else target
                if len(frame) > 54:
                    payloads.append((port, target == 3260, frame[54:]))
            expected = list(expected_payloads(report))
            for (port, _, _), (cid, _, _) in zip(payloads, expected):
                self.assertEqual(cid, ports.setdefault(port, cid), name)
            self.assertEqual(len(set(ports.values())), len(ports), name)
            self.assertEqual(expected, [(ports[port], *rest) for port, *rest in payloads], name)

    def test_lengths_are_zero_in_requests_alone(self):
        payloads = [frame[54:] for _, frame in frames(captured(REPORTS["lengths"])) if len(frame) > 54]
        reject = next(payload for payload in payloads if payload[0] == 0x3f)
        self.assertEqual(bytes(4), payloads[0][4:8])
        self.assertEqual((48, bytes.fromhex("00000300")), (reject[7], reject[52:56]))


@unittest.skipUnless(shutil.which("tshark"), "there is no tshark")
class Decoded(unittest.TestCase):
    def fields(self, report):
        """The opcode, StatSN, ExpCmdSN and MaxCmdSN of each PDU that tshark finds, and what it complains about."""
        names = ("iscsi.opcode", "iscsi.statsn", "iscsi.expcmdsn", "iscsi.maxcmdsn", "iscsi.initiatortasktag",
                 "_ws.malformed", "tcp.analysis.flags", "tcp.checksum.status", "ip.checksum.status")
        with tempfile.TemporaryDirectory() as folder:
            path = os.path.join(folder, "made.pcap")
            with open(path, "wb") as file:
                file.write(captured(report))
            words = [word for name in names for word in ("-e", name)]
            checks = ("-o", "tcp.check_checksum:TRUE", "-o", "ip.check_checksum:TRUE")
            done = subprocess.run(["tshark", "-r", path, *checks, "-T", "fields", "-E", "occurrence=f", *words],
                                  capture_output=True, text=True, timeout=120, check=True)
        rows = [text.split("\t") for text in done.stdout.splitlines()]
        for row in rows:
            self.assertEqual(["", "", "1", "1"], row[5:9], row)
        return [tuple(int(value, 0) if value else None for value in row[:5]) for row in rows if row[0]]

    def test_fields(self):
        for name, report in REPORTS.items():
            expected = []
            for event in read(report.splitlines()):
                if event.is_arrival and event.request.name != "opcode 1e":
                    expected.append((event.request.opcode, None, None, None, event.request.tag))
                replies = [effect.reply for effect in event.effects if effect.reply]
                expected += [(reply.opcode, reply.stat_sn, reply.exp_cmd_sn, reply.max_cmd_sn, reply.tag)
                             for reply in replies]
            found = [row for row in self.fields(report) if row[0] != 0x1e]
            # A Reject has no tag in Wireshark's eyes.
            shown = [row[:4] + (None,) if row[0] == 0x3f else row for row in found]
            self.assertEqual([row[:4] + (None,) if row[0] == 0x3f else row for row in expected], shown, name)


class Faults(unittest.TestCase):
    def assert_fault(self, pattern, *words, text=None):
        done = run_tool("to-pcap", *words, text=text)
        self.assertEqual(1, done.returncode, done)
        self.assertRegex(done.stderr, r"\Ato-pcap: " + pattern + r"\n\Z")

    def test_faults(self):
        with tempfile.TemporaryDirectory() as folder:
            output = os.path.join(folder, "made.pcap")
            self.assert_fault(".*none: No such file or directory", os.path.join(folder, "none"), "-o", output)
            self.assert_fault(".*: Is a directory", folder, "-o", output)
            self.assert_fault("the report has no requests and no replies", "-", "-o", output, text="")
            self.assert_fault("line 1: not a line of a report.*", "-", "-o", output,
                              text=example("logout").replace("#", "C "))
            self.assertEqual([], os.listdir(folder))
            self.assert_fault(".*: Is a directory", "-", "-o", folder, text=REPORTS["logout"])
            self.assert_fault("/dev/full: No space left on device", "-", "-o", "/dev/full", text=REPORTS["logout"])
            many = "".join(f"> C {cid} {'00' * 48}\n" for cid in range(65))
            self.assert_fault("the report has more than 64 connections", "-", "-o", output, text=many)

    def test_command_line(self):
        self.assertEqual(2, run_tool("to-pcap", "-").returncode)


if __name__ == "__main__":
    unittest.main()
