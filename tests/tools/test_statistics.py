"""Tests of tools/statistics and tools/look: figures of a session by hand, and the pages of a real capture."""

import json
import os
import re
import sys
import tempfile
import unittest
import unittest.mock

from helpers import TOP, replay, run_tool
from test_explain import command

sys.path.insert(0, os.path.join(TOP, "tools"))
from lib import making  # noqa: E402
from lib.captures import sessions_of  # noqa: E402
from lib.settling import BadReplay  # noqa: E402

CAPTURES = os.path.join(TOP, "tests", "tools", "captures")


def recording_of(*events):
    """A recording of events with their times and frames."""
    lines = ["conn 1 00000001"]
    for frame, (time, event) in enumerate(events, 1):
        lines += [f"# time {time:.6f} frame {frame}: x", event]
    return "\n".join(lines) + "\n"


class Figures(unittest.TestCase):
    def figures(self, recording, *words):
        with tempfile.TemporaryDirectory() as folder:
            path = os.path.join(folder, "made.recording")
            with open(path, "w", encoding="ascii") as file:
                file.write(recording)
            done = run_tool("statistics", "-", "--recording", path, *words, text=replay(recording))
        self.assertEqual((0, ""), (done.returncode, done.stderr))
        return done.stdout

    def test_response_times(self):
        """Of a hundred commands the k-th takes k milliseconds."""
        events = [(0.0, command(number, number)) for number in range(1, 32)]
        events += [(number / 1000, f"D {number} 00") for number in range(1, 32)]
        told = json.loads(self.figures(recording_of(*events), "--json"))
        row = told["response_times"]["READ(10)"]
        self.assertEqual([31, 0.016, 0.028, 0.031, 0.031], [row[name] for name in ("count", "p50", "p90", "p99", "max")])
        self.assertEqual((62, 31, 31, 0), tuple(told[name] for name in ("events", "commands", "most_live", "taken_out")))
        self.assertEqual([31, 30, 29], [one["ticket"] for one in told["slowest"][:3]])
        self.assertEqual((31, 62), (told["slowest"][0]["frame"], told["slowest"][0]["answer_frame"]))
        self.assertEqual({"SCSI Response GOOD": 31}, told["replies"])

    def test_what_a_command_waited_for(self):
        """Held for 100 ms, then for 50 behind an ORDERED one."""
        recording = recording_of((1.0, command(2, 0xa2, low=2)), (1.05, command(3, 0xa3)), (1.1, command(1, 0xa1)), (1.15, "D 1 00"),
                                 (1.2, "D 2 00"), (1.3, "D 3 00"))
        told = json.loads(self.figures(recording, "--json"))
        waits = {one["tag"]: (round(one["held"], 6), round(one["dormant"], 6), one["behind"]) for one in told["longest_waits"]}
        self.assertEqual({"a2": (0.1, 0.05, "ticket 1 (SIMPLE READ(10), tag a1)"),
                          "a3": (0.05, 0.1, "ticket 2 (ORDERED READ(10), tag a2)")}, waits)
        self.assertIn("   250.000 ms  READ(10), tag a3, CID 1, unit 0, frames 2 to 6; held 50.000 ms for lower CmdSNs; "
                      "100.000 ms behind ticket 2 (ORDERED READ(10), tag a2)\n", self.figures(recording))

    def test_what_was_taken_out_has_no_response_time(self):
        abort = "C 1 4281" + "00" * 14 + "000000b1" + "000000a1" + "00000002" + "00000000" + "00000001" + "00" * 12
        told = json.loads(self.figures(recording_of((0.0, command(1, 0xa1)), (0.5, abort), (0.6, "D 1 00")), "--json"))
        self.assertEqual((1, {}, {"stale": 1}), (told["taken_out"], told["response_times"], told["ignored"]))

    def test_without_times(self):
        done = run_tool("statistics", text=replay(f"conn 1 00000001\n{command(1, 1)}\nD 1 00\n"))
        self.assertEqual("2 events; at most 1 commands live; 0 taken out\nrequests: 1 READ(10)\nreplies: 1 SCSI Response GOOD\n", done.stdout)

    def test_faults(self):
        for text, why in (("", "the report has no events"), ("hello", "line 1: not a line of a report")):
            done = run_tool("statistics", text=text)
            self.assertEqual((1, f"statistics: {why}\n"), (done.returncode, done.stderr))


class Look(unittest.TestCase):
    def test_pages_of_a_capture(self):
        with tempfile.TemporaryDirectory() as folder:
            done = run_tool("look", os.path.join(CAPTURES, "libiscsi.pcapng"), "-o", folder)
            self.assertEqual((0, "", f"{folder}/index.html"), (done.returncode, done.stderr, done.stdout.splitlines()[-1]))
            with open(os.path.join(folder, "index.html"), encoding="utf-8") as file:
                index = file.read()
            self.assertEqual(["libiscsi-1", "libiscsi-2", "libiscsi-3"], re.findall(r'<h2 id="(.*?)">', index))
            linked = {link.partition("#")[0] for link in re.findall(r'href="([^#].*?)"', index)}
            self.assertEqual(linked | {"index.html"}, set(os.listdir(folder)))
            self.assertIn("<td>INQUIRY</td>", index)

    def test_differences_and_what_was_slow(self):
        with tempfile.TemporaryDirectory() as folder:
            run_tool("look", os.path.join(CAPTURES, "abort-live.pcapng"), "-o", folder)
            with open(os.path.join(folder, "index.html"), encoding="utf-8") as file:
                index = file.read()
            with open(os.path.join(folder, "abort-live-1.differences.txt"), encoding="utf-8") as file:
                differences = file.read()
        self.assertIn("1 × missing reply, 1 × response", index)
        self.assertIn("frame 16 (0.701863 s), connection 1, <b>missing reply</b>: READ(10) with tag 00000010", index)
        self.assertEqual(2, differences.count("connection 1, "))
        self.assertIn('<a href="abort-live-1.html#', index)

    def test_faults(self):
        with tempfile.TemporaryDirectory() as folder:
            none, pages, taken = (os.path.join(folder, name) for name in ("none", "pages", "taken"))
            with open(taken, "w", encoding="ascii"):
                pass
            capture = os.path.join(CAPTURES, "libiscsi.pcapng")
            for path, output, why in ((none, pages, f"{none}: No such file or directory"), (folder, pages, f"{folder}: Is a directory"),
                                      (taken, pages, f"{taken}: an empty file"), (capture, taken, f"{taken}: File exists")):
                done = run_tool("look", path, "-o", output)
                self.assertEqual((1, f"look: {why}\n"), (done.returncode, done.stderr))
            self.assertEqual(["taken"], os.listdir(folder))

    def test_no_folder_is_left_where_no_session_can_be_replayed(self):
        sessions, unread = sessions_of(os.path.join(CAPTURES, "libiscsi.pcapng"))
        with tempfile.TemporaryDirectory() as folder:
            with unittest.mock.patch.object(making, "record", side_effect=BadReplay("no program is built")), self.assertRaises(BadReplay):
                list(making.all_made(sessions, unread, "libiscsi.pcapng", os.path.join(folder, "pages"), None))
            self.assertEqual([], os.listdir(folder))

    def test_the_index_has_the_length_of_a_session_in_milliseconds(self):
        with tempfile.TemporaryDirectory() as folder:
            told = run_tool("look", os.path.join(CAPTURES, "abort-live.pcapng"), "-o", folder).stdout
            with open(os.path.join(folder, "index.html"), encoding="utf-8") as file:
                index = file.read()
        self.assertIn("<th>milliseconds</th><th>commands</th>", index)
        seconds, milliseconds = (float(re.search(form, text)[1]) for form, text in
                                 ((r"; (\d+\.\d{3}) s;", told), (r"<td>(\d+\.\d{3})</td>", index)))
        self.assertAlmostEqual(seconds * 1000, milliseconds, delta=0.501)


if __name__ == "__main__":
    unittest.main()
