"""Tests of tools/timeline."""

import base64
import html
import io
import json
import os
import re
import shutil
import subprocess
import sys
import tempfile
import unittest
import unittest.mock
import zlib
from xml.etree import ElementTree

from helpers import TOP, replay, run_tool

sys.path.insert(0, os.path.join(TOP, "tools"))
from lib import page  # noqa: E402
from lib.page import Page  # noqa: E402
from lib.picture import paint  # noqa: E402
from lib.places import with_places  # noqa: E402

SVG = "{http://www.w3.org/2000/svg}"
SCSI = "C 1 0181" + "00" * 14 + "{tag:08x}" + "00" * 4 + "{cmd_sn:08x}" + "00" * 20


def recording_of(name):
    with open(os.path.join(TOP, "examples", "recordings", name + ".recording"), encoding="ascii") as file:
        return file.read()


def long_recording(commands):
    """Commands one after the other, each with its completion, and with times."""
    lines = ["conn 1 00000001"]
    for count in range(1, commands + 1):
        lines += [f"# time {count / 4} frame {count}", SCSI.format(tag=count, cmd_sn=count), f"D {count} 00"]
    return "\n".join(lines) + "\n"


class Folder(unittest.TestCase):
    """Tests that write files."""

    def setUp(self):
        folder = tempfile.TemporaryDirectory()
        self.addCleanup(folder.cleanup)
        self.folder = folder.name

    def path(self, name, content=None):
        path = os.path.join(self.folder, name)
        if content is not None:
            with open(path, "w", encoding="ascii") as file:
                file.write(content)
        return path

    def draw(self, name, report, *words):
        """What the tool draws of a report, as text."""
        done = run_tool("timeline", self.path("made.report", report), "-o", self.path(name), *words)
        self.assertEqual((0, ""), (done.returncode, done.stderr))
        with open(self.path(name), encoding="utf-8") as file:
            return file.read()

    def data(self, page):
        """The data of a page: what it says of itself, and its blocks put together."""
        found = re.search(r'<script type="application/json" id="data">(.*?)</script>', page, re.DOTALL)
        data = json.loads(found.group(1))
        whole = dict(data["about"], fields={})
        for block in map(unpacked, data["columns"]):
            for name, values in block.items():
                whole["fields"].setdefault(name, []).extend(values)
        for name in ("words", "lines"):
            whole[name] = [one for block in data[name] if block for one in unpacked(block)]
        whole["marks"] = [unpacked(block) for block in data["marks"]]
        whole["index"] = {name: zlib.decompress(base64.b64decode(text)) for name, text in data["index"].items()}
        return whole

    def svg(self, report, *words):
        return ElementTree.fromstring(self.draw("made.svg", report, *words))


def unpacked(text):
    return json.loads(zlib.decompress(base64.b64decode(text)))


def shapes(tree, kind):
    """The shapes of a class, without those of the legend."""
    in_legend = set(tree.find(f"{SVG}g[@class='legend']"))
    return [shape for shape in tree.iter() if shape.get("class") == kind and shape not in in_legend]


def texts(tree):
    """The words in the picture, without those of the legend."""
    in_legend = set(tree.find(f"{SVG}g[@class='legend']"))
    return [text.text or "" for text in tree.iter(SVG + "text") if text not in in_legend]


def event_numbers(tree):
    return [text for text in shapes(tree, "small middle") if (text.text or "").isdecimal()]


def cells(tree):
    return shapes(tree, "request")


class Pictures(Folder):
    def test_abort(self):
        tree = self.svg(replay(recording_of("abort-task"), "--window", "4"))
        self.assertEqual(9, len(cells(tree)))
        # Two held requests, a voided number, one that is taken out; two live commands.
        self.assertEqual([2, 1, 1, 2], [len(shapes(tree, kind)) for kind in ("held", "void", "empty", "live")])
        self.assertEqual(2, len(shapes(tree, "enabled")))
        self.assertEqual([1, 1], [len(shapes(tree, kind)) for kind in ("completed", "aborted")])
        found = texts(tree)
        self.assertEqual([1, 1, 1], [found.count(f"complete b{place}") for place in (1, 2, 3)])
        self.assertEqual([1, 2], [found.count(words) for words in ("✕ ABORTED", "held")])
        for words in ("duplicate", "stale", "#2 simple, tag a4", "connection 2", "task set of unit 0"):
            self.assertIn(words, found)

    def test_bars_stand_over_their_events(self):
        """CmdSN 3 of the abort is held from event 1 to 4, and taken out at event 5."""
        tree = self.svg(replay(recording_of("abort-task"), "--window", "4"))
        columns = {text.text: float(text.get("x")) for text in event_numbers(tree)}
        width = columns["2"] - columns["1"]
        held = min(shapes(tree, "held"), key=lambda bar: float(bar.get("x")))
        left, right = float(held.get("x")), float(held.get("x")) + float(held.get("width"))
        self.assertAlmostEqual(columns["1"] - width / 2, left, delta=2)
        self.assertAlmostEqual(columns["4"] + width / 2, right, delta=2)
        empty = shapes(tree, "empty")[0]
        self.assertEqual(held.get("y"), empty.get("y"))
        self.assertAlmostEqual(right, float(empty.get("x")), delta=3)

    def test_ranges(self):
        report = replay(long_recording(100))
        for words, events in (((), range(1, 61)), (("--from", "41", "--to", "44"), range(41, 45)),
                              (("--from", "199"), (199, 200))):
            tree = self.svg(report, *words)
            self.assertEqual(len(events), len(cells(tree)))
            self.assertEqual([str(event) for event in events], [text.text for text in event_numbers(tree)])

    def test_dormant_commands(self):
        tree = self.svg(replay(recording_of("attributes")))
        self.assertGreater(len(shapes(tree, "dormant")), 0)
        self.assertIn("dormant", texts(tree))

    def test_numbers_far_apart(self):
        """A report that was tampered with: the picture has an end."""
        report = replay(long_recording(2)).replace("0000000300000022", "3000000330000022")
        self.assertIn("30000003", report)
        self.assertEqual(4, len(cells(self.svg(report))))

    def test_times(self):
        recording = long_recording(3)
        self.path("made.recording", recording)
        tree = self.svg(replay(recording), "--recording", self.path("made.recording"))
        times = [words for words in texts(tree) if words.endswith(" ms")]
        self.assertEqual(["250.000 ms", "500.000 ms", "750.000 ms"], times)
        self.assertEqual(["frame 1", "frame 2", "frame 3"], [words for words in texts(tree) if words.startswith("frame ")])
        headed = self.svg("# time 2.5 frame 1\nconn 1 00000001\nconn 9 00000001\n" + replay(recording))
        self.assertIn("2.500000 s", texts(headed))
        self.assertIn("connection 9", texts(headed))

    def test_an_event_that_was_moved_a_pause_and_one_that_is_made_up(self):
        lines = ["conn 1 00000001"]
        for count, (time, words) in enumerate(((0.2, ""), (0.1, ""), (0.21, "made up, since the capture lacks it: x"), (0.5, "")), 1):
            lines += [f"# time {time} frame {count}: {words}", SCSI.format(tag=count, cmd_sn=count)]
        recording = "\n".join(lines) + "\n"
        found = texts(self.svg(replay(recording), "--recording", self.path("made.recording", recording)))
        self.assertEqual(["◂ 100.000 ms"], [words for words in found if words.startswith("◂")])
        self.assertEqual(["0.29 s"], [words for words in found if words.endswith(" s")])
        self.assertIn("made up", found)
        self.assertNotIn("frame 3", found)

    def test_what_the_target_said(self):
        """A target that answers the second of two commands otherwise, and one that the rules take out."""
        recording = "\n".join(("conn 1 00000001", *(line for count in (1, 2) for line in (
            f"# time 0.{count}00000 frame {count}: x", SCSI.format(tag=count, cmd_sn=count))),
            "# time 0.300000 frame 3: x", "D 1 00", "# time 0.400000 frame 4: x", "D 2 00")) + "\n"
        target = "".join(f"{frame} 0.{frame}00000 1 scsi-response {tag:08x} {tag:08x} 00000003 {greatest:08x} {status:02x} x\n"
                         for frame, tag, status, greatest in ((3, 1, 0, 0x21), (4, 2, 8, 0x22)))
        words = ("--recording", self.path("made.recording", recording), "--target", self.path("made.target", target))
        tree = self.svg(replay(recording), *words)
        self.assertEqual([2, 1, 1], [texts(tree).count(words) for words in ("GOOD 1", "GOOD 2", "BUSY 2")])
        self.assertEqual(1, len(shapes(tree, "differs")))
        for head in ("by the rules", "the target said"):
            self.assertIn(head, texts(tree))
        data = self.data(self.draw("made.html", replay(recording), *words))
        self.assertEqual([[], [], [[1, "GOOD", True, "1", 1, False, 3]], [[1, "BUSY", False, "2", 2, True, 4]]], data["fields"]["theirs"])
        self.assertEqual(["status: TEST UNIT READY with tag"], [words[:32] for one in data["fields"]["differences"] for words in one])

    def test_a_trace_for_perfetto(self):
        recording = long_recording(3)
        events = json.loads(self.draw("made.json", replay(recording), "--recording", self.path("made.recording", recording)))["traceEvents"]
        begun = [one for one in events if one["ph"] == "b" and one["name"].startswith("TEST UNIT READY")]
        self.assertEqual([1, 2, 3], [one["args"]["ticket"] for one in begun])
        self.assertEqual([250_000, 500_000, 750_000], [one["ts"] for one in begun])
        ends = [one for one in events if one["ph"] == "e"]
        self.assertEqual(sum(one["ph"] == "b" for one in events), len(ends))
        self.assertEqual(6, sum(one["ph"] == "i" for one in events))

    def test_all_worked_reports(self):
        cases = os.path.join(TOP, "tests", "cases")
        drawn = 0
        for name in sorted(os.listdir(cases))[::4]:
            path = os.path.join(cases, name, "report")
            if os.path.isfile(path) and os.path.getsize(path):
                with open(path, encoding="ascii") as file:
                    report = file.read()
                tree = self.svg(report)
                events = min(60, sum(line.startswith("> ") for line in report.splitlines()))
                self.assertEqual(events, len(cells(tree)), name)
                drawn += 1
        self.assertGreater(drawn, 15)


class Pages(Folder):
    def test_it_needs_no_network(self):
        page = self.draw("made.html", replay(recording_of("logout"), "--window", "4"))
        remote = r"https?:|ftp:|//[a-z0-9]|\bsrc=|\bhref=|@import|url\((?!#)|fetch\(|XMLHttpRequest|<link"
        # The data are packed, and may have any letters.
        self.assertIsNone(re.search(remote, re.sub(r'(?s)(<script type="application/json" id="data">).*?</script>', "", page)))

    def test_data(self):
        report = replay(long_recording(1500))
        data = self.data(self.draw("made.html", report))
        self.assertEqual((3000, 3000, 3000), (data["count"], len(data["fields"]["name"]), len(data["words"])))
        self.assertEqual(report.splitlines(), [line for lines in data["lines"] for line in lines])
        explained = run_tool("explain", text=report).stdout.splitlines()
        self.assertIn("        " + data["words"][2999][-1], explained)
        tickets = {ticket for _, tasks in data["marks"] for ticket in tasks[2]}
        self.assertEqual(set(range(1, 1501)), tickets)
        self.assertEqual({0}, {lane for _, tasks in data["marks"] for lane in tasks[1]})
        self.assertEqual({3000 * 2}, {len(data["index"][name]) for name in ("flags", "cid", "unit", "name", "live")})
        self.assertEqual({3000 * 4}, {len(data["index"][name]) for name in ("tag", "number", "frame", "answered", "time")})

    def test_range(self):
        data = self.data(self.draw("made.html", replay(long_recording(50)), "--from", "11", "--to", "20"))
        self.assertEqual((11, 10, 5), (data["first"], data["count"], len(data["marks"][0][1][2])))

    def test_what_a_page_has_no_room_for_is_left_out_and_said(self):
        report = replay(long_recording(1500))
        sizes = []
        for share, left_out in ((1, []), (0.9, ["lines"]), (0, ["lines", "words"])):
            room = 10**9 if not sizes else sizes[0] * share
            made = Page(1, None)
            paint(with_places(iter(report.splitlines()), None, "made", keeps_lines=True), made)
            file = io.StringIO()
            with unittest.mock.patch.object(page, "LARGEST", room):
                made.write(file, "made", [1])
            sizes.append(len(re.search(r'id="data">(.*?)</script>', file.getvalue(), re.DOTALL)[1]))
            data = self.data(file.getvalue())
            self.assertEqual(left_out, data["leftOut"])
            self.assertEqual([not name in left_out for name in ("lines", "words")], [bool(data[name]) for name in ("lines", "words")])
        self.assertEqual(sorted(sizes, reverse=True), sizes)

    def test_a_name_that_is_no_utf_8(self):
        odd = os.fsencode(self.folder) + b"/x\xff.report"
        with open(odd, "w", encoding="ascii") as file:
            file.write(replay(recording_of("logout")))
        for ending in ("html", "svg"):
            self.assertEqual(0, run_tool("timeline", os.fsdecode(odd), "-o", self.path(f"odd.{ending}")).returncode)

    def test_name_is_escaped(self):
        odd = self.path("<b>&.report", replay(recording_of("logout")))
        self.assertEqual(0, run_tool("timeline", odd, "-o", self.path("odd.html")).returncode)
        self.assertEqual(0, run_tool("timeline", odd, "-o", self.path("odd.svg")).returncode)
        with open(self.path("odd.html"), encoding="utf-8") as file:
            self.assertIn("<title>&lt;b&gt;&amp;.report:", file.read())
        self.assertIn("<b>&.report:", ElementTree.parse(self.path("odd.svg")).getroot().find(SVG + "title").text)

    @unittest.skipUnless(shutil.which("chromium"), "there is no chromium")
    def test_in_a_browser(self):
        """The page opened at an event shows its words, and draws no more than what is seen."""
        self.draw("made.html", replay(long_recording(1500)))
        done = subprocess.run(["chromium", "--headless", "--no-sandbox", "--disable-gpu", "--window-size=1200,900",
                               "--virtual-time-budget=5000", "--dump-dom", f"--user-data-dir={self.path('profile')}",
                               "file://" + self.path("made.html") + "#2000"],
                              capture_output=True, text=True, timeout=120, check=False)
        details = html.unescape(re.search(r'<div id="details">(.*?)</div>', done.stdout, re.DOTALL).group(1))
        self.assertIn("Event 2000: unit 0 completes ticket 1000", details)
        self.assertIn("> D 1000 00\n  leave 1000", details)
        marks = re.search(r'<g id="marks">(.*?)</g>', done.stdout, re.DOTALL).group(1)
        self.assertIn(">2000</text>", marks)
        self.assertNotIn(">1000</text>", marks)
        self.assertLess(marks.count("<text"), 300)


class Faults(Folder):
    def assert_fault(self, pattern, *words, text=None):
        done = run_tool("timeline", *words, text=text)
        self.assertEqual(1, done.returncode, done)
        self.assertRegex(done.stderr, r"\Atimeline: " + pattern + r"\n\Z")

    def test_faults(self):
        output = self.path("made.svg")
        report = self.path("made.report", replay(long_recording(3)))
        self.assert_fault(".*none: No such file or directory", self.path("none"), "-o", output)
        self.assert_fault(".*: Is a directory", self.folder, "-o", output)
        self.assert_fault("the report has no events", "-", "-o", output, text="")
        self.assert_fault(r"line 2: not a line of a report \(a recording\?.*\)", "-", "-o", output,
                          text=long_recording(1).replace("# t", "C t"))
        self.assert_fault("--from 7: the report has 6 events", report, "--from", "7", "-o", output)
        self.assert_fault(".*: No such file or directory", report, "-o", self.path("none/made.svg"))
        self.assert_fault(".*other.recording: not the recording of this report", report, "-o", output, "--recording",
                          self.path("other.recording", long_recording(2)))
        self.assert_fault(".*: Is a directory", report, "-o", output, "--recording", self.folder)
        long_report = self.path("long.report", replay(long_recording(1100)))
        self.assert_fault("a picture has at most 2000 events.*", long_report, "--to", "2001", "-o", output)
        self.assertFalse(os.path.exists(output))

    def test_command_line(self):
        report = self.path("made.report", replay(long_recording(3)))
        for words in ((report,), (report, "-o", "made.png"), (report, "-o", "made.svg", "--from", "0"),
                      (report, "-o", "made.svg", "--from", "3", "--to", "2"), (report, "-o", "made.svg", "--to", "x")):
            done = run_tool("timeline", *words)
            self.assertEqual(2, done.returncode, words)
            self.assertNotIn("Traceback", done.stderr)


if __name__ == "__main__":
    unittest.main()
