"""The tools on spoilt captures and reports: each answers, or refuses with one line. The seeds are fixed."""

import io
import os
import random
import sys
import tempfile
import unittest
import unittest.mock

from helpers import TOP, run_tool

sys.path.insert(0, os.path.join(TOP, "tools"))
from lib import captures, tshark  # noqa: E402
from lib.answers import read as read_answers, target_lines  # noqa: E402
from lib.beside import Beside  # noqa: E402
from lib.files import Fault  # noqa: E402
from lib.frames import segments_of  # noqa: E402
from lib.packets import Foreign, Packet, packets  # noqa: E402
from lib.page import Page  # noqa: E402
from lib.perfetto import trace  # noqa: E402
from lib.picture import Collected, paint  # noqa: E402
from lib.places import with_places  # noqa: E402
from lib.repairs import repair  # noqa: E402
from lib.report import BadReport  # noqa: E402
from lib.sessions import find  # noqa: E402
from lib.settling import event_lines, guess, in_taken_order, units_of  # noqa: E402
from lib.statistics import Figures  # noqa: E402
from lib.svg import Drawing  # noqa: E402

CAPTURES = os.path.join(TOP, "tests", "tools", "captures")
CASES = os.path.join(TOP, "tests", "cases")
OF_EACH_CAPTURE, OF_EACH_FILE, OF_EACH_REPORT, WHOLE = 120, 40, 12, 40


def spoilt_packets(chance, found):
    """Packets of which some are lost, doubled, moved, cut or changed."""
    found = [Packet(one.frame, one.nanoseconds, one.link, one.content) for one in found]
    for _ in range(chance.randint(1, 6)):
        place = chance.randrange(len(found))
        kind = chance.randrange(5)
        one = found[place]
        if kind == 0 and len(found) > 1:
            del found[place]
        elif kind == 1:
            found.insert(chance.randrange(len(found)), one)
        elif kind == 2:
            found.insert(chance.randrange(len(found)), found.pop(place))
        elif kind == 3:
            one.content = one.content[:chance.randrange(len(one.content) + 1)]
        else:
            one.content = spoilt_bytes(chance, one.content)
    return found


def spoilt_bytes(chance, content):
    """Bytes of which some are others, or were left out."""
    content = bytearray(content)
    for _ in range(chance.randint(1, 4)):
        if content:
            content[chance.randrange(len(content))] = chance.choice((0, 0xff, chance.randrange(256)))
    if chance.random() < 0.3:
        del content[chance.randrange(len(content) + 1):]
    return bytes(content)


def spoilt_lines(chance, lines):
    """Lines of which some are lost, doubled or moved, or have other characters."""
    lines = list(lines)
    for _ in range(chance.randint(1, 4)):
        if not lines:
            break
        place = chance.randrange(len(lines))
        kind = chance.randrange(4)
        if kind == 0:
            del lines[place]
        elif kind == 1:
            lines.insert(chance.randrange(len(lines)), lines[place])
        elif kind == 2:
            lines.insert(chance.randrange(len(lines)), lines.pop(place))
        elif lines[place]:
            at = chance.randrange(len(lines[place]))
            lines[place] = lines[place][:at] + chance.choice("0179af >x\u00e9") + lines[place][at + chance.randrange(2):]
    return lines


class Captures(unittest.TestCase):
    def take(self, sessions):
        """All that is made of sessions without the program."""
        for session in sessions:
            repair(session)
            steps = list(in_taken_order(session.items))
            list(event_lines(steps, guess(steps, session.first)))
            units_of(session.items)
            list(read_answers(target_lines(session)))

    def test_packets(self):
        chance, tried = random.Random(1), 0
        for name in sorted(os.listdir(CAPTURES)):
            found = list(packets(os.path.join(CAPTURES, name)))
            for _ in range(OF_EACH_CAPTURE):
                try:
                    sessions, _ = find(segments_of(spoilt_packets(chance, found)))
                except (Foreign, IndexError):
                    continue
                self.take(sessions)
                tried += 1
        self.assertGreater(tried, 1500)

    def test_files(self):
        """What isn't read here would be tshark's."""
        chance = random.Random(2)
        refuses = unittest.mock.patch.object(tshark, "segments", side_effect=tshark.BadCapture("no"))
        with tempfile.TemporaryDirectory() as folder, refuses:
            path = os.path.join(folder, "made.pcapng")
            for name in sorted(os.listdir(CAPTURES)):
                with open(os.path.join(CAPTURES, name), "rb") as file:
                    whole = file.read()
                for _ in range(OF_EACH_FILE):
                    with open(path, "wb") as file:
                        file.write(spoilt_bytes(chance, whole))
                    try:
                        self.take(captures.sessions_of(path)[0])
                    except captures.BadCapture:
                        pass

    def test_with_the_program(self):
        chance = random.Random(3)
        names = sorted(os.listdir(CAPTURES))
        with tempfile.TemporaryDirectory() as folder:
            for place in range(WHOLE):
                with open(os.path.join(CAPTURES, chance.choice(names)), "rb") as file:
                    content = spoilt_bytes(chance, file.read())
                path = os.path.join(folder, f"{place}.pcapng")
                with open(path, "wb") as file:
                    file.write(content)
                done = run_tool("look", path, "-o", folder)
                self.assertIn(done.returncode, (0, 1), done)
                self.assertEqual(done.returncode, len(done.stderr.splitlines()), done)


class Reports(unittest.TestCase):
    def draw(self, lines):
        """All that is made of a report."""
        events = lambda: with_places(iter(lines), None, "made", keeps_lines=True)  # noqa: E731
        collected, page = Collected(), Page(1, None)
        paint(events(), collected)
        paint(events(), page, Beside([], []), Figures).as_dict()
        trace(events(), io.StringIO())
        page.write(io.StringIO(), "made", [])
        picture = collected.finish([])
        if picture.columns:
            Drawing(picture, 1, min(60, len(picture.columns)), "made").svg()

    def test_reports(self):
        chance, drawn, refused = random.Random(4), 0, 0
        for name in sorted(os.listdir(CASES)):
            path = os.path.join(CASES, name, "report")
            if not os.path.isfile(path) or not 0 < os.path.getsize(path) < 20_000:
                continue
            with open(path, encoding="ascii") as file:
                lines = file.read().splitlines()
            self.draw(lines)
            for _ in range(OF_EACH_REPORT):
                try:
                    self.draw(spoilt_lines(chance, lines))
                    drawn += 1
                except (BadReport, Fault):
                    refused += 1
        self.assertGreater(drawn, 100)
        self.assertGreater(refused, 500)

    def test_with_the_tools(self):
        chance = random.Random(5)
        with open(os.path.join(CASES, "gap", "report"), encoding="ascii") as file:
            lines = file.read().splitlines()
        with tempfile.TemporaryDirectory() as folder:
            for _ in range(20):
                text = "\n".join(spoilt_lines(chance, lines)) + "\n"
                for tool, *words in (("explain",), ("statistics",), ("timeline", "-", "-o", f"{folder}/x.html"),
                                     ("timeline", "-", "-o", f"{folder}/x.svg"), ("to-pcap", "-", "-o", f"{folder}/x.pcap")):
                    done = run_tool(tool, *words, text=text)
                    self.assertIn(done.returncode, (0, 1), (tool, text, done))
                    self.assertEqual(done.returncode, len(done.stderr.splitlines()), (tool, done))


if __name__ == "__main__":
    unittest.main()
