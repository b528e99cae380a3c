"""Tests of the page of tools/timeline in a browser: pointing, clicking, keys and scrolling, by what the page shows."""

import os
import statistics
import tempfile
import unittest

import browser
from helpers import TOP, replay, run_tool
from test_timeline import long_recording

COLUMN, LEFT = 74, 120
COMMANDS = 10_000
STEPS, LONGEST_STEP = 41, 200
# What the page shows: the texts with their places in the window, the highlighted column, and what stands below.
SHOWN = """
const place = one => one.getBoundingClientRect();
const texts = [...document.querySelectorAll("#marks text")].map(one =>
    [one.textContent, place(one).left + place(one).width / 2, place(one).top]);
const marked = document.querySelector("#marks .pointed"), head = document.querySelector("#details h2");
return {
    texts, marked: marked && place(marked).left, top: place(drawing).top,
    head: head && head.textContent, words: [...document.querySelectorAll("#details li")].map(one => one.textContent),
    lines: head && document.querySelector("#details pre").textContent, field: document.getElementById("event").value,
    marks: document.getElementById("marks").childElementCount, scrolled: scroller.scrollLeft,
};"""
# All that was asked for is unpacked and drawn.
FRAMES = "settled().then(() => requestAnimationFrame(() => done(null)));"
SCROLL = f"scroller.scrollLeft = arguments[0]; {FRAMES}"
# From the change of the place to the end of the frame that draws it, with its layout.
TIMED_SCROLL = """
const begin = performance.now();
scroller.scrollLeft += arguments[0];
requestAnimationFrame(() => { drawing.getBBox(); done(performance.now() - begin); });"""


def events_of(report):
    """The lines of each event."""
    return ["> " + part.rstrip("\n") for part in ("\n" + report).split("\n> ")[1:]]


@unittest.skipIf(browser.MISSING, f"there is no {' and no '.join(browser.MISSING)}")
class Page(unittest.TestCase):
    """A page of a report in a browser."""

    @classmethod
    def setUpClass(cls):
        cls.folder = tempfile.TemporaryDirectory()
        cls.addClassCleanup(cls.folder.cleanup)
        cls.browser = browser.Browser()
        cls.addClassCleanup(cls.browser.close)

    @classmethod
    def make(cls, report):
        """Makes the page of a report. Its path."""
        path = os.path.join(cls.folder.name, "page.html")
        done = run_tool("timeline", "-", "-o", path, text=report)
        if done.returncode:
            raise AssertionError(done.stderr)
        return path

    def open(self, path):
        """Loads a page, and waits until it is drawn."""
        self.browser.open(path)
        self.browser.wait(FRAMES)

    def shown(self):
        self.browser.wait(FRAMES)
        return self.browser.run(SHOWN)

    def place(self, event):
        """A place of the window over an event."""
        left, top, scrolled = self.browser.run(
            "const at = drawing.getBoundingClientRect(); return [at.left, at.top, scroller.scrollLeft];")
        return left + LEFT + (event - 0.5) * COLUMN - scrolled, top + 60

    def assert_shows(self, event, marked=True):
        """The lines of this event stand below, and its column is the highlighted one."""
        shown = self.shown()
        self.assertTrue(shown["head"].startswith(f"Event {event}: "), shown["head"])
        self.assertEqual(self.lines[event - 1], shown["lines"])
        if marked:
            self.assertAlmostEqual(self.place(event)[0] - COLUMN / 2, shown["marked"], delta=1)
        return shown


class ShortPage(Page):
    """A page whose events are all seen at once."""

    @classmethod
    def setUpClass(cls):
        super().setUpClass()
        with open(os.path.join(TOP, "examples", "recordings", "abort-task.report"), encoding="ascii") as file:
            report = file.read()
        cls.lines = events_of(report)
        cls.explained = run_tool("explain", "-", text=report).stdout
        cls.path = cls.make(report)

    def setUp(self):
        self.open(self.path)

    def test_pointing_shows_the_lines_of_an_event(self):
        self.assertIsNone(self.shown()["head"])
        for event in (5, 1, 9, 3):
            self.browser.move(*self.place(event))
            shown = self.assert_shows(event)
            for words in shown["words"]:
                self.assertIn(words, self.explained)
        self.assertEqual("1", shown["field"])

    def test_a_click_keeps_them(self):
        self.browser.move(*self.place(3), click=True)
        self.assertEqual("3", self.assert_shows(3)["field"])
        self.browser.move(*self.place(5))
        self.assert_shows(5)
        self.browser.move(5, 5)
        self.assert_shows(3)

    def test_arrow_keys_go_to_the_neighbours(self):
        self.browser.move(*self.place(3), click=True)
        for key, count, event in (("Right", 1, 4), ("Left", 2, 2), ("Left", 5, 1), ("Right", 20, 9)):
            self.browser.type(*[f"Arrow{key}"] * count)
            self.assertEqual(str(event), self.assert_shows(event)["field"])

    def test_arrow_keys_go_on_from_where_one_points(self):
        self.browser.move(*self.place(5))
        self.browser.type("ArrowRight")
        self.assert_shows(6)
        self.browser.move(*self.place(8))
        self.assert_shows(8)

    def test_the_next_abort_by_a_key(self):
        """Event 3 aborts a command that is missing, event 5 one that is held, event 7 one that is live."""
        for key, event in (("a", 3), ("a", 5), ("a", 7), ("a", 7), ("A", 5), ("A", 3), ("A", 3)):
            self.browser.type(key)
            self.assert_shows(event)
        self.assertEqual("no abort before this", self.told())

    def told(self):
        return self.browser.run("return document.getElementById('told').textContent;")

    def type_into(self, field, text):
        self.browser.run(f"const field = document.getElementById('{field}'); field.focus(); field.select();")
        self.browser.type(*text, "Enter")

    def test_finding(self):
        for text, event in (("tag a4", 2), ("sn 1", 6), ("abort task", 3)):
            self.open(self.path)
            self.type_into("find", text)
            self.assert_shows(event)
        self.browser.type("n")
        self.assert_shows(5)
        self.browser.type("N")
        self.assert_shows(3)
        self.type_into("find", "tag 77")
        self.browser.wait(FRAMES)
        self.assertEqual("no “tag 77” behind this", self.told())

    def test_showing_some_events_alone(self):
        self.type_into("only", "functions")
        self.browser.wait(FRAMES)
        self.assertEqual("3 of 9 events", self.told())
        self.assertEqual([3, 5, 7], self.browser.run("return Array.from(shown);"))
        texts = [text for text, _, _ in self.shown()["texts"] if text.isdecimal() and len(text) == 1]
        for event in ("3", "5", "7"):
            self.assertIn(event, texts)
        self.browser.type("ArrowRight", "ArrowRight")
        self.assert_shows(5, marked=False)
        self.browser.run("document.getElementById('only').value = '';")
        self.type_into("only", "")
        self.browser.wait(FRAMES)
        self.assertEqual(9, self.browser.run("return positions();"))

    def test_a_reply_is_joined_to_its_request(self):
        """Event 9 completes the command that came with event 6, and event 6 leads to its answer."""
        for event in (6, 9):
            self.browser.move(*self.place(event))
            self.assert_shows(event)
            self.assertEqual(1, self.browser.run("return document.querySelectorAll('#marks .joins').length;"))

    def test_arrow_keys_begin_at_the_first_event(self):
        self.browser.type("ArrowRight")
        self.assert_shows(1)

    def test_the_field(self):
        for typed, event in (("7", 7), ("99", 9), ("2.5", 2), ("0", 1)):
            self.browser.run("const field = document.getElementById('event'); field.focus(); field.select();")
            self.browser.type(*typed, "Enter")
            self.assertEqual(str(event), self.assert_shows(event)["field"])
        self.browser.type("ArrowRight")
        self.assert_shows(2)


class LongPage(Page):
    """A page of which only a small part is seen."""

    @classmethod
    def setUpClass(cls):
        super().setUpClass()
        report = replay(long_recording(COMMANDS))
        cls.lines = events_of(report)
        cls.path = cls.make(report)

    def setUp(self):
        self.open(self.path)

    def test_scrolling_shows_the_right_events(self):
        for first in (1, 12, 5001, 13_000, 2 * COMMANDS):
            self.browser.wait(SCROLL, (first - 1) * COLUMN)
            shown = self.shown()
            first = 1 + int(shown["scrolled"] // COLUMN)
            numbers = [(int(text), left) for text, left, top in shown["texts"]
                       if top < shown["top"] + 45 and text.isdecimal()]
            self.assertEqual(list(range(first, first + len(numbers))), [event for event, _ in numbers])
            self.assertGreater(len(numbers), 13)
            for event, left in numbers:
                self.assertAlmostEqual(self.place(event)[0], left, delta=1)
            self.assert_cells(shown, numbers)
            self.assertLess(shown["marks"], 400)
        self.assertEqual(2 * COMMANDS, numbers[-1][0])

    def assert_cells(self, shown, numbers):
        """Each column has its request with the CmdSN, or its completion with the ticket."""
        texts = [(text, left) for text, left, _ in shown["texts"]]
        for event, middle in numbers:
            command = (event + 1) // 2
            expected = f"SN {command:x}" if event % 2 else f"#{command}"
            found = any(text == expected and abs(left - middle) < 1 for text, left in texts)
            self.assertTrue(found, (event, expected))

    def test_pointing_after_scrolling(self):
        self.browser.wait(SCROLL, 7000 * COLUMN + 20)
        for event in (7003, 7010):
            self.browser.move(*self.place(event))
            self.assert_shows(event)

    def test_a_mouse_that_stands_still_points_at_what_scrolls_below_it(self):
        self.browser.move(*self.place(4))
        self.assert_shows(4)
        self.browser.wait(SCROLL, 100 * COLUMN)
        self.assert_shows(104)

    def test_arrow_keys_scroll_to_their_event(self):
        self.browser.move(*self.place(10), click=True)
        self.browser.type(*["ArrowRight"] * 30)
        shown = self.assert_shows(40)
        self.assertIn("40", [text for text, _, _ in shown["texts"]])
        self.assertGreater(shown["scrolled"], 0)

    def test_arrow_keys_begin_where_one_scrolled_to(self):
        self.browser.wait(SCROLL, 5000 * COLUMN)
        self.browser.type("ArrowRight")
        self.assert_shows(5001)

    def test_the_last_event_by_its_address(self):
        self.open(f"{self.path}#{2 * COMMANDS}")
        shown = self.assert_shows(2 * COMMANDS)
        self.assertIn(str(2 * COMMANDS), [text for text, _, _ in shown["texts"]])

    def test_zooming(self):
        before = self.browser.run("return width;")
        self.browser.type("-")
        self.browser.wait(FRAMES)
        self.assertLess(self.browser.run("return width;"), before)
        self.browser.type("w")
        self.browser.wait(FRAMES)
        self.assertAlmostEqual(self.browser.run("return total() / seen();"), 1, delta=0.01)
        self.browser.type("0")
        self.browser.wait(FRAMES)
        self.assertEqual(before, self.browser.run("return width;"))

    def test_from_afar(self):
        """Stripes of all events, and how many commands are live."""
        self.browser.type("w")
        shown = self.shown()
        self.assertIn(f"events 1 to {2 * COMMANDS}", [text for text, _, _ in shown["texts"]])
        self.assertGreater(shown["marks"], 200)
        self.assertLess(shown["marks"], 4000)

    def test_the_strip_leads_to_a_place(self):
        left, top, wide = self.browser.run("const at = overview.getBoundingClientRect(); return [at.left, at.top, at.width];")
        self.browser.move(left + wide / 2, top + 20, click=True)
        shown = self.shown()
        first = 1 + int(shown["scrolled"] // COLUMN)
        self.assertAlmostEqual(COMMANDS, first, delta=40)

    def test_how_long_a_scroll_step_takes(self):
        times = [self.browser.wait(TIMED_SCROLL, 5 * COLUMN) for _ in range(STEPS)]
        median = statistics.median(times)
        print(f"\na scroll step over {2 * COMMANDS} events: {median:.1f} ms, at most {max(times):.1f} ms", flush=True)
        self.assertGreater(self.shown()["scrolled"], (STEPS - 1) * 5 * COLUMN)
        self.assertLess(median, LONGEST_STEP)


if __name__ == "__main__":
    unittest.main()
