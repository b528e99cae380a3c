"""The static picture of a timeline, as SVG."""

import os
from html import escape

from .picture import number_range
from .words import shown

LEFT, COLUMN, MARGIN = 178, 74, 12
REQUEST_HEIGHT, ANSWER_HEIGHT = 44, 19
MOST_ROW, LEAST_ROW, WINDOW_HEIGHT = 17, 3, 340
TASK_HEIGHT = 20
CORNER = 6
LEGEND_GAP = 118
LONGEST_ANSWER = 13
LEGEND = (
    (("command", "command"), ("function", "function"), ("other", "other event"), ("ignored", "ignored"),
     ("good", "reply"), ("bad", "reply that refuses"), ("differs", "differs")),
    (("live", "live"), ("held", "held"), ("void", "voided"), ("empty", "taken out"), ("open", "may be sent"),
     ("expected", "ExpCmdSN"), ("greatest", "MaxCmdSN")),
    (("dormant", "dormant"), ("enabled", "enabled"), ("completed", "completed"), ("aborted", "aborted"),
     ("pause", "a pause"), ("moved", "came before")),
)
PATTERNS = (
    '<pattern id="hatch" width="7" height="7" patternUnits="userSpaceOnUse" patternTransform="rotate(45)">'
    '<rect width="7" height="7" fill="#fdebc8"/><line x1="0" y1="0" x2="0" y2="7" class="stripe"/></pattern>'
    '<pattern id="cross" width="6" height="6" patternUnits="userSpaceOnUse">'
    '<rect width="6" height="6" fill="#e5e8ec"/><path d="M0 0L6 6M6 0L0 6" class="gap"/></pattern>'
    '<pattern id="waiting" width="5" height="5" patternUnits="userSpaceOnUse" patternTransform="rotate(-45)">'
    '<rect width="5" height="5" fill="#f6f2fb"/><line x1="0" y1="0" x2="0" y2="5" class="wait"/></pattern>'
    '<pattern id="passed" width="6" height="6" patternUnits="userSpaceOnUse"><rect width="6" height="6" fill="#ffffff"/>'
    '<circle cx="2" cy="2" r="0.9" fill="#8a94a0"/></pattern>'
)


def part(name):
    """A style sheet or a script of this folder."""
    with open(os.path.join(os.path.dirname(os.path.realpath(__file__)), name), encoding="utf-8") as file:
        return file.read()


def text(x, y, content, kind=""):
    return f'<text x="{x:g}" y="{y:g}" class="{kind}">{escape(content)}</text>'


def box(x, y, width, height, kind, round_by=2):
    return f'<rect x="{x:g}" y="{y:g}" width="{width:g}" height="{height:g}" rx="{round_by}" class="{kind}"/>'


def line(x, y, to_x, to_y, kind):
    return f'<line x1="{x:g}" y1="{y:g}" x2="{to_x:g}" y2="{to_y:g}" class="{kind}"/>'


def notched(x, y, width, height, kind):
    """A box without its corners: the shape of a function."""
    right, low = x + width, y + height
    points = ((x + CORNER, y), (right - CORNER, y), (right, y + CORNER), (right, low - CORNER), (right - CORNER, low),
              (x + CORNER, low), (x, low - CORNER), (x, y + CORNER))
    return f'<polygon points="{" ".join(f"{left:g},{top:g}" for left, top in points)}" class="{kind}"/>'


def shape(x, y, width, height, kind, ignored=False):
    """The shape of a request: notched for a function, round for others than commands."""
    look = "ignored" if ignored else kind
    if kind == "function":
        return notched(x, y, width, height, look)
    return box(x, y, width, height, look, 10 if kind == "other" else 2)


def most(columns):
    """Gives, for a connection, the most replies on it among these."""
    columns = list(columns)
    return lambda cid: max((sum(answer.cid == cid for answer in answers) for answers in columns), default=0)


class Drawing:
    """Draws some events of a picture, panel by panel downwards."""

    def __init__(self, picture, start, end, title):
        self.picture, self.start, self.end, self.title = picture, start, end, title
        self.columns = picture.columns[start - 1:end]
        self.has_target = any(column.theirs for column in picture.columns)
        self.width = max(LEFT + len(self.columns) * COLUMN + MARGIN, LEFT + 4 * LEGEND_GAP)
        self.parts = []
        self.y = 0

    def x(self, event):
        return LEFT + (event - self.start) * COLUMN

    def add(self, *parts):
        self.parts += parts

    def heading(self, content):
        self.add(text(MARGIN, self.y + 14, content, "head"))
        self.y += 22

    def svg(self):
        self.top()
        top = self.y
        self.connections()
        self.window()
        for unit in sorted({task.unit for task in self.tasks()}):
            self.task_set(unit)
        grid = [line(self.x(column.event), top, self.x(column.event), self.y, "grid") for column in self.columns]
        grid += self.pauses(top)
        self.legend()
        size = f'width="{self.width:g}" height="{self.y:g}" viewBox="0 0 {self.width:g} {self.y:g}"'
        ground = '<rect width="100%" height="100%" class="paper"/>'
        head = (f'<svg xmlns="http://www.w3.org/2000/svg" {size} role="img">', f"<title>{escape(self.title)}</title>",
                "<style>\n" + part("timeline.css") + "</style>", f"<defs>{PATTERNS}</defs>", ground)
        return "\n".join((*head, *grid, *self.parts, "</svg>\n"))

    def top(self):
        self.add(text(MARGIN, 24, self.title, "title"))
        timed = any(column.time for column in self.columns)
        framed = any(column.frame is not None for column in self.columns)
        self.y = (52 if timed else 40) + (13 if framed else 0)
        self.add(text(MARGIN, self.y + 6, "event", "head"))
        for column in self.columns:
            middle = self.x(column.event) + COLUMN / 2
            self.add(text(middle, self.y + 6, str(column.event), "small middle"))
            if column.frame is not None:
                words = "made up" if column.made_up else f"frame {column.frame}"
                self.add(text(middle, self.y - 8, words, "small middle quiet"))
            if column.time:
                words = f"◂ {column.time}" if column.moved else column.time
                self.add(text(middle, self.y - (21 if framed else 8), words, "small middle " + ("moved-time" if column.moved else "quiet")))
        self.y += 14

    def pauses(self, top):
        """Where nothing came for a while."""
        for column in self.columns:
            if column.pause and column.event > self.start:
                yield box(self.x(column.event) - 2, top, 4, self.y - top, "pause", 0)
                yield text(self.x(column.event), top - 2, f"{column.pause:.2f} s", "small middle pause-words")

    def connections(self):
        for cid in self.picture.cids:
            answers = most(column.answers for column in self.columns)(cid)
            theirs = most(column.theirs for column in self.columns)(cid)
            self.add(line(MARGIN, self.y, self.width - MARGIN, self.y, "rule"))
            heading, rows = ("units", "completions") if cid is None else (f"connection {cid}", "requests")
            self.add(text(MARGIN, self.y + 20, heading, "head"), text(LEFT - 10, self.y + 32, rows, "small end quiet"))
            answers_at = self.y + REQUEST_HEIGHT + 8
            theirs_at = answers_at + answers * ANSWER_HEIGHT + (5 if theirs else 0)
            if answers:
                words = "by the rules" if self.has_target else "replies"
                self.add(text(LEFT - 10, answers_at + 13, words, "small end quiet"))
            if theirs:
                self.add(text(LEFT - 10, theirs_at + 13, "the target said", "small end quiet"))
            for column in self.columns:
                self.add(*self.cell(column, cid, answers_at, theirs_at))
            self.y = theirs_at + theirs * ANSWER_HEIGHT + 4
        self.add(line(MARGIN, self.y, self.width - MARGIN, self.y, "rule"))

    def cell(self, column, cid, answers_at, theirs_at):
        """What one event brings and sends on one connection."""
        x, y, request = self.x(column.event), self.y + 5, column.request
        middle = x + COLUMN / 2
        if request and request.cid == cid:
            yield f'<g class="request"><title>{escape(chr(10).join((*column.words, *column.differences)))}</title>'
            yield shape(x + 2, y, COLUMN - 4, REQUEST_HEIGHT - 2, request.kind, request.ignored)
            yield text(middle, y + 14, request.name, "name middle")
            yield text(middle, y + 25, request.number, "small middle")
            yield text(middle, y + 37, request.note, "note middle") + "</g>"
        for top, answers in ((answers_at, column.answers), (theirs_at, column.theirs)):
            for place, answer in enumerate(answer for answer in answers if answer.cid == cid):
                yield from self.answer(x, top + place * ANSWER_HEIGHT, answer)

    def answer(self, x, top, answer):
        """A reply, with the tag that it answers where there is room, and where it stands in the capture."""
        words = f"{answer.text} {answer.tag}"
        kind = "differs" if answer.differs else "good" if answer.good else "bad"
        where = f", frame {answer.frame}" if answer.frame is not None else ""
        yield f"<g><title>{escape(answer.text)}, tag {answer.tag}{where}</title>"
        yield box(x + 3, top, COLUMN - 6, ANSWER_HEIGHT - 3, kind, 8)
        yield text(x + COLUMN / 2, top + 12, words if len(words) <= LONGEST_ANSWER else answer.text,
                   "small middle" + (" light" if answer.differs else "")) + "</g>"

    def window(self):
        """The CmdSNs, the highest one on top."""
        span = number_range(self.picture, self.start, self.end)
        if not span:
            return
        lowest, highest = span
        above = max((column.greatest for column in self.columns if column.greatest is not None), default=highest)
        if above > highest:
            self.add(text(LEFT + 4, self.y + 14, f"MaxCmdSN goes up to {shown(above)}, above the picture",
                          "small quiet"))
        self.heading("CmdSNs")
        row = max(LEAST_ROW, min(MOST_ROW, WINDOW_HEIGHT // (highest - lowest + 1)))
        top, height = self.y, (highest - lowest + 1) * row
        every = -(-MOST_ROW // row)
        for number in range(lowest, highest + 1, every):
            self.add(text(LEFT - 10, top + (highest - number) * row + row / 2 + 4, shown(number), "small end quiet"))
        for column in self.columns:
            self.add(*self.open_numbers(column, top, row, highest))
        for bar in self.picture.bars:
            if bar.start <= self.end and bar.end >= self.start and lowest <= bar.number <= highest:
                self.add(self.number_bar(bar, top + (highest - bar.number) * row, row))
        self.add(self.steps("expected", "expected", top, row, highest, 0))
        self.add(self.steps("greatest", "greatest", top, row, highest, 1))
        self.y = top + height + 10
        self.add(line(MARGIN, self.y, self.width - MARGIN, self.y, "rule"))

    def open_numbers(self, column, top, row, highest):
        """The ground of the numbers from ExpCmdSN to MaxCmdSN."""
        if column.expected is not None and column.greatest is not None and column.greatest >= column.expected:
            upper = min(column.greatest, highest)
            height = max(0, upper - column.expected + 1) * row
            yield box(self.x(column.event), top + (highest - upper) * row, COLUMN, height, "open", 0)

    def number_bar(self, bar, y, row):
        start, end = max(bar.start, self.start), min(bar.end, self.end)
        return box(self.x(start) + 1, y + 1, (end - start + 1) * COLUMN - 2, row - 2, bar.kind)

    def steps(self, field, kind, top, row, highest, above):
        """A stepped line, below ExpCmdSN or above MaxCmdSN, where it stands in the picture."""
        path, before = [], None
        for column in self.columns:
            value = getattr(column, field)
            if value is None or value > highest:
                before = None
                continue
            x, y = self.x(column.event), top + (highest - value + 1 - above) * row
            path.append(f"{'M' if before is None else 'L'}{x:g} {y:g}H{x + COLUMN:g}")
            before = value
        return f'<path d="{"".join(path)}" class="{kind}"/>' if path else ""

    def tasks(self):
        return [task for task in self.picture.tasks
                if task.start <= self.end and (task.end is None or task.end >= self.start)]

    def task_set(self, unit):
        self.heading(f"task set of unit {unit}")
        for task in self.tasks():
            if task.unit == unit:
                self.add(text(LEFT - 10, self.y + 13, task.label, "small end"))
                self.add(*self.task_bars(task))
                self.y += TASK_HEIGHT
        self.y += 6
        self.add(line(MARGIN, self.y, self.width - MARGIN, self.y, "rule"))

    def task_bars(self, task):
        """Dormant, enabled, and how it ended."""
        leaves = task.end is not None and task.end <= self.end
        begin, last = max(task.start, self.start), self.end + 1
        if leaves:
            last = task.end
        enabled = last if task.enabled is None else min(max(task.enabled, begin), last)
        for start, end, kind in ((begin, enabled, "dormant"), (enabled, last, "enabled")):
            if start < end:
                yield box(self.x(start) + 2, self.y + 2, (end - start) * COLUMN - 2, TASK_HEIGHT - 4, kind)
                yield text(self.x(start) + COLUMN / 2, self.y + 14, kind, "small middle")
        if leaves:
            kind = "completed" if task.completed else "aborted"
            draw = box if task.completed else notched
            yield draw(self.x(task.end) + 1, self.y + 2, COLUMN - 3, TASK_HEIGHT - 4, kind)
            outcome = ("" if task.completed else "✕ ") + task.outcome
            yield text(self.x(task.end) + COLUMN / 2, self.y + 14, outcome, "small middle light")

    def legend(self):
        marks, height = legend_marks(self.y + 10, self.width, MARGIN)
        self.add('<g class="legend">', *marks, "</g>")
        self.y += height + 16


def legend_marks(y, width, left=0):
    """The marks of the legend, a row for each panel, or more where the width is small; and its height."""
    marks, top = [], y
    for entries in LEGEND:
        x = left
        for kind, words in entries:
            if x + LEGEND_GAP > width:
                x, y = left, y + 20
            marks += legend_entry(x, y, kind, words)
            x += LEGEND_GAP
        y += 20
    return marks, y - top


def legend_entry(x, y, kind, words):
    if kind in ("expected", "greatest"):
        yield line(x, y + 8, x + 22, y + 8, kind)
    elif kind == "pause":
        yield box(x + 9, y + 1, 4, 14, kind, 0)
    elif kind == "moved":
        yield text(x + 6, y + 12, "◂", "small moved-time")
    elif kind in ("function", "other"):
        yield shape(x, y + 1, 22, 14, kind)
    elif kind == "aborted":
        yield notched(x, y + 1, 22, 14, kind)
    else:
        yield box(x, y + 1, 22, 14, kind, 7 if kind in ("good", "bad", "differs") else 2)
    yield text(x + 28, y + 12, words, "small")
