"""The page of a timeline: one file, with its events as data and scripts that draw what is seen.

The data of the events stand in blocks, each packed by itself, so that a page of a million events opens: what isn't seen isn't unpacked.
What all events are looked through for (to find, to filter, to draw them from afar) stands in arrays, a number an event.
"""

import json
import sys
import zlib
from array import array
from base64 import b64encode
from html import escape

from . import pdu
from .svg import PATTERNS, legend_marks, part

LEGEND_WIDTH = 1180
BLOCK = 1024
# So many bytes a page has for its data: what there is no room for is left out, and that is said.
LARGEST = 58_000_000
# So many numbers a bar and a task have.
BAR, TASK = 4, 10
KINDS = {"command": 0, "function": 1, "other": 2}
COMPLETION, IGNORED, TAKES_OUT, MADE_UP, DIFFERS, TIMED, MOVED, REFUSES = 3, 4, 8, 16, 32, 64, 128, 256
TAKING_OUT = (1, 2, 4, 5)
NO_UNIT = NO_CID = 0xffff
SCRIPTS = ("data.js", "find.js", "draw.js", "overview.js", "timeline.js")

BEGIN = """<!DOCTYPE html>
<html lang="en">
<head>
<meta charset="utf-8">
<title>{title}</title>
<style>
{style}</style>
</head>
<body>
"""
END = "</body>\n</html>\n"
HEAD = """<header>
<h1>{title}</h1>
<label>event <input id="event" type="number" min="{start}" max="{end}" value="{start}"></label>
<label>find <input id="find" placeholder="tag a1, frame 12, READ"></label>
<label>only <input id="only" placeholder="tag a1, unit 0, connection 1, abort"></label>
<span id="told"></span>
<button id="help" title="keys">?</button>
<svg id="legend" width="{legend_width}" height="{legend_height}"><defs>{patterns}</defs>{legend}</svg>
</header>
<canvas id="overview" height="44"></canvas>
<div id="scroller"><div id="width"></div><svg id="drawing"><g id="marks"></g></svg></div>
<div id="details">Point at an event to read its lines. A click keeps them; the arrow keys go from event to event.</div>
<script type="application/json" id="data">
"""
TAIL = """</script>
<script>
{script}</script>
"""


def begin(title, *styles):
    """How a page begins, with these files as its style."""
    return BEGIN.format(title=escape(title), style="".join(map(part, styles)))


def packed(content):
    """Bytes as they stand in the page."""
    return b64encode(zlib.compress(content, 6)).decode("ascii")


def as_json(value):
    return json.dumps(value, separators=(",", ":"), ensure_ascii=True)


class Index:
    """An array for each thing that is asked of all events. Numbers that go up stand as what is between them."""

    def __init__(self):
        self.flags, self.cid, self.unit, self.name, self.live = (array("H") for _ in range(5))
        self.tag, self.number, self.frame, self.answered = (array("I") for _ in range(4))
        self.time, self.jumps, self.before = array("i"), [], 0
        self.names, self.cids = {}, {}

    def add(self, column, event, live):
        """Adds an event."""
        request = column.request
        self.flags.append(flags_of(column, event))
        self.cid.append(NO_CID if request.cid is None else self.cids.setdefault(request.cid, len(self.cids)))
        self.name.append(self.names.setdefault(event.request.name if event.is_arrival else "completion", len(self.names)))
        self.tag.append(event.request.tag if event.is_arrival else pdu.NO_TAG)
        self.number.append((event.request.cmd_sn if event.is_arrival else event.ticket) % 2**32)
        unit = event.request.unit if event.is_arrival and event.request.opcode in (pdu.SCSI_COMMAND, pdu.TASK_MANAGEMENT) else None
        self.unit.append(NO_UNIT if unit is None else unit)
        self.frame.append((column.frame or 0) % 2**32)
        self.answered.append(0)
        self.live.append(min(live, NO_UNIT))
        self.add_time(column.seconds)

    def add_time(self, seconds):
        now = self.before if seconds is None else round(seconds * 1_000_000)
        step = now - self.before
        if abs(step) >= 2**31:
            self.jumps.append([len(self.time), step])
            step = 0
        self.time.append(step)
        self.before = now

    def packed(self):
        """The arrays as they stand in the page."""
        whole = {name: getattr(self, name) for name in ("flags", "cid", "unit", "name", "live", "answered", "time")}
        steps = {name: in_steps(getattr(self, name)) for name in ("tag", "number", "frame")}
        return {name: packed(in_order(values).tobytes()) for name, values in (whole | steps).items()}


def in_steps(values):
    """What is between each number and the one before it, modulo 2^32."""
    before, steps = 0, array("I")
    for value in values:
        steps.append((value - before) % 2**32)
        before = value
    return steps


def in_order(values):
    """The array with the lowest byte of a number first."""
    if sys.byteorder == "big":
        values = values[:]
        values.byteswap()
    return values


def flags_of(column, event):
    """What an event is, in bits."""
    request = column.request
    flags = KINDS[request.kind] if event.is_arrival else COMPLETION
    flags |= IGNORED * request.ignored | MADE_UP * column.made_up | DIFFERS * bool(column.differences)
    flags |= TIMED * (column.seconds is not None) | MOVED * column.moved
    flags |= REFUSES * any(not answer.good for answer in column.answers)
    if event.is_arrival and event.request.opcode == pdu.TASK_MANAGEMENT:
        flags |= TAKES_OUT * (event.request.function in TAKING_OUT)
    return flags


# What a block has of each column, a list a field. The rest stands in the index.
FIELDS = ("name", "number", "note", "answers", "theirs", "expected", "greatest", "pause", "differences")


def column_data(column):
    """The fields of a column."""
    request = column.request
    return (
        request.name, request.number, request.note,
        [[one.cid, one.text, one.good, one.tag, one.request, one.differs] for one in column.answers],
        [[one.cid, one.text, one.good, one.tag, one.request, one.differs, one.frame] for one in column.theirs],
        column.expected, column.greatest, column.pause, column.differences,
    )


class Open:
    """The block that isn't full yet."""

    def __init__(self):
        self.columns, self.words, self.lines = [], [], []

    def add(self, column):
        self.columns.append(column_data(column))
        self.words.append(column.words)
        self.lines.append(column.lines)

    def __len__(self):
        return len(self.columns)

    def packed(self):
        """The columns, the words and the lines."""
        fields = dict(zip(FIELDS, zip(*self.columns)))
        return [packed(as_json(part).encode()) for part in (fields, self.words, self.lines)]


class Page:
    """A sink of a painter that packs what it is given of the events from one to another."""

    def __init__(self, start, end):
        self.start, self.end = start, end
        self.events = 0
        self.index, self.blocks, self.open = Index(), [], Open()
        self.bars, self.tasks = array("q"), array("q")
        self.words, self.attributes, self.kinds = {}, {}, {}
        self.ours, self.theirs, self.lanes = {}, {}, {}
        self.live = 0

    def column(self, column, event):
        self.events = column.event
        self.live += sum((effect.kind == "enter") - (effect.kind == "leave") for effect in event.effects)
        if not self.start <= column.event <= (self.end or column.event):
            return
        self.index.add(column, event, self.live)
        for answer in (*column.answers, *column.theirs):
            if answer.request and answer.request >= self.start:
                self.index.answered[answer.request - self.start] = column.event
        for most, answers in ((self.ours, column.answers), (self.theirs, column.theirs)):
            for cid in {answer.cid for answer in answers}:
                most[cid] = max(most.get(cid, 0), sum(answer.cid == cid for answer in answers))
        self.open.add(column)
        if len(self.open) == BLOCK:
            self.close()

    def close(self):
        """Packs the block that is open."""
        if self.open:
            self.blocks.append(self.open.packed())
            self.open = Open()

    def bar(self, bar):
        self.bars.extend((bar.number, self.kinds.setdefault(bar.kind, len(self.kinds)), bar.start, bar.end))

    def task(self, task):
        self.lanes[task.unit] = max(self.lanes.get(task.unit, 0), task.lane + 1)
        attribute = self.attributes.setdefault(task.attribute, len(self.attributes))
        outcome = self.words.setdefault(task.outcome, len(self.words))
        self.tasks.extend((task.unit, task.lane, task.ticket, attribute, task.tag, task.start, task.enabled or 0, task.end or 0, outcome,
                           task.completed))

    def marks(self):
        """Gives, of each block, the bars and tasks that stand in it."""
        count = -(-len(self.index.flags) // BLOCK)
        bars, tasks = ([[] for _ in range(count)] for _ in range(2))
        last = self.start + len(self.index.flags) - 1
        for place in range(0, len(self.bars), BAR):
            self.spread(bars, place // BAR, self.bars[place + 2], self.bars[place + 3], last)
        for place in range(0, len(self.tasks), TASK):
            self.spread(tasks, place // TASK, self.tasks[place + 5], self.tasks[place + 7] or last, last)
        for block, (in_block, of_block) in enumerate(zip(bars, tasks)):
            base = self.start + block * BLOCK
            yield packed(as_json([self.bar_data(in_block, base), self.task_data(of_block, base)]).encode())

    def spread(self, blocks, place, begin, end, last):
        """Puts one into each block that it stands in."""
        begin, end = max(begin, self.start), min(end, last)
        if begin <= end:
            for block in range((begin - self.start) // BLOCK, (end - self.start) // BLOCK + 1):
                blocks[block].append(place)

    def bar_data(self, places, base):
        """Bars as lists of their fields: numbers, kinds, and where they begin, from the block's first event on, and how long they are."""
        bars = [self.bars[BAR * place:BAR * (place + 1)] for place in places]
        return [[number for number, _, _, _ in bars], [kind for _, kind, _, _ in bars],
                [start - base for _, _, start, _ in bars], [end - start for _, _, start, end in bars]]

    def task_data(self, places, base):
        """Tasks as lists of their fields. Where one is enabled and ends is told from where it begins; -1: it isn't."""
        tasks = [self.tasks[TASK * place:TASK * (place + 1)] for place in places]
        shifted = [(*task[:5], task[5] - base, task[6] - task[5] if task[6] else -1, task[7] - task[5] if task[7] else -1, *task[8:])
                   for task in tasks]
        return [list(field) for field in zip(*shifted)] or [[]] * TASK

    def write(self, file, title, cids):
        """Writes the page into a text file. `cids`: those that are known to be the session's."""
        self.close()
        self.leave_out()
        seen = [cid for cid in self.index.cids if cid not in cids]
        has_completions = any(flags & 3 == COMPLETION for flags in self.index.flags)
        end = self.start + len(self.index.flags) - 1
        marks, height = legend_marks(0, LEGEND_WIDTH)
        file.write(begin(title, "page.css", "timeline.css"))
        file.write(HEAD.format(title=escape(title), start=self.start, end=end, patterns=PATTERNS, legend="".join(marks),
                               legend_width=LEGEND_WIDTH, legend_height=height))
        about = {"first": self.start, "count": len(self.index.flags), "block": BLOCK, "names": list(self.index.names),
                 "cids": [*cids, *sorted(seen), *([None] if has_completions else [])], "cidOf": list(self.index.cids),
                 "ours": list(self.ours.items()), "theirs": list(self.theirs.items()), "lanes": sorted(self.lanes.items()),
                 "kinds": list(self.kinds), "attributes": list(self.attributes), "outcomes": list(self.words),
                 "jumps": self.index.jumps, "leftOut": self.left_out}
        # No text of the data can end the element that they stand in.
        file.write('{"about":' + as_json(about).replace("<", "\\u003c") + ',"index":' + as_json(self.index.packed()))
        parts = {"columns": 0, "words": 1, "lines": 2}
        for name, place in parts.items():
            self.write_list(file, name, (block[place] if name not in self.left_out else "" for block in self.blocks))
        self.write_list(file, "marks", self.packed_marks)
        file.write("}\n" + TAIL.format(script="".join(map(part, SCRIPTS))) + END)

    @staticmethod
    def write_list(file, name, packed_blocks):
        file.write(f',\n"{name}":[' + ",".join(f'\n"{block}"' for block in packed_blocks) + "]")

    def leave_out(self):
        """Leaves out the lines, and then the words, where the page would be too large."""
        self.packed_marks, self.left_out = list(self.marks()), []
        sizes = [sum(len(block[place]) for block in self.blocks) for place in range(3)]
        total = sum(sizes) + sum(map(len, self.packed_marks)) + sum(map(len, self.index.packed().values()))
        for name, size in (("lines", sizes[2]), ("words", sizes[1])):
            if total > LARGEST:
                self.left_out.append(name)
                total -= size
