"""Figures of a session: how many requests, how long commands took by opcode, which were the slowest, and what they waited for."""

import heapq
from array import array
from collections import Counter, defaultdict
from dataclasses import asdict, dataclass

from .places import first_of
from .unanswered import Outstanding, lines
from .waits import Courses

SLOWEST = 10
SHARES = (("p50", 50), ("p90", 90), ("p99", 99))


@dataclass(frozen=True, slots=True)
class Taken:
    """A command that completed: the events and the frames of its request and its answer, how long it took, and of that how long it was
    held for lower CmdSNs, and stood behind other commands of its set."""
    ticket: int
    name: str
    tag: str
    cid: int
    unit: int
    event: int
    answer_event: int
    frame: int
    answer_frame: int
    seconds: float
    held: float
    dormant: float
    behind: str


class Most:
    """Those with the greatest values, the greatest first."""

    def __init__(self, most=SLOWEST):
        self.most, self.count, self.heap = most, 0, []

    def add(self, value, one):
        """Adds one. Of equal ones those that came first are kept."""
        self.count += 1
        heapq.heappush(self.heap, (value, -self.count, one))
        if len(self.heap) > self.most:
            heapq.heappop(self.heap)

    @property
    def all(self):
        return [one for _, _, one in sorted(self.heap, key=lambda entry: entry[:2], reverse=True)]


class Figures:
    """The figures of a report, by its events and their places in the capture, where they are known. `answers`: those of a real
    target, where they are told; `end`: that of the capture."""

    def __init__(self, first, answers=None, end=None):
        self.courses = Courses(first)
        self.outstanding = Outstanding(self.courses, answers, end)
        self.requests, self.replies, self.ignored = Counter(), Counter(), Counter()
        self.events = self.most_live = self.aborted = self.commands = 0
        self.begin = self.end = None
        self.seconds_of, self.most_waited = defaultdict(lambda: array("d")), defaultdict(lambda: (0.0, 0.0))
        self.longest, self.waited = Most(), Most()

    def take(self, event, place):
        """Takes an event."""
        self.events += 1
        self.courses.follow(event, place)
        self.outstanding.take(event, place)
        self.most_live = max(self.most_live, len(self.courses.live))
        if place:
            self.begin = place.seconds if self.begin is None else min(self.begin, place.seconds)
            self.end = place.seconds if self.end is None else max(self.end, place.seconds)
        if event.is_arrival:
            self.requests[event.request.name] += 1
        for effect in event.effects:
            if effect.kind == "send":
                self.replies[f"{effect.reply.name} {outcome(event, effect.reply)}".rstrip()] += 1
            elif effect.kind == "ignore":
                self.ignored[effect.why] += 1
            elif effect.kind == "enter":
                self.commands += 1
        for course in self.courses.left:
            self.leave(course, place)

    def leave(self, course, place):
        """A command leaves its set: it is completed, or taken out."""
        if not course.command.completed:
            self.aborted += 1
        elif course.arrived and place:
            one = taken(course, place)
            self.seconds_of[one.name].append(one.seconds)
            held, dormant = self.most_waited[one.name]
            self.most_waited[one.name] = max(held, one.held), max(dormant, one.dormant)
            self.longest.add(one.seconds, one)
            if one.held + one.dormant > 0:
                self.waited.add(one.held + one.dormant, one)

    @property
    def seconds(self):
        """From the first event to the last one, or None."""
        return None if self.begin is None else self.end - self.begin

    def response_times(self):
        """Of each name of a command: how many completed, percentiles and the greatest of the seconds that they took, and the most
        that one was held and that one stood behind others."""
        return {name: self.row(name) for name in sorted(self.seconds_of, key=lambda name: -len(self.seconds_of[name]))}

    def row(self, name):
        seconds = sorted(self.seconds_of[name])
        row = {"count": len(seconds)}
        row |= {name: seconds[max(0, (len(seconds) * share + 99) // 100 - 1)] for name, share in SHARES}
        held, dormant = self.most_waited[name]
        return row | {"max": seconds[-1], "held": held, "dormant": dormant}

    def as_dict(self):
        """All of it, as JSON has it."""
        return {
            "unanswered": [asdict(one) for one in self.outstanding.all()],
            "events": self.events, "seconds": self.seconds, "commands": self.commands, "most_live": self.most_live,
            "taken_out": self.aborted,
            "requests": dict(self.requests), "replies": dict(self.replies), "ignored": dict(self.ignored),
            "response_times": self.response_times(), "slowest": [asdict(one) for one in self.longest.all],
            "longest_waits": [asdict(one) for one in self.waited.all],
        }

    def lines(self):
        """All of it, as text."""
        yield from lines(self.outstanding)
        span = "" if self.seconds is None else f" in {self.seconds:.3f} s"
        yield f"{self.events} events{span}; at most {self.most_live} commands live; {self.aborted} taken out"
        yield from counted("requests", self.requests)
        yield from counted("replies", self.replies)
        yield from counted("ignored", self.ignored)
        rows = self.response_times()
        if rows:
            yield f"{'milliseconds':24}{'number':>8}{'p50':>10}{'p90':>10}{'p99':>10}{'max':>10}{'held':>10}{'behind':>10}"
        for name, row in rows.items():
            yield f"{name:24}{row['count']:8}" + "".join(f"{row[key] * 1000:10.3f}"
                                                         for key in ("p50", "p90", "p99", "max", "held", "dormant"))
        yield from told("slowest", self.longest.all)
        yield from told("waited longest", self.waited.all)


def figures_of(events, end=None):
    """The figures of events with their places."""
    first, events = first_of(events)
    figures = Figures(first, end=end)
    for event, place in events:
        figures.take(event, place)
    return figures


def outcome(event, reply):
    """What a reply says; of a completion without sense data, which are the program's own."""
    return reply.outcome if event.is_arrival else reply.outcome.split(" (")[0]


def taken(course, place):
    """A command that completes here, with its times."""
    command, request = course.command, course.command.arrival.request
    entered = course.entered or course.arrived
    enabled = course.enabled or entered
    return Taken(command.ticket, request.name, f"{request.tag:x}", command.arrival.cid, command.unit, command.arrival.event, command.left,
                 course.arrived.frame, place.frame, place.seconds - course.arrived.seconds, entered.seconds - course.arrived.seconds,
                 enabled.seconds - entered.seconds, course.behind)


def counted(name, counts):
    if counts:
        yield f"{name}: " + ", ".join(f"{count} {what}" for what, count in counts.most_common())


def told(name, taken):
    """Commands in words, each with what it waited for."""
    if taken:
        yield f"{name}:"
    for one in taken:
        frames = "" if one.frame is None else f", frames {one.frame} to {one.answer_frame}"
        text = f"  {one.seconds * 1000:10.3f} ms  {one.name}, tag {one.tag}, CID {one.cid}, unit {one.unit}{frames}"
        if one.held > 0:
            text += f"; held {one.held * 1000:.3f} ms for lower CmdSNs"
        if one.dormant > 0:
            text += f"; {one.dormant * 1000:.3f} ms behind {one.behind}"
        yield text
