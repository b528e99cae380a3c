"""Requests that have no answer at the end of a session: how old each is when the capture ends, and where it is.

Where a request is comes from the report. Where it is told what a real target sent, its answers count, and not the program's.
"""

import math
import re
from dataclasses import dataclass, field

from . import pdu
from .answers import LOST
from .places import first_of
from .state import Arrival
from .waits import Courses
from .words import joined, missing_words, name_words, short_words

ASKING = (pdu.NOP_OUT, pdu.SCSI_COMMAND, pdu.TASK_MANAGEMENT, pdu.TEXT, pdu.LOGOUT)
ANSWERS = ("nop-in", "scsi-response", "function-response", "text-response", "data-in-status", "logout-response", "reject", LOST)
MOST_TOLD, MOST_LISTED = 30, 3
ENDS = re.compile(r"# the capture ends at ([0-9]{1,12}\.[0-9]{6}) s\s*$")
LACKS = re.compile(r"# PDUs are lacking behind [0-9]+ frame\(s\): ((?:[0-9]{1,12}, )*[0-9]{1,12})( \.\.)?\s*$")
HELD, WAITS, DORMANT, STARTED, OUTSIDE, ALONE = "held", "waits", "dormant", "started", "outside", "answered by the program alone"


@dataclass(frozen=True, slots=True)
class Unanswered:
    """A request without an answer: what it is, its event and frame, its age at the end, and where it is, as a name and in words."""
    name: str
    tag: str
    cid: int
    unit: int
    event: int
    frame: int
    seconds: float
    state: str
    where: str

    @property
    def age(self):
        return "" if self.seconds is None else f"{self.seconds * 1000:.3f} ms"

    @property
    def words(self):
        """What it is."""
        return f"{self.name}, tag {self.tag}, CID {self.cid}" + ("" if self.unit is None else f", unit {self.unit}")


@dataclass(slots=True)
class Asked:
    """A request that waits for its answer: its ticket, what the program answered, and the requests that it took out."""
    arrival: Arrival
    place: object
    ticket: int = None
    answer: str = None
    is_outside: bool = False
    took: list = field(default_factory=list)

    @property
    def key(self):
        return self.arrival.cid, self.arrival.request.tag

    @property
    def frame(self):
        return self.place.frame or 0 if self.place else 0


class End:
    """When a capture ends, and behind which frame it last lacks PDUs, where comments of its recording tell it."""

    def __init__(self, comments=()):
        self.seconds = self.last_hole = None
        for line in comments:
            self.note(line)

    def note(self, line):
        if found := ENDS.match(line):
            self.seconds = float(found[1])
        elif found := LACKS.match(line):
            # Of many holes the last one isn't told.
            self.last_hole = math.inf if found[2] else max(map(int, found[1].split(", ")))

    def noted(self, lines):
        """Gives the lines, and notes what they tell."""
        for line in lines:
            if line.startswith(("# the capture", "# PDUs")):
                self.note(line)
            yield line


class Outstanding:
    """The requests of a session that have no answer yet. `answers`: all that a real target sent, or None where it isn't told."""

    def __init__(self, courses, answers=None, end=None):
        self.courses, self.end = courses, end or End()
        self.latest = max((answer.time for answer in answers or ()), default=None)
        self.answers = None if answers is None else by_request(answers)
        # The StatSNs show what is lacking before a connection's last reply.
        self.last = {answer.cid: answer.frame for answer in answers or () if answer.kind != LOST}
        self.asked = {}

    def take(self, event, place):
        """Takes an event that the courses have followed."""
        if place:
            self.latest = place.seconds if self.latest is None else max(self.latest, place.seconds)
        if event.is_arrival:
            self.begin(event, place)
        now = self.asked.get(self.courses.session.events)
        for step in self.courses.steps:
            kind = step.effect.kind if step.effect else None
            if kind in ("deliver", "immediate", "wait"):
                now = self.asked.get(step.arrival.event)
            elif kind == "send" and now:
                self.answer(now, step.effect.reply)
            elif kind == "enter" and now:
                now.ticket = step.effect.ticket
            elif kind == "leave" and step.command.completed:
                self.complete(step.command.arrival, place)
            for gone in taken_out(step, kind):
                self.take_out(gone, now)

    def begin(self, event, place):
        """A request arrives. One that is made up asks for nothing, nor one that is ignored, but if the window keeps it out."""
        request, session = event.request, self.courses.session
        is_asking = request.opcode in ASKING and (request.opcode, request.tag) != (pdu.NOP_OUT, pdu.NO_TAG)
        if not is_asking or place and place.is_made_up:
            return
        why = next((effect.why for effect in event.effects if effect.kind == "ignore"), None)
        is_above = session.expected is not None and session.lifted(request.cmd_sn) >= session.expected
        if not why or why == OUTSIDE and is_above:
            self.asked[session.events] = Asked(Arrival(session.events, event.cid, request), place, is_outside=bool(why))

    def answer(self, asked, reply):
        """The program answers a request by itself."""
        asked.answer = " ".join(filter(None, (reply.name, reply.outcome)))
        if self.answers is None:
            self.asked.pop(asked.arrival.event, None)

    def complete(self, arrival, place):
        """A unit completed a command: in a capture, since the target answered it."""
        self.asked.pop(arrival.event, None)
        frames = self.answers.get((arrival.cid, arrival.request.tag), []) if self.answers else []
        if place and place.frame in frames:
            frames.remove(place.frame)

    def take_out(self, arrival, by):
        """A request is taken out by another one."""
        if self.asked.pop(arrival.event, None) and by:
            by.took.append(arrival)

    def answered(self):
        """The events of the requests that the target answered: of those with a tag the last one before an answer."""
        found, asked = set(), {}
        for one in self.asked.values():
            asked.setdefault(one.key, []).append(one)
        for key, same in asked.items():
            for frame in (self.answers or {}).get(key, ()):
                before = [one for one in same if one.frame < frame and one.arrival.event not in found]
                if before:
                    found.add(max(before, key=lambda one: one.frame).arrival.event)
        return found

    def all(self):
        """Those that have no answer, the oldest first."""
        answered = self.answered()
        rows = [self.row(one) for event, one in self.asked.items() if event not in answered]
        return sorted(rows, key=lambda row: (-(row.seconds or 0), row.event))

    def row(self, one):
        arrival, place = one.arrival, one.place
        request = arrival.request
        state, where = self.where(one)
        unit = request.unit if request.opcode in (pdu.SCSI_COMMAND, pdu.TASK_MANAGEMENT) else None
        return Unanswered(name_words(request), f"{request.tag:x}", arrival.cid, unit, arrival.event, place.frame if place else None,
                          self.since(place), state, where + self.doubt(arrival.cid))

    def doubt(self, cid):
        """Whether the capture may lack an answer on a connection, in words."""
        hole = self.end.last_hole
        return "" if hole is None or hole < self.last.get(cid, 0) else "; the capture lacks PDUs, and may lack the answer"

    def since(self, place):
        """The seconds from a place to the end of the capture, or None."""
        return max(self.end.seconds or 0, self.latest) - place.seconds if place else None

    def where(self, one):
        """Where a request is at the end: as a name, and in words."""
        session, number = self.courses.session, one.arrival.request.cmd_sn
        course = self.courses.live.get(one.ticket)
        if one.answer is not None:
            took = f"; it takes out {joined(listed([short_words(arrival) for arrival in one.took]))}" if one.took else ""
            return ALONE, f"the program answers {one.answer}, the target nothing{took}"
        if course and course.command.enabled is None:
            return DORMANT, f"may not start yet: it stands behind {self.courses.behind(course.command)}"
        if course:
            since = self.since(course.enabled or course.entered)
            return STARTED, f"started, at unit {course.command.unit}" + ("" if since is None else f" for {since * 1000:.3f} ms")
        if one.is_outside:
            return OUTSIDE, "passed over: its CmdSN is above MaxCmdSN"
        runs = session.missing(session.lifted(number))
        missing = missing_words(runs) if runs else "lower CmdSNs are missing"
        return (WAITS, f"waits for its turn: {missing}") if one.arrival in session.waiting else (HELD, f"held: {missing}")


def taken_out(step, kind):
    """The arrivals of the requests that a step takes out."""
    if kind == "empty":
        return [step.arrival]
    return [step.command.arrival] if kind == "leave" and not step.command.completed else step.dropped


def by_request(answers):
    """The frames of the answers to requests, by connection and tag."""
    found = {}
    for answer in answers:
        if answer.kind in ANSWERS:
            found.setdefault((answer.cid, answer.tag), []).append(answer.frame)
    return found


def listed(words):
    """The first ones, and how many more there are."""
    return words if len(words) <= MOST_LISTED else [*words[:MOST_LISTED], f"{len(words) - MOST_LISTED} more"]


def unanswered(events, answers=None, end=None):
    """What has no answer at the end of events with their places."""
    first, events = first_of(events)
    courses = Courses(first)
    outstanding = Outstanding(courses, answers, end)
    for event, place in events:
        courses.follow(event, place)
        outstanding.take(event, place)
    return outstanding


def lines(outstanding):
    """What has no answer, in words."""
    rows = outstanding.all()
    if rows:
        yield f"without an answer at the end: {len(rows)}"
    for row in rows[:MOST_TOLD]:
        frame = "" if row.frame is None else f", frame {row.frame}"
        yield f"  {row.age:>13}  {row.words}{frame}; {row.where}"
    if len(rows) > MOST_TOLD:
        yield f"  and {len(rows) - MOST_TOLD} more"
