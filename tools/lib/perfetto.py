"""A report as a trace for Perfetto or Chrome's trace viewer: the JSON form of trace events."""

import json

from .places import first_of
from .waits import Courses

HELD, BARRED, RUNNING = "held for lower CmdSNs", "behind others of its task set", "may run"


def trace(events, file):
    """Writes the events of a report, each with its place, as a trace. What has no time stands a microsecond behind the event before it."""
    first, events = first_of(events)
    writer = Writer(file, Courses(first))
    for event, place in events:
        writer.take(event, place)
    writer.finish()


class Clocked:
    """A place with the microseconds at which it is drawn."""

    def __init__(self, microseconds, frame):
        self.microseconds, self.frame = microseconds, frame


class Writer:
    """Writes a trace: a process for each unit and for the requests, a thread for each connection."""

    def __init__(self, file, courses):
        self.file, self.courses = file, courses
        self.now, self.count, self.named = 0, 0, set()
        file.write('{"displayTimeUnit":"ms","traceEvents":[')

    def put(self, **fields):
        self.file.write(("," if self.count else "") + "\n" + json.dumps(fields, separators=(",", ":")))
        self.count += 1

    def name(self, process, words):
        """Says once what a process is called."""
        if process not in self.named:
            self.named.add(process)
            self.put(ph="M", name="process_name", pid=process, args={"name": words})

    def take(self, event, place):
        self.now = round(place.seconds * 1_000_000) if place else self.now + 1
        at = Clocked(self.now, place.frame if place else None)
        self.courses.follow(event, at)
        self.name(0, "requests and replies")
        if event.is_arrival:
            self.put(ph="i", s="t", name=event.request.name, pid=0, tid=event.cid, ts=self.now, args={
                "tag": f"{event.request.tag:x}", "CmdSN": f"{event.request.cmd_sn:x}", "frame": at.frame})
        for effect in event.effects:
            if effect.kind == "send":
                self.put(ph="i", s="t", name=f"{effect.reply.name} {effect.reply.outcome}".rstrip(), pid=0, tid=effect.cid, ts=self.now,
                         args={"tag": f"{effect.reply.tag:x}", "frame": at.frame})
        for course in self.courses.left:
            self.end(course, course.command.end)

    def end(self, course, outcome):
        """A command is over: from its arrival on, with what it waited for."""
        command, request = course.command, course.command.arrival.request
        process = command.unit + 1
        self.name(process, f"unit {command.unit}")
        common = {"cat": "command", "id": command.ticket, "pid": process, "tid": 0}
        title = f"{request.name} tag {request.tag:x}"
        self.put(ph="b", name=title, ts=course.arrived.microseconds, **common, args={
            "ticket": command.ticket, "attribute": command.attribute, "frame": course.arrived.frame, "behind": course.behind,
            "outcome": outcome})
        entered, enabled = course.entered, course.enabled
        for words, begin, end in ((HELD, course.arrived, entered), (BARRED, entered, enabled), (RUNNING, enabled, None)):
            end = end.microseconds if end else self.now
            if begin and end > begin.microseconds:
                self.put(ph="b", name=words, ts=begin.microseconds, **common)
                self.put(ph="e", name=words, ts=end, **common)
        self.put(ph="e", name=title, ts=max(self.now, course.arrived.microseconds), **common)

    def finish(self):
        """Ends the trace. What is live still ends with it."""
        for course in self.courses.live.values():
            self.end(course, "live still")
        self.file.write("\n]}\n")
