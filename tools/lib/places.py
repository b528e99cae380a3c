"""Where the events of a recording stand in the capture that it was made of: by the comment before each."""

import re
from dataclasses import dataclass
from itertools import chain

from . import report
from .files import Fault
from .state import read_first

PLACE = re.compile(r"# time ([0-9]{1,12}(?:\.[0-9]{1,12})?)(?: frame ([0-9]{1,12}))?(?:: (.*))?\s*$")
MADE_UP = "made up, since the capture lacks it: "
OUTCOME = re.compile(r"(.*) for tag [0-9a-f]{8}(?:, which the program gave no ticket)?$")


@dataclass(frozen=True)
class Place:
    """The time of an event in seconds, as text, its frame, and what the comment says of it."""
    time: str
    frame: int = None
    words: str = ""

    @property
    def seconds(self):
        return float(self.time)

    @property
    def is_made_up(self):
        return self.words.startswith(MADE_UP)

    @property
    def outcome(self):
        """What the target answered, of a completion, as `CHECK CONDITION (UNIT ATTENTION, 29/00)`; or None."""
        found = OUTCOME.match(self.words.removeprefix(MADE_UP))
        return found[1] if found else None


def place_of(line):
    """The place that a comment tells, or None."""
    found = PLACE.match(line) if line.startswith("# time ") else None
    return Place(found[1], int(found[2]) if found[2] else None, found[3] or "") if found else None


def events_with_places(lines):
    """Gives the event lines of a recording or a report, as a recording has them, each with its place or None."""
    place = None
    for line in lines:
        place = place_of(line) or place
        event = line.rstrip("\r\n").removeprefix("> ")
        if event[:2] in ("C ", "D "):
            yield event[:2] + event[2:].lower(), place
            place = None


def with_places(lines, recording, name, keeps_lines=False):
    """Gives the events of a report, each with its place, or None where none is told: by the lines of its recording, or by its own.
    `Fault` where the recording is that of another report. The lines are read as the events are taken."""
    places = []
    events = report.read(noting(lines, places) if recording is None else lines, keeps_lines)
    recorded = None if recording is None else events_with_places(recording)
    for event in events:
        if recorded is None:
            yield event, places.pop(0)
            continue
        text, place = next(recorded, (None, None))
        if text != event.text:
            raise Fault(f"{name}: not the recording of this report")
        yield event, place
    if recorded and next(recorded, None):
        raise Fault(f"{name}: not the recording of this report")


def noting(lines, places):
    """Gives the lines of a report, and notes the place of each event by the comment before it."""
    place = None
    for line in lines:
        place = place_of(line) or place
        if line.startswith("> "):
            places.append(place)
            place = None
        yield line


def first_of(events):
    """The first CmdSN of the session of events with their places, or None where nothing tells it, and all of these again."""
    ahead = []

    def noted():
        for event, place in events:
            ahead.append((event, place))
            yield event

    first, _ = read_first(noted())
    return first, chain(ahead, events)
