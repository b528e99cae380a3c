"""What a capture and a target's trace have: requests and replies with their moments, and what workers took."""

import os
import re
import sys
from dataclasses import dataclass

TOP = os.path.abspath(os.path.join(os.path.dirname(os.path.realpath(__file__)), "..", "..", ".."))
sys.path.insert(0, os.path.join(TOP, "tools"))
from lib.captures import BadCapture, first_moment, sessions_of  # noqa: E402

LINE = re.compile(r"(\d+) ([0-9a-f]{8}) ([0-9a-f]{8}) (\d+) (\d+) (\d+) (completed|stopped) ([0-9a-f]{4})")


class BadTrace(Exception):
    """A trace that can't be read, in one line."""


@dataclass(frozen=True)
class Work:
    """A line of the trace: a command that a worker took. `began` and `ended` are nanoseconds since 1970, as the moments
    of a capture are."""
    line: int
    ticket: int
    tag: int
    cmd_sn: int
    unit: int
    began: int
    ended: int
    is_completed: bool
    tsih: int


def read_trace(text):
    """The lines of a trace."""
    works = []
    for place, line in enumerate(text.splitlines(), 1):
        if line.startswith("#"):
            continue
        found = LINE.fullmatch(line)
        if not found:
            raise BadTrace(f"line {place} of the trace: not a line of a trace")
        ticket, tag, cmd_sn, unit, began, ended, outcome, tsih = found.groups()
        works.append(Work(place, int(ticket), int(tag, 16), int(cmd_sn, 16), int(unit), int(began), int(ended),
                          outcome == "completed", int(tsih, 16)))
    return works


def read_capture(path, port):
    """The sessions of a capture, and the moment from which their items count. `BadCapture` where it isn't whole."""
    sessions, unread = sessions_of(path, port)
    for session in sessions:
        if session.notes:
            raise BadCapture(f"{path}: {session.notes[0]}")
    if unread:
        raise BadCapture(f"{path}: {'; '.join(unread)}")
    return sessions, first_moment(path) if sessions else 0
