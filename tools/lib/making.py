"""Writes what tools/capture makes of a session: its recording, and what its target answered."""

import argparse
import os

from .answers import HEAD, target_lines
from .captures import BadCapture
from .findings import compared, findings
from .settling import LONGEST_LINE, advertised_window, record


def write(path, lines):
    """Writes the lines to a file, whole or not at all. No line is longer than the program takes."""
    unfinished = f"{path}.unfinished"
    try:
        with open(unfinished, "w", encoding="utf-8") as file:
            file.writelines(line.encode()[:LONGEST_LINE].decode("utf-8", "ignore") + "\n" for line in lines)
        os.replace(unfinished, path)
    except OSError as fault:
        raise BadCapture(f"{path}: {fault.strerror}") from None


def comments(session, recording, capture):
    """Gives the first lines of a recording. The options come first, where other tools look for them."""
    yield f"# iscsi-replay: {' '.join(recording.options.words)}"
    yield f"# from {os.path.basename(capture)}: ISID {session.isid.hex()}, TSIH {session.tsih:04x}"
    yield from (f"# {side} {name}" for side, name in zip(("initiator", "target"), session.names))
    yield f"# the target's widest window: {advertised_window(session)}"
    yield f"# the capture ends at {session.capture_end:.6f} s"
    yield from (f"# {note}" for note in session.notes)


class Made:
    """A session of which the files are written, and what was found of it."""

    def __init__(self, session, capture, base):
        self.session, self.base = session, base
        self.recording = record(session)
        # Not before, so that no empty folder is left where the first session has no recording.
        os.makedirs(os.path.dirname(base), exist_ok=True)
        self.answers = target_lines(session)
        self.lines = [*comments(session, self.recording, capture), *self.recording.lines]
        write(f"{base}.recording", self.lines)
        write(f"{base}.target", [HEAD.rstrip("\n"), *self.answers])
        self.comparison = compared(self.recording, self.answers)

    @property
    def parts(self):
        """What was found of the session, in words: what it is, and what is sick."""
        session, recording = self.session, self.recording
        requests = sum(line.startswith("C ") for line in recording.lines)
        words = [f"{len(session.connections)} connection(s), {requests} requests, {recording.completions} completions"]
        if recording.without_ticket:
            words.append(f"{recording.without_ticket} answered that the program gives no ticket")
        if recording.outside:
            words.append(f"{recording.outside} requests outside every window")
        if recording.options.window != advertised_window(session):
            words.append(f"window {recording.options.window} (the target's widest is {advertised_window(session)})")
        if session.is_discovery:
            words.append("a discovery session")
        return [*words, *session.notes, *findings(session, self.comparison)]

    @property
    def summary(self):
        return f"{self.base}.recording: {'; '.join(self.parts)}"


def where(port):
    return f" on port {port}" if port else ""


def all_made(sessions, unread, capture, folder, port):
    """Makes the files of each session, and gives them. `BadCapture` where there is none."""
    if not sessions:
        found = "; ".join(left_out(unread)) or "no TCP connection"
        raise BadCapture(f"{capture}: no session{where(port)}: {found}")
    name = os.path.splitext(os.path.basename(capture))[0]
    for place, session in enumerate(sessions, 1):
        yield Made(session, capture, os.path.join(folder, f"{name}-{place}"))


def left_out(unread):
    """The connections of which no session was made, by why."""
    return [f"{count} x {why}" for why, count in sorted(unread.items())]


def port_number(text):
    """A port of TCP."""
    if not text.isascii() or not text.isdecimal() or not 1 <= int(text) <= 65535:
        raise argparse.ArgumentTypeError("a port is a number from 1 to 65535")
    return int(text)
