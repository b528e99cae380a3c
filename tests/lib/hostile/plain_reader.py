"""A plain reader of recordings, by docs/FORMATS.md sections 4, 7 and 8 alone, and runs held against it."""

import re

from hostile import common

CONN = re.compile(rb"conn (0|[1-9][0-9]*) [0-9A-Fa-f]{8}")
ARRIVAL = re.compile(rb"(?:> )?C (0|[1-9][0-9]*) ([0-9A-Fa-f]{96})")
COMPLETION = re.compile(rb"(?:> )?D (0|[1-9][0-9]*) ([0-9A-Fa-f]{2})")

LINE_BYTES = 256
LINES = 1048576
CONNECTIONS = 64
GREATEST_CID = 65535
GREATEST_TICKET = 18446744073709551615


def read(data):
    """What some bytes are: the line of their first fault (bytes), or the events of a recording (a list of lines)."""
    lines = data.split(b"\n")
    if not lines[-1]:
        lines.pop()
    connections, events = [], []
    for number, line in enumerate(lines, 1):
        if number > LINES:
            return common.TOO_MANY_LINES
        if len(line) > LINE_BYTES:
            return common.too_long(number)
        if line == b"" or line.startswith((b"#", b" ")):
            continue
        conn, arrival, completion = CONN.fullmatch(line), ARRIVAL.fullmatch(line), COMPLETION.fullmatch(line)
        if conn and may_connect(int(conn[1]), connections, events):
            connections.append(int(conn[1]))
        elif arrival and int(arrival[1]) in connections:
            events.append(b"C %s %s" % (arrival[1], arrival[2].lower()))
        elif completion and int(completion[1]) <= GREATEST_TICKET:
            events.append(b"D %s %s" % (completion[1], completion[2].lower()))
        else:
            return common.bad_line(number)
    return events if connections else common.NO_CONNECTION


def may_connect(cid, connections, events):
    """Whether a `conn` line may name this CID after these connections and events."""
    return cid <= GREATEST_CID and cid not in connections and len(connections) < CONNECTIONS and not events


def events_of(report):
    """The events of a report, without the `> ` before them."""
    return [line[2:] for line in report.split(b"\n") if line.startswith(b"> ")]


def wrong(ran, data, part=list):
    """What is wrong with a run on some bytes: it must end with their fault, or report their events.

    `part` says what of the events must be the same; without threads all is.
    """
    answer = read(data)
    if isinstance(answer, bytes):
        return common.compare(ran, 1, b"", answer)
    if part(events_of(ran.out)) != part(answer):
        return f"status {ran.status}, and not the {len(answer)} events of the recording"
    return common.compare(ran, 0, ran.out, b"")
