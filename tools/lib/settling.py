"""Makes a recording of a session: its options, its events in their order, and the tickets of its completions.

The rules of the session are the program's. It says by its reports which ticket a command got, and which numbers its
window let in; a recording is replayed until nothing of it changes. It begins with a guess, which mostly is right.
"""

import os
import subprocess
from collections import deque
from dataclasses import dataclass, replace
from functools import cache

from . import report
from .pdu import DATA_OUT, NO_TAG, SCSI_COMMAND, SNACK, TASK_MANAGEMENT
from .tshark import BadCapture

TOP = os.path.abspath(os.path.join(os.path.dirname(os.path.realpath(__file__)), "..", ".."))
WIDEST, MOST_UNITS, DEEPEST, MOST_CONNECTIONS = 1024, 256, 1024, 64
MOST_LINES, MOST_HEAD_LINES, LONGEST_LINE = 1_048_576, 16, 256
MOST_PASSES = 1000
NO_SUCH_UNIT = bytes((0x05, 0x25, 0x00))


class BadReplay(Exception):
    """A recording that the program refuses, in one line."""


@dataclass(frozen=True)
class Options:
    """The options with which a recording is replayed."""
    first: int
    window: int
    units: int
    level: int

    @property
    def words(self):
        return ["--first", f"{self.first:08x}", "--window", str(self.window), "--units", str(self.units),
                "--depth", str(DEEPEST), "--level", str(self.level)]


@dataclass(frozen=True)
class Recording:
    """A recording that stands still: its text, its options, and what came of it: the report, and its events with their lines."""
    options: Options
    lines: list
    completions: int
    without_ticket: int
    outside: int
    passes: int
    report: str
    events: list


def output_of(words, text=""):
    """What a program prints. `BadReplay` with its last words where it fails."""
    try:
        done = subprocess.run(words, input=text, capture_output=True, text=True)
    except OSError as fault:
        raise BadReplay(f"{words[0]}: {fault.strerror}") from None
    if done.returncode:
        raise BadReplay((done.stderr.strip().splitlines() or ["iscsi-replay: it ended without a word"])[-1])
    return done.stdout


@cache
def built_program(script):
    """Where the built program stands. The script looks each time whether it is that of the sources, so it is asked once a run."""
    return output_of([script, "--built", "--where"]).removesuffix("\n")


def run_program(recording, words):
    """The report of a recording, as text, by the built program alone: without it each replay would take a minute."""
    return output_of([built_program(os.path.join(TOP, "iscsi-replay")), *words], recording)


def arrival_limit(queue, reply):
    """How many of these requests the target can have taken before this reply: those before the number that it still
    expects. What it answers it took."""
    waiting = (place for place, item in enumerate(queue)
               if item.request.is_numbered and item.request.cmd_sn == reply.exp_cmd_sn)
    return next(waiting, len(queue))


def answered_place(queue, item):
    """How many of these requests were taken where this reply answers one of them."""
    if item.tag == NO_TAG:
        return 0
    places = [place for place, waiting in enumerate(queue, 1)
              if waiting.tag == item.tag and waiting.request.opcode not in (DATA_OUT, SNACK)]
    return places[0] if places else 0


def in_taken_order(items):
    """Gives the items in the order in which the target took and sent them.

    A request stands where the capture has it, but behind the replies that by their ExpCmdSN hadn't seen it yet. An immediate one
    that is made up stands where it was put.
    """
    queues = {}
    for item in items:
        if item.made_up and item.request and item.request.immediate:
            yield item
            continue
        if item.request:
            queues.setdefault(item.cid, deque()).append(item)
            continue
        taken = []
        for cid, queue in queues.items():
            count = arrival_limit(queue, item.reply)
            if cid == item.cid:
                count = max(count, answered_place(queue, item))
            taken += (queue.popleft() for _ in range(count))
        yield from sorted(taken, key=lambda request: request.frame)
        yield item
    yield from sorted((item for queue in queues.values() for item in queue), key=lambda request: request.frame)


def units_of(items):
    """How many units the session has: up to the greatest that a request names and the target's sense doesn't refuse."""
    named, units = {}, [0]
    for item in items:
        if item.request and item.request.opcode in (SCSI_COMMAND, TASK_MANAGEMENT) and item.request.unit is not None:
            named[item.cid, item.tag] = item.request.unit
        elif item.reply and item.reply.ends_command and (item.cid, item.tag) in named:
            sense = item.reply.tail[2:]
            if sense[2:3] + sense[12:14] != NO_SUCH_UNIT:
                units.append(named[item.cid, item.tag])
    return min(MOST_UNITS, max(units) + 1)


def place_of(item):
    """The comment that stands before an event."""
    what = f"{item.request.name}, tag" if item.request else f"{item.reply.outcome} for tag"
    made_up = "made up, since the capture lacks it: " if item.made_up else ""
    return f"# time {item.time:.6f} frame {item.frame}: {made_up}{what} {item.tag:08x}"


def event_lines(steps, tickets):
    """Gives the lines of the events. A completion whose command has no ticket is a comment."""
    for place, item in enumerate(steps):
        if item.request:
            yield place_of(item)
            yield f"C {item.cid} {item.request.header.hex()}"
        elif item.reply.ends_command:
            yield place_of(item) + ("" if place in tickets else ", which the program gave no ticket")
            if place in tickets:
                yield f"D {tickets[place]} {item.reply.status:02x}"


def note_entering(entered, event):
    """Notes the tickets that commands get in this event, by connection, CmdSN and tag."""
    command = None
    for effect in event.effects:
        if effect.kind in ("deliver", "immediate"):
            command = effect.cid, effect.cmd_sn, effect.tag
        elif effect.kind == "enter":
            entered.setdefault(command, []).append(effect.ticket)


def tickets_of(steps, tickets, events):
    """The tickets of the completions, by their place, as the report has them."""
    found, entered, last = {}, {}, {}
    for place, item in enumerate(steps):
        if item.request or place in tickets:
            note_entering(entered, next(events))
        if item.request and item.request.opcode == SCSI_COMMAND:
            last[item.cid, item.tag] = item.cid, item.request.cmd_sn, item.tag
        elif item.reply and item.reply.ends_command:
            waiting = entered.get(last.get((item.cid, item.tag)))
            if waiting:
                found[place] = waiting.pop()
    return found


def guess(steps, first):
    """The tickets of the completions, by their place, where every command enters in the order of CmdSNs."""
    tickets, waiting, last = {}, {}, {}
    expected, entered = first, 0
    for place, item in enumerate(steps):
        request = item.request
        if request and request.is_numbered:
            waiting.setdefault(request.cmd_sn, item)
            while expected in waiting:
                turn = waiting.pop(expected)
                expected = (expected + 1) % 2**32
                if turn.request.opcode == SCSI_COMMAND:
                    entered += 1
                    last[turn.cid, turn.tag] = entered
        elif request and request.opcode == SCSI_COMMAND:
            entered += 1
            last[item.cid, item.tag] = entered
        elif item.reply and item.reply.ends_command and (item.cid, item.tag) in last:
            tickets[place] = last.pop((item.cid, item.tag))
    return tickets


def shorten(session):
    """Cuts a session whose events are more than a recording has lines for."""
    room = (MOST_LINES - MOST_HEAD_LINES - len(session.connections)) // 2
    events = [item.frame for item in session.items if item.request or item.reply.ends_command]
    if len(events) > room:
        session.cut(events[room] - 1, f"a recording has {MOST_LINES} lines at the most")


def settle(session, steps, options):
    """The recording of a session with these options, whose tickets are those that the program gives."""
    begin = [f"conn {cid} {stat_sn:08x}" for cid, stat_sn in sorted(session.connections.items())]
    tickets = guess(steps, options.first)
    for passes in range(1, MOST_PASSES):
        lines = begin + list(event_lines(steps, tickets))
        text = run_program("\n".join(lines) + "\n", options.words)
        events = list(report.read(text.splitlines(), keeps_lines=True))
        found = tickets_of(steps, tickets, iter(events))
        if found == tickets:
            answers = sum(1 for item in steps if item.reply and item.reply.ends_command)
            outside = text.count("\n  ignore outside\n")
            return Recording(options, lines, len(found), answers - len(found), outside, passes, text, events)
        tickets = found
    raise BadReplay(f"the tickets don't stand still after {MOST_PASSES} replays")


def advertised_window(session):
    """The widest window that the target told: in its last Login Response or in a reply."""
    told = ((item.reply.max_cmd_sn - item.reply.exp_cmd_sn + 1) % 2**32 for item in session.items if item.reply)
    return max([session.window, *(size for size in told if size < 2**31)])


def record(session):
    """The recording of a session, with the target's widest window, or one that keeps out fewer requests.

    The program gives a command's place back only when the command ends, so a window as wide as the target's can be too
    narrow. It is doubled then, until it keeps out no request that the widest would let in.
    """
    if len(session.connections) > MOST_CONNECTIONS:
        raise BadCapture(f"{len(session.connections)} connections; a recording has {MOST_CONNECTIONS} at the most")
    shorten(session)
    steps = list(in_taken_order(session.items))
    window = min(WIDEST, max(1, advertised_window(session)))
    options = Options(session.first, window, units_of(session.items), session.level)
    recording = settle(session, steps, options)
    if not recording.outside:
        return recording
    widest = settle(session, steps, replace(options, window=WIDEST))
    while recording.outside > widest.outside and options.window < WIDEST:
        options = replace(options, window=min(WIDEST, 2 * options.window))
        recording = settle(session, steps, options)
    return recording
