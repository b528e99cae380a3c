"""What a timeline shows of a report: a column for each event, and bars over columns for CmdSNs and commands."""

import re
from dataclasses import dataclass, field, replace
from heapq import heappop, heappush

from . import pdu
from .places import first_of
from .state import Session
from .words import shown, tell

SHORT = {
    "TEST UNIT READY": "TUR", "REQUEST SENSE": "SENSE", "FORMAT UNIT": "FORMAT", "MODE SELECT(6)": "MODE SEL",
    "RESERVE(6)": "RESERVE", "RELEASE(6)": "RELEASE", "MODE SENSE(6)": "MODE SNS", "START STOP UNIT": "START ST",
    "SEND DIAGNOSTIC": "DIAG", "PREVENT ALLOW MEDIUM REMOVAL": "PREVENT", "READ CAPACITY(10)": "CAPACITY",
    "WRITE AND VERIFY(10)": "WRT+VER", "VERIFY(10)": "VERIFY", "SYNCHRONIZE CACHE(10)": "SYNC",
    "WRITE SAME(10)": "WR SAME", "LOG SENSE": "LOG SNS",
    "MODE SELECT(10)": "MODE SEL", "MODE SENSE(10)": "MODE SNS", "PERSISTENT RESERVE IN": "PR IN",
    "PERSISTENT RESERVE OUT": "PR OUT", "COMPARE AND WRITE": "CMP+WRT", "VERIFY(16)": "VERIFY",
    "SYNCHRONIZE CACHE(16)": "SYNC", "WRITE SAME(16)": "WR SAME", "SERVICE ACTION IN(16)": "SVC IN",
    "REPORT LUNS": "REP LUNS", "MAINTENANCE IN": "MAINT IN",
    "MAINTENANCE OUT": "MAINT OUT", "ABORT TASK": "ABORT", "ABORT TASK SET": "ABORT SET", "CLEAR TASK SET": "CLEAR SET",
    "LOGICAL UNIT RESET": "LU RESET", "TARGET WARM RESET": "WARM RST", "TARGET COLD RESET": "COLD RST",
    "TASK REASSIGN": "REASSIGN", "QUERY TASK": "QUERY", "QUERY TASK SET": "QUERY SET", "I_T NEXUS RESET": "IT RESET",
    "QUERY ASYNCHRONOUS EVENT": "QUERY EV",
    "Text Request": "Text", "SCSI Data-Out": "Data-Out", "SNACK Request": "SNACK", "Login Request": "Login",
    "CHECK CONDITION": "CHECK", "CONDITION MET": "MET", "RESERVATION CONFLICT": "RES CONF", "TASK SET FULL": "FULL",
    "TASK ABORTED": "ABORTED", "ACA ACTIVE": "ACA",
}
RESPONSES = {0: "complete", 1: "no task", 2: "no LUN", 3: "allegiant", 4: "no reass.", 5: "unsupp.", 6: "denied",
             7: "succeeded", 255: "rejected"}
LOGOUT_RESPONSES = {0: "closed", 1: "no CID", 2: "no recov.", 3: "failed"}
LONGEST = 9
MOST_ROWS = 2048
# A pause of so many seconds between two events is shown.
LONG_PAUSE = 0.05


def time_words(seconds):
    """A time in seconds, to the microsecond, as it fits into a column."""
    if seconds is None:
        return None
    return f"{seconds:.6f} s" if seconds >= 1 else f"{seconds * 1000:.3f} ms"


def short(name):
    """A name that fits into a column."""
    name = SHORT.get(name, name)
    return name if len(name) <= LONGEST else name[:LONGEST - 1] + "…"


@dataclass(frozen=True)
class Request:
    """What arrived: its kind (`command`, `function`, `other`), whether it was ignored, and three short lines.

    A completion has no CID.
    """
    cid: int
    kind: str
    ignored: bool
    name: str
    number: str
    note: str


@dataclass(frozen=True)
class Answer:
    """A reply of the program's, or of the target's: where it goes, in short, whether it refuses, the tag that it answers, the event of
    that request, and where it stands in the capture. `differs`: the other side has it otherwise, or not."""
    cid: int
    text: str
    good: bool
    tag: str = ""
    request: int = None
    frame: int = None
    differs: bool = False


@dataclass
class Column:
    """An event. `expected` and `greatest` are ExpCmdSN and MaxCmdSN after it, as far as they were told; `moved`: it came before the
    event in front of it; `pause`: how long nothing came before it, in seconds, where that is long."""
    event: int
    seconds: float
    frame: int
    moved: bool
    pause: float
    made_up: bool
    request: Request
    answers: list
    theirs: list
    expected: int
    greatest: int
    lines: list
    words: list
    differences: list

    @property
    def time(self):
        return time_words(self.seconds)


@dataclass
class Bar:
    """A CmdSN that is `live`, `held`, `void` or `empty`, from one event to another one, both counted."""
    number: int
    kind: str
    start: int
    end: int = None


@dataclass
class Task:
    """A command in its task set, with a lane that no other one of its unit has at that time."""
    unit: int
    lane: int
    ticket: int
    attribute: str
    tag: int
    start: int
    enabled: int = None
    end: int = None
    outcome: str = ""
    completed: bool = False

    @property
    def label(self):
        return task_label(self.ticket, self.attribute, self.tag)


def task_label(ticket, attribute, tag):
    """A command in its task set, as `#3 ordered, tag a1`."""
    return f"#{ticket} {attribute}, " + ("no tag" if tag == pdu.NO_TAG else f"tag {tag:x}")


@dataclass
class Picture:
    columns: list = field(default_factory=list)
    bars: list = field(default_factory=list)
    tasks: list = field(default_factory=list)
    cids: list = field(default_factory=list)


def connections(lines):
    """The CIDs of the `conn` lines, which stand in front of all events."""
    for text in lines:
        if re.fullmatch(r"conn [0-9]{1,5} [0-9a-fA-F]{8}\n?", text):
            yield int(text.split()[1])
        elif text[:2] in ("> ", "C ", "D "):
            return


def request_of(event):
    """What a column shows of an arrival."""
    request = event.request
    kind = {pdu.SCSI_COMMAND: "command", pdu.TASK_MANAGEMENT: "function"}.get(request.opcode, "other")
    why = next((effect.why for effect in event.effects if effect.kind == "ignore"), "")
    waits = any(effect.kind == "wait" for effect in event.effects)
    note = why or ("waits" if waits else "" if event.effects else "held")
    number = ("imm " if request.immediate else "SN ") + shown(request.cmd_sn)[-5:]
    if request.opcode in (pdu.DATA_OUT, pdu.SNACK):
        number = ""
    return Request(event.cid, kind, bool(why), short(request.name), number, note)


def completion_of(event):
    """What a column shows of a completion, in the row of the units."""
    ignored = any(effect.kind == "ignore" for effect in event.effects)
    status = short(pdu.STATUSES.get(event.status, f"status {event.status:02x}"))
    return Request(None, "other", ignored, f"#{event.ticket % 10**7}", status, "stale" if ignored else "")


def answer_words(opcode, outcome):
    """A reply in short, and whether it refuses nothing. `outcome`: its status, response or reason."""
    if opcode in (pdu.SCSI_RESPONSE, pdu.DATA_IN):
        return short(pdu.STATUSES.get(outcome, f"status {outcome:02x}")), outcome == 0
    if opcode == pdu.NOP_IN:
        return "NOP-In", True
    if opcode == pdu.REJECT:
        return f"Reject {outcome:02x}", False
    names = RESPONSES if opcode == pdu.TASK_MANAGEMENT_RESPONSE else LOGOUT_RESPONSES
    return names.get(outcome, f"resp. {outcome}"), outcome in (0, 7)


def tag_of(reply):
    """The tag of the request that a reply answers."""
    return pdu.number(reply.tail, 16, 19) if reply.opcode == pdu.REJECT and len(reply.tail) >= 20 else reply.tag


class Painter:
    """Follows a session, and gives its columns to a sink, and its bars and tasks as they end. `beside`: what a real target answered."""

    def __init__(self, first, sink, beside=None):
        self.session, self.sink, self.beside = Session(first), sink, beside
        self.numbers, self.tasks, self.requests = {}, {}, {}
        self.live, self.passing = set(), []
        self.free_lanes, self.lanes = {}, {}
        self.latest = self.before = None

    def take(self, event, place, lines):
        head, words, steps = tell(self.session, event)
        now = self.session.events
        for step in steps:
            self.follow_task(step, now)
        self.follow_numbers(now, steps)
        request = request_of(event) if event.is_arrival else completion_of(event)
        if event.is_arrival and event.request.opcode not in (pdu.DATA_OUT, pdu.SNACK):
            self.requests[event.cid, event.request.tag] = now
        answers = [self.answer_of(effect) for effect in event.effects if effect.kind == "send"]
        theirs, differences = [], []
        if self.beside:
            answers = [replace(one, differs=self.beside.is_alone(now, one)) for one in answers]
            theirs = [replace(one, request=self.requests.get((one.cid, int(one.tag, 16)))) for one in self.beside.answers.get(now, ())]
            differences = self.beside.differences.get(now, [])
        self.sink.column(Column(now, *self.when(place), request, answers, theirs, self.session.expected, self.session.greatest, lines,
                                [head, *words], differences), event)

    def when(self, place):
        """The time and the frame of an event, whether it was moved, how long nothing came before it, and whether it is made up."""
        if not place:
            return None, None, False, None, False
        seconds, latest = place.seconds, self.latest
        self.latest = seconds if latest is None else max(latest, seconds)
        pause = seconds - latest if latest is not None and seconds - latest >= LONG_PAUSE else None
        return seconds, place.frame, latest is not None and seconds < latest, pause, place.is_made_up

    def answer_of(self, effect):
        """What a column shows of a reply."""
        reply = effect.reply
        text, good = answer_words(reply.opcode, reply.status if reply.ends_command else reply.response)
        tag = tag_of(reply)
        return Answer(effect.cid, text, good, f"{tag:x}", self.requests.get((effect.cid, tag)))

    def follow_task(self, step, now):
        kind = step.effect.kind if step.effect else None
        if kind == "enter":
            self.enter(step.command, now)
        elif kind == "enable":
            self.tasks[step.command.ticket].enabled = now
        elif kind == "leave":
            self.leave(step.command, now)

    def enter(self, command, now):
        free = self.free_lanes.setdefault(command.unit, [])
        if not free:
            free.append(self.lanes.get(command.unit, 0))
            self.lanes[command.unit] = free[0] + 1
        lane = heappop(free)
        self.tasks[command.ticket] = Task(command.unit, lane, command.ticket, command.attribute, command.arrival.request.tag, now)

    def leave(self, command, now):
        task = self.tasks.pop(command.ticket)
        task.end, task.completed = now, command.completed
        task.outcome = short(command.end) if command.completed else "LOGOUT" if command.end == "Logout" else "ABORTED"
        heappush(self.free_lanes[command.unit], task.lane)
        self.sink.task(task)

    def touched(self, steps):
        """The numbers of which these steps may have changed what they are. Notes those of live commands."""
        for step in steps:
            kind = step.effect.kind if step.effect else "hold"
            if kind == "hold":
                yield self.session.lifted(step.arrival.request.cmd_sn)
            elif kind in ("deliver", "void", "empty"):
                yield self.session.lifted(step.effect.cmd_sn)
            elif kind in ("enter", "leave") and not step.command.arrival.request.immediate:
                (self.live.add if kind == "enter" else self.live.discard)(step.command.cmd_sn)
                yield step.command.cmd_sn

    def follow_numbers(self, now, steps):
        """Ends the bars of numbers that changed, and begins new ones."""
        session = self.session
        touched = {*self.touched(steps), *self.passing}
        for number in sorted(touched):
            kind = "live" if number in self.live else session.gone.get(number) or ("held" if number in session.held else None)
            if kind != self.kind_of(number):
                self.change(number, kind, now)
        self.passing = [number for number in touched if number in session.gone]
        # A number that ExpCmdSN passed at once is seen in this column alone.
        for step in steps:
            if step.effect and step.effect.kind in ("void", "empty"):
                number = session.lifted(step.effect.cmd_sn)
                if number not in session.gone:
                    self.sink.bar(Bar(number, step.effect.kind, now, now))

    def kind_of(self, number):
        return self.numbers[number].kind if number in self.numbers else None

    def change(self, number, kind, now):
        """A number becomes something else."""
        bar = self.numbers.pop(number, None)
        if bar:
            bar.end = now - 1
            self.sink.bar(bar)
        if kind:
            self.numbers[number] = Bar(number, kind, now)

    def finish(self):
        """Ends what is open at the last event."""
        for bar in self.numbers.values():
            bar.end = self.session.events
            self.sink.bar(bar)
        for task in self.tasks.values():
            self.sink.task(task)


class Collected:
    """A sink that keeps all of it, in order."""

    def __init__(self):
        self.picture = Picture()

    def column(self, column, event):
        self.picture.columns.append(column)

    def bar(self, bar):
        self.picture.bars.append(bar)

    def task(self, task):
        self.picture.tasks.append(task)

    def finish(self, cids):
        """The picture. Connections that no line names come behind those that one does."""
        picture = self.picture
        seen = {column.request.cid for column in picture.columns}
        picture.cids = cids + sorted(seen.difference(cids, {None})) + [None] * (None in seen)
        picture.bars.sort(key=lambda bar: (bar.start, bar.number))
        picture.tasks.sort(key=lambda task: task.ticket)
        return picture


def paint(events, sink, beside=None, also=lambda first: None):
    """Gives all that a sink is to have of the events of a report, each with its place or None, and its lines. `also` makes, of the first
    CmdSN, something else that takes the events."""
    first, events = first_of(events)
    painter, other = Painter(first, sink, beside), also(first)
    for event, place in events:
        painter.take(event, place, event.lines)
        if other:
            other.take(event, place)
    painter.finish()
    return other


def number_range(picture, start, end):
    """The lowest and the highest number to be drawn for these events, or None where no number is known."""
    columns = picture.columns[start - 1:end]
    numbers = [column.expected for column in columns if column.expected is not None]
    numbers += [bar.number for bar in picture.bars if bar.start <= end and bar.end >= start]
    if not numbers:
        return None
    lowest, highest = min(numbers), max(numbers)
    greatest = max((column.greatest for column in columns if column.greatest is not None), default=highest)
    # One row above those that are used shows that there is more.
    highest = max(highest, min(greatest, highest + 1))
    return lowest, min(highest, lowest + MOST_ROWS - 1)
