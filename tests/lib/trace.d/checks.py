"""What must hold of a target, by a capture of its port and the trace of its workers.

Nothing here knows how a session decides. A command is what an initiator sent; when it may start, and what an abort
covers, is said by RFC 7143 (4.2.2.1, 11.5, 11.6) and SAM-5 (the attributes).
"""

import os
import sys
from bisect import bisect_left
from dataclasses import dataclass, field

sys.path.insert(0, os.path.join(os.path.dirname(os.path.realpath(__file__)), "..", "..", "..", "tools"))
from lib.pdu import DATA_IN, NOP_IN, R2T, REJECT, SCSI_COMMAND, SCSI_RESPONSE, TASK_MANAGEMENT, \
    TASK_MANAGEMENT_RESPONSE  # noqa: E402

ABORT_TASK, ABORT_TASK_SET, CLEAR_TASK_SET, LOGICAL_UNIT_RESET = 1, 2, 4, 5
OF_SET = (ABORT_TASK_SET, CLEAR_TASK_SET, LOGICAL_UNIT_RESET)
# A worker that takes a command which was stopped before has a line, too, of no work: it begins and ends in a moment. So
# what began less than so many nanoseconds before isn't judged.
MOMENT = 5_000_000
COMPLETE, NO_TASK, TASK_ABORTED = 0, 1, 0x40
ORDERED, HEAD_OF_QUEUE = 2, 3
NEVER = float("inf")


@dataclass
class Command:
    """A SCSI Command of the capture. `abort` is the reply that says that it was aborted, and `gone` one that an ABORT TASK of it
    found no task, as it had completed or left."""
    item: object
    offset: int
    answers: list = field(default_factory=list)
    works: list = field(default_factory=list)
    abort: object = None
    gone: object = None
    is_aborted_late: bool = False

    @property
    def request(self):
        return self.item.request

    @property
    def name(self):
        return f"{self.request.name} with tag {self.request.tag:08x} and CmdSN {self.request.cmd_sn:08x}"


class Session:
    """The commands of a session, and the faults that its capture shows."""

    def __init__(self, session, begin):
        self.first, self.tsih, self.begin = session.first, session.tsih, begin
        self.commands, self.of_tag, self.functions, self.faults, self.overtaken = [], {}, {}, [], []
        self.arrivals, self.completed, self.tasks, self.limits, self.resets = {}, 0, {}, {}, []
        self.next_stat_sns, self.shown = dict(session.connections), {}
        for item in session.items:
            if item.request:
                self.take_request(item)
            else:
                self.take_reply(item)

    def moment(self, item):
        """When an item was captured, in nanoseconds since 1970."""
        return self.begin + round(item.time * 10**9)

    def offset(self, number):
        """How far a number is from the session's first CmdSN."""
        return (number - self.first + 2**31) % 2**32 - 2**31

    def fault(self, item, words, to=None):
        """Adds a fault, or a line to another list."""
        place = f"frame {item.frame}, session {self.tsih:04x}, connection {item.cid}"
        (self.faults if to is None else to).append(f"{place}: {words}")

    def arrive(self, offset, item):
        """Notes when a number came first."""
        self.arrivals.setdefault(offset, self.moment(item))

    def take_request(self, item):
        request = item.request
        if request.is_numbered:
            self.arrive(self.offset(request.cmd_sn), item)
        if request.opcode == TASK_MANAGEMENT:
            self.functions[request.tag] = item
        if request.opcode != SCSI_COMMAND:
            return
        known = self.of_tag.get(request.tag)
        if known and request.is_numbered and known.request.is_numbered and known.request.cmd_sn == request.cmd_sn:
            return
        command = Command(item, self.offset(request.cmd_sn))
        self.commands.append(command)
        self.of_tag[request.tag] = command
        if abort := self.earlier_abort(command):
            command.abort, command.is_aborted_late = abort, True

    def earlier_abort(self, command):
        """The answer to a function that covers a command which comes after it, or None."""
        if not command.request.is_numbered:
            return None
        limit, reply = self.limits.get(command.request.unit, (0, None))
        task = self.tasks.get((command.request.tag, command.request.cmd_sn))
        return reply if command.offset < limit else task

    def take_reply(self, item):
        reply = item.reply
        self.take_numbers(item)
        if reply.opcode == TASK_MANAGEMENT_RESPONSE:
            self.end_function(item)
        if reply.opcode in (SCSI_RESPONSE, DATA_IN):
            self.take_answer(item)
        if reply.opcode == REJECT:
            self.functions.pop(item.tag, None)

    def take_numbers(self, item):
        """Takes the numbers of a reply: on its connection StatSN counts, and ExpCmdSN and MaxCmdSN never go back."""
        reply, wanted = item.reply, self.next_stat_sns[item.cid]
        counts = reply.ends_command or not (item.is_ping or reply.opcode in (DATA_IN, R2T))
        if reply.stat_sn != wanted and (counts or reply.opcode in (NOP_IN, R2T)):
            self.fault(item, f"{reply.name} for tag {item.tag:08x} has the StatSN {reply.stat_sn:08x}, and not "
                             f"{wanted:08x}")
        if counts:
            self.next_stat_sns[item.cid] = (reply.stat_sn + 1) % 2**32
        numbers = {"ExpCmdSN": self.offset(reply.exp_cmd_sn), "MaxCmdSN": self.offset(reply.max_cmd_sn)}
        for name, before in self.shown.get(item.cid, numbers).items():
            if numbers[name] < before:
                self.fault(item, f"{reply.name} for tag {item.tag:08x} has a {name} that is {before - numbers[name]} "
                                 "lower than what was shown before")
        self.shown[item.cid] = numbers

    def end_function(self, item):
        """Takes a Task Management Function Response."""
        function = self.functions.pop(item.reply.tag, None)
        if not function:
            self.fault(item, f"a function with tag {item.reply.tag:08x} is answered that isn't there, or twice")
        elif item.reply.response == COMPLETE and function.request.function in (ABORT_TASK, *OF_SET):
            self.completed += 1
            for command in self.covered(function):
                command.abort = command.abort or item
            self.note(function, item)
            if function.request.function == LOGICAL_UNIT_RESET:
                self.resets.append((function, item))
        elif item.reply.response == NO_TASK and function.request.function == ABORT_TASK:
            for command in self.received_before(function):
                command.gone = command.gone or item

    def received_before(self, function):
        """The command that an ABORT TASK is about, where its number was certainly received before: else the number would be voided,
        with response 0."""
        request = function.request
        return [command for command in self.covered(function) if command.request.is_numbered
                and command.request.cmd_sn == request.ref_cmd_sn and command.offset < self.offset(request.cmd_sn)]

    def note(self, function, item):
        """Notes a complete function for what comes later."""
        request = function.request
        if request.function == ABORT_TASK:
            self.tasks[request.referenced_tag, request.ref_cmd_sn] = item
            if request.immediate:
                self.void(function)
        elif self.offset(request.cmd_sn) > self.limits.get(request.unit, (0, None))[0]:
            self.limits[request.unit] = self.offset(request.cmd_sn), item

    def void(self, function):
        """The number that an ABORT TASK refers to counts as received, if it didn't come before."""
        offset = self.offset(function.request.ref_cmd_sn)
        if 0 <= offset < self.offset(function.request.cmd_sn):
            self.arrivals[offset] = min(self.arrivals.get(offset, NEVER), self.moment(function))

    def void_unanswered(self):
        """An ABORT TASK without an answer may have voided a number, too: the answer may have been dropped with its connection."""
        for function in self.functions.values():
            if function.request.function == ABORT_TASK and function.request.immediate:
                self.void(function)

    def covered(self, function):
        """The commands that a complete function certainly covers: by its tag, or by lower numbers in its unit."""
        request = function.request
        if request.function == ABORT_TASK:
            command = self.of_tag.get(request.referenced_tag)
            return [command] if command and command.request.unit == request.unit else []
        limit = self.offset(request.cmd_sn)
        return [command for command in self.commands if command.request.unit == request.unit
                and self.is_before(command, function, limit)]

    @staticmethod
    def is_before(command, function, limit):
        """Whether a command comes before a function of a task set. What is immediate is compared on its own connection
        alone, where the order is sure."""
        if command.request.is_numbered:
            return command.offset < limit
        return command.item.cid == function.cid and command.item.frame < function.frame and command.offset <= limit

    def take_answer(self, item):
        """Takes a SCSI Response or a Data-In."""
        command = self.of_tag.get(item.reply.tag)
        if not command:
            self.fault(item, f"{item.reply.name} for tag {item.reply.tag:08x}, which no command has")
            return
        if abort := command.abort or command.gone:
            self.fault(item, f"{item.reply.name} of {command.name} after the abort of it was answered in frame "
                             f"{abort.frame} on connection {abort.cid}",
                       self.overtaken if self.is_overtaken(item, abort) else self.faults)
        if command.answers:
            self.fault(item, f"{item.reply.name} of {command.name} after it was answered in frame "
                             f"{command.answers[0].frame}")
        if item.reply.ends_command:
            command.answers.append(item)

    def is_overtaken(self, item, abort):
        """Whether an answer on another connection was made before the answer to the abort, and overtaken by it on the
        way: ExpCmdSN and MaxCmdSN never go back, and the answer to a numbered command is made with a higher MaxCmdSN
        than what was made before it, as the command gives its place back."""
        numbers = [(self.offset(one.reply.exp_cmd_sn), self.offset(one.reply.max_cmd_sn)) for one in (item, abort)]
        return item.cid != abort.cid and all(made <= then for made, then in zip(*numbers))


def check(session, works, disks):
    """The faults of a session by its capture and the lines of its trace, which must all be of it."""
    return [*session.faults, *tickets(works), *matched(session, works), *in_order(session), *by_attribute(session),
            *by_outcome(session), *by_abort(session, disks)]


def tickets(works):
    """No ticket stands twice."""
    lines = {}
    for work in works:
        if work.ticket in lines:
            yield (f"line {work.line} of the trace: ticket {work.ticket} was started in line {lines[work.ticket]} "
                   "already")
        lines.setdefault(work.ticket, work.line)


def matched(session, works):
    """Gives each line of the trace to its command, and says those that have none, or that a command has twice."""
    commands = {}
    for command in session.commands:
        key = command.request.tag, command.request.cmd_sn, command.request.unit
        commands.setdefault(key, []).append(command)
    for work in works:
        known = commands.get((work.tag, work.cmd_sn, work.unit), [])
        free = next((command for command in known if not command.works), None)
        if free:
            free.works.append(work)
        else:
            words = "was started already" if known else "isn't in the capture"
            yield (f"line {work.line} of the trace: the command with tag {work.tag:08x}, CmdSN {work.cmd_sn:08x} and "
                   f"unit {work.unit} {words}")


def in_order(session):
    """A command is started once it came, and a numbered one once all lower numbers came, or may have been voided."""
    session.void_unanswered()
    ready, complete = -NEVER, {}
    for offset in range(max(session.arrivals, default=-1) + 1):
        ready = max(ready, session.arrivals.get(offset, NEVER))
        complete[offset] = ready
    for command in session.commands:
        numbered = command.request.is_numbered
        since = complete.get(command.offset, NEVER) if numbered else session.moment(command.item)
        for work in command.works:
            if work.began < session.moment(command.item):
                yield f"line {work.line} of the trace: {command.name} was started before it came"
            elif work.began < since:
                yield f"line {work.line} of the trace: {command.name} was started while a lower CmdSN was missing"


def by_attribute(session):
    """Of the numbered commands of a unit, no ORDERED one begins before the end of an older one, and none but a HEAD OF
    QUEUE one begins before the end of an older ORDERED one. A command that was stopped may end later than it left."""
    lasts = {}
    started = [command for command in session.commands if command.works and command.request.is_numbered]
    for command in sorted(started, key=lambda command: command.offset):
        work, attribute = command.works[0], command.request.attribute
        everything, ordered = lasts.get(work.unit, ((-1, None), (-1, None)))
        limit, before = everything if attribute == ORDERED else ordered
        if attribute != HEAD_OF_QUEUE and work.began < limit:
            yield (f"line {work.line} of the trace: {command.name} (attribute {attribute}) was started before the end "
                   f"of {before.name} (attribute {before.request.attribute})")
        if work.is_completed:
            end = work.ended, command
            lasts[work.unit] = (max(everything, end, key=lambda one: one[0]),
                                max(ordered, end, key=lambda one: one[0]) if attribute == ORDERED else ordered)


def by_outcome(session):
    """No command that a worker stopped is answered, but with TASK ABORTED, where another session's reset took it out; and
    none starts that was aborted before it came."""
    for command in session.commands:
        for work in command.works:
            if not work.is_completed and any(item.reply.status != TASK_ABORTED for item in command.answers):
                yield (f"line {work.line} of the trace: {command.name} was stopped, and is answered in frame "
                       f"{command.answers[0].frame}")
            if command.is_aborted_late:
                yield (f"line {work.line} of the trace: {command.name} was started, and came after the abort of it was "
                       f"answered in frame {command.abort.frame}")


def is_over(work, disks, moment):
    """Whether what a worker did was over at this moment. What a worker waits with in RAM may be called back at once, so
    there only what was completed counts; the work of a disk can't be called back."""
    return work.ended <= moment or not work.is_completed and work.unit not in disks


def by_abort(session, disks):
    """What was aborted is worked on no more once its abort was answered: else it changes the medium behind that."""
    for command in session.commands:
        answered = session.moment(command.abort) if command.abort else NEVER
        for work in command.works:
            if work.began + MOMENT < answered and not is_over(work, disks, answered):
                yield (f"line {work.line} of the trace: {command.name} was worked on when the abort of it was answered "
                       f"in frame {command.abort.frame}")


def by_reset(sessions, disks):
    """A LOGICAL UNIT RESET is of the unit: as it is answered, no command of another session is worked on that was
    begun before the reset came."""
    works = [(session, command, work) for session in sessions for command in session.commands for work in command.works]
    works.sort(key=lambda one: one[2].began)
    longest = max((work.ended - work.began for _, _, work in works), default=0)
    for session in sessions:
        for function, item in session.resets:
            came, answered = session.moment(function), session.moment(item)
            first = bisect_left(works, answered - longest, key=lambda one: one[2].began)
            last = bisect_left(works, came - MOMENT, key=lambda one: one[2].began)
            for other, command, work in works[first:last]:
                is_of_unit = other is not session and work.unit == function.request.unit
                if is_of_unit and not is_over(work, disks, answered):
                    yield (f"line {work.line} of the trace: {command.name} of another session was worked on when a "
                           f"LOGICAL UNIT RESET was answered in frame {item.frame}, session {session.tsih:04x}")


def by_clear(sessions):
    """A command ends with TASK ABORTED only where another session reset its unit meanwhile. A CLEAR TASK SET is of its own
    session's task set alone, as the units have one for each session (TST 1)."""
    resets = {}
    for session in sessions:
        for function, item in [*session.resets, *((one, None) for one in session.functions.values())]:
            if function.request.function == LOGICAL_UNIT_RESET:
                ended = session.moment(item) if item else NEVER
                resets.setdefault(function.request.unit, []).append((session, session.moment(function), ended))
    for session in sessions:
        for command in session.commands:
            came, known = session.moment(command.item), resets.get(command.request.unit, ())
            for item in command.answers:
                answered = session.moment(item)
                if item.reply.status == TASK_ABORTED and not any(
                        other is not session and began <= answered and came <= ended for other, began, ended in known):
                    yield (f"{command.name} ends with TASK ABORTED in frame {item.frame}, session {session.tsih:04x}, and "
                           "no other session reset its unit meanwhile")


def summary(session):
    """What there is of a session, in a line."""
    commands = session.commands
    started = sum(bool(command.works) for command in commands)
    answered = sum(bool(command.answers) for command in commands)
    aborted = sum(bool(command.abort) and not command.answers for command in commands)
    neither = len(commands) - answered - aborted
    return (f"session {session.tsih:04x}: {len(commands)} commands, {started} started, {answered} answered, {aborted} "
            f"aborted by number or tag, {neither} others, {session.completed} aborts and resets complete, "
            f"{len(session.overtaken)} PDUs overtaken by the answer to an abort")


def judge(sessions, begin, works, has_fence, disks=(), is_shared=False):
    """A line for each session, and the faults of all. With `has_fence` also what was overtaken is one. `disks` are the
    units whose work can't be called back. With `is_shared` a reset is of all sessions."""
    summaries, faults, judged, of_session = [], [], [], {}
    for work in works:
        of_session.setdefault(work.tsih, []).append(work)
    for observed in sessions:
        session = Session(observed, begin)
        faults += check(session, of_session.get(session.tsih, []), disks)
        faults += session.overtaken if has_fence else []
        summaries.append(summary(session))
        judged.append(session)
    faults += [*by_reset(judged, disks), *by_clear(judged)] if is_shared else []
    known = {observed.tsih for observed in sessions}
    faults += [f"line {work.line} of the trace: no session {work.tsih:04x} is in the capture"
               for work in works if work.tsih not in known]
    return summaries, faults
