"""What a report tells of its session, event by event: the CmdSNs received, the live commands, the functions that wait.

Only what the lines say is followed. What a session must do is decided by the program that wrote the report.
"""

from dataclasses import dataclass
from itertools import chain
from sys import intern

from .pdu import STATUSES, Request
from .report import BadReport, Effect

HALF = 1 << 31
MODULUS = 1 << 32


def lift(number, near):
    """The whole number nearest to `near` that a field of 32 bits shows as `number`; the lower one of two."""
    return near + (number - near + HALF) % MODULUS - HALF


@dataclass(frozen=True, slots=True)
class Arrival:
    """A request, and the event and connection that brought it."""
    event: int
    cid: int
    request: Request


@dataclass(slots=True)
class Command:
    """A command of a task set. `entered`, `enabled` and `left` are numbers of events."""
    ticket: int
    unit: int
    attribute: str
    arrival: Arrival
    cmd_sn: int
    entered: int
    enabled: int = None
    left: int = None
    end: str = None
    completed: bool = False


@dataclass(frozen=True, slots=True)
class Step:
    """An effect and what it concerns: the request of its item, a command, functions that a close drops.

    An arrival that is held is a step without an effect.
    """
    effect: Effect
    arrival: Arrival = None
    command: Command = None
    dropped: tuple = ()


def is_held(event):
    """Whether the event is an arrival that waits for its turn: such a one has no effect."""
    return event.is_arrival and not event.effects and event.request.is_numbered


def read_first(events):
    """The first CmdSN of the session, or None where the report doesn't tell, and all of the events again.

    The first reply or delivery tells: what ExpCmdSN has passed by then was delivered, voided or taken out.
    """
    events = iter(events)
    ahead, near = [], None
    for event in events:
        ahead.append(event)
        told = [effect.reply.exp_cmd_sn if effect.reply else effect.cmd_sn
                for effect in event.effects if effect.kind in ("send", "deliver")]
        if told:
            near = told[0]
            break
    if near is None:
        return None, iter(ahead)
    first = min(lift(number, near) for number in chain.from_iterable(map(numbers_of, ahead)))
    return first % MODULUS, chain(ahead, events)


def numbers_of(event):
    """The CmdSNs that an event tells as received, and the ExpCmdSNs of its replies."""
    if is_held(event):
        yield event.request.cmd_sn
    for effect in event.effects:
        if effect.kind in ("deliver", "void", "empty"):
            yield effect.cmd_sn
        elif effect.kind == "send":
            yield effect.reply.exp_cmd_sn


class Session:
    """What was told so far. CmdSNs are whole numbers here, which the wire shows modulo 2^32.

    expected  ExpCmdSN: of the last reply, or above what was received since without a gap; None where nothing tells it
    greatest  MaxCmdSN of the last reply, or None
    held      the requests that are held, by number
    gone      how a number above ExpCmdSN was received without a request: `void` or `empty`
    live      the commands in task sets, by ticket
    ended     how the other commands ended, by ticket
    waiting   the functions that wait, oldest first
    """

    def __init__(self, first=None):
        self.events = 0
        self.expected = first
        self.greatest = None
        self.held, self.gone, self.live, self.ended = {}, {}, {}, {}
        self.waiting = []
        self.closed = False

    def take(self, event):
        """Follows an event, and gives its steps."""
        self.events += 1
        if is_held(event):
            arrival = Arrival(self.events, event.cid, event.request)
            self.held[self.lifted(event.request.cmd_sn)] = arrival
            return [Step(None, arrival)]
        steps, arrival = [], None
        if event.is_arrival:
            arrival = Arrival(self.events, event.cid, event.request)
        for effect in event.effects:
            step = self.step(event, effect, arrival)
            arrival = step.arrival if effect.kind in ("deliver", "immediate", "wait") else arrival
            steps.append(step)
        self.pass_received()
        return steps

    def step(self, event, effect, arrival):
        """Follows one effect. `arrival` is the request of its item."""
        if effect.kind in ("deliver", "immediate", "wait"):
            return Step(effect, getattr(self, effect.kind)(event, effect, arrival))
        if effect.kind == "empty":
            return Step(effect, self.empty(effect))
        if effect.kind == "enter":
            return Step(effect, arrival, self.enter(effect, arrival))
        if effect.kind == "enable":
            return Step(effect, arrival, self.enable(effect))
        if effect.kind == "leave":
            return Step(effect, arrival, self.leave(event, effect, arrival))
        if effect.kind in ("close-conn", "close-session"):
            return Step(effect, arrival, dropped=self.close(effect))
        if effect.kind == "ignore" and event.is_arrival == (effect.why == "stale"):
            raise BadReport(f"line {effect.line}: no event is ignored so")
        if effect.kind == "void":
            self.gone[self.lifted(effect.cmd_sn)] = "void"
        elif effect.kind == "send":
            self.expected = self.lifted(effect.reply.exp_cmd_sn)
            self.greatest = lift(effect.reply.max_cmd_sn, self.expected)
        return Step(effect, arrival)

    def lifted(self, number):
        return number if self.expected is None else lift(number, self.expected)

    def deliver(self, event, effect, arrival):
        number = self.lifted(effect.cmd_sn)
        own = event.is_arrival and event.request.is_numbered and event.request.cmd_sn == effect.cmd_sn
        self.expected = number + 1 if self.expected is None else max(self.expected, number + 1)
        if own:
            return Arrival(self.events, event.cid, event.request)
        if number not in self.held:
            raise BadReport(f"line {effect.line}: no request with CmdSN {effect.cmd_sn:08x} was held")
        return self.held.pop(number)

    def immediate(self, event, effect, arrival):
        if event.is_arrival and event.request.immediate and effect is event.effects[0]:
            return arrival
        for place, waiting in enumerate(self.waiting):
            request = waiting.request
            if (waiting.cid, request.cmd_sn, request.tag) == (effect.cid, effect.cmd_sn, effect.tag):
                return self.waiting.pop(place)
        raise BadReport(f"line {effect.line}: no function with CmdSN {effect.cmd_sn:08x} and tag {effect.tag:08x} "
                        "waited")

    def wait(self, event, effect, arrival):
        if not arrival:
            raise BadReport(f"line {effect.line}: no function arrived")
        self.waiting.append(arrival)
        return arrival

    def empty(self, effect):
        number = self.lifted(effect.cmd_sn)
        if number not in self.held:
            raise BadReport(f"line {effect.line}: no request with CmdSN {effect.cmd_sn:08x} was held")
        self.gone[number] = "empty"
        return self.held.pop(number)

    def enter(self, effect, arrival):
        if not arrival:
            raise BadReport(f"line {effect.line}: no request arrived that could enter")
        number = self.lifted(arrival.request.cmd_sn)
        self.live[effect.ticket] = Command(effect.ticket, effect.unit, effect.attribute, arrival, number, self.events)
        return self.live[effect.ticket]

    def enable(self, effect):
        command = self.command(effect)
        command.enabled = self.events
        return command

    def leave(self, event, effect, arrival):
        command = self.command(effect)
        del self.live[effect.ticket]
        command.left = self.events
        command.completed = event.ticket == effect.ticket
        if command.completed:
            command.end = STATUSES.get(event.status, f"status {event.status:02x}")
        elif arrival:
            command.end = arrival.request.name
        else:
            raise BadReport(f"line {effect.line}: no request arrived that could take a ticket out")
        # There are few such words, and many tickets.
        self.ended[effect.ticket] = intern(("was completed with " if command.completed else "was taken out by ") + command.end)
        return command

    def command(self, effect):
        if effect.ticket not in self.live:
            raise BadReport(f"line {effect.line}: ticket {effect.ticket} isn't live")
        return self.live[effect.ticket]

    def close(self, effect):
        """Closes a connection or the session, and gives the functions that waited there."""
        all_of_them = effect.kind == "close-session"
        dropped = tuple(waiting for waiting in self.waiting if all_of_them or waiting.cid == effect.cid)
        self.waiting = [waiting for waiting in self.waiting if waiting not in dropped]
        self.closed = self.closed or all_of_them
        return dropped

    def pass_received(self):
        """Raises ExpCmdSN over what was received, and forgets what is below it."""
        while self.expected in self.gone or self.expected in self.held:
            self.expected += 1
        if self.gone and self.expected is not None:
            self.gone = {number: how for number, how in self.gone.items() if number >= self.expected}

    def missing(self, below):
        """The numbers below this one that weren't received, as runs: pairs of the first and the last number."""
        if self.expected is None:
            return []
        received = sorted(number for number in chain(self.held, self.gone) if number >= self.expected)
        runs, lowest = [], self.expected
        for number in (*(number for number in received if number < below), below):
            if lowest < number:
                runs.append((lowest, number - 1))
            lowest = number + 1
        return runs
