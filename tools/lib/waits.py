"""What each command of a report waits for: lower CmdSNs, and commands of its task set that bar it (docs/RULES.md, section 8)."""

from dataclasses import dataclass

from .state import Session
from .words import ATTRIBUTES, tell

HEAD, ORDERED = "head", "ordered"
MOST_NAMED = 3


@dataclass
class Course:
    """A command that is live, or was until this event: where its events stand in the capture, and in words what barred it as it
    entered."""
    command: object
    arrived: object = None
    entered: object = None
    enabled: object = None
    behind: str = ""


def bars(other, command):
    """Whether a live command of the set bars another one of it."""
    if command.attribute == HEAD:
        return False
    is_older = other.ticket < command.ticket
    return other.attribute == HEAD or is_older and ORDERED in (command.attribute, other.attribute)


class Courses:
    """Follows a session, with the course of each live command. `left` has those that left by the last event, `steps` what it did,
    and `was_held` the places of the arrivals that were held until then; a place is whatever tells where an event stands, or None."""

    def __init__(self, first=None):
        self.session = Session(first)
        self.live = {}
        self.held, self.was_held = {}, {}
        self.left, self.steps = [], []

    def take(self, event, place=None):
        """Follows an event. Gives it in words, the words of its effects, and its steps."""
        head, words, steps = tell(self.session, event)
        self.note(steps, place)
        return head, words, steps

    def follow(self, event, place=None):
        """Follows an event."""
        self.note(self.session.take(event), place)

    def note(self, steps, place):
        self.left, self.was_held, self.steps = [], {}, steps
        for step in steps:
            kind = step.effect.kind if step.effect else "hold"
            if kind == "hold":
                self.held[self.session.events] = place
            elif kind in ("empty", "deliver") and step.arrival.event in self.held:
                self.was_held[step.arrival.event] = self.held.pop(step.arrival.event)
            elif kind == "enter":
                arrived = self.was_held.get(step.command.arrival.event, place)
                self.live[step.command.ticket] = Course(step.command, arrived, place, None, self.behind(step.command))
            elif kind == "enable":
                self.live[step.command.ticket].enabled = place
            elif kind == "leave":
                self.left.append(self.live.pop(step.command.ticket))

    def behind(self, command):
        """What bars a command that enters and isn't enabled, in words."""
        if command.enabled is not None:
            return ""
        found = [other for other in self.session.live.values()
                 if other.unit == command.unit and other is not command and bars(other, command)]
        more = f" and {len(found) - MOST_NAMED} more" if len(found) > MOST_NAMED else ""
        return ", ".join(map(name, found[:MOST_NAMED])) + more


def name(command):
    """A command, as `ticket 1 (ORDERED READ(10), tag a1)`."""
    request = command.arrival.request
    return f"ticket {command.ticket} ({ATTRIBUTES[command.attribute]} {request.name}, tag {request.tag:x})"
