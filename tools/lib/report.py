"""A report: its events, each with its effects (docs/FORMATS.md section 5)."""

import re
from dataclasses import dataclass, field

from .pdu import HEADER_SIZE, Reply, Request

NUMBER = r"([0-9]{1,20})"
EFFECTS = {kind: re.compile(form) for kind, form in {
    "deliver": NUMBER + r" ([0-9a-f]{8}) ([0-9a-f]{8})", "immediate": NUMBER + r" ([0-9a-f]{8}) ([0-9a-f]{8})",
    "wait": NUMBER + r" ([0-9a-f]{8}) ([0-9a-f]{8})", "void": r"([0-9a-f]{8})", "empty": r"([0-9a-f]{8})",
    "enter": NUMBER + " " + NUMBER + r" (simple|ordered|head)", "enable": NUMBER, "leave": NUMBER,
    "send": NUMBER + r" ((?:[0-9a-f]{2}){48,96})", "close-conn": NUMBER, "close-session": r"",
    "ignore": r"(outside|duplicate|closed|stale|data)",
}.items()}
EVENT = re.compile(rf"> (?:(C) {NUMBER} ([0-9a-fA-F]{{96}})|(D) {NUMBER} ([0-9a-fA-F]{{2}}))\Z")
# An event has fewer: its session has at most 1,024 commands, held requests and waiting functions to take out and answer.
MOST_EFFECTS = 1 << 16


class BadReport(Exception):
    """A line that is none of a report."""


@dataclass(frozen=True, slots=True)
class Effect:
    """One effect: its kind, as in the report, and the fields of that kind."""
    line: int
    kind: str
    cid: int = None
    cmd_sn: int = None
    tag: int = None
    ticket: int = None
    unit: int = None
    attribute: str = None
    reply: Reply = None
    why: str = None


@dataclass(slots=True)
class Event:
    """One event: an arrival (`request` and `cid`) or a completion (`ticket` and `status`), and its effects."""
    line: int
    cid: int = None
    request: Request = None
    ticket: int = None
    status: int = None
    effects: list = field(default_factory=list)
    lines: list = None

    @property
    def is_arrival(self):
        return self.request is not None

    @property
    def text(self):
        """Its line, as a recording has it."""
        if self.is_arrival:
            return f"C {self.cid} {self.request.header.hex()}"
        return f"D {self.ticket} {self.status:02x}"


def effect_of(line, kind, fields):
    """The effect of a line: its kind and its fields as text."""
    if kind in ("deliver", "immediate", "wait"):
        return Effect(line, kind, cid=int(fields[0]), cmd_sn=int(fields[1], 16), tag=int(fields[2], 16))
    if kind in ("void", "empty"):
        return Effect(line, kind, cmd_sn=int(fields[0], 16))
    if kind == "enter":
        return Effect(line, kind, ticket=int(fields[0]), unit=int(fields[1]), attribute=fields[2])
    if kind in ("enable", "leave"):
        return Effect(line, kind, ticket=int(fields[0]))
    if kind == "send":
        pdu = bytes.fromhex(fields[1])
        return Effect(line, kind, cid=int(fields[0]), reply=Reply(pdu[:HEADER_SIZE], pdu[HEADER_SIZE:]))
    if kind == "close-conn":
        return Effect(line, kind, cid=int(fields[0]))
    return Effect(line, kind, why=fields[0] if fields else None)


def read(lines, keeps_lines=False):
    """Gives the events of a report, with their lines where these are kept. `BadReport` at the first line that is none of a report.

    The lines of connections and comments may stand before the first event, as where a report was made a recording.
    """
    event = None
    for line, text in enumerate(lines, 1):
        text = text.rstrip("\n")
        if text.startswith("> "):
            found = EVENT.match(text)
            if not found:
                raise BadReport(f"line {line}: not an event of a report")
            if event:
                yield event
            kind, cid, header, _, ticket, status = found.groups()
            if kind:
                event = Event(line, cid=int(cid), request=Request(bytes.fromhex(header)))
            else:
                event = Event(line, ticket=int(ticket), status=int(status, 16))
            event.lines = [text] if keeps_lines else None
        elif text.startswith("  ") and event:
            kind, _, rest = text[2:].partition(" ")
            found = EFFECTS[kind].fullmatch(rest) if kind in EFFECTS else None
            if not found:
                raise BadReport(f"line {line}: not an effect of a report")
            if len(event.effects) == MOST_EFFECTS:
                raise BadReport(f"line {line}: an event has no more than {MOST_EFFECTS} effects")
            event.effects.append(effect_of(line, kind, found.groups()))
            if keeps_lines:
                event.lines.append(text)
        elif event or not (text == "" or text[0] in "# " or text.startswith("conn ")):
            raise BadReport(f"line {line}: not a line of a report"
                            + (" (a recording? iscsi-replay makes a report of it)" if text[:2] in ("C ", "D ") else ""))
    if event:
        yield event
