"""What a real target answered: the lines of a SESSION.target (docs/CAPTURES.md)."""

import re
from dataclasses import dataclass

from .pdu import ASYNC, DATA_IN, LOGIN_RESPONSE, LOGOUT_RESPONSE, NOP_IN, R2T, REJECT, SCSI_RESPONSE, \
    TASK_MANAGEMENT_RESPONSE, TEXT_RESPONSE

KINDS = {
    NOP_IN: "nop-in", SCSI_RESPONSE: "scsi-response", TASK_MANAGEMENT_RESPONSE: "function-response",
    LOGIN_RESPONSE: "login-response", TEXT_RESPONSE: "text-response", DATA_IN: "data-in",
    LOGOUT_RESPONSE: "logout-response", R2T: "r2t", ASYNC: "async", REJECT: "reject",
}
NAMES = {
    "nop-in": "NOP-In", "ping": "NOP-In of the target's own", "scsi-response": "SCSI Response",
    "function-response": "Task Management Function Response", "login-response": "Login Response",
    "text-response": "Text Response", "data-in": "Data-In without status", "data-in-status": "Data-In with status",
    "logout-response": "Logout Response", "r2t": "R2T", "async": "Asynchronous Message", "reject": "Reject",
    "lost": "a reply that the capture lacks",
}
LEFT_OUT = ("ping", "login-response", "text-response", "data-in", "r2t", "async", "other")
LOST = "lost"
LINE = re.compile(r"(\d+) (\d+\.\d{6}) (\d+) ([a-z0-9-]+) ([0-9a-f]{8}) ([0-9a-f]{8}) ([0-9a-f]{8}) ([0-9a-f]{8}) "
                  r"([0-9a-f]{2}|--)(?: (.*))?")
HEAD = """# What the target answered, a line a reply:
# FRAME SECONDS CID KIND TAG STATSN EXPCMDSN MAXCMDSN OUTCOME WORDS
"""


class BadAnswers(Exception):
    """A line that is none of a SESSION.target."""


@dataclass(frozen=True)
class Answer:
    """One reply of a target: where it stands in the capture, and what is compared of it."""
    frame: int
    time: float
    cid: int
    kind: str
    tag: int
    stat_sn: int
    exp_cmd_sn: int
    max_cmd_sn: int
    outcome: int
    words: str

    @property
    def is_left_out(self):
        """Whether it is of a kind that the program doesn't send."""
        return self.kind in LEFT_OUT

    @property
    def name(self):
        return NAMES.get(self.kind, self.kind)


def kind_of(reply, is_ping=False):
    """The kind of a reply, as in a line."""
    if is_ping:
        return "ping"
    kind = KINDS.get(reply.opcode, "other")
    return "data-in-status" if kind == "data-in" and reply.ends_command else kind


def outcome_of(reply):
    """The byte that says what came of a request: a status, a response or a reason. None where there is none."""
    if reply.ends_command:
        return reply.status
    return reply.response if reply.opcode in (TASK_MANAGEMENT_RESPONSE, LOGOUT_RESPONSE, REJECT) else None


def line_of(item):
    """The line of a reply of a capture."""
    reply, outcome = item.reply, outcome_of(item.reply)
    fields = (f"{item.frame} {item.time:.6f} {item.cid} {kind_of(reply, item.is_ping)} {item.tag:08x} "
              f"{reply.stat_sn:08x} {reply.exp_cmd_sn:08x} {reply.max_cmd_sn:08x} "
              f"{'--' if outcome is None else format(outcome, '02x')}")
    return f"{fields} {reply.outcome}".rstrip()


def target_lines(session):
    """Gives the lines of a session: of each reply, and of those that the capture lacks."""
    replies = [(item.frame, 1, line_of(item)) for item in session.items if item.reply and not item.made_up]
    lost = [(one.frame, 0, f"{one.frame} {one.time:.6f} {one.cid} {LOST} {one.tag:08x} {one.stat_sn:08x} {0:08x} {0:08x} --")
            for one in session.lost]
    return [line for _, _, line in sorted(replies + lost, key=lambda one: one[:2])]


def read(lines):
    """Gives the answers of a file. `BadAnswers` at the first line that is none."""
    for place, text in enumerate(lines, 1):
        text = text.rstrip("\n")
        if not text or text.startswith("#"):
            continue
        found = LINE.fullmatch(text)
        if not found:
            raise BadAnswers(f"line {place}: not a reply of a target")
        frame, time, cid, kind, tag, stat_sn, exp_cmd_sn, max_cmd_sn, outcome, words = found.groups()
        yield Answer(int(frame), float(time), int(cid), kind, int(tag, 16), int(stat_sn, 16), int(exp_cmd_sn, 16),
                     int(max_cmd_sn, 16), None if outcome == "--" else int(outcome, 16), words or "")
