"""Replies of a target that gives them their numbers as they go out, and that lets the answer to an abort or a Logout wait
until what it takes out has stopped (docs/RULES.md, section 14). A report has each in its event, with that event's numbers.
"""

from bisect import bisect_left

from .pdu import LOGOUT, TASK_MANAGEMENT
from .state import Session

ABORT_TASK, SETS = 1, (2, 4, 5)
HALF, MODULUS = 1 << 31, 1 << 32


def above(number, other):
    """How far a number is above another one; below zero where it is below."""
    return (number - other + HALF) % MODULUS - HALF


def may_wait(request, outcome):
    """Whether the answer to a request may have to wait: one that takes commands out."""
    if request.opcode == TASK_MANAGEMENT:
        return outcome == 0 and request.function in SETS or outcome in (0, 1) and request.function == ABORT_TASK
    return request.opcode == LOGOUT and outcome == 0


class Moments:
    """What numbers a reply may show at its moment: by what had arrived, and by what its connection showed before."""

    def __init__(self, events, places, first, window):
        self.window, self.shown = window, {}
        session, expected = Session(first), first
        told = []
        for event, place in zip(events, places):
            session.take(event)
            expected = max(expected, session.expected)
            told.append((place.frame, expected % MODULUS))
        # A request that the target took late stands behind others whose frames are greater.
        told.sort(key=lambda one: one[0])
        self.frames, self.expected = [frame for frame, _ in told], [first % MODULUS]
        for _, number in told:
            last = self.expected[-1]
            self.expected.append(number if above(number, last) > 0 else last)

    def arrived(self, frame):
        """ExpCmdSN by all that came before a frame."""
        return self.expected[bisect_left(self.frames, frame)]

    def faults(self, answer, reply):
        """Gives what is wrong with the numbers of a reply: the name of each, and why. They are noted as shown."""
        exp, most = answer.exp_cmd_sn, (answer.exp_cmd_sn + self.window - 1) % MODULUS
        limits = (("ExpCmdSN", exp, reply.exp_cmd_sn, self.arrived(answer.frame)),
                  ("MaxCmdSN", answer.max_cmd_sn, reply.max_cmd_sn, most))
        before = self.shown.get(answer.cid, (exp, answer.max_cmd_sn))
        self.shown[answer.cid] = exp, answer.max_cmd_sn
        for (name, number, least, greatest), last in zip(limits, before):
            if above(number, least) < 0:
                yield name, f"the target says {name} {number:08x}, the program {least:08x} at its event already"
            elif above(number, greatest) > 0:
                yield name, f"the target says {name} {number:08x}, and it can't be above {greatest:08x} yet"
            elif above(number, last) < 0:
                yield name, f"the target says {name} {number:08x}, and said {last:08x} before"


def early(replies):
    """The program's replies of a connection, in the target's order, that the target sent before one that the program
    sends earlier."""
    least, found = None, []
    for sent in reversed(replies):
        if least is not None and sent.order > least:
            found.append(sent)
        least = sent.order if least is None else min(least, sent.order)
    return found
