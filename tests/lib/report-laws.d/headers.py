"""Requests: what their headers say, and what they may take out (RFC 7143 section 11, SAM-5 section 4)."""

from serial import below

NOP, COMMAND, FUNCTION, TEXT, LOGOUT = 0x00, 0x01, 0x02, 0x04, 0x06
ANSWERS = {NOP: "20", COMMAND: "21", FUNCTION: "22", TEXT: "24", LOGOUT: "26"}
REJECT = "3f"
NO_TAG = "ffffffff"
ABORT_TASK, ABORT_TASK_SET, CLEAR_TASK_SET, UNIT_RESET = 1, 2, 4, 5
TARGET_RESETS = (6, 7)
ATTRIBUTES = {0: "simple", 1: "simple", 2: "ordered", 3: "head"}


def unit_of(lun):
    """The unit of a LUN of one level: peripheral addressing on bus 0, or flat space (SAM-5, 4.7)."""
    first, second = int(lun[:2], 16), int(lun[2:4], 16)
    if int(lun[4:], 16) or not (first == 0 or first >> 6 == 1):
        return None
    return (first & 0x3F) << 8 | second


class Request:
    """A request that arrived: the fields of its header, and what became of it."""

    def __init__(self, conn, header, line):
        first, second = int(header[:2], 16), int(header[2:4], 16)
        self.conn, self.header, self.line = conn, header, line
        self.opcode, self.immediate = first & 0x3F, bool(first & 0x40)
        self.numbered = self.opcode in ANSWERS and not self.immediate
        self.function, self.attribute = second & 0x7F, ATTRIBUTES.get(second & 7)
        self.unit, self.tag = unit_of(header[16:32]), header[32:40]
        self.referenced, self.cid = header[40:48], int(header[40:44], 16)
        self.sn, self.ref_sn = int(header[48:56], 16), int(header[64:72], 16)
        self.executed = self.answered = self.waited = False
        self.ticket = None  # of its task
        self.live = self.enabled = False
        self.ended = None  # the request that took it out
        self.acknowledged = False  # and that was answered

    def wants_answer(self):
        """A NOP-Out without a tag asks for none (11.18)."""
        return self.opcode != NOP or self.tag != NO_TAG

    def may_take(self, task):
        """Whether this request may take out a command that is held or live (11.5.1, 11.14.1)."""
        if self.opcode == LOGOUT:
            return self.function == 0 or (self.function == 1 and task.conn == self.cid)
        if self.opcode != FUNCTION:
            return False
        if self.function in TARGET_RESETS:
            return True
        if task.opcode != COMMAND or self.unit is None or task.unit != self.unit:
            return False
        if self.function == ABORT_TASK:
            return task.tag == self.referenced
        if self.function in (ABORT_TASK_SET, CLEAR_TASK_SET):
            return task.immediate or below(task.sn, self.sn)
        return self.function == UNIT_RESET

    def must_take(self, task):
        """Whether this function can't be complete while a live command goes on."""
        if not self.may_take(task) or self.function in (ABORT_TASK, UNIT_RESET):
            return self.may_take(task)
        return below(task.sn, self.sn) or (task.sn == self.sn and task.line < self.line)
