"""What the replies of a session must be, and what they say of the commands (RFC 7143 sections 11.4 to 11.19)."""

from headers import (ABORT_TASK, ABORT_TASK_SET, ANSWERS, CLEAR_TASK_SET, COMMAND, FUNCTION, LOGOUT, NO_TAG, NOP,
                     REJECT, TARGET_RESETS, UNIT_RESET)
from serial import MASK, below

# Byte 2 of a PDU: the responses and reasons. The response of a query (RFC 7144) may be one more.
KNOWN = {"20": (0,), "21": (0,), "22": (0, 1, 2, 3, 4, 5, 6, 255), "26": (0, 1, 2, 3), REJECT: tuple(range(2, 13))}
QUERIES, SUCCEEDED = (9, 10), (7,)


def is_sense(data):
    """Whether the length of sense data comes, and that much of it, in a form that SPC has."""
    return len(data) > 4 and 0 < int(data[:4], 16) * 2 <= len(data) - 4 and 0x70 <= int(data[4:6], 16) & 0x7F <= 0x73


class Answers:
    """The part of a session that looks at its replies."""

    def stray(self, conn, tag):
        """A reply that no request of the event has: that of a command which was taken out, or of none."""
        command = self.by_tag.get((conn, tag))
        if command is not None and command.acknowledged:
            self.say("abort", f"tag {tag} is answered after its abort was acknowledged")
        elif command is not None and command.ended is not None:
            self.say("command", f"tag {tag} is answered and taken out")
        elif command is not None and command.answered:
            self.say("reply", f"tag {tag} is answered a second time")
        else:
            self.say("reply", f"tag {tag} is not that of the request which is answered here")

    def answer(self, request, kind, tag, digits, data):
        if request.answered:
            self.say("reply", f"tag {request.tag} is answered a second time")
        if request.acknowledged:
            self.say("abort", f"tag {request.tag} is answered after its abort was acknowledged")
        if request.live:
            self.say("command", f"tag {request.tag} is answered, and its command is live")
        if request is self.arrived and not request.executed and kind != REJECT:
            self.say("reply", f"tag {request.tag} is answered, and its request doesn't execute")
            return
        self.bytes_of(request, kind, digits)
        if kind == REJECT:
            if (tag, data) != (NO_TAG, request.header):
                self.say("reply", "a Reject carries a tag, or another header than the rejected one")
            if request is self.part and self.took:
                self.say("abort", "commands are taken out by a request that is rejected")
        elif kind != ANSWERS.get(request.opcode):
            self.say("reply", f"a PDU {kind} answers a request of opcode {request.opcode:02x}")
        elif kind == ANSWERS[NOP] and (request.tag == NO_TAG or digits[40:48] != NO_TAG):
            self.say("reply", "a NOP-In answers a NOP-Out without a tag, or asks for an answer")
        elif request.opcode == COMMAND:
            self.status_of(request, digits, data)
        elif request.opcode == FUNCTION:
            self.function_answered(request, int(digits[4:6], 16))
        elif request.opcode == LOGOUT:
            self.logout_answered(request, int(digits[4:6], 16))
        request.answered = True

    def bytes_of(self, request, kind, digits):
        """Bytes 2 and 3: a response or reason that there is, and zero where they are reserved."""
        second, third = int(digits[4:6], 16), int(digits[6:8], 16)
        known = KNOWN[kind] + (SUCCEEDED if request.function in QUERIES else ()) if kind in KNOWN else (second,)
        if second not in known or (third and kind != ANSWERS[COMMAND]):
            self.say("reply", f"the bytes {digits[4:8]} are none of a PDU {kind}")

    def status_of(self, request, digits, data):
        """The status that a unit gave, or one of a command that didn't start (11.4)."""
        status = digits[6:8]
        if request is self.done and status != self.status:
            self.say("reply", f"ticket {request.ticket} was completed with status {self.status}, and answered {status}")
        if request is not self.done and status == "00":
            self.say("reply", f"tag {request.tag} is answered GOOD, and no unit completed it")
        if status == "02" and not is_sense(data):
            self.say("reply", "CHECK CONDITION comes without sense data")

    def function_answered(self, cause, response):
        """What a Task Management Function Response says, and what has become of the commands (11.6.1)."""
        live = list(self.sets.of(cause.unit)[0].values()) if cause.unit is not None else []
        named = [task for task in live if cause.must_take(task)]
        if response != 0:
            if self.took:
                self.say("abort", f"commands are taken out by a function with response {response}")
            if cause.function == ABORT_TASK and response == 1:
                self.abort_refused(cause, named)
            return
        for task in named:
            self.say("abort", f"function complete, and ticket {task.ticket}, which it covers, is in its task set")
            task.ended = cause
        if cause.unit is None or cause.unit >= self.units:
            if cause.function not in TARGET_RESETS:
                self.say("abort", "function complete for a LUN that names no unit")
        if cause.function in (ABORT_TASK_SET, CLEAR_TASK_SET, UNIT_RESET):
            if not below(cause.sn, self.barred.get(cause.unit, cause.sn)):
                self.barred[cause.unit] = cause.sn
        elif cause.function == ABORT_TASK and not named and not self.took:
            self.nothing_aborted(cause)
        for task in (*named, *self.took):
            if task is not None:
                task.acknowledged = True

    def abort_refused(self, cause, named):
        """ABORT TASK is answered with task does not exist: there is none, and its number counts as none either."""
        if any(below(task.sn, cause.sn) for task in named):
            self.say("abort", f"tag {cause.referenced} is live, and the response is task does not exist")
        if self.numbers.inside(cause.ref_sn, self.numbers.low) and below(cause.ref_sn, cause.sn):
            self.say("abort", "task does not exist, and RefCmdSN is within the window, which makes it function complete")

    def nothing_aborted(self, cause):
        """ABORT TASK is complete, and took no command out: its number counts as received."""
        held = self.numbers.received.get(cause.ref_sn)
        if held is not None and cause.may_take(held):
            held.ended, held.acknowledged = cause, True
        if (cause.ref_sn - self.part_exp) & MASK >= self.numbers.window:
            self.say("abort", "function complete: the task isn't there, and RefCmdSN is outside the window")
        elif not self.numbers.is_received(cause.ref_sn):
            self.say("abort", "function complete: the task isn't there, and RefCmdSN doesn't count as received")

    def logout_answered(self, cause, response):
        """A Logout Response with response 0 closes the connection or the session (11.15)."""
        if response != 0 or cause.function > 1:
            if self.took:
                self.say("logout", f"commands are taken out by a Logout with response {response}")
            return
        if cause.function == 1 and cause.cid not in self.open:
            self.say("logout", f"connection {cause.cid} isn't open, and its Logout succeeds")
        closed = self.open if cause.function == 0 else self.open & {cause.cid}
        for task in self.sets.live():
            if task.conn in closed:
                self.say("logout", f"connection {task.conn} is logged out, and ticket {task.ticket} is in its task set")
                task.ended = cause
        self.unclosed = set(closed)
        self.open = self.open - closed
