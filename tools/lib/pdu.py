"""Headers of iSCSI PDUs: their fields and names (RFC 7143 chapter 11, RFC 7144, SAM-5, SPC-4)."""

from dataclasses import dataclass
from functools import cached_property

HEADER_SIZE = 48
NO_TAG = 0xffffffff

NOP_OUT, SCSI_COMMAND, TASK_MANAGEMENT, LOGIN, TEXT, DATA_OUT, LOGOUT, SNACK = 0, 1, 2, 3, 4, 5, 6, 0x10
NOP_IN, SCSI_RESPONSE, TASK_MANAGEMENT_RESPONSE, LOGIN_RESPONSE, TEXT_RESPONSE, DATA_IN, LOGOUT_RESPONSE, R2T, ASYNC, \
    REJECT = 0x20, 0x21, 0x22, 0x23, 0x24, 0x25, 0x26, 0x31, 0x32, 0x3f

REQUESTS = {
    NOP_OUT: "NOP-Out", SCSI_COMMAND: "SCSI Command", TASK_MANAGEMENT: "Task Management Function Request",
    LOGIN: "Login Request", TEXT: "Text Request", DATA_OUT: "SCSI Data-Out", LOGOUT: "Logout Request",
    SNACK: "SNACK Request",
}
REPLIES = {
    NOP_IN: "NOP-In", SCSI_RESPONSE: "SCSI Response", TASK_MANAGEMENT_RESPONSE: "Task Management Function Response",
    LOGIN_RESPONSE: "Login Response", TEXT_RESPONSE: "Text Response", DATA_IN: "SCSI Data-In",
    LOGOUT_RESPONSE: "Logout Response", R2T: "Ready To Transfer", ASYNC: "Asynchronous Message", REJECT: "Reject",
}
ATTRIBUTES = {0: "untagged", 1: "SIMPLE", 2: "ORDERED", 3: "HEAD OF QUEUE", 4: "ACA"}
FUNCTIONS = {
    1: "ABORT TASK", 2: "ABORT TASK SET", 3: "CLEAR ACA", 4: "CLEAR TASK SET", 5: "LOGICAL UNIT RESET",
    6: "TARGET WARM RESET", 7: "TARGET COLD RESET", 8: "TASK REASSIGN", 9: "QUERY TASK", 10: "QUERY TASK SET",
    11: "I_T NEXUS RESET", 12: "QUERY ASYNCHRONOUS EVENT",
}
RESPONSES = {
    0: "function complete", 1: "task does not exist", 2: "LUN does not exist", 3: "task still allegiant",
    4: "task allegiance reassignment not supported", 5: "function not supported", 6: "authorization failed",
    7: "function succeeded", 255: "function rejected",
}
LOGOUT_REASONS = {0: "close the session", 1: "close the connection", 2: "remove the connection for recovery"}
LOGOUT_RESPONSES = {0: "closed", 1: "CID not found", 2: "recovery not supported", 3: "cleanup failed"}
REJECT_REASONS = {
    2: "data digest error", 3: "SNACK reject", 4: "protocol error", 5: "command not supported",
    6: "too many immediate commands", 7: "task in progress", 8: "invalid data ack", 9: "invalid PDU field",
    10: "long operation reject", 12: "waiting for Logout",
}
STATUSES = {
    0x00: "GOOD", 0x02: "CHECK CONDITION", 0x04: "CONDITION MET", 0x08: "BUSY", 0x18: "RESERVATION CONFLICT",
    0x28: "TASK SET FULL", 0x30: "ACA ACTIVE", 0x40: "TASK ABORTED",
}
SENSE_KEYS = {
    0: "NO SENSE", 2: "NOT READY", 3: "MEDIUM ERROR", 4: "HARDWARE ERROR", 5: "ILLEGAL REQUEST", 6: "UNIT ATTENTION",
    7: "DATA PROTECT", 0xb: "ABORTED COMMAND",
}
SENSE_CODES = {(0x25, 0): "LOGICAL UNIT NOT SUPPORTED", (0x44, 0): "INTERNAL TARGET FAILURE"}
COMMANDS = {
    0x00: "TEST UNIT READY", 0x03: "REQUEST SENSE", 0x04: "FORMAT UNIT", 0x08: "READ(6)", 0x0a: "WRITE(6)",
    0x12: "INQUIRY", 0x15: "MODE SELECT(6)", 0x16: "RESERVE(6)", 0x17: "RELEASE(6)", 0x1a: "MODE SENSE(6)",
    0x1b: "START STOP UNIT", 0x1d: "SEND DIAGNOSTIC", 0x1e: "PREVENT ALLOW MEDIUM REMOVAL", 0x25: "READ CAPACITY(10)",
    0x28: "READ(10)", 0x2a: "WRITE(10)", 0x2e: "WRITE AND VERIFY(10)", 0x2f: "VERIFY(10)",
    0x35: "SYNCHRONIZE CACHE(10)", 0x41: "WRITE SAME(10)", 0x42: "UNMAP", 0x4d: "LOG SENSE",
    0x55: "MODE SELECT(10)", 0x5a: "MODE SENSE(10)",
    0x5e: "PERSISTENT RESERVE IN", 0x5f: "PERSISTENT RESERVE OUT", 0x88: "READ(16)", 0x89: "COMPARE AND WRITE",
    0x8a: "WRITE(16)", 0x8f: "VERIFY(16)", 0x91: "SYNCHRONIZE CACHE(16)", 0x93: "WRITE SAME(16)",
    0x9e: "SERVICE ACTION IN(16)", 0xa0: "REPORT LUNS", 0xa3: "MAINTENANCE IN", 0xa4: "MAINTENANCE OUT",
    0xa8: "READ(12)", 0xaa: "WRITE(12)",
}


def number(header, first, last):
    """The big-endian number of these bytes, both counted."""
    return int.from_bytes(header[first:last + 1], "big")


def unit_of(lun):
    """The unit that the eight bytes of a LUN name, or None."""
    if any(lun[2:]):
        return None
    if lun[0] == 0:
        return lun[1]
    return (lun[0] % 64) * 256 + lun[1] if lun[0] >> 6 == 1 else None


def lun_of(unit):
    """The eight bytes of the LUN of a unit, in the peripheral form below 256, and else in the flat one."""
    head = bytes([0, unit]) if unit < 256 else (0x4000 | unit).to_bytes(2, "big")
    return head + bytes(6)


@dataclass(frozen=True)
class Request:
    """The header of a request."""
    header: bytes

    @cached_property
    def opcode(self):
        return self.header[0] & 0x3f

    @property
    def immediate(self):
        return bool(self.header[0] & 0x40)

    @property
    def attribute(self):
        return self.header[1] & 7

    @property
    def function(self):
        """The function of a task management request, or the reason of a Logout."""
        return self.header[1] & 0x7f

    @cached_property
    def unit(self):
        return unit_of(self.header[8:16])

    @cached_property
    def tag(self):
        return number(self.header, 16, 19)

    @property
    def referenced_tag(self):
        return number(self.header, 20, 23)

    @property
    def cid(self):
        """The CID that a Logout names."""
        return number(self.header, 20, 21)

    @cached_property
    def cmd_sn(self):
        return number(self.header, 24, 27)

    @property
    def ref_cmd_sn(self):
        return number(self.header, 32, 35)

    @property
    def cdb(self):
        return self.header[32:48]

    @cached_property
    def is_numbered(self):
        """Whether it takes part in the order of CmdSNs."""
        return not self.immediate and self.opcode in (NOP_OUT, SCSI_COMMAND, TASK_MANAGEMENT, TEXT, LOGOUT)

    @cached_property
    def name(self):
        """What it asks for, as `READ(10)` or `ABORT TASK`."""
        if self.opcode == SCSI_COMMAND:
            return COMMANDS.get(self.cdb[0], f"SCSI Command {self.cdb[0]:02x}")
        if self.opcode == TASK_MANAGEMENT:
            return FUNCTIONS.get(self.function, f"function {self.function}")
        if self.opcode == LOGOUT:
            return "Logout"
        return REQUESTS.get(self.opcode, f"opcode {self.opcode:02x}")


@dataclass(frozen=True)
class Reply:
    """A reply: its header, and what follows it."""
    header: bytes
    tail: bytes = b""

    @cached_property
    def opcode(self):
        return self.header[0] & 0x3f

    @property
    def response(self):
        """The response of a function or a Logout, or the reason of a Reject."""
        return self.header[2]

    @property
    def status(self):
        return self.header[3]

    @cached_property
    def tag(self):
        return number(self.header, 16, 19)

    @cached_property
    def stat_sn(self):
        return number(self.header, 24, 27)

    @cached_property
    def exp_cmd_sn(self):
        return number(self.header, 28, 31)

    @cached_property
    def max_cmd_sn(self):
        return number(self.header, 32, 35)

    @cached_property
    def name(self):
        return REPLIES.get(self.opcode, f"opcode {self.opcode:02x}")

    @cached_property
    def ends_command(self):
        """Whether it carries the status of a command: a SCSI Response, or the last Data-In with the S bit."""
        return self.opcode == SCSI_RESPONSE or self.opcode == DATA_IN and bool(self.header[1] & 1)

    @cached_property
    def outcome(self):
        """What it says, as `GOOD` or `task does not exist`."""
        if self.ends_command:
            return STATUSES.get(self.status, f"status {self.status:02x}") + self.sense
        names = {TASK_MANAGEMENT_RESPONSE: RESPONSES, LOGOUT_RESPONSE: LOGOUT_RESPONSES, REJECT: REJECT_REASONS}
        if self.opcode not in names:
            return ""
        return names[self.opcode].get(self.response, f"{self.response:02x}")

    @property
    def sense(self):
        """What the sense data say, where there are some of fixed format."""
        sense = self.tail[2:]
        if self.opcode != SCSI_RESPONSE or len(sense) < 14 or sense[0] & 0x7f not in (0x70, 0x71):
            return ""
        key = SENSE_KEYS.get(sense[2] & 15, f"sense key {sense[2] & 15:x}")
        code = SENSE_CODES.get((sense[12], sense[13]), f"{sense[12]:02x}/{sense[13]:02x}")
        return f" ({key}, {code})"
