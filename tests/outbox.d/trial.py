"""A target and an initiator around the session and the outbox themselves, and what a reader of each transport sees.

The program `check_outbox_play` makes the calls; here are the units, the transports and the initiator, who has nothing but
the bytes that he reads. Each command has a tag of its own, and the Data-Ins of a command count in the word of their offset.
"""

import struct
import subprocess
from collections import deque

NO_TAG = 0xFFFFFFFF
COMMAND, FUNCTION, LOGOUT, NOP = 1, 2, 6, 0
DATA_IN, R2T, NOP_IN, SCSI_RESPONSE, FUNCTION_RESPONSE, LOGOUT_RESPONSE, REJECT = 0x25, 0x31, 0x20, 0x21, 0x22, 0x26, 0x3F
TEXT_RESPONSE, ASYNCHRONOUS = 0x24, 0x32
ABORT_TASK, ABORT_TASK_SET, CLEAR_TASK_SET, UNIT_RESET = 1, 2, 4, 5


class Broken(Exception):
    """A promise that a reader saw broken."""


def promise(holds, name):
    if not holds:
        raise Broken(name)


def later(a, b):
    """Whether a number of 32 bits is behind another one or the same (RFC 1982)."""
    return (a - b) % 2**32 < 2**31


class Player:
    """The session and the outbox: a call a line."""

    def __init__(self, command):
        self.program = subprocess.Popen(command, stdin=subprocess.PIPE, stdout=subprocess.PIPE)

    def call(self, *words):
        self.program.stdin.write((" ".join(map(str, words)) + "\n").encode())
        self.program.stdin.flush()
        lines = []
        while (line := self.program.stdout.readline()) != b".\n":
            if not line:
                raise Broken(f"the program ended at {words}")
            lines.append(line.decode().rstrip("\n"))
        return lines

    def asks(self, *words):
        return self.call(*words) == ["true"]

    def close(self):
        self.program.stdin.close()
        return self.program.wait()


class Pdu:
    """A PDU as it goes out. `handed`: its place among all that went out; `written`: the place of the last that went out before it
    was written; it takes a StatSN or not, and is fenced or not."""

    def __init__(self, text, conn, handed):
        self.bytes, self.conn, self.handed = bytes.fromhex(text), conn, handed
        self.opcode = self.bytes[0] & 0x3F
        self.tag, self.transfer_tag, self.stat_sn, self.exp, self.max = struct.unpack(">5I", self.bytes[16:36])
        self.offset = struct.unpack(">I", self.bytes[40:44])[0]
        self.is_ping = self.opcode == NOP_IN and self.tag == NO_TAG and self.transfer_tag != NO_TAG
        self.takes = self.opcode not in (DATA_IN, R2T) and not (self.opcode == NOP_IN and self.tag == NO_TAG)
        self.is_of_command = self.opcode in (DATA_IN, R2T, SCSI_RESPONSE)
        self.fenced, self.written = False, None


class Connection:
    """A connection as its transport and its reader have it."""

    def __init__(self, cid, stat_sn):
        self.cid, self.next_stat_sn, self.said = cid, stat_sn, stat_sn
        self.joined = self.lost = self.closed = self.cut = self.over = self.shut = False
        self.handed, self.written = deque(), deque()
        self.shown = None
        self.pings = deque()

    @property
    def is_open(self):
        return self.joined and not self.lost

    def gave_up(self, command):
        """The initiator closes the connection by a Logout on another one, and the command completed: its response was dropped with
        all that waited there, so that the fence knows no more of it; no new command comes there."""
        return self.cut and command.completed


class Command:
    """A command, as the target and the initiator have it."""

    def __init__(self, tag, cid, unit):
        self.tag, self.cid, self.unit = tag, cid, unit
        self.ticket = None
        self.live = self.enabled = self.touches = self.left = self.completed = False
        self.put = self.read = 0
        self.responded = False


class Reader:
    """What a reader of all transports has seen, in the order in which he read it."""

    def __init__(self, acknowledged):
        self.acknowledged = acknowledged
        # What is over by an answer that was read, with the answer's place among all that went out; by one that went out.
        self.over, self.answered = {}, set()
        # What takes a StatSN and wasn't read, by its place among all that went out; and the fenced answers of these.
        self.unread = {}

    def went_out(self, conn, pdu, scope):
        """What goes out, before anybody reads it: `scope` is what is over by it."""
        promise(not conn.over, "closed: nothing goes out behind a Logout Response")
        promise(not pdu.is_of_command or pdu.tag not in self.answered, "silent after, as it goes out")
        self.answered |= scope
        if pdu.takes:
            self.unread[pdu.handed] = pdu

    def lost(self, cid):
        """What lies on a connection that is lost, or that another one's Logout closed, isn't read."""
        self.unread = {place: pdu for place, pdu in self.unread.items() if pdu.conn != cid}

    def reads(self, conn, pdu, commands, scope):
        promise(pdu.stat_sn == conn.next_stat_sn, "StatSN in sequence")
        conn.next_stat_sn = (pdu.stat_sn + pdu.takes) % 2**32
        if conn.shown:
            promise(later(pdu.exp, conn.shown[0]) and later(pdu.max, conn.shown[1]), "numbers never back")
        conn.shown = pdu.exp, pdu.max
        if pdu.is_of_command:
            self.reads_of_command(conn, pdu, commands[pdu.tag])
        if pdu.takes:
            self.reads_fenced(conn, pdu)
        for tag in scope:
            self.over.setdefault(tag, pdu.handed)

    def reads_of_command(self, conn, pdu, command):
        promise(command.cid == pdu.conn, "a PDU of a command comes on its connection")
        promise(not self.is_behind(pdu) or conn.gave_up(command), "silent after")
        promise(not command.responded, "nothing of a command behind its response")
        if pdu.opcode == SCSI_RESPONSE:
            command.responded = True
            promise(command.read == command.put, "all data of a command before its response")
        else:
            promise(pdu.offset == command.read, "data in order")
            command.read += 1

    def is_behind(self, pdu):
        """Whether a PDU of a command comes behind an answer by which that is over: where arrival isn't looked for, one that was
        written before the answer went out may."""
        answer = self.over.get(pdu.tag)
        return answer is not None and (self.acknowledged or pdu.written >= answer)

    def reads_fenced(self, conn, pdu):
        self.unread.pop(pdu.handed, None)
        if not self.acknowledged:
            return
        before = [other for place, other in self.unread.items() if place < pdu.handed and other.conn != conn.cid]
        promise(not pdu.fenced or not before, "fence: what went out before it elsewhere is read before it")
        promise(not any(other.fenced for other in before), "fence: it is read before what went out behind it elsewhere")
