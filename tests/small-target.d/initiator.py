"""An initiator for the small target: the connections of one session, each read only where its reader wants it."""

import select
import socket
import time

BLOCK, UNIT = 512, 0
NO_TAG = 0xffffffff
NOP_OUT, COMMAND, FUNCTION, LOGIN, DATA_OUT, LOGOUT = 0x00, 0x01, 0x02, 0x03, 0x05, 0x06
NOP_IN, RESPONSE, FUNCTION_DONE, LOGIN_RESPONSE, DATA_IN, LOGGED_OUT, R2T = 0x20, 0x21, 0x22, 0x23, 0x25, 0x26, 0x31
IMMEDIATE, FINAL, READS, WRITES, SIMPLE = 0x40, 0x80, 0x40, 0x20, 0x01
ABORT_TASK, RESET = 1, 5
KEYS = ("InitiatorName=iqn.2026-01.example:small", "SessionType=Normal", "TargetName=iqn.2026-01.example.cundarrix:small", "HeaderDigest=None",
        "DataDigest=None", "InitialR2T=Yes", "ImmediateData=No", "MaxConnections=8", "ErrorRecoveryLevel=0")


class Wrong(Exception):
    """What isn't as it must be, in one line."""


def word(header, place):
    return int.from_bytes(header[place:place + 4], "big")


class Connection:
    """A connection: what came and isn't a whole PDU yet, and the StatSN that comes next."""

    def __init__(self, port, cid, receives):
        self.cid, self.bytes, self.stat_sn, self.is_closed = cid, b"", 0, False
        self.socket = socket.socket()
        if receives:
            self.socket.setsockopt(socket.SOL_SOCKET, socket.SO_RCVBUF, receives)
        self.socket.connect(("127.0.0.1", port))
        self.socket.setsockopt(socket.IPPROTO_TCP, socket.TCP_NODELAY, 1)
        self.socket.settimeout(20)

    def send(self, header, data=b""):
        whole = bytearray(header)
        whole[4:8] = len(data).to_bytes(4, "big")
        whole[28:32] = self.stat_sn.to_bytes(4, "big")
        self.socket.sendall(bytes(whole) + data + bytes(-len(data) % 4))

    def receive(self, most=1 << 18):
        """The PDUs that are whole by what can be read now: headers with their data."""
        try:
            came = self.socket.recv(most)
        except ConnectionError:
            came = b""
        self.is_closed = not came
        self.bytes += came
        while len(self.bytes) >= 48 and len(self.bytes) >= 48 + self.segment() + -self.segment() % 4:
            header, data = self.bytes[:48], self.bytes[48:48 + self.segment()]
            self.bytes = self.bytes[48 + len(data) + -len(data) % 4:]
            yield header, data

    def segment(self):
        return word(self.bytes, 4) & 0xffffff


class Session:
    """A session: what it sent, and what came, in the order in which it was read."""

    # The most data that a Data-Out brings.
    part = 8192

    def __init__(self, port, cids=(1, 2), receives=0):
        self.cmd_sn, self.tag = 1, 0
        self.replies, self.data, self.written, self.asked, self.came = {}, {}, {}, {}, []
        self.connections = {}
        for cid in cids:
            self.connections[cid] = Connection(port, cid, receives)
            self.log_in(self.connections[cid])

    def log_in(self, connection):
        header = self.header(LOGIN | IMMEDIATE, 0x87, 1)
        header[20:22] = connection.cid.to_bytes(2, "big")
        header[14:16] = (0 if len(self.connections) == 1 else 1).to_bytes(2, "big")
        connection.send(header, "".join(f"{key}\0" for key in KEYS).encode())
        for answer, _ in connection.receive():
            if answer[0] != LOGIN_RESPONSE or answer[1] != 0x87 or answer[36]:
                raise Wrong(f"the login is answered by {answer.hex()}")
            connection.stat_sn = word(answer, 24) + 1
        if not connection.stat_sn:
            raise Wrong("no answer to the login")

    def header(self, opcode, flags, tag, lun=0):
        header = bytearray(48)
        header[0], header[1], header[9] = opcode, flags, lun
        header[16:20] = tag.to_bytes(4, "big")
        header[24:28] = self.cmd_sn.to_bytes(4, "big")
        if not opcode & IMMEDIATE and opcode != DATA_OUT:
            self.cmd_sn += 1
        return header

    def new_tag(self):
        self.tag += 1
        return self.tag

    # ---- requests: each gives its tag

    def command(self, cid, opcode, flags, block, count, tag=None):
        """A tag that is named is used again: what comes with it from now on is of this command."""
        if tag is None:
            tag = self.new_tag()
        for known in self.replies, self.data:
            known.pop(tag, None)
        header = self.header(COMMAND, FINAL | flags | SIMPLE, tag)
        header[20:24] = (count * BLOCK).to_bytes(4, "big")
        header[32], header[34:38], header[39:41] = opcode, block.to_bytes(4, "big"), count.to_bytes(2, "big")
        self.connections[cid].send(header)
        return tag

    def write(self, cid, block, data, is_late=False):
        """Its data goes out as the target asks for it, or later by `send_data`."""
        if not is_late:
            self.written[self.tag + 1] = data
        return self.command(cid, 0x2a, WRITES, block, len(data) // BLOCK)

    def read(self, cid, block, count=1, tag=None):
        return self.command(cid, 0x28, READS, block, count, tag)

    def abort(self, cid, tag, cmd_sn):
        own = self.new_tag()
        header = self.header(FUNCTION | IMMEDIATE, FINAL | ABORT_TASK, own)
        header[20:24], header[32:36] = tag.to_bytes(4, "big"), cmd_sn.to_bytes(4, "big")
        self.connections[cid].send(header)
        return own

    def reset(self, cid):
        own = self.new_tag()
        header = self.header(FUNCTION | IMMEDIATE, FINAL | RESET, own)
        header[20:24] = NO_TAG.to_bytes(4, "big")
        self.connections[cid].send(header)
        return own

    def logout(self, cid, closes=None):
        """Closes a connection, or without one the session."""
        own = self.new_tag()
        header = self.header(LOGOUT | IMMEDIATE, FINAL | (0 if closes is None else 1), own)
        header[20:22] = (closes or 0).to_bytes(2, "big")
        self.connections[cid].send(header)
        return own

    def ping(self, cid, data=b""):
        own = self.new_tag()
        header = self.header(NOP_OUT | IMMEDIATE, FINAL, own)
        header[20:24] = NO_TAG.to_bytes(4, "big")
        self.connections[cid].send(header, data)
        return own

    # ---- what comes

    def pump(self, until, seconds=15, cids=None):
        """Reads connections (all, or those that are named) until this holds, or for so long. Whether it holds."""
        end = time.monotonic() + seconds
        while not until() and time.monotonic() < end:
            open_ones = {one.socket: one for one in self.connections.values() if not one.is_closed and (not cids or one.cid in cids)}
            if not open_ones:
                break
            ready, _, _ = select.select(list(open_ones), [], [], max(0, end - time.monotonic()))
            for connection in (open_ones[one] for one in ready):
                for header, data in connection.receive():
                    self.take(connection, header, data)
        return until()

    def sip(self, cid, until):
        """Reads a connection a little at a time, so that much of it stays unread, and the others, until this holds."""
        end = time.monotonic() + 15
        while not until() and time.monotonic() < end:
            others = [other for other in self.connections if other != cid]
            self.pump(until, 0.005, others)
            connection = self.connections[cid]
            if not until() and select.select([connection.socket], [], [], 0)[0]:
                for header, data in connection.receive(16384):
                    self.take(connection, header, data)

    def take(self, connection, header, data):
        opcode, tag = header[0], word(header, 16)
        self.came.append((connection.cid, opcode, tag))
        if word(header, 24) != connection.stat_sn:
            raise Wrong(f"StatSN {word(header, 24)} on connection {connection.cid}, and not {connection.stat_sn}")
        if opcode == R2T:
            self.asked[tag] = header
            if tag in self.written:
                self.send_data(connection.cid, tag, self.written[tag])
        elif opcode == DATA_IN:
            if word(header, 40) != len(self.data.setdefault(tag, bytearray())):
                raise Wrong("data isn't in order")
            self.data[tag] += data
        elif opcode == NOP_IN and tag == NO_TAG:
            self.answer(connection, header)
        else:
            if tag in self.replies:
                raise Wrong(f"tag {tag} is answered twice")
            connection.stat_sn += 1
            self.replies[tag] = header
            self.data.setdefault(tag, bytearray()).extend(data if opcode == NOP_IN else b"")

    def answer(self, connection, header):
        """Answers a ping of the target's; a NOP-In without a transfer tag wants no answer."""
        if word(header, 20) == NO_TAG:
            return
        answer = self.header(NOP_OUT | IMMEDIATE, FINAL, NO_TAG)
        answer[8:16], answer[20:24] = header[8:16], header[20:24]
        connection.send(answer)

    def send_data(self, cid, tag, data):
        """Sends what the R2T for a tag asks for."""
        asked = self.asked[tag]
        begin, end = word(asked, 40), word(asked, 40) + word(asked, 44)
        for number, offset in enumerate(range(begin, end, self.part)):
            part = data[offset:min(offset + self.part, end)]
            header = self.header(DATA_OUT, FINAL if offset + len(part) == end else 0, tag)
            header[8:16], header[20:24] = asked[8:16], asked[20:24]
            header[36:40], header[40:44] = number.to_bytes(4, "big"), offset.to_bytes(4, "big")
            self.connections[cid].send(header, part)

    # ---- requests whose answer is waited for

    def wait(self, *tags, cids=None):
        """Waits until one of these is answered. Gives the answer."""
        if not self.pump(lambda: any(tag in self.replies for tag in tags), cids=cids):
            raise Wrong(f"none of the tags {tags} is answered")
        return next(self.replies[tag] for tag in tags if tag in self.replies)

    def good(self, tag):
        answer = self.wait(tag)
        if answer[0] != RESPONSE or answer[3]:
            raise Wrong(f"tag {tag} is answered by {answer.hex()}")
        return bytes(self.data[tag])

    def close(self, cid):
        """Logs the session out, and waits for the end of its connections."""
        answer = self.wait(self.logout(cid))
        if answer[0] != LOGGED_OUT or answer[2]:
            raise Wrong(f"the Logout is answered by {answer.hex()}")
        self.pump(lambda: all(one.is_closed for one in self.connections.values()), 10)
        for one in self.connections.values():
            one.socket.close()
