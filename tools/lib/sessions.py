"""Finds the iSCSI sessions of a capture: their connections, requests and replies."""

from collections import Counter
from dataclasses import dataclass, field

from .pdu import DATA_IN, LOGIN, LOGIN_RESPONSE, NO_TAG, NOP_IN, R2T, REJECT, SCSI_RESPONSE, Reply, Request, number
from .streams import HEADER_SIZE, Splitter, Stream, is_plausible

KEPT_DATA = (SCSI_RESPONSE, REJECT)
NAMES = ("InitiatorName", "TargetName")
# Behind these another reply to the same request may come.
WITH_MORE = (DATA_IN, R2T)
# So many segments of a connection are looked at for the beginning of a PDU.
PATIENCE = 1000
# ExpCmdSN and the CmdSNs of a session are no farther apart.
NEAR = 1 << 16


@dataclass(frozen=True)
class Item:
    """A PDU of the Full Feature Phase: a request or a reply, whole with this frame. `made_up`: it isn't in the capture."""
    frame: int
    time: float
    cid: int
    request: Request = None
    reply: Reply = None
    made_up: bool = False

    @property
    def tag(self):
        """The tag of the request, or of the request that is answered. A Reject gives that request back."""
        if self.request:
            return self.request.tag
        if self.reply.opcode == REJECT and len(self.reply.tail) >= 20:
            return number(self.reply.tail, 16, 19)
        return self.reply.tag

    @property
    def is_ping(self):
        """Whether it is a NOP-In of the target's own."""
        return bool(self.reply) and self.reply.opcode == NOP_IN and self.reply.tag == NO_TAG


@dataclass
class Session:
    """A session: its connections with their first StatSN, and its items in the order of frames."""
    isid: bytes
    tsih: int
    names: tuple
    first: int
    window: int
    level: int
    is_discovery: bool
    port: int = None
    is_late: bool = False
    connections: dict = field(default_factory=dict)
    items: list = field(default_factory=list)
    notes: list = field(default_factory=list)
    losses: list = field(default_factory=list)
    lost: list = field(default_factory=list)
    end: int = None
    capture_end: float = None

    def cut(self, frame, why):
        """Leaves out what comes after this frame, since a recording can't have it."""
        if self.end is None or frame < self.end:
            self.end = frame
            self.items = [item for item in self.items if item.frame <= frame]
            self.notes = [f"{why}; what follows frame {frame} is left out"]

    def add(self, item):
        if self.end is None or item.frame <= self.end:
            self.items.append(item)


@dataclass(frozen=True)
class Loss:
    """Behind this frame a connection has bytes that the capture lacks, and in them PDUs; from another frame on it is read again."""
    frame: int
    cid: int
    again: int = None


class Connection:
    """A TCP connection as it is read: its two directions, its login, and its session once that is done."""

    def __init__(self):
        self.streams = {}
        self.splitters = {}
        self.initiator = None
        self.begins_with_syn = False
        self.has_payload = False
        self.is_read = True
        self.is_orphan = False
        self.looked_at = 0
        self.has_hole = False
        self.is_cut_short = False
        self.keys, self.early = {}, []
        self.login = None
        self.session = None
        self.late_cid = None
        self.lost_since, self.last_frames = {}, {}
        self.outstanding = set()

    @property
    def cid(self):
        return self.late_cid if self.login is None else number(self.login, 20, 21)

    @property
    def why_unread(self):
        """Why the connection has no session, in words."""
        if self.is_orphan:
            return "a connection of a session whose first login isn't in the capture"
        if self.login:
            return "a login that doesn't succeed"
        if self.is_cut_short:
            return "a connection whose frames are cut too short for headers of 48 bytes"
        return "a connection that isn't iSCSI"

    def decide(self, initiator, target):
        """Says which side is which."""
        self.initiator = initiator
        self.splitters = {initiator: Splitter(True), target: Splitter(False)}
        for splitter in self.splitters.values():
            splitter.is_lost = not self.begins_with_syn
            splitter.knows_digests = self.begins_with_syn
            splitter.outstanding = self.outstanding

    def learn(self, data):
        """Takes the keys of a Login PDU. The last value that either side gives is the agreed one."""
        pairs = (pair.partition("=") for pair in data.decode("utf-8", "replace").split("\0"))
        self.keys.update((key, value) for key, separator, value in pairs if separator)

    def note_outstanding(self, item):
        """Notes which requests have no answer yet, for the splitter of the target's direction."""
        outstanding = self.outstanding
        if item.request:
            outstanding.add(item.tag)
        elif item.reply.ends_command or item.reply.opcode not in WITH_MORE:
            outstanding.discard(item.tag)

    def use_digests(self):
        """From the end of the login on PDUs have the digests that were agreed on."""
        for splitter in self.splitters.values():
            splitter.header_digest = self.keys.get("HeaderDigest") == "CRC32C"
            splitter.data_digest = self.keys.get("DataDigest") == "CRC32C"


class Sessions:
    """Takes segments, and has the sessions that they belong to. `port`: the target's, or any."""

    def __init__(self, port=None):
        self.port = port
        self.between = {}
        self.connections = []
        self.sessions = []
        self.latest = 0.0

    def connection(self, segment):
        """The connection of a segment. A SYN of a client's begins another one, if that isn't its first one again."""
        found = self.between.get((segment.source, segment.target))
        is_new = segment.begins and segment.acknowledged is None
        if found and not (is_new and found.has_payload):
            return found
        made = Connection()
        made.streams = {segment.source: Stream(), segment.target: Stream()}
        self.connections.append(made)
        self.between[segment.source, segment.target] = self.between[segment.target, segment.source] = made
        return made

    def take(self, segment):
        """Takes the next segment of the capture."""
        if self.port and self.port not in (segment.source[1], segment.target[1]) or segment.source == segment.target:
            return
        self.latest = max(self.latest, segment.time)
        connection = self.connection(segment)
        stream = connection.streams[segment.source]
        if segment.begins:
            connection.begins_with_syn = True
            stream.begin(segment.sequence)
            if not connection.splitters and (self.port == segment.target[1] or not self.port and segment.acknowledged is None):
                connection.decide(segment.source, segment.target)
        if segment.acknowledged is not None:
            connection.streams[segment.target].acknowledge(segment.acknowledged)
        if not (segment.payload or segment.missing) or not connection.is_read:
            return
        connection.has_payload = True
        for chunk in stream.take(segment):
            self.take_chunk(connection, segment.source, segment.target, chunk)

    def take_chunk(self, connection, source, target, chunk):
        """Takes what is in order of a direction."""
        connection.is_cut_short |= chunk.cut > 0 and len(chunk.payload) < HEADER_SIZE
        if not connection.is_read or not self.knows_sides(connection, source, target, chunk):
            return
        connection.has_hole |= bool(chunk.hole)
        splitter = connection.splitters[source]
        was_lost = splitter.is_lost
        for pdu in splitter.take(chunk):
            self.take_pdu(connection, source, target, chunk, pdu)
            if not connection.is_read:
                return
        before = connection.last_frames.get(source, chunk.frame)
        connection.last_frames[source] = chunk.frame
        if splitter.is_lost and not was_lost:
            connection.lost_since[source] = before if chunk.hole else chunk.frame
        elif was_lost and not splitter.is_lost and connection.session and source in connection.lost_since:
            since = connection.lost_since.pop(source)
            connection.session.losses.append(Loss(since, connection.cid, chunk.frame))

    def knows_sides(self, connection, source, target, chunk):
        """Whether it is known which side is the initiator. Where the beginning isn't there, the first PDU tells it."""
        if connection.splitters:
            return True
        connection.looked_at += 1
        payload = chunk.payload
        is_whole = len(payload) >= HEADER_SIZE
        if self.port:
            connection.decide(*((source, target) if target[1] == self.port else (target, source)))
        elif is_whole and is_plausible(payload, True):
            connection.decide(source, target)
        elif is_whole and is_plausible(payload, False):
            connection.decide(target, source)
        elif connection.looked_at > PATIENCE:
            connection.is_read = False
        return bool(connection.splitters)

    def take_pdu(self, connection, source, target, chunk, pdu):
        """Takes a PDU: one of the login, or one of the Full Feature Phase."""
        opcode = pdu.header[0] & 0x3f
        from_initiator = source == connection.initiator
        is_late = not connection.begins_with_syn or connection.has_hole
        if not connection.session and is_late and opcode not in (LOGIN, LOGIN_RESPONSE):
            self.begin_late(connection, target if from_initiator else source)
        if connection.session:
            while connection.early:
                self.take_item(connection, True, *connection.early.pop(0))
            self.take_item(connection, from_initiator, chunk, pdu)
        elif from_initiator and opcode == LOGIN:
            connection.login = pdu.header
            connection.learn(pdu.data)
        elif not from_initiator and opcode == LOGIN_RESPONSE and connection.login:
            connection.learn(pdu.data)
            if ends_login(pdu.header):
                connection.session = self.join(connection, pdu.header, chunk.frame, source[1])
                connection.is_orphan = connection.session is None
                connection.is_read = not connection.is_orphan
                connection.use_digests()
        elif from_initiator and connection.login:
            # Its login may have been answered by bytes that the capture lacks.
            connection.early.append((chunk, pdu))
        elif not is_late:
            connection.is_read = False

    def take_item(self, connection, from_initiator, chunk, pdu):
        """Takes a PDU of the Full Feature Phase."""
        opcode = pdu.header[0] & 0x3f
        request = Request(pdu.header) if from_initiator else None
        reply = None if request else Reply(pdu.header, pdu.data if opcode in KEPT_DATA else b"")
        item = Item(chunk.frame, chunk.time, connection.cid, request, reply)
        connection.note_outstanding(item)
        connection.session.add(item)

    def begin_late(self, connection, target):
        """A session of a connection whose login isn't in the capture. Its numbers are known later."""
        session = Session(bytes(6), 0, ("", ""), 0, 1, 1, False, port=target[1], is_late=True)
        connection.session, connection.late_cid = session, 1
        session.connections[connection.cid] = None
        self.sessions.append(session)

    def join(self, connection, response, frame, port):
        """The session of a connection whose login is done: a new one, or that of its ISID and TSIH. None for one that
        the capture doesn't have from its beginning.

        A target may give a connection that asks to join a session a session of its own; it is what the answer says.
        """
        isid, asked, tsih = connection.login[8:14], number(connection.login, 14, 15), number(response, 14, 15)
        names = tuple(connection.keys.get(name, "") for name in NAMES)
        found = [session for session in self.sessions
                 if not session.is_late and (session.isid, session.tsih, session.names) == (isid, tsih, names)]
        joins = asked == tsih
        if joins and not found:
            return None
        session = found[-1] if joins else self.open(connection, response, isid, names, port)
        if connection.cid in session.connections:
            session.cut(frame, f"connection {connection.cid} logs in a second time")
        else:
            session.connections[connection.cid] = (number(response, 24, 27) + 1) % 2**32
        return session

    def open(self, connection, response, isid, names, port):
        """A new session, with the numbers of the last Login Response."""
        expected, greatest = number(response, 28, 31), number(response, 32, 35)
        session = Session(isid, number(response, 14, 15), names, expected, (greatest - expected + 1) % 2**32,
                          2 if connection.keys.get("iSCSIProtocolLevel") == "2" else 1,
                          connection.keys.get("SessionType") == "Discovery", port=port)
        self.sessions.append(session)
        return session

    def finish(self):
        """Takes what waits behind bytes that the capture lacks, and puts the items of each session in the order of frames."""
        for connection in self.connections:
            ends = list(connection.streams)
            for source, target in (ends, ends[::-1]):
                for chunk in connection.streams[source].finish():
                    self.take_chunk(connection, source, target, chunk)
            for frame in connection.lost_since.values():
                if connection.session:
                    connection.session.losses.append(Loss(frame, connection.cid))
        for session in self.sessions:
            session.items.sort(key=lambda item: item.frame)
            session.capture_end = self.latest
        kept = [session for session in self.sessions if not session.is_late or has_numbers(session)]
        for connection in self.connections:
            if connection.session not in kept:
                connection.session = None
        self.sessions = kept

    def unread(self):
        """How many connections have no session, by why."""
        return Counter(connection.why_unread for connection in self.connections if not connection.session)


def has_numbers(session):
    """Whether requests and replies of a session tell numbers that go together: else it is none of iSCSI."""
    numbers = [item.request.cmd_sn for item in session.items if item.request and item.request.is_numbered]
    told = [item.reply.exp_cmd_sn for item in session.items if item.reply]
    return bool(numbers and told) and (told[0] - numbers[0] + NEAR) % 2**32 < 2 * NEAR


def ends_login(response):
    """Whether a Login Response lets the Full Feature Phase begin: T bit, next stage 3, status class 0."""
    return response[1] & 0x83 == 0x83 and response[36] == 0


def find(segments, port=None):
    """The sessions of a capture, and how many connections have none, by why."""
    sessions = Sessions(port)
    for segment in segments:
        sessions.take(segment)
    sessions.finish()
    return sessions.sessions, sessions.unread()
