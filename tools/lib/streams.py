"""Puts the bytes of a TCP connection together by sequence number, and splits them into PDUs.

Bytes that the capture lacks, since a packet was lost or cut, are a hole: of a PDU whose data lie there the header is known all
the same; where a header lies there, the next one is looked for where a segment begins, and of replies also within one: two headers in a
row, with tags that are outstanding.
"""

import heapq
from dataclasses import dataclass

from .pdu import DATA_IN, DATA_OUT, HEADER_SIZE, LOGIN, LOGIN_RESPONSE, NO_TAG, NOP_OUT, REJECT, REPLIES, REQUESTS, SCSI_COMMAND, \
    SCSI_RESPONSE, TEXT, number

DIGEST_SIZE = 4
IMMEDIATE_LOGIN = 0x43
OF_TARGET = 0x20
# The data of these are read, and those of the others are passed over.
WITH_DATA = (LOGIN, LOGIN_RESPONSE, SCSI_RESPONSE, REJECT)
# So many segments behind bytes that were acknowledged, and so many where nobody says so, show that they don't come any more.
ACKNOWLEDGED_PATIENCE, PATIENCE = 64, 1000
LONGEST_DATA = 1 << 24
# Of two replies one behind the other the second one expects a CmdSN no farther ahead.
MOST_AHEAD = 1 << 12


@dataclass(frozen=True)
class Pdu:
    """A PDU of a stream: its header and its data segment, as far as that is there, without additional headers, padding and
    digests."""
    header: bytes
    data: bytes


@dataclass(frozen=True)
class Chunk:
    """Bytes of a direction in their order, or a hole of so many: the frame and the time with which they came. Behind the bytes so many
    of their segment may be cut off."""
    frame: int
    time: float
    payload: bytes = b""
    hole: int = 0
    cut: int = 0


class Stream:
    """The bytes of one direction, in order, each once."""

    def __init__(self):
        self.next_place = None
        self.late = []
        self.segments = 0
        self.acknowledged = None
        self.since = 0
        self.last = (0, 0.0)

    def begin(self, sequence):
        """Says the number of the first byte. Without it the first segment that comes is the first one."""
        if self.next_place is None:
            self.next_place = sequence

    def place_of(self, sequence):
        """The place of a 32-bit number, which is near the next one."""
        return self.next_place + (sequence - self.next_place + 2**31) % 2**32 - 2**31

    def acknowledge(self, sequence):
        """The other side has all bytes before this number."""
        if self.next_place is not None:
            self.acknowledged = max(self.place_of(sequence), self.acknowledged or 0)

    def take(self, segment):
        """Takes a segment, and gives what is now in order: nothing, its own bytes, or also those of later ones. What is lacking
        for too long is a hole."""
        self.begin(segment.sequence)
        self.segments += 1
        heapq.heappush(self.late, (self.place_of(segment.sequence), self.segments, segment))
        yield from self.in_order()
        self.since = self.since + 1 if self.late else 0
        if self.late and self.since > (ACKNOWLEDGED_PATIENCE if self.is_acknowledged else PATIENCE):
            yield from self.behind_hole()
            self.since = 0

    @property
    def is_acknowledged(self):
        """Whether the other side has the bytes that are lacking."""
        return self.acknowledged is not None and self.next_place is not None and self.acknowledged > self.next_place

    def in_order(self):
        """What is in order."""
        while self.late and self.late[0][0] <= self.next_place:
            place, _, segment = heapq.heappop(self.late)
            rest = segment.payload[self.next_place - place:]
            end = place + len(segment.payload) + segment.missing
            self.next_place += len(rest)
            cut = end - self.next_place if end > self.next_place and self.is_cut(end) else 0
            if rest:
                yield self.chunk(segment, payload=rest, cut=cut)
            if cut:
                yield self.chunk(segment, hole=cut)
                self.next_place = end

    def chunk(self, segment, **what):
        """What is in order by a segment: with its frame and time, or those of what stands before it, if that came later."""
        self.last = max(self.last, (segment.frame, segment.time))
        return Chunk(*self.last, **what)

    def is_cut(self, end):
        """Whether the bytes up to this place come in no segment that waits: they were cut off."""
        return not (self.late and self.late[0][0] < end)

    def behind_hole(self):
        """What waits behind bytes that don't come any more."""
        place, _, segment = self.late[0]
        yield self.chunk(segment, hole=place - self.next_place)
        self.next_place = place
        yield from self.in_order()

    def finish(self):
        """What still waits as the capture ends, and a hole where the other side has more bytes than came; a FIN counts as one."""
        while self.late:
            yield from self.behind_hole()
        if self.is_acknowledged and self.acknowledged > self.next_place + 1:
            yield Chunk(*self.last, hole=self.acknowledged - self.next_place)
            self.next_place = self.acknowledged


def is_plausible(header, from_initiator):
    """Whether these 48 bytes may be the header of a PDU: the fields that are kept free are zeros."""
    opcode = header[0] & 0x3f
    if header[0] & 0x80 or opcode not in (REQUESTS if from_initiator else REPLIES) or header[4]:
        return False
    if opcode in (LOGIN, LOGIN_RESPONSE):
        return header[0] == (IMMEDIATE_LOGIN if from_initiator else LOGIN_RESPONSE) and header[2:4] == b"\0\0"
    if opcode == DATA_OUT:
        return not any(header[1:4]) or header[1:4] == b"\x80\0\0"
    if from_initiator:
        is_final = header[1] & 0x80 or opcode in (SCSI_COMMAND, TEXT)
        return bool(is_final) and header[2:4] == b"\0\0" and (number(header, 16, 19) != NO_TAG or opcode == NOP_OUT)
    if header[0] & 0x40:
        return False
    return opcode == DATA_IN or header[1] & 0x80 != 0


class Splitter:
    """Splits what one direction has into PDUs. Digests may be set while PDUs are taken from it.

    All opcodes of the target have a bit that those of the initiator lack. Where a PDU has the wrong one, or a hole has its header,
    the place of the next one is lost: it is looked for in later segments. `outstanding`: the tags of the requests without an answer, for
    the target's direction. `keeps_all_data`: also those that a capture isn't looked through for.
    """

    def __init__(self, from_initiator, keeps_all_data=False):
        self.from_initiator = from_initiator
        self.keeps_all_data = keeps_all_data
        self.opcode_bit = 0 if from_initiator else OF_TARGET
        self.is_lost = False
        self.header = bytearray()
        self.data = bytearray()
        self.wanted = range(0)
        self.place = 0
        self.end = 0
        self.header_digest = False
        self.data_digest = False
        self.knows_digests = True
        self.outstanding = set()

    def take(self, chunk):
        """Takes bytes or a hole, and gives the PDUs that are whole with them."""
        begin = self.begin_in(chunk) if self.is_lost else 0
        self.is_lost = begin is None
        if not self.is_lost:
            yield from self.take_bytes(chunk.payload[begin:])
            yield from self.take_hole(chunk.hole)

    def begin_in(self, chunk):
        """Where a PDU begins in a segment: with it, or at a chain of headers in it. None where none is found."""
        payload = chunk.payload
        if self.begins_in(payload, chunk.cut):
            return 0
        if self.from_initiator or not self.knows_digests or not self.outstanding:
            return None
        places = range(1, len(payload) - 2 * HEADER_SIZE + 1)
        return next((place for place in places if payload[place] in REPLIES and self.is_chain_at(payload, place)), None)

    def is_chain_at(self, payload, place):
        """Whether headers of two replies stand here, the second one where the first one's PDU ends: plausible ones, with tags of requests that
        are outstanding, of which the second doesn't expect a lower CmdSN."""
        if not self.is_reply_at(payload, place):
            return False
        first = payload[place:place + HEADER_SIZE]
        behind = place + self.extent(first)[2]
        if not self.is_reply_at(payload, behind):
            return False
        return (number(payload, behind + 28, behind + 31) - number(first, 28, 31)) % 2**32 < MOST_AHEAD

    def is_reply_at(self, payload, place):
        """Whether the header of a reply to a request that is outstanding stands here."""
        return self.is_header_at(payload, place) and number(payload, place + 16, place + 19) in self.outstanding

    def take_bytes(self, payload):
        """Takes bytes."""
        at = 0
        while at < len(payload) and not self.is_lost:
            if len(self.header) < HEADER_SIZE:
                count = min(HEADER_SIZE - len(self.header), len(payload) - at)
                self.header += payload[at:at + count]
                self.begin_pdu()
            else:
                count = min(self.end - self.place, len(payload) - at)
                if self.place < self.wanted.stop:
                    skipped = max(0, self.wanted.start - self.place)
                    self.data += payload[at + skipped:at + min(count, self.wanted.stop - self.place)]
                self.place += count
            at += count
            yield from self.whole()

    def take_hole(self, hole):
        """Takes a hole. Of data that it has a part of what comes before it is kept."""
        if not hole or self.is_lost:
            return
        if len(self.header) < HEADER_SIZE or self.end - self.place < hole:
            is_whole = len(self.header) == HEADER_SIZE
            if is_whole:
                self.wanted, self.place = range(0), self.end
                yield from self.whole()
            self.lose()
            return
        self.wanted = range(0)
        self.place += hole
        yield from self.whole()

    def begin_pdu(self):
        """Begins a PDU, if its header is whole."""
        if self.header[0] & OF_TARGET != self.opcode_bit:
            self.lose()
        elif len(self.header) == HEADER_SIZE:
            begin, length, self.end = self.extent(self.header)
            self.place = HEADER_SIZE
            self.data = bytearray()
            is_wanted = self.keeps_all_data or self.header[0] & 0x3f in WITH_DATA
            self.wanted = range(begin, begin + length if is_wanted else begin)

    def whole(self):
        """Gives the PDU that has come to its end."""
        if len(self.header) == HEADER_SIZE and self.place == self.end:
            pdu = Pdu(bytes(self.header), bytes(self.data))
            self.header = bytearray()
            yield pdu

    def extent(self, header):
        """Where the data of a PDU begin, how long they are, and where the PDU ends."""
        length = number(header, 5, 7)
        begin = HEADER_SIZE + 4 * header[4] + DIGEST_SIZE * self.header_digest
        return begin, length, begin + (length + 3) // 4 * 4 + (DIGEST_SIZE if self.data_digest and length else 0)

    def lose(self):
        """The place of the next header is lost."""
        self.is_lost, self.header = True, bytearray()

    def begins_in(self, payload, cut):
        """Whether a PDU begins with these bytes, of a segment that has some more, which were cut off: the header is plausible, and so
        is what stands where it ends. Where no login said which digests there are, those are taken with which a PDU ends where the
        segment does, or where another one begins."""
        if len(payload) < HEADER_SIZE or not is_plausible(payload, self.from_initiator):
            return False
        if self.knows_digests:
            return len(payload) < self.extent(payload)[2] + HEADER_SIZE or self.is_header_at(payload, self.extent(payload)[2])
        return any(self.ends_with(payload, cut, *digests) for digests in ((False, False), (True, True), (True, False), (False, True)))

    def is_header_at(self, payload, place):
        header = payload[place:place + HEADER_SIZE]
        return len(header) == HEADER_SIZE and is_plausible(header, self.from_initiator)

    def ends_with(self, payload, cut, header_digest, data_digest):
        """Whether a PDU with these digests, which stay then, ends with the segment, or another one follows."""
        self.header_digest, self.data_digest = header_digest, data_digest
        end = self.extent(payload)[2]
        return len(payload) + cut == end or self.is_header_at(payload, end)
