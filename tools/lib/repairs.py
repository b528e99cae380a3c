"""Makes up what a capture lacks of a session, so that its numbers go on: requests whose CmdSNs the target received, and replies whose
StatSNs it used. Of a capture that begins after the login, what was outstanding then is made up, too.

A request that was answered is made up with its tag, as one of the kind that such an answer is for. One of which nothing is known is a
NOP-Out: without a tag where no answer is lacking, for it has none then.
"""

from bisect import bisect_left, bisect_right
from dataclasses import dataclass

from .pdu import ASYNC, DATA_IN, LOGOUT, LOGOUT_RESPONSE, NO_TAG, NOP_IN, NOP_OUT, REJECT, SCSI_COMMAND, SCSI_RESPONSE, \
    TASK_MANAGEMENT, TASK_MANAGEMENT_RESPONSE, TEXT, TEXT_RESPONSE, DATA_OUT, SNACK, Reply, Request
from .sessions import Item

MODULUS, HALF = 1 << 32, 1 << 31
ENDLESS = 1 << 62
MOST_MISSING = 1 << 16
IMMEDIATE, FINAL, SIMPLE = 0x40, 0x80, 1
ABORT_TASK, SETS = 1, (2, 4, 5)
LEVEL_2 = (9, 10, 11, 12)
CLOSE_SESSION, CLOSE_CONNECTION = 0, 1
MADE_UP_TAG = 0xfffe0000
KINDS = {SCSI_RESPONSE: SCSI_COMMAND, DATA_IN: SCSI_COMMAND, NOP_IN: NOP_OUT, TASK_MANAGEMENT_RESPONSE: TASK_MANAGEMENT,
         LOGOUT_RESPONSE: LOGOUT, TEXT_RESPONSE: TEXT}


@dataclass(frozen=True)
class Lost:
    """A reply that the capture lacks: the frame before which it was sent, and the tag of its request."""
    frame: int
    time: float
    cid: int
    tag: int
    stat_sn: int


@dataclass
class Open:
    """A request without an answer: where it stands, where its tag is used again, and where something took it out first."""
    place: int
    item: Item
    again: int = None
    taken_out_at: int = None

    @property
    def at_most(self):
        """The place before which it was answered, if at all."""
        return min(place for place in (self.again, self.taken_out_at, ENDLESS) if place is not None)


def near(number_, reference):
    """The number without bound whose last 32 bits these are, near another one."""
    return reference + (number_ - reference + HALF) % MODULUS - HALF


def takes_stat_sn(item):
    """Whether a reply has a StatSN of its own."""
    reply = item.reply
    return reply.ends_command or reply.opcode in (TASK_MANAGEMENT_RESPONSE, TEXT_RESPONSE, LOGOUT_RESPONSE, REJECT, ASYNC) \
        or reply.opcode == NOP_IN and reply.tag != NO_TAG


def answers(item):
    """Whether a reply answers a request, which has no other one behind it."""
    return takes_stat_sn(item) and item.reply.opcode != ASYNC


def takes_out(item, other):
    """Whether a request, a function or a Logout, takes out one that came before it."""
    request, before = item.request, other.request
    if request.opcode == LOGOUT:
        return request.function == CLOSE_SESSION or request.cid == other.cid
    if request.opcode != TASK_MANAGEMENT:
        return False
    if request.function == ABORT_TASK:
        return (other.cid, other.tag) == (item.cid, request.referenced_tag)
    return request.function in SETS and before.opcode == SCSI_COMMAND and before.unit == request.unit


class Repair:
    """What is made up of a session. The places are those of its items, before each of which something may be put."""

    def __init__(self, session):
        self.session = session
        self.items = session.items
        self.put = {}
        self.tags = {item.tag for item in self.items}
        self.unasked, self.unanswered, self.front = [], [], []
        self.requests = self.replies = 0
        self.lift()
        self.match()

    # ---- what is lacking

    def lift(self):
        """CmdSN and ExpCmdSN of each item, without bound, and the numbers that are lacking."""
        self.numbers, self.expected = {}, {}
        last = self.session.first if not self.session.is_late else self.begin_late()
        self.first = last
        for place, item in enumerate(self.items):
            if item.request and item.request.is_numbered:
                self.numbers[place] = last = near(item.request.cmd_sn, last)
            elif item.reply:
                self.expected[place] = near(item.reply.exp_cmd_sn, last)
        received = max(self.expected.values(), default=self.first)
        known = set(self.numbers.values())
        self.missing = [value for value in range(self.first, min(received, self.first + MOST_MISSING + len(self.items)))
                        if value not in known]

    def begin_late(self):
        """The first CmdSN of a session whose login isn't there, and what else the login would have said."""
        session = self.session
        numbers = [item.request.cmd_sn for item in self.items if item.request and item.request.is_numbered]
        first_reply = next(item.reply for item in self.items if item.reply)
        session.window = (first_reply.max_cmd_sn - first_reply.exp_cmd_sn + 1) % MODULUS
        if any(item.request and item.request.opcode == TASK_MANAGEMENT and item.request.function in LEVEL_2 for item in self.items):
            session.level = 2
        begin = near(numbers[0], MODULUS)
        for cid in session.connections:
            replies = (item.reply for item in self.items if item.reply and item.cid == cid and takes_stat_sn(item))
            session.connections[cid] = next((reply.stat_sn for reply in replies), 0)
        return min([begin, near(first_reply.exp_cmd_sn, begin), *(near(value, begin) for value in numbers[:1000])])

    def match(self):
        """Finds the replies to no request, and the requests without an answer."""
        waiting = {}
        for place, item in enumerate(self.items):
            key = item.cid, item.tag
            if item.request and item.request.opcode not in (DATA_OUT, SNACK) and item.tag != NO_TAG:
                if key in waiting:
                    waiting[key].again = place
                    self.unanswered.append(waiting[key])
                self.note_abort(place, item, waiting)
                waiting[key] = Open(place, item)
            elif item.reply and answers(item) and item.tag != NO_TAG:
                if key in waiting:
                    waiting.pop(key)
                else:
                    self.unasked.append(place)
        self.unanswered += waiting.values()
        self.unanswered.sort(key=lambda one: (len(self.items) if one.again is None else one.again, one.place))

    @staticmethod
    def note_abort(place, item, waiting):
        """Notes the requests that a function or a Logout at this place takes out."""
        for one in waiting.values():
            if one.taken_out_at is None and takes_out(item, one.item):
                one.taken_out_at = place

    # ---- what is made up

    def run(self):
        """Makes all of it up, and puts it among the items."""
        for place in self.unasked:
            self.make_request(place)
        self.make_front()
        for cid in self.session.connections:
            self.make_replies(cid)
        for value in self.missing:
            place = self.before(value, None)
            cid = self.items[place].cid if place < len(self.items) else min(self.session.connections)
            self.insert(place, self.header(NOP_OUT, NO_TAG, value), cid)
        self.session.first = self.first % MODULUS
        self.session.items = [one for place in range(len(self.items) + 1)
                              for one in (*self.put.get(place, ()), *self.items[place:place + 1])]

    def make_request(self, place):
        """Makes up the request that a reply answers. A command has the lowest number that is lacking and that the target had received; or, if
        it was outstanding as the capture began, it stands in front of all others. What isn't answered by a unit is answered as it comes, so
        it is an immediate one."""
        item = self.items[place]
        header = self.request_for(item)
        is_command = item.reply.ends_command
        value = self.take_missing(self.first, self.expected[place]) if is_command else None
        if value is not None:
            header[24:28] = (value % MODULUS).to_bytes(4, "big")
            self.insert(self.before(value, item.cid, place), header, item.cid)
        elif self.session.is_late and is_command:
            self.front.append((header, item.cid))
        else:
            header[0] |= IMMEDIATE
            header[24:28] = item.reply.exp_cmd_sn.to_bytes(4, "big")
            self.insert(place, header, item.cid)

    def make_front(self):
        """Gives what was outstanding as the capture began the numbers before all others, and puts it in front of them."""
        self.first -= len(self.front)
        behind = self.put.pop(0, [])
        for value, (header, cid) in enumerate(self.front, self.first):
            header[24:28] = (value % MODULUS).to_bytes(4, "big")
            self.insert(0, header, cid, first=True)
        self.put.setdefault(0, []).extend(behind)

    def request_for(self, item):
        """The header of a request that such a reply answers; a Reject gives it back."""
        reply = item.reply
        if reply.opcode == REJECT and len(reply.tail) >= 48:
            return bytearray(reply.tail[:48])
        kind = KINDS.get(reply.opcode, NOP_OUT)
        if kind == SCSI_COMMAND:
            return self.command(item.tag, 0)
        header = self.header(kind, item.tag, 0)
        if kind == TASK_MANAGEMENT:
            header[1] |= ABORT_TASK
            header[20:24] = self.new_tag().to_bytes(4, "big")
        elif kind == LOGOUT:
            header[1] |= CLOSE_CONNECTION
            header[20:22] = item.cid.to_bytes(2, "big")
        return header

    def make_replies(self, cid):
        """Makes up what was answered where StatSNs are lacking on a connection."""
        expected, since = self.session.connections[cid], -1
        for place, item in enumerate(self.items):
            if not item.reply or item.cid != cid or not takes_stat_sn(item):
                continue
            ahead = near(item.reply.stat_sn, expected) - expected
            if 0 < ahead <= MOST_MISSING:
                for stat_sn, one in enumerate(self.answered_between(since, place, cid, ahead), expected):
                    self.make_reply(one, since, place, cid, stat_sn % MODULUS)
            if ahead >= 0:
                expected, since = item.reply.stat_sn + 1, place

    def make_reply(self, chosen, since, place, cid, stat_sn):
        """Makes up what was answered before a reply: a request that has no answer in the capture, or a ping where there is none."""
        item = self.items[place]
        if chosen:
            tag = chosen.item.tag
            if chosen.item.request.opcode == SCSI_COMMAND:
                self.insert(min(place, chosen.at_most), self.good(item, tag), cid, is_reply=True)
        else:
            tag = self.make_asked(since, place, cid)
        self.replies += 1
        self.session.lost.append(Lost(item.frame, item.time, cid, tag, stat_sn))

    def make_asked(self, since, place, cid):
        """Makes up the request of an answer between two places of which nothing is known, and gives its tag. Where the target had just received
        a number that is lacking, it is a ping; where it had one before, a command that is completed here; else an immediate ping."""
        item, tag = self.items[place], self.new_tag()
        value = self.take_missing(self.expected_before(place), self.expected[place])
        if value is None and self.make_command(since, place, cid, tag):
            return tag
        header = self.header(NOP_OUT, tag, item.reply.exp_cmd_sn if value is None else value)
        header[0] |= IMMEDIATE if value is None else 0
        self.insert(place if value is None else self.before(value, cid, place), header, cid)
        return tag

    def make_command(self, since, place, cid, tag):
        """Makes up a command with a number that is lacking, and its answer between two places. Whether there is a number with which nothing
        takes it out before."""
        for value in self.missing[:bisect_left(self.missing, self.expected[place])]:
            header, begin = self.command(tag, value), self.before(value, cid, place)
            made = Item(0, 0.0, cid, Request(bytes(header)))
            end = next((other for other in range(begin, place) if self.items[other].request and takes_out(self.items[other], made)), place)
            if end > since:
                self.missing.remove(value)
                self.insert(begin, header, cid)
                self.insert(end, self.good(self.items[place], tag), cid, is_reply=True)
                return True
        return False

    def command(self, tag, cmd_sn):
        """The header of a command, of a unit that the session has one for."""
        header = self.header(SCSI_COMMAND, tag, cmd_sn)
        header[1] |= SIMPLE
        header[8:16] = next((other.request.header[8:16] for other in self.items
                             if other.request and other.request.opcode == SCSI_COMMAND), bytes(8))
        return header

    def answered_between(self, since, place, cid, count):
        """Takes so many requests that were answered between two places, as those that nothing took out before the last of them, or else ones
        that may have been answered before something took them out. None for each that there isn't: it was one of those that are lacking. With
        fewer of these the answers came later than they were sent, and were of requests that were taken out before."""
        received = self.expected[place]
        candidates = [one for one in self.unanswered
                      if one.item.cid == cid and one.place < place and self.numbers.get(one.place, received - 1) < received]
        candidates.sort(key=lambda one: (one.at_most <= since, one.taken_out_at is not None and one.taken_out_at < place))
        chosen = [one for one in candidates if one.at_most > since][:count]
        rest = max(0, count - len(chosen) - bisect_left(self.missing, received))
        chosen = candidates[:len(chosen) + rest]
        taken = {id(one) for one in chosen}
        self.unanswered = [one for one in self.unanswered if id(one) not in taken]
        return sorted(chosen, key=lambda one: min(place, one.at_most)) + [None] * (count - len(chosen))

    @staticmethod
    def header(opcode, tag, cmd_sn):
        """The header of a request. A NOP-Out has no transfer tag, as it isn't asked for."""
        header = bytearray(48)
        header[0:2] = bytes([opcode, FINAL])
        header[16:20] = tag.to_bytes(4, "big")
        header[20:24] = b"\xff\xff\xff\xff" if opcode == NOP_OUT else bytes(4)
        header[24:28] = (cmd_sn % MODULUS).to_bytes(4, "big")
        return header

    @staticmethod
    def good(item, tag):
        """The header of a SCSI Response that says GOOD, with the numbers of another reply."""
        header = bytearray(48)
        header[0:2] = bytes([SCSI_RESPONSE, FINAL])
        header[16:20] = tag.to_bytes(4, "big")
        header[24:36] = item.reply.header[24:36]
        return header

    def new_tag(self):
        """A tag that no request of the session has."""
        tag = next(tag for tag in range(MADE_UP_TAG + len(self.tags) % 0x8000, NO_TAG) if tag not in self.tags)
        self.tags.add(tag)
        return tag

    def take_missing(self, least, below):
        """Takes the lowest number that is lacking, is no lower than one number and lower than another one."""
        place = bisect_left(self.missing, least)
        return self.missing.pop(place) if place < len(self.missing) and self.missing[place] < below else None

    def expected_before(self, place):
        """What the target had told to expect before a reply."""
        return next((self.expected[other] for other in range(place - 1, -1, -1) if other in self.expected), self.first)

    def before(self, value, cid, at_most=None):
        """Before which item a request with this number stands: before those of its connection with a higher number, and before
        what shows that the target had received it."""
        most = len(self.items) if at_most is None else at_most
        for place in range(self.begins_at(value), most):
            if self.expected.get(place, value) > value:
                return place
            if self.numbers.get(place, value) > value and (cid is None or self.items[place].cid == cid):
                return place
        return most

    def begins_at(self, value):
        """A place before which no number is as high as this one."""
        if not hasattr(self, "highest"):
            self.highest, most = [], self.first - 1
            for place in range(len(self.items)):
                most = max(most, self.numbers.get(place, most), self.expected.get(place, most + 1) - 1)
                self.highest.append(most)
        return bisect_right(self.highest, value - 1)

    def insert(self, place, header, cid, is_reply=False, first=False):
        """Puts something that is made up before an item: with a frame that is before its own."""
        beside = self.items[min(place, len(self.items) - 1)]
        frame = 0 if first else max(0, beside.frame - 1)
        item = Item(frame, 0.0 if first else beside.time, cid, None if is_reply else Request(bytes(header)),
                    Reply(bytes(header)) if is_reply else None, made_up=True)
        self.requests += not is_reply
        self.put.setdefault(place, []).append(item)


def repair(session):
    """Makes up what the capture lacks of a session, and notes how much."""
    if not session.items or not (session.is_late or session.losses):
        return
    found = Repair(session)
    found.run()
    if session.is_late:
        session.notes.append("begun after the login: its ISID, TSIH and names aren't known")
    behind = ", ".join(str(loss.frame) for loss in session.losses[:8]) + (" .." if len(session.losses) > 8 else "")
    if session.losses:
        session.notes.append(f"PDUs are lacking behind {len(session.losses)} frame(s): {behind}")
    if found.requests or found.replies:
        unfound = ", or that couldn't be found behind a hole" if session.losses else ""
        session.notes.append(f"made up: {found.requests} requests and {found.replies} replies that the capture lacks{unfound}")
