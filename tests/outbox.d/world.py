"""A session, a target and an initiator around an outbox, and what is promised of what goes out.

The session is played by its moves, and so is the medium. A PDU that was written lies in the transport of its connection
until the initiator reads it, whenever that is; so do the initiator's requests until the target takes them. The initiator
keeps to the MaxCmdSN that it was shown.
"""

from rules import ANSWERS, NOTICE, PING, Answer, Entry, Outbox


class Broken(Exception):
    """A promise that was broken."""


def promise(holds, name):
    if not holds:
        raise Broken(name)


class World:
    def __init__(self, options, tickets, one_tag, unread, wrong):
        self.options, self.tickets, self.one_tag, self.unread = options, tickets, one_tag, unread
        self.box = Outbox(options, wrong)
        self.state = dict.fromkeys(tickets, "new")  # new, dormant, live, done, aborted
        self.conn = {}
        # Started, and neither completed nor stopped.
        self.medium = frozenset()
        # What the initiator holds for over: since the answer was handed out, and since it was read.
        self.answered = self.silent = frozenset()
        # Connections whose Logout Response was handed out, and was read.
        self.ended = self.shut = frozenset()
        self.last = dict.fromkeys(options.conns, -1)
        self.last_taking = dict.fromkeys(options.conns, -1)
        self.last_fenced = dict.fromkeys(options.conns, -1)
        self.read = dict.fromkeys(options.conns, 0)
        # The requests that lie unread on their way to the target: the answer to a ping, with how much arrived, or a number.
        self.inward = {conn: () for conn in options.conns}
        self.sent = self.received = 0
        self.allowed = options.window
        # The immediate requests of a connection whose answers the initiator hasn't read.
        self.immediate = dict.fromkeys(options.conns, 0)
        # The replies that the session sent on a connection and that weren't handed out.
        self.unanswered = dict.fromkeys(options.conns, 0)
        self.box.numbers = (0, 0)
        self.box.join(0)

    def copy(self):
        new = object.__new__(World)
        new.__dict__.update(self.__dict__)
        new.box = self.box.copy()
        for name in ("state", "conn", "last", "last_taking", "last_fenced", "read", "inward", "immediate", "unanswered"):
            setattr(new, name, dict(getattr(self, name)))
        return new

    # ---- what may happen

    def live(self):
        return [ticket for ticket in self.tickets if self.state[ticket] in ("live", "dormant")]

    def tag(self, ticket):
        return 0 if self.one_tag else ticket

    def same_tag(self, ticket):
        return frozenset(t for t in self.tickets if self.state[t] != "new" and self.tag(t) == self.tag(ticket))

    def takes_arrivals(self, conn):
        return not self.inward[conn] and self.box.may_take()

    def moves(self):
        yield from self.requests()
        yield from self.transports()
        yield from self.units()
        for conn in self.options.conns:
            if conn not in self.box.joined | self.box.closed:
                yield ("join", conn)

    def requests(self):
        box, live = self.box, self.live()
        usable = [conn for conn in box.open_conns() if conn not in box.closed]
        fresh = next((ticket for ticket in self.tickets if self.state[ticket] == "new"), None)
        is_free = fresh is not None and all(self.tag(ticket) != self.tag(fresh) for ticket in live)
        # While a number lies unread, those behind it are held.
        numbered = self.sent == self.received and self.sent < self.allowed
        named = {self.tag(ticket): ticket for ticket in self.tickets if self.state[ticket] != "new"}
        for conn in usable:
            if self.unread and self.sent < self.allowed:
                yield ("send", conn)
            if len(usable) > 1:
                yield ("lose", conn)
            if not self.takes_arrivals(conn):
                continue
            if numbered:
                yield ("nop", conn)
                if is_free:
                    yield ("start", fresh, conn)
                    yield ("enter", fresh, conn)
            if self.immediate[conn] < self.options.immediate:
                yield from (("abort", ticket, conn) for ticket in named.values())
                yield ("abort_set", conn)
                unjoined = [other for other in self.options.conns if other not in box.joined | box.closed]
                yield from (("logout", other, conn) for other in usable + unjoined)
                if len(usable) > 1:
                    yield ("logout_session", conn)

    def transports(self):
        box = self.box
        for conn in box.open_conns():
            if box.gives(conn):
                yield ("next", conn)
            if box.unwritten(conn):
                yield ("written", conn)
            if self.read[conn] < box.written[conn]:
                yield ("read", conn)
            if self.options.acknowledged and any(pdu.entry.takes for pdu in box.handed[conn][: self.read[conn]]):
                yield ("acknowledge", conn)
            if self.inward[conn] and (self.inward[conn][0] == "pong" or box.may_take()):
                yield ("receive", conn)
            if box.is_over(conn):
                yield ("lose", conn)

    def units(self):
        for ticket in self.tickets:
            if self.state[ticket] == "dormant":
                yield ("enable", ticket)
            if self.state[ticket] == "live":
                yield ("complete", ticket)
                yield ("data", ticket)
            if self.state[ticket] == "aborted" and self.box.wrong == "put-gone" and self.conn[ticket] not in self.box.closed:
                yield ("data", ticket)
            if ticket in self.box.running:
                yield ("stopped", ticket)

    # ---- what happens

    def do(self, move):
        getattr(self, "do_" + move[0])(*move[1:])
        self.box.numbers = (self.received, len(self.live()))

    def do_join(self, conn):
        self.box.join(conn)

    def do_start(self, ticket, conn):
        self.do_enter(ticket, conn)
        self.do_enable(ticket)

    def do_enter(self, ticket, conn):
        self.number()
        self.state[ticket], self.conn[ticket] = "dormant", conn

    def number(self):
        self.sent += 1
        self.received += 1

    def do_enable(self, ticket):
        self.state[ticket] = "live"
        self.medium |= {ticket}

    def do_complete(self, ticket):
        self.state[ticket] = "done"
        self.medium -= {ticket}
        self.enter(self.conn[ticket], Entry(0, "response", ticket, numbered=True))

    def enter(self, conn, entry):
        self.unanswered[conn] += 1
        self.box.enter(conn, entry)

    def do_data(self, ticket):
        self.box.put(self.conn[ticket], ticket)

    def do_nop(self, conn):
        self.number()
        self.enter(conn, Entry(0, "nop", numbered=True))

    def do_send(self, conn):
        self.sent += 1
        self.inward[conn] += (self.sent,)

    def do_receive(self, conn):
        first, *rest = self.inward[conn]
        self.inward[conn] = tuple(rest)
        if first == "pong":
            self.ponged(conn)
        else:
            # Those that lie unread execute in the order of their numbers; which one is read first makes no difference here.
            self.received += 1
            self.enter(conn, Entry(0, "nop", numbered=True))

    def do_abort(self, ticket, conn):
        """With response 0 what has its tag and left is over; with 1, where none was found, what completed, too."""
        same = self.same_tag(ticket)
        there = [t for t in same if self.state[t] in ("live", "dormant")]
        scope = self.not_done(same)
        over = scope if there else same
        self.immediate[conn] += 1
        if there or self.box.wrong != "no-task":
            is_fenced = not there and self.box.wrong != "fence-no-task"
            self.take_out(there, Answer(conn, "abort", is_fenced, scope, over, aim=("tag", self.tag(ticket))))
        else:
            self.enter(conn, Entry(0, "abort", over=over))

    def do_abort_set(self, conn):
        every = frozenset(ticket for ticket in self.tickets if self.state[ticket] != "new")
        self.immediate[conn] += 1
        self.take_out(self.live(), Answer(conn, "set", True, self.not_done(every), every, aim=("unit",)))

    def not_done(self, tickets):
        """Those of them that didn't complete."""
        return frozenset(ticket for ticket in tickets if self.state[ticket] != "done")

    def do_logout(self, closing, conn):
        self.immediate[conn] += 1
        self.log_out([closing], conn)

    def do_logout_session(self, conn):
        self.immediate[conn] += 1
        self.log_out(list(self.options.conns), conn)

    def log_out(self, closing, conn):
        for other in closing:
            self.box.close(other, other != conn)
        mine = frozenset(ticket for ticket in self.tickets if self.conn.get(ticket) in closing and self.state[ticket] != "done")
        self.take_out([t for t in self.live() if t in mine], Answer(conn, "logout", False, mine, mine, closes=frozenset(closing)))

    def do_lose(self, conn):
        self.box.lose(conn)
        self.read[conn], self.inward[conn] = 0, ()
        mine = [ticket for ticket in self.live() if self.conn[ticket] == conn]
        self.take_out(mine, None)

    def take_out(self, tickets, answer):
        started = frozenset(ticket for ticket in tickets if self.state[ticket] == "live")
        for ticket in tickets:
            self.state[ticket] = "aborted"
        self.box.leave(frozenset(tickets), started)
        if answer:
            self.unanswered[answer.conn] += 1
            self.box.answer(answer._replace(own=frozenset(tickets)))
        else:
            self.box.settle()

    def do_stopped(self, ticket):
        self.medium -= {ticket}
        self.box.stopped(ticket)

    def do_written(self, conn):
        self.box.wrote(conn)

    def do_read(self, conn):
        entry, shown = self.box.handed[conn][self.read[conn]]
        self.read[conn] += 1
        if self.options.acknowledged and conn not in self.shut and not self.is_given_up(conn, entry):
            promise(entry.ticket not in self.silent, "silent after, as the initiator sees it")
        self.silent |= entry.over
        self.shut |= entry.closes
        self.allowed = max(self.allowed, shown)
        if entry is PING:
            self.inward[conn] += ("pong",)
        if entry.kind in ANSWERS:
            self.immediate[conn] -= 1

    def do_acknowledge(self, conn):
        read = self.box.handed[conn][: self.read[conn]]
        self.arrived(conn, max(place for place, pdu in enumerate(read) if pdu.entry.takes) + 1)

    def ponged(self, conn):
        """The answer to a ping is heard: what was handed out before it has arrived."""
        handed = self.box.handed[conn][: self.read[conn]]
        count = max([place + 1 for place, pdu in enumerate(handed) if pdu.entry is PING] + [0])
        if self.box.wrong == "ping-stat":
            count = max([place + 1 for place, pdu in enumerate(handed[:count]) if pdu.entry.takes] + [0])
        self.arrived(conn, count)

    def arrived(self, conn, count):
        self.read[conn] -= count
        self.box.arrived(conn, count)

    def do_next(self, conn):
        entry = self.box.next(conn)
        promise(conn in self.box.joined, "nothing before the connection joined")
        promise(conn not in self.ended, "closed: nothing behind a Logout Response")
        promise(entry.ticket not in self.answered, "silent after")
        promise(not entry.over & self.medium, "still before")
        self.see_way(conn, entry)
        if entry not in (PING, NOTICE):
            promise(entry.time > self.last[conn], "in the order in which they entered")
            self.last[conn] = entry.time
        if entry.kind not in ("ping", "notice", "data"):
            self.unanswered[conn] -= 1
        if entry.takes:
            self.see_fence(conn, entry)
        self.answered |= entry.over
        self.ended |= entry.closes

    def see_way(self, conn, entry):
        """Nothing of what is over by an answer is under way on another connection, but on one that it closes."""
        for other in self.box.open_conns():
            if other != conn and other not in entry.closes:
                unread = self.box.handed[other][self.read[other]:]
                way = [pdu.entry for pdu in (unread if self.options.acknowledged else self.box.unwritten(other))]
                over = [one for one in way if one.ticket in entry.over and not self.is_given_up(other, one)]
                promise(not over, "silent after: nothing is under way elsewhere")

    def is_given_up(self, conn, entry):
        """It is of a ticket that completed, on a connection that the initiator closes by a Logout on another one. Its response
        was dropped with all that waited there, so that the fence knows no more of it; no new ticket comes there."""
        return conn in self.box.cut and self.state.get(entry.ticket) == "done"

    def see_fence(self, conn, entry):
        for other in self.options.conns:
            if other == conn:
                continue
            promise(self.last_fenced[other] < entry.time, "fence: what entered before it goes out before it")
            promise(not entry.fenced or self.last_taking[other] < entry.time, "fence: what entered behind it goes out behind it")
            if other not in self.box.open_conns():
                continue
            if self.options.acknowledged:
                unread = self.box.handed[other][self.read[other]:]
                promise(not entry.fenced or not any(pdu.entry.takes for pdu in unread), "fence: read before it")
                promise(not any(pdu.entry.fenced for pdu in unread), "fence: read before what is behind it")
            elif entry.fenced:
                promise(not any(pdu.entry.takes for pdu in self.box.unwritten(other)), "fence: written before it")
        self.last_taking[conn] = entry.time
        if entry.fenced:
            self.last_fenced[conn] = entry.time

    # ---- the law

    def drain(self, order):
        """Each running ticket is stopped, each PDU written and read, each ping answered, each request taken for which there is
        room, each closed connection lost; nothing is acknowledged but by pings. Then nothing waits any more."""
        for ticket in sorted(self.box.running & self.medium):
            self.do_stopped(ticket)
        moved = True
        while moved:
            moved = False
            for conn in order:
                while (name := self.owed(conn)) is not None:
                    promise(name != "lose" or conn in self.box.cut or not self.unanswered[conn], "no reply is lost")
                    self.do((name, conn))
                    moved = True
        box = self.box
        promise(not box.undue and not any(box.queue[conn] for conn in box.open_conns()), "no deadlock")
        promise(not any(self.inward[conn] for conn in box.open_conns()), "no deadlock: a request isn't taken")
        kept = [conn for conn in box.open_conns() if conn not in box.cut]
        promise(not any(self.unanswered[conn] for conn in kept), "no reply is lost")
        usable = [conn for conn in kept if conn not in box.closed]
        promise(not usable or self.allowed > self.received or box.max_shown() <= self.allowed, "no deadlock: the window")

    def owed(self, conn):
        box = self.box
        if conn not in box.open_conns():
            return None
        if box.gives(conn):
            return "next"
        if box.unwritten(conn):
            return "written"
        if self.read[conn] < box.written[conn]:
            return "read"
        if self.inward[conn] and (self.inward[conn][0] == "pong" or box.may_take()):
            return "receive"
        return "lose" if box.is_over(conn) else None

    def key(self):
        entries = [(entry, other) for queue in self.box.queue.values() for entry in queue for other in self.options.conns]
        order = tuple((entry.time > self.last_fenced[conn], entry.time > self.last_taking[conn]) for entry, conn in entries)
        return (self.box.key(), tuple(self.state.values()), tuple(sorted(self.conn.items())), self.medium, self.answered,
                self.silent, self.ended, self.shut, tuple(self.read.values()), tuple(self.inward.values()),
                self.sent - self.received, self.allowed - self.received, tuple(self.immediate.values()), tuple(self.unanswered.values()), order)
