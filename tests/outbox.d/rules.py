"""What goes out of a session, and when: the rules as a plain program, a call a method.

An outbox stands between a session and the connections. Words: a ticket has *left* once an abort, a Logout or the loss of
its connection took it out of its task set; it is *running* if it left, was started, and its unit wasn't reported stopped.
An answer to an abort or Logout has a *scope*: the tickets that left by what it is about, or before. Its initiator holds for
over by it what completed, too (`over`); so one that found nothing is fenced. A PDU is *under way* on a connection from the
moment it is handed out until it is known to have arrived (`acknowledged`), or was written.

`Outbox(options, wrong)` plays without the rule that `wrong` names.
"""

from typing import NamedTuple


class Options(NamedTuple):
    """The connections, by their places; the window; the most immediate requests of a connection that aren't answered; and
    whether what was written is under way until it is known to have arrived."""

    conns: range
    window: int
    immediate: int
    acknowledged: bool

    @property
    def looks_for_arrival(self):
        """In a session of one connection StatSN orders all."""
        return self.acknowledged and len(self.conns) > 1

    @property
    def numbered_room(self):
        """Places for replies to numbered requests: for one window that is taken, and for another one that waits."""
        return 2 * self.window + self.immediate * len(self.conns)

    @property
    def room(self):
        """Places for replies: those that wait, and those still to come of what is live, held or waits in the session."""
        return 2 * (self.window + self.immediate * len(self.conns))


class Entry(NamedTuple):
    """A PDU that waits on a connection. `time` orders the entries of all connections; `takes`: it takes a StatSN; `fenced`:
    the answer to a function of several tasks, or to an ABORT TASK that found none; `over` and `closes`: the tickets and
    connections that are over by it."""

    time: int
    kind: str
    ticket: int | None = None
    takes: bool = True
    fenced: bool = False
    numbered: bool = False
    over: frozenset = frozenset()
    closes: frozenset = frozenset()


class Answer(NamedTuple):
    """The answer to an abort or Logout that isn't due yet, in the order of the session's log. `own`: what left in its item;
    `over`: its scope, and what completed of what it is about; `aim`: the tag or the unit that it is about."""

    conn: int
    kind: str
    fenced: bool
    scope: frozenset
    over: frozenset
    own: frozenset = frozenset()
    closes: frozenset = frozenset()
    aim: tuple = ()

    def awaits(self, wrong):
        """The tickets that it waits for: all of its scope, that is also those that left before its item."""
        return self.own if wrong == "own-item" else self.scope


class Handed(NamedTuple):
    """A PDU that was handed out, with the MaxCmdSN that it shows."""

    entry: Entry
    shown: int


PING = Entry(-1, "ping", takes=False)
# A NOP-In that asks for no answer: it shows MaxCmdSN.
NOTICE = Entry(-1, "notice", takes=False)


ANSWERS = ("abort", "set", "logout")


class Outbox:
    def __init__(self, options, wrong=""):
        self.options, self.wrong = options, wrong
        self.time = 0
        self.queue = {conn: () for conn in options.conns}
        # What was handed out and isn't known to have arrived, in order; so many of it are written.
        self.handed = {conn: () for conn in options.conns}
        self.written = dict.fromkeys(options.conns, 0)
        self.undue = ()
        self.left = self.running = frozenset()
        # Closed by a Logout; of these, those closed by one on another connection; lost; joined.
        self.closed = self.cut = self.gone = self.joined = frozenset()
        # MaxCmdSN as it was last shown; and None instead, once a connection was lost on which that may have been.
        self.shown = self.reached = options.window
        # Of the last event: how many numbered requests were received, and how many numbered commands are live.
        self.numbers = (0, 0)

    def copy(self):
        new = object.__new__(Outbox)
        new.__dict__.update(self.__dict__)
        new.queue, new.handed, new.written = dict(self.queue), dict(self.handed), dict(self.written)
        return new

    # ---- the effects of an event

    def takes_more(self, conn):
        """It has joined, wasn't lost, and no Logout on another connection closed it."""
        return conn in self.joined - self.gone - self.cut

    def enter(self, conn, entry):
        """Something enters the queue of a connection, unless that takes nothing. One that a Logout on itself closes takes the
        answers that had to wait."""
        if self.takes_more(conn) and (conn not in self.closed or self.takes_still(entry)):
            self.queue[conn] += (entry._replace(time=self.time),)
        self.time += 1

    def takes_still(self, entry):
        """A closed connection takes what had to wait."""
        return entry.closes if self.wrong == "drops-answers" else entry.kind in ANSWERS

    def leave(self, tickets, started):
        """Tickets leave by an abort, a Logout or the loss of their connection. What waits of them is dropped."""
        self.left |= tickets
        self.running |= started if self.wrong != "dormant" else tickets
        if self.wrong != "data-stays":
            for conn, waiting in self.queue.items():
                self.queue[conn] = tuple(entry for entry in waiting if entry.ticket not in tickets)

    def answer(self, answer):
        """The answer to an abort or Logout. It enters when it is due."""
        if self.takes_more(answer.conn):
            self.undue += (answer,)
        self.settle()

    def close(self, conn, by_another):
        """A Logout closes a connection. What waits on one that another connection's Logout closes is dropped."""
        self.closed |= {conn}
        if by_another and self.wrong != "close-keeps":
            self.cut |= {conn}
            self.drop(conn)

    # ---- the other calls

    def put(self, conn, ticket):
        """A PDU of a live command, a Data-In or R2T, enters. Whether it did."""
        if ticket in self.left and self.wrong != "put-gone":
            return False
        self.enter(conn, Entry(0, "data", ticket, takes=False))
        return True

    def stopped(self, ticket):
        """The unit doesn't touch the medium for a ticket any more."""
        self.running -= {ticket}
        self.settle()

    def wrote(self, conn):
        """The oldest PDU that was handed out and wasn't written has gone into the transport."""
        self.written[conn] += 1
        self.settle()

    def arrived(self, conn, count):
        """So many of what was handed out are known to have arrived."""
        self.handed[conn] = self.handed[conn][count:]
        self.written[conn] = max(0, self.written[conn] - count)
        self.settle()

    def join(self, conn):
        self.joined |= {conn}

    def lose(self, conn):
        """The transport is gone. Nothing is under way there any more."""
        self.closed |= {conn}
        self.gone |= {conn}
        self.drop(conn)
        if self.wrong != "lost-notice":
            self.reached = None
        if self.wrong != "lose-keeps":
            self.handed[conn], self.written[conn] = (), 0
        self.settle()

    def drop(self, conn):
        self.queue[conn] = ()
        self.undue = tuple(answer for answer in self.undue if answer.conn != conn)

    # ---- what is due

    def open_conns(self):
        return [conn for conn in self.options.conns if conn in self.joined and conn not in self.gone]

    def others(self, conn):
        """The connections on which something may be under way that an answer on this one waits for."""
        return [other for other in (self.joined if self.wrong == "lose-keeps" else self.open_conns()) if other != conn]

    def unwritten(self, conn):
        return self.handed[conn][self.written[conn]:]

    def under_way(self, conn):
        return self.handed[conn] if self.options.looks_for_arrival else self.unwritten(conn)

    def holding(self, answer):
        """The other connections on which something of the answer's scope is under way. A Logout waits for none: what lies on
        a connection that is closed isn't read."""
        if answer.kind == "logout" or self.wrong == "in-transport":
            return []
        way = self.unwritten if self.wrong == "written" else self.under_way
        return [conn for conn in self.others(answer.conn) if any(pdu.entry.ticket in answer.awaits(self.wrong) for pdu in way(conn))]

    def is_due(self, answer, before):
        """No ticket of its scope is running; nothing of one is under way elsewhere; a Logout that closes its own connection goes
        behind every answer before it there; and answers that are about one tag, or one unit, go in their order."""
        if self.wrong == "at-once":
            return True
        if answer.awaits(self.wrong) & self.running and self.wrong != "not-stopped":
            return False
        if answer.conn in answer.closes and any(other.conn == answer.conn for other in before) and self.wrong != "logout-first":
            return False
        if answer.aim and any(other.aim == answer.aim for other in before):
            return False
        return not self.holding(answer)

    def settle(self):
        """What is due enters, in the order of the log."""
        undue = ()
        for answer in self.undue:
            if self.is_due(answer, undue):
                self.enter(answer.conn, Entry(0, answer.kind, None, True, answer.fenced, False, answer.over, answer.closes))
            else:
                undue += (answer,)
        self.undue = undue

    # ---- what may be handed out

    def wants_ping(self, conn):
        """Something waits for what was handed out here to arrive, or something of a ticket that left is under way here; and no
        ping is unanswered; not behind a Logout Response."""
        handed = self.handed[conn]
        if self.wrong == "no-ping" or not self.options.looks_for_arrival:
            return False
        if any(pdu.entry is PING for pdu in handed):
            return False
        if (conn in self.cut or any(conn in pdu.entry.closes for pdu in handed)) and self.wrong != "ping-behind":
            return False
        takes = any(pdu.entry.takes for pdu in handed)
        if self.wrong == "ping-idle" and takes:
            return False
        elsewhere = [entry for other in self.others(conn) for entry in self.queue[other]]
        return (any(pdu.entry.ticket in self.left for pdu in handed)
                or takes and any(entry.fenced for entry in elsewhere)
                or any(pdu.entry.fenced for pdu in handed) and any(entry.takes for entry in elsewhere))

    def passes_fence(self, conn, entry):
        """Nothing that takes a StatSN overtakes a fenced answer, nor is overtaken by one."""
        for other in self.others(conn):
            waiting, handed = self.queue[other], self.handed[other]
            if self.wrong != "fence-behind":
                if any(before.fenced and before.time < entry.time for before in waiting):
                    return False
                if self.options.acknowledged and self.wrong != "fence-unread" and any(pdu.entry.fenced for pdu in handed):
                    return False
            if entry.fenced and self.wrong != "fence-before":
                if self.wrong != "fence-queued" and any(before.takes and before.time < entry.time for before in waiting):
                    return False
                way = self.unwritten(other) if self.wrong == "fence-written" else self.under_way(other)
                if any(pdu.entry.takes for pdu in way):
                    return False
        return True

    def gives(self, conn):
        """What `next` of a connection would give: a ping before all that waits, or the first that waits."""
        if conn not in self.open_conns():
            return None
        waiting = self.queue[conn]
        if self.wants_ping(conn) and (self.wrong != "ping-last" or not waiting):
            return PING
        if waiting and (not waiting[0].takes or self.passes_fence(conn, waiting[0])):
            return waiting[0]
        return NOTICE if not waiting and self.wants_notice(conn) else None

    def wants_notice(self, conn):
        """All numbers that were shown are used, more may be shown, and nothing waits that shows them: the first connection that
        takes requests says so. What a lost connection showed may not have been read."""
        usable = [other for other in self.open_conns() if other not in self.closed]
        return (self.wrong != "no-notice" and usable[:1] == [conn]
                and (self.reached is None or self.reached <= self.numbers[0] and self.reached < self.max_shown()))

    def next(self, conn):
        """Hands out the next PDU of a connection, numbered now."""
        entry = self.gives(conn)
        if entry not in (PING, NOTICE):
            self.queue[conn] = self.queue[conn][1:]
        self.shown = self.reached = self.max_shown()
        self.handed[conn] += (Handed(entry, self.shown),)
        return entry

    def is_over(self, conn):
        """`next` says that the connection is closed: nothing waits there, and what was handed out is written."""
        waits = self.queue[conn] or any(answer.conn == conn for answer in self.undue)
        return conn in self.closed - self.gone and not waits and (conn in self.cut or not self.unwritten(conn))

    # ---- room

    def waiting(self):
        """The replies that wait."""
        return len(self.undue) + sum(entry.kind != "data" for waiting in self.queue.values() for entry in waiting)

    def waiting_numbered(self):
        return sum(entry.numbered for waiting in self.queue.values() for entry in waiting)

    def owing(self):
        """The tickets that left and are running, or something of which is under way."""
        way = {pdu.entry.ticket for conn in self.open_conns() for pdu in self.under_way(conn)}
        return len(self.running | (self.left & way))

    def may_take(self):
        """One more arrival's reply has room, and what it takes out; for what is live, held or waits there are further places. It
        never rules what has been taken."""
        return self.waiting() < self.options.room and self.owing() < self.options.room

    def max_shown(self):
        """MaxCmdSN as it is shown: the session's, less what waits or owes beyond a window's; and never back."""
        received, live = self.numbers
        window = self.options.window
        if self.wrong != "max-of-the-session":
            window = min(window, self.options.numbered_room - max(self.waiting_numbered(), self.owing()))
        return max(self.shown, received + window - live)

    def key(self):
        """What the future depends on."""
        rank = {time: place for place, time in enumerate(sorted(entry.time for q in self.queue.values() for entry in q))}
        return (tuple(tuple((rank[entry.time], *entry[1:]) for entry in q) for q in self.queue.values()), self.undue, self.running,
                tuple(tuple((pdu.entry[1:], pdu.shown) for pdu in h) for h in self.handed.values()), tuple(self.written.values()),
                self.left, self.closed, self.cut, self.gone, self.joined, self.shown - self.numbers[0], self.numbers[1],
                self.reached is not None and self.reached - self.numbers[0])
