"""The moves of a trial: a target and an initiator that do what they may, by chance."""

import struct
from collections import namedtuple

from trial import (ABORT_TASK, ABORT_TASK_SET, CLEAR_TASK_SET, COMMAND, DATA_IN, FUNCTION, FUNCTION_RESPONSE, LOGOUT,
                   LOGOUT_RESPONSE, NOP, NOP_IN, NO_TAG, R2T, REJECT, SCSI_RESPONSE, TEXT_RESPONSE, UNIT_RESET, Command,
                   Connection, Pdu, Reader, later, promise)

UNITS = 2
# What an abort or Logout is about: the tags of what left, and of what completed.
Scope = namedtuple("Scope", "left completed")
# The tag of the Logouts by which the target tells its session that a connection is lost.
LOSS_TAG = 0xEEEE0000


def header(opcode, flags, unit, tag, word, numbers, last=0):
    """The 48 bytes of a request: `word` are bytes 20 to 23, `numbers` CmdSN and ExpStatSN."""
    return struct.pack(">BB6xBB6xIIIII12x", opcode, flags, 0, unit, tag, word, *numbers, last).hex()


class Trial:
    def __init__(self, player, chance, acknowledged, conns):
        self.player, self.chance = player, chance
        self.first, self.window = chance.choice([1, 0xFFFFFFFC]), chance.choice([2, 4, 8])
        self.reader = Reader(acknowledged)
        self.conns = {cid: Connection(cid, chance.choice([1, 0xFFFFFFFD])) for cid in range(1, conns + 1)}
        player.call("open", self.first, self.window, UNITS, 8, 4, int(acknowledged), 0, *self.conns)
        # What the initiator may number, and has numbered.
        self.next, self.allowed = self.first, (self.first + self.window - 1) % 2**32
        self.tag = self.count = 0
        self.commands, self.tickets = {}, {}
        # Requests that are to be answered, with their connection; what an abort or Logout is about, and once it was carried out
        # what left by then and what completed by then of that; and the functions of several tasks.
        self.asked, self.scopes, self.closes, self.of_set = {}, {}, {}, set()
        # The session is over, and the Logout that closed it.
        self.over, self.last = False, None
        for cid in self.conns:
            if cid == 1 or chance.random() < 0.9:
                self.join(cid)

    # ---- connections

    def join(self, cid):
        conn = self.conns[cid]
        conn.joined = self.player.asks("join", cid, conn.next_stat_sn)
        promise(conn.joined or conn.closed or conn.lost, "a connection may join")

    def usable(self):
        return [conn for conn in self.conns.values() if conn.is_open and not conn.closed]

    def open_conns(self):
        return [conn for conn in self.conns.values() if conn.is_open]

    # ---- requests

    def numbers(self, conn, immediate):
        """CmdSN and ExpStatSN: what was read is acknowledged by chance."""
        if self.chance.random() < 0.5:
            conn.said = conn.next_stat_sn
        number = self.next
        if not immediate:
            self.next = (self.next + 1) % 2**32
        return number, conn.said

    def arrive(self, conn, text, transfer_tag=NO_TAG):
        exp_stat_sn = int(text[56:64], 16)
        self.player.call("heard", conn.cid, exp_stat_sn, transfer_tag)
        self.see(self.player.call("arrive", conn.cid, text), conn)

    def may_number(self):
        return later(self.allowed, self.next)

    def new_tag(self, conn):
        self.tag += 1
        self.asked[self.tag] = conn.cid
        return self.tag

    def move_command(self):
        conn = self.chance.choice(self.usable())
        immediate = self.chance.random() < 0.15
        if not immediate and not self.may_number():
            return
        tag, unit = self.new_tag(conn), self.chance.randrange(UNITS)
        self.commands[tag] = Command(tag, conn.cid, unit)
        attribute = self.chance.choice([1, 1, 1, 2, 3])
        self.arrive(conn, header(COMMAND | 0x40 * immediate, 0x80 | attribute, unit, tag, 0, self.numbers(conn, immediate)))

    def move_nop(self):
        conn = self.chance.choice(self.usable())
        if self.may_number():
            self.arrive(conn, header(NOP, 0x80, 0, self.new_tag(conn), NO_TAG, self.numbers(conn, False)))

    def move_function(self):
        conn = self.chance.choice(self.usable())
        immediate = self.chance.random() < 0.8
        if not immediate and not self.may_number():
            return
        function = self.chance.choice([ABORT_TASK, ABORT_TASK, ABORT_TASK_SET, CLEAR_TASK_SET, UNIT_RESET])
        command = self.chance.choice(list(self.commands.values()) or [Command(0x999, 1, 0)])
        tag = self.new_tag(conn)
        self.of_set |= {tag} if function != ABORT_TASK else set()
        word = command.tag if function == ABORT_TASK else NO_TAG
        self.scopes[tag] = ("tag", command.tag) if function == ABORT_TASK else ("unit", command.unit)
        text = header(FUNCTION | 0x40 * immediate, 0x80 | function, command.unit, tag, word, self.numbers(conn, immediate), self.next)
        self.arrive(conn, text)

    def move_logout(self):
        conn = self.chance.choice(self.usable())
        closing = self.chance.choice(list(self.conns.values()))
        reason = 0 if self.chance.random() < 0.1 else 1
        tag = self.new_tag(conn)
        self.scopes[tag] = ("logout",)
        self.arrive(conn, header(LOGOUT | 0x40, 0x80 | reason, 0, tag, closing.cid << 16, self.numbers(conn, True)))

    def move_lose(self):
        if len(self.usable()) > 1:
            self.lose(self.chance.choice(self.usable()))

    def lose(self, conn):
        """A connection broke: the session is told by a Logout whose answer goes nowhere."""
        self.player.call("lose", conn.cid)
        self.gone(conn)
        text = header(LOGOUT | 0x40, 0x81, 0, LOSS_TAG + conn.cid, conn.cid << 16, (self.next, conn.said))
        self.see(self.player.call("arrive", conn.cid, text), conn)

    def gone(self, conn):
        conn.lost = True
        conn.handed.clear(), conn.written.clear(), conn.pings.clear()
        self.reader.lost(conn.cid)

    # ---- effects

    def see(self, effects, conn):
        """What an event comes to. A command is told to its unit once the event is over."""
        enabled, request, closing = [], None, []
        for line in effects:
            name, *words = line.split()
            numbers = [int(word) for word in words]
            if name == "executes":
                self.end_item(request, closing)
                request, closing = numbers[1], []
            elif name == "enter":
                self.tickets[numbers[0]] = self.commands[request]
                self.commands[request].ticket, self.commands[request].live = numbers[0], True
            elif name == "enable":
                enabled.append(self.tickets[numbers[0]])
            elif name == "leave":
                command = self.tickets[numbers[0]]
                command.live, command.left, command.completed = False, request is not None, request is None
                if request is None:
                    command.touches = False
            elif name == "close":
                closing.append(self.conns[numbers[0]])
            elif name == "over":
                closing, self.over, self.last = list(self.conns.values()), True, request
        self.end_item(request, closing)
        for command in enabled:
            command.enabled = command.touches = command.live

    def end_item(self, request, closing):
        """What the answer to a request is about, by what left or completed in its item or before."""
        aim = self.scopes.get(request)
        if isinstance(aim, tuple):
            about = {"tag": lambda c: c.tag == aim[1], "unit": lambda c: c.unit == aim[1],
                     "logout": lambda c: any(c.cid == conn.cid for conn in closing)}[aim[0]]
            mine = [command for command in self.commands.values() if about(command)]
            self.scopes[request] = Scope({c.tag for c in mine if c.left}, {c.tag for c in mine if c.completed})
        for conn in closing:
            if not conn.closed:
                self.closes.setdefault(request, set()).add(conn.cid)
                conn.cut = self.asked.get(request) != conn.cid
            conn.closed = True

    # ---- units

    def move_complete(self):
        command = self.pick(lambda c: c.live and c.touches)
        if command:
            self.see(self.player.call("done", command.ticket, 0), self.conns[command.cid])

    def move_data(self):
        command = self.pick(lambda c: c.live and c.touches)
        if command:
            opcode = self.chance.choice([DATA_IN, R2T])
            text = struct.pack(">BB14xI20xI4x", opcode, 0, command.tag, command.put).hex()
            taken = self.player.call("put", command.ticket, text)
            promise(taken in (["taken"], ["Full"], ["Closed"]), f"data of a live command is taken: {taken}")
            command.put += taken == ["taken"]

    def move_late_data(self):
        command = self.pick(lambda c: c.left and c.ticket)
        if command:
            text = struct.pack(">BB14xI20xI4x", DATA_IN, 0, command.tag, command.put).hex()
            promise(self.player.call("put", command.ticket, text) == ["Gone"], "no data of a command that left is taken")

    def move_stop(self):
        command = self.pick(lambda c: c.left and c.touches)
        if command:
            self.stop(command)

    def stop(self, command):
        command.touches = False
        promise(self.player.asks("stopped", command.ticket), "a command that left runs until it is stopped")

    def pick(self, test):
        fit = [command for command in self.commands.values() if test(command)]
        return self.chance.choice(fit) if fit else None

    def move_text(self):
        conn = self.chance.choice(self.usable())
        self.player.call("own", conn.cid, struct.pack(">BB14xI28x", TEXT_RESPONSE, 0x80, NO_TAG).hex())

    # ---- transports

    def move_next(self):
        self.hand_out(self.chance.choice(self.open_conns()))

    def hand_out(self, conn):
        """One PDU goes out, if one may: whether one did, or the connection is to be lost."""
        given = self.player.call("next", conn.cid)[0]
        if given == "nothing":
            return False
        if given == "over":
            self.player.call("lose", conn.cid)
            self.gone(conn)
            return True
        self.count += 1
        pdu = Pdu(given, conn.cid, self.count)
        scope = self.scope_of(pdu)
        pdu.fenced = pdu.opcode == FUNCTION_RESPONSE and pdu.bytes[2] == (0 if pdu.tag in self.of_set else 1)
        running = [tag for tag in scope if self.commands[tag].touches]
        promise(not running, "still before: no command that is over touches the medium")
        self.see_way(conn, pdu, scope)
        if pdu.opcode == NOP_IN and not pdu.is_ping or pdu.opcode in (SCSI_RESPONSE, FUNCTION_RESPONSE, LOGOUT_RESPONSE):
            self.check_once(pdu)
        conn.handed.append(pdu)
        self.reader.went_out(conn, pdu, scope)
        if pdu.opcode == LOGOUT_RESPONSE and pdu.bytes[2] == 0:
            for cid in self.closes.get(pdu.tag, ()):
                self.conns[cid].over = True
        return True

    def scope_of(self, pdu):
        """What is over by a PDU: the answer to an abort, also one that finds no task, or to a Logout. What completed is over, too,
        by the answer to a function of several tasks, and by one that found no task."""
        scope = self.scopes.get(pdu.tag)
        is_answer = pdu.opcode in (FUNCTION_RESPONSE, LOGOUT_RESPONSE) and pdu.bytes[2] in (0, 1)
        if not is_answer or not isinstance(scope, Scope):
            return set()
        covers_completed = pdu.opcode == FUNCTION_RESPONSE and (pdu.tag in self.of_set or pdu.bytes[2] == 1)
        return scope.left | scope.completed if covers_completed else scope.left

    def see_way(self, conn, pdu, scope):
        """Nothing of what is over by a PDU is under way on another connection. A Logout waits for none: what lies on a connection that
        is closed isn't read."""
        for other in self.open_conns():
            if other is not conn and not other.shut and not (other.closed and pdu.opcode == LOGOUT_RESPONSE):
                way = [*other.handed, *(other.written if self.reader.acknowledged else ())]
                over = [one for one in way if one.is_of_command and one.tag in scope and not other.gave_up(self.commands[one.tag])]
                promise(not over, "silent after: nothing is under way elsewhere")

    def check_once(self, pdu):
        if pdu.tag != NO_TAG:
            promise(self.asked.pop(pdu.tag, None) == pdu.conn, "each reply once, on the connection of its request")

    def move_write(self):
        conn = self.chance.choice(self.open_conns())
        if conn.handed:
            self.write(conn)

    def write(self, conn):
        pdu = conn.handed.popleft()
        pdu.written = self.count
        if not conn.shut:
            conn.written.append(pdu)
        self.player.call("written", conn.cid)

    def move_read(self):
        conn = self.chance.choice(self.open_conns())
        if conn.written:
            self.read(conn)

    def read(self, conn):
        pdu = conn.written.popleft()
        self.reader.reads(conn, pdu, self.commands, self.scope_of(pdu))
        if later(pdu.max, self.allowed):
            self.allowed = pdu.max
        if pdu.is_ping:
            conn.pings.append(pdu.transfer_tag)
        if pdu.opcode == LOGOUT_RESPONSE and pdu.bytes[2] == 0:
            closes = self.conns if pdu.tag == self.last else self.closes.get(pdu.tag, ())
            for cid in set(closes) - {conn.cid}:
                self.shut(self.conns[cid])

    def shut(self, conn):
        """The initiator reads no more on a connection that he closed by another one."""
        conn.shut = True
        conn.written.clear(), conn.pings.clear()
        self.reader.lost(conn.cid)

    def move_pong(self):
        conn = self.chance.choice(self.open_conns())
        if conn.pings:
            self.pong(conn)

    def pong(self, conn):
        """A ping is answered; its ExpStatSN may be an old one."""
        tag = conn.pings.popleft()
        self.arrive(conn, header(NOP | 0x40, 0x80, 0, NO_TAG, tag, (self.next, conn.said)), tag)

    # ---- a trial

    REQUESTS = ("command",) * 6 + ("nop",) * 2 + ("function",) * 3 + ("text",)
    RARE = ("logout", "lose")
    OTHERS = ("complete", "data", "data", "late_data", "stop", "next", "next", "next", "write", "write", "write", "read", "read",
              "read", "pong")

    def run(self, moves):
        for _ in range(moves):
            if self.over or not self.open_conns():
                break
            draw = self.chance.random()
            if draw < 0.3:
                if self.usable() and self.player.asks("may"):
                    name = self.chance.choice(self.RARE if self.chance.random() < 0.06 else self.REQUESTS)
                    getattr(self, "move_" + name)()
            elif draw < 0.31:
                for conn in self.conns.values():
                    if not conn.joined and not conn.closed and not conn.lost:
                        self.join(conn.cid)
            else:
                getattr(self, "move_" + self.chance.choice(self.OTHERS))()
        self.drain()

    def drain(self):
        """All that left is stopped, all that is live completes, all is written and read, and each ping is answered: then every
        request on a connection that is open still has its answer."""
        moved = True
        while moved:
            moved = False
            for command in list(self.commands.values()):
                if command.touches:
                    moved = True
                    if command.live:
                        self.see(self.player.call("done", command.ticket, 0), self.conns[command.cid])
                    else:
                        self.stop(command)
            for conn in self.open_conns():
                moved |= self.drain_conn(conn)
        for tag, cid in self.asked.items():
            conn = self.conns[cid]
            promise(not conn.is_open or conn.closed or self.is_silent(tag), f"no deadlock: request {tag} is answered")

    def is_silent(self, tag):
        """A command that an abort took out isn't answered."""
        command = self.commands.get(tag)
        return command is not None and (command.left or not command.ticket)

    def drain_conn(self, conn):
        moved = False
        while conn.is_open and (conn.handed or conn.written or conn.pings or self.hand_out(conn)):
            moved = True
            if conn.lost:
                break
            if conn.handed:
                self.write(conn)
            elif conn.written:
                self.read(conn)
            elif conn.pings:
                self.pong(conn)
        return moved
