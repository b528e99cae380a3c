"""The session of a report: its events, and the lines of their effects."""

from answers import Answers
from cmdsns import Numbers
from headers import ABORT_TASK, ANSWERS, COMMAND, FUNCTION, REJECT, Request
from serial import MASK, below
from task_sets import TaskSets


class Session(Answers):
    """Follows a report line by line."""

    def __init__(self, conns, options, say):
        self.say, self.units = say, options.units
        self.stat_sns = dict(conns)
        self.open, self.unclosed = set(conns), set()  # unclosed: a Logout was answered, and no line closes them yet
        self.numbers = Numbers(int(options.first, 16), options.window, say)
        self.sets = TaskSets(say)
        self.waiting = []  # immediate functions
        self.barred = {}  # by unit: the greatest CmdSN of an acknowledged function over its task set
        self.by_tag = {}  # the last command of a connection and a tag
        self.effects = {name: getattr(self, "on_" + name.replace("-", "_")) for name in (
            "deliver", "immediate", "wait", "void", "empty", "enter", "enable", "leave", "send", "close-conn",
            "close-session", "ignore")}

    def event(self, line, words, effects):
        """An event and its effects: pairs of a line and its words."""
        self.arrived = self.part = self.done = None
        self.replies, self.heads, self.took = [], [], []
        self.say.line = line
        ignored = any(words[0] == "ignore" for _, words in effects)
        if ignored and len(effects) > 1:
            self.say("window", "the event is ignored, and has an effect")
        if words[0] == "C":
            self.arrival(Request(int(words[1]), words[2], line), ignored, bool(effects))
        else:
            self.completion(int(words[1]), words[2], ignored)
        for self.say.line, words in effects:
            self.effects[words[0]](*words[1:])
        self.end_part()
        self.end_event(ignored)

    def arrival(self, request, ignored, has_effects):
        self.arrived = request
        if request.conn not in self.open:
            if not ignored:
                self.say("logout", f"a request on connection {request.conn}, which is closed, isn't ignored")
        elif request.numbered:
            self.numbers.arrive(request, ignored)
        elif request.opcode in ANSWERS and (ignored or not has_effects):
            self.say("order", "an immediate request is neither executed nor rejected")

    def completion(self, ticket, status, ignored):
        task = self.sets.tasks.get(ticket)
        if task is not None and task.live and task.enabled and not task.acknowledged:
            self.done, self.status = task, status
            if ignored:
                self.say("command", f"the completion of ticket {ticket} is ignored")

    def end_part(self):
        """What a request must have led to when the next one executes, or when the event ends."""
        request = self.part
        if request is not None and not request.answered and request.wants_answer() and request.ticket is None:
            law = "command" if request.opcode == COMMAND else "reply"
            self.say(law, f"the request of tag {request.tag} gets no answer")

    def end_event(self, ignored):
        if self.done is not None and (self.done.live or not self.done.answered):
            self.say("command", f"ticket {self.done.ticket} is completed, and doesn't leave or isn't answered")
        for task in self.heads:
            if task.live and not task.enabled:
                self.say("task-set", f"HEAD OF QUEUE ticket {task.ticket} isn't enabled as it enters")
        for conn in sorted(self.unclosed):
            self.say("logout", f"connection {conn} is logged out, and not closed")
        self.unclosed = set()
        self.numbers.sent(self.replies, ignored)

    def end(self):
        """What was acknowledged executes, unless its connection is closed."""
        for sn, request in self.numbers.received.items():
            if request is not None and request.conn in self.open and below(sn, self.numbers.exp):
                self.say("order", f"CmdSN {sn:08x} is acknowledged, and never executes")

    def begin(self, request, conn, sn, tag):
        self.end_part()
        self.part, self.took, self.part_exp = request, [], self.numbers.exp
        if request is None:
            return
        if (request.conn, request.sn, request.tag) != (conn, sn, tag):
            self.say("order", f"the request that waits there is that of CmdSN {request.sn:08x} and tag {request.tag}")
        if request.conn not in self.open:
            self.say("logout", f"a request of connection {request.conn}, which is closed, executes")
        request.executed = True
        if request.opcode == COMMAND:
            self.by_tag[request.conn, request.tag] = request
            bar = self.barred.get(request.unit)
            request.acknowledged |= bar is not None and request.numbered and below(request.sn, bar)

    def is_immediate(self, request, key):
        return request is not None and request.immediate and (request.conn, request.sn, request.tag) == key

    def on_deliver(self, conn, sn, tag):
        request = self.numbers.deliver(int(sn, 16))
        self.begin(request, int(conn), int(sn, 16), tag)

    def on_immediate(self, conn, sn, tag):
        key = int(conn), int(sn, 16), tag
        request = self.arrived
        if not self.is_immediate(request, key) or request.executed or request.waited:
            request = next((other for other in self.waiting if self.is_immediate(other, key)), None)
            if request is not None:
                self.waiting.remove(request)
            else:
                self.say("order", "no immediate request of that connection, CmdSN and tag waits")
        self.begin(request, *key)

    def on_wait(self, conn, sn, tag):
        self.end_part()
        request, self.part = self.arrived, None
        if not self.is_immediate(request, (int(conn), int(sn, 16), tag)) or request.opcode != FUNCTION:
            self.say("order", "what waits is no immediate function that arrives here")
            return
        if request.executed or request.waited:
            self.say("order", f"the function of tag {tag} waits, and it waited or executed before")
            return
        request.waited = True
        self.waiting.append(request)

    def on_void(self, sn):
        sn, numbers, cause = int(sn, 16), self.numbers, self.part
        if numbers.is_received(sn) or not numbers.inside(sn, numbers.high):
            self.say("window", f"CmdSN {sn:08x} is void, and it was received or is outside the window")
        if cause is None or (cause.opcode, cause.function, cause.ref_sn) != (FUNCTION, ABORT_TASK, sn):
            self.say("abort", f"CmdSN {sn:08x} is void, and no ABORT TASK refers to it")
        elif not below(sn, cause.sn):
            self.say("abort", f"CmdSN {sn:08x} is void, and the function's own is no greater")
        self.took.append(None)
        numbers.receive(sn, None)

    def on_empty(self, sn):
        request = self.numbers.received.get(int(sn, 16))
        if request is None:
            self.say("order", f"no request is held at CmdSN {sn}")
        elif self.part is None or not self.part.may_take(request):
            self.say("abort", f"the request at CmdSN {sn} is taken out, and nothing here covers it")
        else:
            request.ended = self.part
            self.by_tag[request.conn, request.tag] = request
            self.took.append(request)
        self.numbers.receive(int(sn, 16), None)

    def on_enter(self, ticket, unit, attribute):
        request = self.part
        if request is None or request.opcode != COMMAND or request.ticket is not None:
            self.say("task-set", f"ticket {ticket} enters, and no SCSI Command executes here")
            return
        if request.answered:
            self.say("command", f"ticket {ticket} enters after its command was answered")
        if request.acknowledged:
            self.say("abort", f"ticket {ticket} enters, and a function that covers it was acknowledged")
        if request.unit != int(unit) or int(unit) >= self.units or request.attribute != attribute:
            self.say("task-set", f"ticket {ticket} enters with another unit or attribute than its command's")
            request.unit, request.attribute = int(unit), attribute
        self.sets.enter(int(ticket), request)
        if attribute == "head":
            self.heads.append(request)

    def on_enable(self, ticket):
        self.sets.enable(int(ticket))

    def on_leave(self, ticket):
        task = self.sets.tasks.get(int(ticket))
        if task is not None and task.acknowledged:
            self.say("abort", f"ticket {ticket} leaves after its abort was acknowledged")
        elif task is None or not task.live:
            self.say("task-set", f"ticket {ticket} leaves, and it isn't live")
        elif self.part is not None and self.part.may_take(task):
            task.ended = self.part
            self.took.append(task)
        elif task is not self.done:
            self.say("command", f"ticket {ticket} leaves, and nothing here completes or covers it")
        if task is not None:
            self.sets.leave(task)

    def on_send(self, conn, digits):
        conn, kind, tag, data = int(conn), digits[:2], digits[32:40], digits[96:]
        self.replies.append((self.say.line, int(digits[56:64], 16), int(digits[64:72], 16)))
        stat_sn = int(digits[48:56], 16)
        if conn not in self.open:
            self.say("logout", f"a reply goes out on connection {conn}, which is closed")
        if stat_sn != self.stat_sns.get(conn):
            self.say("stat-sn", f"StatSN {stat_sn:08x} is not the next one of connection {conn}")
        self.stat_sns[conn] = (stat_sn + 1) & MASK
        if digits[2:4] != "80" or int(digits[8:16], 16) * 2 != len(data):
            self.say("reply", "the F bit is wrong, or a length is")
        request = self.part or self.done or self.arrived
        if request is None or request.ended is not None or (kind != REJECT and request.tag != tag):
            self.stray(conn, tag)
        elif request.conn != conn:
            self.say("reply", f"the reply to a request of connection {request.conn} goes out on connection {conn}")
        else:
            self.answer(request, kind, tag, digits, data)

    def on_close_conn(self, conn):
        if int(conn) not in self.unclosed:
            self.say("logout", f"connection {conn} is closed, and no Logout of it is answered here")
        self.unclosed.discard(int(conn))

    def on_close_session(self):
        if self.open:
            self.say("logout", "the session is closed, and no Logout of it is answered")
        self.unclosed = set()

    def on_ignore(self, why):
        """The laws of what is ignored are those of arrivals and completions."""
