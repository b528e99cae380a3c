"""The numbers of requests and the command window (RFC 7143 section 4.2.2.1)."""

from serial import MASK, below, beyond


class Numbers:
    """ExpCmdSN, MaxCmdSN, and the requests that are held for their turn (4.2.2.1)."""

    def __init__(self, first, window, say):
        self.say, self.window = say, window
        self.turn = self.exp = self.sent_exp = first
        self.received = {}  # from the turn on: the request that is held, or None
        self.low = self.high = self.sent_max = (first + window - 1) & MASK  # MaxCmdSN lies between low and high

    def inside(self, sn, top):
        return (sn - self.exp) & MASK <= beyond(top, self.exp)

    def is_received(self, sn):
        return sn in self.received or below(sn, self.exp)

    def arrive(self, request, ignored):
        fresh = request.sn not in self.received
        if ignored:
            if fresh and self.inside(request.sn, self.low):
                self.say("window", f"CmdSN {request.sn:08x} is new and within the window, and it is ignored")
            return
        if not fresh:
            self.say("window", f"CmdSN {request.sn:08x} came before, and it isn't ignored")
            return
        if not self.inside(request.sn, self.high):
            self.say("window", f"CmdSN {request.sn:08x} is outside the window, and it isn't ignored")
        self.receive(request.sn, request)

    def receive(self, sn, request):
        self.received[sn] = request
        while self.exp in self.received:
            self.exp = (self.exp + 1) & MASK
        while self.received.get(self.turn, self) is None:
            del self.received[self.turn]
            self.turn = (self.turn + 1) & MASK

    def deliver(self, sn):
        """The request that was held at a number, or None."""
        request = self.received.get(sn)
        if request is None:
            self.say("order", f"CmdSN {sn:08x} is delivered, and no request waits there")
            return None
        if sn != self.turn:
            self.say("order", f"CmdSN {sn:08x} is delivered in place of {self.turn:08x}")
        self.receive(sn, None)
        return request

    def sent(self, replies, ignored):
        """What the replies of an event must carry."""
        for line, exp, top in replies:
            self.say.line = line
            if exp != self.exp:
                self.say("numbers", f"ExpCmdSN is {exp:08x}, and {self.exp:08x} is the least number not received")
            if below(exp, self.sent_exp) or below(top, self.sent_max):
                self.say("numbers", "ExpCmdSN or MaxCmdSN goes back")
            if not -1 <= beyond(top, exp) < self.window:
                self.say("numbers", f"MaxCmdSN is {top:08x}: below ExpCmdSN - 1, or more than the window has places")
            self.low = self.high = self.sent_max = top
            self.sent_exp = exp
        edge = (self.exp + self.window - 1) & MASK
        if not replies and not ignored and below(self.high, edge):
            self.high = edge
