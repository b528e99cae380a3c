"""A way to a target that can be cut: what connects to its port is led on, until it is broken off."""

import queue
import select
import socket
import struct
import threading

RESET = struct.pack("ii", 1, 0)
MOST = 1 << 18


class Proxy(threading.Thread):
    """Leads connections on, in a thread of its own, which alone touches the sockets."""

    def __init__(self, port):
        super().__init__(daemon=True)
        self.to, self.asked, self.cuts = port, queue.Queue(), 0
        # Each socket's other side, and what waits for each to be sent there.
        self.others, self.waiting, self.left = {}, {}, []
        self.initiators = set()
        self.listener = socket.create_server(("127.0.0.1", 0))
        self.port = self.listener.getsockname()[1]
        self.start()

    def cut(self, is_told):
        """Resets all connections of the initiator. The target is told of it, or its connections stay as they are."""
        self.asked.put(is_told)

    def close(self):
        self.asked.put(None)
        self.join(10)

    def run(self):
        is_open = True
        while is_open:
            readers = [self.listener, *(one for one, other in self.others.items() if not self.waiting[other])]
            writers = [one for one, data in self.waiting.items() if data]
            ready, able, _ = select.select(readers, writers, [], 0.05)
            for one in able:
                self.write(one)
            for one in ready:
                self.take() if one is self.listener else self.read(one)
            while not self.asked.empty():
                is_open = self.break_all(self.asked.get()) and is_open
        self.listener.close()

    def take(self):
        came, _ = self.listener.accept()
        try:
            on = socket.create_connection(("127.0.0.1", self.to), timeout=10)
        except OSError:
            came.close()
            return
        for one, other in ((came, on), (on, came)):
            one.setblocking(False)
            one.setsockopt(socket.IPPROTO_TCP, socket.TCP_NODELAY, 1)
            self.others[one], self.waiting[one] = other, b""
        self.initiators.add(came)

    def read(self, one):
        """What came on a connection waits for the other one; at its end both are closed."""
        try:
            data = one.recv(MOST) if one in self.others else None
        except BlockingIOError:
            return
        except OSError:
            data = b""
        if data:
            self.waiting[self.others[one]] += data
        elif data is not None:
            self.forget(one)

    def write(self, one):
        try:
            if one in self.waiting:
                self.waiting[one] = self.waiting[one][one.send(self.waiting[one]):]
        except BlockingIOError:
            pass
        except OSError:
            self.forget(one)

    def forget(self, one, keeps=None):
        """Both sides are closed, but for one that is kept as it is."""
        for side in (one, self.others[one]):
            del self.others[side], self.waiting[side]
            self.initiators.discard(side)
            if side is not keeps:
                side.close()

    def break_all(self, is_told):
        """Whether the proxy goes on."""
        for came in list(self.initiators):
            on = self.others[came]
            for side in (came, on):
                side.setsockopt(socket.SOL_SOCKET, socket.SO_LINGER, RESET)
            self.left += [on] if is_told is False else []
            self.forget(came, on if is_told is False else None)
            self.cuts += 1
        if is_told is None:
            for on in self.left:
                on.close()
        return is_told is not None
