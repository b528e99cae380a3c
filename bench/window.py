"""The command window of a session as its initiator sees it."""

import heapq


class Window:
    """ExpCmdSN, the numbers held behind it, and how many numbered commands are live. Tickets are counted."""

    def __init__(self, size):
        self.size = size
        self.next = 1
        self.held = {}
        self.live = 0
        self.tickets = 0

    def room(self):
        """How many numbers from ExpCmdSN on are admitted."""
        return self.size - self.live

    def admits(self, number):
        return number - self.next < self.room()

    def take(self, number, what=None):
        """The tickets that are given once this command has come, each with what was said of its command."""
        self.held[number] = what
        while self.next in self.held:
            self.next += 1
            self.live += 1
            self.tickets += 1
            yield self.tickets, self.held.pop(self.next - 1)


class Early:
    """The numbers from 1 on, each up to so many places before its turn."""

    def __init__(self, rng, places):
        self.rng = rng
        self.places = places
        self.next = 1
        self.waiting = []

    def __iter__(self):
        return self

    def __next__(self):
        # a number may go once no later one can have a lower key
        while not self.waiting or self.waiting[0][0] > self.next:
            heapq.heappush(self.waiting, (self.next + self.rng.randrange(self.places + 1), self.next))
            self.next += 1
        return heapq.heappop(self.waiting)[1]
