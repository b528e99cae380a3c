"""Task management of every kind among commands: 16 units, four connections, a window of 256."""

import itertools

from recording_lines import ABORT_TASK, ABORT_TASK_SET, CLEAR_TASK_SET, LOGICAL_UNIT_RESET, command, completion, connection, \
    function
from window import Window

SET_FUNCTIONS = (ABORT_TASK_SET, CLEAR_TASK_SET, LOGICAL_UNIT_RESET)
NO_TAG = 0xdeadbeef
# (what has come with a number: a command of a unit, a numbered function that empties a unit's set, or neither)
COMMAND, EMPTIES, NOTHING = range(3)


def tag_of(number):
    return 0x40000000 | number


class Storm:
    """What the initiator knows of the session. Each method gives a line, or None where there is none to give."""

    def __init__(self, rng):
        self.rng = rng
        self.window = Window(256)
        self.live = [[] for _ in range(16)]  # the tickets and tags of each unit
        self.waiting = []  # the number, connection and unit of each function that waits for lower numbers
        self.own_tags = itertools.count(0x80000001)

    def receive(self, number, what, unit=0):
        window = self.window
        window.held[number] = (what, unit)
        while True:
            for _, _, waits_for in [waiting for waiting in self.waiting if waiting[0] == window.next]:
                self.empty(waits_for)
            self.waiting = [waiting for waiting in self.waiting if waiting[0] != window.next]
            if window.next not in window.held:
                return
            come, of = window.held.pop(window.next)
            if come == COMMAND:
                window.live += 1
                window.tickets += 1
                self.live[of].append((window.tickets, tag_of(window.next)))
            elif come == EMPTIES:
                self.empty(of)
            window.next += 1

    def empty(self, unit):
        self.window.live -= len(self.live[unit])
        self.live[unit].clear()

    def take_one(self, unit):
        """The ticket and tag of a live command of the unit, which is live no more."""
        self.window.live -= 1
        return self.live[unit].pop(self.rng.randrange(len(self.live[unit])))

    def missing(self, places):
        """A number that is admitted and hasn't come, one of so many."""
        number = self.window.next + self.rng.randrange(max(places, 1))
        return number if self.window.admits(number) and number not in self.window.held else None

    def function(self, conn, kind, number, unit, **words):
        return function(conn, kind, number, next(self.own_tags), unit, **words)

    def command(self, conn, unit):
        number = self.missing(1 if self.rng.random() < 0.5 else self.window.room())
        if number is None:
            return None
        self.receive(number, COMMAND, unit)
        return command(self.rng, conn, number, tag_of(number), unit)

    def abort_live(self, conn, unit):
        if not self.live[unit]:
            return None
        _, tag = self.take_one(unit)
        return self.function(conn, ABORT_TASK, self.window.next, unit, referenced_tag=tag)

    def abort_held(self, conn, _):
        commands = [(number, unit) for number, (what, unit) in self.window.held.items() if what == COMMAND]
        if not commands:
            return None
        number, unit = self.rng.choice(commands)
        self.window.held[number] = (NOTHING, 0)
        after = self.window.next + self.window.size
        return self.function(conn, ABORT_TASK, after, unit, referenced_tag=tag_of(number), referenced_number=number)

    def abort_missing(self, conn, unit):
        number = self.missing(4)
        if number is None:
            return None
        self.receive(number, NOTHING)
        return self.function(conn, ABORT_TASK, number + 1, unit, referenced_tag=NO_TAG, referenced_number=number)

    def abort_unknown(self, conn, unit):
        next_number = self.window.next
        return self.function(conn, ABORT_TASK, next_number, unit, referenced_tag=NO_TAG, referenced_number=next_number)

    def function_at_once(self, conn, unit):
        self.empty(unit)
        return self.function(conn, self.rng.choice(SET_FUNCTIONS), self.window.next, unit)

    def function_that_waits(self, conn, unit):
        number = self.window.next + self.rng.randint(1, 8)
        if number - self.window.next > self.window.room() or sum(of == conn for _, of, _ in self.waiting) == 4:
            return None
        self.waiting.append((number, conn, unit))
        return self.function(conn, self.rng.choice(SET_FUNCTIONS), number, unit)

    def numbered_function(self, conn, unit):
        number = self.missing(16)
        if number is None:
            return None
        self.receive(number, EMPTIES, unit)
        return self.function(conn, ABORT_TASK_SET, number, unit, immediate=False)

    def completion(self, _, unit):
        return completion(self.take_one(unit)[0]) if self.live[unit] else None


# how often each comes, of a hundred
SHARES = {
    Storm.command: 45, Storm.abort_live: 15, Storm.abort_held: 12, Storm.abort_missing: 8, Storm.abort_unknown: 4,
    Storm.function_at_once: 6, Storm.function_that_waits: 4, Storm.numbered_function: 3, Storm.completion: 3,
}


def storm(rng):
    yield from map(connection, range(1, 5))
    state = Storm(rng)
    kinds, shares = list(SHARES), list(itertools.accumulate(SHARES.values()))
    while True:
        line = rng.choices(kinds, cum_weights=shares)[0](state, rng.randint(1, 4), rng.randrange(16))
        if line:
            yield line
