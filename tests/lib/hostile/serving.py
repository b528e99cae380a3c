"""`serve` by the driver: a list of headers for each connection, and what must come of them for every schedule.

A thread for each connection posts its list, a thread for each unit answers its jobs, and the loop takes what comes.
"""

import re
from ast import literal_eval

from hostile.common import compare, run
from hostile.headers import command
from hostile.scripts import MOST_EVENTS, first_difference, outcome

DEPTH = 128
RING = re.compile(r"(untaken|unread) (\d+) (\[.*\])")


class Serving:
    """Lists of headers, of which those that are delivered are commands that enter, and what the units answer."""

    def __init__(self, lists, units=1, window=128, events=MOST_EVENTS, meets=False):
        self.lists, self.units, self.window, self.meets = lists, units, window, meets
        self.words = ["serve", "1", *map(str, (window, units, DEPTH, 1, events))]
        self.settings = [] if meets else ["good"]

    def conns(self):
        return [f"conn {place + 1} 00000001" for place in range(len(self.lists))]

    def text(self):
        arrivals = [f"C {place + 1} {header}" for place, headers in enumerate(self.lists) for header in headers]
        return "".join(line + "\n" for line in self.conns() + self.settings + arrivals).encode()

    def status(self, ticket):
        """What the units answer."""
        return 100 + ticket % 100 if self.meets else 0

    def wrong(self, ran, delivers, is_over=True):
        """What is wrong with the outcome. So many requests may be delivered, and where all is over, no job is left."""
        if ran.status != 0:
            return f"status {ran.status}: {ran.err[-200:]!r}"
        served = Served(ran.out)
        count = len(served.delivered)
        if count not in delivers or served.delivered != list(range(1, count + 1)):
            return f"{count} deliveries, up to {served.delivered[-1:]}"
        # each has its number for a ticket
        if served.enabled != served.delivered:
            return "other commands are enabled"
        return (
            self.other_arrivals(served)
            or self.other_answers(served)
            or self.other_lines(served, ran.out, is_over)
            or self.other_report(served)
        )

    def other_arrivals(self, served):
        """Whether a connection's arrivals aren't those of its list, in their order."""
        for place, headers in enumerate(self.lists):
            if [header for kind, cid, header in served.events if (kind, cid) == ("C", str(place + 1))] != headers:
                return f"other arrivals on connection {place + 1}"
        return ""

    def other_answers(self, served):
        """Whether a unit's jobs weren't answered once each, in their order and by its work, or else left at its end."""
        for unit in range(self.units):
            answers = [answer for answer in served.done if served.unit_of.get(answer[0]) == unit]
            answers += served.left("unread", unit)
            jobs = [ticket for ticket, _ in answers] + served.left("untaken", unit)
            if jobs != [ticket for ticket in served.enabled if served.unit_of.get(ticket) == unit]:
                return f"other answers of unit {unit}"
            if any(status != self.status(ticket) for ticket, status in answers):
                return f"another status of unit {unit}"
        return ""

    def other_lines(self, served, out, is_over):
        """Whether another line was told: all headers were taken, and no job is left where all is over."""
        untaken, unread = (
            [[] if is_over else served.left(word, unit) for unit in range(self.units)] for word in ("untaken", "unread")
        )
        lines = outcome(served.report, served.sources(), [[] for _ in self.lists], untaken, unread)
        expected = "".join(line + "\n" for line in lines).encode()
        return first_difference(out, expected) if out != expected else ""

    def other_report(self, served):
        """Whether the report isn't that of its own events, by the program."""
        words = ["--window", str(self.window), "--units", str(self.units), "--depth", str(DEPTH)]
        again = run(words, "".join(line + "\n" for line in self.conns() + served.report).encode())
        return compare(again, 0, "".join(line + "\n" for line in served.report).encode(), b"")


class Served:
    """What the driver told of an outcome."""

    def __init__(self, out):
        lines = out.decode().splitlines()
        self.report = [line for line in lines if line[:2] in ("> ", "  ")]
        self.events = [line.split()[1:] for line in self.report if line.startswith("> ")]
        self.done = [(int(ticket), int(status, 16)) for kind, ticket, status in self.events if kind == "D"]
        effects = [line.split() for line in self.report if line.startswith("  ")]
        self.delivered = [int(words[2], 16) for words in effects if words[0] == "deliver"]
        self.unit_of = {int(words[1]): int(words[2]) for words in effects if words[0] == "enter"}
        self.enabled = [int(words[1]) for words in effects if words[0] == "enable"]
        rings = [found.groups() for found in map(RING.fullmatch, lines) if found]
        self.rings = {(word, int(unit)): literal_eval(ring) for word, unit, ring in rings}

    def left(self, word, unit):
        """What was left in a unit's ring."""
        return self.rings.get((word, unit), [])

    def sources(self):
        """Where each event must have come from: the place of its connection, or the unit of its ticket."""
        numbers = ((kind, int(number)) for kind, number, _ in self.events)
        return [number - 1 if kind == "C" else self.unit_of.get(number) for kind, number in numbers]


def two_units():
    """Two connections with 100 commands each: the odd numbers for the first unit, the even ones for the second.

    The first call of each unit waits for the other's.
    """
    odd, even = ([command(sn, sn, unit) for sn in range(1 + unit, 201, 2)] for unit in (0, 1))
    return Serving([odd, even], units=2, window=1024, meets=True)
