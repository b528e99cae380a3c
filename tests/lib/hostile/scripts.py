"""Scripts for a loop and its ports, on one thread; among them closed connections, full rings, and answers out of place.

A script is a list of calls, each with the lines that it must answer. The driver makes them.
"""

from hostile.common import CASES, DRIVER, Tally, run
from hostile.headers import (
    ABORT_TASK_SET,
    HEAD,
    LOGICAL_UNIT_RESET,
    ORDERED,
    SIMPLE,
    abort_task,
    command,
    function,
    logout,
    logout_response,
    scsi_response,
    task_response,
)

# The events of a session, where a script says no other number.
MOST_EVENTS = 1048576
# What the driver tells on standard error where no call was made again.
NOTHING_AGAIN = b"again: 0 steps, 0 turns, 0 ends, 0 lines, 0 from the start, 0 of them for want of a thread\n"
ATTRIBUTES = {SIMPLE: "Simple", ORDERED: "Ordered", HEAD: "Head"}


def bytes_of(digits):
    """The bytes of hexadecimal digits, as the driver tells those that come back."""
    return list(bytes.fromhex(digits))


class Script:
    """Calls of a loop and its ports, what they must answer, and which of them are faults."""

    def __init__(self, name, cids=(1,), units=1, window=128, depth=128, level=1, events=MOST_EVENTS):
        self.name = name
        self.cids = list(cids)
        self.words = ["ports", "1", *map(str, (window, units, depth, level, events))]
        self.calls = [f"conn {cid} 00000001" for cid in cids]
        self.answers = []
        self.faults = 0
        self.report, self.sources = [], []
        self.unit_of = {}
        self.left = [[] for _ in self.cids]
        self.untaken, self.unread = [[] for _ in range(units)], [[] for _ in range(units)]

    def call(self, call, answer):
        """A call that has one line for an answer."""
        self.calls.append(call)
        self.answers.append(answer)

    def post(self, place, header):
        self.call(f"post {place} {header}", "posted")

    def post_too_many(self, place, header):
        """The ring is full, and the header comes back."""
        self.call(f"post {place} {header}", f"full {bytes_of(header)}")

    def turn(self, *lines):
        """A turn that takes an event: its line, and those of its effects."""
        self.calls.append("turn")
        self.answers += lines
        self.report += lines
        self.sources.append(self.source(lines[0]))

    def source(self, event):
        """The place of the port or the unit port that an event came from."""
        kind, number = event.split()[1:3]
        return self.cids.index(int(number)) if kind == "C" else self.unit_of[int(number)]

    def idle(self):
        self.call("turn", "nothing")

    def exhausted(self):
        """A turn that is refused, as the journal has all of its events."""
        self.call("turn", "exhausted")

    def take(self, unit, ticket, header):
        """The job of a command, with its tag, its attribute and its CDB."""
        attribute = ATTRIBUTES[int(header[3], 16)]
        self.call(f"take {unit}", f"job {ticket} {header[32:40]} {unit} {attribute} {bytes_of(header[64:])}")

    def take_none(self, unit):
        self.call(f"take {unit}", "no job")

    def answer(self, unit, ticket, status=0):
        self.call(f"answer {unit} {ticket} {status:02x}", "answered")
        self.unit_of[ticket] = unit

    def answer_refused(self, unit, ticket, why):
        self.call(f"answer {unit} {ticket} 00", why)

    def fault(self):
        """The call before is a fault."""
        self.faults += 1

    def text(self):
        return "".join(line + "\n" for line in self.calls).encode()

    def expected(self):
        """All that the driver must print: the answers, the report of the journal, and what was left."""
        left = [[bytes_of(header) for header in headers] for headers in self.left]
        lines = self.answers + outcome(self.report, self.sources, left, self.untaken, self.unread)
        return "".join(line + "\n" for line in lines).encode()


def outcome(report, sources, left, untaken, unread):
    """The lines of an outcome: how many events there were, their report and sources, and what was left in the rings."""
    count = len(sources)
    lines = [f"end {count} {count}", *report, f"from {sources}"]
    for word, rings in (("left", left), ("untaken", untaken), ("unread", unread)):
        lines += [f"{word} {place} {ring}" for place, ring in enumerate(rings)]
    return lines


def entered(cid, header, sn, tag, ticket, unit=0):
    """The lines of a SIMPLE command that is delivered, enters and is enabled."""
    return [
        f"> C {cid} {header}",
        f"  deliver {cid} {sn:08x} {tag:08x}",
        f"  enter {ticket} {unit} simple",
        f"  enable {ticket}",
    ]


def closed_connection():
    """One connection closes the other, on which 64 headers come all the same."""
    script = Script("closed connection", cids=(1, 2), window=8)
    closing, late = logout(1, 0xC1, 1, 2), command(1, 0)
    script.post(0, closing)
    script.turn(
        f"> C 1 {closing}",
        "  immediate 1 00000001 000000c1",
        f"  send 1 {logout_response(0xC1, (1, 1, 8))}",
        "  close-conn 2",
    )
    for _ in range(64):
        script.post(1, late)
    for _ in range(64):
        script.turn(f"> C 2 {late}", "  ignore closed")
        script.fault()
    script.idle()
    assert script.report == (CASES / "closed-connection" / "report").read_text().splitlines()
    return script


def full_rings():
    """A 65th header, a 65th job and a 65th answer find their rings full, and come later."""
    script = Script("full rings")
    headers = {sn: command(sn, sn) for sn in range(1, 66)}
    for sn in range(1, 65):
        script.post(0, headers[sn])
    script.post_too_many(0, headers[65])
    script.fault()
    for sn in range(1, 65):
        script.turn(*entered(1, headers[sn], sn, sn, sn))
    script.idle()
    script.post(0, headers[65])
    script.turn(*entered(1, headers[65], 65, 65, 65))
    for ticket in range(1, 65):
        script.take(0, ticket, headers[ticket])
    script.take_none(0)
    script.fault()
    script.idle()
    script.take(0, 65, headers[65])
    for ticket in range(1, 65):
        script.answer(0, ticket)
    script.answer_refused(0, 65, "full")
    script.fault()
    script.turn("> D 1 00", "  leave 1", f"  send 1 {scsi_response(1, (1, 66, 129))}")
    script.answer(0, 65)
    script.unread = [[(ticket, 0) for ticket in range(2, 66)]]
    return script


def jobs_that_nobody_takes():
    """64 jobs of a unit fill its ring, 36 more wait behind them, and another unit goes on."""
    script = Script("jobs that nobody takes", units=2, window=256)
    headers = {sn: command(sn, sn) for sn in range(1, 101)}
    for sn in range(1, 101):
        script.post(0, headers[sn])
        script.turn(*entered(1, headers[sn], sn, sn, sn))
    for k in range(50):
        sn = ticket = 101 + k
        other = command(sn, sn, unit=1)
        script.post(0, other)
        script.turn(*entered(1, other, sn, sn, ticket, unit=1))
        script.idle()
        script.take(1, ticket, other)
        script.answer(1, ticket)
        # the 100 commands of the first unit are live, and no other one
        numbers = (1 + k, sn + 1, sn + 1 + 255 - 100)
        script.turn(f"> D {ticket} 00", f"  leave {ticket}", f"  send 1 {scsi_response(sn, numbers)}")
        script.fault()
    script.untaken = [list(range(1, 101)), []]
    return script


def backlog_goes_on():
    """100 jobs of a unit are taken in their order, those behind its full ring too."""
    script = Script("a backlog goes on", window=256)
    headers = {sn: command(sn, sn) for sn in range(1, 101)}
    for sn in range(1, 101):
        script.post(0, headers[sn])
        script.turn(*entered(1, headers[sn], sn, sn, sn))
    for ticket in range(1, 101):
        script.idle()
        script.take(0, ticket, headers[ticket])
        script.fault()
    script.take_none(0)
    return script


def answers_out_of_place():
    """A job is answered twice, late, in another order, and by the wrong unit."""
    script = Script("answers out of place", units=2)
    headers = {sn: command(sn, 0xA0 + sn) for sn in (1, 2, 3)}
    for sn in (1, 2, 3):
        script.post(0, headers[sn])
        script.turn(*entered(1, headers[sn], sn, 0xA0 + sn, sn))
    script.idle()
    for ticket in (1, 2, 3):
        script.take(0, ticket, headers[ticket])
    script.take_none(1)
    script.answer(0, 2)
    script.answer_refused(0, 2, "no such job")
    script.fault()
    script.turn("> D 2 00", "  leave 2", f"  send 1 {scsi_response(0xA2, (1, 4, 129))}")
    script.answer_refused(0, 2, "no such job")
    script.fault()
    # the other unit's worker answers for the first: a completion names no unit
    script.answer(1, 1, 8)
    script.turn("> D 1 08", "  leave 1", f"  send 1 {scsi_response(0xA1, (2, 4, 130), 8)}")
    script.fault()
    script.answer(0, 3)
    script.turn("> D 3 00", "  leave 3", f"  send 1 {scsi_response(0xA3, (3, 4, 131))}")
    return script


def stale(script, unit, ticket, status=0):
    """An answer for a command that isn't live any more is passed over."""
    script.answer(unit, ticket, status)
    script.turn(f"> D {ticket} {status:02x}", "  ignore stale")
    script.fault()


def answers_after_aborts():
    """Jobs are answered after ABORT TASK, ABORT TASK SET and LOGICAL UNIT RESET took their commands."""
    script = Script("answers after aborts", units=3)
    kinds = [
        (0, lambda sn: abort_task(sn, 0xB1, 0xA1, unit=0)),
        (1, lambda sn: function(sn, 0xB2, ABORT_TASK_SET, unit=1)),
        (2, lambda sn: function(sn, 0xB3, LOGICAL_UNIT_RESET, unit=2)),
    ]
    for unit, abort in kinds:
        sn = ticket = unit + 1
        header, tag = command(sn, 0xA0 + sn, unit=unit), 0xB0 + sn
        script.post(0, header)
        script.turn(*entered(1, header, sn, 0xA0 + sn, ticket, unit=unit))
        script.idle()
        # the first two jobs are taken before the abort, and the last one after it
        if unit < 2:
            script.take(unit, ticket, header)
        script.post(0, abort(sn + 1))
        script.turn(
            f"> C 1 {abort(sn + 1)}",
            f"  immediate 1 {sn + 1:08x} {tag:08x}",
            f"  leave {ticket}",
            f"  send 1 {task_response(tag, (sn, sn + 1, sn + 128))}",
        )
        if unit == 2:
            script.take(unit, ticket, header)
        stale(script, unit, ticket)
    return script


def answers_after_closes():
    """Jobs are answered after their connection closed, and after the session did."""
    script = Script("answers after closes", cids=(1, 2), units=2)
    headers = {cid: command(cid, 0xA0 + cid, unit=cid - 1) for cid in (1, 2)}
    for cid in (1, 2):
        script.post(cid - 1, headers[cid])
        script.turn(*entered(cid, headers[cid], cid, 0xA0 + cid, cid, unit=cid - 1))
    script.idle()
    script.take(0, 1, headers[1])
    script.take(1, 2, headers[2])
    closing = logout(3, 0xC1, 1, 2)
    script.post(0, closing)
    script.turn(
        f"> C 1 {closing}",
        "  immediate 1 00000003 000000c1",
        "  leave 2",
        f"  send 1 {logout_response(0xC1, (1, 3, 129))}",
        "  close-conn 2",
    )
    stale(script, 1, 2)
    ending = logout(3, 0xC2, 0, 0)
    script.post(0, ending)
    script.turn(
        f"> C 1 {ending}",
        "  immediate 1 00000003 000000c2",
        "  leave 1",
        f"  send 1 {logout_response(0xC2, (2, 3, 130))}",
        "  close-session",
    )
    stale(script, 0, 1)
    for place in (0, 1):
        script.post(place, headers[place + 1])
        script.turn(f"> C {place + 1} {headers[place + 1]}", "  ignore closed")
        script.fault()
    return script


SCRIPTS = [
    closed_connection,
    full_rings,
    jobs_that_nobody_takes,
    backlog_goes_on,
    answers_out_of_place,
    answers_after_aborts,
    answers_after_closes,
]


def first_difference(found, expected):
    """The first line that differs."""
    lines, wanted = found.decode(errors="replace").splitlines(), expected.decode().splitlines()
    for number, (line, want) in enumerate(zip(lines, wanted), 1):
        if line != want:
            return f"line {number} is {line[:120]!r}, not {want[:120]!r}"
    return f"{len(lines)} lines, not {len(wanted)}"


def other_answers(ran, expected):
    """What is wrong with a run of the driver that must print this."""
    if ran.status != 0:
        return f"status {ran.status}: {ran.err[-200:]!r}"
    return first_difference(ran.out, expected) if ran.out != expected else ""


def made_again(ran):
    """Whether the driver made a call again, though nothing was refused."""
    return "" if ran.err == NOTHING_AGAIN else f"on standard error {ran.err[-200:]!r}"


def play(script, expected=None):
    """What is wrong with the driver's run of a script, which must print this, or what its calls must answer."""
    ran = run(script.words, script.text(), program=DRIVER)
    return other_answers(ran, script.expected() if expected is None else expected) or made_again(ran)


def rings():
    """Each script, with its faults: all are lost where the run is another one."""
    tally = Tally("closed connections, full rings, answers out of place", 227)
    for make in SCRIPTS:
        script = make()
        wrong = play(script)
        for _ in range(script.faults):
            tally.judge(script.name, wrong)
    return tally


CLASSES = [("closed connections, full rings, answers out of place", rings)]
