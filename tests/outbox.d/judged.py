"""What the judge of a trial says of an outbox that is played here: one whose answer 1 to an ABORT TASK overtakes what completed.

A READ of connection 2 has completed, with a Data-In, as its initiator sends ABORT TASK on connection 1.
"""

import struct

from target import Trial, header
from trial import ABORT_TASK, COMMAND, DATA_IN, FUNCTION, FUNCTION_RESPONSE, SCSI_RESPONSE, Broken, Command

READ, ABORT = 1, 2


class First:
    """Choices that are always the first."""

    def choice(self, among):
        return among[0]

    def random(self):
        return 0.5


def pdu(opcode, tag, stat_sn, response=0):
    return struct.pack(">BBB13xIIIII12x", opcode, 0x80, response, tag, 0xFFFFFFFF, stat_sn, 2, 3).hex()


class Played:
    """An outbox with these PDUs, which go out as soon as they are asked for."""

    def __init__(self):
        self.effects = [["executes 2 1", "enter 1 0", "enable 1"], ["executes 1 2"]]
        self.waiting = {1: [], 2: []}

    def call(self, name, *words):
        if name == "arrive":
            if len(self.effects) == 1:
                self.waiting[1] = [pdu(FUNCTION_RESPONSE, ABORT, 1, 1)]
            return self.effects.pop(0)
        if name == "done":
            self.waiting[2] = [pdu(DATA_IN, READ, 1), pdu(SCSI_RESPONSE, READ, 1)]
            return ["leave 1 0"]
        if name == "next":
            return [self.waiting[words[0]].pop(0) if self.waiting[words[0]] else "nothing"]
        return {"join": ["true"], "put": ["taken"]}.get(name, [])

    def asks(self, *words):
        return self.call(*words) == ["true"]


def until_aborted(acknowledged):
    """A trial in which nothing of the READ went out yet."""
    trial = Trial(Played(), First(), acknowledged, 2)
    one, two = trial.conns.values()
    trial.commands[trial.new_tag(two)] = Command(READ, 2, 0)
    trial.arrive(two, header(COMMAND, 0x81, 0, READ, 0, trial.numbers(two, False)))
    trial.move_data()
    trial.move_complete()
    trial.scopes[trial.new_tag(one)] = ("tag", READ)
    trial.arrive(one, header(FUNCTION | 0x40, 0x80 | ABORT_TASK, 0, ABORT, READ, trial.numbers(one, True), 1))
    return trial, one, two


def send(trial, conn, is_written, is_read):
    while trial.hand_out(conn):
        if is_written:
            trial.write(conn)
        if is_read:
            trial.read(conn)


# What is done with the READ's PDUs before the answer goes out: they are handed out, written, and read. And what is said of that where
# arrival is looked for, and where it isn't.
CASES = {
    "they wait": ((), True, True),
    "they were handed out": ((False, False), True, True),
    "they were written": ((True, False), True, False),
    "they were read": ((True, True), False, False),
}


def broken(acknowledged, before):
    """The promise that such a trial breaks, with its answer read as soon as it is out."""
    trial, one, two = until_aborted(acknowledged)
    try:
        if before:
            send(trial, two, *before)
        send(trial, one, True, True)
        while two.handed:
            trial.write(two)
        while two.written:
            trial.read(two)
        trial.drain()
    except Broken as promise:
        return str(promise)
    return None


def misjudged():
    """What is said otherwise than it has to be, of so many cases."""
    for name, (before, *wanted) in CASES.items():
        for acknowledged, is_wrong in zip((True, False), wanted):
            said = broken(acknowledged, before)
            if bool(said) != is_wrong or is_wrong and not said.startswith("silent after"):
                yield f"an answer 1 to ABORT TASK, {name}, acknowledged {int(acknowledged)}: {said or 'every promise held'}"
