"""Properties of what is made up, over thousands of spoilt forms of sound sessions, which are made here with fixed seeds: holes of each
length and place in either direction, with Logouts, aborts and resets of several connections behind them; begun late, cut, sent twice
and out of order.
"""

import os
import random
import sys
import unittest

from helpers import TOP
from test_capture import Wire, command, function, logout, pdu, response

sys.path.insert(0, os.path.join(TOP, "tools"))
from lib.pdu import DATA_OUT, NO_TAG  # noqa: E402
from lib.repairs import answers, repair  # noqa: E402
from lib.sessions import find  # noqa: E402
from lib.settling import record  # noqa: E402

SEEDS, FORMS, COMMANDS, WINDOW = range(12), 250, 60, 32
# Of so many seeds and forms the program makes a report.
RECORDED = range(6), 20
STATUSES = (0, 0, 0, 0, 8, 0x18, 0x28)
LEAST_HEADER = 48


class Sound:
    """A session of several connections, as it is captured whole. Each request is answered but those that a function takes out."""

    def __init__(self, seed):
        self.chance, self.wire = random.Random(seed), Wire()
        self.next, self.tag, self.live = 1, 0, []
        self.cids = range(1, 2 + seed % 3)
        self.stat_sns = dict.fromkeys(self.cids, 0)
        for cid in self.cids:
            self.wire.log_in(cid, cid=cid, asked=7 * (cid > 1))
        for _ in range(COMMANDS):
            self.chance.choices((self.ask, self.answer, self.ping, self.abort), (10, 9, 1, 1))[0]()
        while self.live:
            self.answer()
        for cid in reversed(self.cids):
            self.log_out(cid)
        self.segments = self.wire.segments

    def tagged(self):
        self.tag += 1
        return self.tag

    def numbers(self, cid):
        """StatSN, ExpCmdSN and MaxCmdSN of the next reply of a connection."""
        self.stat_sns[cid] += 1
        return self.stat_sns[cid], self.next, self.next + WINDOW - 1

    def ask(self):
        """Some commands in a segment."""
        cid, content = self.chance.choice(self.cids), b""
        for _ in range(self.chance.randint(1, 3)):
            if len(self.live) < WINDOW // 2:
                unit = self.chance.randint(0, 1)
                content += command(self.tagged(), self.next, lun=unit)
                self.live.append((cid, self.tag, unit))
                self.next += 1
        if content:
            self.wire.put(cid, True, content)

    def answer(self):
        """The answers of some commands of a connection in a segment, with data."""
        if self.live:
            cid = self.chance.choice(self.live)[0]
            waiting = [one for one in self.live if one[0] == cid]
            chosen = self.chance.sample(waiting, self.chance.randint(1, min(3, len(waiting))))
            self.live = [one for one in self.live if one not in chosen]
            content = b""
            for _, tag, _ in chosen:
                content += pdu(0x25, 0x80, tag, (NO_TAG, 0, self.next, self.next + WINDOW - 1), bytes(self.chance.choice((16, 512))))
                content += response(tag, *self.numbers(cid), status=self.chance.choice(STATUSES))
            self.wire.put(cid, False, content)

    def ping(self):
        cid = self.chance.choice(self.cids)
        self.wire.put(cid, True, pdu(0x40, 0x80, self.tagged(), (NO_TAG, self.next)))
        self.wire.put(cid, False, pdu(0x20, 0x80, self.tag, (NO_TAG, *self.numbers(cid))))

    def abort(self):
        """A function of a unit, or of a command that was answered or is live; a live one isn't answered."""
        cid = self.chance.choice(self.cids)
        number, unit = self.chance.choice((1, 1, 2, 4, 5)), 0
        waiting = [one for one in self.live if one[0] == cid]
        aimed = self.chance.choice(waiting)[1] if waiting and self.chance.random() < 0.5 else max(1, self.tag - 20)
        aimed = aimed if number == 1 else NO_TAG
        if number == 1:
            taken = [one for one in waiting if one[1] == aimed]
        else:
            taken = [one for one in self.live if one[2] == unit]
        is_there = number != 1 or bool(taken)
        self.live = [one for one in self.live if one not in taken]
        self.wire.put(cid, True, function(number, self.tagged(), self.next, referenced=aimed))
        reply = bytearray(pdu(0x22, 0x80, self.tag, (0, *self.numbers(cid))))
        reply[2] = not is_there
        self.wire.put(cid, False, bytes(reply))

    def log_out(self, cid):
        self.wire.put(cid, True, logout(self.tagged(), self.next, reason=cid != 1, cid=cid))
        self.wire.put(cid, False, pdu(0x26, 0x80, self.tag, (0, *self.numbers(cid))))


def copied(one, **changed):
    """A segment like another one."""
    return type(one)(**{name: changed.get(name, getattr(one, name)) for name in one.__slots__})


def without(segments, chance):
    """Without some segments in a row of one direction of a connection, or of all."""
    places = [place for place, one in enumerate(segments) if one.payload and place > 12]
    begin = chance.choice(places)
    first = segments[begin]
    length = chance.choice((1, 1, 2, 3, 5, 8, 13, 40))
    is_of_all = chance.random() < 0.2
    alike = [place for place in places if place >= begin and (is_of_all or segments[place].source == first.source)]
    lost = set(alike[:length])
    return [one for place, one in enumerate(segments) if place not in lost]


def late(segments, chance):
    return segments[chance.randint(8, len(segments) // 2):]


def cut(segments, chance):
    """With so many bytes of each segment behind the logins."""
    most = chance.randint(LEAST_HEADER, 300)
    return segments[:12] + [copied(one, payload=one.payload[:most], missing=max(0, len(one.payload) - most)) for one in segments[12:]]


def twice(segments, chance):
    """Some segments come again, right behind or later."""
    spoilt = list(segments)
    for place in sorted(chance.sample(range(12, len(segments)), 8), reverse=True):
        spoilt.insert(min(len(spoilt), place + chance.choice((1, 2, 9))), segments[place])
    return spoilt


def out_of_order(segments, chance):
    """Neighbours of one direction change places."""
    spoilt = list(segments)
    for place in range(12, len(spoilt) - 1):
        if spoilt[place].source == spoilt[place + 1].source and chance.random() < 0.5:
            spoilt[place:place + 2] = spoilt[place + 1], spoilt[place]
    return spoilt


def across(segments, chance):
    """Each segment is two, of which the second may begin anywhere in a PDU."""
    spoilt = segments[:12]
    for one in segments[12:]:
        at = chance.randrange(len(one.payload)) if one.payload else 0
        for begin, end in ((0, at), (at, None)) if at else ((0, None),):
            spoilt.append(copied(one, sequence=(one.sequence + begin) % 2**32, payload=one.payload[begin:end]))
    return spoilt


WAYS = ((without,), (without,), (without,), (without, without), (late,), (cut,), (without, cut), (without, twice), (out_of_order, without),
        (late, without), (across, without), (across, without, without))


def session_of(segments):
    """The one session of these segments, which are captured one by one, as it is repaired."""
    sessions, _ = find([copied(one, frame=frame, time=frame / 1000) for frame, one in enumerate(segments, 1)])
    for session in sessions:
        repair(session)
    return sessions


def asked(session):
    return [item for item in session.items if item.request and item.request.opcode != DATA_OUT]


class Holes(unittest.TestCase):
    def forms(self, seeds=SEEDS, count=FORMS):
        """Gives each sound session with a spoilt form, which is made by fixed chances."""
        for seed in seeds:
            sound = Sound(seed)
            (whole,), _ = find(sound.segments)
            for form in range(count):
                ways = WAYS[form % len(WAYS)]
                chance, segments = random.Random(1000 * seed + form), sound.segments
                for way in ways:
                    segments = way(segments, chance)
                for session in session_of(segments):
                    yield (seed, form, [way.__name__ for way in ways]), whole, session, late in ways

    def test_what_is_made_up(self):
        """No request where none was lost, none that stands in the capture, and no answer to one that has one there; and no more than were lost.
        With several connections, or where both directions lack PDUs, nothing tells whose a number was that nobody saw: then a ping may be made
        up too many, for a reply that is lacking, and for nothing else."""
        made = 0
        for name, whole, session, is_late in self.forms():
            there = {(item.cid, item.tag) for item in asked(session) if not item.made_up}
            made_up = [item for item in asked(session) if item.made_up]
            seen = {(item.cid, item.tag) for item in session.items if item.reply and answers(item) and not item.made_up}
            made += len(made_up) + len(session.lost)
            self.assertFalse({(one.cid, one.tag) for one in session.lost} & seen, name)
            if is_late:
                continue
            lost = {(item.cid, item.tag) for item in asked(whole)} - there
            self.assertFalse({(item.cid, item.tag) for item in made_up} & there, name)
            is_told = not lost or len(session.connections) == 1 and not session.lost
            self.assertLessEqual(len(made_up), len(lost) + (0 if is_told else len(session.lost)), name)
            self.assert_numbers_nobody_saw(name, session, made_up)
        self.assertGreater(made, 10000)

    def assert_numbers_nobody_saw(self, name, session, made_up):
        seen = {item.request.cmd_sn for item in asked(session) if item.request.is_numbered and not item.made_up}
        numbers = [item.request.cmd_sn for item in made_up if item.request.is_numbered]
        self.assertEqual(len(set(numbers)), len(numbers), name)
        self.assertFalse(set(numbers) & seen, name)

    def test_what_stands_in_the_capture_stays(self):
        """Each PDU that is no made-up one is one of the sound capture, in its order on its connection."""
        for name, whole, session, is_late in self.forms(count=FORMS // 5):
            if is_late:
                continue
            for cid in session.connections:
                for is_request in (True, False):
                    kept, sound = ([(item.request or item.reply).header for item in one.items
                                    if item.cid == cid and bool(item.request) == is_request and not item.made_up]
                                   for one in (session, whole))
                    rest = iter(sound)
                    self.assertTrue(all(header in rest for header in kept), name)

    def test_completions(self):
        """What is answered in the capture is completed, and isn't taken out; nothing is without a ticket."""
        for name, whole, session, is_late in self.forms(*RECORDED):
            if is_late:
                continue
            recording = record(session)
            ended = sum(item.reply.ends_command for item in session.items if item.reply)
            self.assertEqual((ended, 0), (recording.completions, recording.without_ticket), name)


if __name__ == "__main__":
    unittest.main()
