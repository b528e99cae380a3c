"""Tests of tools/capture: TCP put together, PDUs split, sessions found, recordings that stand still."""

import gzip
import hashlib
import os
import random
import re
import shutil
import struct
import subprocess
import sys
import tempfile
import unittest
import unittest.mock

import perf
from helpers import TOP, replay, run_tool

sys.path.insert(0, os.path.join(TOP, "tools"))
from lib import settling  # noqa: E402
from lib.answers import target_lines  # noqa: E402
from lib.captures import sessions_of  # noqa: E402
from lib.frames import Segment  # noqa: E402
from lib.packets import packets  # noqa: E402
from lib.pdu import HEADER_SIZE, NO_TAG  # noqa: E402
from lib.repairs import repair  # noqa: E402
from lib.sessions import find  # noqa: E402
from lib.streams import Chunk, Splitter, Stream, is_plausible  # noqa: E402
from lib.settling import in_taken_order, record, units_of  # noqa: E402

CAPTURES = os.path.join(TOP, "tests", "tools", "captures")
HAS_TSHARK = shutil.which("tshark") is not None
PORT = 3260
# Ethernet with a VLAN, IPv6, TCP.
HEADERS_OF_FRAME = 18 + 40 + 20
DIGEST = "2f0530ebc246ba721720a2bd77db767c9842605d4210dc516359dfab197c7782"
KEYS = b"InitiatorName=iqn.2026-01.example:i\0TargetName=iqn.2026-01.example:t\0"


def pdu(opcode, flags, tag, fields, data=b"", ahs=b"", digests=0):
    """A PDU with these 32-bit numbers from byte 20 on. Digests are zero bytes: nobody looks at them."""
    header = struct.pack(">BBxxI8xI", opcode, flags, len(ahs) // 4 << 24 | len(data), tag)
    header = (header + b"".join(struct.pack(">I", value) for value in fields)).ljust(48, b"\0")
    header_digest = bytes(4 * (digests & 1))
    data_digest = bytes(4 * (digests >> 1 & bool(data)))
    return header + ahs + header_digest + data + bytes(-len(data) % 4) + data_digest


def login(cid, tsih, cmd_sn, keys=KEYS):
    request = bytearray(pdu(0x43, 0x87, 0, (cid << 16, cmd_sn), keys))
    request[8:16] = bytes.fromhex("800000000001") + tsih.to_bytes(2, "big")
    return bytes(request)


def login_response(tsih, stat_sn, exp, greatest, keys=b"HeaderDigest=None\0"):
    response = bytearray(pdu(0x23, 0x87, 0, (0, stat_sn, exp, greatest), keys))
    response[14:16] = tsih.to_bytes(2, "big")
    return bytes(response)


def command(tag, cmd_sn, lun=0, digests=0, ahs=b""):
    request = bytearray(pdu(0x01, 0x81, tag, (0, cmd_sn), ahs=ahs, digests=digests))
    request[9] = lun
    return bytes(request)


def response(tag, stat_sn, exp, greatest, status=0, data=b"", digests=0):
    reply = bytearray(pdu(0x21, 0x80, tag, (0, stat_sn, exp, greatest), data, digests=digests))
    reply[3] = status
    return bytes(reply)


def replace_port(one, port):
    """The segment with another port of the target."""
    ends = [(address, port if address == b"target" else number) for address, number in (one.source, one.target)]
    return Segment(one.frame, one.time, *ends, one.sequence, one.begins, one.payload, one.missing, one.acknowledged)


class Wire:
    """Segments of connections as they would be captured: one a call, with a frame number each."""

    def __init__(self):
        self.segments = []
        self.next = {}

    def open(self, stream, sequence=1000):
        for side in (True, False):
            self.next[stream, side] = sequence
            self.put(stream, side, b"", begins=True)

    def put(self, stream, side, payload, begins=False, at=None, missing=0):
        """A segment after the ones before it, or at another place of the stream. Of so many bytes at its end nothing was captured."""
        sequence = self.next[stream, side] if at is None else at
        if at is None:
            self.next[stream, side] += len(payload) + missing
        frame = len(self.segments) + 1
        ends = (b"initiator", 40000 + stream), (b"target", PORT)
        acknowledged = None if begins and side else self.next.get((stream, not side), 0) % 2**32
        self.segments.append(Segment(frame, frame / 1000, *(ends if side else ends[::-1]), sequence % 2**32, begins, payload, missing,
                                     acknowledged))

    def lose(self, stream, side, payload):
        """Bytes that were sent, and that the capture lacks."""
        self.next[stream, side] += len(payload)

    def log_in(self, stream, cid=1, asked=0, tsih=7, first=1, **words):
        self.open(stream)
        self.put(stream, True, login(cid, asked, first))
        self.put(stream, False, login_response(tsih, 0, first, first + 31, **words))


def segment(sequence, payload, missing=0):
    return Segment(1, 0.0, ("i", 1), ("t", 2), sequence % 2**32, False, payload, missing, None)


class Streams(unittest.TestCase):
    def take(self, *segments, begin=100):
        stream = Stream()
        stream.begin(begin)
        chunks = [chunk for one in segments for chunk in stream.take(segment(*one))]
        self.assertEqual([], [chunk for chunk in chunks if chunk.hole])
        return b"".join(chunk.payload for chunk in chunks), bool(stream.late)

    def test_in_order(self):
        self.assertEqual((b"abcdef", False), self.take((100, b"abc"), (103, b"def")))

    def test_out_of_order(self):
        self.assertEqual((b"abcdefghi", False), self.take((106, b"ghi"), (103, b"def"), (100, b"abc")))

    def test_retransmission(self):
        self.assertEqual((b"abcdef", False), self.take((100, b"abc"), (100, b"abc"), (103, b"def"), (100, b"abcdef")))

    def test_overlap(self):
        self.assertEqual((b"abcdefgh", False), self.take((100, b"abcd"), (102, b"cdef"), (105, b"fgh")))
        self.assertEqual((b"abcdefgh", False), self.take((102, b"cdefgh"), (104, b"ef"), (100, b"abcd")))

    def test_keep_alive(self):
        self.assertEqual((b"abc", False), self.take((99, b"\0"), (100, b"abc"), (102, b"c")))

    def test_numbers_that_wrap(self):
        self.assertEqual((b"abcdef", False), self.take((2**32 - 2, b"abc"), (1, b"def"), begin=2**32 - 2))

    def test_gap(self):
        self.assertEqual((b"abc", True), self.take((100, b"abc"), (104, b"e")))

    def test_without_a_beginning(self):
        self.assertEqual([b"def"], [chunk.payload for chunk in Stream().take(segment(103, b"def"))])

    def test_bytes_that_never_come_are_a_hole(self):
        """They are given up once the other side has them and more segments came than are out of order, or as the capture ends."""
        stream = Stream()
        stream.begin(100)
        found = list(stream.take(segment(103, b"def")))
        stream.acknowledge(106)
        places = range(106, 106 + 80)
        found += [chunk for place in places for chunk in stream.take(segment(place, b"x"))]
        self.assertEqual([3, 0], [chunk.hole for chunk in found[:2]])
        self.assertEqual(b"def" + b"x" * 80, b"".join(chunk.payload for chunk in found))
        ending = Stream()
        ending.begin(100)
        self.assertEqual([], list(ending.take(segment(103, b"def"))))
        self.assertEqual([(3, b""), (0, b"def")], [(chunk.hole, chunk.payload) for chunk in ending.finish()])

    def test_bytes_at_the_end_that_the_other_side_has_are_a_hole(self):
        """A FIN counts as one byte, and is none."""
        for acknowledged, holes in ((103, []), (104, []), (151, [48])):
            stream = Stream()
            stream.begin(100)
            self.assertEqual([0], [chunk.hole for chunk in stream.take(segment(100, b"abc"))])
            stream.acknowledge(acknowledged)
            self.assertEqual(holes, [chunk.hole for chunk in stream.finish()])

    def test_bytes_that_were_cut_off_are_a_hole(self):
        stream = Stream()
        stream.begin(100)
        found = [chunk for one in (segment(100, b"abc", 5), segment(108, b"ijk")) for chunk in stream.take(one)]
        self.assertEqual([(b"abc", 0), (b"", 5), (b"ijk", 0)], [(chunk.payload, chunk.hole) for chunk in found])


class Splitting(unittest.TestCase):
    def test_byte_by_byte(self):
        whole = response(1, 2, 3, 4, data=b"abcde") + response(2, 3, 3, 4) + response(9, 4, 3, 4)
        splitter = Splitter(from_initiator=False)
        found = [one for place in range(len(whole)) for one in splitter.take_bytes(whole[place:place + 1])]
        self.assertEqual([b"abcde", b"", b""], [one.data for one in found])
        self.assertEqual([1, 2, 9], [one.header[19] for one in found])

    def test_digests_and_additional_headers(self):
        for digests in range(4):
            splitter = Splitter(from_initiator=True)
            splitter.header_digest, splitter.data_digest = bool(digests & 1), bool(digests & 2)
            whole = command(1, 1, ahs=bytes(8), digests=digests) + pdu(0x43, 0x80, 1, (), b"abc", digests=digests)
            whole += command(2, 2, digests=digests)[:40]
            self.assertEqual([b"", b"abc"], [one.data for one in splitter.take_bytes(whole)])

    def test_a_reply_among_requests(self):
        splitter = Splitter(from_initiator=True)
        self.assertEqual(1, len(list(splitter.take_bytes(command(1, 1) + response(1, 1, 2, 3) + command(2, 2)))))
        self.assertTrue(splitter.is_lost)


    def take(self, splitter, *parts):
        """The PDUs of these bytes and holes, which are numbers."""
        chunks = [Chunk(1, 0.0, hole=part) if isinstance(part, int) else Chunk(1, 0.0, part) for part in parts]
        return [one for chunk in chunks for one in splitter.take(chunk)]

    def test_a_hole_in_data_loses_no_pdu(self):
        splitter = Splitter(from_initiator=False)
        whole = pdu(0x25, 0x80, 5, (), b"d" * 1000)
        found = self.take(splitter, whole[:100], len(whole) - 200, whole[-100:] + response(5, 1, 2, 3))
        self.assertEqual([5, 5], [one.header[19] for one in found])

    def test_a_hole_in_data_that_are_read_keeps_what_is_before_it(self):
        splitter = Splitter(from_initiator=False)
        whole = response(5, 1, 2, 3, status=2, data=b"s" * 64)
        self.assertEqual([b"s" * 20], [one.data for one in self.take(splitter, whole[:68], len(whole) - 68)])

    def test_a_hole_in_a_header_loses_it_and_those_up_to_the_next_segment(self):
        splitter = Splitter(from_initiator=True)
        found = self.take(splitter, command(1, 1) + command(2, 2)[:20], 28, command(3, 3)[1:], command(4, 4), command(5, 5))
        self.assertEqual([1, 4, 5], [one.header[19] for one in found])

    def behind_a_hole(self, content, outstanding=range(1, 9)):
        """The tags of the PDUs that are found in a segment behind a hole that has a header."""
        splitter = Splitter(from_initiator=False)
        splitter.outstanding = set(outstanding)
        return [one.header[19] for one in self.take(splitter, response(1, 1, 2, 3)[:20], 100, content)]

    def test_a_chain_of_replies_in_a_segment(self):
        """Two in a row are found wherever they begin, with data between them, and all behind them."""
        replies = response(5, 1, 9, 40), pdu(0x25, 0x80, 6, (NO_TAG, 0, 9, 40), b"d" * 37), response(6, 2, 9, 40), response(7, 3, 10, 40)
        for rest in (1, 2, 3, 47, 48, 1000):
            self.assertEqual([5, 6, 6, 7], self.behind_a_hole(b"d" * rest + b"".join(replies)), rest)
            self.assertEqual([], self.behind_a_hole(b"d" * rest + replies[0]), rest)

    def test_what_looks_like_replies(self):
        """Headers whose tags aren't outstanding, that lead to none, or that expect a lower CmdSN than those in front of them; and any bytes."""
        true = response(5, 1, 9, 40) + response(6, 2, 9, 40)
        for false in (response(15, 1, 9, 40) + response(16, 2, 9, 40), response(5, 1, 9, 40) + bytes(4) + response(6, 2, 9, 40),
                      response(5, 1, 9, 40) + response(6, 2, 8, 40), command(5, 1) + command(6, 2)):
            self.assertEqual([], self.behind_a_hole(b"d" + false + b"d" * 96))
            self.assertEqual([5, 6], self.behind_a_hole(b"d" + false + b"d" * 96 + true))
        self.assertEqual([], self.behind_a_hole(b"d" + true, outstanding=()))
        chance = random.Random(3)
        for _ in range(50):
            self.assertEqual([], self.behind_a_hole(chance.randbytes(4000)))

    def test_a_header_is_known_by_what_is_kept_free(self):
        for header, from_initiator in ((command(1, 1), True), (response(1, 1, 2, 3), False)):
            self.assertTrue(is_plausible(header, from_initiator))
            self.assertFalse(is_plausible(header, not from_initiator))
            self.assertFalse(is_plausible(b"\x80" + header[1:], from_initiator))
        self.assertFalse(is_plausible(b"\1\x81\1" + command(1, 1)[3:], True))
        self.assertFalse(is_plausible(bytes(48), True))
        self.assertTrue(is_plausible(login(1, 0, 1), True))
        self.assertFalse(is_plausible(b"\x63" + bytes(47), False))


class Finding(unittest.TestCase):
    def test_two_connections_of_a_session(self):
        wire = Wire()
        wire.log_in(0, cid=1)
        wire.log_in(1, cid=2, asked=7)
        wire.put(1, True, command(2, 2))
        wire.put(0, True, command(1, 1))
        wire.put(1, False, response(2, 1, 3, 34))
        (session,), unread = find(wire.segments)
        self.assertEqual({1: 1, 2: 1}, session.connections)
        self.assertEqual([(2, 2), (1, 1), (2, 2)], [(item.cid, item.tag) for item in session.items])
        self.assertFalse(unread)

    def test_a_session_that_the_target_didn_t_join(self):
        wire = Wire()
        wire.log_in(0, cid=1)
        wire.log_in(1, cid=2, asked=7, tsih=8)
        sessions, _ = find(wire.segments)
        self.assertEqual([7, 8], [session.tsih for session in sessions])

    def test_digests_from_the_end_of_the_login(self):
        wire = Wire()
        wire.log_in(0, keys=b"HeaderDigest=CRC32C\0DataDigest=CRC32C\0")
        wire.put(0, True, command(5, 1, digests=3) + command(6, 2, digests=3))
        wire.put(0, False, response(5, 1, 3, 34, data=b"abc", digests=3))
        (session,), _ = find(wire.segments)
        self.assertEqual([5, 6, 5], [item.tag for item in session.items])

    def test_retransmitted_and_split_requests_count_once(self):
        wire = Wire()
        wire.log_in(0)
        place, whole = wire.next[0, True], command(5, 1) + command(6, 2)
        wire.put(0, True, whole[60:], at=place + 60)
        wire.put(0, True, whole[:48], at=place)
        wire.put(0, True, whole[:70], at=place)
        wire.put(0, True, whole, at=place)
        (session,), _ = find(wire.segments)
        self.assertEqual([(5, 6), (6, 7)], [(item.tag, item.frame) for item in session.items])

    def test_a_lost_request_is_made_up_with_the_tag_that_was_answered(self):
        wire = Wire()
        wire.log_in(0)
        wire.put(0, True, command(5, 1))
        wire.lose(0, True, command(6, 2))
        wire.put(0, True, command(7, 3))
        for tag in (5, 6, 7):
            wire.put(0, False, response(tag, tag - 4, 4, 35))
        (session,), _ = find(wire.segments)
        self.assertEqual([(5, 6)], [(one.frame, one.again) for one in session.losses])
        repair(session)
        requests = [item for item in session.items if item.request]
        self.assertEqual([(5, 1, False), (6, 2, True), (7, 3, False)],
                         [(item.tag, item.request.cmd_sn, item.made_up) for item in requests])
        self.assertEqual("made up: 1 requests and 0 replies that the capture lacks, or that couldn't be found behind a hole",
                         session.notes[-1])

    def test_a_lost_request_of_which_nothing_is_known_is_one_without_an_answer(self):
        wire = Wire()
        wire.log_in(0)
        wire.lose(0, True, command(6, 1))
        wire.put(0, True, command(7, 2))
        wire.put(0, False, response(7, 1, 3, 34))
        (session,), _ = find(wire.segments)
        repair(session)
        made = [item.request for item in session.items if item.made_up]
        self.assertEqual([(0, NO_TAG, 1)], [(request.opcode, request.tag, request.cmd_sn) for request in made])

    def test_replies_that_stand_in_a_segment_behind_a_hole_are_not_lacking(self):
        """A hole has the first of three replies and a part of the data of the second; the segment behind it begins in these."""
        wire = Wire()
        wire.log_in(0)
        for tag in (5, 6, 7, 8):
            wire.put(0, True, command(tag, tag - 4))
        wire.lose(0, False, response(5, 1, 5, 36) + response(6, 2, 5, 36, data=b"d" * 64)[:80])
        wire.put(0, False, b"d" * 32 + response(7, 3, 5, 36) + response(8, 4, 5, 36))
        (session,), _ = find(wire.segments)
        repair(session)
        self.assertEqual([7, 8], [item.tag for item in session.items if item.reply and not item.made_up])
        self.assertEqual([(5, 1), (6, 2)], [(one.tag, one.stat_sn) for one in session.lost])

    def test_a_lost_reply_is_made_up_for_a_command_without_an_answer(self):
        wire = Wire()
        wire.log_in(0)
        for tag in (5, 6):
            wire.put(0, True, command(tag, tag - 4))
        wire.lose(0, False, response(5, 1, 3, 34))
        wire.put(0, False, response(6, 2, 3, 34))
        (session,), _ = find(wire.segments)
        repair(session)
        self.assertEqual([(5, 1)], [(one.tag, one.stat_sn) for one in session.lost])
        made = [item for item in session.items if item.made_up]
        self.assertEqual([(5, 0)], [(item.tag, item.reply.status) for item in made])
        self.assertEqual(1, sum("lost 00000005 00000001" in line for line in target_lines(session)))

    def test_what_was_outstanding_before_a_late_capture_is_put_in_front(self):
        wire = Wire()
        wire.next[0, True] = wire.next[0, False] = 77
        wire.put(0, True, command(9, 50))
        wire.put(0, False, response(3, 20, 51, 82))
        wire.put(0, False, response(9, 21, 51, 83))
        (session,), unread = find(wire.segments)
        repair(session)
        self.assertEqual(({1: 20}, 49, 32, True), (session.connections, session.first, session.window, session.is_late))
        self.assertEqual([(3, 49, True), (9, 50, False)],
                         [(item.tag, item.request.cmd_sn, item.made_up) for item in session.items if item.request])
        self.assertFalse(unread)

    def test_digests_of_a_late_capture(self):
        wire = Wire()
        wire.next[0, True] = wire.next[0, False] = 77
        for tag in range(9, 12):
            wire.put(0, True, command(tag, tag, digests=3))
            wire.put(0, False, response(tag, tag, tag + 1, tag + 32, data=b"abcd", digests=3))
        (session,), _ = find(wire.segments)
        self.assertEqual([9, 9, 10, 10, 11, 11], [item.tag for item in session.items])

    def test_any_port_and_several_targets(self):
        wire = Wire()
        wire.log_in(0)
        wire.put(0, True, command(5, 1))
        other = Wire()
        other.log_in(9)
        other.put(9, True, command(6, 1))
        moved = [replace_port(one, 860) for one in other.segments]
        sessions, _ = find(wire.segments + moved)
        self.assertEqual([3260, 860], [session.port for session in sessions])
        (session,), _ = find(wire.segments + moved, 860)
        self.assertEqual([6], [item.tag for item in session.items])

    def test_bytes_that_lack_before_any_segment_of_a_direction(self):
        wire = Wire()
        wire.log_in(0)
        place = wire.next[0, False]
        wire.segments = [one for one in wire.segments if one.source[0] == b"initiator" or one.begins]
        wire.put(0, True, command(5, 1))
        wire.put(0, False, response(5, 2, 2, 33), at=place + 48)
        sessions, _ = find(wire.segments)
        for session in sessions:
            repair(session)
        self.assertEqual([[5, 5]], [sorted(item.tag for item in session.items) for session in sessions])

    def test_no_pdu_where_one_begins(self):
        wire = Wire()
        wire.log_in(0)
        wire.put(0, True, command(5, 1))
        wire.put(0, True, b"\xff" * 48)
        wire.put(0, True, command(6, 2))
        (session,), _ = find(wire.segments)
        self.assertEqual([5, 6], [item.tag for item in session.items])
        self.assertEqual([(6, 7)], [(one.frame, one.again) for one in session.losses])

    def test_a_second_login_of_a_connection(self):
        wire = Wire()
        wire.log_in(0)
        wire.log_in(1, asked=7)
        wire.put(1, True, command(5, 1))
        (session,), _ = find(wire.segments)
        self.assertEqual([], session.items)
        self.assertIn("connection 1 logs in a second time", session.notes[0])

    def test_what_is_no_session(self):
        wire = Wire()
        wire.open(1)
        wire.put(1, True, b"GET / HTTP/1.1\r\nHost: example\r\nAccept: */*\r\nUser-Agent: nobody\r\n\r\n")
        wire.log_in(2, asked=9, tsih=9)
        wire.open(3)
        wire.put(3, True, login(1, 0, 1))
        wire.next[4, True] = 5
        wire.put(4, True, bytes(range(200)))
        sessions, unread = find(wire.segments)
        self.assertEqual([], sessions)
        self.assertEqual({"a connection that isn't iSCSI": 2, "a login that doesn't succeed": 1,
                          "a connection of a session whose first login isn't in the capture": 1}, unread)

    def test_units_are_those_that_the_target_has(self):
        wire = Wire()
        wire.log_in(0)
        no_unit = b"\0\x12\x70\0\x05\0\0\0\0\x0a" + bytes(4) + b"\x25\0" + bytes(4)
        for tag, lun, status, data in ((1, 2, 0, b""), (2, 5, 2, no_unit)):
            wire.put(0, True, command(tag, tag, lun=lun))
            wire.put(0, False, response(tag, tag, tag + 1, 32 + tag, status, data))
        (session,), _ = find(wire.segments)
        self.assertEqual(3, units_of(session.items))

    def test_a_request_stands_behind_replies_that_had_not_seen_it(self):
        wire = Wire()
        wire.log_in(0)
        wire.put(0, True, command(1, 1))
        wire.put(0, True, command(2, 2))
        wire.put(0, False, response(1, 1, 2, 33))
        wire.put(0, False, response(2, 2, 3, 34))
        (session,), _ = find(wire.segments)
        self.assertEqual([(True, 1), (False, 1), (True, 2), (False, 2)],
                         [(bool(item.request), item.tag) for item in in_taken_order(session.items)])


def function(number, tag, cmd_sn, referenced=NO_TAG):
    """An immediate task management request, of unit 0."""
    return pdu(0x42, 0x80 | number, tag, (referenced, cmd_sn))


def logout(tag, cmd_sn, reason=0, cid=1):
    return pdu(0x46, 0x80 | reason, tag, (cid << 16, cmd_sn))


class Holes(unittest.TestCase):
    """Replies are lacking, and no request is; behind them something takes out what isn't answered by then."""

    READS = range(1, 9)

    def made(self, lost, asked, answered, behind=(), second=False):
        """The session and the recording of READs whose answers are lacking, but the last one's, of what is asked then, and what is answered."""
        wire = Wire()
        wire.log_in(0)
        for tag in self.READS:
            wire.put(0, True, command(tag, tag))
        for tag in self.READS:
            (wire.lose if tag in lost else wire.put)(0, False, response(tag, tag, 9, 40))
        if second:
            wire.log_in(1, cid=2, asked=7)
        for request in behind:
            wire.put(0, True, request)
        wire.put(second, True, asked)
        wire.put(second, False, answered)
        (session,), _ = find(wire.segments)
        repair(session)
        return session, record(session)

    def taken_out(self, recording):
        return sum(effect.kind == "leave" for event in recording.events if event.is_arrival for effect in event.effects)

    def look(self, *words, **more):
        """With a hole and without one the same commands are completed, none is taken out, and no request is made up."""
        for lost in ((), range(2, 8), range(1, 8), (4,)):
            session, recording = self.made(lost, *words, **more)
            self.assertEqual([], [item.tag for item in session.items if item.made_up and item.request], lost)
            self.assertEqual(sorted(lost), sorted(item.tag for item in session.items if item.made_up), lost)
            self.assertEqual((len(self.READS), 0, 0), (recording.completions, recording.without_ticket, self.taken_out(recording)), lost)

    def test_a_logout(self):
        self.look(logout(20, 9), pdu(0x26, 0x80, 20, (0, 9, 9, 40)))

    def test_an_abort_of_a_task(self):
        self.look(function(1, 20, 9, referenced=4), pdu(0x22, 0x80, 20, (0, 9, 9, 40)))

    def test_an_abort_of_a_task_and_a_logout(self):
        self.look(logout(21, 9), pdu(0x26, 0x80, 21, (0, 10, 9, 40)), behind=[function(1, 20, 9, referenced=4)])

    def test_functions_of_a_unit(self):
        for number in (2, 4, 5):
            with self.subTest(number):
                self.look(function(number, 20, 9), pdu(0x22, 0x80, 20, (0, 9, 9, 40)))

    def test_a_second_connection(self):
        """It logs in and out; and then it has a function that would take out the commands of the first one."""
        self.look(logout(20, 9, reason=1, cid=2), pdu(0x26, 0x80, 20, (0, 1, 9, 40)), second=True)
        self.look(function(5, 20, 9), pdu(0x22, 0x80, 20, (0, 1, 9, 40)), second=True)

    def test_an_answer_that_is_lacking_on_either_side_of_an_abort(self):
        """Of a READ and its abort one answer is lacking: the abort's, for the READ was taken out. Where both are, it was answered before."""
        for first, tags in ((8, [20]), (7, [8, 20])):
            wire = Wire()
            wire.log_in(0)
            wire.put(0, True, command(7, 1) + command(8, 2))
            wire.put(0, False, response(7, 1, 3, 34))
            wire.put(0, True, function(1, 20, 3, referenced=8))
            wire.lose(0, False, bytes(48))
            wire.put(0, True, command(9, 3))
            wire.put(0, False, response(9, 10 - first + 1, 4, 34))
            (session,), _ = find(wire.segments)
            repair(session)
            self.assertEqual(0, sum(bool(item.request) for item in session.items if item.made_up))
            self.assertEqual(tags, [one.tag for one in session.lost])
            recording = record(session)
            self.assertEqual((first == 8, 0), (self.taken_out(recording), recording.without_ticket))


def frame_of(segment, addresses):
    """The bytes of an Ethernet frame with a VLAN tag and IPv6."""
    sequence = (segment.sequence - segment.begins) % 2**32
    tcp = struct.pack(">HHIIBBHHH", segment.source[1], segment.target[1], sequence, segment.acknowledged or 0, 5 << 4,
                      2 * segment.begins | 16 * (segment.acknowledged is not None), 8192, 0, 0)
    source, destination = addresses if segment.source[0] == b"initiator" else addresses[::-1]
    ip = struct.pack(">IHBB", 6 << 28, len(tcp) + len(segment.payload), 6, 64) + source + destination
    return bytes(12) + b"\x81\0\0\x05\x86\xdd" + ip + tcp + segment.payload


def write_pcap(path, segments, linktype=1):
    """Writes segments as a capture of the old form (pcap)."""
    addresses = bytes(15) + b"\1", bytes(15) + b"\2"
    with open(path, "wb") as file:
        file.write(struct.pack("<IHHiIII", 0xa1b2c3d4, 2, 4, 0, 0, 65535, linktype))
        for segment in segments:
            whole = frame_of(segment, addresses)
            time = segment.frame // 1000, segment.frame % 1000 * 1000
            file.write(struct.pack("<IIII", *time, len(whole), len(whole)) + whole)


def pcap_of(found, order, magic, unit, link, head):
    """Packets of Ethernet as a capture of the old form, with links of another type: so many bytes of each are left out."""
    parts = [struct.pack(f"{order}IHHiIII", magic, 2, 4, 0, 0, 65535, link)]
    for one in found:
        content = one.content[head:] if link != 113 else b"\0\0\3\4\0\6" + bytes(8) + one.content[12:]
        seconds, rest = divmod(one.nanoseconds, 10**9)
        parts.append(struct.pack(f"{order}IIII", seconds, rest // unit, len(content), len(content)) + content)
    return b"".join(parts)


class Tool(unittest.TestCase):
    def setUp(self):
        folder = tempfile.TemporaryDirectory()
        self.addCleanup(folder.cleanup)
        self.folder = folder.name

    def file(self, name, data=b""):
        path = os.path.join(self.folder, name)
        with open(path, "wb") as file:
            file.write(data)
        return path

    def make(self, path, *words):
        done = run_tool("capture", path, "-o", self.folder, *words)
        self.assertEqual((0, ""), (done.returncode, done.stderr))
        return done.stdout

    def lines(self, name):
        with open(os.path.join(self.folder, name), encoding="utf-8") as file:
            return file.read().splitlines()

    def refused(self, why, *words):
        done = run_tool("capture", *words)
        self.assertEqual((1, ""), (done.returncode, done.stdout))
        self.assertRegex(done.stderr, rf"\Acapture: .*{why}.*\n\Z")

    def test_every_capture_gives_recordings_that_stand_still(self):
        captures = sorted(os.listdir(CAPTURES))
        self.assertGreater(len(captures), 5)
        for name in captures:
            self.make(os.path.join(CAPTURES, name))
        recordings = sorted(name for name in os.listdir(self.folder) if name.endswith(".recording"))
        self.assertGreaterEqual(len(recordings), len(captures))
        for name in recordings:
            lines = self.lines(name)
            self.assertTrue(lines[0].startswith("# iscsi-replay: --first "), name)
            text = "\n".join(lines) + "\n"
            report = replay(text, *lines[0].removeprefix("# iscsi-replay: ").split())
            events = [line for line in lines if line[:2] in ("C ", "D ")]
            self.assertEqual(events, [line[2:] for line in report.splitlines() if line.startswith("> ")])
            self.assertLessEqual(max(len(line) for line in lines), 256)

    def test_a_long_session_with_a_window_of_one(self):
        """The first guess of its tickets is right, so one replay shows that they stand still."""
        wire = Wire()
        wire.open(0)
        wire.put(0, True, login(1, 0, 1))
        wire.put(0, False, login_response(7, 0, 1, 1))
        for number in range(1, 1101):
            wire.put(0, True, command(number, number))
            wire.put(0, False, response(number, number, number + 1, number + 1))
        path = os.path.join(self.folder, "long.pcap")
        write_pcap(path, wire.segments)
        self.assertIn("1100 requests, 1100 completions; ", self.make(path))
        sessions, _ = sessions_of(path)
        self.assertEqual(1, settling.record(sessions[0]).passes)

    def test_recordings_are_what_they_were(self):
        """Those of the captures that are whole, and what their targets answered, byte for byte, but for the line of the capture's end. The
        digest is of the files that the tool made as it had tshark read each capture, and began each replay without tickets."""
        for name in sorted(os.listdir(CAPTURES)):
            if name != "after-login.pcapng":
                self.make(os.path.join(CAPTURES, name))
        whole, names = hashlib.sha256(), sorted(os.listdir(self.folder))
        for name in names:
            with open(os.path.join(self.folder, name), "rb") as file:
                content, ends = re.subn(rb"# the capture ends at \d+\.\d{6} s\n", b"", file.read())
            self.assertEqual(name.endswith(".recording"), ends)
            whole.update(name.encode() + b"\0" + content)
        self.assertEqual((42, DIGEST), (len(names), whole.hexdigest()))

    def test_the_form_of_both_files(self):
        self.make(os.path.join(CAPTURES, "abort-live.pcapng"))
        lines = self.lines("abort-live-1.recording")
        self.assertEqual("# iscsi-replay: --first 00000001 --window 129 --units 2 --depth 1024 --level 1", lines[0])
        self.assertEqual("conn 1 00000001", next(line for line in lines if not line.startswith("#")))
        place = next(place for place, line in enumerate(lines) if line.startswith("D 3 "))
        self.assertRegex(lines[place - 1], r"\A# time \d+\.\d{6} frame 16: GOOD for tag 00000010\Z")
        answers = [line for line in self.lines("abort-live-1.target") if not line.startswith("#")]
        self.assertRegex(answers[3], r"\A17 \d+\.\d{6} 1 function-response 00000011 00000004 00000004 00000084 01 "
                                     r"task does not exist\Z")

    def test_a_real_session_of_three_connections(self):
        told = self.make(os.path.join(CAPTURES, "istgt-connections.pcapng"))
        self.assertEqual(f"{self.folder}/istgt-connections-1.recording: 3 connection(s), 13 requests, 8 completions; "
                         "from iqn.2026-01.example:initiator to port 3260; 0.709 s; 9 commands; 1 x ABORT TASK; "
                         "1 x CHECK CONDITION (UNIT ATTENTION, 29/00); 8 difference(s): 1 x ExpCmdSN, 7 x MaxCmdSN\n", told)
        lines = [line for line in self.lines("istgt-connections-1.recording") if not line.startswith("#")]
        self.assertEqual([f"conn {cid} 00000001" for cid in (1, 2, 3)], lines[:3])
        # The connection, tag and CmdSN of each request, and the tickets. CmdSN 4 comes before CmdSN 3.
        events = [line.split() for line in lines[3:]]
        requests = [f"{words[1]} {words[2][38:40]} {int(words[2][48:56], 16)}" for words in events if words[0] == "C"]
        self.assertEqual(["1 01 1", "2 02 2", "2 10 4", "1 11 3", "1 20 5", "2 21 6", "3 22 7", "1 20 0", "2 23 7",
                          "2 30 8", "1 31 8", "3 32 9", "1 33 10"], requests)
        self.assertEqual(list("12345789"), [words[1] for words in events if words[0] == "D"])

    def test_vlan_ipv6_retransmissions_and_two_connections(self):
        wire = Wire()
        wire.log_in(0, cid=1)
        wire.log_in(1, cid=2, asked=7)
        wire.put(1, True, command(2, 2))
        place = wire.next[0, True]
        wire.put(0, True, command(1, 1)[30:], at=place + 30)
        wire.put(0, True, command(1, 1)[:40], at=place)
        wire.put(0, False, response(1, 1, 3, 34))
        wire.put(1, False, response(2, 1, 3, 34))
        path = os.path.join(self.folder, "made.pcap")
        write_pcap(path, wire.segments)
        self.make(path)
        events = [line for line in self.lines("made-1.recording") if not line.startswith("#")]
        self.assertEqual(["conn 1 00000001", "conn 2 00000001",
                          f"C 2 {command(2, 2).hex()}", f"C 1 {command(1, 1).hex()}",
                          "D 1 00", "D 2 00"], events)

    def test_the_window_grows_where_the_target_s_is_too_narrow(self):
        told = self.make(os.path.join(CAPTURES, "narrow-window.pcapng"))
        self.assertIn("window 10 (the target's widest is 5)", told)
        self.assertIn("--window 10 ", self.lines("narrow-window-1.recording")[0])

    def test_a_capture_that_begins_after_the_login(self):
        told = self.make(os.path.join(CAPTURES, "after-login.pcapng"))
        self.assertIn("begun after the login: its ISID, TSIH and names aren't known; "
                      "made up: 1 requests and 0 replies that the capture lacks", told)
        lines = self.lines("after-login-1.recording")
        self.assertIn("# made up: 1 requests and 0 replies that the capture lacks", lines)
        made = [line for line in lines if "made up, since the capture lacks it: " in line]
        self.assertEqual(1, len(made), made)

    def test_a_capture_without_iscsi(self):
        wire = Wire()
        wire.open(0)
        wire.put(0, True, b"GET / HTTP/1.1\r\nHost: example\r\nAccept: */*\r\n\r\n")
        path = os.path.join(self.folder, "web.pcap")
        write_pcap(path, wire.segments)
        self.refused("no session: 1 x a connection that isn't iSCSI", path)
        self.refused("no session on port 3261: no TCP connection", path, "--port", "3261")
        write_pcap(path, [])
        self.refused("no session: no TCP connection", path)

    def test_frames_that_are_cut_too_short(self):
        wire = Wire()
        wire.log_in(0)
        whole, cut = (os.path.join(self.folder, f"{name}.pcap") for name in ("whole", "short"))
        write_pcap(whole, wire.segments)
        perf.write(cut, perf.packets(whole), HEADERS_OF_FRAME + HEADER_SIZE - 1)
        self.refused("no session: 1 x a connection whose frames are cut too short for headers of 48 bytes", cut)
        perf.write(cut, perf.packets(whole), HEADERS_OF_FRAME + HEADER_SIZE)
        self.assertIn("1 connection(s), 0 requests", self.make(cut))

    def test_the_ports_are_listed(self):
        wire = Wire()
        wire.log_in(0)
        wire.put(0, True, command(5, 1))
        path = os.path.join(self.folder, "other.pcap")
        write_pcap(path, [replace_port(one, 33260) for one in wire.segments])
        self.assertIn("\nports: 33260\n", self.make(path))

    def test_forms_of_captures(self):
        """Other byte orders, nanoseconds, links and a file that tshark alone reads give the same recording."""
        with open(os.path.join(CAPTURES, "reset.pcapng"), "rb") as file:
            whole = file.read()
        self.make(self.file("made.pcapng", whole))
        wanted = self.lines("made-1.recording")[2:]
        found = list(packets(os.path.join(self.folder, "made.pcapng")))
        for order, magic, unit in (("<", 0xa1b2c3d4, 1000), (">", 0xa1b2c3d4, 1000), ("<", 0xa1b23c4d, 1), (">", 0xa1b23c4d, 1)):
            for link, head in ((1, 0), (101, 14), (113, 0)):
                self.make(self.file("made.pcap", pcap_of(found, order, magic, unit, link, head)))
                self.assertEqual(wanted, self.lines("made-1.recording")[2:], (order, hex(magic), link))
        if HAS_TSHARK:
            self.make(self.file("made.pcapng", gzip.compress(whole)))
            self.assertEqual(wanted, self.lines("made-1.recording")[2:])

    def test_what_is_no_capture(self):
        self.refused("No such file", os.path.join(self.folder, "none.pcap"))
        self.refused("Is a directory", self.folder)
        self.refused("empty", self.file("empty.pcap"))
        why = "text.pcap: .*capture file" if HAS_TSHARK else "no pcap or pcapng of a common kind, and tshark is missing"
        self.refused(why, self.file("text.pcap", b"hello, this is a text\n" * 40))
        self.refused(why.replace("text", "binary"), self.file("binary.pcap", bytes(range(256)) * 9))

    def test_a_capture_cut_in_its_last_packet(self):
        with open(os.path.join(CAPTURES, "reset.pcapng"), "rb") as file:
            whole = file.read()
        self.assertIn("6 requests, 2 completions", self.make(self.file("cut.pcapng", whole[:3300])))

    def test_packets_cut_short(self):
        """Of each packet of a real session 130 bytes are kept: the headers, and of the logins a part."""
        found = list(packets(os.path.join(CAPTURES, "abort-live.pcapng")))
        for one in found:
            one.content = one.content[:130]
        content = pcap_of(found, "<", 0xa1b23c4d, 1, 1, 0)
        told = self.make(self.file("short.pcap", content))
        self.assertIn("short-1.recording: 1 connection(s), ", told)
        self.make(os.path.join(CAPTURES, "abort-live.pcapng"))
        kept = [line for line in self.lines("abort-live-1.recording") if line[:2] in ("C ", "D ")]
        self.assertEqual(kept, [line for line in self.lines("short-1.recording") if line[:2] in ("C ", "D ")])

    def test_a_folder_that_can_t_be_written(self):
        self.refused("exists|directory", os.path.join(CAPTURES, "reset.pcapng"), "-o", self.file("taken"))
        self.refused("", os.path.join(CAPTURES, "reset.pcapng"), "-o", "/proc/none")

    def test_bad_command_lines(self):
        for words in ((), ("a.pcap", "--port", "0"), ("a.pcap", "--port", "x"), ("a.pcap", "--port", "65536"),
                      ("a", "b")):
            self.assertEqual(2, run_tool("capture", *words).returncode, words)


class WithoutTshark(unittest.TestCase):
    def test_it_says_how_to_get_it(self):
        """It is wanted for a file that is neither pcap nor pcapng."""
        with tempfile.TemporaryDirectory() as folder:
            os.symlink(sys.executable, os.path.join(folder, "python3"))
            path = os.path.join(folder, "a.pcap.gz")
            with open(path, "wb") as file:
                file.write(gzip.compress(b"x" * 100))
            done = subprocess.run([os.path.join(folder, "python3"), os.path.join(TOP, "tools", "capture"), path],
                                  capture_output=True, text=True, env={"PATH": folder})
        self.assertEqual((1, ""), (done.returncode, done.stdout))
        self.assertRegex(done.stderr, r"\Acapture: .*, and tshark is missing, which may read it: install it with .*\n\Z")


class Missing(unittest.TestCase):
    """A program that has yet to be built."""

    def test_the_script_says_what_builds_it(self):
        with tempfile.TemporaryDirectory() as folder:
            script = os.path.join(folder, "iscsi-replay")
            with open(script, "w", encoding="ascii") as file:
                file.write("#!/bin/sh\n[ \"$1\" = --built ] && echo 'iscsi-replay: none; --prove builds it' >&2\nexit 70\n")
            os.chmod(script, 0o755)
            with unittest.mock.patch.object(settling, "TOP", folder), self.assertRaises(settling.BadReplay) as refusal:
                settling.run_program("", [])
        self.assertEqual("iscsi-replay: none; --prove builds it", str(refusal.exception))

    def test_the_script_is_asked_once_and_the_program_begun_then(self):
        with tempfile.TemporaryDirectory() as folder:
            script, program = os.path.join(folder, "iscsi-replay"), os.path.join(folder, "program")
            for path, text in ((script, f"echo asked >> {folder}/asked\necho {program}\n"), (program, "cat\necho \"$@\"\n")):
                with open(path, "w", encoding="ascii") as file:
                    file.write("#!/bin/sh\n" + text)
                os.chmod(path, 0o755)
            with unittest.mock.patch.object(settling, "TOP", folder):
                told = [settling.run_program(text, ["--window", "3"]) for text in ("one\n", "two\n")]
                os.remove(program)
                with self.assertRaises(settling.BadReplay) as refusal:
                    settling.run_program("", [])
            with open(os.path.join(folder, "asked"), encoding="ascii") as file:
                self.assertEqual("asked\n", file.read())
        self.assertEqual(["one\n--window 3\n", "two\n--window 3\n"], told)
        self.assertEqual(f"{program}: No such file or directory", str(refusal.exception))


if __name__ == "__main__":
    unittest.main()
