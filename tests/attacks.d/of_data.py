"""Attacks by data: what comes with requests that are rejected, what is never sent to the end, and what is never read."""

import select
import time

from initiator import ABORT_TASK, BLOCK, FINAL, RESET, WRITES, Wrong, word
from peer import MOST_BLOCKS, Peer

OURS, EVIL = b"A" * BLOCK, b"B" * BLOCK
ABORT_TASK_SET = 2
REJECTED, REJECTED_LENGTH = 4000, 1 << 18
# What may become resident while an attack goes on, beyond what was before it.
MOST_OF_REJECTED, MOST_OF_DATA = 32, 96
# The data of a command of 8 MiB, and so many of these: as many as the window has room for.
WHOLE, AT_ONCE = b"W" * (MOST_BLOCKS * BLOCK), 32
SOON = 3


# ---- requests that are rejected

def poisoned_held(victim):
    """Data of a rejected request with the CmdSN of a WRITE that is held"""
    with Peer(victim.port) as peer:
        first = peer.cmd_sn
        peer.cmd_sn += 1
        tag = peer.write_now(1, 5, OURS)
        peer.unknown(1, first + 1, EVIL)
        peer.rejected()
        peer.good(peer.test(cmd_sn=first))
        peer.good(tag)
        must_have(peer, 5, OURS)


def poisoned_late(victim):
    """Data of a rejected request with the CmdSN of a WRITE that brings none"""
    with Peer(victim.port) as peer:
        peer.unknown(1, peer.cmd_sn, EVIL)
        peer.rejected()
        tag = peer.write(1, 6, OURS, is_late=True)
        if not peer.pump(lambda: tag in peer.asked or tag in peer.replies, 5) or tag not in peer.asked:
            raise Wrong("the target doesn't ask for the data of the WRITE")
        peer.send_data(1, tag, OURS)
        peer.good(tag)
        must_have(peer, 6, OURS)


def must_have(peer, block, data):
    kept = peer.good(peer.read(1, block))
    if kept != data:
        raise Wrong(f"block {block} has {kept[:4]}, and {data[:4]} was written")
    peer.log_out()


def rejected_heap(victim):
    """1 GB of data with rejected requests"""
    before, most = victim.mebibytes(), 0
    data = bytes(REJECTED_LENGTH)
    with Peer(victim.port) as peer:
        for number in range(REJECTED):
            peer.unknown(1, peer.cmd_sn + number * 3, data, opcode=(0x1c, 0x03)[number % 2])
            if number % 16 == 0:
                peer.rest(0.001)
                most = max(most, victim.mebibytes() - before)
        peer.rejected(REJECTED, 20)
        most = max(most, victim.mebibytes() - before)
        peer.log_out()
    if most > MOST_OF_REJECTED:
        raise Wrong(f"{most:.0f} MiB more are resident")


# ---- what isn't read

def slow_reader(victim):
    """A reader of nothing, who asked for all that it may, doesn't stop a unit for others"""
    before, seen = victim.mebibytes(), []
    with Peer(victim.port, receives=65536) as slow, Peer(victim.port) as other:
        tags = [slow.read(1, 0, MOST_BLOCKS) for _ in range(AT_ONCE)]
        other.rest(0.5)
        mine = [other.test(), other.read(1, 9), other.write_now(1, 20000, OURS), other.write(1, 20001, OURS)]
        if not other.answers_within(SOON, *mine):
            raise Wrong(f"{sum(tag in other.replies for tag in mine)} of {len(mine)} commands of another session are answered in {SOON} s")
        for tag in tags:
            seen.append(victim.mebibytes() - before)
            other.rest(0.001)
            if len(slow.good(tag)) != len(WHOLE):
                raise Wrong("a READ that was read late isn't whole")
            slow.data.pop(tag)
        if max(seen) > MOST_OF_DATA:
            raise Wrong(f"{max(seen):.0f} MiB more are resident")
        other.log_out()
        slow.log_out()


def fence(victim):
    """Aborts without the F bit while another connection isn't read"""
    for byte_1 in (ABORT_TASK_SET, RESET, ABORT_TASK, FINAL | ABORT_TASK_SET):
        fenced(victim, byte_1)


def fenced(victim, byte_1):
    """The answer to an abort comes once what went out before it was read; then nothing of the READ comes."""
    with Peer(victim.port, cids=(1, 2), receives=65536, MaxRecvDataSegmentLength="8192") as peer:
        cmd_sn, tag = peer.cmd_sn, peer.read(1, 0, MOST_BLOCKS)
        if not select.select([peer.connections[1].socket], [], [], SOON)[0]:
            raise Wrong("nothing of the READ comes")
        peer.pump(lambda: False, 0.2, cids=(2,))
        own = peer.function(2, byte_1, *((tag, cmd_sn) if byte_1 == ABORT_TASK else ()))
        if peer.pump(lambda: own in peer.replies, 0.4, cids=(2,)):
            before = len(peer.came)
            peer.pump(lambda: False, 0.3)
            behind = sum(one[2] == tag for one in peer.came[before:])
            raise Wrong(f"byte 1 of {byte_1:02x}: the answer comes at once, and {behind} PDUs of the READ behind it")
        peer.sip(1, lambda: own in peer.replies)
        answer, before = peer.wait(own), len(peer.came)
        if answer[2] or len(peer.data[tag]) >= MOST_BLOCKS * BLOCK:
            raise Wrong(f"byte 1 of {byte_1:02x}: the READ isn't aborted: response {answer[2]}")
        peer.pump(lambda: False, 0.2)
        if any(one[2] == tag for one in peer.came[before:]):
            raise Wrong(f"byte 1 of {byte_1:02x}: data comes behind the answer")
        peer.log_out()


def completed(victim):
    """An abort of a READ that has completed, while its connection isn't read"""
    new = b"N" * len(WHOLE)
    with Peer(victim.port, cids=(1, 2), receives=65536) as peer:
        peer.good(peer.write(2, 0, WHOLE))
        peer.good(peer.write(2, MOST_BLOCKS, new))
        cmd_sn, tag = peer.cmd_sn, peer.read(1, 0, MOST_BLOCKS)
        peer.pump(lambda: False, 0.5, cids=(2,))
        own = peer.function(2, FINAL | ABORT_TASK, tag, cmd_sn)
        if peer.pump(lambda: own in peer.replies, 0.4, cids=(2,)):
            before = len(peer.came)
            peer.pump(lambda: tag in peer.replies, 5)
            behind = sum(one[2] == tag for one in peer.came[before:])
            raise Wrong(f"the answer comes at once, and {behind} PDUs of the READ behind it")
        answer = peer.wait(own)
        if answer[2] != 1 or tag not in peer.replies or peer.data[tag] != WHOLE:
            raise Wrong(f"response {answer[2]}, {len(peer.data.get(tag, ()))} bytes of the READ")
        if peer.good(peer.read(1, MOST_BLOCKS, MOST_BLOCKS, tag)) != new:
            raise Wrong("the READ that has the tag again gets what the first one had read")
        peer.log_out()


# ---- what isn't sent to the end

class Unfinished:
    """A session with WRITEs of 8 MiB, of which the last burst may be kept back."""

    def __init__(self, peer):
        self.peer, self.sent = peer, {}
        self.tags = [peer.command(1, 0x2a, WRITES, 0, MOST_BLOCKS) for _ in range(AT_ONCE)]

    def feed(self, has_last):
        """Sends what was asked for since. Whether there was something."""
        self.peer.rest(0.001)
        sent = dict(self.sent)
        for tag, asked in self.peer.asked.items():
            begin, end = word(asked, 40), word(asked, 40) + word(asked, 44)
            if self.sent.get(tag) != begin and (has_last or end < len(WHOLE)):
                self.peer.send_data(1, tag, WHOLE)
                self.sent[tag] = begin
        return sent != self.sent

    def is_over(self):
        return all(tag in self.peer.replies for tag in self.tags)


def feed_all(sessions, has_last, until, seconds, look):
    """Sends data of these sessions until this holds. Whether it holds."""
    end = time.monotonic() + seconds
    quiet = time.monotonic()
    while not until(time.monotonic() - quiet) and time.monotonic() < end:
        if any([one.feed(has_last) for one in sessions]):
            quiet = time.monotonic()
        look()
    return until(time.monotonic() - quiet)


def unfinished_writes(victim):
    """WRITEs of 8 MiB whose last burst doesn't come, in two sessions"""
    before, seen = victim.mebibytes(), [0]
    with Peer(victim.port) as one, Peer(victim.port) as two, Peer(victim.port) as other:
        sessions = [Unfinished(one), Unfinished(two)]
        def look():
            seen.append(victim.mebibytes() - before)
            other.rest(0.001)
        feed_all(sessions, False, lambda quiet: quiet > 0.7, 20, look)
        if not other.answers_within(SOON, other.write_now(1, 20000, OURS), other.write(1, 20001, OURS)):
            raise Wrong("WRITEs of another session aren't answered meanwhile")
        if max(seen) > MOST_OF_DATA:
            raise Wrong(f"{max(seen):.0f} MiB more are resident")
        if not feed_all(sessions, True, lambda _: all(one.is_over() for one in sessions), 60, look):
            raise Wrong("the WRITEs aren't answered once their data comes")
        for session in sessions:
            for tag in session.tags:
                session.peer.good(tag)
        must_have(one, 16000, b"W" * BLOCK)
        two.log_out()
        other.log_out()
