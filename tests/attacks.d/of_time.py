"""Attacks by slowness: what never ends, what never answers, and what never reads. They go on side by side, as they mostly wait."""

import time

from initiator import Connection, Wrong
from peer import KEYS, MOST_BLOCKS, Peer, login_header, new_isid, next_pdu, text_of, whole_login

# What a deadline may be missed by.
SLACK = 10


def closed_within(connection, seconds, step):
    """Whether a connection is closed in time, while a step is taken each second."""
    end = time.monotonic() + seconds
    while time.monotonic() < end:
        try:
            step()
        except OSError:
            return True
        following = time.monotonic() + 1
        while (left := following - time.monotonic()) > 0 and not connection.is_closed:
            next_pdu(connection, left)
        if connection.is_closed:
            return True
    return False


def dripping_login(victim):
    """A login that comes a byte a second"""
    whole, connection = iter(whole_login(new_isid())), Connection(victim.port, 1, 0)
    limit = victim.deadlines.patience + SLACK
    if not closed_within(connection, limit, lambda: connection.socket.sendall(bytes((next(whole),)))):
        raise Wrong(f"it is open after {limit} s")
    connection.socket.close()


def endless_login(victim):
    """A login of many requests, which never asks for its end"""
    connection, limit = Connection(victim.port, 1, 0), victim.deadlines.patience + SLACK
    isid, texts = new_isid(), iter((text_of(KEYS),))
    if not closed_within(connection, limit, lambda: connection.send(login_header(isid, flags=0x04), next(texts, b""))):
        raise Wrong(f"it is open after {limit} s")
    connection.socket.close()


def wait_with(other, step, seconds):
    """Takes a step again and again while another session answers its pings, until the step gives true."""
    end = time.monotonic() + seconds
    while not step() and time.monotonic() < end:
        other.pump(lambda: False, 0.05)


def vanished(victim):
    """An initiator that answers no ping any more, with a WRITE whose data is awaited"""
    limit = victim.deadlines.ping + SLACK
    with Peer(victim.port) as peer, Peer(victim.port) as other:
        peer.answers_target = False
        tag = peer.write(1, 1, bytes(512), is_late=True)
        if not peer.pump(lambda: tag in peer.asked, 5):
            raise Wrong("the WRITE isn't asked for its data")
        wait_with(other, lambda: peer.pump(lambda: peer.asking, 0.2), limit)
        if not peer.asking:
            raise Wrong(f"no ping comes in {limit} s")
        wait_with(other, lambda: peer.pump(lambda: peer.connections[1].is_closed, 0.2), limit)
        # The socket is closed first, and then the session ends.
        wait_with(other, lambda: not peer.is_known(), 1)
        if not peer.connections[1].is_closed or peer.is_known():
            raise Wrong(f"its session goes on {limit} s after a ping that it didn't answer")
        if other.connections[1].is_closed or not other.answers_pings():
            raise Wrong("a session that answers pings is dropped, too")
        other.log_out()


def silent_discovery(victim):
    """A discovery session that says nothing more"""
    limit = 2 * victim.deadlines.ping + SLACK
    with Peer(victim.port, SessionType="Discovery", TargetName=None) as peer:
        peer.answers_target = False
        if not peer.pump(lambda: peer.connections[1].is_closed, limit):
            raise Wrong(f"it is open after {limit} s")


def blocked(victim):
    """An initiator that reads nothing of what it asked for"""
    limit = victim.deadlines.patience + SLACK
    with Peer(victim.port, receives=65536) as peer:
        for _ in range(2):
            peer.read(1, 0, MOST_BLOCKS)
        end = time.monotonic() + limit
        while peer.is_known():
            if time.monotonic() > end:
                raise Wrong(f"its session goes on after {limit} s")
            time.sleep(1)
