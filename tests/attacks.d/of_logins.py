"""Attacks by logins and texts: who is let in, and what is answered."""

import os
import signal
import time

from initiator import BLOCK, FINAL, IMMEDIATE, Connection, Wrong, word
from loopback import TOP
from peer import CONTINUE, KEYS, MOST_BLOCKS, SECURITY_TO_OPERATIONAL, Peer, login_header, new_isid, next_pdu, status_of, status_of_login, text_of, \
    whole_login, words_of

ACCEPTED, AUTHENTICATION, NOT_INCLUDED = 0x0000, 0x0201, 0x0208
MOST_OF_LOGIN = 8192
RIVALS, RACE_SECONDS = 6, 3


def dead_cid(victim):
    """A login with a CID that a Logout closed before it ever came"""
    with Peer(victim.port, cids=(1, 2)) as peer:
        answer = peer.wait(peer.logout(1, closes=7))
        status = peer.join(7)
        if status == ACCEPTED and not peer.answers_pings(7):
            raise Wrong(f"the Logout of CID 7 is answered by {answer[2]}, a login with it is accepted, and a ping on it isn't answered")
        if not peer.answers_pings(1):
            raise Wrong("the session doesn't go on")
        peer.log_out()


def discovery_joins(victim):
    """A discovery login that names a normal session"""
    with Peer(victim.port, MaxConnections="8") as peer:
        for name in (None, KEYS["TargetName"]):
            keys = {**peer.keys, "SessionType": "Discovery", "TargetName": name}
            if status_of_login(victim.port, keys, isid=peer.isid, tsih=peer.tsih, cid=2) == ACCEPTED:
                raise Wrong(f"it is accepted with{'out' if name is None else ''} a TargetName")
        if not peer.answers_pings():
            raise Wrong("the session doesn't go on")
        peer.log_out()


def stranger_joins(victim):
    """A login into the session of another initiator"""
    with Peer(victim.port, MaxConnections="8") as peer:
        thief = {**peer.keys, "InitiatorName": "iqn.2026-01.example:thief"}
        for keys, isid in ((thief, peer.isid), (peer.keys, new_isid())):
            if status_of_login(victim.port, keys, isid=isid, tsih=peer.tsih, cid=2) == ACCEPTED:
                raise Wrong("it is accepted")
        if not peer.answers_pings():
            raise Wrong("the session doesn't go on")
        peer.log_out()


def only_chap(victim):
    """A login that takes nothing but CHAP"""
    for offered, wanted in (("CHAP", AUTHENTICATION), ("KRB5,SRP", AUTHENTICATION), ("CHAP,None", ACCEPTED), ("None", ACCEPTED)):
        keys = {key: KEYS[key] for key in ("InitiatorName", "SessionType", "TargetName")} | {"AuthMethod": offered}
        status = status_of_login(victim.port, keys, flags=SECURITY_TO_OPERATIONAL)
        if status != wanted:
            raise Wrong(f"AuthMethod={offered} is answered {words_of(status)}, and not {words_of(wanted)}")


def reinstated(victim):
    """A login of a connection that is there: reinstated (RFC 7143 section 6.3.4), or refused, as README.md says"""
    with Peer(victim.port, cids=(1, 2)) as peer:
        former = peer.connections[2]
        status = peer.join(2)
        if status == ACCEPTED:
            next_pdu(former, 5)
            former.socket.close()
            if not former.is_closed:
                raise Wrong("the former connection isn't closed")
        elif status != NOT_INCLUDED or not says_so():
            raise Wrong(f"it is answered {words_of(status)}, and README.md doesn't say so")
        if not peer.answers_pings(2) or not peer.answers_pings(1):
            raise Wrong(f"it is answered {words_of(status)}, and then a connection isn't served")
        peer.log_out()


def says_so():
    """Whether the target's README.md names what it lacks."""
    with open(os.path.join(TOP, "examples", "target", "README.md"), encoding="utf-8") as file:
        return "reinstatement" in file.read()


def rivals(victim):
    """Logins of one initiator port at once: one session is left"""
    end, rounds = time.monotonic() + RACE_SECONDS, 0
    while time.monotonic() < end:
        rounds += 1
        isid = new_isid()
        connections = [Connection(victim.port, 1, 0) for _ in range(RIVALS)]
        for connection in connections:
            connection.socket.sendall(whole_login(isid))
        answers = [next_pdu(connection) for connection in connections]
        alive = [one for one, answer in zip(connections, answers) if status_of(answer) == ACCEPTED]
        # What was accepted first may answer one ping more; what answers after all others did is a session.
        for data in (b"first", b"second"):
            alive = [one for one in alive if is_alive(one, data)]
        for connection in connections:
            connection.socket.close()
        if len(alive) != 1:
            raise Wrong(f"{len(alive)} sessions of one initiator port are left, at try {rounds}")


def is_alive(connection, data):
    """Whether a connection in the Full Feature Phase answers a ping."""
    header = bytearray(48)
    header[0], header[1], header[16:20], header[20:24], header[24:28] = IMMEDIATE, FINAL, b"\0\0\0\2", b"\xff" * 4, b"\0\0\0\1"
    try:
        connection.send(header, data)
    except OSError:
        return False
    while answer := next_pdu(connection, 5):
        if answer[1] == data:
            return True
    return False


# ---- texts

def many_keys(count):
    return "".join(f"X-{number:05}=1\0" for number in range(count)).encode()


def must_answer(data, count):
    """All of these keys are answered, and by whole pairs."""
    pairs = data.split(b"\0")
    answered = [pair for pair in pairs if pair.startswith(b"X-")]
    if pairs[-1] or any(b"=" not in pair for pair in pairs[:-1]) or len(answered) != count:
        raise Wrong(f"{len(answered)} of {count} keys are answered, and the text ends with {data[-16:]!r}")


def long_login(victim):
    """A login whose answer is longer than a PDU may be"""
    for count in (800, 25000):
        connection = Connection(victim.port, 1, 0)
        data, isid = text_of(KEYS) + many_keys(count), new_isid()
        connection.send(login_header(isid), data)
        text, answer = b"", next_pdu(connection)
        while not status_of(answer):
            text += answer[1]
            if len(answer[1]) > MOST_OF_LOGIN:
                raise Wrong(f"a Login Response has {len(answer[1])} bytes of data")
            if not answer[0][1] & CONTINUE:
                must_answer(text, count)
                break
            connection.send(login_header(isid))
            answer = next_pdu(connection)
        connection.socket.close()


def whole_text(peer, tag):
    """The answer to a text in all its parts, or `None` where it is rejected."""
    before, longest, text = len(peer.rejects), int(peer.keys["MaxRecvDataSegmentLength"]), b""
    for part in range(1, 1000):
        if not peer.pump(lambda: len(peer.texts.get(tag, ())) == part or len(peer.rejects) > before, 5):
            raise Wrong("a text isn't answered")
        if len(peer.rejects) > before:
            return None
        header, data = peer.texts[tag][-1]
        text += data
        if len(data) > longest:
            raise Wrong(f"a Text Response has {len(data)} bytes of data, and the initiator takes {longest}")
        if header[1] & FINAL:
            return text
        peer.text(1, b"", tag=tag, transfer_tag=word(header, 20))
    raise Wrong("a text is answered without end")


def long_text(victim):
    """A text whose answer is longer than the initiator takes in a PDU"""
    with Peer(victim.port, MaxRecvDataSegmentLength="512") as peer:
        text = whole_text(peer, peer.text(1, many_keys(60)))
        if text is not None:
            must_answer(text, 60)
        names = whole_text(peer, peer.text(1, b"SendTargets=All\0"))
        if names is None or f"TargetName={KEYS['TargetName']}".encode() not in names.split(b"\0"):
            raise Wrong(f"SendTargets is answered by {names!r}")
        peer.log_out()


def text_in_parts(victim):
    """A text that is cut in the middle of a key"""
    with Peer(victim.port) as peer:
        tag = peer.text(1, b"X-a=1\0SendTar", flags=CONTINUE)
        if not peer.pump(lambda: tag in peer.texts or peer.rejects, 5):
            raise Wrong("its first part isn't answered")
        if not peer.rejects:
            header, data = peer.texts[tag][0]
            if data or header[1] & FINAL:
                raise Wrong(f"its first part is answered by {data!r}")
            peer.texts.clear()
            text = whole_text(peer, peer.text(1, b"gets=All\0", tag=tag, transfer_tag=word(header, 20)))
            if text is None or b"X-a=NotUnderstood" not in text.split(b"\0") or b"TargetName=" not in text:
                raise Wrong(f"it is answered by {text!r}")
        if not peer.answers_pings():
            raise Wrong("the session doesn't go on")
        peer.log_out()


# ---- a process that is stopped and goes on

def interrupted(victim):
    """SIGSTOP and SIGCONT while logins wait, and a session whose data isn't read"""
    with Peer(victim.port) as peer, Peer(victim.port, receives=65536) as slow:
        tag = slow.read(1, 0, MOST_BLOCKS)
        logins = [(Connection(victim.port, 1, 0), whole_login(new_isid()), length) for length in (0, 1, 48, 100)]
        for connection, whole, length in logins:
            connection.socket.sendall(whole[:length])
        for _ in range(3):
            time.sleep(0.2)
            victim.process.send_signal(signal.SIGSTOP)
            time.sleep(0.1)
            victim.process.send_signal(signal.SIGCONT)
        for connection, whole, length in logins:
            status = status_of(answer_to_rest(connection, whole[length:]))
            connection.socket.close()
            if status != ACCEPTED:
                raise Wrong(f"a login of which {length} bytes had come is answered {words_of(status)}")
        if not peer.answers_pings():
            raise Wrong("a session doesn't go on")
        if len(slow.good(tag)) != MOST_BLOCKS * BLOCK:
            raise Wrong("a READ whose data was being written isn't whole")
        peer.log_out()
        slow.log_out()


def answer_to_rest(connection, rest):
    """The answer to a login whose rest is sent now. `None` where it is closed."""
    try:
        connection.socket.sendall(rest)
    except OSError:
        return None
    return next_pdu(connection)
