"""Events and effects of a report in words. Tags and sequence numbers are hexadecimal, without leading zeros."""

from . import pdu
from .state import MODULUS

ATTRIBUTES = {"simple": "SIMPLE", "ordered": "ORDERED", "head": "HEAD OF QUEUE"}
ABORTS = ("ABORT TASK", "ABORT TASK SET", "CLEAR TASK SET", "LOGICAL UNIT RESET")
UNNUMBERED = (pdu.DATA_OUT, pdu.SNACK)
QUIET_REPLIES = {pdu.NOP_IN: "answered by a NOP-In", pdu.REJECT: "rejected"}


def shown(number):
    """A CmdSN as the report shows it, without leading zeros."""
    return f"{number % MODULUS:x}"


def tag_words(tag):
    return "no tag" if tag == pdu.NO_TAG else f"tag {tag:x}"


def joined(parts):
    """`5`, `5 and 6`, or `5, 6 and 7`."""
    return " and ".join(filter(None, (", ".join(parts[:-1]), parts[-1])))


def missing_words(runs):
    """`CmdSNs 5 and 6 are missing` of the pairs of the first and the last number of each run."""
    parts = []
    for first, last in runs:
        parts += [shown(first)] if first == last else [shown(first), shown(last)] if last == first + 1 else \
            [f"{shown(first)} to {shown(last)}"]
    several = len(runs) > 1 or runs[0][0] != runs[0][1]
    return f"CmdSN{'s' if several else ''} {joined(parts)} {'are' if several else 'is'} missing"


def name_words(request):
    """What a request asks for, as `ABORT TASK of tag a2 (RefCmdSN 2)` or `Logout (close the connection 2)`."""
    name = request.name
    if request.opcode == pdu.TASK_MANAGEMENT and request.function in (1, 9):
        name += f" of {tag_words(request.referenced_tag)}"
        name += f" (RefCmdSN {shown(request.ref_cmd_sn)})" if request.function == 1 else ""
    elif request.opcode == pdu.LOGOUT:
        reason = pdu.LOGOUT_REASONS.get(request.function, f"reason {request.function}")
        name += f" ({reason}{f' {request.cid}' if request.function == 1 else ''})"
    return name


def request_words(cid, request):
    """A request, as `CID 1, READ(10), unit 0, CmdSN 7, tag a1`."""
    parts = [f"CID {cid}", name_words(request)]
    if request.opcode in (pdu.SCSI_COMMAND, pdu.TASK_MANAGEMENT):
        parts.append(f"LUN {request.header[8:16].hex()}" if request.unit is None else f"unit {request.unit}")
    if request.immediate:
        parts.append("immediate")
    if request.opcode in pdu.REQUESTS and request.opcode not in UNNUMBERED:
        parts.append(f"CmdSN {shown(request.cmd_sn)}")
    return ", ".join((*parts, tag_words(request.tag)))


def short_words(arrival):
    """A request that was spoken of before, as `READ(10), tag a1, CID 1`."""
    return f"{arrival.request.name}, {tag_words(arrival.request.tag)}, CID {arrival.cid}"


def event_words(session, event):
    """What arrived or was completed. Asked before the session takes the event."""
    if event.is_arrival:
        return request_words(event.cid, event.request)
    status = pdu.STATUSES.get(event.status, f"status {event.status:02x}")
    command = session.live.get(event.ticket)
    if not command:
        return f"ticket {event.ticket} is completed with {status}"
    return f"unit {command.unit} completes ticket {event.ticket} ({short_words(command.arrival)}) with {status}"


def reply_words(effect):
    """A reply, as `answered GOOD on CID 1, StatSN 2, ExpCmdSN 5, MaxCmdSN 8`."""
    reply = effect.reply
    verb = QUIET_REPLIES.get(reply.opcode, "answered")
    outcome = f"({reply.outcome})" if reply.opcode == pdu.REJECT else reply.outcome
    answer = " ".join(filter(None, (verb, outcome)))
    return (f"{answer} on CID {effect.cid}, StatSN {shown(reply.stat_sn)}, "
            f"ExpCmdSN {shown(reply.exp_cmd_sn)}, MaxCmdSN {shown(reply.max_cmd_sn)}")


def ignored_words(session, event, why):
    """Why an event was passed over."""
    if why == "closed":
        return "ignored: the session is closed" if session.closed else f"ignored: connection {event.cid} is closed"
    if why == "stale":
        end = session.ended.get(event.ticket)
        dormant = f"ticket {event.ticket} may not start yet" if event.ticket in session.live else ""
        return "ignored: " + (dormant or f"ticket {event.ticket} {end or 'was never given'}")
    if why == "data":
        return f"ignored: {event.request.name} has no part in the order of commands"
    number = shown(event.request.cmd_sn)
    if why == "duplicate":
        return f"ignored: CmdSN {number} was received already"
    if session.expected is None:
        return f"ignored: CmdSN {number} is outside the window"
    if session.lifted(event.request.cmd_sn) < session.expected:
        return f"ignored: CmdSN {number} is below ExpCmdSN {shown(session.expected)}"
    return f"ignored: CmdSN {number} is above MaxCmdSN"


def turn_words(session, event, step):
    """A request executes or begins to wait."""
    number, own = shown(step.effect.cmd_sn), step.arrival.request is event.request
    if step.effect.kind == "wait":
        runs = session.missing(session.lifted(step.effect.cmd_sn))
        return "waits for lower CmdSNs" + (f": {missing_words(runs)}" if runs else "")
    if own:
        return "executes at once" if step.effect.kind == "immediate" else f"CmdSN {number} executes"
    waited = step.effect.kind == "immediate"
    before = f"the function that waited for CmdSN {number}" if waited else f"CmdSN {number}, which was held,"
    return f"{before} executes: {short_words(step.arrival)}"


def leave_words(command):
    if command.completed:
        return f"ticket {command.ticket} leaves unit {command.unit}"
    return (f"ticket {command.ticket} of unit {command.unit} is taken out, and isn't answered: "
            f"{short_words(command.arrival)}")


def close_words(effect, dropped):
    what = "the session" if effect.kind == "close-session" else f"connection {effect.cid}"
    return f"{what} is closed" + "".join(f"; {short_words(waiting)}, which waited, is dropped" for waiting in dropped)


def step_words(session, event, step):
    """One step. Asked after the session took the event."""
    effect = step.effect
    if effect is None:
        runs = session.missing(session.lifted(event.request.cmd_sn))
        return f"held, {missing_words(runs) if runs else 'as lower CmdSNs are missing'}"
    if effect.kind in ("deliver", "immediate", "wait"):
        return turn_words(session, event, step)
    if effect.kind == "void":
        return f"CmdSN {shown(effect.cmd_sn)} counts as received, without a request"
    if effect.kind == "empty":
        return (f"CmdSN {shown(effect.cmd_sn)}, which was held, is taken out, and isn't answered: "
                f"{short_words(step.arrival)}")
    if effect.kind == "enter":
        return f"ticket {effect.ticket} enters unit {effect.unit} as {ATTRIBUTES[effect.attribute]}"
    if effect.kind == "enable":
        return f"ticket {effect.ticket} may start"
    if effect.kind == "leave":
        return leave_words(step.command)
    if effect.kind == "send":
        return reply_words(effect)
    if effect.kind == "ignore":
        return ignored_words(session, event, effect.why)
    return close_words(effect, step.dropped)


def steps_words(session, event, steps):
    """All steps of an event. Where an abort took nothing out, its answer says so."""
    words, taken = [], 0
    for step in steps:
        text = step_words(session, event, step)
        kind = step.effect.kind if step.effect else None
        if kind in ("deliver", "immediate", "wait"):
            taken = 0
        taken += kind in ("void", "empty", "leave")
        if kind == "send" and not taken and step.arrival and step.arrival.request.name in ABORTS \
                and step.effect.reply.opcode == pdu.TASK_MANAGEMENT_RESPONSE:
            text += "; nothing was taken out"
        words.append(text)
    return words


def tell(session, event):
    """Follows an event, and gives it in words, the words of its effects, and its steps."""
    head = event_words(session, event)
    steps = session.take(event)
    return head, steps_words(session, event, steps), steps
