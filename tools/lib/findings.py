"""What is sick in a session of a capture, in words: aborts, statuses other than GOOD, and where target and rules part."""

from collections import Counter

from .answers import read
from .differences import Comparison, Replay, places_of
from .pdu import SCSI_COMMAND, TASK_MANAGEMENT

MOST_STATUSES = 4


def compared(recording, answers):
    """The differences between what the target answered and the program."""
    return Comparison(Replay(recording.events, places_of(recording.lines)), list(read(answers)))


def span_of(session):
    """The seconds from the first request or reply of a session to the last one, or nothing where it has none."""
    return f"{session.items[-1].time - session.items[0].time:.3f}" if session.items else ""


def milliseconds_of(session):
    """The milliseconds from the first request or reply of a session to the last one, or nothing where it has none."""
    return f"{(session.items[-1].time - session.items[0].time) * 1000:.3f}" if session.items else ""


def findings(session, comparison):
    """Gives the parts of a session's line that say what happened in it."""
    items = session.items
    yield f"from {session.names[0] or 'an initiator that is not named'}" + (f" to port {session.port}" if session.port else "")
    if items:
        yield f"{span_of(session)} s"
    commands = sum(1 for item in items if item.request and item.request.opcode == SCSI_COMMAND)
    functions = Counter(item.request.name for item in items if item.request and item.request.opcode == TASK_MANAGEMENT)
    statuses = Counter(item.reply.outcome for item in items if item.reply and item.reply.ends_command and item.reply.status)
    yield f"{commands} commands"
    yield from (f"{count} x {name}" for name, count in functions.most_common())
    yield from (f"{count} x {name}" for name, count in statuses.most_common(MOST_STATUSES))
    if len(statuses) > MOST_STATUSES:
        yield f"{sum(statuses.values())} statuses other than GOOD in all"
    yield difference_words(comparison)


def difference_words(comparison):
    """How many differences there are, in words."""
    counts = comparison.counts
    if not counts:
        return "no difference" + (" but the target's fixed window" if comparison.by_fixed_window else "")
    return f"{sum(counts.values())} difference(s): {', '.join(f'{count} x {kind}' for kind, count in sorted(counts.items()))}"
