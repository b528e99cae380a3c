"""Lays what the program sends beside what a real target answered."""

import re
from bisect import bisect_left
from collections import Counter
from dataclasses import dataclass

from .answers import LOST, NAMES, kind_of, outcome_of
from .moments import Moments, early, may_wait
from .pdu import DATA_OUT, REJECT, SNACK, TEXT, number
from .verdicts import NOT_ALLOWED, UNKNOWN, Known, Verdict, judge

PLACE = re.compile(r"# time (\d+\.\d+) frame (\d+)")
MISSING, ADDITIONAL, KIND, STATUS, RESPONSE = "missing reply", "additional reply", "another kind", "status", "response"
STAT_SN, EXP_CMD_SN, MAX_CMD_SN, ORDER = "StatSN", "ExpCmdSN", "MaxCmdSN", "order"
FIXED_WINDOW = "MaxCmdSN, by the target's fixed window"
STATUS_KINDS = ("scsi-response", "data-in-status")


@dataclass(frozen=True)
class Place:
    """Where an event stands in the capture."""
    frame: int
    time: float
    made_up: bool = False


@dataclass(frozen=True)
class Sent:
    """A reply of the program's: its order among all of them, its event, and the event of the request it answers."""
    order: int
    event: int
    cid: int
    tag: int
    request: int
    reply: object

    @property
    def kind(self):
        return kind_of(self.reply)


@dataclass(frozen=True)
class Difference:
    """One difference: its kind, where it stands in the capture, the tag of the request, and in words what differs. `event`: that of a
    reply of the program's alone, counted from 1. `verdict`: what it is to the RFC."""
    kind: str
    frame: int
    time: float
    cid: int
    tag: int
    words: str
    event: int = None
    verdict: Verdict = UNKNOWN


def places_of(lines):
    """The places of a recording's events, by the comment before each."""
    places, place = [], None
    for line in lines:
        found = PLACE.match(line)
        if found:
            place = Place(int(found[2]), float(found[1]), ": made up, " in line)
        elif line.startswith(("C ", "D ")):
            places.append(place)
    return places


class Replay:
    """A report of a recording with its places in the capture: the program's replies, and what became of requests."""

    def __init__(self, events, places):
        self.places = places
        self.events = events
        self.requests = {}
        self.sent = []
        self.left = {}
        self.entered, self.taken = {}, {}
        for order, event in enumerate(self.events):
            self.note(order, event)

    def note(self, place, event):
        """Notes the request of an event, its replies, and the commands that leave by it."""
        if event.is_arrival and event.request.opcode not in (DATA_OUT, SNACK):
            self.requests.setdefault((event.cid, event.request.tag), []).append(place)
        by, request = "", None
        for effect in event.effects:
            if effect.kind in ("deliver", "immediate"):
                request = self.requests[effect.cid, effect.tag][-1]
                by = f", by {self.name(request)}"
            elif effect.kind == "enter":
                self.entered[effect.ticket] = request
            elif effect.kind == "send":
                tag = answered_tag(effect.reply)
                self.sent.append(Sent(len(self.sent), place, effect.cid, tag, self.requests[effect.cid, tag][-1], effect.reply))
            elif effect.kind == "leave":
                self.left[effect.ticket] = place, by
                if by:
                    self.taken[self.entered[effect.ticket]] = request

    def request_before(self, answer):
        """The last event before an answer's frame in which its request came, or None."""
        places = self.requests.get((answer.cid, answer.tag), [])
        return next((place for place in reversed(places) if self.places[place].frame < answer.frame), None)

    def name(self, place):
        request = self.events[place].request
        return f"{request.name} with tag {request.tag:08x}"

    def why_silent(self, answer, place):
        """Why the program doesn't answer a request that the target answers."""
        if place is None:
            return "the recording has no such request"
        effects = self.events[place].effects
        ignored = [effect.why for effect in effects if effect.kind == "ignore"]
        if ignored:
            return f"it ignored the request as {ignored[0]}"
        if not self.has_turn(place, answer.frame):
            return "the request waits for a lower CmdSN"
        for completed, event in enumerate(self.events):
            if self.places[completed].frame == answer.frame and event.effects and event.effects[0].why == "stale":
                return self.why_stale(completed, event.ticket)
        return "it has no task for the completion"

    def has_turn(self, place, frame):
        """Whether a request was delivered before this frame, or executed as an immediate one that doesn't wait."""
        request = self.events[place].request
        wanted = self.events[place].cid, request.tag, request.cmd_sn
        return any((effect.cid, effect.tag, effect.cmd_sn) == wanted
                   for event, at in zip(self.events[place:], self.places[place:]) if at.frame < frame
                   for effect in event.effects if effect.kind in ("deliver", "immediate"))

    def why_stale(self, completed, ticket):
        """Why the program ignores a completion."""
        place, by = self.left.get(ticket, (completed, ""))
        if place >= completed:
            return f"ticket {ticket} isn't enabled yet"
        return f"ticket {ticket} left its task set at frame {self.places[place].frame}{by}"


def answered_tag(reply):
    """The tag of the request that a reply answers."""
    return number(reply.tail, 16, 19) if reply.opcode == REJECT else reply.tag


def told(kind, outcome, words=""):
    """A reply in words, as `SCSI Response 00 (GOOD)`."""
    return NAMES.get(kind, kind) + ("" if outcome is None else f" {outcome:02x}") + (f" ({words})" if words else "")


def pair(replay, answers):
    """Pairs what answers the same request. Gives the pairs with None where one side has no reply, those of the target
    in its order and then the program's."""
    waiting = {}
    for sent in reversed(replay.sent):
        waiting.setdefault((sent.cid, sent.tag, sent.request), []).append(sent)
    for answer in answers:
        found = waiting.get((answer.cid, answer.tag, replay.request_before(answer)))
        yield answer, found.pop() if found else None
    for sent in sorted((sent for rest in waiting.values() for sent in rest), key=lambda sent: sent.order):
        yield None, sent


def longest_rise(values):
    """The places of a longest rising part of a list of different numbers."""
    ends, places, before = [], [], []
    for place, value in enumerate(values):
        length = bisect_left(ends, value)
        ends[length:length + 1], places[length:length + 1] = [value], [place]
        before.append(places[length - 1] if length else None)
    place, rise = places[-1] if places else None, set()
    while place is not None:
        rise.add(place)
        place = before[place]
    return rise


def out_of_order(pairs, waits=lambda sent: False):
    """The program's replies, by their order, that stand elsewhere on their connection than the target's: as few as
    can be. Those that may wait may stand later.

    Read from the end, so that of two which changed places the one counts that the target sent later.
    """
    found = set()
    for replies in by_connection(sent for answer, sent in pairs if answer and sent).values():
        found.update(sent.order for sent in early(replies) if waits(sent))
        replies = [sent for sent in replies if not waits(sent)]
        rise = longest_rise([-sent.order for sent in reversed(replies)])
        found.update(sent.order for place, sent in enumerate(reversed(replies)) if place not in rise)
    return found


def by_connection(replies):
    """The replies of each connection, in their order."""
    connections = {}
    for one in replies:
        connections.setdefault(one.cid, []).append(one)
    return connections


def stat_sn_shifts(answers, sent):
    """Gives the target's replies whose StatSN differs from that of the program's reply at the same place of the
    connection, each time by another number, with the program's StatSN."""
    program = by_connection(sent)
    for cid, replies in by_connection(answers).items():
        shift = 0
        for answer, other in zip(replies, program.get(cid, [])):
            before, shift = shift, (answer.stat_sn - other.reply.stat_sn) % 2**32
            if shift not in (0, before):
                yield answer, other.reply.stat_sn


def fixed_window(answers):
    """The size of the target's window where all its replies tell the same, or None."""
    sizes = {(answer.max_cmd_sn - answer.exp_cmd_sn + 1) % 2**32 for answer in answers}
    return sizes.pop() if len(sizes) == 1 else None


class Comparison:
    """The differences between a replay and the answers of a target; with `moment`, its first CmdSN and its window, of one
    whose replies have the numbers of the moment at which they go out."""

    def __init__(self, replay, answers, moment=None):
        self.replay = replay
        self.moments = Moments(replay.events, replay.places, *moment) if moment else None
        self.left_out = Counter(answer.name for answer in answers if answer.is_left_out)
        self.answers = [answer for answer in answers if not answer.is_left_out and answer.kind != LOST]
        self.rejected_texts = self.leave_out_texts(answers)
        self.lost = self.leave_out_lost([answer for answer in answers if answer.kind == LOST])
        self.window = fixed_window(self.answers)
        self.known = Known(replay, self.answers, moment is not None, not self.lost)
        self.pairs = sorted(pair(replay, self.answers), key=self.frame)
        self.elsewhere = out_of_order(self.pairs, self.waits) if moment else out_of_order(self.pairs)
        self.differences = [found for answer, sent in self.pairs for found in self.compare(answer, sent)]
        self.differences += (Difference(STAT_SN, answer.frame, answer.time, answer.cid, answer.tag,
                                        numbers_differ(STAT_SN, answer.stat_sn, stat_sn) + " at this place",
                                        verdict=judge(STAT_SN, self.known.of_stat_sn(answer)))
                             for answer, stat_sn in stat_sn_shifts(self.answers, replay.sent))
        self.by_fixed_window = sum(difference.kind == FIXED_WINDOW for difference in self.differences)
        self.differences = sorted((difference for difference in self.differences if difference.kind != FIXED_WINDOW),
                                  key=lambda difference: difference.frame)

    def frame(self, replies):
        """Where a pair stands in the capture: by the target's reply, or by the event of the program's."""
        answer, sent = replies
        return answer.frame if answer else self.replay.places[sent.event].frame

    def waits(self, sent):
        """Whether a reply of the program's is one that a target may have to hold back."""
        return may_wait(self.replay.events[sent.request].request, outcome_of(sent.reply))

    def leave_out_texts(self, answers):
        """Leaves out the program's Rejects of Text Requests to which the target gave a Text Response. How many it left
        out."""
        texts = {self.replay.request_before(answer) for answer in answers if answer.kind == "text-response"}
        kept = [sent for sent in self.replay.sent
                if sent.request not in texts or self.replay.events[sent.request].request.opcode != TEXT]
        count = len(self.replay.sent) - len(kept)
        self.replay.sent = kept
        return count

    def leave_out_lost(self, lost):
        """Leaves out the program's replies of which the capture lacks the target's. How many it left out."""
        found = {id(sent) for answer, sent in pair(self.replay, lost) if answer and sent}
        self.replay.sent = [sent for sent in self.replay.sent if id(sent) not in found]
        return len(found)

    def compare(self, answer, sent):
        """Gives the differences of a pair."""
        if not sent:
            yield self.missing(answer)
        elif not answer:
            yield self.additional(sent)
        else:
            yield from self.outcome(answer, sent)
            yield from self.numbers(answer, sent)

    def missing(self, answer):
        place = self.replay.request_before(answer)
        request = self.replay.name(place) if place is not None else f"tag {answer.tag:08x}"
        return Difference(MISSING, answer.frame, answer.time, answer.cid, answer.tag,
                          f"{request}: the target answers {told(answer.kind, answer.outcome, answer.words)}, "
                          f"the program nothing: {self.replay.why_silent(answer, place)}",
                          verdict=judge(MISSING, self.known.of(answer, None)))

    def additional(self, sent):
        place = self.replay.places[sent.event]
        return Difference(ADDITIONAL, place.frame, place.time, sent.cid, sent.tag,
                          f"{self.replay.name(sent.request)}: the program answers "
                          f"{told(sent.kind, outcome_of(sent.reply), sent.reply.outcome)}, the target nothing", sent.event + 1,
                          judge(ADDITIONAL, self.known.of(None, sent)))

    def outcome(self, answer, sent):
        """Gives the difference in what came of a request."""
        outcome = outcome_of(sent.reply)
        both_end = answer.kind in STATUS_KINDS and sent.kind in STATUS_KINDS
        if both_end or answer.kind == sent.kind:
            kind = None if answer.outcome == outcome else STATUS if both_end else RESPONSE
        else:
            kind = KIND
        if kind:
            yield self.differ(kind, answer, sent,
                              f"the target answers {told(answer.kind, answer.outcome, answer.words)}, "
                              f"the program {told(sent.kind, outcome, sent.reply.outcome)}")

    def numbers(self, answer, sent):
        """Gives the differences in the order, in ExpCmdSN and in MaxCmdSN."""
        reply = sent.reply
        if sent.order in self.elsewhere:
            place = self.replay.places[sent.event]
            yield self.differ(ORDER, answer, sent, "it stands elsewhere among the replies of the connection: "
                              f"the program sends it at the event of frame {place.frame}")
        if self.moments:
            for kind, why in self.moments.faults(answer, reply):
                yield self.differ(kind, answer, sent, why)
            return
        if answer.exp_cmd_sn != reply.exp_cmd_sn:
            yield self.differ(EXP_CMD_SN, answer, sent, numbers_differ(EXP_CMD_SN, answer.exp_cmd_sn, reply.exp_cmd_sn))
        if answer.max_cmd_sn != reply.max_cmd_sn:
            is_as_wide = (reply.max_cmd_sn - reply.exp_cmd_sn + 1) % 2**32 == self.window
            yield self.differ(FIXED_WINDOW if self.window and not is_as_wide else MAX_CMD_SN, answer, sent,
                              numbers_differ(MAX_CMD_SN, answer.max_cmd_sn, reply.max_cmd_sn))

    def differ(self, kind, answer, sent, words):
        return Difference(kind, answer.frame, answer.time, answer.cid, answer.tag, f"{self.replay.name(sent.request)}: {words}",
                          verdict=judge(kind, self.known.of(answer, sent)))

    @property
    def first(self):
        """The first difference, or None. What the target's fixed window makes is counted apart."""
        return self.differences[0] if self.differences else None

    @property
    def counts(self):
        return Counter(difference.kind for difference in self.differences)

    def counts_of(self, is_allowed):
        """How many differences of each kind are not allowed, or are another thing."""
        return Counter(one.kind for one in self.differences if (one.verdict.verdict != NOT_ALLOWED) == is_allowed)


def numbers_differ(name, target, program):
    return f"the target says {name} {target:08x}, the program {program:08x}"
