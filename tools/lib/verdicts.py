"""What a difference between a target and the program is: allowed by the RFC, a choice of the target, or not allowed.

The rules of it are the rows of TABLE; the first one that fits decides. What no row covers isn't judged, and what isn't known for
sure to break the RFC or SAM-5 is never told as not allowed: so nothing is where the capture lacks something of the session.
"""

from dataclasses import dataclass, field

from .answers import outcome_of
from .moments import MODULUS, above
from .pdu import FUNCTIONS, LOGOUT, NOP_OUT, SCSI_COMMAND, TASK_MANAGEMENT

ALLOWED, CHOICE, NOT_ALLOWED, NOT_JUDGED = "allowed", "a choice of this target", "not allowed", "not judged"
NUMBERS, STAT_SNS, ABORTS, RESPONSES = (f"RFC 7143 section {section}" for section in ("4.2.2.1", "4.2.2.2", "11.5.1", "11.6.1"))
ABORT_TASK, SETS, RESET = "ABORT TASK", ("ABORT TASK SET", "CLEAR TASK SET"), "LOGICAL UNIT RESET"
OF_TASKS = (ABORT_TASK, *SETS, RESET)


@dataclass(frozen=True)
class Verdict:
    """What a difference is, by which section, and why."""
    verdict: str
    section: str
    sentence: str

    @property
    def words(self):
        """The verdict as a line, as `allowed by RFC 7143 section 11.6.1: ..`."""
        by = f" {'by ' if self.verdict == ALLOWED else '('}{self.section}{'' if self.verdict == ALLOWED else ')'}" if self.section else ""
        return f"{self.verdict}{by}: {self.sentence}"


@dataclass(frozen=True)
class Row:
    """A rule: the kind of difference, what must be known of it by names (one value, or several of which one fits), and the verdict."""
    kind: str
    needs: dict = field(hash=False)
    verdict: str
    section: str
    sentence: str

    def fits(self, kind, known):
        if self.verdict == NOT_ALLOWED and not known.get("whole"):
            return False
        return kind == self.kind and all(known.get(name) in (value if isinstance(value, tuple) else (value,))
                                         for name, value in self.needs.items())


TABLE = (
    Row("missing reply", {"by": ABORT_TASK, "end": "before", "answer": 1}, ALLOWED, RESPONSES,
        "the command ended before the abort was answered, which then finds no task"),
    Row("missing reply", {"by": OF_TASKS, "end": "before"}, ALLOWED, ABORTS,
        "a command may still be answered until the answer to the function that takes it out"),
    Row("missing reply", {"by": SETS, "end": "behind", "waited": True}, CHOICE, "",
        "the target carries out an immediate function at once, which the program lets wait for lower CmdSNs"),
    Row("missing reply", {"by": ABORT_TASK, "end": "behind", "answer": 1}, NOT_ALLOWED, RESPONSES,
        "the target had answered that the task does not exist, and a task that is over isn't answered"),
    Row("missing reply", {"by": OF_TASKS, "end": "behind", "answer": 0}, NOT_ALLOWED, ABORTS,
        "the target had answered that the function is complete, and nothing may come behind that of a command that it covers"),
    Row("missing reply", {"silent": "lower CmdSN", "expects": "lower CmdSN"}, NOT_ALLOWED, NUMBERS,
        "the target executed the command before one of a lower CmdSN, which by its own ExpCmdSN it hadn't received"),
    Row("response", {"request": ABORT_TASK, "target": 1, "program": 0, "end": "before"}, ALLOWED, RESPONSES,
        "the command had ended before the abort was answered, so there is no task any more"),
    Row("response", {"request": ABORT_TASK, "target": 1, "program": 0, "end": "behind"}, NOT_ALLOWED, RESPONSES,
        "the target answers the command behind this, so the task did exist"),
    Row("response", {"request": OF_TASKS, "target": 5}, ALLOWED, RESPONSES, "a target may not support a function"),
    Row("response", {"program": 255}, CHOICE, "", "that a function is refused for its number is the program's own rule"),
    Row("status", {"program": 0x28}, CHOICE, "", "how many commands a unit takes is the target's"),
    Row("another kind", {"program_kind": "reject"}, CHOICE, "",
        "that the program rejects this request is a rule of its own where the RFC leaves it open"),
    Row("order", {"moment": False, "request": OF_TASKS}, ALLOWED, ABORTS,
        "the answer to a function may wait until what it takes out has ended"),
    Row("order", {"moment": False, "request": ("command", "NOP-Out")}, CHOICE, "",
        "no order is set between the replies to different requests"),
    Row("StatSN", {"stat_sn": "back"}, NOT_ALLOWED, STAT_SNS,
        "StatSN goes up by one with each status on a connection, and this is below one that was sent before"),
    Row("StatSN", {"stat_sn": "early"}, NOT_ALLOWED, STAT_SNS,
        "StatSN goes up by one with each status on a connection, and a lower one is sent behind this"),
    Row("ExpCmdSN", {"moment": False, "exp": "not sent"}, NOT_ALLOWED, NUMBERS,
        "an immediate request takes no CmdSN, and this counts one that wasn't sent"),
    Row("ExpCmdSN", {"moment": False, "exp": "of its moment"}, CHOICE, "",
        "the target shows the number of the moment at which the reply goes out, the program that of the request's"),
    Row("ExpCmdSN", {"moment": False, "exp": "lower"}, CHOICE, "", "the target acknowledges a CmdSN later than it received it"),
    Row("MaxCmdSN", {"moment": False, "window": "shut twice"}, NOT_ALLOWED, NUMBERS, "MaxCmdSN may not be below ExpCmdSN - 1"),
    Row("MaxCmdSN", {"moment": False}, CHOICE, "", "how far MaxCmdSN is above ExpCmdSN is the target's"),
)
UNKNOWN = Verdict(NOT_JUDGED, "", "no rule covers this difference")


def judge(kind, known):
    """The verdict of the first row that fits."""
    row = next((row for row in TABLE if row.fits(kind, known)), None)
    return Verdict(row.verdict, row.section, row.sentence) if row else UNKNOWN


class Known:
    """What is known of the differences of a session, by names of the table: from the program's report and the target's replies."""

    def __init__(self, replay, answers, is_moment, is_whole):
        self.replay, self.is_moment = replay, is_moment
        self.is_whole = is_whole and not any(place.made_up for place in replay.places if place)
        self.order, self.answered, self.stat_sns = {}, {}, {}
        for order, answer in enumerate(answers):
            self.order[id(answer)] = order
            self.answered.setdefault((answer.cid, answer.tag, replay.request_before(answer)), answer)
            self.stat_sns.setdefault(answer.cid, []).append(answer.stat_sn)

    def of(self, answer, sent):
        """What is known of a difference between these two."""
        place = sent.request if sent else self.replay.request_before(answer)
        known = {"moment": self.is_moment, "whole": self.is_whole}
        if place is None:
            return known
        request = self.replay.events[place].request
        known["request"] = named(request)
        if answer:
            known["target"] = answer.outcome
        if sent:
            known.update(program=outcome_of(sent.reply), program_kind=sent.kind)
        if answer and sent:
            known.update(self.numbers(answer, sent, request))
            if named(request) == ABORT_TASK:
                known["end"] = self.end_of_aborted(place, answer)
        elif answer:
            known.update(self.taken_out(place, answer))
        return known

    def of_stat_sn(self, answer):
        """What is known of a StatSN among those of its connection."""
        own, known = self.stat_sns[answer.cid], {"whole": self.is_whole}
        # A reply may be sent again, with the number that it had.
        if own.count(answer.stat_sn) == 1:
            at = own.index(answer.stat_sn)
            if any(above(stat_sn, answer.stat_sn) > 0 for stat_sn in own[:at]):
                known["stat_sn"] = "back"
            elif any(above(stat_sn, answer.stat_sn) < 0 and own.count(stat_sn) == 1 for stat_sn in own[at + 1:]):
                known["stat_sn"] = "early"
        return known

    def numbers(self, answer, sent, request):
        """How a reply's numbers stand to the program's, and to one another."""
        ahead = above(answer.exp_cmd_sn, sent.reply.exp_cmd_sn)
        if ahead < 0:
            yield "exp", "lower"
        elif ahead > 0 and self.came((answer.exp_cmd_sn - 1) % MODULUS, answer.frame):
            yield "exp", "of its moment"
        elif ahead == 1 and request.immediate and request.cmd_sn == sent.reply.exp_cmd_sn:
            yield "exp", "not sent"
        if above(answer.max_cmd_sn, answer.exp_cmd_sn) < -1:
            yield "window", "shut twice"

    def came(self, cmd_sn, frame):
        """Whether a request of this number came before a frame."""
        return any(event.is_arrival and event.request.is_numbered and event.request.cmd_sn == cmd_sn and place.frame <= frame
                   for event, place in zip(self.replay.events, self.replay.places))

    def taken_out(self, place, answer):
        """Why the program doesn't answer: by which function a command was taken out, and where that was answered; or that it waits."""
        event = self.replay.events[place]
        if place not in self.replay.taken:
            waits = event.request.is_numbered and not any(effect.kind == "ignore" for effect in event.effects) \
                and not self.replay.has_turn(place, answer.frame)
            if waits:
                yield "silent", "lower CmdSN"
                if above(answer.exp_cmd_sn, event.request.cmd_sn) <= 0:
                    yield "expects", "lower CmdSN"
            return
        function = self.replay.taken[place]
        by = self.replay.events[function]
        yield "by", named(by.request)
        yield "waited", any(effect.kind == "wait" for effect in by.effects)
        # What the function covers for sure: by its tag, or by lower numbers.
        if named(by.request) == ABORT_TASK or above(event.request.cmd_sn, by.request.cmd_sn) < 0:
            other = self.answered.get((by.cid, by.request.tag, function))
            if other and other.cid == answer.cid:
                yield "answer", other.outcome
                yield "end", self.sides(answer, other)

    def end_of_aborted(self, function, answer):
        """Where the end of the command that an ABORT TASK took out stands to the abort's answer."""
        for place, by in self.replay.taken.items():
            if by == function:
                event = self.replay.events[place]
                other = self.answered.get((event.cid, event.request.tag, place))
                return self.sides(other, answer) if other and other.cid == answer.cid else None
        return None

    def sides(self, end, answer):
        return "before" if self.order[id(end)] < self.order[id(answer)] else "behind"


def named(request):
    """What a request is to the table."""
    if request.opcode == TASK_MANAGEMENT:
        return FUNCTIONS.get(request.function, "")
    return {SCSI_COMMAND: "command", NOP_OUT: "NOP-Out", LOGOUT: "Logout"}.get(request.opcode, "")
