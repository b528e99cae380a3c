"""What a real target answered, for the columns of a timeline: beside which event each reply stands, and where it differs."""

from bisect import bisect_right

from .differences import ADDITIONAL
from .picture import Answer, answer_words
from .answers import KINDS, LOST

OPCODES = {kind: opcode for opcode, kind in KINDS.items()} | {"data-in-status": 0x25}


class Beside:
    """The replies of a target, by event: a reply stands at the last event that came before it or with it. `comparison`: their
    differences, where these were looked for."""

    def __init__(self, answers, frames, comparison=None):
        self.answers, self.differences, self.additional = {}, {}, set()
        differing = self.differing(comparison) if comparison else {}
        order = sorted((frame, event) for event, frame in enumerate(frames, 1) if frame is not None)
        known = [frame for frame, _ in order]
        at = {frame: event for frame, event in order}
        for answer in answers:
            if answer.is_left_out or answer.kind == LOST:
                continue
            place = bisect_right(known, answer.frame)
            event = at.get(answer.frame) or (order[place - 1][1] if place else 1)
            text, good = answer_words(OPCODES.get(answer.kind), answer.outcome) if answer.kind in OPCODES else (answer.kind, True)
            words = differing.get((answer.frame, answer.cid, answer.tag), ())
            self.answers.setdefault(event, []).append(Answer(answer.cid, text, good, f"{answer.tag:x}", None, answer.frame, bool(words)))
            self.differences.setdefault(event, []).extend(words)

    def differing(self, comparison):
        """The words of the differences of a reply, by its frame, connection and tag; and the program's replies that are alone."""
        found = {}
        for one in comparison.differences:
            if one.kind == ADDITIONAL:
                self.additional.add((one.event, one.cid, one.tag))
                self.differences.setdefault(one.event, []).append(f"{one.kind}: {one.words}")
            else:
                found.setdefault((one.frame, one.cid, one.tag), []).append(f"{one.kind}: {one.words}")
        return found

    def is_alone(self, event, answer):
        """Whether the target has no reply beside one of the program's."""
        return (event, answer.cid, int(answer.tag, 16)) in self.additional
