"""Sessions that tests/lib/initiator plays with the target, and the replies that must come of them."""

import re

from loopback import INITIATOR, NAME, Failed, last_line, run

LINE = re.compile(r"(\d) (.+): tag ([0-9a-f]{8}), StatSN")
GOOD, COMPLETE, NO_TASK = "SCSI Response GOOD", "Task Management Function Response function complete", \
    "Task Management Function Response task does not exist"
RESET = "SCSI Response CHECK CONDITION (UNIT ATTENTION, 29/00)"

# Each: how many connections, the lines, and the replies by tag, in any order. R2Ts aren't looked at: one of a command
# that is taken out in the same moment may go out or not. A line that sends data needs one.
SCRIPTS = {
    "commands out of order on three connections": (3, (
        "3 read sn=2 tag=3 lun=0", "2 test sn=1 tag=2 lun=1", "pause 0.2", "1 test sn=0 tag=1 lun=0", "wait 1",
        "wait 2", "wait 3", "1 logout tag=4", "wait 4"),
        {(1, GOOD, 1), (2, GOOD, 2), (3, "SCSI Data-In -", 3), (3, GOOD, 3), (1, "Logout Response closed", 4)}),
    "a write, by its R2T": (1, (
        "1 write tag=1 lun=1 count=4", "pause 0.3", "1 data 1", "wait 1", "1 logout tag=2", "wait 2"),
        {(1, GOOD, 1), (1, "Logout Response closed", 2)}),
    "aborts of a write that waits for its data, of a held command and of a missing one": (2, (
        "1 write sn=0 tag=1 lun=0", "pause 0.2", "1 abort-task now=1 tag=9 ref=1 refsn=0 lun=0", "wait 9",
        "2 test sn=2 tag=3 lun=0", "pause 0.2", "2 abort-task now=1 tag=10 ref=3 refsn=2 lun=0", "wait 10",
        "1 abort-task now=1 tag=11 ref=2 refsn=1 sn=3 lun=0", "wait 11", "1 test sn=3 tag=4 lun=0", "wait 4",
        "1 test sn=1 tag=2 lun=0", "1 abort-task now=1 tag=12 ref=77 refsn=0 lun=0", "wait 12", "pause 0.2",
        "1 logout tag=13 sn=4", "wait 13"),
        {(1, COMPLETE, 9), (2, COMPLETE, 10), (1, COMPLETE, 11), (1, GOOD, 4), (1, NO_TASK, 12),
         (1, "Logout Response closed", 13)}),
    "a LOGICAL UNIT RESET with writes that wait for their data": (2, (
        "1 write sn=0 tag=1 lun=0", "2 write sn=1 tag=2 lun=0", "pause 0.3", "1 reset now=1 tag=3 lun=0", "wait 3",
        "2 test sn=2 tag=4 lun=0", "wait 4", "2 test sn=3 tag=5 lun=0", "wait 5", "1 logout tag=6", "wait 6"),
        {(1, COMPLETE, 3), (2, RESET, 4), (2, GOOD, 5), (1, "Logout Response closed", 6)}),
    "an ABORT TASK SET that waits for a lower number": (2, (
        "2 write sn=1 tag=2 lun=1", "1 abort-task-set now=1 sn=2 tag=3 lun=1", "pause 0.3", "1 write sn=0 tag=1 lun=1",
        "wait 3", "1 logout tag=4 sn=2", "wait 4"),
        {(1, COMPLETE, 3), (1, "Logout Response closed", 4)}),
    "a Logout of one connection of two": (2, (
        "2 write sn=0 tag=1 lun=0", "pause 0.2", "1 logout now=1 reason=1 cid=2 tag=2", "wait 2", "pause 0.3",
        "1 test sn=1 tag=3 lun=0", "wait 3", "1 logout tag=4", "wait 4"),
        {(1, "Logout Response closed", 2), (1, GOOD, 3), (1, "Logout Response closed", 4)}),
    "a unit that isn't there": (1, (
        "1 test tag=1 lun=2", "wait 1", "1 reset tag=2 lun=2", "wait 2", "1 nop tag=3", "wait 3", "1 logout tag=4",
        "wait 4"),
        {(1, "SCSI Response CHECK CONDITION (ILLEGAL REQUEST, LOGICAL UNIT NOT SUPPORTED)", 1),
         (1, "Task Management Function Response LUN does not exist", 2), (1, "NOP-In -", 3),
         (1, "Logout Response closed", 4)}),
}


def play(target, connections, lines, seconds=20):
    """What tests/lib/initiator prints of these lines. `Failed` where it can't be run to its end."""
    words = [INITIATOR, f"127.0.0.1:{target.port}", NAME, "--connections", str(connections), *lines]
    done = run(words, seconds)
    if done.returncode:
        raise Failed(last_line(done.stdout))
    return done.stdout


def faults_of_script(target, script):
    """Why the replies to a script aren't those that it must have, or nothing."""
    connections, lines, wanted = script
    output = play(target, connections, lines)
    came = [(int(cid), reply, int(tag, 16)) for cid, reply, tag in LINE.findall(output)
            if not reply.startswith("Ready To Transfer")]
    twice = {reply for reply in came if came.count(reply) > 1}
    for why, replies in (("missing", wanted - set(came)), ("not expected", set(came) - wanted), ("twice", twice)):
        if replies:
            cid, reply, tag = sorted(replies)[0]
            return f"{why}: {reply} for tag {tag:08x} on connection {cid}"
    return None
