"""A session with the target that is captured, read by tools/capture, compared by tools/compare, and checked by
tests/lib/trace."""

import glob
import os

import qemu
from loopback import TOP, Capture, Target, last_line, run
from scripts import play as play_lines

# Slow commands on three connections, out of order; aborts of live, held and missing ones; an immediate reset and a
# numbered one; what comes after. No two commands end at the same time on two connections, which have no order between
# them.
LINES = (
    "3 read sn=2 tag=3 lun=1", "2 read sn=1 tag=2 lun=0", "pause 0.1", "1 test sn=0 tag=1 lun=0 attr=2", "pause 0.1",
    "3 abort-task now=1 tag=20 ref=3 refsn=2 lun=1", "wait 20", "wait 1", "wait 2",
    "1 read sn=3 tag=4 lun=1", "2 read sn=4 tag=5 lun=1", "3 test sn=5 tag=6 lun=0", "pause 0.1",
    "2 reset now=1 tag=21 lun=1", "wait 21", "wait 6",
    "2 test sn=7 tag=8 lun=0", "pause 0.1", "2 abort-task now=1 tag=22 ref=8 refsn=7 lun=0", "wait 22",
    "1 abort-task now=1 tag=23 ref=7 refsn=6 lun=0", "wait 23", "1 test sn=6 tag=7 lun=0", "pause 0.1",
    "1 write sn=8 tag=9 lun=0", "pause 0.1", "1 reset sn=9 tag=24 lun=0", "wait 24",
    "1 test sn=10 tag=10 lun=0 attr=2", "2 test sn=11 tag=11 lun=0", "pause 0.15", "3 test sn=12 tag=12 lun=0 attr=3",
    "wait 10", "wait 11", "wait 12", "1 nop tag=13", "wait 13", "3 logout reason=1 cid=3 tag=14", "wait 14",
    "2 test tag=15 lun=1", "wait 15", "1 logout tag=16", "wait 16")
WANTED = ("tag 00000014, ", "tag 00000015, ", "tag 00000016, ", "tag 00000017, ", "tag 00000018, ", "tag 00000010, ")
CONNECTIONS, DELAY = 3, "400"


def play(folder, tally):
    """The session and its three readings, each of which counts; and QEMU's, where its tools are there."""
    with Target(folder, "--delay", DELAY) as target, Capture(folder, target.port) as capture:
        tally.attempt("a captured session", lambda: why_incomplete(play_lines(target, CONNECTIONS, LINES, 40)))
        capture.finish()
    port = str(target.port)
    tally.attempt("tools/capture of the session", lambda: why_not_read(capture.path, port, folder, 1, CONNECTIONS))
    tally.attempt("tools/compare of the session", lambda: why_different(folder))
    tally.attempt("tests/lib/trace of the session", lambda: why_at_fault(target.trace, capture.path, port))
    if why := qemu.why_absent():
        tally.say("skipped", "tools/compare of QEMU's session", why)
    else:
        tally.attempt("tools/compare of QEMU's session", lambda: of_qemu(folder))


def of_qemu(folder):
    """Why QEMU's reads and writes, each with a session of its own, don't go as they must, or aren't read as they were."""
    with Target(folder) as target, Capture(folder, target.port) as capture:
        why = qemu.patterns(target.url())
        capture.finish()
    port = str(target.port)
    return (why or why_not_read(capture.path, port, folder, 2, 1) or why_different(folder)
            or why_at_fault(target.trace, capture.path, port))


def why_incomplete(output):
    """Why the session didn't go as its lines want: each function and the Logout are answered, and nothing is awaited in
    vain."""
    absent = [words for words in ("no reply", *WANTED) if (words in output) == (words == "no reply")]
    return f"its output: {absent[0]}" if absent else None


def recordings(folder):
    return sorted(glob.glob(os.path.join(folder, "run-*.recording")))


def why_not_read(path, port, folder, sessions, connections):
    for former in recordings(folder):
        os.remove(former)
    done = run([os.path.join(TOP, "tools", "capture"), path, "--port", port, "-o", folder], 60)
    if done.returncode or len(recordings(folder)) != sessions or "left out" in done.stdout:
        return last_line(done.stdout)
    is_whole = done.stdout.count(f"{connections} connection(s), ") == sessions
    return None if is_whole else last_line(done.stdout)


def why_different(folder):
    """What tools/compare says of a session, unless it says that there is no difference."""
    for path in recordings(folder):
        base = path.removesuffix(".recording")
        done = run([os.path.join(TOP, "tools", "compare"), base, "--all", "--by-moment"], 60)
        if done.returncode or last_line(done.stdout) != "No difference.":
            return done.stdout.strip()
    return None


def why_at_fault(trace, path, port):
    done = run([os.path.join(TOP, "tests", "lib", "trace"), trace, path, "--port", port, "--fence"], 60)
    return done.stdout.strip() if done.returncode else None
