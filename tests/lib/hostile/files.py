"""Faults of reading and writing: those that the injector makes. With them come a system's own, of systems.py.

A fault of the input is told by its line, and nothing is written. A fault of the output is told too, and leaves a
front of what was to be written.
"""

import os
import subprocess
import sys
import time
from itertools import product
from typing import NamedTuple

from hostile import common, systems
from hostile.runs import (
    CONN,
    ONE,
    ONE_BY_THREADS,
    THREADS,
    Run,
    answer_of_front,
    answer_of_one_command,
    case,
    differs,
    ended,
    entries,
    example,
    file_of,
    help_run,
    injected,
    long_runs,
    plain,
    replays,
    socket_pair,
    started,
    unfired,
)

# So many bytes are asked for at once, and a report is written once it has as many.
CHUNK = 65536
MOST_LINES = 1048576
LONGEST_LINE = 256
# The cases whose recording has at most so many bytes are read and written a byte at a time.
FITTING = 20000
# A line that is passed over, and so many of them that some chunks follow a bad line.
NOTE = b"#" + 98 * b"." + b"\n"
LATER = 2000 * NOTE
OPTIONS = (b"--first", b"--window", b"--units", b"--depth", b"--level", b"--threads", b"--help")
# How writes fail.
WRITES = ("error", "interrupt", "nothing")


# Reads that fail


def judge_reads(tally, run, how):
    """Reads of a good recording fail in a way, behind each of its bytes."""
    for place in range(len(run.data) + 1):
        ran = injected(run, {"READ": f"{place}:{how}"})
        wrong = common.compare(ran, 1, b"", common.READ) or unfired(ran)
        tally.judge(f"{run.name}: {how} once {place} bytes were read", wrong)


def failing_reads():
    """Reads fail or are interrupted: the fault is Read, since no other is due, and nothing is written."""
    tally = common.Tally("reads that fail", 10226)
    for run, how in product((ONE, ONE_BY_THREADS, example("logout"), example("abort-task")), ("error", "interrupt")):
        judge_reads(tally, run, how)
    for name in ("logout", "abort-task"):
        recording = common.EXAMPLES[name].read_bytes()
        judge_reads(tally, Run(f"{name} with threads", THREADS, recording, 1, b"", common.READ), "error")
    return tally


def judge_ends(tally, run, answer_of):
    """A recording ends behind each of its bytes: a read gives nothing, or the file was cut once it was open."""
    for length in range(len(run.data) + 1):
        wanted = answer_of(run, length)
        ran = injected(run, {"READ": f"{length}:nothing"})
        tally.judge(f"{run.name}: nothing behind byte {length}", differs(ran, *wanted) or unfired(ran))
        with file_of(run.data) as file:
            os.ftruncate(file.fileno(), length)
            ran = plain(run, stdin=file)
        tally.judge(f"{run.name}: cut to {length} bytes", differs(ran, *wanted))


def early_ends():
    """The input ends early: the answer is that of the bytes that came."""
    tally = common.Tally("inputs that end early", 6984)
    judge_ends(tally, ONE, answer_of_one_command)
    judge_ends(tally, ONE_BY_THREADS, answer_of_one_command)
    judge_ends(tally, example("logout"), answer_of_front)
    judge_ends(tally, example("abort-task", ["--window", "4"]), answer_of_front)
    return tally


class Due(NamedTuple):
    """A recording whose fault is due once so many of its bytes were read, and no sooner."""

    name: str
    recording: bytes
    at: int
    fault: bytes


def due_by_bad_line(name, front, line):
    """A bad line is judged once its end was read."""
    number = front.count(b"\n") + 1
    return Due(name, front + line + b"\n" + LATER, len(front) + len(line) + 1, common.bad_line(number))


def due_by_long_line(name, front, line):
    """A line that is too long is judged once 257 bytes of it were read."""
    number = front.count(b"\n") + 1
    return Due(name, front + line + b"\n" + LATER, len(front) + LONGEST_LINE + 1, common.too_long(number))


def due_by_lines(name, rest):
    """Lines that are too many are judged once line 1,048,577 has a byte."""
    front = CONN + (MOST_LINES - 1) * b"\n"
    return Due(name, front + rest, len(front) + 1, common.TOO_MANY_LINES)


def dues_of_lines():
    """Recordings with a line that is bad or too long, in the first chunk, in the second one, and in both."""
    second, both = CONN + 660 * NOTE, CONN + 655 * NOTE
    arrival = b"C 1 " + 60 * b"0"
    connections = b"".join(b"conn %d 00000001\n" % cid for cid in range(64))
    return [
        due_by_bad_line("line 1 is bad", b"", b"conn 01 00000001"),
        due_by_bad_line("line 2 is bad", CONN, b"C 1 xyz"),
        due_by_bad_line("line 2 names a CID again", CONN, CONN[:-1]),
        due_by_bad_line("line 2 names no CID", CONN, b"C 2 " + 96 * b"0"),
        due_by_bad_line("line 65 is a connection too many", connections, b"conn 64 00000001"),
        due_by_bad_line("a bad line of 256 bytes", CONN, LONGEST_LINE * b"x"),
        due_by_bad_line("a bad line of the second chunk", second, arrival),
        due_by_bad_line("a bad line of two chunks", both, arrival),
        due_by_long_line("line 1 is too long", b"", 257 * b"x"),
        due_by_long_line("line 2 is too long", CONN, 70000 * b"x"),
        due_by_long_line("a long line that is passed over", CONN, b"#" + 1000 * b"x"),
        due_by_long_line("a long line of the second chunk", second, 300 * b"x"),
        due_by_long_line("a long line of two chunks", both, b" " + 300 * b"x"),
    ]


def dues_by_lines():
    """Recordings with too many lines."""
    return [
        due_by_lines("a line end more", b"\n" + LATER),
        due_by_lines("a note more", LATER),
        due_by_lines("a bad line more", b"C 1 xyz\n" + LATER),
        due_by_lines("a line more that is too long", 300 * b"x"),
    ]


def places_round(due):
    """Places before and behind where a fault is due, round the borders of chunks, and at the end."""
    borders = (*range(0, len(due.recording), CHUNK), len(due.recording))
    places = {border + by for border, by in product(borders, range(-2, 3))}
    places.update(range(due.at - 9, due.at + 3))
    return sorted(place for place in places if 0 <= place <= len(due.recording))


def judge_due(tally, due, words, faults):
    """Reads fail before a fault is due, and behind it, where none needs to be made any more."""
    name, how = faults["READ"], ", ".join([*words, *faults])
    for place in places_round(due):
        with file_of(due.recording) as file:
            run = Run(due.name, words, b"", 1, b"", due.fault)
            ran = injected(run, {**faults, "READ": f"{place}:{name}"}, stdin=file)
        if place < due.at:
            wrong = common.compare(ran, 1, b"", common.READ) or unfired(ran)
        else:
            wrong = common.compare(ran, 1, b"", due.fault)
        tally.judge(f"{due.name}, {how}: {name} once {place} bytes were read", wrong)


def reads_behind_faults():
    """The first fault met in the input decides, and a line that a failing read cuts off isn't judged."""
    tally = common.Tally("reads that fail behind a fault", 2900)
    ways = [([], {"READ": "error"}), ([], {"READ": "interrupt"}), (THREADS, {"READ": "error"})]
    for due, (words, faults) in product((*dues_of_lines(), *dues_by_lines()), ways):
        judge_due(tally, due, words, faults)
    for due in dues_of_lines():
        if due.at < CHUNK:
            judge_due(tally, due, [], {"READ": "error", "ONE": 1})
    return tally


# Moves of one byte


def fitting_cases():
    """The cases with a recording of at most 20,000 bytes."""
    for path in sorted(common.CASES.rglob("recording")):
        folder = path.parent
        recording, report, fault = path.read_bytes(), folder / "report", folder / "fault"
        status = int((folder / "status").read_text())
        err = None if status else b""
        if fault.exists():
            err = fault.read_bytes()
        if len(recording) <= FITTING:
            out = report.read_bytes() if report.exists() else b""
            yield Run(str(folder.relative_to(common.CASES)), common.words_of(folder), recording, status, out, err)


def examples():
    """All examples, with the options that the program has by itself and with others."""
    return [example(name, words) for name, words in product(sorted(common.EXAMPLES), ([], ["--window", "4", "--units", "2"]))]


def judge_python(tally, name, call, out):
    """A call of Python's that moves several bytes moves one under the injector. Its answer is the status."""
    words = ["-c", f"import os; raise SystemExit({call})"]
    ran = common.run(words, b"abc", {"ONE": 1}, program=sys.executable)
    tally.judge(name, common.compare(ran, 1, out, b""))


def single_bytes():
    """Reads and writes move one byte a call: the answer is the same."""
    tally = common.Tally("reads and writes of one byte", 145)
    judge_python(tally, "a read of nine bytes", "len(os.read(0, 9))", b"")
    judge_python(tally, "a write of three bytes", "os.write(1, b'abc')", b"a")
    for run in (*fitting_cases(), *examples(), *long_runs()):
        ran = injected(run, {"ONE": 1})
        loaded = ran.note and ran.note.allocs > 0
        wrong = differs(ran, run.status, run.out, run.err) or ("" if loaded else "the injector isn't there")
        tally.judge(run.name, wrong)
    return tally


def give_slowly(descriptor, data):
    """Writes a byte at a time with a pause now and then, until the reader is gone."""
    for place in range(len(data)):
        try:
            os.write(descriptor, data[place : place + 1])
        except BrokenPipeError:
            return
        if place % 16 == 0:
            time.sleep(0.001)


def slow_writers():
    """This process writes the input a byte at a time, through a pipe and through a socket."""
    tally = common.Tally("inputs that come a byte at a time", 14)
    short = [run for run in replays() if len(run.data) < 1000]
    for run, make in product((*short, case("closed-connection"), example("logout")), (os.pipe, socket_pair)):
        read, write = make()
        process = started(run, stdin=read, stdout=subprocess.PIPE)
        os.close(read)
        give_slowly(write, run.data)
        os.close(write)
        tally.judge(f"{run.name}, {make.__name__}", differs(ended(process), run.status, run.out, run.err))
    return tally


# Writes that fail


def judge_writes(tally, run, how, places):
    """Writes fail in a way once so many bytes were written. Behind the last byte no write is left that could."""
    for place in places:
        ran = injected(run, {"WRITE": f"{place}:{how}"})
        if place < len(run.out):
            wrong = common.compare(ran, 1, run.out[:place], common.WRITE) or unfired(ran)
        else:
            wrong = common.compare(ran, 0, run.out, b"") or ("" if unfired(ran) else "a write behind the end")
        tally.judge(f"{run.name}: {how} once {place} bytes were written", wrong)


def failing_writes():
    """Writes of a report fail, are interrupted or take nothing: the fault is Write, and a front was written."""
    tally = common.Tally("writes that fail", 12150)
    longer = (case("heads-and-ordered"), case("connection-logs-itself-out"))
    for run, how in product((ONE, ONE_BY_THREADS, *longer), WRITES):
        judge_writes(tally, run, how, range(len(run.out) + 1))
    return tally


def failing_chunks():
    """Writes of a report of several chunks fail, round the borders of the chunks."""
    tally = common.Tally("writes of chunks that fail", 1728)
    for run, how in product(long_runs(), WRITES):
        entry = len(entries(run.out)[0])
        # The lines of an event stay together: a chunk that is written ends with those of the event that fills it.
        filled = -(-CHUNK // entry) * entry
        borders = {number * size for number, size in product(range(4), (CHUNK, filled))} | {len(run.out)}
        places = {border + by for border, by in product(borders, range(-20, 21))}
        judge_writes(tally, run, how, sorted(place for place in places if 0 <= place <= len(run.out)))
    return tally


def failing_help():
    """Writes of the help fail or take nothing. That is the fault Write, as of a report."""
    tally = common.Tally("writes of the help that fail", 1400)
    run = help_run()
    ran = plain(run)
    named = all(option in ran.out for option in OPTIONS)
    tally.judge("the help", common.compare(ran, 0, run.out, b"") or ("" if named else "an option is missing"))
    judge_writes(tally, run, "error", range(len(run.out) + 1))
    judge_writes(tally, run, "nothing", range(len(run.out) + 1))
    return tally


def interrupted_help():
    """A write of the help is interrupted. It is made again, and the whole help comes."""
    tally = common.Tally("writes of the help that are interrupted", 700)
    run = help_run()
    for place in range(len(run.out)):
        ran = injected(run, {"WRITE": f"{place}:interrupt"})
        wrong = common.compare(ran, 0, run.out, b"") or unfired(ran)
        tally.judge(f"the help: interrupt once {place} bytes were written", wrong)
    return tally


CLASSES = [
    ("reads that fail", failing_reads),
    ("inputs that end early", early_ends),
    ("reads that fail behind a fault", reads_behind_faults),
    ("reads and writes of one byte", single_bytes),
    ("inputs that come a byte at a time", slow_writers),
    ("writes that fail", failing_writes),
    ("writes of chunks that fail", failing_chunks),
    ("writes of the help that fail", failing_help),
    ("writes of the help that are interrupted", interrupted_help),
    *systems.CLASSES,
]
