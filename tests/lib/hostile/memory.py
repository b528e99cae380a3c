"""Requests for memory and for threads that are refused, one after the other, until a run meets no refusal."""

import contextlib
import re
import tempfile

from hostile.common import (
    CASES,
    DRIVER,
    EXAMPLES,
    NO_MEMORY,
    NO_THREAD,
    Tally,
    compare,
    run,
    words_of,
)
from hostile.headers import nop_out
from hostile.scripts import SCRIPTS, other_answers
from hostile.serving import two_units

AGAIN = re.compile(rb"again: (\d+) steps, (\d+) turns, (\d+) ends, (\d+) lines, (\d+) from the start, ")
WANTING = re.compile(rb" (\d+) of them for want of a thread\n")
# More requests than any run here makes.
MOST = 5000
# So many bytes are asked of the reader at once.
CHUNK = 65536


def refusals(words, data, inject="ALLOC", name=None, **how):
    """The runs in which the first request is refused, the second, and so on; the last run meets no refusal. They read the
    data through a pipe, or the file of this name in its place."""
    for number in range(1, MOST):
        with open(name, "rb") if name else contextlib.nullcontext() as file:
            ran = run(words, data, inject={inject: number}, **how, **({"stdin": file} if file else {}))
        yield number, ran
        if ran.note is None or ran.note.refused == 0:
            return
    raise AssertionError(f"{MOST} requests")


def small_cases():
    """The cases with a recording of some kilobytes and a report."""
    for status in sorted(CASES.glob("**/status")):
        case = status.parent
        recording, report = case / "recording", case / "report"
        if recording.exists() and report.exists() and recording.stat().st_size < 5000:
            if "--threads" not in words_of(case):
                yield case


def numbers_of(words):
    """The options of a command line as the driver takes them: numbers in their places."""
    given = {"--first": "1", "--window": "32", "--units": "1", "--depth": "64", "--level": "1"}
    given.update(zip(words[::2], words[1::2]))
    return [str(int(given.pop("--first"), 16)), *given.values()]


def script_of(case):
    """The lines of a case's recording that the driver knows: connections and events."""
    lines = (line[2:] if line.startswith(b"> ") else line for line in (case / "recording").read_bytes().split(b"\n"))
    return b"".join(line + b"\n" for line in lines if line[:1] in (b"c", b"C", b"D"))


def sort_out(tallies, what, number, ran, wrong):
    """Counts a refusal at the call that was made again for it, as the driver tells, or at the start."""
    counts = AGAIN.search(ran.err)
    if counts is None:
        tallies[-1].judge(f"{what}, request {number}", wrong or "the driver told nothing")
        return
    for tally, count in zip(tallies, counts.groups()):
        if int(count) > 0:
            tally.judge(f"{what}, request {number}", wrong)


def driver_tallies(steps, turns, ends, lines, starts):
    """The classes of refusals of the driver's calls, with their floors."""
    names = ("step", "turn", "finish", "the lines of a report", "open and serve, begun anew")
    floors = (steps, turns, ends, lines, starts)
    return [Tally(f"memory refused to {name}", floor) for name, floor in zip(names, floors)]


def sessions():
    """Every small case stepped by the driver: the report is the case's, whichever request is refused."""
    tallies = driver_tallies(500, 0, 0, 300, 1400)
    for case in small_cases():
        words = ["session", *numbers_of(words_of(case))]
        report = (case / "report").read_bytes()
        for number, ran in refusals(words, script_of(case), program=DRIVER):
            sort_out(tallies, case.name, number, ran, other_answers(ran, report))
    return [tally for tally in tallies if tally.floor > 0]


def loops():
    """Every script of a loop and its ports: the answers are the same, whichever request is refused."""
    tallies = driver_tallies(0, 980, 630, 44, 1480)
    for make in SCRIPTS:
        script = make()
        for number, ran in refusals(script.words, script.text(), program=DRIVER):
            sort_out(tallies, script.name, number, ran, other_answers(ran, script.expected()))
    return [tally for tally in tallies if tally.floor > 0]


def threads_left(ran):
    """Whether a thread that was begun hasn't ended."""
    return "" if ran.note.ended == ran.note.threads else f"{ran.note.threads - ran.note.ended} threads are left"


def threads_wanting(ran):
    """How often `serve` said that it wants a thread; 0 where the driver doesn't tell."""
    counts = WANTING.search(ran.err)
    return int(counts.group(1)) if counts else 0


def serves():
    """`serve` with each request refused, and with each thread refused; then it is called anew.

    It says that it wants a thread where one is refused, or the memory that each takes once to be made, and never else.
    """
    tallies = []
    serving = two_units()
    threads = len(serving.lists) + serving.units
    for what, inject, floor in (("memory", "ALLOC", 551), ("a thread", "THREAD", 6)):
        tally = Tally(f"{what} refused to serve", floor)
        wanting = 0
        for number, ran in refusals(serving.words, serving.text(), inject, program=DRIVER):
            tally.judge(f"{what}, {number}", serving.wrong(ran, [200]) or threads_left(ran))
            wanting += threads_wanting(ran)
        tally.judge(f"{what}, what was said", "" if wanting == threads else f"a thread was wanting {wanting} times")
        tallies.append(tally)
    return tallies


def recordings():
    """The recordings that the program is given: a command, the examples, and one whose report is written in pieces."""
    yield "one-command", [], (CASES / "one-command" / "recording").read_bytes()
    for _, path in sorted(EXAMPLES.items()):
        yield path.name, [], path.read_bytes()
        yield path.name, ["--window", "4", "--units", "2"], path.read_bytes()
    many = b"".join(b"C 1 %s\n" % nop_out(sn, sn).encode() for sn in range(1, 1001))
    yield "a thousand NOP-Outs", [], b"conn 1 00000001\n" + many


def wrong_of_replay(ran, report):
    """What is wrong with a replay of which one request was refused: it can end with `NoMemory` and a front."""
    if ran.status == 1 and ran.err == NO_MEMORY:
        return "" if report.startswith(ran.out) else "what was written is no front of the report"
    return compare(ran, 0, report, b"")


def replays():
    """The program with each request refused. A run with ample memory behind it gives the whole report."""
    tally = Tally("memory refused to the program", 1660)
    for name, words, data in recordings():
        report = run(words, data).out
        for number, ran in refusals(words, data):
            tally.judge(f"{name}, request {number}", wrong_of_replay(ran, report))
        tally.judge(f"{name}, anew", compare(run(words, data), 0, report, b""))
    return tally


def wrong_of_threads(ran, words, data, refusal):
    """What is wrong with a replay by threads that may be refused with this line, and then has written a front."""
    if ran.note is None or ran.note.ended != ran.note.threads:
        return "a thread is left"
    if ran.status == 1 and ran.err == refusal:
        if refusal == NO_THREAD and ran.out:
            return "something was written without its threads"
        # an event whose lines may be cut off is left out
        return wrong_of_events(ran.out[: ran.out.rfind(b"> ")], words, data) if ran.out else ""
    if (ran.status, ran.err) != (0, b""):
        return f"status {ran.status}: {ran.err[-200:]!r}"
    return wrong_of_events(ran.out, words, data)


def wrong_of_events(report, words, data):
    """Whether this isn't the report of its own events."""
    conns = b"".join(line + b"\n" for line in data.split(b"\n") if line.startswith(b"conn "))
    return compare(run(words, conns + report), 0, report, b"")


def threaded_replays():
    """The program with threads, with each request refused, and then with each thread."""
    tallies = []
    for what, inject, floor in (("memory", "ALLOC", 3300), ("a thread", "THREAD", 100)):
        tally = Tally(f"{what} refused to the program with threads", floor)
        for name, words, data in recordings():
            begun = 0
            for number, ran in refusals(["--threads", *words], data, inject):
                refusal = NO_MEMORY if inject == "ALLOC" else NO_THREAD
                # A thread takes memory to be made, once each: the first one, then the second, and so on.
                if inject == "ALLOC" and ran.err == NO_THREAD and ran.note.threads == begun:
                    refusal = NO_THREAD
                    begun += 1
                tally.judge(f"{name}, {what} {number}", wrong_of_threads(ran, words, data, refusal))
        tallies.append(tally)
    return tallies


def number_behind(words, front):
    """The number of the first request that the line behind this front makes: the next after the last one that the front
    can't be read without. A bad line follows the front, so that the run ends before a session asks for memory. The front
    comes from a file: a pipe may hand out less at once than is asked for, and then what is read so far takes memory."""
    with tempfile.NamedTemporaryFile() as file:
        file.write(front + b"x\n")
        file.flush()
        return 1 + max(number for number, ran in refusals(words, b"", name=file.name) if ran.err == NO_MEMORY)


def last_arrivals():
    """Recordings, with their words, of which a read ends with an arrival whose CID is one digit: 101 bytes."""
    case = CASES / "half-way-number-outside"
    recording = (case / "recording").read_bytes()
    yield "half-way-number-outside", words_of(case), recording, b""
    front, arrival = recording[:-101], recording[-101:]
    notes = CHUNK // 100 * (b"#" * 99 + b"\n")
    chunk = front + notes[len(recording) - CHUNK :] + arrival
    yield "at the end of a chunk", words_of(case), chunk, notes


def arrivals():
    """An arrival that ends what was read: the request for its memory, where it is refused, is made again."""
    tally = Tally("memory refused to the last arrival that was read", 2)
    for name, words, data, rest in last_arrivals():
        report = run(words, data + rest).out
        number = number_behind(words, data[:-101])
        with tempfile.TemporaryFile() as file:
            file.write(data + rest)
            file.seek(0)
            ran = run(words, inject={"ALLOC": number}, stdin=file)
        unmet = "" if ran.note.refused == 1 else f"{ran.note.refused} requests were refused"
        tally.judge(f"{name}, request {number}", unmet or compare(ran, 0, report, b""))
    return [tally]


COMMAND_LINES = [
    [],
    ["--help"],
    ["--first", "0000000a", "--window", "4", "--units", "2", "--depth", "3", "--level", "2", "--threads"],
    ["--window=4"],
    ["--window", "0"],
    ["--window", "4", "--window", "5"],
    ["--first", "x"],
    ["--no-such-option"],
    ["--threads", "--threads"],
    ["word"],
]


def command_lines():
    """Command lines with each request refused: `NoMemory`, or what comes without a refusal, where none was needed."""
    tally = Tally("memory refused to the command line", 600)
    data = (CASES / "one-command" / "recording").read_bytes()
    for words in COMMAND_LINES:
        usual = run(words, data)
        for number, ran in refusals(words, data):
            is_fault = ran.status == 1 and ran.err in (NO_MEMORY, NO_THREAD) and usual.out.startswith(ran.out)
            is_refused = ran.status == usual.status == 2 and ran.err and not ran.out
            wrong = "" if is_fault or is_refused else compare(ran, usual.status, usual.out, usual.err)
            tally.judge(f"{' '.join(words)}, request {number}", wrong)
    return tally


CLASSES = [
    ("memory refused to a session", sessions),
    ("memory refused to a loop", loops),
    ("memory and threads refused to serve", serves),
    ("memory refused to the program", replays),
    ("memory and threads refused to the program with threads", threaded_replays),
    ("memory refused to the command line", command_lines),
    ("memory refused to the last arrival that was read", arrivals),
]
