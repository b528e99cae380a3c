"""Faults of reading and writing that a system makes by itself: devices, pipes, limits, closed descriptors, signals.

A fault of the input is told by its line, and nothing is written. A fault of the output is told too, and leaves a
front of what was to be written. A limit of file size ends the program by SIGXFSZ, where nobody ignores or blocks it.

What docs/FORMATS.md leaves open isn't judged: what comes of a report without lines where nothing can be written.
"""

import contextlib
import fcntl
import os
import resource
import select
import signal
import socket
import subprocess
import sys
import tempfile
import termios
import time
from itertools import chain, combinations, product

from hostile import common
from hostile.runs import (
    ONE,
    ONE_BY_THREADS,
    all_runs,
    answer,
    answer_of_front,
    answer_of_one_command,
    content,
    differs,
    ended,
    file_of,
    help_run,
    long_runs,
    pings,
    plain,
    replays,
    socket_pair,
    started,
)

LAUNCHER = common.TOP / "iscsi-replay"
# How many bytes a pipe holds, as it is made and at the least.
WIDE, NARROW = 65536, 4096
# The fcntl module has this name from Python 3.10 on.
F_SETPIPE_SZ = 1031
# The size of files that are mostly hollow, and more than any output has.
HUGE = 1 << 36
# A run that was to be stopped in the middle and wasn't is begun so often.
TRIES = 50
# The environment by which the injector lets a program read and write one byte a call.
ONE_BYTE = {"LD_PRELOAD": str(common.INJECTOR), "INJECT_ONE": "1"}


# Descriptors that fail


def full_device():
    return [os.open("/dev/full", os.O_WRONLY)]


def read_only_file():
    return [os.open(common.CASES / "one-command" / "recording", os.O_RDONLY)]


def write_only_device():
    return [os.open("/dev/null", os.O_WRONLY)]


def folder():
    return [os.open("/", os.O_RDONLY)]


def reading_end():
    return list(os.pipe())


def writing_end():
    return list(reversed(os.pipe()))


def missing_memory():
    """The memory of this process from its place 0 on, where there is none: each read answers an error."""
    return [os.open("/proc/self/mem", os.O_RDONLY)]


def sealed_memory():
    """A file in memory that may not be written to any more."""
    descriptor = os.memfd_create("sealed", os.MFD_ALLOW_SEALING)
    fcntl.fcntl(descriptor, fcntl.F_ADD_SEALS, fcntl.F_SEAL_WRITE)
    return [descriptor]


def pipe_without_reader():
    """The writing end of a pipe whose reader is gone."""
    read, write = os.pipe()
    os.close(read)
    return [write]


def socket_without_peer():
    """A socket whose other end is gone."""
    here, there = socket_pair()
    os.close(there)
    return [here]


def full_pipe():
    """The writing end of a pipe that is full, and doesn't let its writer wait."""
    read, write = os.pipe()
    os.set_blocking(write, False)
    with contextlib.suppress(BlockingIOError):
        while True:
            os.write(write, bytes(NARROW))
    return [write, read]


def open_pipe(data=b""):
    """The reading end of a pipe that has some bytes and may get more, and doesn't let its reader wait."""
    read, write = os.pipe()
    os.set_blocking(read, False)
    os.write(write, data)
    return [read, write]


def reset_socket(data=b""):
    """A socket that gives some bytes and then an error, since its other end went away with bytes unread."""
    here, there = socket.socketpair()
    here.send(b"unread")
    there.sendall(data)
    there.close()
    return [here.detach()]


@contextlib.contextmanager
def first_of(descriptors):
    """Gives the first of these descriptors, and closes all of them in the end."""
    try:
        yield descriptors[0]
    finally:
        for descriptor in descriptors:
            os.close(descriptor)


def by_shell(run, redirections, program=None, **how):
    """Runs the program with descriptors that a shell changes first."""
    words = ["-c", f'exec "$@" {redirections}', "sh", str(program or common.PROGRAM), *run.words]
    return common.run(words, run.data, program="/bin/sh", **how)


OUTPUTS = (
    full_device,
    read_only_file,
    folder,
    reading_end,
    sealed_memory,
    pipe_without_reader,
    socket_without_peer,
    full_pipe,
)
INPUTS = (folder, write_only_device, writing_end, missing_memory, open_pipe, reset_socket)
ERRORS = (full_device, read_only_file, sealed_memory, pipe_without_reader, full_pipe)


def outputs_of_the_system():
    """Nothing can be written: what has something to write ends with Write, and all else as always.

    The signals SIGPIPE and SIGXFSZ are as a process has them at first, or ignored, as some parents leave them.
    """
    tally = common.Tally("outputs that take nothing", 160)
    for make, run, restored in product(OUTPUTS, all_runs(), (True, False)):
        with first_of(make()) as descriptor:
            ran = plain(run, stdout=descriptor, restore_signals=restored)
        status, _, err = answer(run, writes=False)
        signals = "as at first" if restored else "ignored"
        tally.judge(f"{run.name}, {make.__name__}, signals {signals}", differs(ran, status, b"", err))
    return tally


def inputs_of_the_system():
    """Nothing can be read: whoever reads ends with Read, and the others as always."""
    tally = common.Tally("inputs that can't be read", 60)
    for make, run in product(INPUTS, all_runs()):
        with first_of(make()) as descriptor:
            ran = plain(run, stdin=descriptor)
        tally.judge(f"{run.name}, {make.__name__}", differs(ran, *answer(run, reads=False)))
    return tally


def errors_of_the_system():
    """Nothing can be written to standard error: status and output stay what they are, whatever else fails."""
    tally = common.Tally("standard errors that take nothing", 200)
    others = (("", True, True), ("< /", False, True), ("> /dev/full", True, False), ("< / > /dev/full", False, False))
    for make, run, (redirections, reads, writes) in product(ERRORS, all_runs(), others):
        with first_of(make()) as descriptor:
            ran = by_shell(run, redirections, stderr=descriptor)
        status, out, _ = answer(run, reads, writes)
        tally.judge(f"{run.name}, {make.__name__}, {redirections}", differs(ran, status, out, b""))
    return tally


def closed_descriptors():
    """Some of the three standard descriptors are closed at the start, of the program and of its launcher."""
    tally = common.Tally("closed descriptors", 140)
    choices = chain.from_iterable(combinations(range(3), count) for count in (1, 2, 3))
    runs = [(run, program) for program in (common.PROGRAM, LAUNCHER) for run in all_runs(program)]
    for closed, (run, program) in product(choices, runs):
        ran = by_shell(run, " ".join(f"{descriptor}>&-" for descriptor in closed), program)
        status, out, err = answer(run, 0 not in closed, 1 not in closed)
        wrong = differs(ran, status, b"" if 1 in closed else out, b"" if 2 in closed else err)
        tally.judge(f"{run.name}, {program} without {closed}", wrong)
    return tally


# Inputs that break off


def broken_inputs():
    """A socket is reset behind each byte of a recording, and a pipe that doesn't wait has no more: both are Read."""
    tally = common.Tally("inputs that break off", 500)
    for run, length, make in product((ONE, ONE_BY_THREADS), range(len(ONE.data) + 1), (reset_socket, open_pipe)):
        with first_of(make(run.data[:length])) as descriptor:
            ran = plain(run, stdin=descriptor)
        tally.judge(f"{run.name}, {make.__name__}: {length} bytes", common.compare(ran, 1, b"", common.READ))
    return tally


def killed_writers():
    """A process is killed once it wrote a front of a recording: that front is the input, with its last line cut off."""
    tally = common.Tally("writers that are killed", 250)
    for run, length in product((ONE, ONE_BY_THREADS), range(len(ONE.data) + 1)):
        words = ["/bin/sh", "-c", 'printf %s "$1"; kill -KILL $$', "sh", run.data[:length].decode()]
        with subprocess.Popen(words, stdout=subprocess.PIPE) as writer:
            ran = plain(run, stdin=writer.stdout)
        wrong = "" if writer.returncode == -signal.SIGKILL else "its writer wasn't killed"
        wrong = wrong or differs(ran, *answer_of_one_command(run, length))
        tally.judge(f"{run.name}: killed after {length} bytes", wrong)
    return tally


# Files


def hollow(front, size):
    """An open file that begins with some bytes and is hollow behind them: it has zeros, and takes no room."""
    file = file_of(front)
    os.ftruncate(file.fileno(), size)
    return file


def odd_files():
    """Files, each with the place where the input begins, and with what comes of it."""
    none, text = (1, b"", common.NO_CONNECTION), b"no line of a recording\n"
    size = len(ONE.data)
    return [
        ("an empty file", file_of(b""), 0, none),
        ("a device without bytes", open("/dev/null", "rb"), 0, none),
        ("a device without end", open("/dev/zero", "rb"), 0, (1, b"", common.too_long(1))),
        ("256 zeros", hollow(b"", 256), 0, (1, b"", common.bad_line(1))),
        ("257 zeros", hollow(b"", 257), 0, (1, b"", common.too_long(1))),
        ("64 GiB of zeros", hollow(b"", HUGE), 0, (1, b"", common.too_long(1))),
        ("a recording and 256 zeros", hollow(ONE.data, size + 256), 0, (1, b"", common.bad_line(4))),
        ("a recording and 257 zeros", hollow(ONE.data, size + 257), 0, (1, b"", common.too_long(4))),
        ("a recording and 64 GiB of zeros", hollow(ONE.data, HUGE), 0, (1, b"", common.too_long(4))),
        ("a file that was read in part", file_of(text + ONE.data), len(text), (0, ONE.out, b"")),
        ("a file that was read to its end", file_of(ONE.data), size, none),
        ("a file that was cut before its place", file_of(ONE.data), HUGE, none),
    ]


def judge_odd_files(tally, run):
    """The input is one of the odd files."""
    for name, file, place, wanted in odd_files():
        with file:
            os.lseek(file.fileno(), place, os.SEEK_SET)
            ran = plain(run, stdin=file)
        tally.judge(f"{run.name}, {name}", differs(ran, *wanted))


def files_of_all_sorts():
    """Inputs from files that are empty, hollow, endless, or read from the middle on."""
    tally = common.Tally("files of all sorts", 24)
    for run in (ONE, ONE_BY_THREADS):
        judge_odd_files(tally, run)
    return tally


def wait_until(process, states):
    """Waits until a process is in one of these states of /proc. False where it doesn't come to be, or has ended."""
    state, end = "", time.monotonic() + common.SECONDS
    while state not in (*states, "Z") and time.monotonic() < end:
        time.sleep(0.0005)
        with open(f"/proc/{process.pid}/stat") as stat:
            state = stat.read().rpartition(")")[2].split()[0]
    return state in states


def stopped_at(run, file, place):
    """Starts a run over a file and stops it once it read so many bytes; and how many it has read then.

    The injector lets it read a byte a call, so that there is time for this. The place in the file is shared.
    """
    process = started(run, stdin=file, stdout=subprocess.PIPE, env={**os.environ, **ONE_BYTE})
    end = time.monotonic() + common.SECONDS
    while os.lseek(file.fileno(), 0, os.SEEK_CUR) < place and time.monotonic() < end:
        time.sleep(0.0005)
    os.kill(process.pid, signal.SIGSTOP)
    wait_until(process, "T")
    return process, os.lseek(file.fileno(), 0, os.SEEK_CUR)


def caught(run, data, place, change):
    """What a run came to whose file was changed in the middle of its reading, and how much it had read by then.

    A run that had read all by then is begun again, so that a busy machine doesn't matter.
    """
    seen = len(data)
    tries = 0
    while seen == len(data) and tries < TRIES:
        with file_of(data) as file:
            process, seen = stopped_at(run, file, place)
            change(file.fileno())
            os.kill(process.pid, signal.SIGCONT)
            ran = ended(process)
        tries += 1
    return ran, seen


def wrong_when_cut(run, place, size):
    """What is wrong with a run whose file is cut to a size once it read up to a place, or some bytes more."""
    ran, seen = caught(run, run.data, place, lambda file: os.ftruncate(file, size))
    if seen == len(run.data):
        return "it was never caught in the middle"
    return differs(ran, *answer_of_front(run, max(seen, size)))


def wrong_when_grown(run, place, size):
    """What is wrong with a run whose file has a size first, and is completed once it read up to a place."""
    ran, seen = caught(run, run.data[:size], place, lambda file: os.pwrite(file, run.data[size:], size))
    if seen == size:
        return "it was never caught in the middle"
    return differs(ran, run.status, run.out, run.err)


def changing_files():
    """A file is cut or grows while it is read: the input is what was in it as each of its bytes was read."""
    tally = common.Tally("files that change while they are read", 42)
    # Nothing, up to the middle of a line, up to its end, and all but the last byte.
    line = len(pings(700).data)
    sizes = (0, line - 50, line, len(pings(1000).data) - 1)
    for run, place, size in product(long_runs(), (1, 1000, 30000), sizes):
        tally.judge(f"{run.name}: cut to {size} after {place}", wrong_when_cut(run, place, size))
    for run, place, size in product(long_runs(), (1, 1000, 30000), sizes[1:]):
        tally.judge(f"{run.name}: {size} grow after {place}", wrong_when_grown(run, place, size))
    return tally


def wrong_in_file(run, redirections, whole):
    """What is wrong with a run whose input and output are one file, which must have these bytes then."""
    with tempfile.NamedTemporaryFile() as file:
        file.write(run.data)
        file.flush()
        ran = by_shell(run, redirections.replace("FILE", file.name))
        wrong = differs(ran, run.status, b"", run.err)
        return wrong or ("" if content(file) == whole else "another file")


def wrong_in_socket(run):
    """What is wrong with a run whose input and output are one socket, as a server gives it."""
    here, there = socket.socketpair()
    process = started(run, stdin=there, stdout=there)
    there.close()
    with here:
        with contextlib.suppress(BrokenPipeError):
            here.sendall(run.data)
            here.shutdown(socket.SHUT_WR)
        out = all_of(here.fileno())
    return differs(ended(process, out), run.status, run.out, run.err)


def meetings():
    """Input and output are one file: the input is read to its end before the first byte is written."""
    tally = common.Tally("one file for input and output", 28)
    for run in replays():
        behind, over = run.data + run.out, run.out + run.data[len(run.out) :]
        tally.judge(f"{run.name}, opened once", wrong_in_file(run, "0<> FILE 1>&0", behind))
        tally.judge(f"{run.name}, appended to", wrong_in_file(run, "< FILE >> FILE", behind))
        tally.judge(f"{run.name}, written over", wrong_in_file(run, "< FILE 1<> FILE", over))
        tally.judge(f"{run.name}, a socket", wrong_in_socket(run))
    return tally


# Readers of the output


def pipe_of(room):
    """The two ends of a pipe that holds so many bytes."""
    read, write = os.pipe()
    fcntl.fcntl(write, F_SETPIPE_SZ, room)
    return read, write


def some_of(descriptor, most):
    """Reads some bytes at most, and none where none comes in time or the other end broke off."""
    ready = select.select([descriptor], [], [], common.SECONDS)[0]
    with contextlib.suppress(ConnectionResetError):
        return os.read(descriptor, most) if ready else b""
    return b""


def front_of(descriptor, length):
    """Reads so many bytes, or all up to the end."""
    out = b""
    while len(out) < length:
        more = some_of(descriptor, min(length - len(out), WIDE))
        if not more:
            break
        out += more
    return out


def all_of(descriptor):
    """Reads all bytes up to the end."""
    return front_of(descriptor, HUGE)


def started_into(run, write):
    """Starts a run over a file that writes to a pipe, whose writing end it has alone."""
    with file_of(run.data) as file:
        process = started(run, stdin=file, stdout=write)
    os.close(write)
    return process


def taken(descriptor, steps):
    """Reads in steps of (bytes at most, seconds after them), up to the end."""
    out = b""
    for most, pause in steps:
        more = some_of(descriptor, most)
        if not more:
            break
        out += more
        time.sleep(pause)
    return out


SINGLE = 300 * [(1, 0.001)]
ODD = 100 * [(7, 0.001)] + 20 * [(4097, 0.001)] + 100 * [(1, 0)]
READERS = (
    ("a byte at a time at first", WIDE, SINGLE),
    ("a byte at a time at first", NARROW, SINGLE),
    ("pieces of odd lengths", WIDE, ODD),
    ("pieces of odd lengths", NARROW, ODD),
    ("a stop at the start", NARROW, [(1, 0.3)]),
    ("a stop of two seconds", WIDE, [(WIDE, 2), (1, 0)]),
)


def slow_readers():
    """The report is read slowly, or not for a while: it comes whole."""
    tally = common.Tally("readers that are slow", 12)
    for run, (name, room, steps) in product(long_runs(), READERS):
        read, write = pipe_of(room)
        process = started_into(run, write)
        out = taken(read, steps) + all_of(read)
        os.close(read)
        tally.judge(f"{run.name}, {name}, a pipe of {room} bytes", differs(ended(process, out), 0, run.out, b""))
    return tally


def leaving_readers():
    """A reader goes away after some bytes, and more is left than its pipe holds: the fault is Write."""
    tally = common.Tally("readers that go away", 28)
    lengths = (0, 1, 100, WIDE - 1, WIDE, WIDE + 1, 150000)
    for run, length, room in product(long_runs(), lengths, (WIDE, NARROW)):
        read, write = pipe_of(room)
        process = started_into(run, write)
        out = front_of(read, length)
        os.close(read)
        wrong = differs(ended(process, out), 1, run.out[:length], common.WRITE)
        tally.judge(f"{run.name}: gone after {length} bytes of a pipe of {room}", wrong)
    return tally


def refusing_pipes():
    """A pipe that doesn't let its writer wait takes a front of a long report: the fault is Write."""
    tally = common.Tally("pipes that fill up", 4)
    for run, room in product(long_runs(), (WIDE, NARROW)):
        read, write = pipe_of(room)
        os.set_blocking(write, False)
        ran = ended(started_into(run, write))
        out = all_of(read)
        os.close(read)
        wrong = "" if 0 < len(out) <= room and run.out.startswith(out) else "no front"
        tally.judge(f"{run.name}, a pipe of {room} bytes", wrong or differs(ran, 1, b"", common.WRITE))
    return tally


# Limits of file size


def limit(size, blocks):
    """Limits the files that this process writes, and blocks SIGXFSZ where asked. It leaves no image of its memory."""
    resource.setrlimit(resource.RLIMIT_CORE, (0, 0))
    resource.setrlimit(resource.RLIMIT_FSIZE, (size, size))
    if blocks:
        signal.pthread_sigmask(signal.SIG_BLOCK, {signal.SIGXFSZ})


def limited(run, size, how, before=b""):
    """A run that writes behind some bytes of a file, where files may have so many bytes at most."""
    program = LAUNCHER if how in LAUNCHED else common.PROGRAM
    start = {"restore_signals": how != "ignored", "preexec_fn": lambda: limit(size, how == "blocked")}
    with file_of(before) as file:
        os.lseek(file.fileno(), len(before), os.SEEK_SET)
        ran = common.run(run.words, run.data, program=program, stdout=file, **start)
        return ran._replace(out=content(file))


# What becomes of SIGXFSZ. The launcher ignores it, as its program is started.
LIMITED = ("by the signal", "ignored", "blocked")
LAUNCHED = ("by the launcher",)


def judge_limits(tally, run, sizes, hows):
    """The limit is one of these: what it lets through is written, and where that isn't all, the program is told."""
    for size, how in product(sizes, hows):
        status, out, err = run.status, run.out[:size], run.err
        if out != run.out:
            status, err = (-signal.SIGXFSZ, b"") if how == "by the signal" else (1, common.WRITE)
        tally.judge(f"{run.name}: at most {size} bytes, {how}", differs(limited(run, size, how), status, out, err))


def sizes_for(run):
    """All sizes up to that of a short report, and those round the borders of a long one."""
    borders = (0, WIDE, 2 * WIDE, len(run.out))
    near = sorted({border + by for border, by in product(borders, (-1, 0, 1))})
    return range(len(run.out) + 2) if len(run.out) < 1000 else near[1:]


def size_limits():
    """Files may have so many bytes at most. To meet the limit is a failed write, or the program's end by a signal."""
    tally = common.Tally("limits of file size", 1900)
    for run in replays():
        sizes = sizes_for(run)
        judge_limits(tally, run, sizes, LIMITED)
        judge_limits(tally, run, sizes[:: len(sizes) // 24 + 1], LAUNCHED)
    for run, how in product((ONE, ONE_BY_THREADS, *long_runs()), ("ignored", "blocked", *LAUNCHED)):
        ran = limited(run, 50, how, 100 * b"x")
        tally.judge(f"{run.name}: behind the limit, {how}", differs(ran, 1, 100 * b"x", common.WRITE))
    return tally


def size_limits_of_the_help():
    """Files may have so many bytes at most, and the help may have more."""
    tally = common.Tally("limits of file size for the help", 50)
    for program, hows in ((common.PROGRAM, LIMITED), (LAUNCHER, LAUNCHED)):
        run = help_run(program)
        lengths = {len(help_run().out), len(run.out)}
        sizes = {0, 1, 2, 3, 10, 50, 100, 511, 512, *(length + by for length in lengths for by in (-2, -1, 0, 1))}
        judge_limits(tally, run, sorted(sizes), hows)
    return tally


# Signals


SIGNALS = {
    "stopped and continued": (signal.SIGSTOP, signal.SIGCONT),
    "stopped and continued three times": 3 * (signal.SIGSTOP, signal.SIGCONT),
    "told of a window": 5 * (signal.SIGWINCH,),
    "told of a child": 5 * (signal.SIGCHLD,),
    "told of urgent data": 5 * (signal.SIGURG,),
}


def bother(process, numbers):
    """Sends signals to a process that waits, each once it waits again. Says what is wrong where it never did."""
    for number in numbers:
        if not wait_until(process, "T" if number == signal.SIGCONT else "S"):
            return "it never waited"
        os.kill(process.pid, number)
    return ""


def wrong_while_reading(run, numbers):
    """What is wrong with a run that gets signals while it waits for the second half of its input."""
    read, write = os.pipe()
    process = started(run, stdin=read, stdout=subprocess.PIPE)
    os.close(read)
    half = len(run.data) // 2
    os.write(write, run.data[:half])
    wait_for_pipe(write, 0)
    wrong = bother(process, numbers)
    with contextlib.suppress(BrokenPipeError):
        os.write(write, run.data[half:])
    os.close(write)
    return wrong or differs(ended(process), run.status, run.out, run.err)


def wrong_while_writing(run, numbers):
    """What is wrong with a run that gets signals while it waits for room in its output."""
    with file_of(run.data) as file:
        process = started(run, stdin=file, stdout=subprocess.PIPE)
    wait_for_pipe(process.stdout, WIDE)
    wrong = bother(process, numbers)
    return wrong or differs(ended(process), run.status, run.out, run.err)


def wait_for_pipe(end, length):
    """Waits until a pipe has so many bytes."""
    has, until = None, time.monotonic() + common.SECONDS
    while has != length and time.monotonic() < until:
        time.sleep(0.0005)
        has = int.from_bytes(fcntl.ioctl(end, termios.FIONREAD, bytes(4)), sys.byteorder)


def signals_that_end_nothing():
    """Signals come while the program waits, and it has handlers for none: no read or write is interrupted."""
    tally = common.Tally("signals that end nothing", 20)
    for (name, numbers), run in product(SIGNALS.items(), (ONE, ONE_BY_THREADS)):
        tally.judge(f"{run.name}, {name}, in a read", wrong_while_reading(run, numbers))
    for (name, numbers), run in product(SIGNALS.items(), long_runs()):
        tally.judge(f"{run.name}, {name}, in a write", wrong_while_writing(run, numbers))
    return tally


CLASSES = [
    ("outputs that take nothing", outputs_of_the_system),
    ("inputs that can't be read", inputs_of_the_system),
    ("standard errors that take nothing", errors_of_the_system),
    ("closed descriptors", closed_descriptors),
    ("inputs that break off", broken_inputs),
    ("writers that are killed", killed_writers),
    ("files of all sorts", files_of_all_sorts),
    ("files that change while they are read", changing_files),
    ("one file for input and output", meetings),
    ("readers that are slow", slow_readers),
    ("readers that go away", leaving_readers),
    ("pipes that fill up", refusing_pipes),
    ("limits of file size", size_limits),
    ("limits of file size for the help", size_limits_of_the_help),
    ("signals that end nothing", signals_that_end_nothing),
]
