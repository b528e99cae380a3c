"""Runs of the program and what comes of them, where nothing fails and where its input or its output does.

What must come is said by docs/FORMATS.md, sections 4 to 7. The reports are those of tests/cases, those that `pings`
makes by the formats, and for examples those that the program gives where nothing fails; so is the help.
"""

import os
import re
import socket
import subprocess
import tempfile
from typing import NamedTuple, Optional

from hostile import common

THREADS = ["--threads"]
CONN = b"conn 1 00000001\n"
# The first tag of the NOP-Outs of `pings`.
TAG = 0xA0000000
REFUSED_FIRST = b"iscsi-replay: --first takes eight hexadecimal digits\n"


class Run(NamedTuple):
    """A run in which nothing fails, and what comes of it. Where `err` is None its text isn't fixed."""

    name: str
    words: list
    data: bytes
    status: int
    out: bytes
    err: Optional[bytes] = b""

    def reads(self):
        """Whether the input is looked at: no word is refused, and the help isn't asked for."""
        return self.status != 2 and "--help" not in self.words


def case(name):
    """A case that has a report."""
    folder = common.CASES / name
    recording, report = (folder / "recording").read_bytes(), (folder / "report").read_bytes()
    return Run(name, common.words_of(folder), recording, int((folder / "status").read_text()), report)


ONE = case("one-command")
# Its report is the same with threads, since it has a single command.
ONE_BY_THREADS = ONE._replace(name="one-command with threads", words=THREADS)


def example(name, words=()):
    """An example, with the report that the program gives where nothing fails."""
    recording = common.EXAMPLES[name].read_bytes()
    report = common.run(words, recording, program=common.PROGRAM).out
    return Run(" ".join([name, *words]), list(words), recording, 0, report)


def pings(count, words=()):
    """NOP-Outs on one connection, with numbers from 1 on. They have one order, so threads give the same report."""
    recording, report = [CONN], []
    for number in range(1, count + 1):
        tag = TAG + number
        header = b"00800000%024x%08xffffffff%08x%040x" % (0, tag, number, 0)
        numbers = b"%08x%08x%08x" % (number, number + 1, number + 32)
        answer = b"20800000%024x%08xffffffff%s%024x" % (0, tag, numbers, 0)
        recording.append(b"C 1 %s\n" % header)
        report.append(b"> C 1 %s\n  deliver 1 %08x %08x\n  send 1 %s\n" % (header, number, tag, answer))
    return Run(" ".join([f"{count} NOP-Outs", *words]), list(words), b"".join(recording), 0, b"".join(report))


def long_runs():
    """Two runs whose reports are longer than what a pipe holds."""
    return [pings(1000), pings(1000, THREADS)]


def help_run(program=common.PROGRAM):
    """The help, as the program, or what starts it, gives it where nothing fails. Its text isn't fixed."""
    return Run("the help", ["--help"], b"", 0, common.run(["--help"], program=program).out)


def replays():
    """Runs that read their input: with a short report, a long one, an empty one, and with a fault of the input."""
    bad = Run("a bad line", [], CONN + b"C 2 00\n", 1, b"", common.bad_line(2))
    return [
        ONE,
        ONE_BY_THREADS,
        *long_runs(),
        bad,
        bad._replace(name="a bad line with threads", words=THREADS),
        Run("no bytes", [], b"", 1, b"", common.NO_CONNECTION),
    ]


def all_runs(program=common.PROGRAM):
    """Runs of each kind: replays, the help, and command lines that are refused."""
    return [
        *replays(),
        help_run(program),
        Run("a refused option", ["--window", "0"], ONE.data, 2, b"", None),
        Run("a refused first CmdSN", ["--first", "1"], ONE.data, 2, b"", REFUSED_FIRST),
    ]


def answer(run, reads=True, writes=True):
    """Status, output and text of a run whose reads or writes fail. What has nothing to write doesn't fail to write."""
    if run.reads() and not reads:
        return 1, b"", common.READ
    if run.out and not writes:
        return 1, b"", common.WRITE
    return run.status, run.out, run.err


def answer_of_one_command(run, length):
    """What comes of the first bytes of the recording of one command, whose D line isn't needed with threads."""
    if length == 0:
        return 1, b"", common.NO_CONNECTION
    if length < 15:
        return 1, b"", common.bad_line(1)
    if length < 17:
        return 0, b"", b""
    if length < 116:
        return 1, b"", common.bad_line(2)
    if length < 118 and run.words != THREADS:
        return 0, b"".join(run.out.splitlines(True)[:4]), b""
    if 118 <= length < 123:
        return 1, b"", common.bad_line(3)
    return 0, run.out, b""


def entries(report):
    """The parts of a report: each event's line and the lines of its effects."""
    return re.split(rb"(?m)^(?=> )", report)[1:]


def answer_of_front(run, length):
    """What comes of the first bytes of a good recording without `> ` lines. Its report begins with that of the front.

    A `conn`, `C` or `D` line that is cut off before its last byte is a bad one, since none is longer than it must be.
    A line that is passed over stays one.
    """
    front = run.data[:length].split(b"\n")
    last, whole = front[-1], run.data.split(b"\n")[len(front) - 1]
    if last not in (b"", whole) and not last.startswith((b"#", b" ")):
        return 1, b"", common.bad_line(len(front))
    if not any(line.startswith(b"conn ") for line in front):
        return 1, b"", common.NO_CONNECTION
    events = sum(line.startswith((b"C ", b"D ")) for line in front)
    return 0, b"".join(entries(run.out)[:events]), b""


def plain(run, **how):
    """Runs the program with no faults but those of its descriptors."""
    return common.run(run.words, run.data, program=common.PROGRAM, **how)


def injected(run, faults, **how):
    """Runs the program with faults. The counts of the run before are wiped out first, lest they pass for its own."""
    os.pwrite(common.note_file().fileno(), bytes(32), 0)
    return common.run(run.words, run.data, faults, program=common.PROGRAM, **how)


def differs(ran, status, out, err):
    """What is wrong with a run, as common.compare says it, where `err` of None stands for any text."""
    if err is not None:
        return common.compare(ran, status, out, err)
    return common.compare(ran, status, out, ran.err) or ("" if ran.err else "nothing on standard error")


def unfired(ran):
    """What is wrong with a run in which the injector had to refuse something."""
    return "" if ran.note and ran.note.refused > 0 else "the injector refused nothing"


def started(run, **how):
    """Starts the program, whose standard error is kept for `ended`."""
    return subprocess.Popen([str(common.PROGRAM), *run.words], stderr=subprocess.PIPE, **how)


def ended(process, out=b""):
    """What a run came to, of whose output some was read already."""
    try:
        more, err = process.communicate(timeout=common.SECONDS)
    except subprocess.TimeoutExpired:
        process.kill()
        process.communicate()
        return common.Ran(None, b"", b"")
    return common.Ran(process.returncode, out + (more or b""), err)


def file_of(data):
    """An open file of these bytes, without a name, at its beginning."""
    file = tempfile.TemporaryFile()
    file.write(data)
    file.seek(0)
    return file


def content(file):
    """All bytes of an open file."""
    file.seek(0)
    return file.read()


def socket_pair():
    """The descriptors of two sockets that are tied together."""
    return [end.detach() for end in socket.socketpair()]
