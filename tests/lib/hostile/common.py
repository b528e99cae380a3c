"""What the classes of faults share: running a program with a fault injected, and counting what came of it."""

import os
import struct
import subprocess
import tempfile
from pathlib import Path
from typing import NamedTuple, Optional

TOP = Path(__file__).resolve().parents[3]
CASES = TOP / "tests" / "cases"
# The recordings of examples/, by their names.
EXAMPLES = {path.stem: path for folder in ("examples", "examples/recordings") for path in (TOP / folder).glob("*.recording")}
PROGRAM = TOP / "out" / "bin" / "iscsi_replay"
DRIVER = TOP / "crates" / "check_faults" / "out" / "check_faults"
# Where tests/faults leaves the injector.
INJECTOR = TOP / "crates" / "check_faults" / "out" / "injector.so"
# No run of these programs takes as long, unless a thread waits for ever.
SECONDS = 60

NO_MEMORY = b"iscsi-replay: out of memory\n"
NO_THREAD = b"iscsi-replay: a worker could not be started\n"
READ = b"iscsi-replay: the input could not be read\n"
WRITE = b"iscsi-replay: the output could not be written\n"
NO_CONNECTION = b"iscsi-replay: no connection line\n"
TOO_MANY_LINES = b"iscsi-replay: more than 1048576 lines\n"


def bad_line(number):
    return b"iscsi-replay: line %d: not a line of a recording\n" % number


def too_long(number):
    return b"iscsi-replay: line %d: longer than 256 bytes\n" % number


class Note(NamedTuple):
    """What the injector counted: requests for memory, threads begun and ended, and what was refused."""

    allocs: int
    threads: int
    ended: int
    refused: int


class Ran(NamedTuple):
    """What a run came to. The status is None where the run didn't end in time, and negative for a signal."""

    status: Optional[int]
    out: bytes
    err: bytes
    note: Optional[Note] = None


class NotBuilt(Exception):
    """Why a program couldn't be built."""


def must(words, stdin=subprocess.DEVNULL, **how):
    """Runs a command that must end well."""
    ran = subprocess.run(words, stdin=stdin, stdout=subprocess.PIPE, stderr=subprocess.STDOUT, text=True, **how)
    if ran.returncode != 0:
        raise NotBuilt("\n".join([*ran.stdout.split("\n")[-20:], f"{' '.join(words)}: failed"]))


def is_current(program):
    """Whether a program is there, and no source is newer."""
    if not program.exists():
        return False
    built = program.stat().st_mtime
    parts = [path for part in ("src", "specs", "proofs") for path in TOP.glob(f"crates/*/{part}")]
    sources = [TOP / "crates.txt", *(path for part in parts for path in [part, *part.rglob("*")])]
    return all(path.stat().st_mtime <= built for path in sources)


def build():
    """Looks whether the program is built, and builds the driver where it is missing or older than its sources."""
    must([str(TOP / "iscsi-replay"), "--built", "--help"])
    if is_current(DRIVER):
        return
    driver = DRIVER.parents[1]
    words = (driver / "args").read_text().split()
    with (driver / "stdin").open() as script:
        must(["rt", "run", "--", *words], cwd=driver, stdin=script)


class Tally:
    """A class of faults: how many were injected, and which were lost, with what was wrong."""

    def __init__(self, name, floor):
        self.name = name
        self.floor = floor
        self.count = 0
        self.lost = []

    def judge(self, what, wrong):
        """Counts a fault. `wrong` says what was wrong, and is empty where all was well."""
        self.count += 1
        if wrong:
            self.lost.append(f"{what}: {wrong}")


def run(words=(), data=b"", inject=None, program=None, **how):
    """Runs a program on some bytes, with the faults of `inject`, as {"ALLOC": 3}, whose names injector.c has."""
    environment = dict(os.environ)
    note = None
    if inject is not None:
        note = note_file()
        os.pwrite(note.fileno(), bytes(32), 0)
        environment["LD_PRELOAD"] = str(INJECTOR)
        environment["INJECT_NOTE"] = note.name
        environment.update({f"INJECT_{name}": str(value) for name, value in inject.items()})
    how = {"stdout": subprocess.PIPE, "stderr": subprocess.PIPE, "timeout": SECONDS, **how}
    if "stdin" not in how:
        how["input"] = data
    try:
        ran = subprocess.run([str(program or PROGRAM), *words], env=environment, **how)
    except subprocess.TimeoutExpired as late:
        return Ran(None, late.stdout or b"", late.stderr or b"")
    counts = Note(*struct.unpack("4q", os.pread(note.fileno(), 32, 0))) if note else None
    return Ran(ran.returncode, ran.stdout or b"", ran.stderr or b"", counts)


_note = None


def note_file():
    """The file in which the injector counts, one for each process of the tests."""
    global _note
    if _note is None:
        _note = tempfile.NamedTemporaryFile()
        _note.write(bytes(4096))
        _note.flush()
    return _note


def words_of(case):
    """The words of a case's command line."""
    args = case / "args"
    return args.read_text().split("\n")[:-1] if args.exists() else []


def compare(ran, status, out, err):
    """What is wrong with a run that must end with this status, output and text on standard error; else nothing."""
    if ran.status is None:
        return "it didn't end"
    wrong = []
    if ran.status != status:
        wrong.append(f"status {ran.status}, not {status}")
    if ran.out != out:
        wrong.append(f"another standard output, {len(ran.out)} bytes in place of {len(out)}")
    if ran.err != err:
        wrong.append(f"on standard error {ran.err[-200:]!r}, not {err[-200:]!r}")
    return "; ".join(wrong)
