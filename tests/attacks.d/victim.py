"""The target under attack: a process under a user of its own, what it holds, and the limits that are put on it while it runs."""

import os
import re
import shutil
import subprocess
import sys
import time

sys.path.insert(0, os.path.join(os.path.dirname(os.path.realpath(__file__)), "..", "initiators.d"))
from initiator import Wrong  # noqa: E402
from loopback import Target  # noqa: E402

# Limits on threads don't bind root, so where root runs the tests the target runs as this user.
NOBODY = 65534
TICKS = os.sysconf("SC_CLK_TCK")
# So long the target is quiet before what it holds is looked at, and so long it may take to be.
WAIT_QUIET = 20
UNIT_MIB = 16
# So long, in seconds, the target waits for a login and for a socket that takes nothing; and so long an initiator may be silent, and then leave
# a ping unanswered. Where the target has options for that, it waits less.
USUAL, SHORTER = {"patience": 30, "ping": 30}, {"patience": 6, "ping": 4}


def as_nobody():
    """The words that run a program under a user that limits bind."""
    return ["setpriv", f"--reuid={NOBODY}", f"--regid={NOBODY}", "--clear-groups"] if os.getuid() == 0 else []


def copy_of(program, folder):
    """The program where that user can run it, with a folder that it can write."""
    path = os.path.join(folder, "target")
    shutil.copy(program, path)
    os.chmod(path, 0o755)
    os.chmod(folder, 0o755)
    if os.getuid() == 0:
        os.chown(folder, NOBODY, NOBODY)
    return path


class Deadlines:
    """How long the target waits, by the options that its --help names."""

    def __init__(self, program):
        said = subprocess.run([program, "--help"], stdin=subprocess.DEVNULL, capture_output=True, text=True, timeout=10, check=False).stdout
        known = [name for name in SHORTER if f"--{name} " in said]
        self.patience, self.ping = ((SHORTER if name in known else USUAL)[name] for name in ("patience", "ping"))
        self.options = [word for name in known for word in (f"--{name}", str(SHORTER[name]))]


class Victim(Target):
    """The target on a free port, with small units."""

    def __init__(self, folder, program, deadlines, *options, under=()):
        self.program, self.deadlines = program, deadlines
        super().__init__(folder, "--size", str(UNIT_MIB), *deadlines.options, *options, under=[*as_nobody(), *under], program=program)

    # ---- what it holds

    def status(self, name):
        """A number of /proc/PID/status."""
        with open(f"/proc/{self.process.pid}/status", encoding="ascii") as file:
            return int(re.search(rf"^{name}:\s+(\d+)", file.read(), re.MULTILINE)[1])

    def mebibytes(self):
        """What is resident."""
        return self.status("VmRSS") / 1024

    def threads(self):
        return len(os.listdir(f"/proc/{self.process.pid}/task"))

    def descriptors(self):
        """How many the target has, which is this test's own child."""
        return len(os.listdir(f"/proc/{self.process.pid}/fd"))

    def seconds_of_processor(self):
        """How long its threads have worked that are there."""
        total = 0
        for thread in os.listdir(f"/proc/{self.process.pid}/task"):
            try:
                with open(f"/proc/{self.process.pid}/task/{thread}/stat", encoding="ascii", errors="replace") as file:
                    words = file.read().rpartition(")")[2].split()
            except (FileNotFoundError, ProcessLookupError):
                continue
            total += int(words[11]) + int(words[12])
        return total / TICKS

    def log_length(self):
        return os.path.getsize(self.log)

    def log_lines(self, begin=0):
        """How many lines its log has from a place on."""
        with open(self.log, "rb") as file:
            file.seek(begin)
            return file.read().count(b"\n")

    def held(self):
        return self.threads(), self.descriptors()

    def wait_quiet(self, base):
        """Waits until it has given back all threads and descriptors beyond these. `Wrong` where it doesn't."""
        end = time.monotonic() + WAIT_QUIET
        while time.monotonic() < end:
            self.must_run()
            if all(now <= before for now, before in zip(self.held(), base)):
                return
            time.sleep(0.1)
        raise Wrong(f"it has {self.threads()} threads and {self.descriptors()} descriptors, and before it had {base[0]} and {base[1]}")

    def must_run(self):
        """`Wrong` where it has ended, or a thread of it has panicked."""
        said = self.said()
        if self.process.poll() is not None:
            raise Wrong(f"the target ended with {self.process.returncode}: {said.strip()[-200:]}")
        if "panicked" in said:
            raise Wrong(f"a thread of the target panicked: {said[said.index('panicked'):][:200]!r}")

    # ---- limits

    def limit(self, name, most=None):
        """Sets the soft limit of a resource (nofile, nproc), or sets it back. By a process of its user, which may do that."""
        hard = self.prlimit(f"--{name}", "--output=HARD", "--noheadings").strip()
        self.prlimit(f"--{name}={hard if most is None else most}:{hard}")

    def prlimit(self, *words):
        done = subprocess.run([*as_nobody(), "prlimit", "--pid", str(self.process.pid), *words], stdin=subprocess.DEVNULL, capture_output=True,
                              text=True, timeout=10, check=False)
        if done.returncode:
            raise Wrong(f"prlimit: {done.stderr.strip()}")
        return done.stdout
