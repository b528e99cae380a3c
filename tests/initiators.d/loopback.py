"""What the tests over the loopback share: the target, captures of its port, and the ends of all processes."""

import os
import re
import shutil
import signal
import subprocess
import time

TOP = os.path.abspath(os.path.join(os.path.dirname(os.path.realpath(__file__)), "..", ".."))
PROGRAM = os.path.join(TOP, "examples", "target", "target", "release", "target")
NAME = "iqn.2026-01.example.cundarrix:ram"
INITIATOR = os.path.join(TOP, "tests", "lib", "initiator")
TOLD = re.compile(r" at 127\.0\.0\.1:(\d+),")
WAIT_BUILD, WAIT_START, WAIT_END = 170, 30, 20


class Failed(Exception):
    """What a step came to, in one line."""


def missing(*programs):
    """The first of these programs that isn't installed, or None."""
    return next((program for program in programs if not shutil.which(program)), None)


def build_target():
    """Builds the target. Gives why it can't be, or None."""
    done = run(["cargo", "build", "--release", "--offline"], WAIT_BUILD,
               cwd=os.path.join(TOP, "examples", "target"))
    if done.returncode:
        raise Failed(f"cargo build: {last_line(done.stdout)}")


def last_line(text):
    lines = text.strip().splitlines()
    return lines[-1] if lines else "it ended without a word"


def run(words, seconds, **named):
    """Runs a program to its end, with both of its outputs in `stdout`. `Failed` where it takes longer.

    It runs in a group of its own, so that what it starts ends with it.
    """
    with subprocess.Popen(words, stdin=subprocess.DEVNULL, stdout=subprocess.PIPE, stderr=subprocess.STDOUT, text=True,
                          errors="replace", start_new_session=True, **named) as process:
        try:
            output, _ = process.communicate(timeout=seconds)
        except subprocess.TimeoutExpired:
            raise Failed(f"{os.path.basename(words[0])} took longer than {seconds} seconds") from None
        finally:
            end_group(process)
    return subprocess.CompletedProcess(words, process.returncode, output)


def end_group(process):
    """Ends what is left of a process's group."""
    try:
        os.killpg(process.pid, signal.SIGKILL)
    except ProcessLookupError:
        pass


class Background:
    """A process that runs beside others, and is ended by a signal."""

    def __init__(self, words, log, by=signal.SIGTERM):
        self.by = by
        self.log = log
        with open(log, "wb") as output:
            self.process = subprocess.Popen(words, stdin=subprocess.DEVNULL, stdout=output, stderr=subprocess.STDOUT,
                                            start_new_session=True)

    def said(self):
        with open(self.log, encoding="utf-8", errors="replace") as file:
            return file.read()

    def wait_for(self, pattern, seconds):
        """Waits until its output has this. `Failed` where it ends before, or the time is over."""
        end = time.monotonic() + seconds
        while time.monotonic() < end:
            is_over = self.process.poll() is not None
            if found := pattern.search(self.said()):
                return found
            if is_over:
                break
            time.sleep(0.02)
        raise Failed(f"{os.path.basename(self.process.args[0])}: {last_line(self.said())}")

    def end(self):
        """Ends it. Whether it still ran."""
        was_running = self.process.poll() is None
        if was_running:
            self.process.send_signal(self.by)
            try:
                self.process.wait(WAIT_END)
            except subprocess.TimeoutExpired:
                pass
        end_group(self.process)
        self.process.wait()
        return was_running

    def __enter__(self):
        return self

    def __exit__(self, *_):
        self.end()


class Target(Background):
    """The target on a free port of 127.0.0.1, with a trace in its folder."""

    def __init__(self, folder, *options, under=(), program=PROGRAM):
        self.trace = os.path.join(folder, "trace")
        words = [*under, program, "--listen", "127.0.0.1:0", "--name", NAME, "--trace", self.trace, *options]
        super().__init__(words, os.path.join(folder, "target.log"))
        try:
            self.port = int(self.wait_for(TOLD, WAIT_START)[1])
        except BaseException:
            self.end()
            raise

    @property
    def portal(self):
        return f"iscsi://127.0.0.1:{self.port}"

    def url(self, unit=0):
        return f"{self.portal}/{NAME}/{unit}"


class Capture(Background):
    """A capture of a port of the loopback by dumpcap. It is whole once `finish` was called."""

    def __init__(self, folder, port):
        self.path = os.path.join(folder, "run.pcapng")
        words = ["dumpcap", "-q", "-i", "lo", "-s", "0", "-B", "64", "-f", f"tcp port {port}", "-w", self.path]
        super().__init__(words, os.path.join(folder, "dumpcap.log"), by=signal.SIGINT)
        try:
            self.wait_for(re.compile("^File: ", re.MULTILINE), WAIT_START)
        except BaseException:
            self.end()
            raise

    def finish(self):
        """Ends the capture once the last packets are written. `Failed` where packets were dropped."""
        time.sleep(0.5)
        self.end()
        counts = re.search(r"received/dropped on interface .*: (\d+)/(\d+) ", self.said())
        if not counts:
            raise Failed(f"dumpcap: {last_line(self.said())}")
        if int(counts[2]):
            raise Failed(f"dumpcap dropped {counts[2]} packets")
        return self.path


def why_no_capture(folder):
    """Why this machine can't capture the loopback, or None."""
    absent = missing("dumpcap", "tshark")
    if absent:
        return f"there is no {absent}"
    try:
        with Capture(folder, 1):
            return None
    except Failed as why:
        return f"the loopback can't be captured: {why}"
