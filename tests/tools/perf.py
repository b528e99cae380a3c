"""Captures of iscsi-perf and tgt on the loopback, and what may become of them: packets lost, cut or missing at the beginning."""

import os
import random
import shutil
import struct
import subprocess
import sys
import time

from helpers import TOP

sys.path[:0] = [os.path.join(TOP, "tests", "initiators.d"), os.path.join(TOP, "tools")]
from lib.packets import packets  # noqa: E402
from loopback import Background, Capture, Failed  # noqa: E402

NEEDED = ("tgtd", "tgtadm", "iscsi-perf", "dumpcap")
MISSING = [name for name in NEEDED if not shutil.which(name)]
PORT, CONTROL, NAME = 33297, "97", "iqn.2026-01.example:tgt"
URL = f"iscsi://127.0.0.1:{PORT}/{NAME}/1"
SIZE_MIB, WAIT = 64, 20


class Tgt(Background):
    """A tgt of its own, with a unit in a file."""

    def __init__(self, folder):
        disk = os.path.join(folder, "disk.img")
        with open(disk, "wb") as file:
            file.truncate(SIZE_MIB << 20)
        super().__init__(["tgtd", "-f", "-C", CONTROL, "--iscsi", f"portal=127.0.0.1:{PORT}"], os.path.join(folder, "tgtd.log"))
        target = ["--lld", "iscsi", "--mode", "target", "--tid", "1"]
        try:
            self.control(*target, "--op", "new", "-T", NAME)
            self.control("--lld", "iscsi", "--mode", "logicalunit", "--op", "new", "--tid", "1", "--lun", "1", "-b", disk)
            self.control(*target, "--op", "bind", "-I", "ALL")
        except BaseException:
            self.end()
            raise

    def control(self, *words):
        """Tells tgtd something, once it listens."""
        until = time.monotonic() + WAIT
        while True:
            done = subprocess.run(["tgtadm", "-C", CONTROL, *words], capture_output=True, text=True)
            if not done.returncode:
                return
            if time.monotonic() > until:
                raise Failed(f"tgtadm: {done.stderr.strip()}")
            time.sleep(0.1)


def capture(folder, seconds, initiators):
    """Captures so many iscsi-perf for so many seconds, 32 READs of 4 KiB at once each. The path."""
    with Tgt(folder), Capture(folder, PORT) as taken:
        words = ["iscsi-perf", "-m", "32", "-b", "8", "-t", str(seconds), "-r", URL]
        running = [subprocess.Popen(words, stdout=subprocess.DEVNULL, stderr=subprocess.DEVNULL) for _ in range(initiators)]
        for one in running:
            try:
                one.wait(seconds + WAIT)
            except subprocess.TimeoutExpired:
                one.kill()
                one.wait()
        return taken.finish()


def write(path, kept, most=None):
    """Writes packets as a capture, of each no more than so many bytes."""
    with open(path, "wb") as file:
        file.write(struct.pack("<IHHiIII", 0xa1b23c4d, 2, 4, 0, 0, 1 << 18, 1))
        for one in kept:
            content = one.content[:most]
            seconds, rest = divmod(one.nanoseconds, 10**9)
            file.write(struct.pack("<IIII", seconds, rest, len(content), len(one.content)) + content)
    return path


def spoilt(folder, path):
    """The capture without its first 1,000 packets, without one in a hundred, with 160 bytes of each packet, and with these alone from
    the 1,001st packet on. Gives name and path."""
    found = list(packets(path))
    lost = set(random.Random(6).sample(range(200, len(found)), len(found) // 100))
    yield "late", write(os.path.join(folder, "late.pcap"), found[1000:])
    yield "lossy", write(os.path.join(folder, "lossy.pcap"), [one for place, one in enumerate(found) if place not in lost])
    yield "cut", write(os.path.join(folder, "cut.pcap"), found, 160)
    yield "late-and-cut", write(os.path.join(folder, "late-and-cut.pcap"), found[1000:], 160)
