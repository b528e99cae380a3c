"""Reads a capture with tshark: the TCP segments of one port or of all, in the order of their frames."""

import shutil
import subprocess
import tempfile

from .frames import Segment
from .packets import NANOSECONDS

FIELDS = ("frame.number", "frame.time_relative", "tcp.stream", "tcp.srcport", "tcp.dstport", "tcp.seq_raw", "tcp.ack_raw",
          "tcp.flags.syn", "tcp.flags.ack", "tcp.len", "tcp.payload")


class BadCapture(Exception):
    """A capture of which no recording can be made, in one line."""


def segment_of(line):
    """The segment of a line of tshark's. A SYN takes a sequence number, so the first byte has the next one."""
    frame, time, stream, source, target, sequence, other, begins, has_other, length, payload = line.rstrip("\n").split("\t")
    begins = begins in ("1", "True")
    payload = bytes.fromhex(payload)
    return Segment(int(frame), float(time), (stream, int(source)), (stream, int(target)), (int(sequence) + begins) % 2**32, begins,
                   payload, max(0, int(length) - len(payload)), int(other) if has_other in ("1", "True") else None)


def first_moment(path):
    """When the first packet of a capture came, in nanoseconds since 1970."""
    done = subprocess.run(["tshark", "-n", "-r", path, "-c", "1", "-T", "fields", "-e", "frame.time_epoch"],
                          capture_output=True, text=True)
    seconds, _, fraction = done.stdout.strip().partition(".")
    if not (seconds.isdecimal() and fraction.isdecimal()):
        raise BadCapture(f"{path}: its first frame has no time")
    return int(seconds) * NANOSECONDS + int(fraction.ljust(9, "0")[:9])


def command_line(path, port):
    """The words that start tshark. An ICMP error repeats the header of a segment; it is none. One without bytes may be the last."""
    wanted = "tcp && !icmp && !icmpv6" + (f" && tcp.port == {port}" if port else "")
    words = ["tshark", "-n", "-r", path, "-o", "tcp.desegment_tcp_streams:FALSE", "-Y", wanted, "-T", "fields",
             "-E", "separator=/t", "-E", "occurrence=f"]
    return words + [word for field in FIELDS for word in ("-e", field)]


def complaint(text):
    """The last line of tshark's own, without its name."""
    lines = [line for line in text.splitlines() if line.startswith("tshark: ")]
    return lines[-1].removeprefix("tshark: ").rstrip(".") if lines else "tshark could not read it"


def segments(path, port=None):
    """Gives the segments from and to a TCP port, or all. `BadCapture` where tshark is missing or can't read the file.

    A capture whose last packet was cut off is read up to it.
    """
    if not shutil.which("tshark"):
        raise BadCapture(f"{path}: no pcap or pcapng of a common kind, and tshark is missing, which may read it: install it with "
                         "'apt-get install tshark' (or your system's Wireshark package)")
    with tempfile.TemporaryFile("w+", errors="replace") as errors, \
            subprocess.Popen(command_line(path, port), stdout=subprocess.PIPE, stderr=errors, text=True) as process:
        try:
            for line in process.stdout:
                yield segment_of(line)
        except BaseException:
            process.kill()
            raise
        process.wait()
        errors.seek(0)
        why = complaint(errors.read())
    if process.returncode and "cut short" not in why:
        raise BadCapture(f"{path}: {why}")
