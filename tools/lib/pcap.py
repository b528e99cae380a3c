"""A capture of TCP streams over IPv4 and Ethernet (the classic pcap format), put together from their payloads."""

import struct
from dataclasses import dataclass

MAGIC, ETHERNET, SNAP_LENGTH = 0xa1b2c3d4, 1, 65535
IPV4, TCP = 0x0800, 6
SYN, PUSH, ACK = 2, 8, 16
WINDOW = 65535


def checksum(content):
    """The checksum of the internet protocols (RFC 1071)."""
    content += b"\0" * (len(content) % 2)
    total = sum(struct.unpack(f">{len(content) // 2}H", content))
    while total >> 16:
        total = (total & 0xffff) + (total >> 16)
    return total ^ 0xffff


@dataclass
class Side:
    """One side of a stream: its addresses, and the number of its next byte."""
    hardware: bytes
    address: bytes
    port: int
    sequence: int = 0


def segment(source, target, flags, payload):
    """A TCP segment with its checksum, that of the pseudo header too."""
    acknowledged = target.sequence if flags & ACK else 0
    head = struct.pack(">HHIIBBHHH", source.port, target.port, source.sequence, acknowledged, 5 << 4,
                       flags, WINDOW, 0, 0)
    pseudo = source.address + target.address + struct.pack(">BBH", 0, TCP, len(head) + len(payload))
    return head[:16] + struct.pack(">H", checksum(pseudo + head + payload)) + head[18:] + payload


def frame(source, target, flags, payload=b""):
    """An Ethernet frame with a segment. The source's number goes on by what it sent."""
    content = segment(source, target, flags, payload)
    head = struct.pack(">BBHHHBBH", 0x45, 0, 20 + len(content), 0, 0x4000, 64, TCP, 0) + source.address + target.address
    head = head[:10] + struct.pack(">H", checksum(head)) + head[12:]
    source.sequence = (source.sequence + len(payload) + (1 if flags & SYN else 0)) % (1 << 32)
    return target.hardware + source.hardware + struct.pack(">H", IPV4) + head + content


def handshake(opener, listener):
    """The three frames that open a stream."""
    return [frame(opener, listener, SYN), frame(listener, opener, SYN | ACK), frame(opener, listener, ACK)]


def file_header():
    return struct.pack(">IHHiIII", MAGIC, 2, 4, 0, 0, SNAP_LENGTH, ETHERNET)


def record(microseconds, content):
    """A frame as it stands in the file."""
    return struct.pack(">IIII", *divmod(microseconds, 1000000), len(content), len(content)) + content
