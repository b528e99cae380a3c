"""Reads the packets of a capture: pcap with micro- or nanoseconds, and pcapng, of either byte order."""

import mmap
import struct
from dataclasses import dataclass

SECTION, INTERFACE, OLD_PACKET, SIMPLE_PACKET, PACKET = 0x0a0d0d0a, 1, 2, 3, 6
BYTE_ORDER = b"\x1a\x2b\x3c\x4d"
RESOLUTION, END_OF_OPTIONS = 9, 0
NANOSECONDS = 1_000_000_000
# How a file of the old form begins, with its byte order and how many nanoseconds its fractions have.
OLD_FORMS = {
    b"\xd4\xc3\xb2\xa1": ("<", 1000), b"\xa1\xb2\xc3\xd4": (">", 1000),
    b"\x4d\x3c\xb2\xa1": ("<", 1), b"\xa1\xb2\x3c\x4d": (">", 1),
}


class Foreign(Exception):
    """A file of another form, or one with something that isn't read here."""


@dataclass
class Packet:
    """A packet as it was captured: its number, when it came, the type of its link, and as much of it as there is."""
    __slots__ = ("frame", "nanoseconds", "link", "content")
    frame: int
    nanoseconds: int
    link: int
    content: memoryview


def packets(path):
    """Gives the packets of a file. `Foreign` where it has another form; a last one that was cut off is left out."""
    with open(path, "rb") as file:
        begin = file.read(4)
        if begin not in OLD_FORMS and begin != SECTION.to_bytes(4, "big"):
            raise Foreign("neither pcap nor pcapng")
        with mmap.mmap(file.fileno(), 0, access=mmap.ACCESS_READ) as content:
            yield from (of_sections if begin not in OLD_FORMS else of_old_form)(content)


def of_old_form(content):
    """The packets of a pcap file."""
    order, fraction = OLD_FORMS[content[:4]]
    if len(content) < 24:
        return
    link = struct.unpack_from(f"{order}I", content, 20)[0] & 0x0fffffff
    head = struct.Struct(f"{order}IIII")
    place, frame = 24, 0
    while place + 16 <= len(content):
        seconds, rest, kept, _ = head.unpack_from(content, place)
        place += 16
        if place + kept > len(content):
            return
        frame += 1
        yield Packet(frame, seconds * NANOSECONDS + rest * fraction, link, content[place:place + kept])
        place += kept


def of_sections(content):
    """The packets of a pcapng file: blocks, in sections that have a byte order and interfaces of their own."""
    place, frame, order, interfaces = 0, 0, "<", []
    while place + 12 <= len(content):
        if content[place:place + 4] == SECTION.to_bytes(4, "big"):
            order, interfaces = "<" if content[place + 8:place + 12] == BYTE_ORDER[::-1] else ">", []
        kind, length = struct.unpack_from(f"{order}II", content, place)
        if length < 12 or length % 4:
            raise Foreign(f"a block of {length} bytes")
        if place + length > len(content):
            return
        if kind == INTERFACE:
            interfaces.append(interface_of(content, place, length, order))
        elif kind in (PACKET, OLD_PACKET, SIMPLE_PACKET):
            frame += 1
            yield packet_of(content, place, length, order, kind, interfaces, frame)
        place += length


def interface_of(content, place, length, order):
    """The type of an interface's link, how many units its clock counts in a second, and how much of a packet it keeps."""
    link, _, kept = struct.unpack_from(f"{order}HHI", content, place + 8)
    units, at, end = 1_000_000, place + 16, place + length - 4
    while at + 4 <= end:
        code, size = struct.unpack_from(f"{order}HH", content, at)
        if code == END_OF_OPTIONS:
            break
        if code == RESOLUTION and size == 1:
            exponent = content[at + 4]
            units = 1 << (exponent & 0x7f) if exponent & 0x80 else 10 ** exponent
        at += 4 + (size + 3) // 4 * 4
    return link, units, kept


def packet_of(content, place, length, order, kind, interfaces, frame):
    """The packet of a block."""
    if kind == SIMPLE_PACKET:
        index, begin, stamp = 0, place + 12, 0
        whole, = struct.unpack_from(f"{order}I", content, place + 8)
        kept = min(whole, length - 16)
    else:
        index, high, low, kept, _ = struct.unpack_from(f"{order}IIIII" if kind == PACKET else f"{order}HxxIIII",
                                                       content, place + 8)
        begin, stamp = place + 28, high << 32 | low
    if index >= len(interfaces) or begin + kept > place + length:
        raise Foreign("a block whose sizes don't fit")
    link, units, most = interfaces[index]
    if kind == SIMPLE_PACKET and most:
        kept = min(kept, most)
    return Packet(frame, stamp * NANOSECONDS // units, link, content[begin:begin + kept])
