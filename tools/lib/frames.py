"""Finds the TCP segment in a packet: through Ethernet, VLAN tags, Linux's cooked forms, the loopback's and none, and IPv4 or IPv6."""

from dataclasses import dataclass

from .packets import NANOSECONDS, Foreign

ETHERNET, COOKED, COOKED_2, NULL, LOOP = 1, 113, 276, 0, 108
RAW = (12, 14, 101, 228, 229)
IPV4, IPV6, TAGS = 0x0800, 0x86dd, (0x8100, 0x88a8, 0x9100)
LONGEST = 999_999_999.0
TCP, EXTENSIONS, FRAGMENT = 6, (0, 43, 60, 135), 44
FIN, SYN, RST, ACK = 1, 2, 4, 16


@dataclass
class Segment:
    """What one frame carries of a connection: `sequence` is the 32-bit number of its first byte, `missing` how many bytes at its
    end were captured no more, and `acknowledged` the number up to which its sender has the other side's, or None.
    """
    __slots__ = ("frame", "time", "source", "target", "sequence", "begins", "payload", "missing", "acknowledged")
    frame: int
    time: float
    source: tuple
    target: tuple
    sequence: int
    begins: bool
    payload: bytes
    missing: int
    acknowledged: int


def segments_of(packets):
    """Gives the TCP segments of these packets, with the time since the first packet. `Foreign` at what isn't read here."""
    begin = None
    for packet in packets:
        if begin is None:
            begin = packet.nanoseconds
        found = segment_of(packet, begin)
        if found:
            yield found


def segment_of(packet, begin):
    """The segment of a packet, or None."""
    content = packet.content
    place, kind = behind_link(packet.link, content)
    if kind == IPV4:
        found = in_ipv4(content, place)
    elif kind == IPV6:
        found = in_ipv6(content, place)
    else:
        return None
    if not found:
        return None
    place, end, source, target = found
    return in_tcp(packet, place, end, source, target, begin)


def number(content, place, size=2):
    return int.from_bytes(content[place:place + size], "big")


def behind_link(link, content):
    """Where the packet of the network begins, and of which kind it is."""
    if link == ETHERNET:
        place, kind = 14, number(content, 12)
    elif link == COOKED:
        place, kind = 16, number(content, 14)
    elif link == COOKED_2:
        place, kind = 20, number(content, 0)
    elif link in (NULL, LOOP):
        return 4, {4: IPV4, 6: IPV6}.get(content[4] >> 4 if len(content) > 4 else 0)
    elif link in RAW:
        return 0, {4: IPV4, 6: IPV6}.get(content[0] >> 4 if content else 0)
    else:
        raise Foreign(f"links of type {link}")
    while kind in TAGS:
        kind = number(content, place + 2)
        place += 4
    return place, kind


def in_ipv4(content, place):
    """Where the segment of an IPv4 packet begins and ends, and its addresses. Where the length is 0, the card cut the packet
    into smaller ones later, so it is as long as what was captured."""
    if len(content) < place + 20 or content[place + 9] != TCP:
        return None
    if number(content, place + 6) & 0x3fff:
        raise Foreign("IPv4 fragments")
    length = number(content, place + 2)
    end = place + length if length else len(content)
    return place + 4 * (content[place] & 15), end, content[place + 12:place + 16], content[place + 16:place + 20]


def in_ipv6(content, place):
    """The same of an IPv6 packet."""
    if len(content) < place + 40:
        return None
    length, following = number(content, place + 4), content[place + 6]
    source, target = content[place + 8:place + 24], content[place + 24:place + 40]
    place += 40
    end = place + length if length else len(content)
    while following in EXTENSIONS and len(content) >= place + 8:
        following, place = content[place], place + 8 * (content[place + 1] + 1)
    if following == FRAGMENT:
        raise Foreign("IPv6 fragments")
    return (place, end, source, target) if following == TCP else None


def since(begin, moment):
    """The seconds since the first packet. A clock that went back, or wildly ahead, is held at the limits."""
    return min(max(0, moment - begin) / NANOSECONDS, LONGEST)


def in_tcp(packet, place, end, source, target, begin):
    """The segment that begins here. A SYN takes a sequence number, so the first byte has the next one."""
    content = packet.content
    if len(content) < place + 20:
        return None
    flags = content[place + 13]
    data = place + 4 * (content[place + 12] >> 4)
    begins = bool(flags & SYN)
    payload = content[data:end]
    return Segment(packet.frame, since(begin, packet.nanoseconds), (source, number(content, place)),
                   (target, number(content, place + 2)), (number(content, place + 4, 4) + begins) % 2**32, begins, payload,
                   max(0, end - data - len(payload)), number(content, place + 8, 4) if flags & ACK else None)
