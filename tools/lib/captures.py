"""Reads a capture: by itself where it is a pcap or pcapng of common links, and else with tshark."""

import os
import struct

from . import tshark
from .frames import segments_of
from .packets import Foreign, packets
from .repairs import repair
from .sessions import find
from .tshark import BadCapture


def sessions_of(path, port=None):
    """The sessions of a capture, and how many connections have none, by why. `port`: the target's, or any."""
    if os.path.isfile(path) and not os.path.getsize(path):
        raise BadCapture(f"{path}: an empty file")
    try:
        sessions, unread = find(segments_of(packets(path)), port)
    except (Foreign, IndexError, struct.error):
        sessions, unread = find(tshark.segments(path, port), port)
    for session in sessions:
        repair(session)
    return sessions, unread


def first_moment(path):
    """When the first packet of a capture came, in nanoseconds since 1970."""
    try:
        return next(packets(path)).nanoseconds
    except (Foreign, StopIteration, IndexError, struct.error):
        return tshark.first_moment(path)
