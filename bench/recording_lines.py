"""The lines of a recording. Numbers are CmdSNs, and the tag is the initiator task tag."""

SIMPLE, ORDERED, HEAD = 1, 2, 3
ABORT_TASK, ABORT_TASK_SET, CLEAR_TASK_SET, LOGICAL_UNIT_RESET, QUERY_TASK, QUERY_TASK_SET = 1, 2, 4, 5, 9, 10


def connection(cid):
    return f"conn {cid} 00000001\n"


def command(rng, conn, number, tag, unit, attribute=SIMPLE):
    """A READ (10) of eight blocks somewhere."""
    lun = f"00{unit:02x}000000000000"
    cdb = f"2800{rng.getrandbits(32):08x}00000800{0:012d}"
    return f"C {conn} 01{0x80 | attribute:02x}{0:012d}{lun}{tag:08x}00001000{number:08x}00000001{cdb}\n"


def function(conn, kind, number, tag, unit, referenced_tag=0xffffffff, referenced_number=0, immediate=True):
    """A task management function request."""
    opcode = 0x42 if immediate else 0x02
    lun = f"00{unit:02x}000000000000"
    return (f"C {conn} {opcode:02x}{0x80 | kind:02x}{0:012d}{lun}{tag:08x}{referenced_tag:08x}{number:08x}00000001"
            f"{referenced_number:08x}{0:024d}\n")


def completion(ticket):
    return f"D {ticket} 00\n"
