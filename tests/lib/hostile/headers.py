"""Headers of requests and of replies, as docs/FORMATS.md has them, in hexadecimal digits."""

SIMPLE, ORDERED, HEAD = 1, 2, 3
ABORT_TASK, ABORT_TASK_SET, LOGICAL_UNIT_RESET, QUERY_TASK = 1, 2, 5, 9
NUMBERED, IMMEDIATE = 0x00, 0x40
NO_TAG = 0xFFFFFFFF
CHECK_CONDITION = 2
# HARDWARE ERROR, INTERNAL TARGET FAILURE, which goes with a unit's CHECK CONDITION
UNIT_SENSE = "0012700004000000000a00000000440000000000"


def header(*fields):
    """48 bytes of fields, each a place, a length and a number."""
    made = bytearray(48)
    for place, length, number in fields:
        made[place : place + length] = number.to_bytes(length, "big")
    return made.hex()


def command(sn, tag, unit=0, attr=SIMPLE):
    """A SCSI Command, whose CDB begins and ends with its tag."""
    flags = (0, 1, 0x01), (1, 1, 0x80 | attr)
    return header(*flags, (9, 1, unit), (16, 4, tag), (24, 4, sn), (32, 4, tag), (44, 4, tag))


def function(sn, tag, code, unit=0, referenced=NO_TAG, how=IMMEDIATE):
    """A task management function, of a unit's set or of the command with a tag."""
    flags = (0, 1, 0x02 | how), (1, 1, 0x80 | code)
    return header(*flags, (9, 1, unit), (16, 4, tag), (20, 4, referenced), (24, 4, sn))


def abort_task(sn, tag, referenced, unit=0, how=IMMEDIATE):
    """An ABORT TASK of the command with a tag."""
    return function(sn, tag, ABORT_TASK, unit, referenced, how)


def logout(sn, tag, reason, cid):
    """An immediate Logout Request: reason 0 closes the session, and 1 the connection with the CID."""
    return header((0, 1, 0x06 | IMMEDIATE), (1, 1, 0x80 | reason), (16, 4, tag), (20, 2, cid), (24, 4, sn))


def nop_out(sn, tag):
    """A NOP-Out that asks for an answer."""
    return header((1, 1, 0x80), (16, 4, tag), (20, 4, NO_TAG), (24, 4, sn))


def reply(opcode, tag, numbers, response=0, status=0, data=""):
    """A reply with its StatSN, ExpCmdSN and MaxCmdSN, and the digits of its data."""
    stat, exp, most = numbers
    flags = (0, 1, opcode), (1, 1, 0x80), (2, 1, response), (3, 1, status), (5, 3, len(data) // 2)
    return header(*flags, (16, 4, tag), (24, 4, stat), (28, 4, exp), (32, 4, most)) + data


def scsi_response(tag, numbers, status=0):
    return reply(0x21, tag, numbers, status=status, data=UNIT_SENSE if status == CHECK_CONDITION else "")


def task_response(tag, numbers, response=0):
    return reply(0x22, tag, numbers, response=response)


def logout_response(tag, numbers, response=0):
    return reply(0x26, tag, numbers, response=response)
