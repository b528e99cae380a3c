"""Malformed lines, recordings cut off at each byte, and floods of requests, by docs/FORMATS.md."""

import os
import re
import threading
from functools import partial
from typing import NamedTuple

from hostile import common, plain_reader
from hostile.common import NO_CONNECTION, TOO_MANY_LINES, bad_line, too_long

THREADS = "--threads"
# The tag that names no task.
NO_TAG = 0xFFFFFFFF


class Row(NamedTuple):
    """An input and what must come of it: a fault, or else a report, which may be another one with threads."""

    what: str
    data: bytes
    fault: bytes = b""
    report: bytes = b""
    threaded: bytes = b""


def request(opcode, second, tag, number, referenced=0):
    """The digits of a request for unit 0, by docs/FORMATS.md section 1."""
    return b"%02x%02x%028x%08x%08x%08x%040x" % (opcode, second, 0, tag, referenced, number, 0)


def reply(opcode, tag, numbers, reason=0, length=0, target_tag=0):
    """The digits of a reply's header, by docs/FORMATS.md section 3. The numbers are StatSN, ExpCmdSN and MaxCmdSN."""
    stat, exp, most = numbers
    words = b"%08x%08x%08x%08x%08x" % (tag, target_tag, stat, exp, most)
    return b"%02x80%02x00%08x%016x%s%024x" % (opcode, reason, length, 0, words, 0)


def command(tag, number):
    """A numbered SCSI Command, SIMPLE."""
    return request(0x01, 0x81, tag, number)


def nop_out(tag, number):
    """A numbered NOP-Out that asks for an answer."""
    return request(0x00, 0x80, tag, number, NO_TAG)


def nop_in(tag, numbers):
    """The answer to a NOP-Out."""
    return reply(0x20, tag, numbers, target_tag=NO_TAG)


CONN = b"conn 1 00000001\n"
HEADER = command(0xA1, 1)
ONE_COMMAND = (common.CASES / "one-command" / "recording").read_bytes()
REPORT = (common.CASES / "one-command" / "report").read_bytes()
# The report of one-command up to its completion.
ARRIVED = b"".join(REPORT.splitlines(True)[:4])

# The first bytes of one-command: how many, the fault, the report, and the report with threads, whose units answer the
# command themselves.
FRONTS = [
    (range(0, 1), NO_CONNECTION, b"", b""),
    (range(1, 15), bad_line(1), b"", b""),
    (range(15, 17), b"", b"", b""),
    (range(17, 116), bad_line(2), b"", b""),
    (range(116, 118), b"", ARRIVED, REPORT),
    (range(118, 123), bad_line(3), b"", b""),
    (range(123, 125), b"", REPORT, REPORT),
]

# Each is no line of a recording, as the first line and before any other reason to refuse it.
BAD_FIRST_LINES = [
    b"conn", b"conn ", b"conn 1", b"conn 1 ", b"conn  00000001", b"conn 00000001", b"conn 1 00000001 00000001",
    b"conn 65536 00000001", b"conn 99999 00000001", b"conn 4294967297 00000001", b"conn 18446744073709551617 00000001",
    b"conn 00 00000001", b"conn 01 00000001", b"conn -1 00000001", b"conn +1 00000001", b"conn 0x1 00000001",
    b"conn a 00000001", b"conn 1, 00000001",
    b"conn 1 0000000g", b"conn 1 0000001", b"conn 1 000000001", b"conn 1 0x000001", b"conn 1 -0000001",
    b"conn 1 00000001\r", b"conn 1 00000001 ", b"conn 1 00000001\t", b"conn 1 00000001\0", b"conn 1 00000001 # one",
    b"conn  1 00000001", b"conn 1  00000001", b"conn\t1\t00000001", b"conn 1\t00000001", b"conn\t1 00000001",
    b"conn 1 00000001".replace(b" ", b"\0"),
    b"\tconn 1 00000001", b"\rconn 1 00000001", b"\0conn 1 00000001", b"\x0bconn 1 00000001",
    b"Conn 1 00000001", b"CONN 1 00000001", b"conn1 00000001", b"connection 1 00000001",
    b"> conn 1 00000001", b">conn 1 00000001",
    "conn \u0661 00000001".encode(), "conn \uff11 00000001".encode(), "conn\u00a01\u00a000000001".encode(),
    "\ufeffconn 1 00000001".encode(), "conn 1 00000001".encode("utf-16"), "conn 1 00000001".encode("utf-16-le"),
    "conn 1 00000001".encode("utf-16-be"),
    b"\0", b"\0" * 256, b"\xff", b"\xff" * 256, b"\t", b"\r", b"\x0b", b"\x0c", b"\x1a", b"0", b";", b"//",
    b"C 1 " + HEADER, b"> C 1 " + HEADER, b"C 0 " + HEADER, b"D 1", b"E 1 00",
]

# Each is no line of a recording after the line of connection 1.
BAD_NEXT_LINES = [
    b"C 1 " + HEADER[:-1], b"C 1 " + HEADER[:-2], b"C 1 " + HEADER + b"0", b"C 1 " + HEADER + b"00",
    b"C 1 " + HEADER[:-1] + b"g", b"C 1 " + HEADER[:-1] + b"\0", b"C 1 0x" + HEADER[2:],
    b"C 1 " + HEADER[:-2] + "\u0660".encode(), b"C 1 " + HEADER[:48] + b" " + HEADER[48:],
    b"C 1 " + HEADER + b"\r", b"C 1 " + HEADER + b" ", b"C 1 " + HEADER + b"\t", b"C 1 " + HEADER + b"\0",
    b"C  1 " + HEADER, b"C 1  " + HEADER, b"C\t1 " + HEADER, b"C 1\t" + HEADER, b"C1 " + HEADER, b"c 1 " + HEADER,
    b"C 0 " + HEADER, b"C 2 " + HEADER, b"C 01 " + HEADER, b"C 10 " + HEADER, b"C 65537 " + HEADER,
    b"C 18446744073709551617 " + HEADER, b"C -1 " + HEADER, b"C", b"C ", b"C 1", b"C 1 ", b"C " + HEADER,
    (b"C 1 " + HEADER).ljust(256),
    b"D 18446744073709551616 00", b"D 18446744073709551617 00", b"D 99999999999999999999 00",
    b"D 340282366920938463463374607431768211457 00", b"D " + b"1" * 251 + b" 00",
    b"D 01 00", b"D 00 00", b"D -1 00", b"D +1 00", b"D 0x1 00", b"D 1.0 00", b"D a 00",
    b"D", b"D ", b"D 1", b"D 1 ", b"D 1 0", b"D 1 000", b"D 1 0g", b"D 1 +0", b"D 1 0 0", b"D  00",
    b"D 1 00 ", b"D 1 00\r", b"D 1 00\t", b"D 1 00\0", b"D 1  00", b"D  1 00", b"D\t1\t00", b"d 1 00", b"\tD 1 00",
    b">", b"> ", b"> >", b"> #", b"> conn", b"> conn 2 00000001", b"> > C 1 " + HEADER, b"> > D 1 00",
    b">C 1 " + HEADER, b">  C 1 " + HEADER, b">\tC 1 " + HEADER, b">> C 1 " + HEADER, b"> c 1 " + HEADER,
    b">D 1 00", b">  D 1 00", b">\tD 1 00", b"> D 1 00\r", b"> D 1 00 ", b"> D 01 00", b"> C 2 " + HEADER,
    b"conn 1 00000001", b"conn 1 00000002", b"conn 2 0000000g", b"conn 65536 00000001",
    b"\0", b"\xff", b"\t", b"\r", b"\xef\xbb\xbf", b"\xef\xbb\xbfD 1 00", b"deliver 1 00000001 000000a1",
]

# What may follow a bad line without changing the fault.
ENDS = [b"", b"\n", b"\n" + ONE_COMMAND, b"\n" + b"#" * 257]

# What the next byte, or the next fault, is after as many lines as there may be.
AFTER_ALL_LINES = [b"\n", b"#", b"x", b"\0", b"#" * 257, CONN, b"conn 1 0000000g\n", b"\n" * 70000]


def connections(count):
    """The lines of connections 1 to a number."""
    return b"".join(b"conn %d 00000001\n" % cid for cid in range(1, count + 1))


REFUSED = [
    ("65 connections", connections(65), bad_line(65)),
    ("65 connections, the last one of them again", connections(64) + CONN, bad_line(65)),
    ("65 connections, without the last end", connections(65)[:-1], bad_line(65)),
    ("a ticket that is too great", b"conn 65535 00000001\nD 18446744073709551616 00\n", bad_line(2)),
    ("a ticket with a zero before it", b"conn 65535 00000001\nD 01 00\n", bad_line(2)),
    ("a connection after a completion", CONN + b"D 1 00\nconn 2 00000001\n", bad_line(3)),
    ("a connection after an event of a report", CONN + b"> D 1 00\nconn 2 00000001\n", bad_line(3)),
    ("a connection after an arrival", CONN + b"C 1 " + HEADER + b"\n\nconn 2 00000001\n", bad_line(4)),
    ("a completion before the connection", b"D 1 00\n" + CONN, bad_line(2)),
    ("an arrival before its connection", b"conn 2 00000001\nC 1 " + HEADER + b"\n" + CONN, bad_line(2)),
    ("a completion alone", b"D 1 00\n", NO_CONNECTION),
    ("lines that are passed over", b"# conn 1 00000001\n conn 1 00000001\n\n#", NO_CONNECTION),
    ("a report alone", REPORT, bad_line(1)),
    ("a report before its connection", REPORT + CONN, bad_line(1)),
    ("two reports with their connections", 2 * (CONN + REPORT), bad_line(9)),
    ("one-command with CR LF", ONE_COMMAND.replace(b"\n", b"\r\n"), bad_line(1)),
    ("one-command with CR", ONE_COMMAND.replace(b"\n", b"\r"), bad_line(1)),
    ("one-command with NUL in place of LF", ONE_COMMAND.replace(b"\n", b"\0"), bad_line(1)),
    ("one-command with CR LF once", ONE_COMMAND[:-1] + b"\r\n", bad_line(3)),
    ("one-command as UTF-16", ONE_COMMAND.decode().encode("utf-16-le"), bad_line(1)),
    ("a remark and one-command as UTF-16", ("#\n" + ONE_COMMAND.decode()).encode("utf-16-le"), bad_line(2)),
    ("a remark with a mark of byte order", b"\xef\xbb\xbf#\n" + ONE_COMMAND, bad_line(1)),
    ("257 bytes #", b"#" * 257, too_long(1)),
    ("257 bytes # and an end", b"#" * 257 + b"\n" + ONE_COMMAND, too_long(1)),
    ("257 bytes # at the end", ONE_COMMAND + b"#" * 257, too_long(4)),
    ("257 blanks", CONN + b" " * 257 + b"\n", too_long(2)),
    ("257 bytes ff", b"\xff" * 257, too_long(1)),
    ("257 bytes NUL", b"\0" * 257, too_long(1)),
    ("many bytes ff", b"\xff" * 1000000, too_long(1)),
    ("a connection and blanks up to 257 bytes", CONN[:-1].ljust(257) + b"\n", too_long(1)),
    ("an arrival and blanks up to 257 bytes", CONN + (b"C 1 " + HEADER).ljust(257) + b"\n", too_long(2)),
    ("a ticket up to 257 bytes", CONN + b"D " + b"1" * 252 + b" 00", too_long(2)),
    ("a bad line before a long one", b"x\n" + b"#" * 257, bad_line(1)),
    ("a long line before a bad one", b"#" * 257 + b"\nx\n", too_long(1)),
    ("a bad line before too many", b"x" + b"\n" * 1048577, bad_line(1)),
    ("1048576 line ends", b"\n" * 1048576, NO_CONNECTION),
    ("a bad line as line 1048576", b"\n" * 1048575 + b"x", bad_line(1048576)),
    ("a long line as line 1048576", b"\n" * 1048575 + b"#" * 257, too_long(1048576)),
    ("a recording and a line too many", ONE_COMMAND + b"\n" * 1048574, TOO_MANY_LINES),
]

GREATEST = b"D 18446744073709551615 00\n"
# What a NOP-Out with CmdSN 1 gives as the only event, with a window of 32.
PINGED = b"> C %d %s\n  deliver %d 00000001 000000b1\n  send %d %s\n"


def pinged(cid, first):
    """The report of a NOP-Out on a connection with this first StatSN."""
    return PINGED % (cid, nop_out(0xB1, 1), cid, cid, nop_in(0xB1, (first, 2, 33)))


def ping(cid):
    """The line of that NOP-Out."""
    return b"C %d %s\n" % (cid, nop_out(0xB1, 1))


ANY_BYTES = b"#" + bytes(byte for byte in range(256) if byte != 0x0A)
# Inputs that are recordings, their reports, and their reports with threads.
REPLAYED = [
    ("256 bytes #", b"#" * 256 + b"\n" + ONE_COMMAND, REPORT, REPORT),
    ("256 bytes # at the end", ONE_COMMAND + b"#" * 256, REPORT, REPORT),
    ("256 blanks", b" " * 256 + b"\n" + ONE_COMMAND, REPORT, REPORT),
    ("a remark of all other bytes", ANY_BYTES + b"\n" + ONE_COMMAND, REPORT, REPORT),
    ("all other bytes after a blank", CONN + b" " + ANY_BYTES[1:] + b"\n" + ONE_COMMAND[16:], REPORT, REPORT),
    ("line ends everywhere", b"\n\n" + ONE_COMMAND.replace(b"\n", b"\n\n\n"), REPORT, REPORT),
    ("a remark with a carriage return", b"# one\r\n" + ONE_COMMAND, REPORT, REPORT),
    ("lines after a blank", b" conn 1 00000002\n" + ONE_COMMAND + b" D 1 02\n > D 1 02\n", REPORT, REPORT),
    ("a report with its connection", CONN + REPORT, REPORT, REPORT),
    ("a report without its last end", CONN + REPORT[:-1], REPORT, REPORT),
    ("a header in upper case", ONE_COMMAND.replace(b"a1", b"A1"), REPORT, REPORT),
    ("1048576 lines", ONE_COMMAND + b"\n" * 1048573, REPORT, REPORT),
    ("a connection in line 1048576", b"\n" * 1048575 + CONN, b"", b""),
    ("64 connections", connections(64), b"", b""),
    ("a NOP-Out on connection 64 of 64", connections(64) + ping(64), pinged(64, 1), pinged(64, 1)),
    ("CID 0", b"conn 0 FfFfFfFf\n" + ping(0), pinged(0, NO_TAG), pinged(0, NO_TAG)),
    ("CID 65535", b"conn 65535 00000000\n" + ping(65535), pinged(65535, 0), pinged(65535, 0)),
    ("the greatest ticket", b"conn 65535 00000001\n" + GREATEST, b"> " + GREATEST + b"  ignore stale\n", b""),
    ("ticket 0", CONN + b"D 0 00\n", b"> D 0 00\n  ignore stale\n", b""),
    ("ticket 0 of a report", CONN + b"> D 0 00", b"> D 0 00\n  ignore stale\n", b""),
    ("a status in upper case", CONN + b"D 7 Ff\n", b"> D 7 ff\n  ignore stale\n", b""),
]

# What a pipe gives again and again, and the fault.
ENDLESS = [
    ("bytes # without end", b"#" * 4096, too_long(1)),
    ("blanks without end", b" " * 4096, too_long(1)),
    ("bytes NUL without end", b"\0" * 4096, too_long(1)),
    ("line ends without end", b"\n" * 4096, TOO_MANY_LINES),
    ("remarks without end", b"# again\n" * 512, TOO_MANY_LINES),
    ("a connection without end", CONN, bad_line(2)),
]


def rows():
    """All rows of the table but those without end, no input twice."""
    found = [
        *(Row(f"{size} bytes of one-command", ONE_COMMAND[:size], *came) for some, *came in FRONTS for size in some),
        *(Row(f"first {line!r}{end[:1]!r}", line + end, bad_line(1)) for line in BAD_FIRST_LINES for end in ENDS),
        *(Row(f"next {line!r}{end[:1]!r}", CONN + line + end, bad_line(2)) for line in BAD_NEXT_LINES for end in ENDS),
        *(Row(f"all lines and {more[:20]!r}", b"\n" * 1048576 + more, TOO_MANY_LINES) for more in AFTER_ALL_LINES),
        *(Row(what, data, fault) for what, data, fault in REFUSED),
        *(Row(what, data, b"", report, threaded) for what, data, report, threaded in REPLAYED),
    ]
    return {row.data: row for row in found}.values()


def misread(row):
    """What is wrong with the plain reader's answer to a row."""
    wanted = row.fault or plain_reader.events_of(row.report)
    answer = plain_reader.read(row.data)
    return "" if answer == wanted else f"the plain reader says {answer!r}"


def malformed_lines():
    """Lines that are none or stand where they must not, beside the nearest ones that are; each with threads too."""
    tally = common.Tally("malformed lines", 1674)
    for row in rows():
        status = 1 if row.fault else 0
        wrong = common.compare(common.run((), row.data), status, row.report, row.fault)
        tally.judge(row.what, wrong or misread(row))
        ran = common.run((THREADS,), row.data)
        tally.judge(f"{row.what}, with threads", common.compare(ran, status, row.threaded, row.fault))
    judge_endless(tally)
    return tally


def judge_endless(tally):
    """Inputs without end, which the program must refuse and then end."""
    for what, block, fault in ENDLESS:
        tally.judge(what, common.compare(run_endless((), block), 1, b"", fault))
        tally.judge(f"{what}, with threads", common.compare(run_endless((THREADS,), block), 1, b"", fault))


def run_endless(words, block):
    """Runs the program on a pipe that gives a block again and again until the program has ended."""
    source, sink = os.pipe()
    writer = threading.Thread(target=write_on, args=(sink, block))
    writer.start()
    try:
        return common.run(words, stdin=source)
    finally:
        os.close(source)
        writer.join()


def write_on(sink, block):
    """Writes a block into a pipe until nobody can read it any more."""
    try:
        while True:
            os.write(sink, block)
    except BrokenPipeError:
        os.close(sink)


class Recording(NamedTuple):
    """A good recording, and the words that it is replayed with."""

    what: str
    words: tuple
    data: bytes
    report: bytes


# A recording with more bytes isn't a small one.
SMALL = 20000
# Of a recording with more bytes not every front is tried.
SHORT = 3000
STEP = 7


def recordings():
    """The examples and the small recordings of tests/cases, but those with threads."""
    return examples() + cases()


def examples():
    """The recordings of examples/, with the words that their remarks say. Their reports are the program's own."""
    found = []
    for _, path in sorted(common.EXAMPLES.items()):
        data = path.read_bytes()
        said = re.search(r"To be replayed with (--\w+ \w+)", data.decode())
        words = tuple(said[1].split()) if said else ()
        found.append(Recording(path.name, words, data, common.run(words, data).out))
    return found


def cases():
    """The small recordings of tests/cases that give a report, replayed without threads."""
    found = []
    for path in sorted(common.CASES.rglob("recording")):
        case, words = path.parent, tuple(common.words_of(path.parent))
        good = (case / "status").read_text().strip() == "0"
        if good and THREADS not in words and path.stat().st_size <= SMALL:
            name = str(case.relative_to(common.CASES))
            found.append(Recording(name, words, path.read_bytes(), (case / "report").read_bytes()))
    return found


def events_with_effects(report):
    """A report in parts, each an event's line and its effects. The first part stands before all events."""
    return re.split(rb"(?m)^(?=> )", report)


def sizes(data):
    """How many bytes the fronts of a recording have. At the ends of lines none is left out."""
    if len(data) <= SHORT:
        return range(len(data) + 1)
    ends = [place + more for place, byte in enumerate(data) if byte == 0x0A for more in (0, 1)]
    return sorted({*range(0, len(data) + 1, STEP), *ends})


# So many classes share the fronts of each recording out among them, as classes run side by side.
PARTS = 4


def fronts(part):
    """Fronts of recordings: their faults and events are those of the plain reader, their reports fronts of reports."""
    tally = common.Tally(f"fronts {part + 1}", 14360)
    for recording in recordings():
        for size in sizes(recording.data)[part::PARTS]:
            ran = common.run(recording.words, recording.data[:size])
            tally.judge(f"the first {size} bytes of {recording.what}", wrong_front(ran, recording, size))
    return tally


def wrong_front(ran, recording, size):
    """What is wrong with a run on a front of a recording."""
    events = plain_reader.read(recording.data[:size])
    wrong = plain_reader.wrong(ran, recording.data[:size])
    if wrong or isinstance(events, bytes):
        return wrong
    before, *parts = events_with_effects(recording.report)
    return common.compare(ran, 0, b"".join([before, *parts[: len(events)]]), b"")


def replay_events(tally, what, conns, events):
    """Judges what the report says of each event, with a window of 4. An event is its line and those of its effects."""
    lines = [*conns, *(event for event, _ in events)]
    ran = common.run(("--window", "4"), b"".join(b"%s\n" % line for line in lines))
    wanted = [b"> %s\n" % event + b"".join(b"  %s\n" % effect for effect in effects) for event, effects in events]
    reported = events_with_effects(ran.out)[1:]
    tally.judge(f"{what}, the whole", common.compare(ran, 0, b"".join(wanted), b""))
    for place, part in enumerate(wanted):
        given = reported[place] if place < len(reported) else b"nothing"
        tally.judge(f"{what}, event {place + 1}", "" if given == part else f"{given[:400]!r}, not {part[:400]!r}")


def flood_of_duplicates(tally):
    """A held command comes 1,000 times more. Then the gap before it is closed, and the command is completed."""
    held = b"C 1 " + command(0xA1, 2)
    closing = [
        b"deliver 1 00000001 000000b1", b"send 1 " + nop_in(0xB1, (1, 3, 5)),
        b"deliver 1 00000002 000000a1", b"enter 1 0 simple", b"enable 1",
    ]
    completing = [b"leave 1", b"send 1 " + reply(0x21, 0xA1, (2, 3, 6))]
    replay_events(tally, "duplicates", [b"conn 1 00000001"], [
        (held, []),
        *[(held, [b"ignore duplicate"])] * 1000,
        (b"C 1 " + nop_out(0xB1, 1), closing),
        (held, [b"ignore outside"]),
        (b"D 1 00", completing),
        (b"D 1 00", [b"ignore stale"]),
    ])


CIDS = range(1, 65)
# The waiting functions of a connection, counted from 1; there may be four.
PLACES = range(1, 5)


def flood_of_functions(tally, function):
    """On each of 64 connections five functions over a task set come too early. Then comes what they wait for.

    Afterwards its late completion is passed over, a NOP-Out is answered, and a function can wait and execute again.
    """
    events = [event for cid in CIDS for event in functions_too_early(cid, function)]
    executed = [effect for cid in CIDS for place in PLACES for effect in function_executes(cid, place)]
    again = request(0x42, 0x80 | function, 0xC1, 4, NO_TAG)
    events += [
        (b"C 1 " + command(0xA1, 1), [b"deliver 1 00000001 000000a1", b"enter 1 0 simple", b"enable 1", *executed]),
        (b"D 1 00", [b"ignore stale"]),
        (b"C 64 " + nop_out(0xB1, 2), [b"deliver 64 00000002 000000b1", b"send 64 " + nop_in(0xB1, (6, 3, 6))]),
        (b"C 1 " + again, [b"wait 1 00000004 000000c1"]),
        (b"C 2 " + command(0xA1, 3), [
            b"deliver 2 00000003 000000a1", b"enter 2 0 simple", b"enable 2",
            b"immediate 1 00000004 000000c1", b"leave 2", b"send 1 " + reply(0x22, 0xC1, (6, 4, 7)),
        ]),
        (b"D 2 00", [b"ignore stale"]),
    ]
    replay_events(tally, f"functions {function} that wait", [b"conn %d 00000001" % cid for cid in CIDS], events)


def tag_of(cid, place):
    """The tag of a connection's function, another one for each of them."""
    return 0x1000 * cid + place


def functions_too_early(cid, function):
    """A connection's five functions with CmdSN 2, while 1 is expected: four wait, and the fifth is rejected."""
    headers = [request(0x42, 0x80 | function, tag_of(cid, place), 2, NO_TAG) for place in (*PLACES, 5)]
    waiting = [(headers[place - 1], [b"wait %d 00000002 %08x" % (cid, tag_of(cid, place))]) for place in PLACES]
    reject = reply(0x3F, NO_TAG, (1, 1, 4), reason=0x06, length=48) + headers[4]
    refused = (headers[4], [b"immediate %d 00000002 %08x" % (cid, tag_of(cid, 5)), b"send %d %s" % (cid, reject)])
    return [(b"C %d %s" % (cid, header), effects) for header, effects in [*waiting, refused]]


def function_executes(cid, place):
    """The effects of a function at its turn, with response 00. The first of all takes the command out."""
    left = [b"leave 1"] if (cid, place) == (1, 1) else []
    sent = reply(0x22, tag_of(cid, place), (place + 1, 2, 5))
    return [b"immediate %d 00000002 %08x" % (cid, tag_of(cid, place)), *left, b"send %d %s" % (cid, sent)]


ABORT_TASK_SET = 2
LOGICAL_UNIT_RESET = 5


def floods():
    """Many requests that are passed over, wait or are refused, and that the session goes on as usual after them."""
    tally = common.Tally("floods", 1660)
    flood_of_duplicates(tally)
    flood_of_functions(tally, ABORT_TASK_SET)
    flood_of_functions(tally, LOGICAL_UNIT_RESET)
    return tally


CLASSES = [
    ("malformed lines", malformed_lines),
    *((f"fronts {part + 1}", partial(fronts, part)) for part in range(PARTS)),
    ("floods", floods),
]
