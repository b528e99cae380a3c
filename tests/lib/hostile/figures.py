"""Far numbers and floods, by the driver: serial numbers, places of a window, and how many effects an event may have."""

from hostile.common import DRIVER, Tally, run
from hostile.headers import ABORT_TASK_SET, command, function, header, task_response

FAR_NUMBERS = [
    ("less 00000000 80000000", "false"),
    ("less 80000000 00000000", "false"),
    ("less ffffffff 00000000", "true"),
    ("less 00000000 ffffffff", "false"),
    ("less 00000000 7fffffff", "true"),
    ("less 80000001 00000000", "true"),
    ("less 00000000 00000000", "false"),
    ("distance 00000000 80000000", "-2147483648"),
    ("distance 80000000 00000000", "-2147483648"),
    ("distance ffffffff 00000000", "1"),
    ("distance 00000000 ffffffff", "-1"),
    ("distance 00000000 7fffffff", "2147483647"),
    ("place ffffffff 1024 ffffffff", "inside 0"),
    ("place ffffffff 1024 00000000", "inside 1"),
    ("place ffffffff 1024 000003fe", "inside 1023"),
    ("place ffffffff 1024 000003ff", "outside"),
    ("place ffffffff 1024 7ffffffe", "outside"),
    ("place ffffffff 1024 7fffffff", "outside"),
    ("place ffffffff 1024 fffffffe", "outside"),
    ("place 00000000 1 00000000", "inside 0"),
    ("place 00000000 1 00000001", "outside"),
    ("place 00000000 1 80000000", "outside"),
    ("place 00000000 1 ffffffff", "outside"),
]


def far_numbers():
    """Numbers as far apart as they can be, and those just beside a window."""
    tally = Tally("far numbers", len(FAR_NUMBERS))
    script = "".join(call + "\n" for call, _ in FAR_NUMBERS)
    ran = run(["figures"], script.encode(), program=DRIVER)
    answers = ran.out.decode().splitlines() if ran.status == 0 else []
    answers += ["nothing"] * (len(FAR_NUMBERS) - len(answers))
    for (call, expected), answer in zip(FAR_NUMBERS, answers):
        tally.judge(call, "" if answer == expected else f"{answer}, not {expected}")
    return tally


def judge_lines(tally, words, calls):
    """Judges a session's answers call by call: each has the lines that it must print."""
    script = "".join(call + "\n" for call, _ in calls)
    ran = run(["session", *words], script.encode(), program=DRIVER)
    found = ran.out.decode().splitlines()
    if ran.status != 0:
        tally.judge("the session", f"status {ran.status}: {ran.err[-200:]!r}")
    place = 0
    for call, lines in calls:
        there = found[place : place + len(lines)]
        tally.judge(call[:60], "" if there == lines else f"{there[:3]}, not {lines[:3]}")
        place += len(lines)
    if place != len(found):
        tally.judge("the session", "more lines than it must print")


def arrival(cid, digits):
    return f"C {cid} {digits}"


def far_functions():
    """ABORT TASK SET whose number is as far above ExpCmdSN as it can be, and one further, which is below it."""
    tally = Tally("functions with far numbers", 4)
    far, below = (function(sn, tag, ABORT_TASK_SET) for sn, tag in ((0x80000001, 0xB1), (0x80000000, 0xB2)))
    first, second = task_response(0xB1, (1, 1, 0x20)), task_response(0xB2, (2, 1, 0x20), 255)
    calls = [
        ("conn 1 00000001", []),
        (arrival(1, far), [f"> C 1 {far}", "  immediate 1 80000001 000000b1", f"  send 1 {first}"]),
        (arrival(1, below), [f"> C 1 {below}", "  immediate 1 80000000 000000b2", f"  send 1 {second}"]),
        ("numbers", ["numbers 1 20"]),
    ]
    judge_lines(tally, ["1", "32"], calls)
    return tally


def duplicates():
    """A thousand repeats of a request that is held: each is passed over, and the bound of the effects stays."""
    tally = Tally("a flood of duplicates", 1004)
    again = command(2, 0xA1)
    calls = [("conn 1 00000001", []), (arrival(1, again), [f"> C 1 {again}"]), ("bound", ["bound 24"])]
    calls += [(arrival(1, again), [f"> C 1 {again}", "  ignore duplicate"])] * 1000
    calls += [("bound", ["bound 24"])]
    judge_lines(tally, ["1", "4"], calls)
    return tally


def reject_too_many(rejected, numbers):
    """A Reject for one immediate command too many, with the header that it rejects."""
    stat, exp, most = numbers
    fields = (0, 1, 0x3F), (1, 1, 0x80), (2, 1, 6), (5, 3, 48), (16, 4, 0xFFFFFFFF)
    return header(*fields, (24, 4, stat), (28, 4, exp), (32, 4, most)) + rejected


def waiting_functions():
    """On 64 connections each as many functions wait as may, and one more; then one request lets all of them go."""
    tally = Tally("a flood of functions that wait", 64 * 6 + 2)
    conns = range(1, 65)
    calls = [(f"conn {cid} 00000001", []) for cid in conns]
    for cid in conns:
        for k in range(4):
            waiting = function(2, 16 * cid + k, ABORT_TASK_SET)
            calls.append((arrival(cid, waiting), [f"> C {cid} {waiting}", f"  wait {cid} 00000002 {16 * cid + k:08x}"]))
        fifth = function(2, 16 * cid + 4, ABORT_TASK_SET)
        reject = reject_too_many(fifth, (1, 1, 4))
        lines = [f"> C {cid} {fifth}", f"  immediate {cid} 00000002 {16 * cid + 4:08x}", f"  send {cid} {reject}"]
        calls.append((arrival(cid, fifth), lines))
    calls.append(("bound", ["bound 3084"]))
    first = command(1, 0xA1)
    lines = [f"> C 1 {first}", "  deliver 1 00000001 000000a1", "  enter 1 0 simple", "  enable 1"]
    for cid in conns:
        for k in range(4):
            lines.append(f"  immediate {cid} 00000002 {16 * cid + k:08x}")
            lines += ["  leave 1"] * (cid == 1 and k == 0)
            lines.append(f"  send {cid} {task_response(16 * cid + k, (2 + k, 2, 5))}")
    assert len(lines) == 1 + 516
    calls.append((arrival(1, first), lines))
    judge_lines(tally, ["1", "4"], calls)
    return tally


CLASSES = [
    ("far numbers", far_numbers),
    ("functions with far numbers", far_functions),
    ("a flood of duplicates", duplicates),
    ("a flood of functions that wait", waiting_functions),
]
