"""QEMU's initiator, which is that of virtual machines (libiscsi under its block layer): images in and out, and mixed reads and writes."""

import os
import random

from loopback import Failed, last_line, missing, run

# As long as a unit.
IMAGE, SECONDS = 64 << 20, 40
# Writes with a pattern each, and reads that look for it: aligned, unaligned, side by side, and of zeroes. The target has no UNMAP and no WRITE
# SAME, so QEMU writes the zeroes itself, and a discard does nothing.
STEPS = ("write -P 0x11 0 1M", "write -P 0x22 1000 70000", "read -P 0x22 1000 70000", "read -P 0x11 0 1000", "read -P 0x11 71000 900",
         "write -z 512k 64k", "read -P 0 512k 64k", "discard 2M 1M", "flush", "aio_write -P 0x33 4M 1M", "aio_write -P 0x44 5M 64k",
         "aio_write -P 0x55 6M 8M", "aio_read -P 0x11 80000 1000", "aio_flush", "read -P 0x33 4M 1M", "read -P 0x44 5M 64k", "read -P 0x55 6M 8M")
# What isn't there must be seen as absent, or the reads above would say nothing.
WRONG = "read -P 0x12 0 512"


def why_absent():
    """Why QEMU's tools can't be used here, or None."""
    if absent := missing("qemu-img", "qemu-io"):
        return f"there is no {absent}"
    # The driver is a file of its own, in Debian's qemu-block-extra. The list of --help names it, whether it is there or not.
    said = run(["qemu-img", "info", "iscsi://127.0.0.1:1/iqn.2026-01.example:none/0"], 20).stdout
    return "QEMU has no driver for iscsi" if "Unknown protocol" in said else None


def status(words, wanted=0):
    """Why a program doesn't end as it must, or None."""
    done = run(words, SECONDS)
    return None if done.returncode == wanted else f"status {done.returncode}: {last_line(done.stdout)}"


def image_in_and_out(url, folder):
    """An image is written to the unit, compared, and read again as it was."""
    source, copy = os.path.join(folder, "in.raw"), os.path.join(folder, "out.raw")
    data = random.Random(1).randbytes(IMAGE)
    with open(source, "wb") as file:
        file.write(data)
    for words in (["convert", "-n", "-f", "raw", "-O", "raw", source, url], ["compare", "-s", "-f", "raw", "-F", "raw", source, url],
                  ["convert", "-f", "raw", "-O", "raw", url, copy]):
        if why := status(["qemu-img", *words]):
            return f"qemu-img {words[0]}: {why}"
    with open(copy, "rb") as file:
        return None if file.read() == data else "what was read isn't what was written"


def patterns(url):
    words = ["qemu-io", "-f", "raw"]
    steps = [word for step in STEPS for word in ("-c", step)]
    return status([*words, *steps, url]) or status([*words, "-c", WRONG, url], 1)


def deep(url):
    """Many commands at once: READs of 4 KiB, 32 deep, and WRITEs of 64 KiB, 16 deep."""
    bench = ["qemu-img", "bench", "-f", "raw", "-t", "none"]
    return status([*bench, "-c", "4000", "-d", "32", "-s", "4096", url]) or status([*bench, "-w", "-c", "500", "-d", "16", "-s", "65536", url])


def drive(target, folder, tally):
    """Each of these counts. They change what the first unit has."""
    steps = (("an image in and out", lambda: image_in_and_out(target.url(), folder)), ("patterns", lambda: patterns(target.url(1))),
             ("many commands at once", lambda: deep(target.url())))
    try:
        why = why_absent()
    except Failed as fault:
        why = str(fault)
    for name, step in steps:
        if why:
            tally.say("skipped", f"QEMU: {name}", why)
        else:
            tally.attempt(f"QEMU: {name}", step)
