"""Recordings with a few random changes each, which the program and the plain reader must judge alike."""

import random
import re
from collections import Counter
from functools import partial

from hostile import common, lines, plain_reader

# In place of any byte, one of those that matter in a recording.
BYTES_THAT_MATTER = b" \n\r\t0123456789abcdef>#CD"
# The sizes of lines about the limit.
SIZES = (255, 256, 257)
# So many bytes of a line are near its begin.
NEAR = 9

SEED = 7143
COUNT = 10000
# So many classes share them out among them, as classes run side by side.
PARTS = 2
# One in so many runs with threads.
THREADED = 10


def some_byte(source):
    """Any byte, or one that matters."""
    return bytes([source.choice([source.randrange(256), *BYTES_THAT_MATTER])])


def place_in(source, things):
    """A place in some bytes or lines; 0 where there are none."""
    return source.randrange(max(1, len(things)))


def byte_place(source, data):
    """A place in some bytes: any, or one near the begin of a line, where its kind and its numbers stand."""
    begins = [0, *(found.end() for found in re.finditer(rb"\n", data))]
    near = source.choice(begins) + source.randrange(NEAR)
    return source.choice([near, place_in(source, data)])


def byte_changed(source, data):
    """Another byte in place of one."""
    place = byte_place(source, data)
    return data[:place] + some_byte(source) + data[place + 1:]


def byte_cut_out(source, data):
    """A byte less."""
    place = byte_place(source, data)
    return data[:place] + data[place + 1:]


def byte_put_in(source, data):
    """A byte more."""
    place = byte_place(source, data)
    return data[:place] + some_byte(source) + data[place:]


def end_cut_off(source, data):
    """A front."""
    return data[:place_in(source, data)]


def blank_doubled(source, data):
    """Two blanks in place of one."""
    return at_one_of(rb" ", source, data, lambda blank: 2 * blank)


def case_exchanged(source, data):
    """A letter in the other case."""
    return at_one_of(rb"[A-Za-z]", source, data, bytes.swapcase)


def at_one_of(pattern, source, data, change):
    """The bytes changed in one of the places that fit a pattern, or as they are where none does."""
    places = [found.start() for found in re.finditer(pattern, data)]
    if not places:
        return data
    place = source.choice(places)
    return data[:place] + change(data[place:place + 1]) + data[place + 1:]


def line_cut(source, rows, _):
    """A line loses its end."""
    place = place_in(source, rows)
    rows[place] = rows[place][:place_in(source, rows[place])]


def line_doubled(source, rows, _):
    """A line comes once more, right after itself."""
    place = place_in(source, rows)
    rows.insert(place, rows[place])


def lines_joined(source, rows, _):
    """Two lines that follow one another become one."""
    place = place_in(source, rows)
    rows[place:place + 2] = [b"".join(rows[place:place + 2])]


def lines_exchanged(source, rows, _):
    """Two lines change their places."""
    one, other = place_in(source, rows), place_in(source, rows)
    rows[one], rows[other] = rows[other], rows[one]


def line_put_in(source, rows, others):
    """A line of another recording, or of its report, comes between the lines."""
    rows.insert(source.randrange(len(rows) + 1), source.choice(others))


def line_padded(source, rows, _):
    """A line, or a remark made of it, grows to about the greatest size of a line."""
    place = place_in(source, rows)
    begin = source.choice([b"", b"# "])
    rows[place] = (begin + rows[place]).ljust(source.choice(SIZES), some_byte(source))


BYTE_CHANGES = [byte_changed, byte_cut_out, byte_put_in, end_cut_off, blank_doubled, case_exchanged]
LINE_CHANGES = [line_cut, line_doubled, lines_joined, lines_exchanged, line_put_in, line_padded]
# Those that often leave a recording come more often, so that a third of what is made is one.
GENTLE_CHANGES = [byte_changed, case_exchanged, line_doubled, lines_exchanged, line_put_in]
CHANGES = BYTE_CHANGES + LINE_CHANGES + 3 * GENTLE_CHANGES
# How many changes a recording gets: one to four.
CHANGED = (1, 1, 1, 1, 1, 2, 2, 3, 4)


def changed(source, data, others):
    """A recording with one random change."""
    change = source.choice(CHANGES)
    if change in BYTE_CHANGES:
        return change(source, data)
    rows = data.split(b"\n")
    change(source, rows, others)
    return b"\n".join(rows)


def mutated(source, data, others):
    """A recording with one to four random changes."""
    for _ in range(source.choice(CHANGED)):
        data = changed(source, data, others)
    return data


def made():
    """The mutations, no two of them the same and none its recording again, each with the recording it was made from."""
    source = random.Random(SEED)
    good = lines.recordings()
    others = [line for recording in good for text in (recording.data, recording.report) for line in text.split(b"\n")]
    found = {}
    while len(found) < COUNT:
        recording = source.choice(good)
        data = mutated(source, recording.data, others)
        if data != recording.data:
            found[recording.words, data] = recording
    return [(recording, data) for (_, data), recording in found.items()]


def kind_of(answer):
    """What a mutation is by the plain reader's answer. A late fault is on another line than the first two."""
    if isinstance(answer, list):
        return "recording"
    number = re.search(rb"line (\d+)", answer)
    return "late fault" if number and int(number[1]) > 2 else "early fault"


def arrivals(events):
    """The arrivals of each connection in their order, which is what threads keep of the events of a recording."""
    parts = {}
    for event in events:
        if event.startswith(b"C "):
            parts.setdefault(event.rpartition(b" ")[0], []).append(event)
    return parts


def mutations(part):
    """Runs of the program on mutations, of which many must be recordings, many none, and not all by their begin."""
    tally = common.Tally(f"mutations {part + 1}", 5000)
    kinds = Counter()
    for number, (recording, data) in enumerate(made()[part::PARTS]):
        if number % THREADED == 0:
            wrong = plain_reader.wrong(common.run((*recording.words, lines.THREADS), data), data, arrivals)
        else:
            wrong = plain_reader.wrong(common.run(recording.words, data), data)
        tally.judge(f"{recording.what} as {data!r}", wrong)
        kinds[kind_of(plain_reader.read(data))] += 1
    faults = kinds["late fault"] + kinds["early fault"]
    at_least(tally, "recordings", kinds["recording"], tally.count / 3)
    at_least(tally, "faults", faults, tally.count / 3)
    at_least(tally, "late faults", kinds["late fault"], faults / 4)
    return tally


def at_least(tally, what, count, least):
    """Counts it as a loss where there are too few of a kind of mutations, so that these test too little."""
    if count < least:
        tally.lost.append(f"{count} {what}, not {least:.0f}")


CLASSES = [(f"mutations {part + 1}", partial(mutations, part)) for part in range(PARTS)]
