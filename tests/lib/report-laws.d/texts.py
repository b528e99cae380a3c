"""Recordings and reports as they are written."""


def recorded(text):
    """The connections of a recording, with their first StatSNs, and its events."""
    conns, events = {}, []
    for line in text.split("\n"):
        words = line[2:].split() if line.startswith("> ") else [] if line[:1] in (" ", "#") else line.split()
        if words[:1] == ["conn"]:
            conns[int(words[1])] = int(words[2], 16)
        elif words:
            events.append([words[0], words[1], words[2].lower()])
    return conns, events


def reported(text):
    """The events of a report: the line, the words and the effects of each, which are lines and words too."""
    event = None
    for number, line in enumerate(text.split("\n"), 1):
        if line.startswith("> "):
            if event:
                yield event
            event = number, line[2:].split(), []
        elif line and event:
            event[2].append((number, line.split()))
    if event:
        yield event
