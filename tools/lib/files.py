"""Reading and writing of text files, with faults in one line."""

import os
import sys
from contextlib import contextmanager, suppress


class Fault(Exception):
    """What keeps a tool from its work, in words."""


def reason(error):
    """Why the system refused, without the name of the file."""
    return os.strerror(error.errno) if error.errno else str(error)


def lines_of(path):
    """The lines of a text file, or of standard input for `-`."""
    name = "standard input" if path == "-" else path
    if path == "-" and sys.stdin is None:
        raise Fault("standard input: it is closed")
    try:
        with (open(sys.stdin.fileno(), "rb", closefd=False) if path == "-" else open(path, "rb")) as file:
            yield from (line.decode("ascii", "backslashreplace") for line in file)
    except OSError as error:
        raise Fault(f"{name}: {reason(error)}") from None


def write(path, content):
    """Writes a file whole, text or bytes."""
    try:
        with open(path, "wb") as file:
            file.write(content.encode() if isinstance(content, str) else content)
    except OSError as error:
        raise Fault(f"{path}: {reason(error)}") from None


@contextmanager
def writing(path):
    """Opens a text file to be written whole. What comes of it before all is written stands beside it."""
    unfinished = f"{path}.unfinished"
    try:
        with open(unfinished, "w", encoding="utf-8") as file:
            yield file
        os.replace(unfinished, path)
    except OSError as error:
        raise Fault(f"{path}: {reason(error)}") from None
    finally:
        with suppress(OSError):
            os.unlink(unfinished)


def run(name, main):
    """Runs a tool: a fault is one line on standard error and status 1."""
    if sys.stdout is None:
        sys.exit(fault(name, "the output was closed"))
    try:
        main()
        sys.stdout.flush()
    except BrokenPipeError:
        # What is left in the buffer goes nowhere, so that the end of Python has nothing to complain about.
        os.dup2(os.open(os.devnull, os.O_WRONLY), sys.stdout.fileno())
        sys.exit(fault(name, "the output was closed"))
    except OSError as error:
        of = f"{os.fsencode(error.filename).decode('utf-8', 'backslashreplace')}: " if error.filename else ""
        sys.exit(fault(name, of + reason(error)))
    except Fault as error:
        sys.exit(fault(name, error))


def fault(name, text):
    if sys.stderr is not None:
        print(f"{name}: {text}", file=sys.stderr)
    return 1
