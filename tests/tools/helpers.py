"""What the tests of the tools share."""

import os
import subprocess

TOP = os.path.abspath(os.path.join(os.path.dirname(__file__), "..", ".."))


def run_tool(name, *words, text=None, seconds=120):
    """Runs a tool with these words, and `text` as its standard input, for so many seconds at the most."""
    return subprocess.run([os.path.join(TOP, "tools", name), *words], input=text, capture_output=True,
                          text=True, timeout=seconds)


def replay(recording, *words):
    """The report of a recording, as text, by the built program."""
    done = subprocess.run([os.path.join(TOP, "iscsi-replay"), "--built", *words], input=recording, capture_output=True,
                          text=True, timeout=120)
    if done.returncode:
        raise AssertionError(done.stderr)
    return done.stdout
