"""What a program takes, in instructions that callgrind counts, and not in time: no busy machine changes them.

A part of the gate that imports this module compares a count with a ceiling, or with the count of a smaller input."""

import re
import subprocess
import tempfile

# A program that hangs is stopped after so many seconds. No answer is judged by them.
HANGS = 600


def counted(words, folder, given=b""):
    """Runs a program in a folder. Returns how many instructions it took, how it ended, and what it wrote."""
    with tempfile.NamedTemporaryFile("r", errors="replace") as log, tempfile.TemporaryDirectory() as room:
        callgrind = ["valgrind", "--tool=callgrind", f"--callgrind-out-file={room}/counts", f"--log-file={log.name}"]
        ran = subprocess.run([*callgrind, *words], input=given, capture_output=True, cwd=folder, timeout=HANGS)
        found = re.search(r"Collected : (\d+)", log.read())
    return int(found[1]) if found else None, ran


def is_linear(less, more):
    """Whether a count is at most twice that of half the input, with a tenth more for what is no line."""
    return less is not None and more is not None and more <= 2.1 * less
