"""Runs commands and measures what they take."""

import os
import pathlib
import re
import subprocess
import time
import typing

# More steps than any run here takes.
STEPS = "18446744073709551615"


class Ran(typing.NamedTuple):
    """A command's output, its exit status, its processor seconds and the most memory that it took, in MB."""

    out: bytes
    status: int
    seconds: float
    memory: float


def most_memory(process):
    """The most memory that a process took so far, in MB. (What the system reports at its end counts this script's.)"""
    try:
        text = pathlib.Path(f"/proc/{process}/status").read_text(encoding="ascii")
    except OSError:
        return 0.0
    found = re.search(r"^VmHWM:\s+([0-9]+)", text, re.MULTILINE)
    return int(found[1]) / 1024 if found else 0.0


def run(words, given, folder):
    """Runs a command with an input."""
    with open(folder / "input", "wb") as file:
        file.write(given)
    memory, ended = 0.0, 0
    with open(folder / "input", "rb") as stdin, open(folder / "output", "wb") as stdout:
        process = subprocess.Popen(words, stdin=stdin, stdout=stdout, stderr=subprocess.DEVNULL, cwd=folder)
        while not ended:
            memory = max(memory, most_memory(process.pid))
            time.sleep(0.003)
            ended, status, used = os.wait4(process.pid, os.WNOHANG)
        process.returncode = status
    seconds = used.ru_utime + used.ru_stime
    return Ran((folder / "output").read_bytes(), status, seconds, memory)
