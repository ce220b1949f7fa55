"""Commands, and programs of other people that may not be there."""

import os
import pathlib
import shutil
import subprocess
import sys

ROOT = pathlib.Path(__file__).resolve().parent.parent.parent
SECONDS = 60


def run(words, given=b"", folder=None, **environment):
    """What a command prints, what it reports, and its exit status."""
    how = {"cwd": folder, "env": {**os.environ, **environment}, "timeout": SECONDS}
    try:
        ran = subprocess.run([str(word) for word in words], input=given, capture_output=True, check=False, **how)
    except (OSError, subprocess.TimeoutExpired) as error:
        return b"", str(error).encode(), 127
    return ran.stdout, ran.stderr, ran.returncode


def is_there(program, what):
    """Whether a program is installed; if not, it is told that something is left out."""
    if shutil.which(program):
        return True
    print(f"left out, as {program} is not installed: {what}", file=sys.stderr)
    return False
