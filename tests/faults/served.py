"""A program `sno` that is started anew again and again, with calls of one kind failing.

`failing_calls.c` is preloaded into the program; its head says what is asked and answered.
"""

import os
import pathlib
import shutil
import subprocess
import threading
import typing

HERE = pathlib.Path(__file__).resolve().parent
# The last call of all.
LAST = 2**63 - 1
# A signal ended the run where its status is this or more.
SIGNAL = 256


class Answer(typing.NamedTuple):
    """How many calls of the kind a run made, how many failed, its status, memory, output and standard error."""

    calls: int
    failed: int
    status: int
    kilobytes: int
    out: bytes
    told: bytes


def library(folder):
    """The library that is preloaded, built in a folder."""
    compiler = os.environ.get("CC") or shutil.which("cc") or shutil.which("clang")
    if not compiler:
        raise SystemExit("no C compiler: put cc or clang on PATH, or name one in CC")
    built = pathlib.Path(folder) / "failing_calls.so"
    words = [compiler, "-O2", "-shared", "-fPIC", "-o", built, HERE / "failing_calls.c"]
    subprocess.run(words, check=True)
    return built


class Served:
    """A program with its words in a folder, ready to run."""

    def __init__(self, library_file, program, words, folder):
        self.folder = pathlib.Path(folder)
        environment = {"LD_PRELOAD": str(library_file)}
        how = {"stdin": subprocess.PIPE, "stdout": subprocess.PIPE, "cwd": folder, "env": environment}
        self.process = subprocess.Popen([str(program), *words], **how)

    def __enter__(self):
        return self

    def __exit__(self, *_):
        self.process.stdin.close()
        self.process.stdout.close()
        self.process.wait()

    def run(self, kind="none", first=0, last=None):
        """Runs the program; of the calls of this kind the first to the last fail, or the first alone."""
        self.process.stdin.write(f"{kind} {first} {first if last is None else last}\n".encode())
        self.process.stdin.flush()
        return self.answer()

    def answer(self):
        """The next answer."""
        line = self.process.stdout.readline()
        if not line:
            raise RuntimeError("the program with failing calls doesn't answer")
        *numbers, out, told = map(int, line.split())
        return Answer(*numbers, self.process.stdout.read(out), self.process.stdout.read(told))

    def run_on(self, content):
        """Runs the program with this content of the file `file`."""
        self.ask_each([content])
        return self.answer()

    def run_each(self, contents):
        """Runs the program for each of some contents of the file `file`; the answers."""
        asking = threading.Thread(target=self.ask_each, args=(contents,))
        asking.start()
        yield from (self.answer() for _ in contents)
        asking.join()

    def ask_each(self, contents):
        """Asks for a run with each of these contents."""
        for content in contents:
            self.process.stdin.write(f"file {len(content)} 0\n".encode() + content)
        self.process.stdin.flush()

    def put(self, name, content):
        """Puts a file into the folder; None is no file."""
        if content is None:
            (self.folder / name).unlink(missing_ok=True)
        else:
            (self.folder / name).write_bytes(content)

    def get(self, name):
        """What a file of the folder holds, or None."""
        file = self.folder / name
        return file.read_bytes() if file.is_file() else None
