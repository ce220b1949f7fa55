"""Runs damaged modules: each must be refused, or run to an end, and never bring the program down.

The modules are those of some decks of decks/, with each instruction that runs among them. Each is cut at each length;
each byte of a short one gets each other value, and each bit of a longer one is turned. A module must be refused with
one line `offset N F` or `W` and status 4, or run at most 10,000 steps and end with the status of a run. The lines before
the last tell how many came to what; the last line is `N passed, M failed`; the exit status is 0 if M is 0, and else 1.
"""

import argparse
import collections
import concurrent.futures
import functools
import os
import pathlib
import re
import tempfile
import typing

from . import cases
from .refuse import PROGRAM
from .served import Served, library

SHORT = 200
# How many damaged modules are run one after another in one place.
BATCH = 5000
SUBJECTS = ("worked", "fence", "replacement", "keywords", "gotos", "text_functions")
# What a run reports with each status.
TOLD = {
    0: re.compile(rb""),
    1: re.compile(rb"error E[0-9]+ statement [0-9]+( card [0-9]+)?\n"),
    4: re.compile(rb"offset [0-9]+ [FW][0-9]+\n"),
    5: re.compile(rb"(steps used up|stlimit statement [0-9]+( card [0-9]+)?)\n"),
    6: re.compile(rb"unit [0-9]+ U1\n"),
}


class Module(typing.NamedTuple):
    """The module of a deck."""

    name: str
    content: bytes

    def others(self):
        """How many other values each byte gets."""
        return 255 if len(self.content) <= SHORT else 8

    def forms(self):
        """How many damaged forms there are."""
        return len(self.content) * (1 + self.others())

    def form(self, number):
        """One of them: first those that are cut."""
        if number < len(self.content):
            return self.content[:number]
        at, which = divmod(number - len(self.content), self.others())
        other = which + 1 if self.others() == 255 else 1 << which
        return self.content[:at] + bytes([self.content[at] ^ other]) + self.content[at + 1 :]


def modules(library_file, program):
    """The modules that are damaged, each once."""
    taken = cases.cases_of(SUBJECTS)
    rest = cases.looked_at(cases.cases_of(["but", *SUBJECTS]), library_file, program)
    taken += [it.case for it in cases.covering(list(rest))]
    found = cases.modules_of((it.deck for it in taken), library_file, program)
    return [Module(it.name, content) for it, content in zip(taken, found) if content]


class Damaged(typing.NamedTuple):
    """A damaged module, what is reported of it and the status."""

    name: str
    content: bytes
    told: bytes
    status: int

    def kind(self):
        """What came of it, in few words; numbers and places left out."""
        if self.status not in TOLD:
            return "the program ended"
        words = re.sub(rb"offset [0-9]+ |steps|statement [0-9]+|card [0-9]+|unit [0-9]+ ", b"", self.told).split()
        return {0: "a normal end", 4: "refused"}.get(self.status) or b" ".join(words).decode("latin-1")

    def failure(self):
        """The line that reports what is wrong, or none."""
        if self.status in TOLD and TOLD[self.status].fullmatch(self.told):
            return None
        return f"{self.name}: status {self.status}, told {self.told!r}; the module is {self.content.hex()}"


class Batch(typing.NamedTuple):
    """Some forms of a module, and the program."""

    module: Module
    numbers: range
    program: pathlib.Path

    def damaged(self, library_file):
        """The forms and what is reported of them."""
        names = [f"{self.module.name}, form {number}" for number in self.numbers]
        contents = [self.module.form(number) for number in self.numbers]
        answers = alone(library_file, self.program, contents)
        return [Damaged(*it) for it in zip(names, contents, *zip(*answers))]


def alone(library_file, program, contents):
    """What `sno run` reports of modules, and its status, started anew for each."""
    with tempfile.TemporaryDirectory(prefix="sno-damage-") as folder:
        with Served(library_file, program, ["run", "file", "--steps", "10000"], folder) as served:
            return [(seen.told, seen.status) for seen in served.run_each(contents)]


def some(library_file, batch):
    """Runs a batch: how many forms came to what, and the lines that report what failed."""
    found = batch.damaged(library_file)
    lines = [line for line in map(Damaged.failure, found) if line]
    return collections.Counter(it.kind() for it in found), lines


def batches(found, every, program):
    """Each so many-th form of all modules, in batches."""
    for number, module in enumerate(found):
        numbers = range(number % every, module.forms(), every)
        yield from (Batch(module, numbers[at : at + BATCH], program) for at in range(0, len(numbers), BATCH))


def arguments():
    """The words of the command line."""
    parser = argparse.ArgumentParser(description=__doc__.partition("\n\n")[0])
    parser.add_argument("program", nargs="?", default=PROGRAM, help="build/sno if none is given")
    parser.add_argument("--every", type=int, default=1, metavar="K", help="only each K-th damaged module")
    parser.add_argument("--jobs", type=int, default=os.cpu_count(), metavar="N", help="how many at once")
    return parser.parse_args()


def main():
    """Runs what the command line asks for."""
    given = arguments()
    program = pathlib.Path(given.program).resolve()
    came, failed = collections.Counter(), 0
    with tempfile.TemporaryDirectory(prefix="sno-damage-") as folder:
        built = library(folder)
        found = modules(built, program)
        with concurrent.futures.ProcessPoolExecutor(given.jobs) as pool:
            for counts, lines in pool.map(functools.partial(some, built), batches(found, given.every, program)):
                came, failed = came + counts, failed + len(lines)
                print("".join(f"FAILED {line}\n" for line in lines[:5]), end="", flush=True)
    ran = sum(came.values())
    print(f"{ran} of {sum(it.forms() for it in found)} damaged forms of {len(found)} modules")
    print(", ".join(f"{what}: {count}" for what, count in came.most_common()))
    print(f"{ran - failed} passed, {failed + (not ran)} failed")
    return 1 if failed or not ran else 0
