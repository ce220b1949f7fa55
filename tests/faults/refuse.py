"""Refuses each growth of memory in turn, of programs that compile, check, show and run decks.

For each deck and each command the Nth growth is refused, for each N until none is refused, once alone and once with all
that follow. The command answers as it does with ample memory, or tells `no memory` with status 6, having printed a
beginning of the right records; a compilation leaves the same module, or none. Then the commands are run with so little
address space that memory is really refused, at twenty sizes. The last line is `N passed, M failed`.
"""

import argparse
import concurrent.futures
import functools
import os
import pathlib
import tempfile
import typing

from . import cases
from .served import LAST, SIGNAL, Served, library

PROGRAM = pathlib.Path(__file__).resolve().parents[2] / "build" / "sno"
NO_MEMORY = (6, b"no memory\n")
# Sizes of address space, as bytes more than the program has at its start.
SPACES = [1024 * k * k for k in range(20)]


class Seen(typing.NamedTuple):
    """How a command ended, what it printed and reported, and what its files held then."""

    status: int
    out: bytes
    told: bytes
    files: typing.Dict[str, typing.Optional[bytes]]


class Command(typing.NamedTuple):
    """The words of a command, and the files that it writes whole or not at all."""

    words: typing.List[str]
    whole: typing.Tuple[str, ...] = ()


COMPILE = Command(["compile", "deck.sno", "deck.module"], ("deck.module",))
OF_MODULES = (Command(["check", "deck.module"]), Command(["show", "deck.module"]))


def commands_of(case):
    """The commands that a deck is given to."""
    alone = [] if case.words or case.given else [Command([])]
    return [*alone, COMPILE, *OF_MODULES, Command(["run", "deck.module", *case.words])]


def is_beginning(some, whole):
    """Whether some bytes are a beginning of the records of others."""
    return whole.startswith(some) and (some in (b"", whole) or some.endswith(b"\n"))


def fault(wanted, seen, whole):
    """What is wrong with what is seen where memory was refused, if anything."""
    if seen == wanted:
        return None
    if seen.status >= SIGNAL:
        return f"signal {seen.status - SIGNAL}"
    if (seen.status, seen.told) != NO_MEMORY:
        return f"status {seen.status}, told {seen.told[:200]!r}"
    if not is_beginning(seen.out, wanted.out):
        return f"printed {seen.out[-200:]!r}"
    for name, content in seen.files.items():
        if name in whole and content is not None:
            return f"left {name}"
        if not is_beginning(content or b"", wanted.files[name] or b""):
            return f"{name} holds {content[-200:]!r}"
    return None


def left_beside(run):
    """What is wrong with the files beside others, where the process ended by itself."""
    return f"left {run.beside()}" if run.beside() else None


class Run:
    """A command in a folder, ready to run on a deck's files, with this in the files that it writes whole."""

    def __init__(self, served, case, command, before=None):
        self.served, self.case, self.command, self.before = served, case, command, before
        served.put("deck.sno", case.deck)
        served.put("stdin", case.given if command.words else case.deck)

    def name(self):
        """The name of the deck, and the command."""
        return f"{self.case.name}, sno {' '.join(self.command.words)}"

    def beside(self):
        """The names of files that a command writes beside others, and gives their names only when they are whole."""
        return [file.name for file in self.served.folder.glob(".sno-*")]

    def seen(self, first=0, last=0, kind="growth"):
        """What is seen where these growths are refused, and how many are."""
        self.case.put(self.served)
        for name in self.command.whole:
            self.served.put(name, self.before)
        for name in self.beside():
            self.served.put(name, None)
        answer = self.served.run(kind, first, last)
        files = {**self.case.get(self.served), **{name: self.served.get(name) for name in self.command.whole}}
        return Seen(answer.status, answer.out, answer.told, files), answer.failed


def refused(run, first, every):
    """Refuses growths from this one on, each so many-th, alone and with what follows; how many, and what is wrong."""
    wanted, _ = run.seen()
    count, lines = 0, []
    for n in range(first, LAST, every):
        for last in (n, LAST):
            seen, failed = run.seen(n, last)
            count += failed > 0
            why = fault(wanted, seen, run.command.whole) or left_beside(run)
            if why:
                so = "alone" if last == n else "and all that follow"
                lines.append(f"{run.name()}, growth {n} {so}: {why}")
        if not failed:
            return count, lines
    return count, lines


def in_little_space(run):
    """Runs a command in little address space; how many times it was too little, and what is wrong."""
    wanted, _ = run.seen()
    count, lines = 0, []
    for space in SPACES:
        seen, _ = run.seen(space, kind="space")
        why = fault(wanted, seen, run.command.whole)
        count += seen.told == NO_MEMORY[1]
        if why:
            lines.append(f"{run.name()}, {space} bytes of address space: {why}")
    return count, lines


def of_case(library_file, program, every, number, case):
    """Refuses memory to each command of a case; how many growths were refused, and what is wrong."""
    total, found = 0, []
    with tempfile.TemporaryDirectory(prefix="sno-refuse-") as folder:
        for command in commands_of(case):
            of_a_module = "deck.module" in command.words and command != COMPILE
            if of_a_module and not pathlib.Path(folder, "deck.module").is_file():
                break
            with Served(library_file, program, command.words, folder) as served:
                run = Run(served, case, command)
                parts = [refused(run, 1 + number % every, every)]
                if number % every == 0:
                    parts.append(in_little_space(run))
                total += sum(count for count, _ in parts)
                found += [line for _, lines in parts for line in lines]
                # The module for the commands that follow.
                run.seen()
    return total, found


def arguments():
    """The words of the command line."""
    parser = argparse.ArgumentParser(description=__doc__.partition("\n\n")[0])
    parser.add_argument("program", nargs="?", default=PROGRAM, help="build/sno if none is given")
    parser.add_argument("--every", type=int, default=1, metavar="K", help="only each K-th growth")
    parser.add_argument("--jobs", type=int, default=os.cpu_count(), metavar="N", help="how many at once")
    return parser.parse_args()


def main():
    """Runs what the command line asks for."""
    given = arguments()
    program = pathlib.Path(given.program).resolve()
    total = failed = 0
    with tempfile.TemporaryDirectory(prefix="sno-refuse-") as folder:
        built = library(folder)
        decks, instructions = cases.chosen(built, program)
        one = functools.partial(of_case, built, program, given.every)
        with concurrent.futures.ProcessPoolExecutor(given.jobs) as pool:
            for count, lines in pool.map(one, range(len(decks)), decks):
                total, failed = total + count, failed + len(lines)
                print("".join(f"FAILED {line}\n" for line in lines[:5]), end="", flush=True)
    print(f"{len(decks)} decks with {instructions} instructions, {total} refusals")
    print(f"{total - failed} passed, {failed + (not total)} failed")
    return 0 if total and not failed else 1
