"""Lets each call of the system fail in turn, and compares what a run does then with what it does otherwise.

The decks are those of decks/failing.cases, which read and write several units, and one that copies records. Each read,
write, opening and renaming of a file fails; the program answers as before, or tells what can't be read or written,
having printed a beginning. Where calls move one byte or are interrupted, it answers as before. Where standard streams
are closed, it answers as before, or tells what can't be read or written. Where the process is killed at a call that
changes files, each unit holds a beginning, and a module is the old one or the new one. The last line is `N passed, M
failed`.
"""

import argparse
import collections
import pathlib
import re
import signal
import tempfile

from . import cases
from .refuse import PROGRAM, Command, Run, commands_of, left_beside
from .served import LAST, SIGNAL, Served, library

OLDER = pathlib.Path(__file__).resolve().parents[1] / "older" / "a_deck_of_arithmetic.module"
FAULT = re.compile(rb"(unit [5-9] U[23]|cannot (read|write) [a-z. ]+)\n")


def copying():
    """The deck that copies records, on three records."""
    deck = b"L OUTPUT = INPUT :S(L)\nEND\n"
    return cases.Case("copying", deck, [], b"A\n\nB", {})


def wrong_file(run, wanted, seen):
    """What is wrong with a file after a run that was stopped, if anything: it's a beginning, or whole, or as before."""
    for name, content in seen.files.items():
        if name in run.command.whole:
            if content not in (run.before, wanted.files[name]):
                return f"left {name} in part"
        elif not (wanted.files[name] or b"").startswith(content or b""):
            return f"{name} holds {content!r}"
    return None


def fault_of_call(run, kind, wanted, seen):
    """What is wrong with what is seen where a call of the system failed, if anything."""
    if run.beside():
        return left_beside(run)
    if seen == wanted:
        return None
    if seen.status >= SIGNAL:
        return f"signal {seen.status - SIGNAL}"
    if kind not in FAILING_KINDS:
        return f"found {seen}, wanted {wanted}"
    # A line of standard error may itself not be written, or in part.
    told = FAULT.fullmatch(seen.told) or (kind in ("write", "closed") and wanted.told.startswith(seen.told))
    if seen.status != 6 or not told:
        return f"status {seen.status}, told {seen.told!r}"
    if not wanted.out.startswith(seen.out):
        return f"printed {seen.out!r}"
    return wrong_file(run, wanted, seen)


def with_failing_calls(run, kind):
    """Lets each call of a kind fail, alone and with all that follow; how many runs, and what is wrong."""
    wanted, _ = run.seen()
    count, lines = 0, []
    for n in range(1, LAST):
        # A call that is interrupted for ever is made for ever.
        for last in [n] if kind.endswith("again") else [n, LAST]:
            seen, failed = run.seen(n, last, kind)
            count += failed > 0
            why = fault_of_call(run, kind, wanted, seen)
            if why:
                lines.append(f"{run.name()}, {kind} {n} to {last}: {why}")
        if not failed:
            return count, lines


def with_closed_streams(run):
    """Closes standard streams, in each of the seven ways; how many runs, and what is wrong."""
    wanted, _ = run.seen()
    lines = []
    for closed in range(1, 8):
        seen, _ = run.seen(closed, kind="closed")
        # What isn't written anywhere is wanted of no stream.
        out = b"" if closed & 2 else wanted.out
        told = b"" if closed & 4 else wanted.told
        why = fault_of_call(run, "closed", wanted._replace(out=out, told=told), seen)
        if why:
            lines.append(f"{run.name()}, streams {closed:03b} closed: {why}")
    return 7, lines


def fault_of_kill(run, wanted, seen):
    """What is wrong with what is seen where the process was killed, if anything."""
    if seen.status != SIGNAL + signal.SIGKILL:
        return f"status {seen.status}"
    if not wanted.out.startswith(seen.out):
        return f"printed {seen.out!r}"
    return wrong_file(run, wanted, seen)


def with_kills(run, kind):
    """Kills the process at each call that changes files; how many runs, and what is wrong."""
    wanted, _ = run.seen()
    count, lines = 0, []
    for n in range(1, LAST):
        seen, killed = run.seen(n, n, kind)
        if not killed:
            return count, lines
        count += 1
        why = fault_of_kill(run, wanted, seen)
        if why:
            lines.append(f"{run.name()}, {kind} {n}: {why}")


FAILING_KINDS = ("read", "write", "open", "rename", "closed")
KINDS = ("read", "write", "open", "rename", "short_read", "short_write", "read_again", "write_again")
KILLS = ("kill", "kill_amid")
OLD = b"an old module"


def of_command(served, case, command):
    """Lets calls of the system fail in a command; for each way which it is, how many runs, and what is wrong."""
    for before in (None, OLD) if command.whole else (None,):
        run = Run(served, case, command, before)
        yield from (("failing", *with_failing_calls(run, kind)) for kind in KINDS)
        yield from (("killed", *with_kills(run, kind)) for kind in KILLS)
        yield ("closed", *with_closed_streams(run))
        # The module for the commands that follow.
        run.seen()


def upgrading():
    """A module of version 1 of the format, to be upgraded."""
    lines = (line.partition("#")[0] for line in OLDER.read_text().splitlines())
    return cases.Case("upgrading", b"", [], b"", {"old.module": bytes.fromhex("".join(lines))})


def of_system(library_file, program, case):
    """Lets calls of the system fail in each command of a case."""
    if case.deck:
        commands = [*commands_of(case), Command(["go", "deck.sno", *case.words])]
    else:
        commands = [Command(["upgrade", "old.module", "new.module"], ("new.module",))]
    with tempfile.TemporaryDirectory(prefix="sno-failing-") as folder:
        for command in commands:
            with Served(library_file, program, command.words, folder) as served:
                yield from of_command(served, case, command)


def arguments():
    """The words of the command line."""
    parser = argparse.ArgumentParser(description=__doc__.partition("\n\n")[0])
    parser.add_argument("program", nargs="?", default=PROGRAM, help="build/sno if none is given")
    return parser.parse_args()


def main():
    """Runs what the command line asks for."""
    program = pathlib.Path(arguments().program).resolve()
    decks = [copying(), upgrading(), *cases.cases_of(["failing"])]
    with tempfile.TemporaryDirectory(prefix="sno-failing-") as folder:
        built = library(folder)
        parts = [part for case in decks for part in of_system(built, program, case)]
    for line in (line for _, _, lines in parts for line in lines[:5]):
        print(f"FAILED {line}")
    counts = collections.Counter()
    for kind, count, _ in parts:
        counts[kind] += count
    failed = sum(len(lines) for _, _, lines in parts)
    print(f"{len(decks)} cases, {counts['failing']} runs with a failing call of the system, ", end="")
    print(f"{counts['closed']} with closed streams, {counts['killed']} killed")
    print(f"{sum(counts.values()) - failed} passed, {failed} failed")
    return 1 if failed else 0
