"""Runs random decks of the whole language each way that programs `sno` have, and compares all with the reference.

Each deck is run by `sno` alone, compiled, and its module checked, shown and run, without input and with some. All ways
and all programs give the same, and the reference says what. Where the reference would use too many rules, as a match
may go on for ever, the module is run for so many steps on each program. The decks have each instruction and each
primitive.
"""

import argparse
import concurrent.futures
import functools
import os
import pathlib
import re
import subprocess
import tempfile
import typing

from . import mangle, whole
from .bound import INPUT, SECONDS, USED_UP, executable
from .command import seen_of
from .generate import LATER
from .units import Units

MOST_RULES = 5000
STEPS = "20000"
ROOT = pathlib.Path(__file__).resolve().parents[2]
DEFAULT = str(ROOT / "build" / "sno")
# A row of the table of instructions, and what `sno show` prints of one.
ROW = re.compile(r"^\| [0-9a-f]{2} \| ([A-Z]+) \|", re.MULTILINE)
SHOWN = re.compile(rb"^[0-9a-f]{8} (PRIM[VN] [0-9]+|[A-Z]+)", re.MULTILINE)
PRIMITIVES = re.compile(r"^\s+PrimId::\w+,$", re.MULTILINE)
# No deck is compiled to these; they stand in modules that others write.
WITHOUT = {"PAT"}


class Case(typing.NamedTuple):
    """A deck by its name."""

    name: str
    deck: bytes


class Result(typing.NamedTuple):
    """What came of a case: the lines that report what differs, whether it was left out, and its instructions."""

    case: Case
    lines: typing.List[str]
    left_out: bool
    instructions: typing.Set[str]


class Ways(typing.NamedTuple):
    """What a program makes of a deck: what is seen of each way by its name, and the module."""

    seen: typing.Dict[str, typing.Tuple[bytes, bytes, int]]
    module: typing.Optional[bytes]


def ran(program, folder, words, given=b""):
    """What is seen of a program with these words: output, what it reports, and its status."""
    how = {"stdout": subprocess.PIPE, "stderr": subprocess.PIPE, "input": given, "timeout": SECONDS, "check": False}
    done = subprocess.run([program, *words], cwd=folder, **how)
    return done.stdout, done.stderr, done.returncode


def ways(program, folder, deck, is_bounded):
    """What a program makes of a deck; of one that may run for ever the runs are bounded."""
    file = pathlib.Path(folder, "module")
    file.unlink(missing_ok=True)
    pathlib.Path(folder, "deck").write_bytes(deck)
    run = functools.partial(ran, program, folder)
    seen = {"compile": run(["compile", "deck", "module"])}
    if not is_bounded:
        seen["alone"] = run([], deck)
    if not file.is_file():
        return Ways(seen, None)
    bound = ["--steps", STEPS] if is_bounded else []
    seen.update(check=run(["check", "module"]), show=run(["show", "module"]))
    seen.update(run=run(["run", "module", *bound]), fed=run(["run", "module", *bound], INPUT))
    return Ways(seen, file.read_bytes())


def wanted(case):
    """What the reference says of each way, and None where it would use too many rules."""
    seen = [seen_of(case.deck, Units({5: given}), MOST_RULES) for given in (b"", INPUT)]
    if any(it.told == b"rules used up\n" for it in seen):
        return None
    alone, fed = ((it.out, it.told, it.status) for it in seen)
    if alone[2] == 3:
        return {"compile": alone, "alone": alone}
    return {"compile": (b"", b"", 0), "alone": alone, "check": (b"ok\n", b"", 0), "run": alone, "fed": fed}


def compared(programs, case):
    """What comes of a case."""
    right, lines = wanted(case), []
    with tempfile.TemporaryDirectory(prefix="sno-ways-") as folder:
        made = [ways(program, folder, case.deck, right is None) for program in programs]
    for program, it in zip(programs, made):
        for way, seen in (right or {}).items():
            if it.seen.get(way) != seen:
                lines.append(f"{way} on {program}: wanted {seen}, got {it.seen.get(way)}")
        if it != made[0]:
            differing = [way for way in it.seen if it.seen[way] != made[0].seen.get(way)]
            lines.append(f"{program} differs from {programs[0]}: {', '.join(differing) or 'the module'}")
        lines += [f"{way} on {program} ended by a signal" for way, seen in it.seen.items() if seen[2] < 0]
    shown = made[0].seen.get("show", (b"",))[0]
    return Result(case, lines, right is None, {name.decode() for name in SHOWN.findall(shown)})


def result_of(programs, case):
    """The result of a case."""
    try:
        return compared(programs, case)
    except subprocess.TimeoutExpired as error:
        return Result(case, [f"no end within {SECONDS} seconds: {error.cmd}"], False, set())


def instructions():
    """The instructions that the decks must have, those of primitives with their numbers."""
    page = (ROOT / "docs" / "module-format.md").read_text(encoding="utf-8").partition("## Pattern instructions")[0]
    named = set(ROW.findall(page)) - {"PRIMV", "PRIMN"} - WITHOUT
    code = (ROOT / "crates" / "model" / "src" / "primitives.rt").read_text(encoding="utf-8")
    return named | {f"PRIMV {number}" for number in range(len(PRIMITIVES.findall(code)))}


def arguments():
    """The words of the command line."""
    parser = argparse.ArgumentParser(description=__doc__.partition("\n\n")[0])
    parser.add_argument("program", nargs="*", type=executable, help="a program; if none is given, build/sno")
    parser.add_argument("--decks", type=int, default=500, metavar="N", help="how many decks")
    parser.add_argument("--mangled", type=int, default=100, metavar="N", help="how many with something wrong")
    parser.add_argument("--seed", type=int, default=1, metavar="N", help="the seed of the first")
    parser.add_argument("--jobs", type=int, default=os.cpu_count(), metavar="N", help="how many at once")
    return parser.parse_args()


def cases(given):
    """All cases."""
    found = [Case(f"seed {it}", whole.deck(it)) for it in range(given.seed, given.seed + given.decks)]
    seeds = range(given.seed, given.seed + given.mangled)
    return found + [Case(f"mangled {it}", mangle.deck(it, tuple(LATER))) for it in seeds]


def main():
    """Compares all cases; the last line is `N passed, M failed`."""
    given = arguments()
    programs = given.program or [executable(DEFAULT)]
    with concurrent.futures.ProcessPoolExecutor(given.jobs) as pool:
        results = list(pool.map(functools.partial(result_of, programs), cases(given), chunksize=4))
    failed = [it for it in results if it.lines]
    for it in failed[:20]:
        print(f"FAILED {it.case.name}", *it.lines, it.case.deck.decode("latin-1"), sep="\n")
    missing = instructions() - set().union(*(it.instructions for it in results))
    if missing and given.decks >= 500:
        print(f"FAILED no deck has {', '.join(sorted(missing))}")
    else:
        missing = ()
    print(f"{sum(it.left_out for it in results)} without the reference, as they use too many rules")
    print(f"{len(results) - len(failed)} passed, {len(failed) + bool(missing)} failed")
    return 1 if failed or missing else 0
