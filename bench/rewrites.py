"""What rewrites of the workloads cost, that a reader would call the same: bench/compare --variants.

`variants/NAME/REWRITE.sno` is the workload NAME rewritten, and beside it is the same rewrite in Lua of
`variants/NAME/plain.lua`, which does what the workload's deck does, statement by statement.
"""

import math
import pathlib
import re
import shutil
import subprocess
import tempfile
import typing

from inputs import made
from running import STEPS, run

HERE = pathlib.Path(__file__).resolve().parent
# By how much more than in Lua a rewrite may take longer.
MOST = 1.4
# How large inputs are: of runs that are timed, and of runs whose instructions are counted.
TIMED, COUNTED = 3.0, 0.1
HEAD = "| workload | rewrite | sno | factor | Lua | factor | by Lua's |\n|---|---|---|---|---|---|---|"


class Cost(typing.NamedTuple):
    """What a run prints, its status, and what it costs: seconds, or millions of instructions."""

    out: bytes
    status: int
    cost: float


def timed(command, content, folder):
    """A command's processor seconds."""
    ran = run(command, content, folder)
    return Cost(ran.out, ran.status, ran.seconds)


def counted(command, content, folder):
    """A command's instructions, in millions."""
    words = ["valgrind", "--tool=callgrind", "--callgrind-out-file=/dev/null", *command]
    ran = subprocess.run(words, input=content, cwd=folder, check=False, capture_output=True)
    return Cost(ran.stdout, ran.returncode, int(re.search(rb"Collected : ([0-9]+)", ran.stderr)[1]) / 1e6)


def commands(name, sno, lua):
    """The commands of a workload's programs, by rewrite; the plain one is the first."""
    folder = HERE / "variants" / name
    decks = {"plain": HERE / "workloads" / f"{name}.sno"}
    decks.update((deck.stem, deck) for deck in sorted(folder.glob("*.sno")))
    for rewrite, deck in decks.items():
        yield rewrite, "sno", [sno, "go", deck, "--steps", STEPS]
        yield rewrite, "lua", [lua, folder / f"{rewrite}.lua"]


def costs(name, sno, lua, given):
    """The least cost of each program of a workload, by rewrite and language. They take turns."""
    content = made(name, given.scale)
    measure, runs = (counted, 1) if given.instructions else (timed, given.runs)
    least = {}
    with tempfile.TemporaryDirectory(prefix="compare-") as folder:
        for _ in range(runs):
            for rewrite, language, command in commands(name, sno, lua):
                its = measure(list(map(str, command)), content, pathlib.Path(folder))
                least[rewrite, language] = min(its, least.get((rewrite, language), its), key=lambda it: it.cost)
    return least


def faults(name, least):
    """What is wrong with the outputs of a workload's programs: all print what its own deck prints."""
    wanted = least["plain", "sno"].out
    for (rewrite, language), its in least.items():
        if its.status or its.out != wanted:
            yield f"{name}, {rewrite}, {language}: status {its.status}, {its.out[:60]!r} and not {wanted[:60]!r}"


def rows(name, least):
    """The rows of a workload's rewrites, each with its factor by Lua's."""
    for rewrite in sorted({rewrite for rewrite, _ in least} - {"plain"}):
        sno, lua = (least[rewrite, language].cost for language in ("sno", "lua"))
        factor, in_lua = sno / least["plain", "sno"].cost, lua / least["plain", "lua"].cost
        by_lua = factor / in_lua
        yield f"| {name} | {rewrite} | {sno:.3f} | {factor:.2f} | {lua:.3f} | {in_lua:.2f} | {by_lua:.2f} |", by_lua


def compared(given):
    """Prints what the rewrites cost; the exit status."""
    lua, wrong, factors = next(filter(None, map(shutil.which, ("lua5.4", "lua"))), None), [], []
    for what, there in (("Lua", lua), ("valgrind", shutil.which("valgrind") or not given.instructions)):
        if not there:
            raise SystemExit(f"not installed: {what}")
    given.scale = given.scale or (COUNTED if given.instructions else TIMED)
    print("In millions of instructions:" if given.instructions else "In processor seconds:")
    print(HEAD)
    names = sorted(folder.name for folder in (HERE / "variants").iterdir() if given.only in (None, folder.name))
    for name in names:
        least = costs(name, given.program.resolve(), lua, given)
        wrong += faults(name, least)
        for row, factor in rows(name, least):
            print(row, flush=True)
            factors.append(factor)
    if factors:
        mean = math.exp(sum(map(math.log, factors)) / len(factors))
        over = sum(factor > MOST for factor in factors)
        print(f"geometric mean of the factor by Lua's, over {len(factors)} rewrites: {mean:.2f}; {over} over {MOST}")
    print("\n".join(wrong), end="\n" if wrong else "")
    return 1 if wrong else 0
