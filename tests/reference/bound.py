"""Compares a program with the reference on decks, and the steps of each run with the rules that it uses."""

import argparse
import concurrent.futures
import functools
import os
import pathlib
import resource
import subprocess
import tempfile
import typing

from . import families, generate, mangle
from .command import seen_of
from .compare import DECKS, bytes_of, is_left_out
from .units import Units

STEPS_PER_RULE = 5
# Runs that use more rules are left out: of a deck that may go on for ever, and of a family.
MOST_RULES = 20000
MOST_RULES_OF_FAMILIES = 400000
SECONDS = 60
MEMORY = 1 << 30
INPUT = b"AB\n(A)\n\nBAAB  \n"
USED_UP = b"steps used up\n"
HERE = pathlib.Path(__file__).resolve().parents[1]


class Case(typing.NamedTuple):
    """A deck by its name, the most rules that it may use, and what unit 5 holds."""

    name: str
    deck: bytes
    most: int
    given: bytes = INPUT


class Result(typing.NamedTuple):
    """What came of a case: whether it was left out, what differs, the steps of its run and the rules."""

    case: Case
    left_out: bool
    lines: typing.List[str]
    steps: int = 0
    rules: int = 0

    def ratio(self):
        """Steps for a rule."""
        return self.steps / (self.rules + 1)


class Program(typing.NamedTuple):
    """A program `sno`, the folder in which it runs, and its standard input."""

    path: str
    folder: str
    memory: int
    given: bytes = b""

    def run(self, *words):
        """What is seen of the program with these words."""
        how = {"stdout": subprocess.PIPE, "stderr": subprocess.PIPE, "input": self.given, "timeout": SECONDS}
        how.update(cwd=self.folder, check=False, preexec_fn=self.limit_memory)
        ran = subprocess.run([self.path, *words], **how)
        return ran.stdout, ran.stderr, ran.returncode

    def limit_memory(self):
        """Keeps the program from taking all the machine's memory."""
        if self.memory:
            resource.setrlimit(resource.RLIMIT_AS, (self.memory, self.memory))

    def compile(self, deck):
        """Compiles a deck to the file `module`."""
        pathlib.Path(self.folder, "deck").write_bytes(deck)
        return self.run("compile", "deck", "module")

    def has_ended(self, steps):
        """Whether the run of the module ends within so many steps."""
        return self.run("run", "module", "--steps", str(steps))[1] != USED_UP


def least_steps(program, most):
    """The least number of steps that ends the run, or None if it is over `most`."""
    if not program.has_ended(most):
        return None
    low, high = -1, most
    while high - low > 1:
        middle = (low + high) // 2
        low, high = (low, middle) if program.has_ended(middle) else (middle, high)
    return high


def compared(program, case):
    """What comes of a case."""
    seen = seen_of(case.deck, Units({5: case.given}), case.most)
    if seen.told == b"rules used up\n":
        return Result(case, True, [])
    got = program.compile(case.deck)
    if got == (b"", b"", 0):
        got = program.run("run", "module")
    wanted = (seen.out, seen.told, seen.status)
    if got != wanted:
        return Result(case, False, [f"wanted {wanted}", f"got {got}"])
    if seen.status in (3, 6):
        return Result(case, False, [])
    most = STEPS_PER_RULE * (seen.rules + 1)
    steps = least_steps(program, most)
    if steps is None:
        return Result(case, False, [f"more than {most} steps for {seen.rules} rules"], most + 1, seen.rules)
    return Result(case, False, [], steps, seen.rules)


def result_of(path, memory, case):
    """The result of a case, in a folder of its own."""
    with tempfile.TemporaryDirectory(prefix="sno-bound-") as folder:
        try:
            return compared(Program(path, folder, memory, case.given), case)
        except subprocess.TimeoutExpired:
            return Result(case, False, [f"no end within {SECONDS} seconds"])


def constructs(path, memory):
    """The constructs that only some programs run, of those that this one runs."""
    with tempfile.TemporaryDirectory(prefix="sno-bound-") as folder:
        program = Program(path, folder, memory)
        shown = generate.LATER.items()
        return [name for name, text in shown if program.compile(f"{text}\nEND\n".encode())[2] == 0]


def written_cases():
    """The cases of tests/decks that have no words."""
    decks = [it for it in sorted(DECKS.glob("*/*.sno")) if not is_left_out(it)]
    decks = [it for it in decks if not any(it.with_suffix(ending).is_file() for ending in (".words", ".cmd"))]
    return [Case(it.stem, it.read_bytes(), MOST_RULES, bytes_of(it, ".in") or b"") for it in decks]


def cases_of(given, later):
    """All cases."""
    found = families.all_families(later).items()
    cases = [Case(name, deck, MOST_RULES_OF_FAMILIES) for name, deck in found]
    seeds = range(given.seed, given.seed + given.decks)
    cases += [Case(f"seed {seed}", generate.deck(seed, later), MOST_RULES) for seed in seeds]
    seeds = range(given.seed, given.seed + given.mangled)
    cases += [Case(f"mangled {seed}", mangle.deck(seed, later), MOST_RULES) for seed in seeds]
    return cases + (written_cases() if given.cases else [])


def told(result):
    """The lines that report a failure."""
    text = result.case.deck.decode()
    return "\n".join([f"FAILED {result.case.name}", *result.lines, text if len(text) < 4000 else "(a long deck)"])


def executable(name):
    """A program of the command line."""
    path = pathlib.Path(name).resolve()
    if not path.is_file() or not os.access(path, os.X_OK):
        raise argparse.ArgumentTypeError(f"no program {name}")
    return str(path)


def arguments():
    """The words of the command line."""
    parser = argparse.ArgumentParser(description=__doc__)
    default = str(HERE.parent / "build" / "sno")
    parser.add_argument("program", nargs="?", default=default, type=executable, help="build/sno if none is given")
    numbers = {
        "decks": (200, "how many random decks, beside the families"),
        "mangled": (200, "how many decks with something wrong"),
        "seed": (1, "the seed of the first"),
        "jobs": (os.cpu_count(), "how many at once"),
        "memory": (MEMORY, "how many bytes of memory the program may have; 0 is any number"),
    }
    for name, (usual, about) in numbers.items():
        parser.add_argument(f"--{name}", type=int, default=usual, metavar="N", help=about)
    parser.add_argument("--cases", action="store_true", help="the decks of tests/decks too")
    parser.add_argument("--all", action="store_true", help="tell the ratio of each case")
    return parser.parse_args()


def main():
    """Compares all cases; the last lines are the largest ratio, and `N passed, M failed`."""
    given = arguments()
    later = constructs(given.program, given.memory)
    cases = cases_of(given, later)
    one = functools.partial(result_of, given.program, given.memory)
    with concurrent.futures.ProcessPoolExecutor(given.jobs) as pool:
        results = list(pool.map(one, cases))
    done = [it for it in results if not it.left_out]
    failed = [it for it in done if it.lines]
    if given.all:
        print(*(f"{it.ratio():.3f} {it.case.name}: {it.steps} steps, {it.rules} rules" for it in done), sep="\n")
    print(*map(told, failed), sep="\n", end="\n" if failed else "")
    most = max(done, key=Result.ratio)
    if most.ratio() <= STEPS_PER_RULE - 1:
        failed.append(most)
        print(f"FAILED {most.case.name}: no case needs {STEPS_PER_RULE} steps for a rule")
    print(f"constructs beside those that each program runs: {', '.join(later) or 'none'}")
    print(f"{len(results) - len(done)} left out, as they use too many rules")
    print(f"largest ratio {most.ratio():.3f}: {most.steps} steps for {most.rules} rules, {most.case.name}")
    print(f"{len(done) - len(failed)} passed, {len(failed)} failed")
    return 1 if failed else 0
