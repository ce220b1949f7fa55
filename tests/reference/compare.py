"""Compares the reference with the cases of tests/decks and with worked decks, and its two searches with each other."""

import argparse
import concurrent.futures
import re
import shlex

from case_files import unpacked

from . import generate, worked
from .command import seen_of
from .replay import Replay
from .units import Units

DECKS = unpacked("decks")
# Words of a case that the reference has nothing for: steps, and files that can't be opened or written, as those that two
# units have.
LEFT_OUT = re.compile(r"--steps.*|[0-9]+=(\.|not_there.*|/dev/.*|(\./)?both)")

MOST_RULES = 1500


def bytes_of(deck, ending):
    """What the case's file with this ending holds, or None."""
    file = deck.with_name(deck.stem + ending)
    return file.read_bytes() if file.is_file() else None


def words_of(deck):
    """The words of a case."""
    return shlex.split((bytes_of(deck, ".words") or b"").decode())


def units_of(deck):
    """The units of a case, and those of them that are files."""
    files = [int(word.partition("=")[0]) for word in words_of(deck)]
    inputs = {5: bytes_of(deck, ".in") or b""}
    inputs.update((unit, bytes_of(deck, f".{unit}.in")) for unit in files)
    return Units({unit: it for unit, it in inputs.items() if it is not None}, {6, *files}), files


def is_left_out(deck):
    """Whether nothing is compared of a case, for its words."""
    return any(LEFT_OUT.fullmatch(word) for word in words_of(deck))


def differences(deck):
    """The lines that report how the reference differs from a case."""
    units, files = units_of(deck)
    seen = seen_of(deck.read_bytes(), units)
    status = int((bytes_of(deck, ".status") or b"0").decode())
    pairs = [("exit status", status, seen.status), ("told", bytes_of(deck, ".told") or b"", seen.told)]
    pairs.append(("printed", bytes_of(deck, ".out") or b"", b"" if 6 in files else seen.out))
    for unit in files:
        written = {on for on, record in units.printed}
        before = bytes_of(deck, f".{unit}.in") or b""
        after = bytes_of(deck, f".{unit}")
        got = units.bytes_on(unit) if unit in written else before
        pairs.append((f"unit {unit}", before if after is None else after, got))
    return [f"{what}: wanted {wanted!r}, got {got!r}" for what, wanted, got in pairs if wanted != got]


def compared(deck):
    """A case, and how the reference differs from it, or None if it is left out."""
    return str(deck.relative_to(DECKS)), None if is_left_out(deck) else differences(deck)


def compared_worked(number):
    """A worked deck, and how the reference differs from it."""
    return f"worked deck {number}", worked.differences(worked.DECKS[number])


def compared_searches(seed):
    """A random deck of the whole language, and how the two searches differ, or None if it uses too many rules."""
    deck, given = generate.deck(seed, tuple(generate.LATER)), {5: b"AB\n(A)\n"}
    walked = seen_of(deck, Units(given), MOST_RULES)._replace(units=None)
    replayed = seen_of(deck, Units(given), MOST_RULES, Replay)._replace(units=None)
    if b"rules used up\n" in (walked.told, replayed.told):
        return f"seed {seed}", None
    return f"seed {seed}", [] if walked == replayed else [f"walked {walked}", f"replayed {replayed}", deck.decode()]


def arguments():
    """The words of the command line."""
    parser = argparse.ArgumentParser(description=__doc__)
    parser.add_argument("--only", metavar="PREFIX", default="", help="only cases whose SUBJECT/NAME begins so")
    parser.add_argument("--decks", type=int, default=300, metavar="N", help="random decks for the two searches")
    parser.add_argument("--jobs", type=int, default=2, metavar="N", help="how many at once")
    return parser.parse_args()


def main():
    """Compares all cases; the last line is `N passed, M failed`."""
    given = arguments()
    decks = [it for it in sorted(DECKS.glob("*/*.sno")) if not it.with_suffix(".cmd").is_file()]
    decks = [it for it in decks if str(it.relative_to(DECKS)).startswith(given.only)]
    with concurrent.futures.ProcessPoolExecutor(given.jobs) as pool:
        parts = [pool.map(compared, decks, chunksize=8)]
        if not given.only:
            parts.append(pool.map(compared_worked, range(len(worked.DECKS))))
            parts.append(pool.map(compared_searches, range(given.decks), chunksize=8))
        results = [result for part in parts for result in part]
    left_out = sum(lines is None for name, lines in results)
    failed = [(name, lines) for name, lines in results if lines]
    for name, lines in failed:
        print(f"FAILED {name}", *lines, sep="\n")
    print(f"{left_out} left out")
    print(f"{len(results) - left_out - len(failed)} passed, {len(failed)} failed")
    return 1 if failed or left_out == len(results) else 0
