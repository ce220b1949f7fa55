"""The command: reads a deck, runs it, and reports what comes of it as `sno` does."""

import argparse
import pathlib
import sys
import typing

from .cards import CardFault, statements_of
from .faults import Refused, trees_of
from .meaning import Run
from .search import Search, TooLong
from .units import UnitFault, Units

DEEP_ENOUGH = 20000


class Seen(typing.NamedTuple):
    """What a run prints on unit 6, what it reports, its exit status, and the rules that it used."""

    out: bytes
    told: bytes
    status: int
    rules: int
    units: typing.Any


def told_of(deck):
    """The trees of a deck, and the lines that refuse it."""
    sys.setrecursionlimit(DEEP_ENOUGH)
    try:
        return trees_of(statements_of(deck)), ""
    except CardFault as fault:
        return None, f"card {fault.card} C{fault.rule}\n"
    except Refused as refused:
        return None, "".join(f"statement {number} {cause}\n" for number, cause in refused.causes)


def seen_of(deck, units, most=float("inf"), search=Search):
    """What is seen of a deck, with these units, at most so many rules, and matches done by this search."""
    trees, told = told_of(deck)
    if told:
        return Seen(b"", told.encode(), 3, 0, units)
    run = Run(trees, units, most, search)
    try:
        ending = run.run()
        cards = [statement.card for statement in statements_of(deck)]
        told, status = ending.told(cards), ending.status()
    except UnitFault as fault:
        told, status = f"unit {fault.unit} U{fault.rule}\n", 6
    except TooLong:
        told, status = "rules used up\n", 5
    return Seen(units.bytes_on(6), told.encode(), status, run.rules, units)


def arguments():
    """The words of the command line."""
    parser = argparse.ArgumentParser(description=__doc__)
    parser.add_argument("deck", type=pathlib.Path, metavar="DECK", help="the deck")
    parser.add_argument("input", type=pathlib.Path, nargs="?", metavar="INPUT", help="what unit 5 holds")
    parser.add_argument("--rules", action="store_true", help="tell how many rules were used, as the last line")
    parser.add_argument("--most", type=int, default=float("inf"), metavar="N", help="stop after N rules or some more")
    return parser.parse_args()


def main():
    """Runs what the command line asks for."""
    given = arguments()
    content = given.input.read_bytes() if given.input else b""
    seen = seen_of(given.deck.read_bytes(), Units({5: content}), given.most)
    sys.stdout.buffer.write(seen.out)
    sys.stdout.buffer.flush()
    sys.stderr.buffer.write(seen.told)
    if given.rules:
        sys.stderr.write(f"{seen.rules} rules\n")
    return seen.status
