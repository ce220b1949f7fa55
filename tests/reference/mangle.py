"""Decks with something wrong: random decks with a few edits, and statements of random tokens."""

import random

from . import generate

BYTES = b" ';\"()<>,=:*/+-.$@?&|~%#!^_`{}AENDLSFX019\n\t\x80"
TOKENS = [" ", " ", " ", " ", "X", "S", "F", "END", "1", "9223372036854775808", "'A'", '"B"', "'"]
TOKENS += ["SIZE", "ANY", "&STNO", "EQ", "RETURN", "POS", "L1", "&ANCHOR", "(", ")", "(", ")", "<", ">"]
TOKENS += [",", "=", " = ", " = ", ":", " :", "**", "*", "/", "+", "-", ".", "$", "@", "?", "&", "|", "~"]
TOKENS += [" | ", " . ", " * ", " - ", ";", "#"]
BEGINNINGS = [" ", " ", " ", " X ", " X = ", " X = X ", " X X = ", " X :", " ;", "L2 ", "END ", "L", "\n"]


def edited(drawn, deck):
    """A deck after one edit."""
    at = drawn.randrange(len(deck))
    more = bytes([drawn.choice(BYTES)])
    kind = drawn.randrange(4)
    if kind == 0:
        return deck[:at] + more + deck[at + 1 :]
    if kind == 1:
        return deck[:at] + more + deck[at:]
    if kind == 2:
        return deck[:at] + deck[at + drawn.randrange(1, 12) :]
    return deck[:at] + deck[at:].replace(b"\n", b"\n+", 1)


def mangled(seed, later):
    """A random deck after some edits."""
    drawn, deck = random.Random(f"mangled {seed}"), generate.deck(seed, later)
    for _ in range(drawn.choice([1, 1, 1, 2, 3, 5])):
        deck = edited(drawn, deck)
    return deck


def soup(seed):
    """A deck of statements of random tokens."""
    drawn = random.Random(f"soup {seed}")
    lines = [" &STLIMIT = 50"]
    for _ in range(30):
        tokens = "".join(drawn.choice(TOKENS) for _ in range(drawn.randrange(1, 9)))
        first = drawn.choice(["-", "+", "*", "-LIST"]) if drawn.randrange(200) == 0 else drawn.choice(BEGINNINGS)
        lines.append(first + tokens)
    return "\n".join([*lines, drawn.choice(["END", "END X", " X;END", "END ; X"])]).encode()


def deck(seed, later):
    """The deck of a seed."""
    return soup(seed) if seed % 2 else mangled(seed, later)
