"""Tokens of a statement's text, and token faults."""

import re
import typing

PIECE = re.compile(
    rb"(?P<blanks> +)"
    rb"|(?P<name>[A-Za-z][A-Za-z0-9._]*)"
    rb"|(?P<integer>[0-9]+)"
    rb"|(?P<literal>'[^']*'|\"[^\"]*\")"
    rb"|(?P<mark>\*\*|[()<>,=:*/+\-.$@?&|~])"
    rb"|(?P<unclosed>['\"].*)"
    rb"|(?P<none>.)",
    re.DOTALL,
)
UNARY_MARKS = frozenset(bytes([mark]) for mark in b"*+-.$@?&~")
GREATEST = 9223372036854775807
MOST_OPEN = 64
MOST_IN_A_ROW = 16


class Token(typing.NamedTuple):
    """A piece of a text: its kind (a group of PIECE) and its bytes."""

    kind: str
    text: bytes

    def is_mark(self, mark):
        """Whether this is that mark."""
        return self.kind == "mark" and self.text == mark


def tokens_of(text):
    """The pieces into which a text is cut."""
    return [Token(found.lastgroup, found.group()) for found in PIECE.finditer(text)]


def digits_value(text):
    """What digits stand for, or None if it is over the greatest integer."""
    digits = text.lstrip(b"0") or b"0"
    value = int(digits) if len(digits) < 20 else GREATEST + 1
    return value if value <= GREATEST else None


def most_open(tokens):
    """How many brackets are open at once."""
    most = now = 0
    for token in tokens:
        if token.kind == "mark" and token.text in b"(<":
            now += 1
        elif token.kind == "mark" and token.text in b")>":
            now = max(now - 1, 0)
        most = max(most, now)
    return most


def longest_row(tokens):
    """How many marks of unary operators stand in a row."""
    longest = now = 0
    for token in tokens:
        now = now + 1 if token.kind == "mark" and token.text in UNARY_MARKS else 0
        longest = max(longest, now)
    return longest


def lexical_fault(tokens):
    """The least token fault, as L1, or None."""
    if any(token.kind == "none" for token in tokens):
        return "L1"
    if any(token.kind == "unclosed" for token in tokens):
        return "L2"
    if any(token.kind == "integer" and digits_value(token.text) is None for token in tokens):
        return "L3"
    if most_open(tokens) > MOST_OPEN:
        return "L4"
    if longest_row(tokens) > MOST_IN_A_ROW:
        return "L5"
    return None
