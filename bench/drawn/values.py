"""Values in both languages: integers with the range in which they lie, texts with their greatest length, and tests."""

import typing

# No integer of a drawn loop lies beyond this, in either direction.
BOUND = 1 << 62


class Number(typing.NamedTuple):
    """An integer: its deck's text, Lua's text, its range, and how loosely its text binds (0 a name, 3 a sum)."""

    sno: str
    lua: str
    low: int
    high: int
    level: int = 0

    def within(self, level):
        """The same with brackets where its text binds more loosely than a level."""
        if self.level <= level:
            return self
        return self._replace(sno=f"({self.sno})", lua=f"({self.lua})", level=0)

    def fits(self, low, high):
        """Whether it always lies in a range."""
        return low <= self.low and self.high <= high


class Text(typing.NamedTuple):
    """A text: its deck's text, Lua's text, and its greatest length."""

    sno: str
    lua: str
    most: int


class Test(typing.NamedTuple):
    """A test of values."""

    sno: str
    lua: str


def literal(value):
    """An integer as it stands."""
    return Number(str(value), str(value), value, value)


def quoted(text):
    """A text as it stands."""
    return Text(f"'{text}'", f'"{text}"', len(text))


def plus(left, right):
    """A sum."""
    left, right = left.within(3), right.within(2)
    sides = f"{left.sno} + {right.sno}", f"{left.lua} + {right.lua}"
    return Number(*sides, left.low + right.low, left.high + right.high, 3)


def minus(left, right):
    """A difference."""
    left, right = left.within(3), right.within(2)
    sides = f"{left.sno} - {right.sno}", f"{left.lua} - {right.lua}"
    return Number(*sides, left.low - right.high, left.high - right.low, 3)


def times(left, right):
    """A product."""
    left, right = left.within(0), right.within(0)
    ends = [one * other for one in (left.low, left.high) for other in (right.low, right.high)]
    return Number(f"{left.sno} * {right.sno}", f"{left.lua} * {right.lua}", min(ends), max(ends), 1)


def over(left, divisor):
    """A quotient by an integer over 0, cut towards zero as a deck's is."""
    left, right = left.within(1), literal(divisor)
    low, high = (abs(it) // divisor * (1 if it >= 0 else -1) for it in (left.low, left.high))
    sno = f"{left.sno} / {right.sno}"
    if left.low >= 0:
        return Number(sno, f"{left.lua} // {right.lua}", low, high, 2)
    return Number(sno, f"quotient({left.lua}, {right.lua})", low, high, 2)


def remainder(left, divisor):
    """A remainder by an integer over 0, with the sign of what is divided."""
    sno = f"REMDR({left.sno},{divisor})"
    if left.low >= 0:
        return Number(sno, f"({left.within(0).lua} % {divisor})", 0, min(left.high, divisor - 1))
    return Number(sno, f"fmod({left.lua}, {divisor})", max(left.low, 1 - divisor), min(left.high, divisor - 1))


def size(text):
    """A text's length."""
    return Number(f"SIZE({text.sno})", f"#{text.lua}", 0, text.most)


def compared(name, left, right):
    """A test of two integers."""
    marks = {"EQ": "==", "NE": "~=", "LT": "<", "LE": "<=", "GT": ">", "GE": ">="}
    return Test(f"{name}({left.sno},{right.sno})", f"{left.lua} {marks[name]} {right.lua}")


def same(name, left, right):
    """A test of two texts: IDENT, DIFFER or LGT."""
    marks = {"IDENT": "==", "DIFFER": "~=", "LGT": ">"}
    second = "" if right.most == 0 else f",{right.sno}"
    return Test(f"{name}({left.sno}{second})", f"{left.lua} {marks[name]} {right.lua}")
