"""Whole programs of a drawn loop: the deck and the same in Lua, for a count of turns."""

import random
import re
import typing

from .loop import Loop
from .numbers import chosen
from .statements import KINDS, WEIGHTS

COLUMNS = 72
# What Lua lacks: a remainder and a quotient cut towards zero.
CUT_TOWARDS_ZERO = """local fmod = math.fmod
local function quotient(a, b)
  local q = a // b
  if q < 0 and q * b ~= a then return q + 1 end
  return q
end
""".splitlines()
# How many statements are drawn, and the most that change indices and texts before them.
LEAST, MOST, MOST_FIRST = 2, 6, 3


class Drawn(typing.NamedTuple):
    """A drawn loop: the kinds of its statements, and its programs."""

    kinds: tuple
    loop: Loop

    def statements(self):
        """The statements of a turn, without what counts turns."""
        return [self.goto(it) for it in (*self.loop.first.sno, *self.loop.body.sno)]

    def told(self):
        """The statements of a turn, then the patterns and functions that they use."""
        patterns = [it for it in self.loop.before.sno if it.startswith((" PATTERN", " DEFINE"))]
        return self.statements() + [self.goto(it) for it in (*patterns, *self.loop.behind.sno)]

    def goto(self, line):
        """A line with the labels that its statements have in the end."""
        same = self.loop.same_label
        return re.sub(r"\((L[0-9]+)\)", lambda it: f"({ended(same, it[1])})", line)

    def deck(self, turns):
        """The deck."""
        loop = self.loop
        first, body, behind = list(loop.first.sno), list(loop.body.sno), list(loop.behind.sno)
        if loop.first.label:
            body[0] = loop.first.label + body[0]
        head, foot = "TURN N = N + 1", f"{loop.body.label} LT(N,{turns}) :S(TURN)"
        turn = [head, *first, *body, foot]
        lines = [" &STLIMIT = -1", *loop.before.sno, *turn, *loop.printed.sno, " :(END)", *behind, "END"]
        return "".join(folded(self.goto(line)) for line in lines)

    def lua(self, turns):
        """The same in Lua."""
        loop = self.loop
        # The statements before the loop's second line: the first card, what sets up, the count, what changes first.
        before = 1 + len(loop.before.sno) + 1 + len(loop.first.sno)
        number = re.compile(r"STNO\[([0-9]+)\]")
        body = [number.sub(lambda it: str(before + int(it[1]) + 1), line) for line in loop.body.lua]
        turn = ["repeat", *("  " + line for line in ("n = n + 1", *loop.first.lua, *body)), f"until n >= {turns}"]
        lines = [*CUT_TOWARDS_ZERO, *loop.before.lua, "local n = 0", *turn, *loop.printed.lua]
        return "".join(f"{line}\n" for line in lines)


def ended(same, label):
    """The label that stands for one in the end."""
    while label in same:
        label = same[label]
    return label


def folded(line):
    """A line as cards, of which all but the first go on with the one before."""
    cards = [line[:COLUMNS]]
    rest = line[COLUMNS:]
    while rest:
        cards.append("+" + rest[: COLUMNS - 1])
        rest = rest[COLUMNS - 1 :]
    return "".join(f"{card}\n" for card in cards)


def drawn(seed, number):
    """The loop of a seed with a number: from two to six statements."""
    rng = random.Random(f"{seed} {number}")
    wanted = rng.randint(LEAST, MOST)
    while True:
        loop, kinds = Loop(rng), []
        while len(loop.body.sno) < wanted:
            kinds.append(chosen(rng, WEIGHTS))
            KINDS[kinds[-1]](loop)
        if len(loop.body.sno) <= MOST and len(loop.first.sno) <= MOST_FIRST:
            return Drawn(tuple(kinds), loop)
