"""Functions of a drawn loop, each in both languages."""

import typing

from . import numbers, values
from .loop import FUNCTIONS, NARROW, WIDE
from .numbers import chosen
from .values import Number

PARAMETERS = "A1 B1 LOW HIGH FIRST SECOND LEFTSIDE RIGHTSIDE".split()
LOCALS = "U1 T1 HALF MIDDLE TEMPORARY".split()


class Function(typing.NamedTuple):
    """A function: its name, how many arguments it takes, and whether a call of it may fail."""

    name: str
    arguments: int
    fails: bool = False


def another(loop, names, than):
    """A variable that a function has, other than a value, or a constant."""
    literal = values.literal(loop.rng.randint(1, 9))
    return loop.rng.choice([it for it in (*names, literal) if it.sno != than.sno])


def reckoned(loop, names):
    """An expression of variables that a function has."""
    made = loop.rng.choice(names)
    for _ in range(chosen(loop.rng, {1: 60, 2: 40})):
        made = numbers.operated(loop, made, another(loop, names, made))
    return made if made.fits(-WIDE, WIDE) else values.remainder(made, 1000003)


def tested(loop, names):
    """A test of variables that a function has."""
    name, one = loop.rng.choice(("LT", "GT", "LE", "GE")), loop.rng.choice(names)
    return values.compared(name, one, another(loop, names, one))


def body(loop, name, names, own):
    """The statements of a function and the same in Lua; and whether it may fail."""
    which = chosen(loop.rng, {"plain": 35, "chosen": 25, "fails": 12, "divisor": 8 if len(names) == 2 else 0})
    if which == "divisor":
        (one, other), low = names, name.lower()
        lines = [f"{name} {name} = EQ({other.sno},0) {one.sno} :S(RETURN)"]
        lines.append(f" {name} = {name}({other.sno},REMDR({one.sno},{other.sno})) :(RETURN)")
        end = f"return {low}({other.lua}, fmod({one.lua}, {other.lua}))"
        return lines, [f"if {other.lua} == 0 then return {one.lua} end", end], False
    lines, lua, known = [], [], list(names)
    for it in own:
        made = reckoned(loop, known)
        lines.append(f" {it.sno} = {made.sno}")
        lua.append(f"{it.lua} = {made.lua}")
        known.append(it._replace(low=made.low, high=made.high))
    if which != "plain":
        test = tested(loop, known)
    if which == "chosen":
        made = reckoned(loop, known)
        lines.append(f" {name} = {test.sno} {made.sno} :S(RETURN)")
        lua.append(f"if {test.lua} then return {made.lua} end")
    if which == "fails":
        lines.append(f" {test.sno} :F(FRETURN)")
        lua.append(f"if not ({test.lua}) then return nil end")
    made = reckoned(loop, known)
    lines.append(f" {name} = {made.sno} :(RETURN)")
    return [name + lines[0], *lines[1:]], lua + [f"return {made.lua}"], which == "fails"


def defined(loop):
    """A function of integers."""
    name, lua = loop.name(FUNCTIONS)
    count = chosen(loop.rng, {1: 40, 2: 35, 3: 25})
    names = [Number(*loop.name(PARAMETERS), -NARROW, NARROW) for _ in range(count)]
    own = [Number(*loop.name(LOCALS), -WIDE, WIDE) for _ in range(chosen(loop.rng, {0: 50, 1: 35, 2: 15}))]
    lines, lua_lines, fails = body(loop, name, names, own)
    told = f"{name}({','.join(it.sno for it in names)}){','.join(it.sno for it in own)}"
    loop.behind.sno.extend(lines)
    first = [f"local {', '.join(it.lua for it in own)}"] if own else []
    head = f"local function {lua}({', '.join(it.lua for it in names)})"
    loop.set_up([f" DEFINE('{told}')"], [head, *first, *lua_lines, "end"])
    return Function(name, count, fails)


def of_texts(loop):
    """A function of texts: it joins two, or puts a text's first letter behind the others."""
    name, lua = loop.name(FUNCTIONS)
    if loop.rng.random() < 0.5:
        (one, lua_one), (other, lua_other) = (loop.name(PARAMETERS) for _ in range(2))
        loop.behind.sno.append(f"{name} {name} = {one} '-' {other} :(RETURN)")
        sides = f'return {lua_one} .. "-" .. {lua_other}'
        head = f"local function {lua}({lua_one}, {lua_other})"
        loop.set_up([f" DEFINE('{name}({one},{other})')"], [f"{head} {sides} end"])
        return Function(name, 2)
    (one, lua_one), (own, lua_own) = loop.name(PARAMETERS), loop.name(LOCALS)
    loop.behind.sno.append(f"{name} {one} LEN(1) . {own} = :F(RETURN)")
    loop.behind.sno.append(f" {name} = {one} {own} :(RETURN)")
    lines = [f"local function {lua}({lua_one})", f"local {lua_own}", f'if {lua_one} == "" then return "" end']
    lines += [f"{lua_own} = {lua_one}:sub(1, 1)", f"{lua_one} = {lua_one}:sub(2)"]
    lines += [f"return {lua_one} .. {lua_own}", "end"]
    loop.set_up([f" DEFINE('{name}({one}){own}')"], lines)
    return Function(name, 1)
