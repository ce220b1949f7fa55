"""Matches that Lua's functions of strings can say, each in both languages."""

from . import numbers
from .values import Test

LETTERS = "abcdefghijklmnopqrstuvwxyz"
# Captures of a text of a shape, which hold of each such text: the pattern, what Lua assigns, and what is captured. In
# place of `[S]` stands the subject, of `[0]` and `[1]` what is assigned, of `[ALPHA]` the letters.
CAPTURES = {
    "any": (
        ("LEN(1) . [0]", "[0] = [S]:sub(1, 1)", ["letter"]),
        ("LEN(1) . [0] REM . [1]", "[0], [1] = [S]:sub(1, 1), [S]:sub(2)", ["letter", "word"]),
        ("RPOS(1) LEN(1) . [0]", "[0] = [S]:sub(-1)", ["letter"]),
        ("POS(2) LEN(1) . [0]", "[0] = [S]:sub(3, 3)", ["letter"]),
        ("LEN(3) . [0]", "[0] = [S]:sub(1, 3)", ["word"]),
        ("TAB(2) REM . [0]", "[0] = [S]:sub(3)", ["word"]),
    ),
    "words": (
        ("BREAK(' ') . [0]", '[0] = [S]:match("^[^ ]*")', ["word"]),
        ("BREAK([ALPHA]) SPAN([ALPHA]) . [0]", '[0] = [S]:match("%l+")', ["word"]),
        ("' ' SPAN([ALPHA]) . [0]", '[0] = [S]:match(" (%l+)")', ["word"]),
        ("BREAK(' ') . [0] ' ' REM . [1]", '[0], [1] = [S]:match("^([^ ]*) (.*)$")', ["word", "word"]),
        ("ANY([ALPHA]) . [0]", '[0] = [S]:match("%l")', ["letter"]),
    ),
    "pairs": (
        ("BREAK(':') . [0] ':' REM . [1]", '[0], [1] = [S]:match("^([^:]*):(.*)$")', ["word", "word"]),
        ("POS(0) ARB . [0] ':'", '[0] = [S]:match("^(.-):")', ["word"]),
        ("':' REM . [0]", '[0] = [S]:match(":(.*)$")', ["word"]),
        ("SPAN('0123456789') . [0]", '[0] = [S]:match("%d+")', ["word"]),
        ("NOTANY([ALPHA]) . [0]", '[0] = [S]:match("%L")', ["letter"]),
    ),
    "lists": (
        ("BREAK(',') . [0] ','", '[0] = [S]:match("^([^,]*),")', ["word"]),
        ("',' BREAK(',') . [0]", '[0] = [S]:match(",([^,]*),")', ["word"]),
        ("BREAK(',') . [0] ',' BREAK(',') . [1]", '[0], [1] = [S]:match("^([^,]*),([^,]*),")', ["word", "word"]),
        ("ARB . [0] ',' LEN(1) . [1]", '[0], [1] = [S]:match("^(.-),(.)")', ["word", "letter"]),
    ),
    "digits": (
        ("RPOS(2) REM . [0]", "[0] = [S]:sub(-2)", ["word"]),
        ("SPAN('0123456789') . [0]", '[0] = [S]:match("%d+")', ["word"]),
        ("LEN(2) . [0] LEN(2) . [1]", "[0], [1] = [S]:sub(1, 2), [S]:sub(3, 4)", ["word", "word"]),
    ),
}  # fmt: skip
# What is cut off a text: the pattern, where Lua's `from` and `to` say what goes, and what is captured from it.
CUTS = {
    "any": (
        ("LEN(1) . [0]", '[S] ~= ""', "[0] = [S]:sub(1, 1)", "[S]:sub(2)", "letter"),
        ("POS(0) LEN(1) . [0]", '[S] ~= ""', "[0] = [S]:sub(1, 1)", "[S]:sub(2)", "letter"),
        ("LEN(1) . [0] RPOS(0)", '[S] ~= ""', "[0] = [S]:sub(-1)", "[S]:sub(1, -2)", "letter"),
    ),
    "words": (
        ("BREAK(' ') . [0] ' '", '[S]:find(" ", 1, true)', "[0] = [S]:sub(1, from - 1)", "[S]:sub(from + 1)", "word"),
        ("BREAK([ALPHA]) SPAN([ALPHA]) . [0]", '[S]:find("%l+")', "[0] = [S]:sub(from, to)", "[S]:sub(to + 1)", "word"),
    ),
    "pairs": (("POS(0) SPAN([ALPHA]) . [0]", '[S]:find("^%l+")', "[0] = [S]:sub(1, to)", "[S]:sub(to + 1)", "word"),),
    "lists": (
        ("BREAK(',') . [0] ','", '[S]:find(",", 1, true)', "[0] = [S]:sub(1, from - 1)", "[S]:sub(from + 1)", "word"),
        ("POS(0) BREAK(',') . [0] ','", '[S]:find(",")', "[0] = [S]:sub(1, from - 1)", "[S]:sub(from + 1)", "word"),
    ),
    "digits": (("POS(0) LEN(2) . [0]", "#[S] >= 2", "[0] = [S]:sub(1, 2)", "[S]:sub(3)", "word"),),
}  # fmt: skip


def target(loop, kind):
    """What is assigned by a capture."""
    return loop.text("letter", 1) if kind == "letter" else loop.text("word", 40)


def alphabet(loop):
    """The letters: as they stand, or a variable that holds them."""
    if loop.rng.random() < 0.5:
        return f"'{LETTERS}'"

    def make():
        loop.set_up([f" ALPHA = '{LETTERS}'"], [])
        return "ALPHA"

    return loop.one_of("letters", 1, make)


def filled(text, subject, targets):
    """A line of a table for a subject and targets."""
    for at, it in enumerate(targets):
        text = text.replace(f"[{at}]", it)
    return text.replace("[S]", subject)


def pattern(loop, text, targets):
    """A pattern; now and then a variable that holds it."""
    made = filled(text.replace("[ALPHA]", alphabet(loop)), "", targets)
    if loop.rng.random() < 0.7:
        return made
    name, _ = loop.numbered("PATTERN")
    loop.set_up([f" {name} = {made}"], [])
    return name


def drawn(loop, table, shape):
    """A row of a table for a shape."""
    rows = table["any"] if loop.rng.random() < 0.4 else table[shape]
    return loop.rng.choice(rows)


def distinct(loop, kinds):
    """A target of each kind, no two of them one."""
    made = [target(loop, kind) for kind in kinds]
    while len(set(made)) < len(made):
        made = [target(loop, kind) for kind in kinds]
    return made


def capture(loop):
    """Parts of a text are captured."""
    text, shape = loop.subject()
    sno, lua, kinds = drawn(loop, CAPTURES, shape)
    targets = distinct(loop, kinds)
    made = pattern(loop, sno, [it.sno for it in targets])
    return loop.both(f"{text.sno} {made}", filled(lua, text.lua, [it.lua for it in targets]))


def cut(loop):
    """The front of what is left of a text goes, or its last letter; where nothing fits, all is left again."""
    text, shape = loop.subject()
    rest = loop.one_of(("rest", shape), 1, lambda: loop.rest(text))
    sno, holds, takes, leaves, kind = drawn(loop, CUTS, shape)
    to, label = target(loop, kind), loop.label()
    loop.say(f"{rest.sno} {pattern(loop, sno, [to.sno])} =", f"S({label})")
    loop.say(f"{rest.sno} = {text.sno}")
    holds, takes, leaves = (filled(it, rest.lua, [to.lua]) for it in (holds, takes, leaves))
    if "find" in holds:
        loop.lua(f"local from, to = {holds}")
        holds = "from"
    loop.lua(f"if {holds} then {takes}; {rest.lua} = {leaves} else {rest.lua} = {text.lua} end")
    return loop.attach(label)


def letters(loop, least, most):
    """Some letters of which texts here have one or another."""
    return "".join(loop.rng.sample("aeioustrnlmd", loop.rng.randint(least, most)))


def tested(loop):
    """A match without captures."""
    which = numbers.chosen(loop.rng, {"literal": 40, "any": 25, "first": 15, "either": 20})
    text, _ = loop.subject()
    if which == "any" and loop.rng.random() < 0.6:
        text = loop.text("letter", 1)
    some = letters(loop, 2, 5)
    if which == "literal":
        return Test(f"{text.sno} '{some[0]}'", f'{text.lua}:find("{some[0]}", 1, true)')
    if which == "any":
        return Test(f"{text.sno} ANY('{some}')", f'{text.lua}:find("[{some}]")')
    if which == "first":
        return Test(f"{text.sno} POS(0) '{some[0]}'", f'{text.lua}:sub(1, 1) == "{some[0]}"')
    found = " or ".join(f'{text.lua}:find("{it}", 1, true)' for it in (some[0], some[1:]))
    return Test(f"{text.sno} '{some[0]}' | '{some[1:]}'", found)


def replacement(loop):
    """A text is copied, and a part of the copy is replaced."""
    text, _ = loop.subject()
    to, of, by = loop.text("built", 500), letters(loop, 1, 1), loop.rng.choice(("", "X", "**"))
    loop.both(f"{to.sno} = {text.sno}", f"{to.lua} = {text.lua}")
    sno = f" '{by}'" if by else ""
    return loop.both(f"{to.sno} '{of}' ={sno}", f'{to.lua} = {to.lua}:gsub("{of}", "{by}", 1)')
