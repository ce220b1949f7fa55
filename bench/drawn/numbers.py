"""Expressions of integers, texts and tests of both, drawn over what a loop has."""

from . import values
from .loop import MOST_TURNS, NARROW, WIDE, word
from .values import BOUND, Number, Test, Text

TURN = Number("N", "n", 1, MOST_TURNS)


def chosen(rng, weights):
    """A name, by weights."""
    return rng.choices(list(weights), list(weights.values()))[0]


# The leaves of expressions.
LEAVES = {
    "narrow": 34, "wide": 10, "turn": 8, "index": 8, "literal": 20, "size": 6, "element": 6, "places": 1, "matrix": 2,
    "field": 2, "remainder": 5, "digit": 3, "sum": 3,
}  # fmt: skip


def subscript(loop):
    """A subscript from 1 to PLACES + 2."""
    index = loop.index()
    if loop.rng.random() < 0.7:
        return index
    return values.plus(index, values.literal(loop.rng.randint(1, 2)))


def element(loop):
    """An element of an array of small integers."""
    (sno, lua), at = loop.array(), subscript(loop)
    return Number(f"{sno}<{at.sno}>", f"{lua}[{at.lua}]", -NARROW, NARROW)


def placed(loop):
    """An element whose subscript is an element."""
    (sno, lua), (places, lua_places), at = loop.array(), loop.array("places"), loop.index()
    return Number(f"{sno}<{places}<{at.sno}>>", f"{lua}[{lua_places}[{at.lua}]]", -NARROW, NARROW)


def cell(loop, kind="fixed"):
    """An element of two subscripts: of an array that never changes, or of one whose elements are counted up."""
    (sno, lua), (row, column) = loop.matrix(kind), (subscript(loop) for _ in range(2))
    most = 16 if kind == "fixed" else WIDE
    return Number(f"{sno}<{row.sno},{column.sno}>", f"{lua}[{row.lua}][{column.lua}]", -most, most)


def field(loop):
    """A record's field, or that of the record behind it."""
    sno, lua, name, link = loop.record()
    if loop.rng.random() < 0.3:
        return Number(f"{name}({link}({sno}))", f"{lua}.{link.lower()}.{name.lower()}", -WIDE, WIDE)
    return Number(f"{name}({sno})", f"{lua}.{name.lower()}", -WIDE, WIDE)


def some_text(loop):
    """A variable of texts."""
    which = chosen(loop.rng, {"subject": 5, "word": 3, "letter": 2})
    if which == "subject":
        return loop.subject()[0]
    return loop.text("letter", 1) if which == "letter" else loop.text("word", 40)


def leaf(loop, in_sum=True):
    """A leaf of an expression; a digit's text only within a sum, as Lua compares it as a text."""
    which = chosen(loop.rng, LEAVES)
    if which == "digit" and in_sum:
        text, _ = loop.subject("digits")
        return Number(*loop.digit(text), 0, 9)
    makes = {
        "narrow": lambda: loop.number(NARROW),
        "wide": lambda: loop.number(WIDE),
        "turn": lambda: TURN,
        "index": loop.index,
        "size": lambda: values.size(some_text(loop)),
        "element": lambda: element(loop),
        "places": lambda: placed(loop),
        "matrix": lambda: cell(loop),
        "field": lambda: field(loop),
        "remainder": lambda: values.remainder(variable(loop, False), loop.rng.choice((2, 3, 7, 10))),
        "sum": loop.sum,
    }
    return makes.get(which, lambda: values.literal(loop.rng.randint(1, 20)))()


def variable(loop, in_sum=True):
    """A leaf that isn't always the same integer."""
    made = leaf(loop, in_sum)
    while made.low == made.high:
        made = leaf(loop, in_sum)
    return made


def another(loop, than, in_sum=True):
    """A leaf that is another than a value."""
    made = leaf(loop, in_sum)
    while made.sno == than.sno:
        made = leaf(loop, in_sum)
    return made


def operated(loop, left, right):
    """Two operands under an operator, or the first alone where the result might be too large."""
    which = chosen(loop.rng, {"plus": 45, "minus": 22, "times": 22, "over": 11})
    if which == "over":
        made = values.over(left, loop.rng.choice((2, 3, 4, 10)))
    else:
        made = getattr(values, which)(left, right)
    return made if made.fits(-BOUND, BOUND) else left.within(0)


def expression(loop, operators=None):
    """An expression of some operators, at least one."""
    count = operators or chosen(loop.rng, {1: 60, 2: 25, 3: 15})
    made = variable(loop)
    for _ in range(count):
        other = another(loop, made)
        sides = (made, other) if loop.rng.random() < 0.7 else (other, made)
        made = operated(loop, *sides)
    return made if made.level else values.plus(made, values.literal(loop.rng.randint(1, 9)))


def bounded(loop, made, most):
    """An expression, or its remainder where it might be over a bound."""
    if made.fits(-most, most):
        return made
    return values.remainder(made, loop.rng.choice([it for it in (10, 100, 997, 10007, 1000003) if it <= most + 1]))


def test_of_numbers(loop):
    """A test of integers that holds in some turns."""
    name = chosen(loop.rng, {"EQ": 30, "NE": 6, "LT": 22, "LE": 8, "GT": 26, "GE": 8})
    if name in ("EQ", "NE"):
        modulus = loop.rng.choice((2, 3, 5, 10))
        left, right = values.remainder(variable(loop, False), modulus), values.literal(loop.rng.randrange(modulus))
        return values.compared(name, left, right)
    left = loop.rng.choice((loop.index, lambda: loop.number(NARROW), lambda: variable(loop, False)))()
    if loop.rng.random() < 0.4:
        return values.compared(name, left, another(loop, left, False))
    return values.compared(name, left, values.literal(loop.rng.randint(1, 9)))


def test_of_texts(loop):
    """A test of texts."""
    name = chosen(loop.rng, {"IDENT": 55, "DIFFER": 25, "LGT": 20})
    left = some_text(loop)
    if name == "LGT" or loop.rng.random() < 0.3:
        right = some_text(loop)
        while right == left:
            right = loop.text("word", 40) if loop.rng.random() < 0.5 else loop.text("letter", 1)
        return values.same(name, left, right)
    right = "" if loop.rng.random() < 0.4 else word(loop.rng, 1, 1)
    return values.same(name, left, values.quoted(right))


def test(loop):
    """One test, or two."""
    made = test_of_numbers(loop) if loop.rng.random() < 0.7 else test_of_texts(loop)
    if loop.rng.random() < 0.85:
        return made
    other = test_of_numbers(loop)
    return Test(f"{made.sno} {other.sno}", f"{made.lua} and {other.lua}")


def part(loop):
    """A part of a text."""
    which = chosen(loop.rng, {"text": 50, "quoted": 30, "number": 20})
    if which == "text":
        return some_text(loop)
    if which == "quoted":
        return values.quoted(loop.rng.choice((" ", ", ", "-", ":", "(", ") ", " = ", "and ")))
    makes = (loop.index, lambda: TURN, lambda: loop.number(NARROW), lambda: expression(loop, 1))
    made = loop.rng.choice(makes)().within(0)
    return Text(made.sno, made.lua, 20)


def joined(loop):
    """A text of two to five parts."""
    count = chosen(loop.rng, {2: 45, 3: 30, 4: 15, 5: 10})
    parts = [some_text(loop)] + [part(loop) for _ in range(count - 1)]
    loop.rng.shuffle(parts)
    return Text(" ".join(it.sno for it in parts), " .. ".join(it.lua for it in parts), sum(it.most for it in parts))
