"""The statements of a drawn loop, by kind, each in both languages."""

from . import functions, matches, numbers, values
from .loop import NARROW, PLACES, WIDE
from .numbers import chosen

# How often each kind is drawn. Of 450 statements of tests/decks/programs and examples/ that don't set up, read or
# print, 70 join texts, 57 are arithmetic, 39 assign if a test holds, 34 are tests alone, 34 cut what they capture off a
# text, 31 match otherwise, 28 copy, 18 replace, 16 call functions of texts, 9 are indirect, 9 assign keywords and 79
# constants (most of them before a loop). What is rarer there, as elements, tables, fields and calls, is drawn more often.
WEIGHTS = {
    "arithmetic": 16, "join": 15, "copy": 6, "constant": 5, "guarded": 9, "test": 9, "cut": 7, "capture": 7, "match": 4,
    "replacement": 3, "text function": 5, "element": 5, "two subscripts": 3, "table": 4, "field": 3, "call": 7,
    "indirect": 2, "keyword": 2,
}  # fmt: skip
SIMPLE = {"arithmetic": 40, "join": 30, "copy": 15, "constant": 15}


def arithmetic(loop):
    """An expression is assigned, or added to a sum."""
    which = chosen(loop.rng, {"narrow": 30, "wide": 40, "sum": 30})
    made = numbers.expression(loop)
    if which == "sum":
        to = loop.sum()
        made = numbers.bounded(loop, made, WIDE // 64).within(2)
        return loop.both(f"{to.sno} = {to.sno} + {made.sno}", f"{to.lua} = {to.lua} + {made.lua}")
    most = NARROW if which == "narrow" else WIDE
    to, made = loop.number(most), numbers.bounded(loop, made, most)
    return loop.both(f"{to.sno} = {made.sno}", f"{to.lua} = {made.lua}")


def join(loop):
    """Parts are joined; or one is put to a text, which is null again when it is long."""
    if loop.rng.random() < 0.7:
        made, to = numbers.joined(loop), loop.text("built", 500)
        return loop.both(f"{to.sno} = {made.sno}", f"{to.lua} = {made.lua}")
    to, part, label, most = loop.text("grown", 500), numbers.part(loop), loop.label(), loop.rng.choice((20, 60, 200))
    sno, lua = (f"{to.sno} {part.sno}", f"{to.lua} .. {part.lua}")
    if loop.rng.random() < 0.3:
        sno, lua = (f"{part.sno} {to.sno}", f"{part.lua} .. {to.lua}")
    loop.say(f"{to.sno} = LT(SIZE({to.sno}),{most}) {sno}", f"S({label})")
    loop.say(f"{to.sno} =")
    loop.lua(f'if #{to.lua} < {most} then {to.lua} = {lua} else {to.lua} = "" end')
    return loop.attach(label)


def copy(loop):
    """A variable is assigned to another."""
    if loop.rng.random() < 0.5:
        to, of = loop.number(WIDE), loop.rng.choice((loop.index, lambda: loop.number(NARROW), lambda: numbers.TURN))()
    else:
        to, of = loop.text("built", 500), numbers.some_text(loop)
    return loop.both(f"{to.sno} = {of.sno}", f"{to.lua} = {of.lua}")


def constant(loop):
    """A constant is assigned."""
    if loop.rng.random() < 0.5:
        to, of = loop.number(NARROW), values.literal(loop.rng.randint(0, 99))
    else:
        to, of = loop.text("built", 500), values.quoted(loop.rng.choice(("", "none", "-")))
    sno = "" if of.sno == "''" else f" {of.sno}"
    return loop.both(f"{to.sno} ={sno}", f"{to.lua} = {of.lua}")


def guarded(loop):
    """An assignment if a test holds."""
    test = numbers.test(loop)
    if loop.rng.random() < 0.6:
        to = loop.number(NARROW)
        made = argument(loop)
        # What the test leaves, joined to an integer, is that integer; a sum binds more tightly than the join.
        return loop.both(f"{to.sno} = {test.sno} {made.sno}", f"if {test.lua} then {to.lua} = {made.lua} end")
    to, made = loop.text("built", 500), numbers.joined(loop)
    return loop.both(f"{to.sno} = {test.sno} {made.sno}", f"if {test.lua} then {to.lua} = {made.lua} end")


def conditional(loop, sno, lua):
    """A statement that may fail, and one that is passed over then."""
    label = loop.label()
    loop.say(sno, f"F({label})")
    loop.lua(f"if {lua} then")
    KINDS[chosen(loop.rng, SIMPLE)](loop)
    loop.lua("end")
    loop.attach(label)


def test(loop):
    """A test, and a statement that is passed over if it doesn't hold."""
    made = numbers.test(loop)
    conditional(loop, made.sno, made.lua)


def match(loop):
    """A match without captures, and a statement that is passed over if it fails."""
    conditional(loop, *matches.tested(loop))


def text_function(loop):
    """REPLACE, TRIM, DUPL or SIZE."""
    which, of, to = loop.rng.choice(("REPLACE", "TRIM", "DUPL", "padded", "SIZE")), numbers.some_text(loop), None
    if which == "SIZE":
        to, made = loop.number(NARROW), values.size(of)
        return loop.both(f"{to.sno} = {made.sno}", f"{to.lua} = {made.lua}")
    to, at = loop.text("built", 500), loop.index()
    if which == "REPLACE":
        _, name = loop.numbered("MAP")
        loop.set_up([], [f'local {name} = {{ a = "A", e = "E", i = "I", o = "O", u = "U" }}'])
        sno, lua = f"REPLACE({of.sno},'aeiou','AEIOU')", f'({of.lua}:gsub("[aeiou]", {name}))'
    elif which == "TRIM":
        sno, lua = f"TRIM({of.sno})", f'({of.lua}:gsub(" +$", ""))'
    elif which == "DUPL":
        sno, lua = f"DUPL('-',{at.sno})", f'("-"):rep({at.lua})'
    else:
        most = of.most + loop.rng.randint(0, 4)
        sno = f"DUPL(' ',{most} - SIZE({of.sno})) {of.sno}"
        lua = f'(" "):rep({most} - #{of.lua}) .. {of.lua}'
    return loop.both(f"{to.sno} = {sno}", f"{to.lua} = {lua}")


def element(loop):
    """An element is assigned, or one to a variable, or two change places."""
    one = numbers.element(loop)
    which = chosen(loop.rng, {"put": 40, "get": 30, "placed": 10, "swap": 20})
    if which == "put":
        made = numbers.bounded(loop, numbers.expression(loop), NARROW)
        return loop.both(f"{one.sno} = {made.sno}", f"{one.lua} = {made.lua}")
    to = loop.number(NARROW)
    if which in ("get", "placed"):
        one = one if which == "get" else numbers.placed(loop)
        return loop.both(f"{to.sno} = {one.sno}", f"{to.lua} = {one.lua}")
    (sno, lua), at = loop.array(), loop.index()
    loop.both(f"{to.sno} = {sno}<{at.sno}>", f"{to.lua} = {lua}[{at.lua}]")
    loop.both(f"{sno}<{at.sno}> = {sno}<{at.sno} + 1>", f"{lua}[{at.lua}] = {lua}[{at.lua} + 1]")
    return loop.both(f"{sno}<{at.sno} + 1> = {to.sno}", f"{lua}[{at.lua} + 1] = {to.lua}")


def two_subscripts(loop):
    """An element of two subscripts is counted up, assigned or used."""
    which = chosen(loop.rng, {"count": 25, "put": 25, "product": 25, "get": 25})
    if which in ("count", "put"):
        at = numbers.cell(loop, "counted")
        of = numbers.bounded(loop, numbers.expression(loop) if which == "put" else numbers.leaf(loop, False), NARROW)
        first = (f"{at.sno} + ", f"{at.lua} + ") if which == "count" else ("", "")
        return loop.both(f"{at.sno} = {first[0]}{of.sno}", f"{at.lua} = {first[1]}{of.lua}")
    to, one = loop.sum(), numbers.cell(loop)
    made = values.times(one, numbers.cell(loop)) if which == "product" else one
    return loop.both(f"{to.sno} = {to.sno} + {made.sno}", f"{to.lua} = {to.lua} + {made.lua}")


def key(loop):
    """A key of a table."""
    which = chosen(loop.rng, {"text": 60, "index": 25, "remainder": 15})
    if which == "text":
        return numbers.some_text(loop)
    return loop.index() if which == "index" else values.remainder(numbers.TURN, 10)


def table(loop):
    """A table's entry is counted up, used or taken away."""
    (sno, lua), at, which = loop.table(), key(loop), chosen(loop.rng, {"count": 55, "get": 30, "drop": 15})
    entry, lua_entry = f"{sno}<{at.sno}>", f"{lua}[{at.lua}]"
    if which == "count":
        return loop.both(f"{entry} = {entry} + 1", f"{lua_entry} = ({lua_entry} or 0) + 1")
    if which == "get":
        to = loop.sum()
        return loop.both(f"{to.sno} = {to.sno} + {entry}", f"{to.lua} = {to.lua} + ({lua_entry} or 0)")
    loop.both(f"{entry} = {entry} + 1", f"{lua_entry} = ({lua_entry} or 0) + 1")
    other = key(loop)
    return loop.both(f"{sno}<{other.sno}> =", f"{lua}[{other.lua}] = nil")


def field(loop):
    """A record's field is assigned, or the next record becomes the one at hand."""
    sno, lua, name, link = loop.record()
    which = chosen(loop.rng, {"next": 40, "count": 30, "put": 30})
    if which == "next":
        return loop.both(f"{sno} = {link}({sno})", f"{lua} = {lua}.{link.lower()}")
    at, lua_at = f"{name}({sno})", f"{lua}.{name.lower()}"
    if which == "count":
        return loop.both(f"{at} = {at} + 1", f"{lua_at} = {lua_at} + 1")
    made = numbers.bounded(loop, numbers.expression(loop), NARROW)
    return loop.both(f"{at} = {made.sno}", f"{lua_at} = {made.lua}")


def indirect(loop):
    """A variable whose name is reckoned is counted up."""
    at = loop.index()

    def make():
        loop.set_up([], ["local named = {}"])
        for n in range(1, PLACES + 1):
            loop.printed.sno.append(f" OUTPUT = $'COUNT.{n}' + 0")
            loop.printed.lua.append(f'print(named["COUNT.{n}"] or 0)')
        return "named"

    loop.one_of("named", 1, make)
    if loop.rng.random() < 0.6:
        entry, lua = f"$('COUNT.' {at.sno})", f'named["COUNT." .. {at.lua}]'
        return loop.both(f"{entry} = {entry} + 1", f"{lua} = ({lua} or 0) + 1")
    name = loop.text("name", 20)
    loop.both(f"{name.sno} = 'COUNT.' {at.sno}", f'{name.lua} = "COUNT." .. {at.lua}')
    return loop.both(f"${name.sno} = ${name.sno} + 1", f"named[{name.lua}] = (named[{name.lua}] or 0) + 1")


def keyword(loop):
    """The number of a statement; or a match that is anchored by a keyword."""
    if loop.rng.random() < 0.4:
        to = loop.number(NARROW)
        return loop.both(f"{to.sno} = &STNO + &FNCLEVEL", f"{to.lua} = STNO[{len(loop.at.sno)}]")
    loop.one_of("anchor", 1, lambda: loop.set_up([], ["local anchor = 0"]) or "anchor")
    loop.both("&ANCHOR = 1", "anchor = 1")
    text, _ = loop.subject()
    letter = loop.rng.choice("abcdefgh")
    conditional(loop, f"{text.sno} '{letter}'", f'{text.lua}:sub(1, 1) == "{letter}"')
    return loop.both("&ANCHOR = 0", "anchor = 0")


def called(loop, function, given):
    """A call in both languages."""
    sno = f"{function.name}({','.join(it.sno for it in given)})"
    return sno, f"{function.name.lower()}({', '.join(it.lua for it in given)})"


def argument(loop):
    """An argument of a function of integers."""
    made = numbers.leaf(loop, False) if loop.rng.random() < 0.7 else numbers.expression(loop)
    return numbers.bounded(loop, made, NARROW)


def call(loop):
    """A call of one to three arguments, of which some fail; or of texts."""
    if loop.rng.random() < 0.3:
        function = loop.one_of("function of texts", 1, lambda: functions.of_texts(loop))
        given, to = [numbers.some_text(loop) for _ in range(function.arguments)], loop.text("built", 500)
    else:
        function = loop.one_of("function", 2, lambda: functions.defined(loop))
        given, to = [argument(loop) for _ in range(function.arguments)], loop.number(WIDE)
    sno, lua = called(loop, function, given)
    return loop.both(f"{to.sno} = {sno}", f"{to.lua} = {lua}{f' or {to.lua}' if function.fails else ''}")


KINDS = {
    "arithmetic": arithmetic, "join": join, "copy": copy, "constant": constant, "guarded": guarded, "test": test,
    "cut": matches.cut, "capture": matches.capture, "match": match, "replacement": matches.replacement,
    "text function": text_function, "element": element, "two subscripts": two_subscripts, "table": table,
    "field": field, "call": call, "indirect": indirect, "keyword": keyword,
}  # fmt: skip
