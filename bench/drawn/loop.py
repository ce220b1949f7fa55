"""A loop as it is drawn: the variables and objects that it has so far, and its lines in both languages."""

from . import values
from .values import Number, Text

MOST_TURNS = 1 << 23
# What a narrow and a wide variable hold, in both directions.
NARROW, WIDE = 999, 10**12
PLACES = 10
NAMES = "X Y Z Q V SUM TOTAL VALUE RESULT HEIGHT COUNTER PRODUCT LARGEST DISTANCE REMAINING DIFFERENCE".split()
TEXTS = "S R W LINE WORD PART FIELD BUFFER SENTENCE REMAINDER".split()
LETTERS = "C D SIGN LETTER CHARACTER".split()
INDICES = "I J K INDEX POSITION".split()
OBJECTS = "A B H LIST ELEMENTS".split()
FUNCTIONS = "F G SCALE COMBINE DISTANCEOF".split()
SHAPES = ("words", "pairs", "lists", "digits")


def word(rng, least, most, letters="abcdefghijklmnopqrstuvwxyz"):
    """A word of so many letters."""
    return "".join(rng.choices(letters, k=rng.randint(least, most)))


def shaped(rng, shape):
    """A text of a shape."""
    if shape == "words":
        return " ".join(word(rng, 2, 7) for _ in range(rng.randint(3, 5)))
    if shape == "pairs":
        return f"{word(rng, 2, 8)}:{rng.randint(1, 999)}"
    if shape == "lists":
        return ",".join(word(rng, 1, 5) for _ in range(rng.randint(3, 6)))
    return str(rng.randint(10000, 99999999))


class Part:
    """Some lines in both languages, and the label that the deck's next statement has."""

    def __init__(self):
        self.sno, self.lua, self.label = [], [], ""


class Loop:
    """What is drawn so far."""

    def __init__(self, rng):
        self.rng = rng
        self.free, self.kept = {}, {}
        self.labels, self.same_label = 0, {}
        # Before the loop; what changes indices and texts in each turn; the statements; functions; what is printed.
        self.before, self.first, self.body, self.behind, self.printed = (Part() for _ in range(5))
        self.at = self.body

    def name(self, pool):
        """A name that is still free, in both languages."""
        names = self.free.setdefault(tuple(pool), self.rng.sample(pool, len(pool)))
        if not names:
            return self.numbered(pool[0])
        name = names.pop()
        return name, name.lower()

    def label(self):
        """A new label."""
        self.labels += 1
        return f"L{self.labels}"

    def numbered(self, name):
        """A name with a number behind it that no other has, in both languages."""
        name = f"{name}{self.label()[1:]}"
        return name, name.lower()

    def say(self, text, goto="", label=""):
        """A statement of the deck; it has the label that waits for one."""
        label, self.at.label = (label or self.at.label), ""
        self.at.sno.append(f"{label} {text}{' :' + goto if goto else ''}")

    def lua(self, *lines):
        """Lines in Lua."""
        self.at.lua.extend(lines)

    def both(self, sno, lua):
        """A statement and the same in Lua."""
        self.say(sno)
        self.lua(lua)

    def attach(self, label):
        """Gives a label to the next statement."""
        if self.at.label:
            self.same_label[label] = self.at.label
        self.at.label = self.at.label or label

    def within(self, part, what):
        """Lets something say its lines in another part."""
        kept, self.at = self.at, part
        what()
        self.at = kept

    def set_up(self, sno, lua, shown=None):
        """Lines before the loop, and what is printed behind it."""
        self.before.sno.extend(sno)
        self.before.lua.extend(lua)
        if shown:
            self.printed.sno.append(f" OUTPUT = {shown[0]}")
            self.printed.lua.append(f"print({shown[1]})")

    def one_of(self, kind, most, make):
        """One of at most so many things of a kind, made now or before."""
        there = self.kept.setdefault(kind, [])
        if len(there) < most and (not there or self.rng.random() < 0.4):
            there.append(make())
        return self.rng.choice(there)

    def number(self, limit):
        """A variable of integers up to a limit in both directions."""

        def make():
            (sno, lua), start = self.name(NAMES), self.rng.randint(0, 99)
            self.set_up([f" {sno} = {start}"], [f"local {lua} = {start}"], (sno, lua))
            return Number(sno, lua, -limit, limit)

        return self.one_of(("number", limit), 3, make)

    def sum(self):
        """A variable of sums, which is null at first and counts as 0."""

        def make():
            sno, lua = self.name(NAMES)
            self.set_up([], [f"local {lua} = 0"], (f"{sno} + 0", lua))
            return Number(sno, lua, -WIDE * MOST_TURNS // 8, WIDE * MOST_TURNS // 8)

        return self.one_of("sum", 2, make)

    def text(self, kind, most):
        """A variable of texts; its kind is what is assigned to it."""

        def make():
            sno, lua = self.name(LETTERS if most == 1 else TEXTS)
            start = word(self.rng, 1, min(most, 6))
            self.set_up([f" {sno} = '{start}'"], [f'local {lua} = "{start}"'], (sno, lua))
            return Text(sno, lua, most)

        return self.one_of(kind, 3, make)

    def digit(self, text):
        """A variable of one digit's text, taken from a text of digits in each turn."""

        def make():
            (sno, lua), place = self.name(LETTERS), self.rng.randint(0, 3)
            self.set_up([f" {sno} = '7'"], [f'local {lua} = "7"'], (sno, lua))
            pattern = f"POS({place}) LEN(1) . {sno}" if place else f"LEN(1) . {sno}"
            taken = f"{lua} = {text.lua}:sub({place + 1}, {place + 1})"
            self.within(self.first, lambda: self.both(f"{text.sno} {pattern}", taken))
            return sno, lua

        return self.one_of("digit", 1, make)

    def index(self):
        """A variable of integers from 1 to PLACES, which most loops change in each turn."""

        def make():
            sno, lua = self.name(INDICES)
            start = self.rng.randint(1, PLACES)
            self.set_up([f" {sno} = {start}"], [f"local {lua} = {start}"], (sno, lua))
            if self.rng.random() < 0.7:
                self.within(self.first, lambda: self.step(sno, lua))
            return Number(sno, lua, 1, PLACES)

        return self.one_of("index", 2, make)

    def step(self, sno, lua):
        """Makes an index another in each turn."""
        which = self.rng.random()
        if which < 0.25:
            factor = self.rng.choice((1, 3, 7))
            sides = ("N", "n") if factor == 1 else (f"N * {factor}", f"n * {factor}")
            self.both(f"{sno} = REMDR({sides[0]},{PLACES}) + 1", f"{lua} = {sides[1]} % {PLACES} + 1")
            return
        if which < 0.5:
            self.both(f"{sno} = {sno} + 1", f"{lua} = {lua} + 1")
            self.both(f"{sno} = GT({sno},{PLACES}) 1", f"if {lua} > {PLACES} then {lua} = 1 end")
            return
        label = self.label()
        self.say(f"{sno} = LT({sno},{PLACES}) {sno} + 1", f"S({label})")
        self.say(f"{sno} = 1")
        self.lua(f"if {lua} < {PLACES} then {lua} = {lua} + 1 else {lua} = 1 end")
        self.attach(label)

    def filled(self, sno, value):
        """Statements that fill an array; the value is that of the variable FILL."""
        again, on = self.label(), self.label()
        most = PLACES + 2
        return [
            f" {sno} = ARRAY({most})",
            f"{again} FILL = LT(FILL,{most}) FILL + 1 :F({on})",
            f" {sno}<FILL> = {value} :({again})",
            f"{on} FILL = 0",
        ]

    def array(self, kind="numbers"):
        """An array: of small integers, or of indices."""

        def make():
            (sno, lua), factor = self.name(OBJECTS), self.rng.choice((7, 31, 57))
            modulus, more = (PLACES, 1) if kind == "places" else (101, 0)
            fill = self.filled(sno, f"REMDR(FILL * {factor},{modulus}) + {more}")
            each = f"{lua}[i] = i * {factor} % {modulus} + {more}"
            self.set_up(fill, [f"local {lua} = {{}}", f"for i = 1, {PLACES + 2} do {each} end"])
            shown = f"{sno}<1> ' ' {sno}<5> ' ' {sno}<{PLACES + 2}>"
            self.printed.sno.append(f" OUTPUT = {shown}")
            self.printed.lua.append(f'print({lua}[1] .. " " .. {lua}[5] .. " " .. {lua}[{PLACES + 2}])')
            return sno, lua

        return self.one_of(("array", kind), 2, make)

    def matrix(self, kind):
        """An array of two subscripts."""

        def make():
            (sno, lua), again, most = self.name(["M", "GRID", "MATRIX"]), self.label(), PLACES + 2
            rest = f"FILL - (FILL / {most}) * {most}"
            fill = [
                f" {sno} = ARRAY('{most},{most}')",
                f"{again} {sno}<FILL / {most} + 1,{rest} + 1> = REMDR(FILL,17)",
                f" FILL = LT(FILL,{most * most - 1}) FILL + 1 :S({again})",
                " FILL = 0",
            ]
            lines = [f"local {lua} = {{}}", f"for i = 1, {most} do {lua}[i] = {{}} end"]
            lines.append(f"for i = 0, {most * most - 1} do {lua}[i // {most} + 1][i % {most} + 1] = i % 17 end")
            self.set_up(fill, lines, (f"{sno}<1,1> ' ' {sno}<3,5>", f'{lua}[1][1] .. " " .. {lua}[3][5]'))
            return sno, lua

        return self.one_of(("matrix", kind), 1, make)

    def table(self):
        """A table of counts, with nothing in it."""

        def make():
            sno, lua = self.name(["T", "COUNTS", "TABULATION"])
            self.set_up([f" {sno} = TABLE()"], [f"local {lua} = {{}}"])
            for key in (3, 7, "a", "b"):
                told = values.quoted(key) if isinstance(key, str) else values.literal(key)
                self.printed.sno.append(f" OUTPUT = {sno}<{told.sno}> + 0")
                self.printed.lua.append(f"print({lua}[{told.lua}] or 0)")
            return sno, lua

        return self.one_of("table", 2, make)

    def record(self):
        """A variable that goes round a ring of records, and their two fields."""

        def make():
            sno, lua = self.name(["P", "NODE", "CURRENT"])
            field, link = self.rng.choice((("VAL", "NEXT"), ("COUNT", "AFTER"), ("CONTENTS", "FOLLOWING")))
            again, on, first = self.label(), self.label(), f"FIRST{sno}"
            kind = f"CELL{sno}"
            field, link = (field, link) if not self.kept.get("record") else (field + "2", link + "2")
            fill = [
                f" DATA('{kind}({field},{link})')",
                f" {sno} = {kind}(1)",
                f" {first} = {sno}",
                f"{again} FILL = LT(FILL,{PLACES}) FILL + 1 :F({on})",
                f" {sno} = {kind}(FILL,{sno}) :({again})",
                f"{on} {link}({first}) = {sno}",
                " FILL = 0",
            ]
            lines = [f"local {lua} = {{ {field.lower()} = 1 }}", f"local {first.lower()} = {lua}"]
            both = f"{{ {field.lower()} = i, {link.lower()} = {lua} }}"
            lines += [f"for i = 1, {PLACES} do {lua} = {both} end", f"{first.lower()}.{link.lower()} = {lua}"]
            shown = f'{lua}.{field.lower()} .. " " .. {first.lower()}.{field.lower()}'
            self.set_up(fill, lines, (f"{field}({sno}) ' ' {field}({first})", shown))
            return sno, lua, field, link

        return self.one_of("record", 2, make)

    def subject(self, shape=None):
        """A variable of texts of a shape, most often another text in each turn; and the shape."""
        shape = shape or self.rng.choice(SHAPES)

        def make():
            (sno, lua), (texts, lua_texts) = self.name(TEXTS), self.numbered("TEXTS")
            given = [shaped(self.rng, shape) for _ in range(PLACES)]
            sno_lines = [f" {texts} = ARRAY({PLACES})"] + [f" {texts}<{n}> = '{it}'" for n, it in enumerate(given, 1)]
            listed = ", ".join(f'"{it}"' for it in given)
            sno_lines.append(f" {sno} = {texts}<1>")
            lua_lines = [f"local {lua_texts} = {{ {listed} }}", f"local {lua} = {lua_texts}[1]"]
            self.set_up(sno_lines, lua_lines, (sno, lua))
            text = Text(sno, lua, max(map(len, given)))
            if self.rng.random() < 0.8:
                at = self.index()
                another = f"{sno} = {texts}<{at.sno}>", f"{lua} = {lua_texts}[{at.lua}]"
                self.within(self.first, lambda: self.both(*another))
            return text

        return self.one_of(("subject", shape), 1, make), shape

    def rest(self, text):
        """A variable of what is left of a text."""
        sno, lua = self.name(TEXTS)
        self.set_up([f" {sno} = {text.sno}"], [f"local {lua} = {text.lua}"], (sno, lua))
        return Text(sno, lua, text.most)
