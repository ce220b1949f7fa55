"""Random decks over what a program runs. Each begins with a small &STLIMIT, so each ends unless a match doesn't."""

import random

ALPHABET = "AB()"
STRINGS = ["V", "W", "X", "Y"]
PATTERNS = ["P", "Q", "R"]
LABELS = ["L1", "L2", "L3", "L4", "L5"]
COLUMNS = 72
# Constructs that a program may lack, with a statement that shows each.
LATER = {
    "fence": " X = FENCE('A')",
    "imm": " 'A' 'A' $ X",
    "cursor": " 'A' @X",
    "defer": " 'A' *X",
    "units": " DETACH(.X)",
    "objects": " X = TABLE()",
    "calls": " DEFINE('F()')",
}
UNITS = ["INPUT(.V,5)", "INPUT(.W)", "OUTPUT(.W,'6')", "OUTPUT(.X)", "OUTPUT('Y',100)"]
UNITS += ["DETACH(.W)", "DETACH(.OUTPUT)"]
OBJECTS = ["A = ARRAY('0:3')", "A = ARRAY('2,2',V)", "A = ARRAY(V)", "T = TABLE()", "A = CONVERT(T,'ARRAY')"]
OBJECTS += ["B = COPY(A)", "N = NODE(V,T)", "T = A", "B = T", "A = N"]
TARGETS = ["A<I>", "A<1>", "T<V>", "T<1>", "A<1,2>", "ITEM(A,I)", "ITEM(T,W)", "VAL(N)", "NEXT(N)", "B<1>", "T<J>"]
# The statements that define functions, and what stands behind the others for them.
DEFINING = [" DEFINE('F(V,W)X')", " DEFINE('G(X)','H')", " DATA('NODE(VAL,NEXT)')"]


def cards_of(statement):
    """The cards of a statement, the first of which holds its first 72 columns."""
    cards, rest = [statement[:COLUMNS]], statement[COLUMNS:]
    while rest:
        cards.append("+" + rest[: COLUMNS - 1])
        rest = rest[COLUMNS - 1 :]
    return cards


class Deck:
    """A deck that is drawn by a seed; `later` are the constructs of LATER that it may have."""

    def __init__(self, seed, later):
        self.random, self.later, self.held = random.Random(seed), later, PATTERNS

    def pick(self, *choices):
        """One of some functions or texts; a function is called."""
        choice = self.random.choice(choices)
        return choice if isinstance(choice, str) else choice()

    def number(self):
        """A small integer, seldom another."""
        return self.pick("3", "4", "7", "9223372036854775807") if self.rare(10) else self.pick("0", "1", "2")

    def rare(self, one_in):
        """True once in so many times."""
        return self.random.randrange(one_in) == 0

    def literal(self):
        """A literal of some bytes of a small alphabet."""
        return "'" + "".join(self.random.choice(ALPHABET) for _ in range(self.random.randrange(4))) + "'"

    # ---- values

    def value(self, depth=2):
        """An expression whose value is likely a string or an integer."""
        if depth == 0:
            return self.pick(self.literal, self.number, self.variable, self.keyword)
        choices = [made for name, made in self.later_values(depth - 1).items() if name in self.later]
        return self.pick(
            *choices,
            self.literal,
            self.number,
            self.variable,
            self.variable,
            lambda: self.bracketed(f"{self.value(depth - 1)} {self.value(depth - 1)}"),
            lambda: self.arithmetic(depth - 1),
            lambda: f"{self.pick('?', '~', '$', '$$')}{self.value(depth - 1)}",
            lambda: f".{self.variable()}",
            lambda: self.call(depth - 1),
            lambda: self.predicate(depth - 1),
        )

    def later_values(self, depth):
        """The values that need a construct of LATER."""
        return {
            "objects": lambda: self.pick(*TARGETS),
            "calls": lambda: f"{self.pick('F', 'G')}({self.several(2, depth)})",
        }

    def arithmetic(self, depth):
        """A sum and the like; seldom of what is no integer."""
        operand = self.value if self.rare(12) else self.integer
        sign = self.pick("", "", "", "-", "+")
        return self.bracketed(f"{sign}{operand(depth)} {self.pick('+', '-', '*', '/', '**')} {operand(depth)}")

    def bracketed(self, expression):
        """An expression, most often in brackets."""
        return expression if self.rare(3) else f"({expression})"

    def integer(self, depth):
        """An expression whose value is an integer."""
        if depth == 0:
            return self.pick(self.number, "I", "J", "&STNO", "&STCOUNT")
        return self.pick(self.number, "I", f"SIZE({self.pick(*STRINGS)})", lambda: self.arithmetic(depth - 1))

    def variable(self):
        """A variable."""
        return self.pick("I", "INPUT", "UNSET") if self.rare(8) else self.pick(*STRINGS)

    def keyword(self):
        """A keyword."""
        names = ("STNO", "STCOUNT", "LASTNO", "STFCOUNT", "ANCHOR", "MAXLNGTH", "RTNTYPE", "FNCLEVEL")
        return "&" + self.pick(*names)

    def call(self, depth):
        """A call of a primitive that gives a string or an integer."""
        name, count = self.random.choice(
            [("SIZE", 1), ("TRIM", 1), ("REPLACE", 3), ("REPLACE", 3), ("DATATYPE", 1), ("DUPL", 2), ("REMDR", 2)]
        )
        if name == "DUPL":
            return f"DUPL({self.value(depth)},{self.integer(depth)})"
        if name == "REMDR":
            return f"REMDR({self.integer(depth)},{self.integer(depth)})"
        return f"{name}({self.several(count, depth)})"

    def predicate(self, depth):
        """A call of a predicate."""
        if self.rare(30):
            return self.pick("IDENT(P,V)", "SIZE(P)", "DIFFER(V,Q)", "EQ(P,1)", "TRIM(R)", "DUPL(P,2)")
        if self.rare(2):
            names = ["EQ", "NE", "LT", "LE", "GT", "GE"]
            return f"{self.pick(*names)}({self.integer(depth)},{self.integer(depth)})"
        name = self.pick("LGT", "IDENT", "DIFFER", "INTEGER", "EQ")
        return f"{name}({self.several(1 if name == 'INTEGER' else 2, depth)})"

    def several(self, count, depth):
        """Arguments, as many or fewer, some of them absent."""
        count -= self.rare(8)
        return ",".join("" if self.rare(8) else self.value(depth) for _ in range(count))

    # ---- patterns

    def pattern(self, depth=3):
        """An expression whose value is likely a pattern."""
        if depth == 0 or self.rare(6):
            return self.pick(self.literal, self.literal, self.basic, self.word, *self.held)
        inner = [self.joined] * 3 + [self.alternatives] * 2 + [self.assigning, self.arbno]
        inner += [made for name, made in self.constructs().items() if name in self.later]
        return self.random.choice(inner)(depth - 1)

    def constructs(self):
        """The patterns that need a construct of LATER."""
        return {
            "fence": lambda depth: f"FENCE({self.pattern(depth)})",
            "imm": lambda depth: self.bracketed(f"{self.pattern(depth)} $ {self.target()}"),
            "cursor": lambda depth: f"@{self.target()}",
            "defer": self.deferred,
        }

    def deferred(self, depth):
        """An expression that a match evaluates."""
        plain = self.pick(*STRINGS, "P", "Q", f"({self.value(1)})", f"({self.pattern(0)})")
        return self.pick(f"*{plain}", f"{self.pick('LEN', 'POS', 'TAB', 'ANY', 'SPAN')}(*{plain})")

    def joined(self, depth):
        """A concatenation."""
        return self.bracketed(f"{self.pattern(depth)} {self.pattern(depth)}")

    def alternatives(self, depth):
        """An alternation."""
        return self.bracketed(f"{self.pattern(depth)} | {self.pattern(depth)}")

    def assigning(self, depth):
        """A pattern that assigns."""
        return self.bracketed(f"{self.pattern(depth)} . {self.target()}")

    def arbno(self, depth):
        """ARBNO of a pattern."""
        return f"ARBNO({self.pattern(depth)})"

    def basic(self):
        """A call that makes a pattern."""
        counted = f"{self.pick('LEN', 'POS', 'RPOS', 'TAB', 'RTAB')}({self.number()})"
        held = self.variable() if self.rare(6) else self.pick("'A'", "'AB'", "'B('", "'()'")
        return self.pick(counted, f"{self.pick('ANY', 'NOTANY', 'SPAN', 'BREAK')}({held})")

    def word(self):
        """A variable that holds a pattern at first."""
        return self.pick("ARB", "ARB", "BAL", "BAL", "REM", "FAIL", "FENCE", "ABORT", "SUCCEED")

    # ---- statements

    def target(self):
        """What may be assigned."""
        later = [self.pick(*TARGETS)] if "objects" in self.later and self.rare(3) else []
        later += [f"G({self.literal()})"] if "calls" in self.later and self.rare(3) else []
        return self.pick(*later, *STRINGS, *STRINGS, "OUTPUT", "$V", "$'W'")

    def body(self):
        """What a statement does."""
        later = {"units": UNITS, "objects": OBJECTS}
        if self.rare(6) and set(later) & set(self.later):
            return self.pick(*later[self.pick(*(name for name in sorted(later) if name in self.later))])
        return self.pick(
            lambda: f"{self.target()} = {self.value(3)}",
            lambda: f"{self.target()} = {self.value(3)}",
            self.pattern_assignment,
            self.pattern_assignment,
            lambda: f"{self.subject()} {self.pattern()}",
            lambda: f"{self.subject()} ({self.pattern(2)}) . OUTPUT",
            *[lambda: f"{self.subject()} ({self.row()}) . OUTPUT"] * 5,
            lambda: f"{self.pick(*STRINGS)} {self.pattern()} = {self.pick(self.value, '')}",
            lambda: f"{self.pick(*STRINGS)} {self.pattern()} = {self.pick(self.value, '')}",
            lambda: f"({self.value()})",
            "I = I + 1",
            "J = LT(J,5) J + 1",
            lambda: f"OUTPUT = '[' {self.variable()} ']'",
            self.key_assignment,
        ).rstrip()

    def row(self):
        """A few short patterns after one another, which often match."""
        parts = [self.pick(self.basic, self.basic, self.literal, self.word, self.small) for _ in range(3)]
        return " ".join(parts[: self.random.randrange(1, 4)])

    def small(self):
        """A short pattern with others in it."""
        first = self.pick("'A'", "'B'", "LEN(1)", "ANY('A(')", "SPAN('AB')", "BAL")
        second = self.pick("'AB'", "')'", "BREAK('B')", "ARB", "BAL", "NOTANY('A')", self.literal)
        forms = [f"ARBNO({first})", f"({first} | {second})", f"({second} . W | {first})", f"{first} {second}"]
        return self.pick(*forms)

    def pattern_assignment(self):
        """An assignment of a pattern, in which only later variables of patterns stand, and itself at most once.

        So no pattern doubles again and again.
        """
        number = self.random.randrange(len(PATTERNS))
        self.held = PATTERNS[number + 1 :] or ["'A'"]
        more = f"{PATTERNS[number]} | " if self.rare(3) else ""
        made = f"{PATTERNS[number]} = {more}{self.pattern(2)}"
        self.held = PATTERNS
        return made

    def subject(self):
        """The subject of a match."""
        return self.pick(*STRINGS, self.literal, lambda: f"({self.value()})", self.long, self.long, self.long)

    def long(self):
        """A literal of more bytes."""
        return "'" + "".join(self.random.choice(ALPHABET) for _ in range(self.random.randrange(4, 10))) + "'"

    def key_assignment(self):
        """An assignment to a keyword."""
        return self.pick("&ANCHOR = 1", "&ANCHOR = 0", "&TRIM = 1", "&MAXLNGTH = 40", "&ANCHOR = I", "&OUTPUT = 1")

    def goto(self):
        """Where a statement leads."""
        place = lambda: self.pick(*LABELS, *LABELS, "END", "$V") if self.rare(5) else self.pick(*LABELS)  # noqa: E731
        forms = [f" :S({place()})", f" :F({place()})", f" :S({place()})F({place()})"]
        return f" :({place()})" if self.rare(20) else self.pick(*[""] * 6, *forms)

    def functions(self):
        """The statements of functions."""
        returns = [":(RETURN)", ":S(RETURN)F(FRETURN)", ":(NRETURN)", ":S(RETURN)"]
        statements = [" :(END)"]
        for label in ("F", "H"):
            name = self.pick("F", "G")
            given = self.pick(self.value, ".X", ".W")
            statements += [f"{label} {self.body()}", f" {name} = {given} {self.pick(*returns)}"]
        return statements + [" :(RETURN)"]

    def probe(self):
        """A statement that prints what comes of one short expression or match."""
        self.held = ["'A'"]
        fenced = f"FENCE({self.small()} | 'A')" if "fence" in self.later else "FENCE"
        words = self.pick("ARB", "BAL", "BAL", "REM", "FENCE", "('A' FENCE | 'B')", "(ABORT | 'A')", fenced, fenced)
        numbers = [self.pick("7", "-7", "(0 - 3)", "3", "2", "-2") for _ in range(3)]
        marks = [self.pick("+", "-", "*", "/", "/") for _ in range(2)]
        return self.pick(
            lambda: f"{self.long()} ({words} {self.small()}) . OUTPUT",
            lambda: f"{self.long()} ({self.small()} {words}) . OUTPUT",
            lambda: f"{self.long()} ({self.small()} {words} {self.small()}) . OUTPUT",
            lambda: f"OUTPUT = {numbers[0]} {marks[0]} {numbers[1]} {marks[1]} {numbers[2]}",
        )

    def probes(self):
        """A deck of such statements."""
        statements = [" &STLIMIT = 100", " V = 'A'", " W = 'AB'", " X = 3", " Y = '('"]
        statements += [f" {self.probe()}" for _ in range(20)] + ["END"]
        return "\n".join(card for it in statements for card in cards_of(it)) + "\n"

    def text(self):
        """The deck."""
        statements = [f" &STLIMIT = {self.random.choice([10, 30, 100, 300])}"]
        statements += [f" {name} = {self.pick(self.literal, self.number)}" for name in STRINGS]
        statements += [f" {self.pattern_assignment()}" for _ in PATTERNS]
        labels = dict(zip(self.random.sample(range(24), len(LABELS)), LABELS))
        for number in range(24):
            statements.append(f"{labels.get(number, '')} {self.body()}{self.goto()}")
        if "calls" in self.later:
            statements = DEFINING + statements + self.functions()
        statements.append("END")
        return "\n".join(card for it in statements for card in cards_of(it)) + "\n"


def deck(seed, later):
    """The deck of a seed: every other one is of short statements that print."""
    drawn = Deck(seed, later)
    return (drawn.probes() if seed % 2 else drawn.text()).encode()
