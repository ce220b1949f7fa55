"""Random decks of the whole language: those of `generate`, with each construct and each primitive among them."""

from . import generate

# Statements that random decks seldom have: recursion, evaluations within matches, names that calls give, units.
SEEN = ["'AB'", "V", "W", "3", "I", "'(A)B'"]
BODIES = [
    "OUTPUT = APPLY('SIZE',{0})",
    "OUTPUT = APPLY('F',{0},{1})",
    "APPLY('G',{0}) = {1}",
    "APPLY(.G,{0}) {1} = {0}",
    "OUTPUT = FACT({0})",
    "OUTPUT = FACT(SIZE({0}))",
    "{0} *FACT(2) | *(V W) . OUTPUT",
    "{0} LEN(*SIZE(V)) $ OUTPUT @I",
    "{0} (BREAK(*V) | RTAB(*I)) . OUTPUT",
    "{0} POS(0) ARBNO(*('A' | 'B') $ W) RPOS(0)",
    "{0} POS(0) FENCE('A' | *W) @I RPOS(*(I - I))",
    "ITEM(A,I) = {0}",
    "ITEM(T,{0}) = ITEM(T,{1}) {0}",
    "OUTPUT = ITEM(COPY(A),1)",
    "VAL(N) = {0}",
    "NEXT(N) = NODE({0},N)",
    "OUTPUT = VAL(NEXT(N)) DATATYPE(NEXT(N))",
    "A<I> = NODE({0},A<I>)",
    "OUTPUT = CONVERT({0},'INTEGER') + 1",
    "OUTPUT = DATATYPE(CONVERT({0},'PATTERN'))",
    "DATA('NODE(VAL,NEXT,MORE)')",
    "DEFINE('F(V)W','H')",
    "DEFINE('FACT(N)')",
    "OUTPUT(.Z,6) ; Z = {0}",
    "INPUT(.Y,5) ; OUTPUT = Y ; DETACH(.Y)",
    "OUTPUT = INPUT",
    "$({0} {1}) = {0}",
    "OUTPUT = $({0} {1})",
    "OUTPUT = REPLACE({0},'AB',{1}) DUPL({1},2) TRIM({0} ' ')",
    "OUTPUT = LGT({0},{1}) REMDR(17,5) &LASTNO",
    "OUTPUT = IDENT({0},{0}) DIFFER({0}) INTEGER(7) 'is'",
    "OUTPUT = NE(I,9) GE(I,0) LE(0,I) LT(I,99) EQ(I,I) I",
    "OUTPUT = .V ; OUTPUT = DATATYPE(.V) DATATYPE(*V) DATATYPE(A)",
    "&TRIM = 1 ; &FULLSCAN = 1",
    "&STLIMIT = &STLIMIT + 1",
    "{0} 'A' REM $ V NOTANY('Z') ABORT",
    "{0} (SPAN('AB') TAB(2) | ANY('(A') LEN(1)) . OUTPUT",
]
FACT = ["FACT FACT = LE(N,1) 1 :S(RETURN)", " FACT = N * FACT(N - 1) :S(RETURN)F(FRETURN)"]
FIRST = [" DEFINE('FACT(N)')", " A = ARRAY('0:3')", " T = TABLE()", " N = NODE(1,2)"]


class Deck(generate.Deck):
    """A deck that is drawn by a seed."""

    def __init__(self, seed):
        super().__init__(seed, tuple(generate.LATER))

    def body(self):
        """What a statement does."""
        if self.random.randrange(3):
            return super().body()
        return self.pick(*BODIES).format(self.pick(*SEEN, self.literal), self.pick(*SEEN, self.literal))

    def functions(self):
        """The statements of functions."""
        return [*super().functions(), *FACT]

    def text(self):
        """The deck."""
        cards = super().text().splitlines()
        first = len(generate.DEFINING)
        return "\n".join([*cards[:first], *FIRST, *cards[first:]]) + "\n"


def deck(seed):
    """The deck of a seed."""
    return Deck(seed).text().encode()
