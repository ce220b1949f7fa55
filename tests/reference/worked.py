"""Worked decks beside those of tests/decks, and worked counts of rules.

The decks are those of the language's page; the counts are computed by the definitions.
"""

import typing

from .command import seen_of
from .generate import cards_of
from .units import Units


class Worked(typing.NamedTuple):
    """Statements before END, what is printed and reported, what unit 5 holds, and the rules, if they are known."""

    statements: typing.List[str]
    out: str
    told: str = ""
    given: str = ""
    rules: typing.Optional[int] = None


FACT = [" DEFINE('FACT(N)') :(E)", "FACT FACT = EQ(N,0) 1 :S(RETURN)", " FACT = N * FACT(N - 1) :(RETURN)"]
YES = [" OUTPUT = 'YES' :(END)", "X OUTPUT = 'NO'"]
DECKS = [
    # matching
    Worked([" 'ABC' (LEN(1) $ OUTPUT | LEN(2) $ OUTPUT) FAIL"], "A\nAB\nB\nBC\nC\n"),
    Worked([" 'ABBA' LEN(1) $ C *C", " OUTPUT = C"], "B\n"),
    Worked([" 'ABC' 'B' @X", " OUTPUT = X"], "2\n"),
    Worked([" '3XYZW' POS(0) LEN(1) $ N LEN(*N) . OUTPUT"], "XYZ\n"),
    Worked([" P = LEN(1) $ C *C", " 'ABB' P", " OUTPUT = C", " 'XYY' P", " OUTPUT = C"], "B\nY\n"),
    Worked([" P = 'A' *P 'B' | 'C'", " 'AACBB' POS(0) P RPOS(0) :F(END)", " OUTPUT = 'YES'"], "YES\n"),
    Worked([" 'AB' 'A' (*EQ(1,2) | 'B') :F(END)", " OUTPUT = 'YES'"], "YES\n"),
    Worked([" 'A' LEN(*(0 - 1))"], "", "error E10 statement 1 card 1\n"),
    Worked([" 'ABAC' FENCE('A') 'C' :F(X)"] + YES, "YES\n"),
    Worked([" 'AB' (FENCE('A') 'X' | 'AB') :F(X)"] + YES, "YES\n"),
    Worked([" 'AAB' ARBNO(FENCE('A' | 'AA')) 'B' :F(X)"] + YES, "YES\n"),
    Worked([" 'ABC' FENCE('A' | 'AB') 'C' :F(X)"] + YES, "NO\n"),
    # calls
    Worked(FACT + ["E OUTPUT = FACT(20)"], "2432902008176640000\n"),
    Worked(FACT + ["E OUTPUT = FACT(21)"], "", "error E2 statement 3 card 3\n"),
    Worked([" F = 'OLD'", " DEFINE('F()') :(E)", "F F = 'NEW' :(RETURN)", "E OUTPUT = F() F"], "NEWOLD\n"),
    Worked([" DEFINE('F()') :(E)", "F F = .X :(NRETURN)", "E F() = 5", " OUTPUT = X"], "5\n"),
    Worked([" DEFINE('F(INPUT)') :(E)", "F F = 'K' :(RETURN)", "E OUTPUT = F('Q') INPUT"], "KA\n", "", "A\n"),
    Worked([" OUTPUT = G(1)"], "", "error E4 statement 1 card 1\n"),
    Worked([" OUTPUT = APPLY('SIZE','ABC')"], "3\n"),
    Worked([" OUTPUT = APPLY('SIZE','ABC','B')"], "", "error E16 statement 1 card 1\n"),
    Worked(
        [" DEFINE('F()') :(E)", "F 'QR' LEN(1) . OUTPUT :(RETURN)", "E 'AB' 'A' *F() 'B' :F(END)", " OUTPUT = 'DONE'"],
        "Q\nDONE\n",
    ),
    Worked(
        [
            " DEFINE('G(N)') :(E)",
            "G EQ(N,0) :S(RETURN)",
            " 'A' 'A' *G(N - 1) :(RETURN)",
            "E 'A' *G(1000) :F(END)",
            " OUTPUT = 'DEEP'",
        ],
        "DEEP\n",
    ),
    # objects
    Worked(
        [" A = ARRAY(3)", " B = A", " B<1> = 5", " OUTPUT = A<1>", " OUTPUT = A<99> :S(END)", " OUTPUT = 'NO'"],
        "5\nNO\n",
    ),
    Worked([" A = ARRAY('0:2')", " ITEM(A,2) = 4", " OUTPUT = A<2>"], "4\n"),
    Worked(
        [" A = ARRAY('0:2')", " ITEM(A,2) = 4", " OUTPUT = A<2>", " OUTPUT = A<1,2>"], "4\n", "error E13 statement 4 card 4\n"
    ),
    Worked([" T = TABLE()", " T<1> = 'A'", " T<'1'> = 'B'", " OUTPUT = T<1> T<'1'>"], "AB\n"),
    Worked([" T = TABLE()", " T<'K'> = 1", " A = CONVERT(T,'ARRAY')", " OUTPUT = A<1,1> A<1,2>"], "K1\n"),
    Worked(
        [" DATA('NODE(VALUE,LINK)')", " N = NODE(1,'Z')", " VALUE(N) = 7", " OUTPUT = VALUE(N) LINK(N) DATATYPE(N)"],
        "7ZNODE\n",
    ),
    # units
    Worked([" OUTPUT(.X,9)", " X = 'A'"], "", "unit 9 U1\n"),
    # counts of rules
    Worked([" OUTPUT = 'HI'"], "HI\n", rules=3),
    Worked([" 'AB' 'B'"], "", rules=8),
    Worked([" OUTPUT = SIZE('AB')"], "2\n", rules=4),
    Worked([" 'AB' FENCE('A') 'B'"], "", rules=13),
    Worked([" 'AA' LEN(*'X')"], "", "error E3 statement 1 card 1\n", rules=7),
    Worked(
        [" S = DUPL('A',2)", " S POS(0) (ARB ARB 'B' | *(1 / 0))"], "", "error E2 statement 2 card 2\n", rules=46
    ),
    Worked(
        [" S = DUPL('A',5)", " S POS(0) (ARB ARB 'B' | *(1 / 0))"], "", "error E2 statement 2 card 2\n", rules=82
    ),
    Worked([" DEFINE('F()')", " 'A' ('B' | *F())", "F :(END)"], "", rules=14),
    Worked(
        [" &STLIMIT = 3", " DEFINE('F()')", " 'A' ('B' | *F())", "F :(END)"], "", "stlimit statement 4 card 4\n", rules=15
    ),
    Worked(
        [" DEFINE('F()')", " 'A' LEN(1) *F()", "F 'A' *(1 / 0)"], "", "error E2 statement 3 card 3\n", rules=22
    ),
    Worked([" &STLIMIT = 9", "L &ANCHOR = :(L)"], "", "stlimit statement 2 card 2\n", rules=10),
    Worked([" &STLIMIT = 40", "L &ANCHOR = :(L)"], "", "stlimit statement 2 card 2\n", rules=41),
]


def differences(worked):
    """The lines that report how the reference differs from a worked deck."""
    cards = [card for it in worked.statements + ["END"] for card in cards_of(it)]
    seen = seen_of("\n".join(cards).encode(), Units({5: worked.given.encode()}))
    pairs = [("printed", worked.out.encode(), seen.out), ("told", worked.told.encode(), seen.told)]
    if worked.rules is not None:
        pairs.append(("rules", worked.rules, seen.rules))
    return [f"{what}: wanted {wanted!r}, got {got!r}" for what, wanted, got in pairs if wanted != got]
