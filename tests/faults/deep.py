"""Runs deep and large decks with a small stack and with little memory.

Decks are compiled and modules are run with a stack of 256 KiB. Nothing of a run recurses; of a compilation brackets and
operands do, within the limits of the language. Each case is a deck, how its run must end, and how much memory its
compilation and run may take at most.
Large decks are compiled in three sizes, to see that the time grows no faster than the deck. The last line is
`N passed, M failed`.
"""

import argparse
import functools
import os
import pathlib
import resource
import tempfile
import typing

from .cases import content
from .refuse import PROGRAM

# The stack of a compilation and of a run.
STACK = 256 << 10
SECONDS = 120
# How many megabytes a compilation or a run of one statement or loop takes at most, if nothing else is said.
MEGABYTES = 400
# A deck twice as large may take so many times as long.
MOST_TIMES = 3
# How much of a card is read.
COLUMNS = 72
# The largest deck.
DECK_BYTES = 1 << 24


class Case(typing.NamedTuple):
    """A deck, how it ends, its words after `run deck.module`, and its most memory."""

    name: str
    deck: str
    out: str = ""
    told: str = ""
    status: int = 0
    words: typing.Tuple[str, ...] = ("--steps", "1000000000000")
    megabytes: int = MEGABYTES


class Ran(typing.NamedTuple):
    """What a process printed, reported, its status, its megabytes at most and its seconds of processor time."""

    out: bytes
    told: bytes
    status: int
    megabytes: float
    seconds: float


def limit(stack):
    """Limits the stack, and the time."""
    resource.setrlimit(resource.RLIMIT_STACK, (stack, stack))
    resource.setrlimit(resource.RLIMIT_CPU, (SECONDS, SECONDS))


def ran(program, words, folder):
    """What comes of the program with these words."""
    files = {name: os.open(folder / name, os.O_RDWR | os.O_CREAT | os.O_TRUNC) for name in ("out", "told")}
    child = os.fork()
    if child == 0:
        try:
            os.chdir(folder)
            os.dup2(os.open("/dev/null", os.O_RDONLY), 0)
            os.dup2(files["out"], 1)
            os.dup2(files["told"], 2)
            limit(STACK)
            os.execv(program, [str(program), *words])
        finally:
            os._exit(125)
    _, ended, used = os.wait4(child, 0)
    for file in files.values():
        os.close(file)
    out, told = (content(folder / name) for name in files)
    return Ran(out, told, os.waitstatus_to_exitcode(ended), used.ru_maxrss / 1024, used.ru_utime + used.ru_stime)


def loop(count, body, before="", after=""):
    """A deck that does something so many times, prints DONE, and drops all that it has."""
    return (
        f" &STLIMIT = -1\n &MAXLNGTH = 16777216\n{before}L N = N + 1\n{body} LT(N,{count}) :S(L)\n{after}"
        " OUTPUT = 'DONE'\nEND\n"
    )


def on_cards(statement):
    """A deck of one statement, on as many cards as it needs."""
    pieces = [statement[:COLUMNS]]
    rest = range(COLUMNS, len(statement), COLUMNS - 1)
    return "\n+".join(pieces + [statement[at : at + COLUMNS - 1] for at in rest]) + "\nEND\n"


def printed(expression, out=""):
    """A deck that prints what an expression gives, and that with a line feed."""
    return on_cards(f" OUTPUT = {expression}"), out + "\n"


CALLS = """ DEFINE('F(N)') :(E)
F F = EQ(N,0) 'DONE' :S(RETURN)
 F = F(N - 1) :(RETURN)
E &STLIMIT = -1
 OUTPUT = F({})
END
"""
MATCHES = """ DEFINE('G(N)') :(E)
G EQ(N,0) :S(RETURN)
 'A' 'A' *G(N - 1) :(RETURN)
E &STLIMIT = -1
 'A' *G({}) :F(END)
 OUTPUT = 'DEEP'
END
"""


def calling():
    """Calls and evaluations."""
    endless = " P = *P 'A'\n 'A' P\nEND\n"
    yield Case("a pattern that enters itself", endless, told="steps used up\n", status=5, words=("--steps", "100000"))
    yield Case("100,000 calls", CALLS.format(100_000), "DONE\n")
    yield Case("1,000,000 calls", CALLS.format(1_000_000), "DONE\n")
    yield Case("1,000 matches within matches", MATCHES.format(1_000), "DEEP\n")
    yield Case("100,000 matches within matches", MATCHES.format(100_000), "DEEP\n")
    node = " DATA('NODE(VALUE,NEXT)')\n"
    nodes = loop(1_000_000, " LIST = NODE(N,LIST)\n", node, " LIST =\n")
    yield Case("1,000,000 objects in a list", nodes, "DONE\n", megabytes=1000)
    deferred = loop(3_000, " P = *P 'A'\n", after=" P =\n")
    yield Case("an expression in a pattern, 3,000 times", deferred, "DONE\n")


def values():
    """Lists that are long, and dropped."""
    arrays = " A = ARRAY(2)\n A<1> = B\n B = A\n"
    for after, how in ((" A =\n B =\n", "dropped at once"), ("", "dropped at the end")):
        yield Case(f"1,000,000 arrays in a list, {how}", loop(1_000_000, arrays, after=after), "DONE\n", megabytes=1000)
    error = loop(300_000, arrays, after=" X = 1 / 0\n")
    yield Case("300,000 arrays in a list at an error", error, told="error E2 statement 8 card 8\n", status=1)
    tables = loop(300_000, " T = TABLE()\n T<'X'> = B\n B = T\n", after=" T =\n B =\n")
    yield Case("300,000 tables in a list", tables, "DONE\n", megabytes=1000)
    names = loop(300_000, " A = ARRAY(1)\n A<1> = B\n B = .A<1>\n", after=" A =\n B =\n")
    yield Case("300,000 names of elements", names, "DONE\n", megabytes=1000)
    circles = loop(300_000, " A = ARRAY(1)\n A<1> = A\n", after=" A =\n")
    yield Case("300,000 arrays that hold themselves", circles, "DONE\n", megabytes=1000)
    doubled = loop(24, " S = S S\n", " S = 'A'\n", " OUTPUT = SIZE(S)\n")
    yield Case("a string of 16 megabytes", doubled, "16777216\nDONE\n")


def patterns():
    """Patterns that are deep."""
    deep = {
        "a pattern of 3,000 alternatives": " P = P | 'B'\n",
        "alternatives on the other side": " P = 'B' | P\n",
        "a pattern of 3,000 parts": " P = P 'B'\n",
        "parts on the other side": " P = 'B' P\n",
        "an assignment around a pattern, 3,000 times": " P = P . V\n",
        "a fence around a pattern, 3,000 times": " P = FENCE(P)\n",
        "alternatives and parts in turn": " P = (P 'C' | 'B') | 'D'\n",
    }
    for name, body in deep.items():
        yield Case(name, loop(3_000, body, " P = 'A' | 'AA'\n", " 'XYZ' P\n 'A' P\n P =\n"), "DONE\n")
    turns = loop(300, " P = ARBNO(P 'B')\n", " P = 'A'\n", " 'XYZ' P\n P =\n")
    yield Case("ARBNO around a pattern, 300 times", turns, "DONE\n")
    doubled = loop(18, " P = P P\n", " P = 'A'\n", " DUPL('A',300000) P :S(OUT)\n OUTPUT = 'MISSED'\nOUT P =\n")
    yield Case("a pattern of 262,144 parts", doubled, "DONE\n")
    limits = " &STLIMIT = -1\n &MAXLNGTH = 16777216\n &ANCHOR = 1\n"
    assigned = limits + " DUPL('A',1000000) ARBNO(LEN(1) . X) RPOS(0)\n OUTPUT = X\nEND\n"
    yield Case("1,000,000 turns with assignments", assigned, "A\n", megabytes=1000)
    choices = limits + " DUPL('A',1000000) ARBNO('A' | 'B') 'C' :S(END)\n OUTPUT = 'MISSED'\nEND\n"
    yield Case("1,000,000 choices", choices, "MISSED\n", megabytes=1000)


def trees():
    """Statements that are deep."""
    yield Case("64 brackets", *printed("(" * 64 + "1" + ")" * 64, "1"))
    yield Case("65 brackets", printed("(" * 65 + "1" + ")" * 65)[0], told="statement 1 L4\n", status=3)
    yield Case("64 brackets that stay open", printed("(" * 64)[0], told="statement 1 P1\n", status=3)
    yield Case("64 brackets of a function", *printed("SIZE(" * 64 + "'ABC'" + ")" * 64, "1"))
    subscripts = on_cards(" OUTPUT = " + "A<" * 64 + "1" + ">" * 64)
    yield Case("64 subscripts", " A = ARRAY(1)\n A<1> = 1\n" + subscripts, "1\n")
    yield Case("16 marks", *printed("-" * 16 + "1", "1"))
    yield Case("17 marks", printed("-" * 17 + "1")[0], told="statement 1 L5\n", status=3)
    marks = printed(("-" * 16 + "(1 + ") * 64 + "1" + " + 1" * 500 + ")" * 64, "565")
    yield Case("16 marks before each of 64 brackets", *marks)
    calls = printed(("-" * 16 + "SIZE(") * 64 + "'ABC'" + ")" * 64, "1")
    yield Case("16 marks before each of 64 calls", *calls)
    before = "1 1 + 1 / 1 * 1 ** " + "-" * 16 + "("
    yield Case("operators of each grade before each of 64 brackets", *printed(before * 64 + "1" + ")" * 64, "12"))
    row = " ".join(["A"] * 1_990)
    yield Case("1,990 names in a row", " A = 'B'\n" + on_cards(" OUTPUT = " + row), "B" * 1_990 + "\n")
    kept = on_cards(" P = *(" + row + ")").replace("END\n", " DUPL('B',1990) P :F(END)\n OUTPUT = 'FOUND'\nEND\n")
    yield Case("1,990 names in a row that stay unevaluated", " A = 'B'\n" + kept, "FOUND\n")
    deepest = ("-" * 16 + "(") * 64 + " ".join(["A"] * 1_400) + ")" * 64
    yield Case("1,400 names in a row within 64 brackets with marks", *printed(deepest, "0"))
    yield Case("a row of names that isn't closed", on_cards(" OUTPUT = (" + row), told="statement 1 P1\n", status=3)
    yield Case("a sum of 950 parts", *printed("1" + " + 1" * 949, "950"))
    yield Case("a power of 790 parts", *printed("1" + " ** 1" * 789, "1"))
    yield Case("a string of 980 parts", *printed(" ".join(["'A'"] * 980), "A" * 980))
    alternatives = on_cards(" 'B' " + " | ".join(["'A'"] * 650) + " :S(END)")
    yield Case("650 alternatives", alternatives.replace("END\n", " OUTPUT = 'MISSED'\nEND\n"), "MISSED\n")
    assignments = on_cards(" 'A' 'A'" + " . X" * 980)
    yield Case("980 assignments of a match", assignments.replace("END\n", " OUTPUT = X\nEND\n"), "A\n")
    cards = " OUTPUT = 'A'\n" + "+ 'A'\n" * 900 + "END\n"
    yield Case("a statement of 900 cards", cards, "A" * 901 + "\n")
    empty = "\n" * (DECK_BYTES - 4) + "END\n"
    yield Case("a deck of empty cards", empty, "")
    yield Case("a deck of one comment", "*" + "A" * (DECK_BYTES - 6) + "\nEND\n")
    yield Case("a deck that is too large", "\n" * (DECK_BYTES - 3) + "END\n", told="card 0 C5\n", status=3)
    faults = " X = #\n" * 500_000 + "END\n"
    told = "".join(f"statement {n} L1\n" for n in range(1, 500_001))
    yield Case("500,000 faulty statements", faults, told=told, status=3, megabytes=100)


CASES = (calling, values, patterns, trees)
LONG = (calling, values)


def fault(case, wanted, seen):
    """What is wrong with what is seen, if anything."""
    if seen[:3] != wanted:
        told = (it[:100] if isinstance(it, bytes) else it for it in seen[:3])
        return f"{case.name}: found {tuple(told)}"
    if seen.megabytes > case.megabytes:
        return f"{case.name}: {seen.megabytes:.0f} megabytes"
    return None


def of_case(program, case, folder):
    """What comes of a case: how it ran, and what is wrong."""
    (folder / "deck.sno").write_bytes(case.deck.encode())
    compiled = ran(program, ["compile", "deck.sno", "deck.module"], folder)
    wanted = (case.out.encode(), case.told.encode(), case.status)
    if compiled.status or case.status == 3:
        return compiled, fault(case, wanted, compiled)
    if compiled.megabytes > case.megabytes:
        return compiled, f"{case.name}: {compiled.megabytes:.0f} megabytes to compile"
    seen = ran(program, ["run", "deck.module", *case.words], folder)
    return seen, fault(case, wanted, seen)


class Large(typing.NamedTuple):
    """The statement of a number of a large deck, and how many megabytes compiling and loading the largest may take."""

    statement: typing.Callable[[int], str]
    compiled: int
    loaded: int


# The process that runs them holds some 82 megabytes, and what it starts begins with as many.
LARGE = {
    "assignments of a string": Large(lambda n: " X = 'AAAAAAAAAAAAAAAAAAAAAAAA'\n", 88, 88),
    "labels and gotos": Large(lambda n: f"L{n:06} A{n:06} = B :(L{n:06})\n", 116, 180),
    "names of their own": Large(lambda n: f" NAME{n:06} = .OTHER{n:06} N\n", 113, 181),
    "patterns": Large(lambda n: f" X ('A' | B{n:06} . C) LEN(1)\n", 96, 198),
    "brackets": Large(lambda n: " X = (((A + 1) * (B + 2)) - (C + 3))\n", 88, 181),
}


def large(program, folder):
    """Compiles large decks of three sizes and loads the largest; for each kind what it took, and whether it's wrong."""
    for name, kind in LARGE.items():
        seconds = []
        most = (DECK_BYTES - len("END\n")) // len(kind.statement(0))
        for count in (most // 4, most // 2, most):
            deck = "".join(map(kind.statement, range(count))) + "END\n"
            (folder / "deck.sno").write_text(deck)
            seen = ran(program, ["compile", "deck.sno", "deck.module"], folder)
            seconds.append(seen.seconds)
        loaded = ran(program, ["check", "deck.module"], folder)
        times = ", ".join(f"{it:.1f}" for it in seconds)
        told = (
            f"{len(deck) / 1e6:.1f} megabytes of {name}: {times} seconds, {seen.megabytes:.0f} megabytes;"
            f" loaded in {loaded.seconds:.1f} seconds, {loaded.megabytes:.0f} megabytes"
        )
        slow = any(later > MOST_TIMES * earlier for earlier, later in zip(seconds, seconds[1:]))
        much = seen.megabytes > kind.compiled or loaded.megabytes > kind.loaded
        yield told, seen.status != 0 or loaded.status != 0 or slow or much


def arguments():
    """The words of the command line."""
    parser = argparse.ArgumentParser(description=__doc__.partition("\n\n")[0])
    parser.add_argument("program", nargs="?", default=PROGRAM, help="build/sno if none is given")
    parser.add_argument("--only", default="", metavar="WORD", help="only cases with this in their names")
    parser.add_argument("--part", action="store_true", help="without long lists of values and large decks")
    return parser.parse_args()


def main():
    """Runs what the command line asks for."""
    given = arguments()
    program, passed, failed = pathlib.Path(given.program).resolve(), 0, 0
    with tempfile.TemporaryDirectory(prefix="sno-deep-") as name:
        folder = pathlib.Path(name)
        kinds = [it for it in CASES if not given.part or it not in LONG]
        for case in (case for some in kinds for case in some() if given.only in case.name):
            seen, why = of_case(program, case, folder)
            print(f"{case.name}: {seen.seconds:.1f} seconds, {seen.megabytes:.0f} megabytes", flush=True)
            print(f"FAILED {why}\n" if why else "", end="", flush=True)
            passed, failed = passed + (not why), failed + bool(why)
        for told, why in large(program, folder) if not given.only and not given.part else ():
            print(f"FAILED {told}" if why else told, flush=True)
            passed, failed = passed + (not why), failed + why
    print(f"{passed} passed, {failed} failed")
    return 1 if failed else 0
