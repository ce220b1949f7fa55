"""Decks whose runs take the most steps for a rule."""

from .generate import LATER, cards_of


def looped(bodies, times, before=()):
    """A deck that does some statements, and then others again and again."""
    first, *others = bodies
    statements = [" &STLIMIT = -1", *before, f"L {first}", *(f" {it}" for it in others)]
    statements += [" I = I + 1", f" LT(I,{times}) :S(L)", "END"]
    return deck(statements)


def deck(statements):
    """The deck of some statements."""
    return ("\n".join(card for it in statements for card in cards_of(it)) + "\n").encode()


def indirect(depth):
    """Nested indirect references."""
    return looped([f"Y = {'$' * depth}X"] * 8, 20, [" X = 'X'"])


def grown(change, match, times=500, first="ARB"):
    """A pattern that is changed again and again, and a match of it."""
    change = [f" P = {first}", f"L P = {change}", " I = I + 1", f" LT(I,{times}) :S(L)"]
    return deck([" &STLIMIT = -1", *change, f" {match}", "END"])


def of_growing():
    """Families of patterns that are built in a loop."""
    short, long = ("'" + "A" * length + "'" for length in (16, 60))
    return {
        "alternatives_around_arb": grown("P | 'Z'", f"{short} P 'B'", 2000),
        "alternatives_around_arb_at_0": grown("P | 'Z'", f"{long} POS(0) P 'B'", 2000),
        "alternatives_around_arb_found": grown("P | 'Z'", "'AAAAZ' P 'Z' RPOS(0)", 2000),
        "alternatives_around_bal": grown("P | 'Z'", f"{long} POS(0) P 'B'", 2000, "BAL"),
        "alternatives_after_one_another": grown("'Z' | P", f"{long} POS(0) P 'B'"),
        "alternatives_twice": grown("P | 'Z'", f"{long} POS(0) P P 'B'", 200),
        "alternatives_in_arbno": grown("P | 'Z'", f"{short} POS(0) ARBNO(P) 'B'", 100, "LEN(1)"),
        "arbno_in_arbno": grown("ARBNO(P) | 'Z'", f"{short} POS(0) P", 100, "LEN(1)"),
        "alternatives_and_abort": grown("P | 'Z'", f"{short} POS(0) (P ABORT)"),
        "conditionals_around_arb": grown("P . X", f"{short} POS(0) P 'B'", 200),
        "nulls_after_arb": grown("P LEN(0)", f"{short} POS(0) P 'B'", 200),
        "nulls_before_arb": grown("LEN(0) P", f"{short} POS(0) P 'B'", 200),
    }


def of_patterns():
    """Families of patterns."""
    subject = "'" + "A" * 16 + "'"
    parts = {
        "arbno_of_null": "'A' ARBNO('') 'A'",
        "arbno": f"{subject} ARBNO('A') 'B'",
        "arbno_of_alternatives": f"{subject} POS(0) ARBNO('B' | 'A') RPOS(1) 'B'",
        "arb": f"{subject} ARB 'B'",
        "arb_twice": "'AAAAAAAA' ARB ARB 'B'",
        "bal": "'(((A)(B)))A(A)' BAL 'B'",
        "alternatives_that_miss": "'AAAA' ('B' | 'C' | 'D' | 'E' | 'F' | '') 'B'",
        "conditional": "'AAAA' (((LEN(1) . X) . Y) . Z) 'B'",
        "conditional_of_null": "'AAAA' (('' . X) . Y) . Z",
        "fence": "'AAAA' ARB FENCE 'B'",
        "abort": "'AAAA' (FAIL | FAIL | ABORT)",
        "null": "'' ''",
        "nulls": "'' ('' . X) ('' | 'A') ''",
        "succeed": "'AAAA' SUCCEED LEN(4)",
    }
    return {name: looped([body] * 4, 10) for name, body in parts.items()}


def of_statements():
    """Families of statements."""
    parts = {
        "negation": ["Y = ~~~~X"],
        "negation_of_failure": ["Y = ~EQ(1,2)", "Y = ~~~EQ(1,2)"],
        "interrogation": ["Y = ????X"],
        "indirect_names": ["$$$$X = 'X'"],
        "null_statements": ["", "", "", ""],
        "keywords": ["&ANCHOR = 0", "Y = &STNO"],
        "failures": ["EQ(1,2)", "Y = EQ(1,2)", "Y EQ(1,2)"],
        "replacement": ["Y '' =", "Y = 'AB'", "Y 'B' = 'C'"],
        "calls": ["TABLE = SIZE()", "Y = DUPL(,)", "Y = LEN()"],
        "evaluation": ["X", "(X X)", "X X X"],
    }
    return {name: looped(bodies, 40, [" X = 'X'"]) for name, bodies in parts.items()}


def of_gotos():
    """Families of gotos."""
    computed = deck([" &STLIMIT = 200", " X = 'L'", "L :($X)", "END"])
    nested = deck([" &STLIMIT = 200", " X = 'X'", " L = 'L'", "X :($$$$$X)", "END"])
    both = deck([" &STLIMIT = 200", "L EQ(1,2) :S(END)F(M)", "M EQ(1,1) :F(END)S(L)", "END"])
    bodies = {"": "nothing", "&ANCHOR =": "keyword", "X =": "assignment", "X": "evaluation", "~X": "negation"}
    found = {f"{name}_and_goto": deck([" &STLIMIT = 999", f"L {body} :(L)", "END"]) for body, name in bodies.items()}
    found["keyword_and_computed_goto"] = deck([" &STLIMIT = 999", " X = 'L'", "L &ANCHOR = :($X)", "END"])
    return {"computed_gotos": computed, "nested_gotos": nested, "gotos_both_ways": both, **found}


def of_endings():
    """Families of runs that end soon, each way."""
    endings = {
        "end_alone": ["END"],
        "entry": [" OUTPUT = 1", "L X", "END L"],
        "limit_0": [" &STLIMIT = 0", " X", "END"],
        "error_at_once": [" :(NOWHERE)", "END"],
        "error_in_goto": [" :($EQ(1,2))", "END"],
        "error_in_match": [" 'A' (ARB . PUNCH 'A') . OUTPUT", "END"],
        "error_of_keyword": [" &FULLSCAN = 0", "END"],
    }
    return {name: deck(statements) for name, statements in endings.items()}


def of_calls():
    """Families of calls, and of elements."""
    recursion = [" DEFINE('F(N)') :(E)", "F F = EQ(N,0) 'D' :S(RETURN)", " F = F(N - 1) :(RETURN)"]
    recursion += ["E OUTPUT = F(300)", "END"]
    within = [" DEFINE('F()')", " 'AAAA' ARB ARB LEN(1) *F()", "F 'AAAA' ARB ARB $ X LEN(1) *(1 / 0)", "END"]
    at_once = [" DEFINE('F()','RETURN')", " DEFINE('G()','FRETURN')"]
    named = [" DEFINE('F()','R') :(S)", "R F = .X :(NRETURN)", "S"]
    elements = ["A<1> = A<2>", "T<X> = T<T<X>>", "A<1>", "A<9>"]
    return {
        "recursion": ("calls", deck(recursion)),
        "returns_at_once": ("calls", looped(["F()", "Y = F(,,,)", "G()", "X = G()"], 30, at_once)),
        "names_of_calls": ("calls", looped(["F() = 1"] * 4, 30, named)),
        "elements": ("objects", looped(elements, 30, [" A = ARRAY(3)", " T = TABLE()"])),
        "cut_off_within_a_call": ("whole", deck(within)),
    }


def of_later():
    """Families that need a construct of LATER, by its name."""
    subject = "'" + "A" * 12 + "'"
    cut_off = " 'AAAAAAAA' ARB ARB $ X LEN(2) *(1 / 0)"
    calling_itself = looped([f"{subject} POS(0) P 'B'"], 3, [" P = 'A' *P | ARB"])
    return {
        "fence_of_a_pattern": ("fence", looped([f"{subject} ARBNO(FENCE('A' | 'AA')) 'B'"] * 3, 10)),
        "fences_in_fences": ("fence", looped(["'AAAA' FENCE(FENCE(FENCE(FENCE('A')))) 'B'"] * 3, 10)),
        "fence_of_null": ("fence", looped(["'AAAA' FENCE('') FENCE('') FENCE('') 'B'"] * 3, 10)),
        "fences_around_arb": ("fence", grown("FENCE(P)", f"{subject} POS(0) P 'B'")),
        "fences_of_alternatives": ("fence", grown("FENCE(P | 'Z')", f"{subject} POS(0) P 'B'")),
        "fence_of_fail": ("fence", looped(["'AAAA' FENCE(FAIL) | FENCE('A' | 'B') 'B'"] * 3, 10)),
        "immediate": ("imm", looped(["'AAAA' ARB $ X $ Y 'B'"] * 3, 10)),
        "cut_off_by_output": ("imm", deck([" DETACH(.OUTPUT)", cut_off, "END"])),
        "cursors": ("cursor", looped(["'AAAA' @X @Y @Z 'B'"] * 3, 10)),
        "cut_off": ("defer", deck([cut_off, "END"])),
        "cut_off_late": ("defer", deck([" 'AAAAAAAA' ARB ARB ARB RPOS(0) *(1 / 0)", "END"])),
        "cut_off_by_a_count": ("defer", deck([" 'AAAAAAAA' ARB LEN(*(3 - X)) @X RPOS(0) 'B'", "END"])),
        "pattern_that_defers_itself": ("defer", calling_itself),
        "failing_expressions": ("defer", looped(["'AAAA' (*EQ(1,2) | LEN(*EQ(1,2)) | ANY(*X)) 'B'"], 10, [" X = 'A'"])),
    }


def all_families(later):
    """Each family by its name, that needs nothing but these constructs of LATER."""
    found = {f"indirect_{depth}": indirect(depth) for depth in (1, 3, 16)}
    for more in (of_patterns(), of_growing(), of_statements(), of_gotos(), of_endings()):
        found.update(more)
    whole = [*later, "whole"] if set(later) == set(LATER) else later
    for more in (of_later(), of_calls()):
        found.update((name, it) for name, (construct, it) in more.items() if construct in whole)
    return found
