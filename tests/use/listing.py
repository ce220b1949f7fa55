"""The program `sno_list`: what it says of each deck, of each cause and of each error."""

import pathlib
import re
import tempfile

from case_files import unpacked

from .command import ROOT, run
from .decks import outcome

PLACE = "docs/listing.md"
DECKS = unpacked("decks")
# Decks that show each cause: what stands on the line of the caret, and the cause as it is told. `^` stands under a byte.
CAUSES = [
    (" X = 'A' # 'B'\nEND\n", " " * 9 + "^", "statement 1 L1"),
    (" X = 'A' 'B\nEND\n", " " * 9 + "^", "statement 1 L2"),
    (" X = 1 9223372036854775808\nEND\n", " " * 7 + "^", "statement 1 L3"),
    (" X =\n+ " + "(" * 65 + "Y" + ")" * 65 + "\nEND\n", " " * 66 + "^", "statement 1 L4"),
    (" X = " + "-" * 17 + "Y\nEND\n", " " * 21 + "^", "statement 1 L5"),
    (" X = A+ B\nEND\n", None, "statement 1 P1"),
    ("RETURN X = 1\nEND\n", "^", "statement 1 P2"),
    (" Y = 1; X = SIZE(A,B)\nEND\n", " " * 12 + "^", "statement 2 P3"),
    (" X = 'a\n+b' &NOSUCH\nEND\n", " " * 5 + "^", "statement 1 P4"),
    (" 1 = X\nEND\n", None, "statement 1 P5"),
    ("END NOWHERE\n", "    ^", "statement 1 P6"),
    (" X = 1\t\nEND\n", None, "card 1 C1"),
    ("+ X = 1\nEND\n", None, "card 1 C2"),
    ("-LISTX\nEND\n", None, "card 1 C3"),
    (" X = 1\n", None, "card 2 C4"),
    ("X" * 100 + "\n" + ("+" + "Y" * 71 + "\n") * 60 + "END\n", None, "card 1 C6"),
]
MARGIN = " " * 16
SENTENCE = re.compile(r"[A-Z].*[.]", re.DOTALL)


def told(sno_list, deck, **environment):
    """The lines of a deck's listing, and the exit status."""
    out, _, status = run([sno_list], deck, None, **{"COLUMNS": "132", **environment})
    return out.decode("latin-1").split("\n"), status


def cause_checks(sno_list):
    """Each cause is told under its card, with a caret where that is known and a sentence."""
    for deck, caret, cause in CAUSES:
        lines, status = told(sno_list, deck.encode("latin-1"))
        place = lines.index(MARGIN + cause) if MARGIN + cause in lines else 0
        above = lines[place - 1] == MARGIN + (caret or "")
        yield PLACE, f"the caret of {cause}: {lines}", place and (above if caret else "^" not in lines[place - 1])
        text = " ".join(line.strip() for line in lines[place + 1 : place + 4] if line.startswith(MARGIN))
        yield PLACE, f"a sentence that explains {cause}: {text}", SENTENCE.match(text) and status == 3


def error_checks(sno, sno_list):
    """Each error is explained, with a deck that ends by it, which is a case of tests/decks."""
    for number in range(1, 17):
        name = f"E{number}"
        out, _, status = run([sno_list, "--error", name])
        deck = out.decode().partition("A deck that ends so:\n\n")[2].rstrip("\n") + "\n"
        yield PLACE, f"what {name} means", status == 0 and out.decode().startswith(f"{name}: ")
        ended = outcome(sno, deck.encode(), b"")[1].decode()
        yield PLACE, f"a deck that ends by {name}: {ended}", ended.startswith(f"error {name} ")
        case = DECKS / "explained" / f"deck_of_{name.lower()}.sno"
        yield PLACE, f"the deck of {name} as a case", case.read_text() == deck
    yield PLACE, "an error that isn't there", run([sno_list, "--error", "E17"])[2] == 2


def numbers(lines):
    """The numbers of statements by the cards of a listing."""
    found = {}
    for line in lines:
        row = re.match(r" *([0-9]+) +([0-9]+)(?:-([0-9]+))? ", line[:16])
        if row:
            first, last = int(row[2]), int(row[3] or row[2])
            found.update(dict.fromkeys(range(first, last + 1), int(row[1])))
    return found


def deck_checks(sno, sno_list):
    """Statements and faults as `sno` tells them, and instructions as `sno show` does, of some decks."""
    files = [*(ROOT / "examples").glob("*.sno"), *(DECKS / "faults").glob("*.sno"), *(DECKS / "worked").glob("*.sno")]
    for file in sorted(files):
        deck = file.read_bytes()
        lines, status = told(sno_list, deck)
        with tempfile.TemporaryDirectory(prefix="sno-list-") as name:
            words = [sno, "compile", file, "module"]
            faults = run(words, folder=name)[1].decode().splitlines()
            shown = run([sno, "show", "module"], folder=name)[0].decode().splitlines() if not faults else []
        place = str(file.relative_to(ROOT))
        seen = [line.strip() for line in lines if re.fullmatch(r" {16}(statement|card) [0-9]+ [CLP][0-9]", line)]
        yield place, f"the faults that sno_list tells: {seen}", seen == faults and status == (3 if faults else 0)
        if not faults:
            code = run([sno_list, "--code", file])[0].decode("latin-1")
            rows = re.findall(r"^ {16}([0-9a-f]{8} [A-Z]+)", code, re.MULTILINE)
            yield place, "the instructions that sno_list shows", rows == [" ".join(row.split()[:2]) for row in shown]


def form_checks(sno_list):
    """Numbers of statements, widths, escapes and colours."""
    lines, _ = told(sno_list, b"* A comment.\n X = 1; Y = 2\n\n Z =\n+ 3\nEND\n")
    yield PLACE, f"the statements of cards: {lines}", numbers(lines) == {1: 2, 2: 2, 3: 4, 4: 6}
    yield PLACE, f"the last line: {lines[-2]}", lines[-2] == "6 cards, 4 statements, 0 faulty"
    lines, _ = told(sno_list, b" X = '\t'\nEND\n")
    yield PLACE, f"a tab: {lines[0]}", lines[0].endswith(" X = '\\x09'")
    for width in (40, 80, 132):
        lines, _ = told(sno_list, b" X = A+ B " + b"+ C " * 15 + b"\nEND\n", COLUMNS=str(width))
        longest = max(map(len, lines))
        yield PLACE, f"lines of at most {width}: {longest}", longest <= width
    words = ["script", "-qec", f"'{sno_list}' deck", "/dev/null"]
    with tempfile.TemporaryDirectory(prefix="sno-list-") as name:
        (pathlib.Path(name) / "deck").write_text(" X = A+ B\nEND\n", encoding="ascii")
        plain = run([sno_list, "deck"], folder=name)[0]
        yield PLACE, "no colours where standard output is no terminal", b"\x1b" not in plain
        terminal = run(words, folder=name)[0]
        yield PLACE, f"colours on a terminal: {terminal!r}", b"\x1b[1;31m" in terminal
        terminal = run(words, folder=name, NO_COLOR="1")[0]
        yield PLACE, "no colours where NO_COLOR asks for none", b"\x1b" not in terminal and b"P1" in terminal


def word_checks(sno_list):
    """Words that aren't in the table, and files that can't be read."""
    for words in (["--list"], ["a", "b"], ["--error"], ["--code", "a", "b"], ["--help"]):
        yield PLACE, f"the words {words}", run([sno_list, *words])[1:] == (b"bad command line\n", 2)
    yield PLACE, "a file that isn't there", run([sno_list, "/missing"])[1:] == (b"cannot read /missing\n", 6)


def checks(sno, sno_list):
    """All that docs/listing.md says."""
    yield from cause_checks(sno_list)
    yield from error_checks(sno, sno_list)
    yield from deck_checks(sno, sno_list)
    yield from form_checks(sno_list)
    yield from word_checks(sno_list)
