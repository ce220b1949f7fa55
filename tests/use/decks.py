"""The decks of examples/, and the decks that pages show with their input and what they print."""

import pathlib
import re
import sys
import tempfile
import typing

from case_files import unpacked

from .command import ROOT, run

# A block of a page between lines of three backquotes, with one of these words behind the first.
BLOCK = re.compile(r"^```(deck|input|prints|told|checked)\n(.*?)^```$", re.MULTILINE | re.DOTALL)
# The pages whose decks are for `sno`, and those whose decks are for `snobol`.
PAGES, FOR_PEOPLE = ("docs/porting.md",), ("docs/tutorial.md", "docs/library.md")
LIBRARY = ROOT / "share" / "snobol"


class Shown(typing.NamedTuple):
    """A deck of a page: its line there, its text, its input, what it prints, what is reported of it, and what of its check."""

    line: int
    deck: str
    input: str = ""
    prints: str = ""
    told: str = ""
    checked: str = ""


def shown(page):
    """The decks of a page, each with the blocks that follow it."""
    found, text = [], page.read_text(encoding="utf-8")
    for block in BLOCK.finditer(text):
        word, content = block.groups()
        if word == "deck":
            found.append(Shown(text.count("\n", 0, block.start()) + 1, content))
        elif found:
            found[-1] = found[-1]._replace(**{word: content})
    return found


def outcome(sno, deck, given):
    """What a deck prints and reports with this input."""
    with tempfile.TemporaryDirectory(prefix="sno-page-") as name:
        folder = pathlib.Path(name)
        (folder / "deck").write_bytes(deck)
        (folder / "input").write_bytes(given)
        told = run([sno, "compile", "deck", "module"], folder=folder)[1]
        return (b"", told) if told else run([sno, "run", "module"], given, folder)[:2]


def page_checks(sno, page):
    """Each deck of a page prints and reports what is shown under it."""
    for it in shown(page):
        out, told = outcome(sno, it.deck.encode(), it.input.encode())
        same = (out.decode("latin-1"), told.decode("latin-1")) == (it.prints, it.told)
        what = f"what sno answers to the deck there: {out!r} {told!r}"
        yield f"{page.relative_to(ROOT)}:{it.line}", what, same
        yield f"{page.relative_to(ROOT)}:{it.line}", "cards of at most 72 columns", is_narrow(it.deck)


def is_narrow(deck):
    """Whether no card of a deck has columns that aren't read."""
    return all(len(line) <= 72 for line in deck.splitlines())


def people_checks(snobol, page):
    """The same by `snobol`, with the library, and as it writes messages on a terminal; and what it says of a deck's check."""
    for it in shown(page):
        place = f"{page.relative_to(ROOT)}:{it.line}"
        with tempfile.TemporaryDirectory(prefix="snobol-page-") as name:
            folder = pathlib.Path(name)
            (folder / "deck.sno").write_text(it.deck, encoding="ascii")
            how = {"folder": folder, "SNOPATH": str(LIBRARY)}
            out, told, _ = run([snobol, "--messages=text", "deck.sno"], it.input.encode(), **how)
            checked = run([snobol, "check", "--messages=text", "deck.sno"], **how)[1]
        same = (out.decode(), told.decode()) == (it.prints, it.told)
        yield place, f"what snobol answers to the deck there: {out.decode()} {told.decode()}", same
        if it.checked or not told:
            yield place, f"what snobol says of the deck's check there: {checked.decode()}", checked.decode() == it.checked
        yield place, "cards of at most 72 columns", is_narrow(it.deck)


def library_checks():
    """That docs/library.md has each function of the library in a table and in a deck, and each deck of it."""
    page = ROOT / "docs" / "library.md"
    decks, text = "".join(it.deck for it in shown(page)), page.read_text(encoding="utf-8")
    for file in sorted(LIBRARY.glob("*.sno")):
        head = file.read_text(encoding="ascii").partition("\n DEFINE(")[0]
        for call in re.findall(r"^\* {3}([A-Z]+)\(", head, re.MULTILINE):
            yield "docs/library.md", f"{call} of {file.name} in a table", f"`{call}(" in text
            yield "docs/library.md", f"{call} of {file.name} in a deck", f"{call}(" in decks
        yield "docs/library.md", f"a deck with {file.name}", f"-INCLUDE '{file.name}'" in decks
        yield f"share/snobol/{file.name}", "cards of at most 72 columns", is_narrow(file.read_text(encoding="ascii"))


def row_checks():
    """That each row of docs/porting.md has a case in tests/snobol/porting: a comment of its deck is the row's beginning."""
    page = ROOT / "docs" / "porting.md"
    decks = [file.read_text(encoding="latin-1") for file in (unpacked("snobol") / "porting").glob("*.sno")]
    said = [card[2:].rstrip() for deck in decks for card in deck.splitlines() if card.startswith("* ")]
    for row in re.findall(r"^\| (.*?)(?<!\\) \|", page.read_text(encoding="utf-8"), re.MULTILINE):
        plain = row.replace("`", "").replace("\\|", "|").strip()
        if plain not in ("there", "here", "not here"):
            yield "docs/porting.md", f"a case for the row {plain}", any(plain.startswith(text) for text in said if len(text) > 3)


def checks(sno, snobol=None):
    """The decks of examples/ and of the pages; of those for `snobol` if there is such a program."""
    for file in sorted((ROOT / "examples").glob("*.sno")):
        out, told = outcome(sno, file.read_bytes(), b"")
        same = (out, told) == (file.with_suffix(".out").read_bytes(), b"")
        yield f"examples/{file.name}", f"what sno prints: {told.decode()}", same
    for name in PAGES:
        yield from page_checks(sno, ROOT / name)
    yield from library_checks()
    yield from row_checks()
    if not snobol:
        print(f"left out, as no snobol is given: the decks of {', '.join(FOR_PEOPLE)}", file=sys.stderr)
        return
    for name in FOR_PEOPLE:
        yield from people_checks(snobol, ROOT / name)
