"""The decks that the page and the site offer: those of examples/, and of docs/tutorial.md, porting.md and language.md."""

import pathlib
import re
import typing

ROOT = pathlib.Path(__file__).resolve().parent.parent
BLOCK = re.compile(r"^```(deck|input|prints|told)\n(.*?)^```$|^#+ ([^\n]*)$", re.S | re.M)
# A message of `snobol` about a deck: its card and its code.
MESSAGE = re.compile(r"^deck\.sno:(\d+)(?::\d+)?: error ([A-Z]\d+)", re.M)
INCLUDE = re.compile(r"^-INCLUDE '(.*)'$", re.M)
SPAN = re.compile(r"(`+)(.+?)\1")
STEPS = 1_000_000_000
# The first cells of the heads of tables whose rows have decks.
HEADS = ("deck", "first card (then `END`)", "cards")


class Deck(typing.NamedTuple):
    """A deck with what it reads, what is shown of its run, and the bound on its steps.

    Of a faulty deck, and of a run that ends by an error, `told` is the messages, each as its card and its code.
    """

    name: str
    deck: str
    input: str = ""
    prints: str | None = None
    steps: int = STEPS
    told: tuple[str, ...] | None = None


def of_examples():
    """The decks of examples/, the first one of README.md first."""
    files = sorted((ROOT / "examples").glob("*.sno"), key=lambda file: (file.name != "split.sno", file.name))
    prints = [file.with_suffix(".out").read_text(encoding="utf-8") for file in files]
    return [Deck(file.name, file.read_text(encoding="ascii"), "", each) for file, each in zip(files, prints)]


def included(deck):
    """A deck with the decks of the library that it takes in, as a browser has no files."""
    return INCLUDE.sub(lambda found: (ROOT / "share/snobol" / found[1]).read_text(encoding="ascii").rstrip("\n"), deck)


def of_blocks(text):
    """The decks between fences, each with the heading over it, and with the input, records and messages that follow."""
    found, part = [], ""
    for kind, block, head in BLOCK.findall(text):
        if head:
            part = head
        elif kind == "deck":
            found.append(Deck(part, included(block)))
        elif kind == "input":
            found[-1] = found[-1]._replace(input=block)
        elif kind == "prints":
            found[-1] = found[-1]._replace(prints=block)
        else:
            found[-1] = found[-1]._replace(told=tuple(f"{card} {code}" for card, code in MESSAGE.findall(block)))
    return found


def of_page(name):
    """The decks between fences of a page of docs/."""
    return of_blocks((ROOT / f"docs/{name}.md").read_text(encoding="utf-8"))


def spans(text):
    """The pieces of a cell: what stands in backquotes, and what stands between."""
    at = 0
    for found in SPAN.finditer(text):
        yield False, text[at : found.start()]
        inner = found[2]
        if len(found[1]) > 1:
            inner = inner.removeprefix(" ").removesuffix(" ") if inner.startswith(" `") or inner.endswith("` ") else inner
        yield True, inner.replace("\\|", "|")
        at = found.end()
    yield False, text[at:]


def cards_of(cell):
    """The cards at the front of a cell, and what is said behind them; none where it shows no deck."""
    cards, rest, ended = [], "", False
    for is_card, text in spans(cell):
        if is_card and not ended:
            cards.append(text)
        elif not is_card and not ended and text.strip() in ("", ",", "and"):
            continue
        else:
            ended = bool(cards) or ended
            rest += f"`{text}`" if is_card else text
    return cards, " ".join(rest.split())


def repeated(cell):
    """The card of a cell that says how often some of its pieces stand there."""
    return "".join(piece * int(count or 1) for count, piece in re.findall(r"(?:(\d+) times )?`([^`]*)`", cell))


def of_cell(name, cell):
    """The deck that a row of a table shows, if it shows one."""
    cards, rest = cards_of(cell)
    many = re.match(r"(\d+) cards", cell)
    if "no bytes" in cell:
        return Deck(name, "")
    if many:
        cards, rest = cards * int(many[1]), ""
    if re.search(r"\b\d+ times `", cell):
        cards, rest = [repeated(cell)], ""
    if not cards:
        return None
    if not any(re.match(r"END( |$)", card) or card.endswith(";END") for card in cards) and "as last card" not in rest:
        cards = [*cards, "END"]
    last = re.search(r"and `(END[^`]*)` as last card", rest)
    if last:
        cards = [*cards, last[1]]
    bound = re.search(r"at most (\d+) steps", rest)
    record = re.search(r"with the record `([^`]*)` on unit 5", rest)
    typed = record[1] + "\n" if record else "A\n\nB\n" if "five bytes" in rest else ""
    return Deck(name, "".join(f"{card}\n" for card in cards), typed, None, int(bound[1]) if bound else STEPS)


def of_tables(text):
    """The decks that rows of tables show, by the number of the row's line from 0."""
    found, head, part = {}, None, ""
    for number, line in enumerate(text.splitlines()):
        title = re.match(r"#+ (.*)$", line)
        part = title[1] if title else part
        row = re.split(r"(?<!\\)\|", line.strip())[1:-1] if line.startswith("|") else []
        if not row:
            head = None
        elif head is None:
            head = row[0].strip()
        elif head in HEADS and not set(line) <= set("|- :"):
            deck = of_cell(part, row[0].strip())
            if deck:
                found[number] = deck
    return found
