"""The grammars of editors/: each is tried on the decks of examples/ and tests/decks, and compared with the lexer.

Compared is, byte by byte, which kind of token a card has there; for the grammar of vscode where each token begins too.
The tokens are those of tests/reference. Left out are tokens other than literals that stand on two cards, which no
grammar of lines can see, and what stands behind an END that does.
"""

import json
import pathlib
import re
import tempfile

from case_files import unpacked
from reference import cards, tokens

from .command import ROOT, is_there, run

GRAMMAR = ROOT / "editors" / "vscode" / "syntaxes" / "snobol4.tmLanguage.json"
VIM = ROOT / "editors" / "vim"
VSCODE = ROOT / "editors" / "vscode"
# Decks of more bytes take too long.
MOST = 20000
# So many decks are given to one run of vim, whose time is limited.
BATCH = 50
# Which kind of token a scope, or a group of vim, stands for; any other is no token. The longest beginning counts.
SCOPES = {
    "keyword.control": "name",
    "keyword.control.card": "",
    "variable": "name",
    "support": "name",
    "constant.language": "name",
    "entity.name": "name",
    "constant.numeric": "integer",
    "string": "literal",
    "keyword.operator": "mark",
    "punctuation.goto": "mark",
    "invalid.illegal": "none",
    "invalid.illegal.card": "",
}
GROUPS = {
    **dict.fromkeys(("Name", "Call", "Pattern", "Return", "Primitive", "Keyword", "Goto", "Label", "End"), "name"),
    "Integer": "integer",
    "String": "literal",
    "Mark": "mark",
    "Bad": "none",
}
# What is written for each kind in the rows that are compared; `?` is anything.
LETTERS = {"name": "n", "integer": "i", "literal": "l", "unclosed": "l", "mark": "m", "none": "x", "": " ", "blanks": " "}


class PlacedText(cards.Text):
    """A text that keeps the card and the column of each byte."""

    def __init__(self):
        super().__init__()
        self.places, self.card, self.column = [[]], None, 0

    def put(self, card, byte):
        """Puts one byte at the end."""
        if card != self.card:
            self.column = 0 if self.card is None else 1
            self.card = card
        super().put(card, byte)
        if len(self.pieces) > len(self.places):
            self.places.append([])
        else:
            self.places[-1].append((card, self.column))
        self.column += 1


class PlacedReader(cards.Reader):
    """Reads cards into such texts."""

    TEXT = PlacedText


def read(deck):
    """What is known of a deck's cards: the pieces with the places of their bytes, the card of END, and the cards."""
    reader, lines, last = PlacedReader(), cards.lines_of(deck), None
    for number, line in enumerate(lines, 1):
        if reader.read(number, line):
            last = number
            break
    pieces = []
    for text in reader.texts:
        for piece, places in zip(text.pieces, text.places):
            pieces.append((bytes(piece.text), places))
            if piece.is_end():
                return pieces, last, lines
    return pieces, last, lines


def put_token(rows, kind, places, begins):
    """Writes a token's kind into the rows, a capital letter where it begins if that is compared."""
    letter = LETTERS[kind]
    if len({card for card, _ in places}) > 1 and letter != "l":
        letter = "?"
    for at, (card, column) in enumerate(places):
        rows[card - 1][column] = letter.upper() if begins and at == 0 and letter != " " else letter


def expected(deck, begins):
    """A row for each card of a deck: which kind of token each byte of columns 1 to 72 is of."""
    pieces, last, lines = read(deck)
    rows = [[" "] * len(line[: cards.COLUMNS]) for line in lines]
    seen = False
    for number, line in enumerate(lines):
        seen |= line[:1] not in (b"", b"*", b"-", b"+", b".") and bool(line[: cards.COLUMNS].strip())
        if not seen and line[:1] in (b"+", b"."):
            rows[number] = ["?"] * len(rows[number])
    for text, places in pieces:
        at = 0
        for token in tokens.tokens_of(text):
            put_token(rows, token.kind, places[at : at + len(token.text)], begins)
            at += len(token.text)
    if last and len({card for card, _ in pieces[-1][1][:3]}) > 1:
        rows[last:] = [["?"] * len(row) for row in rows[last:]]
    return ["".join(row) for row in rows]


class Grammar:
    """A TextMate grammar, applied to a deck line by line."""

    def __init__(self, file):
        self.grammar = json.loads(file.read_text(encoding="utf-8"))
        self.repository = self.grammar["repository"]
        self.compiled = {}

    def rules(self, patterns):
        """The rules of patterns, in order, with those that they include."""
        for rule in patterns:
            if "include" in rule:
                rule = self.repository[rule["include"][1:]]
            if "match" in rule or "begin" in rule:
                yield rule
            else:
                yield from self.rules(rule["patterns"])

    def search(self, expression, line, at):
        """Where an expression matches first."""
        if expression not in self.compiled:
            self.compiled[expression] = re.compile(expression)
        return self.compiled[expression].search(line, at)

    def next_rule(self, stack, line, at):
        """The rule that matches first, an end before others, with its match."""
        best, inner = None, stack[-1]
        ends = [({"end": inner["end"], "name": inner.get("name", "")}, inner["end"])] if "end" in inner else []
        tried = [(rule, rule.get("match") or rule["begin"]) for rule in self.rules(inner["patterns"])]
        for rule, expression in ends + tried:
            found = self.search(expression, line, at)
            if found and (best is None or found.start() < best[1].start()):
                best = rule, found
        return best

    def tokens(self, stack, line):
        """The scopes of a line, each with its beginning and end; the stack is left as it is behind the line."""
        at = 0
        while at <= len(line):
            best = self.next_rule(stack, line, at)
            inside = stack[-1].get("name", "")
            rule, found = best or (None, None)
            stop = found.start() if found else len(line)
            if inside and stop > at:
                yield inside, at, stop
            if not found:
                return
            yield from self.scopes(rule, found)
            if "begin" in rule:
                stack.append(rule)
            elif "end" in rule:
                stack.pop()
            elif found.end() == at:
                return
            at = found.end()

    def scopes(self, rule, found):
        """The scopes of one match."""
        captures = rule.get("beginCaptures") if "begin" in rule else rule.get("captures")
        if captures:
            for number, scope in captures.items():
                if found.end(int(number)) > found.start(int(number)):
                    yield scope["name"], found.start(int(number)), found.end(int(number))
        elif found.end() > found.start():
            yield rule.get("name", ""), found.start(), found.end()

    def lines(self, deck):
        """The scopes of each line of a deck."""
        stack = [{"patterns": self.grammar["patterns"]}]
        for line in cards.lines_of(deck):
            yield list(self.tokens(stack, line.decode("latin-1"))), len(line[: cards.COLUMNS])


def kind_of(scope):
    """The kind of token that a scope stands for."""
    begun = [name for name in SCOPES if scope.startswith(name)]
    return SCOPES[max(begun, key=len)] if begun else ""


def literal_joined(found):
    """The scopes of a line with those of one literal joined."""
    out = []
    for scope, start, end in found:
        if out and scope.startswith("string") and out[-1][0] == scope and out[-1][2] == start and not out[-1][3]:
            out[-1] = (scope, out[-1][1], end, end - start == 1)
        else:
            out.append((scope, start, end, False))
    return [it[:3] for it in out]


def coloured(grammar, deck):
    """The rows of a deck by the grammar."""
    rows = []
    for found, length in grammar.lines(deck):
        row = [" "] * length
        for scope, start, end in found:
            letter = LETTERS[kind_of(scope)]
            for column in range(start, min(end, length)):
                row[column] = letter
            if letter not in " l" and start < length:
                row[start] = letter.upper()
        rows.append("".join(row))
    return rows


def differ(wanted, got):
    """The first card where two lists of rows differ, or None."""
    for number, (row, other) in enumerate(zip(wanted, got), 1):
        if any(a not in ("?", b) for a, b in zip(row, other)):
            return f"card {number}: {row!r}, but {other!r}"
    return None if len(wanted) == len(got) else "other cards"


def decks():
    """The decks that are tried."""
    found = [*(ROOT / "examples").glob("**/*.sno"), *unpacked("decks").glob("*/*.sno")]
    return [file for file in sorted(found) if file.stat().st_size <= MOST]


def without_literals(row):
    """A row in which it counts for nothing where literals begin."""
    return row.replace("L", "l")


def grammar_checks():
    """The grammar of vscode on each deck."""
    grammar = Grammar(GRAMMAR)
    for file in decks():
        deck = file.read_bytes()
        wanted = [without_literals(row) for row in expected(deck, True)]
        found = differ(wanted, coloured(grammar, deck))
        yield str(file.relative_to(ROOT)), f"the lexer's tokens by the grammar of vscode: {found}", not found


VIM_SCRIPT = r"""
let s:letters = json_decode(readfile($LETTERS)[0])
function! s:Row(line)
  let row = ''
  for column in range(1, min([72, len(getline(a:line))]))
    let row .= get(s:letters, substitute(synIDattr(synID(a:line, column, 1), 'name'), '^snobol4', '', ''), ' ')
  endfor
  return row
endfunction
for file in readfile($FILES)
  execute 'edit ++enc=latin1 ++ff=unix' fnameescape(file)
  setlocal filetype=snobol4 noswapfile
  call writefile([file] + map(range(1, line('$')), 's:Row(v:val)') + ['.'], $OUT, 'aS')
  bwipeout!
endfor
"""


def vim_rows(files):
    """The rows of decks as vim colours them."""
    with tempfile.TemporaryDirectory(prefix="sno-vim-") as name:
        folder = pathlib.Path(name)
        (folder / "script.vim").write_text(VIM_SCRIPT, encoding="ascii")
        (folder / "files").write_text("".join(f"{file}\n" for file in files), encoding="utf-8")
        letters = {group: LETTERS[kind] for group, kind in GROUPS.items()}
        (folder / "letters").write_text(json.dumps(letters) + "\n", encoding="ascii")
        words = ["vim", "-u", "NONE", "-i", "NONE", "-n", "-es", "--cmd", "set nocompatible encoding=latin1"]
        words += ["-c", f"set runtimepath^={VIM}", "-c", "filetype plugin on", "-c", "syntax on"]
        words += ["-c", f"source {folder}/script.vim", "-c", "qall!"]
        run(words, LETTERS=f"{folder}/letters", FILES=f"{folder}/files", OUT=f"{folder}/out")
        out = (folder / "out").read_text(encoding="latin-1") if (folder / "out").exists() else ""
    rows = {}
    for block in out.split("\n.\n")[:-1]:
        file, *lines = block.split("\n")
        rows[file] = lines
    return rows


def vim_checks():
    """The syntax of vim on each deck, by vim."""
    files = [file for file in decks() if file.stat().st_size]
    rows = {}
    for first in range(0, len(files), BATCH):
        rows.update(vim_rows(files[first : first + BATCH]))
    for file in files:
        found = differ(expected(file.read_bytes(), False), rows.get(str(file), []))
        yield str(file.relative_to(ROOT)), f"the lexer's tokens by the syntax of vim: {found}", not found


# Lines of `snobol`, and what is to be seen of each: file, card, column, kind and code, 0 where there is no column.
MESSAGES = {
    "a.sno:1:10: error L1: a byte that begins no token": ("a.sno", 1, 10, "e", "L1"),
    "a.sno:3: error E3 in statement 2: a string that isn't an integer in range": ("a.sno", 3, 0, "e", "E3"),
    "b.sno:2:6: warning case: the variable x differs in case alone from X": ("b.sno", 2, 6, "w", "case"),
    "b.sno:4: note ported: tabs are blanks": ("b.sno", 4, 0, "n", "ported"),
}


def matcher_checks():
    """The problem matcher of Visual Studio Code on lines of `snobol`."""
    contributes = json.loads((VSCODE / "package.json").read_text(encoding="utf-8"))["contributes"]
    pattern = contributes["problemMatchers"][0]["pattern"]
    for line, wanted in MESSAGES.items():
        found = re.fullmatch(pattern["regexp"], line)
        groups = [found[pattern[name]] for name in ("file", "line", "column", "severity", "code")] if found else None
        seen = (groups[0], int(groups[1]), int(groups[2] or 0), groups[3][0], groups[4]) if groups else None
        yield "editors/vscode/package.json", f"the problem matcher on {line}: {seen}", seen == wanted


def compiler_checks():
    """The compiler file of vim on lines of `snobol`."""
    with tempfile.TemporaryDirectory(prefix="sno-vim-") as name:
        folder = pathlib.Path(name)
        (folder / "told").write_text("".join(f"{line}\n" for line in MESSAGES), encoding="ascii")
        rows = "map(getqflist(), {_, it -> [bufname(it.bufnr), it.lnum, it.col, it.type, it.text]})"
        words = ["vim", "-u", "NONE", "-i", "NONE", "-n", "-es", "--cmd", "set nocompatible", "-c", f"set runtimepath^={VIM}"]
        words += ["-c", "compiler snobol4", "-c", "cgetfile told"]
        words += ["-c", f"call writefile([json_encode({rows})], 'seen')", "-c", "qall!"]
        run(words, folder=folder)
        file = folder / "seen"
        seen = json.loads(file.read_text(encoding="utf-8")) if file.is_file() else []
    for row, wanted in zip(seen + [None] * len(MESSAGES), MESSAGES.values()):
        there = row and (*row[:4], row[4].partition(":")[0].partition(" ")[0]) == wanted
        yield "editors/vim/compiler/snobol4.vim", f"a message in the list of errors: {row}", there


def checks():
    """Both grammars."""
    yield from grammar_checks()
    yield from matcher_checks()
    if is_there("vim", "the syntax of vim"):
        yield from vim_checks()
        yield from compiler_checks()
