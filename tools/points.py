"""Finds the points of a source at which a run may go one way or another, and puts a count at each.

A point is where a function begins, an arm of a `match`, a block behind `if` or `else`, the `else` of a `let`, or what a
loop repeats. It is named `FUNCTION: WAY`. Sources are laid out as `rt fmt` does it.
"""

import re

TOKEN = re.compile(
    r"""//[^\n]*|/\*.*?\*/|b?"(?:\\.|[^"\\])*"|b?'(?:\\.[^']*|[^'\\\n])'|'\w+|\w+|=>|->|\.\.=?|::|[^\w\s]|\s+""",
    re.DOTALL,
)
FUNCTION = re.compile(r"^( *)(?:pub(?:\([a-z ]+\))? )?(?:unsafe )?fn (\w+)", re.MULTILINE)
OWNER = re.compile(r"^(?:unsafe )?impl\b(.*?)(?: where .*)?\{$")
OPEN, CLOSE = {"(", "[", "{"}, {")", "]", "}"}
# How much of a way's text its name has.
MOST = 100


def is_blank(token):
    """Whether a token is white space or a comment."""
    return token.isspace() or token.startswith(("//", "/*"))


def named(tokens):
    """Some tokens on one line, as a name."""
    text = "".join(" " if is_blank(it) else it for it in tokens)
    text = re.sub(r",? ([)\]}])", r"\1", re.sub(r"\s+", " ", text)).replace("( ", "(")
    return text.strip()[:MOST].strip()


class Function:
    """Counts in the body of a function."""

    def __init__(self, tokens, name, put):
        self.tokens = tokens
        self.name = name
        # Gives the text of a count, for a name.
        self.put = put
        self.out = []

    def close(self, at):
        """The place of the bracket that closes the one at a place."""
        depth = 0
        for place in range(at, len(self.tokens)):
            depth += self.tokens[place] in OPEN
            depth -= self.tokens[place] in CLOSE
            if depth == 0:
                return place
        raise ValueError(f"{self.name}: a bracket isn't closed")

    def find(self, at, end, wanted):
        """The place of the first of some tokens from a place on, outside of brackets; the end if there is none."""
        while at < end:
            token = self.tokens[at]
            if token in wanted:
                return at
            at = self.close(at) + 1 if token in OPEN else at + 1
        return end

    def block(self, at, way):
        """A block whose bracket opens at a place, with a count at its beginning; the place behind it."""
        end = self.close(at)
        self.out += ["{", self.put(f"{self.name}: {way}")]
        self.code(at + 1, end)
        self.out.append("}")
        return end + 1

    def arms(self, at, end):
        """The arms of a match between two places."""
        while True:
            while at < end and is_blank(self.tokens[at]):
                self.out.append(self.tokens[at])
                at += 1
            if at >= end:
                return
            arrow = self.find(at, end, {"=>"})
            way = named(self.tokens[at:arrow])
            self.out += self.tokens[at : arrow + 1]
            at = arrow + 1
            while is_blank(self.tokens[at]):
                self.out.append(self.tokens[at])
                at += 1
            if self.tokens[at] == "{":
                at = self.block(at, way)
                if at < end and self.tokens[at] == ",":
                    at += 1
                continue
            comma = self.find(at, end, {","})
            self.out += ["{", self.put(f"{self.name}: {way}")]
            self.code(at, comma)
            self.out.append("}")
            at = comma + 1

    def code(self, at, end):
        """Code between two places."""
        waiting = "let"
        while at < end:
            token = self.tokens[at]
            if token in ("if", "while", "for", "match", "loop") and self.tokens[at - 1 : at] != ["'"]:
                place = self.find(at + 1, end, {"{"})
                text = named(self.tokens[at:place])
                self.out.append(token)
                self.code(at + 1, place)
                if token == "match":
                    close = self.close(place)
                    self.out.append("{")
                    self.arms(place + 1, close)
                    self.out.append("}")
                    at = close + 1
                else:
                    at, waiting = self.block(place, text), text
            elif token == "let":
                place = self.find(at + 1, end, {";", "else"})
                waiting = named(self.tokens[at:place])
                self.out.append(token)
                at += 1
            elif token == "else":
                self.out.append(token)
                at += 1
                while is_blank(self.tokens[at]):
                    self.out.append(self.tokens[at])
                    at += 1
                if self.tokens[at] == "{":
                    at = self.block(at, f"else of {waiting}")
            else:
                self.out.append(token)
                at += 1


def body_of(text, found):
    """Where the body of a function begins that is found at a place of a text; None if it has none."""
    indent = found[1]
    opening = re.compile(rf"^(?:{indent}\{{|{indent}\).*\{{|{indent}(?:pub|unsafe|fn).*(?:\{{|;|\}}))$", re.MULTILINE)
    line = opening.search(text, found.start())
    return line.end() - 1 if line and text[line.end() - 1] == "{" else None


def counted(text, put):
    """A text with counts: `put` takes the name of each point and gives the count's text."""
    pieces, at = [], 0
    for found in FUNCTION.finditer(text):
        if found.start() < at:
            continue
        start = body_of(text, found)
        if start is None:
            continue
        indent = found[1]
        end = text.index(f"\n{indent}}}", start) + 1 + len(indent)
        owner = owner_of(text, found.start()) if indent else ""
        function = Function(TOKEN.findall(text[start + 1 : end]), owner + found[2], put)
        function.out.append(put(f"{function.name}: begins"))
        function.code(0, len(function.tokens))
        pieces += [text[at : start + 1], "".join(function.out)]
        at = end
    return "".join([*pieces, text[at:]])


def owner_of(text, place):
    """The type whose function stands at a place, with two colons."""
    lines = text[:place].split("\n")
    for line in reversed(lines):
        found = OWNER.match(line)
        if found:
            words = re.sub(r"<[^<>]*(?:<[^<>]*>[^<>]*)*>", "", found[1]).split()
            return f"{words[-1].split('::')[-1].lstrip('&')}::" if words else ""
        if re.match(r"^(pub )?(unsafe )?trait (\w+)", line):
            return re.match(r"^(?:pub )?(?:unsafe )?trait (\w+)", line)[1] + "::"
    return ""
