"""The tree of a statement's tokens."""

from .tokens import UNARY_MARKS, Token, digits_value
from .trees import Binary, Body, Call, End, Integer, Keyword, Literal, Name, Place, Plain, Reference, Unary

# For each level the marks of its operators, and the level of their right operands.
LEVELS = {
    1: ((b"$", b"."), 0),
    2: ((b"**",), 2),
    3: ((b"*",), 2),
    4: ((b"/",), 3),
    5: ((b"+", b"-"), 4),
    7: ((b"|",), 6),
}
CONCATENATION = 6
WHOLE = 7
NOTHING = Token("end", b"")


class NoTree(Exception):
    """The tokens have no tree."""


class Parser:
    """A list of tokens, and how far it is read."""

    def __init__(self, tokens):
        self.tokens, self.at = tokens, 0

    def peek(self, ahead=0):
        """The token that is as many places ahead."""
        at = self.at + ahead
        return self.tokens[at] if at < len(self.tokens) else NOTHING

    def take(self):
        """Reads a token."""
        token = self.peek()
        self.at += 1
        return token

    def skip(self):
        """Reads blanks, if they are there."""
        if self.peek().kind == "blanks":
            self.at += 1

    def takes(self, mark):
        """Reads this mark, if it comes next; whether it did."""
        found = self.peek().is_mark(mark)
        self.at += found
        return found

    def takes_spaced(self, mark):
        """Reads blanks and this mark, if they come next; whether they did."""
        found = self.peek().kind == "blanks" and self.peek(1).is_mark(mark)
        self.at += 2 * found
        return found

    def expect(self, mark):
        """Reads this mark, which must come."""
        if not self.takes(mark):
            raise NoTree

    def starts_spaced(self):
        """Whether blanks and the beginning of an element come next."""
        token = self.peek(1)
        begins = token.kind in ("name", "integer", "literal") or token.is_mark(b"(")
        return self.peek().kind == "blanks" and (begins or token.kind == "mark" and token.text in UNARY_MARKS)

    # ---- expressions

    def element(self):
        """An element, after its unary operators."""
        marks = []
        while self.peek().kind == "mark" and self.peek().text in UNARY_MARKS:
            marks.append(self.take().text)
        tree = self.keyword() if marks and marks[-1] == b"&" else self.base()
        if marks and marks[-1] == b"&":
            marks.pop()
        for mark in reversed(marks):
            if mark == b"&":
                raise NoTree
            tree = Unary(mark, tree)
        return tree

    def keyword(self):
        """The name behind `&`."""
        token = self.take()
        if token.kind != "name":
            raise NoTree
        return Keyword(token.text)

    def base(self):
        """An element without unary operators."""
        token = self.take()
        if token.kind == "integer":
            return Integer(digits_value(token.text))
        if token.kind == "literal":
            return Literal(token.text[1:-1])
        if token.kind == "name":
            return self.named(token.text)
        if not token.is_mark(b"("):
            raise NoTree
        self.skip()
        tree = self.whole()
        self.skip()
        self.expect(b")")
        return tree

    def named(self, name):
        """A name, a call or a reference."""
        if self.takes(b"("):
            arguments = self.several(b")")
            return Call(name, () if arguments == (None,) else arguments)
        if self.takes(b"<"):
            subscripts = self.several(b">")
            if None in subscripts:
                raise NoTree
            return Reference(name, subscripts)
        return Name(name)

    def several(self, close):
        """Arguments with commas between, and the bracket that closes them."""
        arguments = [self.one(close)]
        while self.takes(b","):
            arguments.append(self.one(close))
        self.expect(close)
        return tuple(arguments)

    def one(self, close):
        """An argument, or None if it is absent."""
        self.skip()
        if self.peek().is_mark(b",") or self.peek().is_mark(close):
            return None
        tree = self.whole()
        self.skip()
        return tree

    def whole(self):
        """An expression."""
        return self.level(WHOLE)

    def level(self, level):
        """An expression whose operators are of this level or tighter."""
        if level == 0:
            return self.element()
        tree = self.level(level - 1)
        while True:
            mark = self.joint(level)
            if mark is None:
                return tree
            right = CONCATENATION - 1 if level == CONCATENATION else LEVELS[level][1]
            tree = Binary(mark, tree, self.level(right))

    def joint(self, level):
        """Reads an operator of this level with its blanks, if one comes next."""
        if level == CONCATENATION:
            return self.concatenation()
        spaced = self.peek().kind == "blanks" and self.peek(2).kind == "blanks"
        token = self.peek(1)
        if not spaced or token.kind != "mark" or token.text not in LEVELS[level][0]:
            return None
        self.at += 3
        return token.text

    def concatenation(self):
        """Reads the blanks of a concatenation, if one comes next."""
        if not self.starts_spaced():
            return None
        self.skip()
        return b" "

    # ---- statements

    def statement(self):
        """A statement."""
        tree = self.end() if self.peek() == Token("name", b"END") else self.plain()
        self.skip()
        if self.peek() is not NOTHING:
            raise NoTree
        return tree

    def end(self):
        """The END statement."""
        self.take()
        entry = None
        if self.peek().kind == "blanks" and self.peek(1).kind == "name":
            self.skip()
            entry = self.take().text
        return End(entry)

    def plain(self):
        """A statement other than END."""
        label = self.take().text if self.peek().kind == "name" else None
        body = self.body()
        success, failure = self.goto()
        return Plain(label, body, success, failure)

    def body(self):
        """What a statement does."""
        if not self.starts_spaced():
            return Body(None, None, False, None)
        self.skip()
        subject, pattern = self.element(), None
        if not self.takes_spaced(b"="):
            if not self.starts_spaced():
                return Body(subject, None, False, None)
            self.skip()
            pattern = self.whole()
            if not self.takes_spaced(b"="):
                return Body(subject, pattern, False, None)
        return Body(subject, pattern, True, self.object())

    def object(self):
        """The object, or None if it is absent."""
        if not self.starts_spaced():
            return None
        self.skip()
        return self.whole()

    def goto(self):
        """Where the statement leads after success, and after failure."""
        if not self.takes_spaced(b":"):
            return None, None
        self.skip()
        first = self.peek()
        if first not in (Token("name", b"S"), Token("name", b"F")):
            place = self.in_brackets()
            return place, place
        self.take()
        places = {first.text: self.in_brackets()}
        other = b"F" if first.text == b"S" else b"S"
        ahead = 1 if self.peek().kind == "blanks" else 0
        if self.peek(ahead) == Token("name", other):
            self.at += ahead + 1
            places[other] = self.in_brackets()
        return places.get(b"S"), places.get(b"F")

    def in_brackets(self):
        """A place in its brackets."""
        self.expect(b"(")
        self.skip()
        place = self.place()
        self.skip()
        self.expect(b")")
        return place

    def place(self):
        """A place."""
        if self.takes(b"$"):
            return Place(None, self.element())
        token = self.take()
        if token.kind != "name":
            raise NoTree
        return Place(token.text, None)


def tree_of(tokens):
    """The one tree of a statement's tokens."""
    return Parser(tokens).statement()
