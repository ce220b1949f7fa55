"""Cards of a deck, its statements, and card faults."""

import typing

BLANK = b" "
COLUMNS = 72
MOST_DECK_BYTES = 16777216
MOST_STATEMENT_BYTES = 4000


class CardFault(Exception):
    """A deck is refused for a card fault, at a card."""

    def __init__(self, card, rule):
        super().__init__(card, rule)
        self.card, self.rule = card, rule


class Statement(typing.NamedTuple):
    """A statement: its number, the card of its first byte, and its text."""

    number: int
    card: int
    text: bytes


class Piece:
    """A piece of a text, as far as it is joined."""

    def __init__(self):
        self.card, self.text = 0, bytearray()

    def is_blank(self):
        """Whether nothing but blanks is in it."""
        return not self.text.strip(BLANK)

    def is_end(self):
        """Whether this is the END statement."""
        return begins_with_word(self.text, b"END")


class Text:
    """A text that cards are joined to; it keeps its pieces, the last of them open."""

    def __init__(self):
        self.quote, self.pieces = None, [Piece()]

    def join(self, card, columns):
        """Joins some columns of a card; whether a piece is END now."""
        first = len(self.pieces) - 1
        for byte in columns:
            self.put(card, byte)
        return any(piece.is_end() for piece in self.pieces[first:])

    def put(self, card, byte):
        """Puts one byte at the end."""
        if self.quote is None and byte == ord(";"):
            self.pieces.append(Piece())
            return
        if self.quote is None and byte in b"'\"":
            self.quote = byte
        elif byte == self.quote:
            self.quote = None
        piece = self.pieces[-1]
        piece.card = piece.card if piece.text else card
        piece.text.append(byte)


def begins_with_word(text, word):
    """Whether a text is a word, or begins with it and a blank."""
    return text == word or text.startswith(word + BLANK)


def lines_of(deck):
    """The cards of a deck."""
    lines = deck.split(b"\n")
    if not lines[-1]:
        lines.pop()
    return lines


def is_known_control(columns):
    """Whether a control card is one of the three."""
    return any(begins_with_word(columns, word) for word in (b"-LIST", b"-UNLIST", b"-EJECT"))


class Reader:
    """Reads cards, one after another, up to END."""

    TEXT = Text

    def __init__(self):
        self.texts, self.faults = [], []

    def fault(self, card, rule):
        """Notes a fault."""
        self.faults.append((card, rule))

    def read(self, number, line):
        """Reads one card; whether the deck ends with it."""
        if not all(32 <= byte <= 126 for byte in line):
            self.fault(number, 1)
        columns = line[:COLUMNS]
        if columns.startswith(b"*") or not columns.strip(BLANK):
            return False
        if columns.startswith(b"-"):
            if not is_known_control(columns):
                self.fault(number, 3)
            return False
        if columns[:1] in (b"+", b"."):
            return self.go_on(number, columns[1:])
        self.texts.append(self.TEXT())
        return self.texts[-1].join(number, columns)

    def go_on(self, number, columns):
        """Joins a continuation."""
        if self.texts:
            return self.texts[-1].join(number, columns)
        self.fault(number, 2)
        return False

    def kept(self):
        """The pieces that are statements, up to and with the first END."""
        for text in self.texts:
            for piece in text.pieces:
                if not piece.is_blank():
                    yield piece
                if piece.is_end():
                    return

    def statements(self):
        """The statements, if no rule is broken."""
        pieces = list(self.kept())
        for piece in pieces:
            if len(piece.text) > MOST_STATEMENT_BYTES:
                self.fault(piece.card, 6)
        if self.faults:
            raise CardFault(*min(self.faults))
        return [Statement(number, piece.card, bytes(piece.text)) for number, piece in enumerate(pieces, 1)]


def statements_of(deck):
    """The statements of a deck, or its card fault."""
    if len(deck) > MOST_DECK_BYTES:
        raise CardFault(0, 5)
    lines, reader = lines_of(deck), Reader()
    if not any(reader.read(number, line) for number, line in enumerate(lines, 1)):
        reader.fault(len(lines) + 1, 4)
    return reader.statements()
