"""The world of a run: variables, functions, keywords, units."""

from . import patterns
from .names import KEYWORDS
from .values import GREATEST, Array, Element, Failure, Fault, Table, Variable, is_text, to_integer, to_text

FIRST_PATTERNS = {
    b"ARB": patterns.Arb(),
    b"BAL": patterns.Bal(),
    b"REM": patterns.Rem(),
    b"FAIL": patterns.Fail(),
    b"SUCCEED": patterns.Succeed(),
    b"ABORT": patterns.Abort(),
    b"FENCE": patterns.Fence(),
}
MOST_LENGTH = 16777216


class World:
    """The world; `units` reads and writes records."""

    def __init__(self, units):
        self.variables = dict(FIRST_PATTERNS)
        self.functions = {}
        self.keys = dict(KEYWORDS)
        self.reads = {b"INPUT": 5}
        self.writes = {b"OUTPUT": 6, b"PUNCH": 7}
        self.units = units

    # ---- keywords

    def count_key(self, key):
        """One more in a counting keyword."""
        self.keys[key] = min(self.keys[key] + 1, GREATEST)

    def set_key(self, key, value):
        """Assigns a keyword."""
        number = to_integer(value)
        if key == b"FULLSCAN" and number == 0 or key == b"MAXLNGTH" and not 0 <= number <= MOST_LENGTH:
            raise Fault(11)
        self.keys[key] = number

    def is_over_limit(self):
        """Whether the limit keeps a statement from being run."""
        return 0 <= self.keys[b"STLIMIT"] <= self.keys[b"STCOUNT"]

    def enter(self, number):
        """A statement begins."""
        self.count_key(b"STCOUNT")
        self.keys[b"LASTNO"], self.keys[b"STNO"] = self.keys[b"STNO"], number

    def limited(self, text):
        """A string that isn't longer than &MAXLNGTH."""
        if len(text) > self.keys[b"MAXLNGTH"]:
            raise Fault(9)
        return text

    # ---- names

    def stored(self, variable):
        """What a variable holds."""
        return self.variables.get(variable, b"")

    def fetch(self, name):
        """The value of a name."""
        if isinstance(name, Variable):
            return self.fetch_variable(name.name)
        if isinstance(name.object, Table):
            return name.object.held.get(name.index, b"")
        return name.object.held[name.index]

    def fetch_variable(self, variable):
        """The value of a variable, which may be a record that is read."""
        if variable not in self.reads or self.keys[b"INPUT"] == 0:
            return self.stored(variable)
        record = self.units.read(self.reads[variable])
        if record is None:
            raise Failure
        if self.keys[b"TRIM"] != 0:
            record = record.rstrip(b" ")
        self.variables[variable] = self.limited(record)
        return record

    def assign(self, name, value):
        """Assigns a value to a name."""
        if not isinstance(name, Variable):
            name.object.held[name.index] = value
            return
        self.variables[name.name] = value
        if name.name in self.writes and self.keys[b"OUTPUT"] != 0:
            if not is_text(value):
                raise Fault(14)
            self.units.write(self.writes[name.name], to_text(value))

    # ---- elements

    def element(self, base, subscripts):
        """The name of an element of an array or a table."""
        if not isinstance(base, (Array, Table)):
            raise Fault(1)
        if len(subscripts) != (1 if isinstance(base, Table) else len(base.bounds)):
            raise Fault(13)
        if isinstance(base, Array):
            return Element(base, place_of(base.bounds, [to_integer(value) for value in subscripts]))
        if not is_text(subscripts[0]):
            raise Fault(1)
        return Element(base, subscripts[0])


def place_of(bounds, subscripts):
    """The place of an element among all of an array."""
    place = 0
    for (low, count), subscript in zip(bounds, subscripts):
        if not low <= subscript < low + count:
            raise Failure
        place = place * count + subscript - low
    return place
