"""Values, what goes wrong with them, and their conversions.

A string is `bytes`, an integer is `int`, an unevaluated expression is an Expression; patterns are in patterns.py.
"""

import typing

from .patterns import Defer, Literal, Pattern
from .tokens import digits_value

LEAST = -(2 ** 63)
GREATEST = 2 ** 63 - 1


class Failure(Exception):
    """An evaluation fails."""


class Fault(Exception):
    """An error, by its number."""

    def __init__(self, number):
        super().__init__(number)
        self.number = number


class Expression(typing.NamedTuple):
    """An unevaluated expression."""

    tree: typing.Any


class Variable(typing.NamedTuple):
    """A name: a variable."""

    name: bytes


class Element(typing.NamedTuple):
    """A name: an element of an array or a field of a record, by its index; or a key of a table."""

    object: typing.Any
    index: typing.Any


class Array:
    """An array: for each dimension its least subscript and how many there are; and its elements."""

    def __init__(self, bounds, elements):
        self.bounds, self.held = bounds, elements


class Table:
    """A table: its values by their keys, in the order in which the keys were first assigned."""

    def __init__(self):
        self.held = {}


class Record:
    """A record: its type, the fields of that type, and their values."""

    def __init__(self, type_name, fields, elements):
        self.type_name, self.fields, self.held = type_name, fields, elements


NAMES = (Variable, Element)
OBJECTS = (Array, Table, Record)


def is_integer(value):
    """Whether a value is of type INTEGER."""
    return isinstance(value, int)


def is_text(value):
    """Whether a value is a string or an integer."""
    return isinstance(value, (bytes, int))


def fit(value, error):
    """An integer that is in range."""
    if not LEAST <= value <= GREATEST:
        raise Fault(error)
    return value


def read_integer(text):
    """The integer that a string stands for."""
    if not text:
        return 0
    digits = text[1:] if text[:1] in (b"+", b"-") else text
    if not digits.isdigit():
        raise Fault(3)
    magnitude = digits_value(digits)
    if magnitude is None:
        magnitude = 2 ** 63 if digits.lstrip(b"0") == b"9223372036854775808" else 2 ** 64
    return fit(-magnitude if text[:1] == b"-" else magnitude, 3)


def to_text(value):
    """The bytes of a value as a string."""
    if isinstance(value, bytes):
        return value
    if is_integer(value):
        return b"%d" % value
    raise Fault(1)


def to_integer(value):
    """A value as an integer."""
    if is_integer(value):
        return value
    if isinstance(value, bytes):
        return read_integer(value)
    raise Fault(1)


def to_pattern(value):
    """A value as a pattern."""
    if isinstance(value, Pattern):
        return value
    if isinstance(value, Expression):
        return Defer(value.tree)
    return Literal(to_text(value))


def to_name(value):
    """A value as a name."""
    if isinstance(value, NAMES):
        return value
    text = to_text(value)
    if not text:
        raise Fault(5)
    return Variable(text)


def to_label(value):
    """A value as the name of a label."""
    return value.name if isinstance(value, Variable) else to_text(value)


def to_variable(value):
    """The name of the variable that a value names."""
    name = to_name(value)
    if not isinstance(name, Variable):
        raise Fault(5)
    return name.name


def to_count(value):
    """A value as the count of a pattern."""
    count = to_integer(value)
    if count < 0:
        raise Fault(10)
    return count


def to_set(value):
    """A value as the bytes of a pattern."""
    text = to_text(value)
    if not text:
        raise Fault(10)
    return text


def type_of(value):
    """The name of a value's type."""
    if isinstance(value, Record):
        return value.type_name
    types = ((bytes, b"STRING"), (int, b"INTEGER"), (Pattern, b"PATTERN"), (NAMES, b"NAME"))
    types += ((Expression, b"EXPRESSION"), (Array, b"ARRAY"), (Table, b"TABLE"))
    return next(name for type_, name in types if isinstance(value, type_))


def is_same(left, right):
    """Whether two values have one type and one content."""
    if any(isinstance(value, (Pattern, Expression)) for value in (left, right)):
        raise Fault(1)
    if isinstance(left, Element) and isinstance(right, Element):
        same_kind = isinstance(left.index, bytes) == isinstance(right.index, bytes)
        return left.object is right.object and same_kind and left.index == right.index
    if isinstance(left, OBJECTS) or isinstance(right, OBJECTS):
        return left is right
    return isinstance(left, type(right)) and left == right
