"""Primitive functions. Each takes the world and its arguments, those that are missing as null."""

from . import patterns
from .names import MOST_ARGUMENTS
from .operators import cut_remainder
from .prototypes import array_prototype, function_prototype, type_prototype
from .values import (
    Array,
    Expression,
    Failure,
    Fault,
    Record,
    Table,
    is_integer,
    is_same,
    read_integer,
    to_count,
    to_integer,
    to_label,
    to_pattern,
    to_set,
    to_text,
    to_variable,
    type_of,
)

NULL = b""
MOST_ROWS = 524288


class ByName:
    """What a call gives, where that is a name."""

    def __init__(self, name):
        self.name = name


class Calls:
    """APPLY goes on with this call."""

    def __init__(self, name, arguments):
        self.name, self.arguments = name, arguments


class Defined:
    """A function that DEFINE made."""

    def __init__(self, entry, arguments, local):
        self.entry, self.arguments, self.local = entry, arguments, local


class Constructor:
    """A function that makes records."""

    def __init__(self, fields):
        self.fields = fields


class Field:
    """A function that gives the field of its own name."""


# ---- patterns

COUNTED = {
    b"LEN": patterns.Len,
    b"POS": patterns.Pos,
    b"RPOS": patterns.RPos,
    b"TAB": patterns.Tab,
    b"RTAB": patterns.RTab,
}
OF_SETS = {b"ANY": patterns.Any, b"NOTANY": patterns.NotAny, b"SPAN": patterns.Span, b"BREAK": patterns.Break}


def argument_of(kind, value):
    """The count or the bytes of a basic pattern of this class."""
    return to_set(value) if kind in OF_SETS.values() else to_count(value)


def basic(kind):
    """The primitive that makes a basic pattern of this class."""

    def make(world, value):
        if isinstance(value, Expression):
            return patterns.DeferBasic(kind, value.tree)
        return kind(argument_of(kind, value))

    return make


# ---- predicates


def null_if(holds):
    """Null, if a predicate holds."""
    if not holds:
        raise Failure
    return NULL


def comparing(test):
    """The predicate that compares integers."""

    def compare(world, left, right):
        first = to_integer(left)
        return null_if(test(first, to_integer(right)))

    return compare


def lgt(world, left, right):
    """LGT."""
    first = to_text(left)
    return null_if(first > to_text(right))


def ident(world, left, right):
    """IDENT."""
    return null_if(is_same(left, right))


def differ(world, left, right):
    """DIFFER."""
    return null_if(not is_same(left, right))


def integer(world, value):
    """INTEGER."""
    if isinstance(value, bytes):
        try:
            read_integer(value)
        except Fault:
            raise Failure from None
        return NULL
    return null_if(is_integer(value))


# ---- strings and integers


def dupl(world, text, times):
    """DUPL."""
    part = to_text(text)
    count = to_integer(times)
    if count < 0:
        raise Failure
    if count * len(part) > world.keys[b"MAXLNGTH"]:
        raise Fault(9)
    return part * count if part else NULL


def replace(world, text, old, new):
    """REPLACE."""
    subject, before, after = to_text(text), to_text(old), to_text(new)
    if not before or len(before) != len(after):
        raise Failure
    new_bytes = dict(zip(before, after))
    return bytes(new_bytes.get(byte, byte) for byte in subject)


def remdr(world, left, right):
    """REMDR."""
    first = to_integer(left)
    return cut_remainder(first, to_integer(right))


# ---- objects


def array(world, prototype, value):
    """ARRAY."""
    bounds, elements = array_prototype(to_text(prototype))
    return Array(bounds, [value] * elements)


def copy(world, value):
    """COPY."""
    if not isinstance(value, Array):
        raise Fault(1)
    return Array(value.bounds, list(value.held))


def rows_array(table):
    """The array of a table's keys and values."""
    rows = [item for item in table.held.items() if item[1] != NULL]
    if not rows:
        raise Failure
    if len(rows) > MOST_ROWS:
        raise Fault(13)
    return Array([(1, len(rows)), (1, 2)], [part for row in rows for part in row])


CONVERSIONS = {b"STRING": to_text, b"INTEGER": to_integer, b"PATTERN": to_pattern}


def convert(world, value, type_name):
    """CONVERT."""
    wanted = to_text(type_name)
    if wanted == type_of(value):
        return value
    if wanted == b"ARRAY" and isinstance(value, Table):
        return rows_array(value)
    if wanted not in CONVERSIONS:
        raise Failure
    try:
        return CONVERSIONS[wanted](value)
    except Fault:
        raise Failure from None


def data(world, prototype):
    """DATA."""
    name, fields = type_prototype(to_text(prototype))
    world.functions[name] = Constructor(fields)
    for field in fields:
        world.functions[field] = Field()
    return NULL


def define(world, prototype, entry):
    """DEFINE."""
    text = to_text(prototype)
    label = None if entry == NULL else to_label(entry)
    name, arguments, local = function_prototype(text)
    world.functions[name] = Defined(name if label is None else label, arguments, local)
    return NULL


# ---- units


def unit_of(value, usual):
    """The unit that a value says, or the usual one."""
    if value == NULL:
        return usual
    unit = to_integer(value)
    if not 0 <= unit <= 99:
        raise Fault(15)
    return unit


def bind_input(world, name, unit, unused):
    """INPUT."""
    variable = to_variable(name)
    world.reads[variable] = unit_of(unit, 5)
    return NULL


def bind_output(world, name, unit, unused):
    """OUTPUT."""
    variable = to_variable(name)
    world.writes[variable] = unit_of(unit, 6)
    return NULL


def detach(world, name):
    """DETACH."""
    variable = to_variable(name)
    world.reads.pop(variable, None)
    world.writes.pop(variable, None)
    return NULL


# ---- all

OF_VALUES = {
    **{name: basic(kind) for name, kind in {**COUNTED, **OF_SETS}.items()},
    b"ARBNO": lambda world, part: patterns.Arbno(to_pattern(part)),
    b"FENCE": lambda world, part: patterns.FenceOf(to_pattern(part)),
    b"EQ": comparing(lambda left, right: left == right),
    b"NE": comparing(lambda left, right: left != right),
    b"LT": comparing(lambda left, right: left < right),
    b"LE": comparing(lambda left, right: left <= right),
    b"GT": comparing(lambda left, right: left > right),
    b"GE": comparing(lambda left, right: left >= right),
    b"LGT": lgt,
    b"IDENT": ident,
    b"DIFFER": differ,
    b"INTEGER": integer,
    b"SIZE": lambda world, text: len(to_text(text)),
    b"TRIM": lambda world, text: to_text(text).rstrip(b" "),
    b"DUPL": dupl,
    b"REPLACE": replace,
    b"REMDR": remdr,
    b"DATATYPE": lambda world, value: type_of(value),
    b"ARRAY": array,
    b"TABLE": lambda world, unused, unused_too: Table(),
    b"COPY": copy,
    b"CONVERT": convert,
    b"DATA": data,
    b"DEFINE": define,
    b"INPUT": bind_input,
    b"OUTPUT": bind_output,
    b"DETACH": detach,
}


def apply(world, arguments):
    """APPLY."""
    if not arguments:
        raise Fault(5)
    name, rest = to_variable(arguments[0]), arguments[1:]
    if len(rest) > MOST_ARGUMENTS.get(name, len(rest)):
        raise Fault(16)
    return call(world, name, rest)


def call(world, name, arguments):
    """What a call of any function comes to: a value, a ByName, or the Calls of a function that isn't primitive."""
    if name not in MOST_ARGUMENTS:
        return Calls(name, arguments)
    if name == b"APPLY":
        return apply(world, arguments)
    if name == b"ITEM":
        return ByName(world.element(arguments[0] if arguments else NULL, arguments[1:]))
    missing = MOST_ARGUMENTS[name] - len(arguments)
    return OF_VALUES[name](world, *arguments, *[NULL] * missing)


def construct(name, fields, arguments):
    """A new record."""
    given = arguments[: len(fields)]
    return Record(name, fields, given + [NULL] * (len(fields) - len(given)))


def field_name(name, record):
    """The name of a record's field."""
    if not isinstance(record, Record) or name not in record.fields:
        raise Fault(1)
    return record.fields.index(name)
