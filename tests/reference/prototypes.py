"""Prototypes: the texts by which DEFINE, DATA and ARRAY are told what to make."""

import re

from .names import MOST_ARGUMENTS
from .values import Fault, read_integer

NAME = re.compile(rb"[A-Za-z][A-Za-z0-9._]*")
FORM = re.compile(rb"([^(]*)\(([^)]*)\)(.*)", re.DOTALL)
OWN_TYPES = frozenset((b"STRING", b"INTEGER", b"PATTERN", b"NAME", b"EXPRESSION", b"ARRAY", b"TABLE"))
MOST_DIMENSIONS = 8
MOST_ELEMENTS = 1048576


def listed(text):
    """The items between commas; none of a null text."""
    return text.split(b",") if text else []


def parts(text):
    """What stands before the brackets, the items in them, and what stands after."""
    found = FORM.fullmatch(text)
    if not found:
        raise Fault(12)
    return found.group(1), listed(found.group(2)), found.group(3)


def check_names(names):
    """Names must be names, and no two equal."""
    if not all(NAME.fullmatch(name) for name in names) or len(set(names)) < len(names):
        raise Fault(12)


def function_prototype(text):
    """The name, the arguments and the locals that DEFINE is told."""
    name, arguments, after = parts(text)
    local = listed(after)
    check_names([name] + arguments + local)
    if name in MOST_ARGUMENTS:
        raise Fault(12)
    return name, arguments, local


def type_prototype(text):
    """The type and the fields that DATA is told."""
    name, fields, after = parts(text)
    check_names([name] + fields)
    if not fields or after or name in OWN_TYPES or any(it in MOST_ARGUMENTS for it in [name] + fields):
        raise Fault(12)
    return name, fields


def written_integer(text):
    """An integer of a prototype."""
    if not text:
        raise Fault(13)
    return read_integer(text)


def bounds_of(part):
    """The least subscript and the number of subscripts of a dimension."""
    low, colon, high = part.partition(b":")
    first = written_integer(low) if colon else 1
    last = written_integer(high if colon else low)
    if first > last:
        raise Fault(13)
    return first, last - first + 1


def array_prototype(text):
    """The dimensions that ARRAY is told, and how many elements they have."""
    try:
        bounds = [bounds_of(part) for part in text.split(b",")]
    except Fault:
        raise Fault(13) from None
    elements = 1
    for low, count in bounds:
        elements *= count
    if len(bounds) > MOST_DIMENSIONS or elements > MOST_ELEMENTS:
        raise Fault(13)
    return bounds, elements
