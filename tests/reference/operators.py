"""Operators on values."""

from .patterns import Alt, Cat, Cond, Imm
from .values import Fault, fit, is_text, to_integer, to_pattern, to_text


def cut_quotient(left, right):
    """The quotient, cut towards zero."""
    if right == 0:
        raise Fault(2)
    quotient = abs(left) // abs(right)
    return quotient if (left < 0) == (right < 0) else -quotient


def cut_remainder(left, right):
    """The remainder of that division, with the sign of the left operand."""
    return left - right * cut_quotient(left, right)


def power(base, exponent):
    """A power; the exponent is cut where the result is out of range anyway."""
    if exponent < 0:
        raise Fault(2)
    if base in (0, 1, -1):
        return base ** (exponent % 2 + 2 * (exponent > 1))
    return base ** min(exponent, 64)


ARITHMETIC = {
    b"+": lambda left, right: left + right,
    b"-": lambda left, right: left - right,
    b"*": lambda left, right: left * right,
    b"/": cut_quotient,
    b"**": power,
}


def arithmetic(mark, left, right):
    """The result of an operator on integers."""
    first = to_integer(left)
    second = to_integer(right)
    return fit(ARITHMETIC[mark](first, second), 2)


def concatenate(world, left, right):
    """The concatenation of two values."""
    if left == b"":
        return right
    if right == b"":
        return left
    if is_text(left) and is_text(right):
        return world.limited(to_text(left) + to_text(right))
    first = to_pattern(left)
    return Cat(first, to_pattern(right))


def alternate(left, right):
    """The pattern of two alternatives."""
    first = to_pattern(left)
    return Alt(first, to_pattern(right))


def binary(world, mark, left, right):
    """The result of a binary operator whose operands are values."""
    if mark == b" ":
        return concatenate(world, left, right)
    if mark == b"|":
        return alternate(left, right)
    return arithmetic(mark, left, right)


def assigning(mark, left, name):
    """The pattern that assigns what the left operand matches."""
    return (Cond if mark == b"." else Imm)(to_pattern(left), name)
