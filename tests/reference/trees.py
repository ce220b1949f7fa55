"""Trees of expressions and statements."""

import typing


class Name(typing.NamedTuple):
    """A name, which is a variable."""

    name: bytes


class Integer(typing.NamedTuple):
    """An integer."""

    value: int


class Literal(typing.NamedTuple):
    """A literal."""

    value: bytes


class Keyword(typing.NamedTuple):
    """A keyword, without its `&`."""

    name: bytes


class Call(typing.NamedTuple):
    """A call; an absent argument is None."""

    name: bytes
    arguments: tuple


class Reference(typing.NamedTuple):
    """An element of the array or table that a variable holds."""

    name: bytes
    subscripts: tuple


class Unary(typing.NamedTuple):
    """A unary operator, by its mark, and its operand."""

    mark: bytes
    operand: typing.Any


class Binary(typing.NamedTuple):
    """A binary operator, by its mark (a blank for concatenation), and its operands."""

    mark: bytes
    left: typing.Any
    right: typing.Any


class Body(typing.NamedTuple):
    """What a statement does. `assigns` says that it has `=`; parts that aren't there are None."""

    subject: typing.Any
    pattern: typing.Any
    assigns: bool
    object: typing.Any


class Place(typing.NamedTuple):
    """Where a goto leads: a label, or an expression that gives one."""

    label: typing.Any
    computed: typing.Any


class Plain(typing.NamedTuple):
    """A statement other than END: its label, its body, where it leads after success, and after failure."""

    label: typing.Any
    body: Body
    success: typing.Any
    failure: typing.Any


class End(typing.NamedTuple):
    """END, and the label where execution begins."""

    entry: typing.Any


def label_given(tree):
    """The label that a statement gives, or None."""
    return b"END" if isinstance(tree, End) else tree.label


def is_target(tree):
    """Whether an expression may stand for a name."""
    return isinstance(tree, (Name, Reference, Call)) or isinstance(tree, Unary) and tree.mark == b"$"


def parts_of(tree):
    """The expressions that an expression is made of."""
    if isinstance(tree, Call):
        return [argument for argument in tree.arguments if argument is not None]
    if isinstance(tree, Reference):
        return list(tree.subscripts)
    if isinstance(tree, Unary):
        return [tree.operand]
    if isinstance(tree, Binary):
        return [tree.left, tree.right]
    return []


def expressions_of(statement):
    """Each expression of a statement, and each inside them."""
    if isinstance(statement, End):
        return
    body, places = statement.body, (statement.success, statement.failure)
    left = [body.subject, body.pattern, body.object] + [place.computed for place in places if place]
    while left:
        tree = left.pop()
        if tree is not None:
            yield tree
            left += parts_of(tree)
