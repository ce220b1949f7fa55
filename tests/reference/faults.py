"""The faults of a deck: each faulty statement with its one cause."""

from .names import KEYWORDS, MOST_ARGUMENTS, PROTECTED, RETURNS
from .parse import NoTree, tree_of
from .tokens import lexical_fault, tokens_of
from .trees import Binary, Call, End, Keyword, Unary, expressions_of, is_target, label_given


class Refused(Exception):
    """A deck is refused; each faulty statement's number, with its cause."""

    def __init__(self, causes):
        super().__init__(causes)
        self.causes = causes


def read(text):
    """The tree of a text and None, or None and the cause."""
    tokens = tokens_of(text)
    cause = lexical_fault(tokens)
    if cause:
        return None, cause
    try:
        return tree_of(tokens), None
    except NoTree:
        return None, "P1"


def has_too_many_arguments(tree):
    """Whether this is a call of a primitive with too many arguments."""
    return isinstance(tree, Call) and len(tree.arguments) > MOST_ARGUMENTS.get(tree.name, len(tree.arguments))


def is_unknown_keyword(tree):
    """Whether this is a keyword that isn't there."""
    return isinstance(tree, Keyword) and tree.name not in KEYWORDS


def lacks_target(tree):
    """Whether an operand isn't the target that it must be."""
    if isinstance(tree, Unary) and tree.mark in b".@":
        return not is_target(tree.operand)
    return isinstance(tree, Binary) and tree.mark in b".$" and not is_target(tree.right)


def subject_fits(body):
    """Whether the subject may be assigned, where it is to be."""
    if not body.assigns:
        return True
    if isinstance(body.subject, Keyword) and body.pattern is None:
        return body.subject.name in KEYWORDS and body.subject.name not in PROTECTED
    return is_target(body.subject)


def rule_broken(tree, earlier, labels):
    """The least of P2 to P6 that holds of a statement, or None."""
    label = label_given(tree)
    if label in RETURNS or label in earlier:
        return "P2"
    expressions = list(expressions_of(tree))
    if any(map(has_too_many_arguments, expressions)):
        return "P3"
    if any(map(is_unknown_keyword, expressions)):
        return "P4"
    if any(map(lacks_target, expressions)) or not isinstance(tree, End) and not subject_fits(tree.body):
        return "P5"
    if isinstance(tree, End) and tree.entry is not None and tree.entry not in labels:
        return "P6"
    return None


def trees_of(statements):
    """The trees of a deck's statements, if none is faulty."""
    results = [read(statement.text) for statement in statements]
    labels = {label_given(tree) for tree, cause in results if tree} - {None}
    causes, earlier = [], set()
    for number, (tree, cause) in enumerate(results, 1):
        if tree:
            cause = rule_broken(tree, earlier, labels)
            earlier |= {label_given(tree)} - {None}
        if cause:
            causes.append((number, cause))
    if causes:
        raise Refused(causes)
    return [tree for tree, cause in results]
