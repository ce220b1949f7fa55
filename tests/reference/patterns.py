"""Patterns, and the ends of those that have no pattern in them."""


class Pattern:
    """A pattern."""

    __slots__ = ()


class Basic(Pattern):
    """A pattern without parts; its argument is a count or bytes, or None."""

    __slots__ = ("argument",)

    def __init__(self, argument=None):
        self.argument = argument

    def ends(self, subject, cursor):
        """Its ends from the cursor, in order."""
        raise NotImplementedError


def end_if(holds, end):
    """One end, where a condition holds, and else none."""
    return (end,) if holds else ()


class Literal(Basic):
    """A string."""

    __slots__ = ()

    def ends(self, subject, cursor):
        return end_if(subject.startswith(self.argument, cursor), cursor + len(self.argument))


class Len(Basic):
    """LEN(n)."""

    __slots__ = ()

    def ends(self, subject, cursor):
        return end_if(cursor + self.argument <= len(subject), cursor + self.argument)


class Pos(Basic):
    """POS(n)."""

    __slots__ = ()

    def ends(self, subject, cursor):
        return end_if(cursor == self.argument, cursor)


class RPos(Basic):
    """RPOS(n)."""

    __slots__ = ()

    def ends(self, subject, cursor):
        return end_if(cursor + self.argument == len(subject), cursor)


class Tab(Basic):
    """TAB(n)."""

    __slots__ = ()

    def ends(self, subject, cursor):
        return end_if(cursor <= self.argument <= len(subject), self.argument)


class RTab(Basic):
    """RTAB(n)."""

    __slots__ = ()

    def ends(self, subject, cursor):
        return end_if(cursor + self.argument <= len(subject), len(subject) - self.argument)


class Any(Basic):
    """ANY(s)."""

    __slots__ = ()

    def ends(self, subject, cursor):
        return end_if(cursor < len(subject) and subject[cursor] in self.argument, cursor + 1)


class NotAny(Basic):
    """NOTANY(s)."""

    __slots__ = ()

    def ends(self, subject, cursor):
        return end_if(cursor < len(subject) and subject[cursor] not in self.argument, cursor + 1)


class Span(Basic):
    """SPAN(s)."""

    __slots__ = ()

    def ends(self, subject, cursor):
        end = cursor
        while end < len(subject) and subject[end] in self.argument:
            end += 1
        return end_if(end > cursor, end)


class Break(Basic):
    """BREAK(s)."""

    __slots__ = ()

    def ends(self, subject, cursor):
        end = cursor
        while end < len(subject) and subject[end] not in self.argument:
            end += 1
        return end_if(end < len(subject), end)


class Rem(Basic):
    """REM."""

    __slots__ = ()

    def ends(self, subject, cursor):
        return (len(subject),)


class Fail(Basic):
    """FAIL."""

    __slots__ = ()

    def ends(self, subject, cursor):
        return ()


class Arb(Basic):
    """ARB."""

    __slots__ = ()

    def ends(self, subject, cursor):
        return range(cursor, len(subject) + 1)


class Bal(Basic):
    """BAL."""

    __slots__ = ()

    def ends(self, subject, cursor):
        depth = 0
        for at in range(cursor, len(subject)):
            depth += (subject[at] == ord("(")) - (subject[at] == ord(")"))
            if depth < 0:
                return
            if depth == 0:
                yield at + 1


class Succeed(Pattern):
    """SUCCEED."""

    __slots__ = ()


class Abort(Pattern):
    """ABORT."""

    __slots__ = ()


class Fence(Pattern):
    """FENCE."""

    __slots__ = ()


class Two(Pattern):
    """A pattern of two parts."""

    __slots__ = ("left", "right")

    def __init__(self, left, right):
        self.left, self.right = left, right


class Cat(Two):
    """`p q`."""

    __slots__ = ()


class Alt(Two):
    """`p | q`."""

    __slots__ = ()


class Arbno(Pattern):
    """ARBNO(p)."""

    __slots__ = ("part",)

    def __init__(self, part):
        self.part = part


class FenceOf(Pattern):
    """FENCE(p)."""

    __slots__ = ("part",)

    def __init__(self, part):
        self.part = part


class Assigning(Pattern):
    """A pattern that assigns what its part matched."""

    __slots__ = ("part", "name")

    def __init__(self, part, name):
        self.part, self.name = part, name


class Cond(Assigning):
    """`p . X`."""

    __slots__ = ()


class Imm(Assigning):
    """`p $ X`."""

    __slots__ = ()


class At(Pattern):
    """`@X`."""

    __slots__ = ("name",)

    def __init__(self, name):
        self.name = name


class Defer(Pattern):
    """`*E`."""

    __slots__ = ("tree",)

    def __init__(self, tree):
        self.tree = tree


class DeferBasic(Pattern):
    """LEN(`*E`) to BREAK(`*E`): a class of Basic, and the expression."""

    __slots__ = ("kind", "tree")

    def __init__(self, kind, tree):
        self.kind, self.tree = kind, tree
