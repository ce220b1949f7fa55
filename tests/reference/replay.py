"""The search of a match read in another way: from the start again for each answer, under the answers so far.

It goes as deep as the rows it uses, so it is for short matches. It has the calls of Search, with which it is compared.
"""

from . import patterns
from .primitives import argument_of
from .search import Closing, Saying, TooLong
from .values import Failure, to_pattern

FAILED, SAID = object(), object()


class Found:
    """What a search finds: `hit` with an end and what is pending, `miss`, `stop`, or `wait` with a question.

    `used` are the answers used up, and `count` the rules.
    """

    def __init__(self, kind, used, count, end=None, pending=(), question=None):
        self.kind, self.used, self.count = kind, used, count
        self.end, self.pending, self.question = end, pending, question

    def counting(self, more):
        """The same with more rules."""
        self.count += more
        return self

    def on_miss(self, others):
        """Goes on where nothing was found."""
        return others(self.used).counting(self.count) if self.kind == "miss" else self


class Replay:
    """A match, by replaying it."""

    def __init__(self, world, evaluate, subject, most):
        self.world, self.evaluate, self.subject, self.most = world, evaluate, subject, most
        self.rows = self.answers = self.tried = 0
        self.script, self.pending = [], ()

    def pendings(self):
        """What is pending, in order."""
        return list(self.pending)

    def find(self, pattern, starts):
        """Where the match begins and ends."""
        while True:
            self.tried = 0
            start, found = self.scan(pattern, starts)
            self.rows = found.count
            if found.kind == "hit":
                self.pending = found.pending
                return start, found.end
            if found.kind != "wait":
                raise Failure
            self.script.append((yield from self.answer(found.question)))
            self.answers += 1

    def scan(self, pattern, starts):
        """The start, and what is found there."""
        count = used = 0
        for start in range(starts + 1):
            found = self.search((pattern, None), start, (), used)
            count, used = count + 1 + found.count, found.used
            if found.kind != "miss":
                break
        found.count = count
        return start, found

    def answer(self, question):
        """The answer to a question."""
        goal, value = question
        if isinstance(goal, (Saying, patterns.At)):
            self.world.assign(goal.name, value)
            return SAID
        try:
            value = yield self.evaluate(goal.tree)
        except Failure:
            return FAILED
        return to_pattern(value) if isinstance(goal, patterns.Defer) else goal.kind(argument_of(goal.kind, value))

    def search(self, goals, cursor, pending, used):
        """What is found from a cursor, where so many answers are used up."""
        self.tried += 1
        if self.tried > self.most:
            raise TooLong
        if goals is None:
            return Found("hit", used, 1, cursor, pending)
        goal, rest = goals
        return self.rule(goal, rest, cursor, pending, used).counting(1)

    def rule(self, goal, rest, cursor, pending, used):
        """One rule."""
        if isinstance(goal, patterns.Basic):
            return self.each(goal, rest, cursor, pending, used)
        if isinstance(goal, (patterns.Defer, patterns.DeferBasic, patterns.At, Saying)):
            return self.asking(goal, rest, cursor, pending, used)
        if isinstance(goal, (patterns.Succeed, patterns.Alt, patterns.Fence)):
            return self.choosing(goal, rest, cursor, pending, used)
        if isinstance(goal, patterns.Abort):
            return Found("stop", used, 0)
        if isinstance(goal, patterns.FenceOf):
            found = self.search((goal.part, None), cursor, pending, used)
            if found.kind != "hit":
                return found
            return self.search(rest, found.end, found.pending, found.used).counting(found.count)
        if isinstance(goal, Closing):
            pending = pending + ((goal.name, self.subject[goal.start : cursor]),)
            return self.search(rest, cursor, pending, used)
        return self.search(self.parted(goal, rest, cursor), cursor, pending, used)

    def parted(self, goal, rest, cursor):
        """What is left to match, where a pattern gives way to its parts."""
        if isinstance(goal, patterns.Cat):
            return (goal.left, (goal.right, rest))
        if isinstance(goal, patterns.Arbno):
            return (patterns.Alt(patterns.Literal(b""), patterns.Cat(goal.part, goal)), rest)
        mark = Closing if isinstance(goal, patterns.Cond) else Saying
        return (goal.part, (mark(goal.name, cursor), rest))

    def each(self, goal, rest, cursor, pending, used):
        """Each end in turn."""
        counts = isinstance(goal, (patterns.Arb, patterns.Bal))
        found = Found("miss", used, 0)
        for end in goal.ends(self.subject, cursor):
            found = found.on_miss(lambda left, end=end: self.search(rest, end, pending, left).counting(counts))
            if found.kind != "miss":
                break
        return found

    def choosing(self, goal, rest, cursor, pending, used):
        """SUCCEED, alternatives and FENCE: what is tried first, and what follows a miss."""
        first = (goal.left, rest) if isinstance(goal, patterns.Alt) else rest
        found = self.search(first, cursor, pending, used)
        if isinstance(goal, patterns.Fence):
            return found.on_miss(lambda left: Found("stop", left, 0))
        second = (goal.right, rest) if isinstance(goal, patterns.Alt) else (goal, rest)
        return found.on_miss(lambda left: self.search(second, cursor, pending, left))

    def asking(self, goal, rest, cursor, pending, used):
        """What waits for an answer."""
        if used == len(self.script):
            said = self.subject[goal.start : cursor] if isinstance(goal, Saying) else cursor
            return Found("wait", used, 0, question=(goal, said))
        answer = self.script[used]
        if answer is FAILED and isinstance(goal, patterns.Defer):
            return Found("miss", used + 1, 0)
        if answer is FAILED:
            answer = patterns.Fail()
        goals = rest if answer is SAID else (answer, rest)
        return self.search(goals, cursor, pending, used + 1)
