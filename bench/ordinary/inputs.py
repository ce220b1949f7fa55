"""The inputs of the ordinary programs, the same each time."""

import random

SYLLABLES = "ka ri to ne sa mo lu pe di vo an er in or th st qu el wi za".split()
REGIONS = ("North", "South", "East", "West", "Overseas")
PRODUCTS = ("apples", "pears", "plums", "nuts", "flour", "rice", "maize", "salt")
LEVELS = ("INFO", "INFO", "WARN", "ERROR", "DEBUG")
UNITS = ("db", "web", "auth", "mail", "queue")
NAMES = ("total", "count", "x", "y", "row2", "line", "name", "i", "buffer", "key_of")

# What the interpreter of a stack language runs; so many turns.
STACK_PROGRAM = """push 0
store sum
push 1
store i
:loop
load i
push 7
mod
jzero skip
load i
load i
mul
load sum
add
push 1000003
mod
store sum
:skip
load i
push 500
mod
jzero show
jump next
:show
load sum
print
:next
load i
push 1
add
store i
load i
push {turns}
sub
jneg loop
load sum
print
halt"""


class Words:
    """Words of a vocabulary, of which some come often."""

    def __init__(self, rng):
        self.rng = rng
        found = {}
        while len(found) < 1500:
            found["".join(rng.choices(SYLLABLES, k=rng.randint(1, 4)))] = None
        self.all = list(found)

    def word(self):
        """A word, mostly a common one."""
        if self.rng.random() < 0.2:
            return self.rng.choice(self.all)
        return self.all[min(int(self.rng.paretovariate(0.7)), len(self.all)) - 1]

    def line(self):
        """A line of words, with commas and full stops now and then."""
        line = " ".join(self.word() for _ in range(self.rng.randint(5, 12)))
        if self.rng.random() < 0.4:
            line = line.capitalize() + "."
        return line.replace(" ", ", ", 1) if self.rng.random() < 0.3 else line


def texts(rng, count):
    """Lines of words."""
    words = Words(rng)
    return [words.line() for _ in range(count)]


def paragraphs(rng, count):
    """The same, with an empty line now and then."""
    return [it for line in texts(rng, count) for it in ([line, ""] if rng.random() < 0.15 else [line])]


def palindromes(rng, count):
    """The same, with a palindrome now and then."""
    words, lines = Words(rng), []
    for _ in range(count):
        lines.append(words.line())
        if rng.random() < 0.2:
            half = f"{words.word()} {words.word()}"
            lines.append(f"{half} {half[::-1].upper()}")
    return lines


def shuffled(rng, count):
    """Words, of which many have their letters in another order."""
    words = Words(rng)
    picked = [rng.choice(words.all) for _ in range(count)]
    return ["".join(rng.sample(it, len(it))) if rng.random() < 0.6 else it for it in picked]


def expression(rng, depth):
    """A sum of products, with signs and brackets."""
    drawn = rng.random()
    if depth == 0 or drawn < 0.2:
        return str(rng.randint(1, 99))
    if drawn < 0.35:
        return f"({expression(rng, depth - 1)})"
    if drawn < 0.4:
        return f"-{expression(rng, depth - 1)}"
    if drawn < 0.46:
        return f"{expression(rng, depth - 1)}/{rng.randint(1, 9)}"
    return expression(rng, depth - 1) + rng.choice("+-*") + expression(rng, depth - 1)


def expressions(rng, count):
    """Short expressions, some with a bracket too much."""
    found = []
    while len(found) < count:
        text = expression(rng, 4)
        if len(text) < 60:
            found.append(text + ")" * (rng.random() < 0.05))
    return found


def source(rng, words):
    """A line of a source text."""
    some = [rng.choice(NAMES) for _ in range(3)]
    return rng.choice(
        (
            f"  if {some[0]} >= {rng.randint(0, 999)} then {some[1]} = {some[2]} + 1 end -- note",
            f'local {some[0]} = "{words.word()} {words.word()}" .. {some[1]}',
            f"    while {some[0]} ~= {some[1]} do {some[2]}({some[0]}, {rng.randint(0, 99)}) end",
            f"function {some[0]}({some[1]}) return ({some[2]} * {rng.randint(0, 99)} - {some[1]}) / 2 end",
            f"-- {words.word()} {words.word()} {words.word()}",
            "",
        )
    )


def sources(rng, count):
    """Lines of a source text."""
    words = Words(rng)
    return [source(rng, words) for _ in range(count)]


def date(rng):
    """A day."""
    return f"{rng.randint(2019, 2024)}-{rng.randint(1, 12):02}-{rng.randint(1, 28):02}"


def sales(rng, count):
    """A head, and lines of fields with commas between them."""
    drawn = (
        (date(rng), rng.choice(REGIONS), rng.choice(PRODUCTS), rng.randint(1, 99), rng.randint(1, 120))
        for _ in range(count)
    )
    return ["date,region,product,units,price", *(",".join(map(str, it)) for it in drawn)]


def run(rng):
    """A letter, twenty times at most."""
    return rng.choice("abWB .#") * int(min(rng.paretovariate(0.8), 20))


def runs(rng, count):
    """Lines with runs of a letter."""
    return ["".join(run(rng) for _ in range(20))[:60] for _ in range(count)]


def entry(rng, words):
    """A line of a log; few have another form."""
    if rng.random() < 0.03:
        return f"garbage {words.word()}"
    message = rng.choice(
        (
            f"request took {rng.randint(1, 1000)}ms for {words.word()}",
            f"user {words.word()} logged in from 10.0.{rng.randint(0, 255)}.{rng.randint(0, 255)}",
            f"cannot open file {words.word()}.txt",
        )
    )
    time = f"{rng.randint(0, 23):02}:{rng.randint(0, 59):02}:{rng.randint(0, 59):02}"
    return f"{date(rng)} {time} [{rng.choice(LEVELS)}] {rng.choice(UNITS)}: {message}"


def entries(rng, count):
    """Lines of a log."""
    words = Words(rng)
    return [entry(rng, words) for _ in range(count)]


def tokens(rng, count):
    """Words, one a line."""
    words = Words(rng)
    return [words.word() for _ in range(count)]


# How each program's input is made, from random numbers and a size; the size for an ordinary run, and the least one.
INPUTS = {
    "anagrams": (shuffled, 1500, 3),
    "calculator": (expressions, 900, 2),
    "factors": (lambda rng, n: [str(1_000_000), str(1_000_000 + n)], 150, 1),
    "frequency": (texts, 1500, 3),
    "hanoi": (lambda rng, n: [str(n)], 13, 2),
    "heapsort": (lambda rng, n: [str(n)], 6000, 10),
    "log": (entries, 4000, 3),
    "matrix": (lambda rng, n: [str(n)], 50, 2),
    "numerals": (lambda rng, n: [str(n)], 2500, 5),
    "palindromes": (palindromes, 500, 3),
    "queens": (lambda rng, n: [str(n)], 8, 4),
    "runs": (runs, 1000, 2),
    "stack": (lambda rng, n: [STACK_PROGRAM.format(turns=n)], 6000, 5),
    "sums": (sales, 4000, 4),
    "tokens": (sources, 1200, 3),
    "tree": (tokens, 4000, 4),
    "vigenere": (texts, 180, 2),
    "wrap": (paragraphs, 1500, 3),
}


def made(name, size):
    """A program's input of a size."""
    rng = random.Random(name)
    return ("\n".join(INPUTS[name][0](rng, size)) + "\n").encode("ascii")
