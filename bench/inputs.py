"""The inputs of the workloads, the same each time."""

import math
import random


def letters(rng, least, most, alphabet="abcdefghijklmnopqrstuvwxyz"):
    """A word of so many letters."""
    return "".join(rng.choices(alphabet, k=rng.randint(least, most)))


def text_lines(rng, count, words, length):
    """Lines of words."""
    vocabulary = [letters(rng, 2, 9) for _ in range(words)]
    return [" ".join(rng.choices(vocabulary, k=length)) for _ in range(count)]


def field(rng):
    """A field of a line, in quotes or not."""
    word = letters(rng, 1, 9)
    return rng.choice([word, f'"{word}, {letters(rng, 1, 5)}"', f'"a ""{word}"" here"'])


def nested(rng, depth):
    """A list in brackets."""
    inner = (nested(rng, depth - 1) if depth and rng.random() < 0.4 else letters(rng, 1, 5) for _ in range(4))
    return "(" + " ".join(inner) + ")"


def expression(rng, depth):
    """A sum of products."""
    if depth == 0 or rng.random() < 0.3:
        return str(rng.randint(0, 999))
    sides = [expression(rng, depth - 1) for _ in range(2)]
    joined = rng.choice("+-*/").join(sides)
    return f"({joined})" if rng.random() < 0.5 else joined


def spoilt(rng, text):
    """A text, or a text with a byte too much."""
    at = rng.randrange(len(text))
    return text if rng.random() < 0.7 else text[:at] + rng.choice("+)(") + text[at:]


def template(rng):
    """A text with names to be replaced."""
    words = (rng.choice([letters(rng, 2, 8), "$" + rng.choice(["name", "thing", "place", "year"])]) for _ in range(12))
    return " ".join(words)


# How each workload's input is made, from random numbers and a count of lines; the count for an ordinary run.
INPUTS = {
    "wordcount": (lambda rng, n: text_lines(rng, n, 2000, 12), 8000),
    "quoted": (lambda rng, n: [",".join(field(rng) for _ in range(8)) for _ in range(n)], 8000),
    "nested": (lambda rng, n: [nested(rng, 5) for _ in range(n)], 6000),
    "grammar": (lambda rng, n: [spoilt(rng, expression(rng, 5)) for _ in range(n)], 4000),
    "roman": (lambda rng, n: [str(rng.randint(1, 3999)) for _ in range(n)], 20000),
    "names": (lambda rng, n: [template(rng) for _ in range(n)], 10000),
    "sieve": (lambda rng, n: [str(n)], 300000),
    "fib": (lambda rng, n: [str(round(math.log(n, 1.618)))], 250000),
    "shell": (lambda rng, n: [str(rng.randint(0, 10**9)) for _ in range(n)], 15000),
    "search": (lambda rng, n: [letters(rng, 60, 200, "abcdefgh") for _ in range(n)], 15000),
    "backref": (lambda rng, n: [letters(rng, 30, 60, "abcdef") for _ in range(n)], 1500),
    "arbno": (lambda rng, n: [letters(rng, 5000, 5000) for _ in range(n)], 60),
    "permutations": (lambda rng, n: ["abcdefghij"[: round(math.log(n, 4.2))]], 100000),
    "trees": (lambda rng, n: [str(round(math.log2(n)))], 2**16),
    "scans": (lambda rng, n: [letters(rng, 40, 4000) + " " * 50 + letters(rng, 300, 900) for _ in range(n)], 5000),
}


def made(name, scale):
    """The input of a workload."""
    make, count = INPUTS[name]
    lines = make(random.Random(name), max(2, int(count * scale)))
    return "".join(f"{line}\n" for line in lines).encode()
