"""Words of pages and comments that a reader stumbles over, where English has plainer ones.

A function returns, and doesn't answer; a program reports, and doesn't tell; something is done together or immediately, not at
once. Comments are looked at in the crates from `driver` upwards, and say what a function does, never that it does `The same`.
"""

import re

import repository

ROOT = repository.ROOT
# Brackets may well be open at once.
WORDS = re.compile(r"\b(?:tells?|told|(?<!open )at once|where (?:it|they) lies?|(?:for|to|of|by) who)\b|^Who\b|\bThe same[,;]")
COMMENT = re.compile(r"^\s*//[/!]? ?(.*)")
FIRST = "driver"


def plain(text):
    """A text without what stands in backquotes or quotes, and without where its links lead."""
    return re.sub(r"\]\([^)]*\)", "]", re.sub(r"``.+?``|`[^`]*`|\"[^\"]*\"", "", text))


def comments():
    """The lines of comments of the crates from the first one upwards, without examples, each with its place."""
    names = list(repository.listed())
    for crate in names[names.index(FIRST) :]:
        for path in sorted((ROOT / "crates" / crate / "src").glob("**/*.rt")):
            for number, line in enumerate(path.read_text(encoding="utf-8").splitlines(), 1):
                found = COMMENT.match(line)
                if found and not found[1].startswith("    "):
                    yield f"{path.relative_to(ROOT)}:{number}", found[1]


def checks(blocks):
    """That no such word stands in blocks of pages, each a place and a text, or in comments."""
    for place, text in (*blocks, *comments()):
        for word in WORDS.findall(plain(text)):
            yield place, f"a plainer word than `{word}`", False
