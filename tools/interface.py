"""The public items of a crate, as its sources declare them: what its lib.rt exports, with the methods of these types.

A crate exports what its `lib.rt` hands on by `pub use`, and the public items that stand in `lib.rt` itself. Of a type
the public methods of all its `impl` blocks count, and of a trait all its functions. Nothing here reads a contract.
"""

import functools
import re
import typing

import repository

CRATES = repository.ROOT / "crates"
EXPORT = re.compile(r"^pub use (\w+)::(?:\{([^}]*)\}|(\w+));", re.MULTILINE)
ITEM = re.compile(r'^(?:pub )(?:extern "C" )?(fn|struct|enum|trait|const|type) (\w+)')
METHOD = re.compile(r"^    pub (?:const )?fn (\w+)")
REQUIRED = re.compile(r"^    fn (\w+)")
IMPL = re.compile(r"^impl\b(?:<[^{]*?>)? ?(\w+)(?:<.*>)? \{$")
TRAIT = re.compile(r"^pub trait (\w+)")


class Item(typing.NamedTuple):
    """A public item: its file and line, its kind, its type if it is a method, its name, head and first sentence."""

    file: str
    line: int
    kind: str
    owner: str
    name: str
    head: str
    says: str

    def path(self):
        """The name by which pages speak of it."""
        return f"{self.owner}::{self.name}" if self.owner else self.name


def comment(lines, at):
    """The first sentence of the comment above a line."""
    while at > 0 and lines[at - 1].lstrip().startswith("#["):
        at -= 1
    start = at
    while start > 0 and lines[start - 1].lstrip().startswith("///"):
        start -= 1
    text = " ".join(line.lstrip()[3:].strip() for line in lines[start:at])
    return re.split(r"(?<=[.!?])(?= [A-Z`])", text)[0]


def head(lines, at, kind):
    """The head of an item on one line: of a function its signature, without what its contract says."""
    if kind in ("const", "type"):
        return lines[at].strip().partition(" =")[0]
    if kind != "fn":
        return lines[at].strip().rstrip("{;").strip()
    text = ""
    for line in lines[at:]:
        text += ("" if not text or text.endswith("(") else " ") + line.strip()
        if text.count("(") == text.count(")"):
            break
    return re.sub(r",\)", ")", text.rstrip("{;").strip().replace(", )", ")"))


def items_of(path):
    """The public items of a file, methods among them."""
    lines = path.read_text(encoding="utf-8").splitlines()
    file, owner, is_trait = str(path.relative_to(CRATES)), "", False
    for at, line in enumerate(lines):
        if not line.startswith(" ") and line.strip() not in ("", "{", "}"):
            opened = IMPL.match(line) or TRAIT.match(line)
            owner, is_trait = (opened[1] if opened else ""), bool(TRAIT.match(line))
        found = ITEM.match(line)
        if found:
            yield Item(file, at + 1, found[1], "", found[2], head(lines, at, found[1]), comment(lines, at))
        method = METHOD.match(line) or (REQUIRED.match(line) if is_trait else None)
        if method and owner:
            yield Item(file, at + 1, "fn", owner, method[1], head(lines, at, "fn"), comment(lines, at))


@functools.lru_cache(maxsize=None)
def public(crate):
    """The items that a crate gives to those above: free ones, and the methods of its types."""
    folder = CRATES / crate / "src"
    if not (folder / "lib.rt").is_file():
        return ()
    text = (folder / "lib.rt").read_text(encoding="utf-8")
    names = {it.strip() for _, several, one in EXPORT.findall(text) for it in (*several.split(","), one)} - {""}
    found = [it for path in sorted(folder.glob("**/*.rt")) for it in items_of(path)]
    names |= {it.name for it in found if it.file.endswith("src/lib.rt") and not it.owner}
    return tuple(it for it in found if (it.owner or it.name) in names)


def types(crate):
    """The public types and traits of a crate."""
    return [it for it in public(crate) if it.kind in ("struct", "enum", "trait", "type")]


@functools.lru_cache(maxsize=None)
def members(crate):
    """What may stand behind `Type::` in a page: methods and functions of every type of a crate, its variants and fields.

    Types that the crate keeps to itself count too, since pages of the crate speak of them.
    """
    found = {}
    for path in sorted((CRATES / crate / "src").glob("**/*.rt")):
        owner = ""
        for line in path.read_text(encoding="utf-8").splitlines():
            if re.match(r"[^\s{}#/]", line):
                opened = re.match(r"(?:ghost )?(?:pub(?:\(\w+\))? )?(?:struct|enum|trait) (\w+)", line) or re.match(
                    r"impl\b(?:<.*?>)? ?(?:[\w:<>', ]+ for )?(\w+)", line
                )
                owner = opened[1] if opened else ""
                if owner:
                    found.setdefault(owner, set())
            named = re.match(r"    (?:pub(?:\(\w+\))? )?(?:ghost )?(?:const )?(?:fn )?(\w+)", line)
            if owner and named:
                found[owner].add(named[1])
    return found
