"""The definitions of specs/ and the types of the code, and which of them a clause of a contract reaches.

A definition reaches each name in its text that isn't bound there: of its own file, or of one that the file uses. Names
after a dot are fields, and count with their record; a constructor counts with its type.
"""

import functools
import re
import typing

import repository

CRATES = repository.ROOT / "crates"
# A name with its path in front, or a sign; what stands around is left out.
TOKEN = re.compile(r"[^\s(){}\[\];,\"]+")
HEAD = re.compile(r"^(?:(?:abbrev|unfoldable|pub|data|record)\s+)*([^\s:(){}]+)(?=\s*[:({])")
USE = re.compile(r"^(?:ghost )?use (Rattle\.[\w.-]+?)(?:\.\{(.*?)\}| as (\w+))?;?$", re.MULTILINE)
BOUND = re.compile(r"[({]([^(){}:=]+?) : |λ ([^.]+)\.")
CLAUSE = re.compile(r"^\s*(?:ensures|requires) (?:(\w+) )?\{(.*)$")
FUNCTION = re.compile(r"^\s*(?:pub(?:\(\w+\))? )?(?:const )?fn (\w+)")
TYPE = re.compile(r"^(?:pub(?:\(\w+\))? )?(?:enum|struct|trait) (\w+)")


class Definition(typing.NamedTuple):
    """A definition: its file, its name, its text without comments, and the names of its constructors or fields."""

    file: str
    name: str
    text: str
    parts: tuple

    def lines(self):
        """How many lines it has, blank ones and comments left out."""
        return self.text.count("\n") + 1


def uncommented(text):
    """A text without its comments and blank lines."""
    lines = (re.sub(r"(^|\s)--(\s.*)?$", "", line).rstrip() for line in text.splitlines())
    return [line for line in lines if line]


def indent(line):
    """How far a line stands in."""
    return len(line) - len(line.lstrip(" "))


def blocks(lines, depth=0, head=()):
    """The definitions among lines that stand in so far: each as its lines, under the heads of the modules around it."""
    found, at = [], 0
    while at < len(lines):
        end = at + 1
        while end < len(lines) and indent(lines[end]) > depth:
            end += 1
        first, body = lines[at].strip(), lines[at + 1 : end]
        if first.startswith("use ") or re.match(r"(pub )?mod ", first):
            pass
        elif re.match(r"(abbrev |pub )*(module|mutual)\b", first) and body:
            outer = (*head, first) if "module" in first else head
            found += blocks(body, indent(body[0]), outer)
        elif HEAD.match(first) and (":" in first or "where" in first) and not clause_of(first, found):
            found.append((head, [lines[at], *body]))
        elif found:
            found[-1][1].extend([lines[at], *body])
        at = end
    return found


def clause_of(first, found):
    """Whether a line is a clause of the definition before it."""
    return bool(found) and name_of(found[-1][1]) == first.split()[0] and " : " not in first.partition("=")[0]


def name_of(lines):
    """The name that a definition gives."""
    return HEAD.match(lines[0].strip())[1]


def parts_of(lines):
    """The constructors or fields of a type."""
    if not re.search(r"\b(data|record)\b", lines[0].partition(":")[0]):
        return ()
    return tuple(it[1] for line in lines[1:] if (it := re.match(r"\s+(?:pub )?([^\s:]+) :", line)))


@functools.lru_cache(maxsize=None)
def definitions(file):
    """The definitions of a file of specs/."""
    lines = uncommented((CRATES / file).read_text(encoding="utf-8"))
    joined = []
    for head, block in blocks(lines):
        joined.append((Definition(file, name_of(block), "\n".join(block), parts_of(block)), " ".join(head)))
    return tuple(joined)


@functools.lru_cache(maxsize=None)
def named(file):
    """The definitions of a file by the names that they give, constructors among them."""
    found = {}
    for it, _ in definitions(file):
        for part in (it.name, *(it.parts if re.search(r"\bdata\b", it.text.partition(":")[0]) else ())):
            found.setdefault(part, it)
    for part in [part for part in found if "◌" in part]:
        found.setdefault(max(part.split("◌"), key=len), found[part])
    return found


@functools.lru_cache(maxsize=None)
def code_types(crate):
    """The types and constants of a crate's code by their names."""
    found = {}
    for path in sorted((CRATES / crate / "src").glob("**/*.rt")):
        lines = path.read_text(encoding="utf-8").splitlines()
        for at, line in enumerate(lines):
            constant = re.match(r"^pub const (\w+):", line)
            if constant or TYPE.match(line):
                end = at + 1
                while not constant and not lines[end - 1].rstrip().endswith((";", "}")) or (lines[end - 1].startswith(" ")):
                    end += 1
                body = [it for it in lines[at:end] if it.strip() and not it.strip().startswith(("//", "#["))]
                name = (constant or TYPE.match(line))[1]
                found[name] = Definition(str(path.relative_to(CRATES)), name, "\n".join(body), ())
    return found


def item(path, name):
    """The definition that a path and a name lead to, or none of this repository."""
    words = path.split(".")
    if len(words) < 3 or words[2] != "specs" or not (CRATES / words[1]).is_dir():
        return None
    if words[3:4] in (["declared"], ["contracts"]):
        types = code_types(words[1])
        return next((types[it] for it in (name, *reversed(words)) if it in types), None)
    file = "/".join([words[1], *words[2:]]) + ".antt"
    return named(file).get(name) if (CRATES / file).is_file() else None


@functools.lru_cache(maxsize=None)
def uses(file):
    """What a file uses: its names, each with path and name there; and its names of modules, each with their path."""
    names, modules = {}, {}
    for path, items, alias in USE.findall((CRATES / file).read_text(encoding="utf-8")):
        for it in items.split(",") if items else ():
            there, _, here = it.strip().partition(" as ")
            names[here or there] = (path, there)
            if "◌" in there:
                names[max(there.split("◌"), key=len)] = (path, there)
        if not items:
            modules[alias or path.rpartition(".")[2]] = path
    return names, modules


def resolve(file, token):
    """The definition that a token of a file names, or none."""
    names, modules = uses(file)
    if token.startswith("Rattle."):
        path, _, name = token.rpartition(".")
        return item(path, name)
    first, _, rest = token.partition(".")
    if rest and first in modules:
        return item(modules[first], rest.partition(".")[0])
    if first in names:
        return item(*names[first])
    return named(file).get(first) if file.endswith(".antt") else None


def statements(text):
    """The parts of a definition in which names are bound together: its head, and each clause."""
    found = []
    for line in text.splitlines():
        if not found or (indent(line) == indent(text) and " = " in f"{line} "):
            found.append(line)
        else:
            found[-1] += f"\n{line}"
    return found


def bound(file, part):
    """The names that a part binds: by a pattern, a type of names, or λ."""
    found = {name for pair in BOUND.findall(part) for name in " ".join(pair).split()}
    left, is_clause, _ = f"{part} ".partition(" = ")
    if is_clause and " : " not in left:
        for token in TOKEN.findall(left)[1:]:
            it = resolve(file, token)
            if it is None or token not in it.parts:
                found.add(token)
    return found


def mentioned(file, text):
    """The definitions that a text of a file names."""
    found = {}
    for part in statements(text):
        local = bound(file, part)
        for token in TOKEN.findall(re.sub(r"(?<=[{;])\s*\w+ = ", " ", part)):
            it = None if token in local or token.partition(".")[0] in local else resolve(file, token.strip("."))
            if it:
                found[it] = None
    return found


@functools.lru_cache(maxsize=None)
def next_of(it):
    """The definitions that a definition names; of a type of the code, the types of its crate."""
    if is_spec(it):
        head = dict(definitions(it.file))[it]
        return (*mentioned(it.file, it.text), *mentioned(it.file, head))
    types = code_types(it.file.split("/")[0])
    return tuple(types[name] for name in re.findall(r"\b[A-Z]\w+", it.text) if name in types and name != it.name)


def is_spec(it):
    """Whether a definition stands in specs/, and not in the code."""
    return it.file.endswith(".antt")


def reached(file, text):
    """The definitions that a text of a file reaches."""
    found, left = {}, list(mentioned(file, text))
    while left:
        it = left.pop()
        if it not in found:
            found[it] = None
            left += next_of(it)
    return found


@functools.lru_cache(maxsize=None)
def clauses(crate):
    """The clauses of a crate's contracts: the function, the clause's name, its file and its text."""
    found = []
    for path in sorted((CRATES / crate / "src").glob("**/*.rt")):
        function, depth = "", 0
        for line in path.read_text(encoding="utf-8").splitlines():
            if FUNCTION.match(line):
                function = FUNCTION.match(line)[1]
            if depth > 0:
                depth += line.count("{") - line.count("}")
                found[-1][-1] += f" {line.strip()}"
            elif CLAUSE.match(line):
                name, text = CLAUSE.match(line).groups()
                depth = line.count("{") - line.count("}")
                found.append([function, name or "", str(path.relative_to(CRATES)), text])
    return tuple(tuple(it) for it in found)


def reached_by(crate, function, clause=None):
    """The definitions that a contract reaches, or one clause of it."""
    found = {}
    for of, name, file, text in clauses(crate):
        if of == function and clause in (None, name):
            found.update(reached(file, text))
    return found


def twice(found):
    """The names that definitions of two files of specs/ give, with these files."""
    files = {}
    for it in filter(is_spec, found):
        files.setdefault(it.name, set()).add(it.file)
    return {name: sorted(where) for name, where in sorted(files.items()) if len(where) > 1}


class Count(typing.NamedTuple):
    """How much is reached: files, definitions and lines of specs/; types of the code, and their lines."""

    files: int
    definitions: int
    lines: int
    types: int
    type_lines: int

    @classmethod
    def of(cls, found):
        """The count of these definitions."""
        specs = [it for it in found if is_spec(it)]
        types = [it for it in found if not is_spec(it)]
        lines = (sum(it.lines() for it in its) for its in (specs, types))
        return cls(len({it.file for it in specs}), len(specs), next(lines), len(types), next(lines))

    def sentence(self):
        """The count in words."""
        specs = f"{self.definitions} definitions of {self.files} files, {self.lines} lines"
        return f"{specs}; {self.types} types of the code, {self.type_lines} lines"


# The clauses whose figures docs/promises.md gives.
HEADLINES = (
    ("driver", "run_deck", "meaning"),
    ("driver", "run_deck_on_files", "meaning"),
    ("driver", "run_deck_on_files", "run"),
    ("driver", "run_deck", "refused"),
    ("driver", "run_deck", "run"),
    ("driver", "run_module", "run"),
    ("driver", "compile_deck", None),
)


def table():
    """The table of docs/promises.md."""
    rows = ["| call | clause | files | definitions | lines | types of the code |", "|---|---|---|---|---|---|"]
    for crate, function, clause in HEADLINES:
        count = Count.of(reached_by(crate, function, clause))
        cells = [f"`{function}`", f"`{clause}`" if clause else "all", *map(str, count[:3])]
        rows.append(f"| {' | '.join(cells)} | {count.types} in {count.type_lines} lines |")
    return rows
