"""What specs, proofs and code of a crate cite of the crates below, and what these offer to be cited.

A crate offers its public types and their rows in the logic, its definitions in the files of specs/ that a contract of a
public function reaches or that its page CALLING.md names, and the lemmas that the page names under `## Laws for other
crates`. All definitions of `model` are offered, as they are what the contracts of all crates speak of; but no crate
above the matcher names choices, and none above the loader how parts of a module are spelt.
"""

import functools
import re
import typing

import definitions
import repository

CRATES = repository.ROOT / "crates"
LISTED = repository.listed()
DEFINING = "model"
HEADING = "## Laws for other crates"
PATH = re.compile(r"\bRattle\.(\w+)\.(specs|proofs)\.([\w.-]*\w)((?:\.\{[^}]*\}|\.[^\w\s{}();,]\S*| as \w+)?)")
# Definitions of how a layer works: no crate above it names them, though they stand in files of `model`.
WITHIN = {
    "match_machine": ("Pattern/Steps", {"Note", "Thread", "Choice", "Move", "Act", "pattern_act"}),
    "loader": ("Module/Spelling", {"opcode", "instr", "pat_instr", "counted", "string", "code_bytes"}),
}
IMPORT = re.compile(r"^\s*(?:pub |ghost )*use ")
EXPORT = re.compile(r"^pub use \w+::(?:\{([^}]*)\}|(\w+));", re.MULTILINE)
PUBLIC = re.compile(r"^\s*pub (?:ghost )?(?:const )?fn (\w+)", re.MULTILINE)
PLACED = re.compile(r"^(?:pub )?(?:trait|impl\b.* for)\b.*?^}", re.MULTILINE | re.DOTALL)
ROW = re.compile(r"^\| `proofs/([\w/]+)\.antt` \| (.*?) \|")


class Citation(typing.NamedTuple):
    """A name of a crate below: the file and line that cite it, that crate, its room there, its file and the name."""

    file: str
    line: int
    below: str
    room: str
    where: str
    name: str

    def what(self):
        """The citation in words."""
        return f"{self.name} of crates/{self.below}/{self.room}/{self.where}"


def texts(crate):
    """The files of a crate that may cite, each with its text."""
    for part in ("specs", "proofs", "src"):
        for path in sorted((CRATES / crate / part).glob("**/*.*t")):
            yield str(path.relative_to(CRATES)), path.read_text(encoding="utf-8")


def split(path, rest):
    """The file and the names that a path leads to; no name is the whole file, under the name that comes last."""
    if rest.startswith(".{"):
        return path, [it.partition(" as ")[0].strip() for it in rest[2:-1].split(",")], None
    if rest.startswith(" as "):
        return path, [], rest[len(" as ") :]
    return path, [rest[1:]] if rest else [], path.rpartition(".")[2]


def whole(text, alias):
    """The names that a text takes of a file which it has under this name."""
    return sorted(set(re.findall(rf"(?<![\w.]){alias}\.([^\W\d][\w-]*)", text)))


@functools.lru_cache(maxsize=None)
def cited(crate):
    """What a crate cites of other crates of crates.txt."""
    found = {}
    for file, text in texts(crate):
        for it in PATH.finditer(text):
            below, room, path, rest = it.groups()
            if below == crate or below not in LISTED:
                continue
            start = text.rfind("\n", 0, it.start()) + 1
            where, names, alias = split(path, rest)
            if not names and not IMPORT.match(text[start:]):
                where, _, name = path.rpartition(".")
                names = [name]
            line = text.count("\n", 0, it.start()) + 1
            for name in names or whole(text.replace(it[0], ""), alias):
                found[Citation(file, line, below, room, where.replace(".", "/"), name)] = None
    return list(found)


@functools.lru_cache(maxsize=None)
def page(crate):
    """The page of a crate for those that call it."""
    file = CRATES / crate / "CALLING.md"
    return file.read_text(encoding="utf-8") if file.is_file() else ""


@functools.lru_cache(maxsize=None)
def laws(crate):
    """The lemmas that a crate offers, by their files."""
    found = {}
    for line in page(crate).partition(HEADING)[2].partition("\n## ")[0].splitlines():
        row = ROW.match(line)
        if row:
            found.setdefault(row[1], []).extend(re.findall(r"`([^`]+)`", row[2]))
    return found


def is_lemma(crate, where, name):
    """Whether a file of a crate's proofs has a lemma or a definition of this name, or hands one on."""
    file = CRATES / crate / "proofs" / f"{where}.antt"
    text = file.read_text(encoding="utf-8") if file.is_file() else ""
    head = rf"^\s*(?:(?:pub|abbrev|record|data|unfoldable) )*{re.escape(name)}(?=[ :({{])"
    handed = rf"^pub use .*[{{ ]{re.escape(name)}[,}}]"
    return any(re.search(it, text, re.MULTILINE) for it in (head, handed))


@functools.lru_cache(maxsize=None)
def exported(crate):
    """The names that a crate's code gives to those above."""
    text = (CRATES / crate / "src" / "lib.rt").read_text(encoding="utf-8")
    names = {name.strip() for several, one in EXPORT.findall(text) for name in (one, *several.split(","))}
    return names | set(re.findall(r"^pub (?:fn|struct|enum|trait|const|type) (\w+)", text, re.MULTILINE))


@functools.lru_cache(maxsize=None)
def callable_names(crate):
    """The functions of a crate that have a public contract."""
    found = set()
    for path in (CRATES / crate / "src").glob("**/*.rt"):
        text = path.read_text(encoding="utf-8")
        found.update(PUBLIC.findall(text), *(re.findall(r"\bfn (\w+)", it) for it in PLACED.findall(text)))
    return found


@functools.lru_cache(maxsize=None)
def reached(crate):
    """The files of specs/ that public contracts of a crate reach."""
    found = set()
    for function, _, file, text in definitions.clauses(crate):
        if function in callable_names(crate):
            found.update(it.file for it in definitions.reached(file, text))
    return found


def is_of_type(it):
    """Whether a citation is of a type as the code declares it, or of its row, which a `Lends` clause names."""
    return it.where.startswith("declared") or (it.where.startswith("contracts") and it.name == "the_row")


def is_type(it):
    """Whether a citation of a type is of what the code gives to those above."""
    words = it.where.split("/")
    return it.name in exported(it.below) or any(word in exported(it.below) for word in words[1:])


def is_offered(it):
    """Whether a citation is of what the crate below offers."""
    if passes_over(it.file.split("/")[0], it):
        return False
    if it.room == "proofs":
        return it.name in laws(it.below).get(it.where, ())
    if is_of_type(it):
        return is_type(it)
    file = f"specs/{it.where}.antt"
    return it.below == DEFINING or f"`{file}`" in page(it.below) or f"{it.below}/{file}" in reached(it.below)


def passes_over(crate, it):
    """The layer between a crate and a definition, if it names how that layer works."""
    over = (layer for layer, (where, names) in WITHIN.items() if it.where == where and it.name in names)
    return next((layer for layer in over if layer in repository.below(crate, LISTED)), None)


def told(crate):
    """The lines that say what a crate cites of each crate below."""
    found = {}
    for it in cited(crate):
        what = "types" if is_of_type(it) else it.room
        name = f"{it.where}.{it.name}" if what == "proofs" else it.where if what == "specs" else it.name
        if name == "the_row":
            name = it.where.rpartition("/")[2]
        found.setdefault((it.below, what), set()).add(name)
    lines = []
    for (below, what), names in sorted(found.items()):
        shown = {"types": "types", "specs": "definitions of", "proofs": "laws"}[what]
        lines.append(f"{crate} cites of {below}: {shown} {', '.join(sorted(names))}")
    return lines
