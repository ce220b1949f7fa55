"""Names of the code: what pages say of types, types of one name, the page of calls, the gate's table, mutants, the version."""

import collections
import importlib.machinery
import importlib.util
import re

import interface
import repository

ROOT = repository.ROOT
CRATES = repository.listed()
MEMBER = re.compile(r"(?<![\w:])([A-Z]\w*)::(\w+)")
# Public types of one name in two crates. Each has its reason in docs/DECISIONS.md; a row that no longer holds fails too.
TWICE = ROOT / "tests" / "types_of_one_name.txt"
# Types of Rust's, the word for any, and a trait's word for the type that has it.
OTHERS = {"Type", "Vec", "Option", "Result", "Box", "Rc", "String", "Self"}
# The lines of docs/architecture.md, without the table that `make time` writes.
MOST_LINES = 250
VERSION = re.compile(r'^\s*(?:pub(?:\(\w+\))? )?const VERSION: &str = "([^"]*)";', re.MULTILINE)


def tool(name):
    """A script of tools/ as a module."""
    loader = importlib.machinery.SourceFileLoader(name, str(ROOT / "tools" / name))
    module = importlib.util.module_from_spec(importlib.util.spec_from_loader(name, loader))
    loader.exec_module(module)
    return module


def members():
    """What each type of any crate has."""
    found = collections.defaultdict(set)
    for crate in CRATES:
        for owner, names in interface.members(crate).items():
            found[owner] |= names
    return found


def member_checks(spans):
    """That each `Type::member` which pages name is there; of spans with their places."""
    known = members()
    for place, span in spans:
        for owner, name in MEMBER.findall(span):
            if owner not in OTHERS:
                yield place, f"{owner}::{name} of any crate", name in known.get(owner, ())


def twice():
    """The names that public types of several crates have, each with these crates."""
    found = collections.defaultdict(list)
    for crate in CRATES:
        for it in interface.types(crate):
            found[it.name].append(crate)
    return {name: crates for name, crates in found.items() if len(crates) > 1}


def type_checks():
    """That no two public types have one name, but for those that are listed, which still have it and have a reason."""
    rows = TWICE.read_text(encoding="utf-8").splitlines()
    listed = {name: crates.split() for name, _, crates in (row.partition(":") for row in rows if row.strip())}
    found = twice()
    for name, crates in sorted(found.items()):
        yield f"crates/{crates[-1]}", f"one public type named {name}, not one each in {crates}", listed.get(name) == crates
    for name in sorted(set(listed) - set(found)):
        yield f"tests/{TWICE.name}", f"two public types named {name}", False
    decisions = (ROOT / "docs" / "DECISIONS.md").read_text(encoding="utf-8")
    for name, crates in sorted(listed.items()):
        there = any(all(f"`{name}` of `{crate}`" in row for crate in crates) for row in decisions.splitlines())
        yield "docs/DECISIONS.md", f"why types of {' and '.join(crates)} have the one name {name}", there


def calls_check():
    """That docs/calls.md is what tools/calls prints."""
    calls = tool("calls")
    there = calls.PAGE.is_file() and calls.PAGE.read_text(encoding="utf-8") == calls.page()
    yield "docs/calls.md", "what tools/calls prints; tools/calls --write writes it", there


def gate_checks():
    """That the table of the gate's time is of this tree: its crates, and its functions within a tenth; and how long its page is."""
    gate = tool("gate_time")
    place, text = "docs/architecture.md", gate.ARCHITECTURE.read_text(encoding="utf-8")
    yield place, "the marks around the gate's table", gate.BLOCK.search(text) is not None
    for problem in gate.problems(text):
        yield place, f"a table of this tree, by make time: {problem}", False
    lines = len(gate.BLOCK.sub("", text).splitlines())
    yield place, f"at most {MOST_LINES} lines beside the gate's table, of which it has {lines}", lines <= MOST_LINES


def size_checks():
    """That the crates with more functions than CONTRIBUTING.md allows are those that it names."""
    text = " ".join((ROOT / "CONTRIBUTING.md").read_text(encoding="utf-8").split())
    told = re.search(r"crates at most (\d+) functions; larger so far: (.*?)\.", text)
    named, count = set(re.findall(r"`(\w+)`", told[2])) if told else set(), tool("gate_time").functions
    larger = {name for name in CRATES if told and count(name) > int(told[1])}
    for name in sorted(named ^ larger):
        yield "CONTRIBUTING.md", f"{name} as a larger crate, if it is one: it has {count(name)} functions", False


def proof_checks():
    """That the lines which docs/proofs.md tells of files of lemmas are right within a tenth, and so its two sums."""
    text, folder = (ROOT / "docs" / "proofs.md").read_text(encoding="utf-8"), ROOT / "crates" / "model"
    lines = {
        str(path.relative_to(folder)): len(path.read_text(encoding="utf-8").splitlines())
        for part in ("specs", "proofs")
        for path in folder.glob(f"{part}/*/*.antt")
    }
    told = []
    for row in text.splitlines():
        files = re.findall(r"`(\w+/\w+\.antt)`", row)
        if row.startswith("|") and files:
            told.append((int(row.split("|")[-2]), sum(lines.get(f"proofs/{file}", 0) for file in files), files[0]))
    sums = re.search(r"definitions of `model` take ([\d,]+), all its lemmas ([\d,]+)", text)
    for part, number in zip(("specs", "proofs"), sums.groups() if sums else ("0", "0")):
        told.append((int(number.replace(",", "")), sum(n for file, n in lines.items() if file.startswith(part)), part))
    for number, now, what in told:
        there = abs(number - now) * 10 <= now
        yield "docs/proofs.md", f"the lines of {what} and what stands beside it: {number}, and there are {now}", there


def mutant_checks():
    """That each mutant of tests/wrong_tried.txt is there, and that docs/promises.md has how many they are, and all others."""
    noted = tool("wrong").noted()
    there = {f"{name}/{edit.name}" for name in CRATES for edit in repository.edits(name, "wrong")}
    for mutant in sorted(noted - there):
        yield "tests/wrong_tried.txt", f"the mutant {mutant}", False
    text = " ".join((ROOT / "docs" / "promises.md").read_text(encoding="utf-8").split())
    yield "docs/promises.md", f"has the {len(noted)} that `tools/wrong --note`", f"has the {len(noted)} that `tools" in text
    told = re.search(r"Mutants under `wrong/`\*\*, some (\d+),", text)
    near = told and abs(int(told[1]) - len(there)) * 10 <= len(there)
    yield "docs/promises.md", f"how many mutants are under wrong/, within a tenth of {len(there)}", near


def version_checks():
    """That the version of the file VERSION is the newest of CHANGELOG.md, and that of each program that tells one."""
    version = (ROOT / "VERSION").read_text(encoding="utf-8").strip()
    newest = re.search(r"^## (\S+)", (ROOT / "CHANGELOG.md").read_text(encoding="utf-8"), re.MULTILINE)
    yield "CHANGELOG.md", f"the version {version} as its first heading", newest and newest[1] == version
    readme = re.search(r"\bVersion (\d+(?:\.\d+)+)", (ROOT / "README.md").read_text(encoding="utf-8"))
    yield "README.md", f"the version {version}", readme and readme[1] == version
    for path in sorted((ROOT / "crates").glob("*/src/**/*.rt")):
        for told in VERSION.findall(path.read_text(encoding="utf-8")):
            yield str(path.relative_to(ROOT)), f"the version of the file VERSION, not {told}", told == version


def figure_checks():
    """That README.md's figures of speed are those that docs/performance.md has of the same programs."""
    readme = " ".join((ROOT / "README.md").read_text(encoding="utf-8").split())
    text = (ROOT / "docs" / "performance.md").read_text(encoding="utf-8")
    for told, measured in (
        (r"takes ([\d.]+) of the time of Icon", r"geometric mean of the ratio to Icon, .*: ([\d.]+)$"),
        (r"and ([\d.]+) of that of the fastest", r"geometric mean of the ratio to the fastest, .*: ([\d.]+)$"),
        (r"it\s+takes ([\d.]+) times as long as Lua", r"^\| 200 drawn loops .*?\|.*?\| ([\d.]+)[,;]"),
    ):
        one, two = re.search(told, readme), re.search(measured, text, re.MULTILINE)
        yield "README.md", f"a figure of docs/performance.md: {one and one[0]}", one and two and one[1] == two[1]


def checks(spans):
    """All that is looked at; spans are what stands in backquotes of pages, each with its place."""
    yield from member_checks(spans)
    yield from type_checks()
    yield from calls_check()
    yield from gate_checks()
    yield from size_checks()
    yield from proof_checks()
    yield from figure_checks()
    yield from mutant_checks()
    yield from version_checks()
