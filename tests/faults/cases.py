"""The decks whose runs fail in all ways: the worked ones, and some that have each instruction that any deck has."""

import re
import shlex
import tempfile
import typing

from case_files import unpacked

from .served import Served

DECKS = unpacked("decks")
# The subjects of which all decks are taken, and those of which none is, as their runs are long.
WORKED = ("worked", "failing")
LONG = ("big", "programs")
# How many decks are taken beside the worked ones, or more if the instructions want more.
DECKS_TAKEN = 50


class Case(typing.NamedTuple):
    """A deck, the words after `run deck.module`, standard input, and the files of the words as they are before."""

    name: str
    deck: bytes
    words: typing.List[str]
    given: bytes
    files: typing.Dict[str, typing.Optional[bytes]]

    def put(self, served):
        """Puts the files there as they are before a run."""
        for name, content in self.files.items():
            served.put(name, content)

    def get(self, served):
        """What the files hold."""
        return {name: served.get(name) for name in self.files}


def content(file):
    """What a file holds, or None."""
    return file.read_bytes() if file.is_file() else None


def case_of(deck):
    """The case of a deck of tests/decks."""
    words = shlex.split((content(deck.with_suffix(".words")) or b"").decode())
    given = content(deck.with_suffix(".in")) or b""
    pairs = (re.fullmatch(r"0*([0-9]+)=(\w[\w.]*)", word) for word in words)
    files = {pair[2]: content(deck.with_suffix(f".{pair[1]}.in")) for pair in pairs if pair}
    return Case(f"{deck.parent.name}/{deck.stem}", deck.read_bytes(), words, given, files)


def cases_of(subjects):
    """The cases of some subjects, all but those if the first word is `but`."""
    folders = sorted(it for it in DECKS.iterdir() if it.is_dir())
    if subjects[0] == "but":
        folders = [it for it in folders if it.name not in subjects]
    else:
        folders = [it for it in folders if it.name in subjects]
    return [case_of(deck) for folder in folders for deck in sorted(folder.glob("*.sno"))]


def instructions(shown):
    """The instructions that lines of `sno show` name, those of primitives with their number."""
    words = (line.split() for line in shown.decode().splitlines())
    return {" ".join(it[1:3]) if it[1].startswith("PRIM") else it[1] for it in words}


class Looked(typing.NamedTuple):
    """A case, and the instructions of its module."""

    case: Case
    instructions: typing.Set[str]


def modules_of(decks, library_file, program):
    """The module of each deck, nothing if it is refused."""
    with tempfile.TemporaryDirectory(prefix="sno-cases-") as folder:
        with Served(library_file, program, ["compile", "file", "deck.module"], folder) as served:
            for deck in decks:
                served.put("deck.module", None)
                served.run_on(deck)
                yield served.get("deck.module") or b""


def looked_at(cases, library_file, program):
    """What there is to know of each case that compiles."""
    modules = list(modules_of((it.deck for it in cases), library_file, program))
    with tempfile.TemporaryDirectory(prefix="sno-cases-") as folder:
        with Served(library_file, program, ["show", "file"], folder) as served:
            for case, module, shown in zip(cases, modules, served.run_each(modules)):
                if module:
                    yield Looked(case, instructions(shown.out))


def covering(found):
    """So few of the cases, in turn the one that has most instructions that none before has."""
    left = set().union(*(it.instructions for it in found))
    taken = []
    while left:
        best = max(found, key=lambda it: (len(it.instructions & left), -len(it.case.deck)))
        taken.append(best)
        left -= best.instructions
    return taken


def chosen(library_file, program):
    """The worked cases, and the others that are taken, with the number of instructions that these have."""
    found = list(looked_at(cases_of(["but", *LONG, *WORKED]), library_file, program))
    taken = covering(found)
    rest = [it for it in found if it not in taken]
    wanted = max(DECKS_TAKEN - len(taken), 0)
    taken += rest[:: max(len(rest) // wanted, 1)][:wanted] if wanted else []
    every = set().union(*(it.instructions for it in taken))
    return cases_of(WORKED) + [it.case for it in taken], len(every)
