"""The standard streams closed: each of the seven ways, for each of the words of `sno` and `sno_list`, with files.

Where what a command needs is closed, it tells that; what it wrote is a beginning of what it writes with all streams
open, and no file holds what belongs elsewhere. Where what it needs is open, it does all that it does with all streams
open.
"""

import itertools
import os
import pathlib
import subprocess
import tempfile
import typing

from .command import ROOT, SECONDS

OLDER = ROOT / "tests" / "older" / "a_deck_of_arithmetic.module"
# They read two units and write two; one opens a file to read first, the other one to write.
HEAD = b" INPUT(.SEVEN,7)\n OUTPUT(.EIGHT,8)\n"
BODY = b" OUTPUT = 'printed'\n EIGHT = INPUT\n OUTPUT = SEVEN\n OUTPUT = INPUT\n EIGHT = 'last'\nEND\n"
READS, WRITES = HEAD + b" EIGHT = SEVEN\n" + BODY, HEAD + b" EIGHT = 'first'\n" + BODY
GIVEN = b"one\ntwo\nthree\n"
FILES = {"reads.sno": READS, "writes.sno": WRITES, "five": GIVEN, "seven": b"a\nb\nc\n", "eight": b"old\n"}
GIVEN_FILES = ["7=seven", "8=eight"]
INPUT, OUTPUT, ERROR = range(3)
WAYS = [closed for count in (1, 2, 3) for closed in itertools.combinations((INPUT, OUTPUT, ERROR), count)]
NO_INPUT, NO_OUTPUT = b"cannot read standard input\n", b"cannot write standard output\n"
UNITS = (b"unit 5 U2\n", b"unit 6 U3\n")


class Row(typing.NamedTuple):
    """Words, standard input, and what is reported where that and where standard output is closed, if it is needed."""

    words: typing.List[str]
    given: bytes = b""
    no_input: bytes = b""
    no_output: bytes = b""


OF_SNO = [
    Row([], b" OUTPUT = 'printed'\nEND\n", NO_INPUT, UNITS[1]),
    Row(["compile", "reads.sno", "made"]),
    Row(["upgrade", "old.module", "made"]),
    Row(["check", "deck.module"], b"", b"", NO_OUTPUT),
    Row(["show", "deck.module"], b"", b"", NO_OUTPUT),
    Row(["run", "deck.module", *GIVEN_FILES], GIVEN, *UNITS),
    *(Row(["go", deck, *GIVEN_FILES], GIVEN, *UNITS) for deck in ("reads.sno", "writes.sno")),
    Row(["run", "deck.module", *GIVEN_FILES, "5=five"], b"", b"", UNITS[1]),
    Row(["go", "reads.sno", *GIVEN_FILES, "6=six"], GIVEN, UNITS[0]),
    Row(["go", "writes.sno", *GIVEN_FILES, "5=five", "6=six"]),
]
OF_LIST = [
    Row(["reads.sno"], b"", b"", NO_OUTPUT),
    Row(["--code", "reads.sno"], b"", b"", NO_OUTPUT),
    Row([], READS, NO_INPUT, NO_OUTPUT),
    Row(["--error", "E9"], b"", b"", NO_OUTPUT),
]


class Seen(typing.NamedTuple):
    """What a command prints, reports and ends with, and what the files of its folder hold then."""

    out: bytes
    told: bytes
    status: int
    files: typing.Dict[str, bytes]


def files_of(sno):
    """The files that are there before each command."""
    lines = (line.partition("#")[0] for line in OLDER.read_text().splitlines())
    with tempfile.TemporaryDirectory(prefix="sno-streams-") as folder:
        deck, module = pathlib.Path(folder) / "deck.sno", pathlib.Path(folder) / "deck.module"
        deck.write_bytes(WRITES)
        subprocess.run([sno, "compile", deck, module], check=True, timeout=SECONDS)
        return {**FILES, "deck.module": module.read_bytes(), "old.module": bytes.fromhex("".join(lines))}


def seen_of(program, row, closed, before, folder):
    """Runs a command with some of its standard streams closed."""
    for file in folder.iterdir():
        file.unlink()
    for name, content in before.items():
        (folder / name).write_bytes(content)
    given = {"stdin": subprocess.DEVNULL} if INPUT in closed else {"input": row.given}
    how = {"cwd": folder, "timeout": SECONDS, "preexec_fn": lambda: [os.close(number) for number in closed]}
    ran = subprocess.run([str(program), *row.words], capture_output=True, check=False, **given, **how)
    files = {file.name: file.read_bytes() for file in folder.iterdir()}
    return Seen(ran.stdout, ran.stderr, ran.returncode, files)


def told_of(row, closed):
    """The line that is to be told, if what is closed is needed."""
    if INPUT in closed and row.no_input:
        return row.no_input
    return row.no_output if OUTPUT in closed else b""


def is_beginning(some, whole):
    """Whether some bytes are a beginning of the records of others."""
    return whole.startswith(some) and (some in (b"", whole) or some.endswith(b"\n"))


def faults(row, closed, whole, seen):
    """What is wrong with what is seen, beside what is seen with all streams open."""
    told = told_of(row, closed)
    if (seen.told, seen.status) != (b"" if ERROR in closed else told, 6 if told else 0):
        yield f"told {seen.told!r}, status {seen.status}"
    fits = is_beginning if told else bytes.__eq__
    if not fits(seen.out, b"" if OUTPUT in closed else whole.out):
        yield f"printed {seen.out!r}"
    for name in sorted({**whole.files, **seen.files}):
        content = seen.files.get(name, b"")
        # A file that wasn't opened before the fault is as it was.
        if not fits(content, whole.files.get(name, b"")) and not (told and content == FILES.get(name)):
            yield f"{name} holds {content!r}"


def closed_streams(program, rows, before):
    """Runs rows in each of the seven ways; the lines that report what is wrong."""
    with tempfile.TemporaryDirectory(prefix="sno-streams-") as folder:
        place = pathlib.Path(folder)
        for row in rows:
            whole = seen_of(program, row, (), before, place)
            if (whole.told, whole.status) != (b"", 0):
                yield f"{row.words}: told {whole.told!r}, status {whole.status}"
            for closed in WAYS:
                for line in faults(row, closed, whole, seen_of(program, row, closed, before, place)):
                    yield f"{' '.join(row.words)}, with {closed} closed: {line}"
