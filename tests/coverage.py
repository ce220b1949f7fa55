"""Which ways of the machine the cases take: what `tests/run --coverage` prints of a program of tools/counted.

Each point of the program's crates is to be taken by a case, or to fit a line of never_taken.txt, which groups by reason
the points that no case takes; `*` there stands for anything. A line that fits no such point is one too many.
"""

import collections
import os
import pathlib
import re
import struct
import tempfile

NEVER_TAKEN = pathlib.Path(__file__).resolve().parent / "never_taken.txt"
# The kinds whose variants have a row each in the table: what is evaluated, done, searched for, and what it comes to.
KINDS = ("Tree", "Body", "Needle", "Basic", "Lent", "Sought", "Came", "Waiting", "Form", "Known")
VARIANT = re.compile(rf"\b({'|'.join(KINDS)})::(\w+)")
MOST_SHOWN = 100


def points_of(program):
    """The file that names the points of a program of tools/counted."""
    return program.with_name(program.name + ".points")


class Coverage:
    """Counts of the points of a program while its runs write them."""

    def __init__(self, program):
        self.points = points_of(program).read_text(encoding="utf-8").splitlines()
        self.counts = [0] * len(self.points)

    def __enter__(self):
        """Has the runs of programs write their counts."""
        handle, self.file = tempfile.mkstemp(prefix="counts-")
        os.close(handle)
        os.environ["COUNTS"] = self.file
        return self

    def __exit__(self, *_):
        """Reads what they wrote."""
        del os.environ["COUNTS"]
        content = pathlib.Path(self.file).read_bytes()
        os.unlink(self.file)
        if len(content) == 8 * len(self.points):
            self.counts = struct.unpack(f"={len(self.points)}Q", content)

    def never(self):
        """The points that no run took."""
        return [point for point, count in zip(self.points, self.counts) if not count]

    def table(self):
        """The lines of the table: for each file of a crate, and for each variant, how often its points were taken."""
        files, taken, runs = (collections.Counter() for _ in range(3))
        for point, count in zip(self.points, self.counts):
            file = point.split(" ", 1)[0]
            files[file] += 1
            taken[file] += count > 0
            for kind, variant in VARIANT.findall(point):
                runs[f"{kind}::{variant}"] += count
        yield "| file | points | taken |"
        yield "|---|---|---|"
        yield from (f"| {file} | {count} | {taken[file]} |" for file, count in files.items())
        yield f"| all | {files.total()} | {taken.total()} |"
        yield ""
        yield "| variant | taken |"
        yield "|---|---|"
        yield from (f"| {variant} | {count} |" for variant, count in sorted(runs.items()))


def allowed():
    """The lines of never_taken.txt, each as what fits it."""
    lines = NEVER_TAKEN.read_text(encoding="utf-8").splitlines()
    lines = [it for it in lines if it and not it.startswith("#")]
    return {it: re.compile(".*".join(map(re.escape, it.split("*")))) for it in lines}


def faults(never):
    """What is reported of points that were never taken: each that fits no line, and each line that fits none."""
    lines = allowed()
    used = {line for line, fits in lines.items() for point in never if fits.fullmatch(point)}
    for point in never:
        if not any(fits.fullmatch(point) for fits in lines.values()):
            yield f"never taken: {point}"
    for line in lines:
        if line not in used:
            yield f"{NEVER_TAKEN.name}: taken, or not there: {line}"


def report(coverage):
    """Prints the table and what is wrong; how many points are taken or allowed, and how many faults there are."""
    print("\n".join(coverage.table()))
    found = list(faults(coverage.never()))
    for line in found[:MOST_SHOWN]:
        print(f"FAILED {line}")
    if len(found) > MOST_SHOWN:
        print(f".. {len(found) - MOST_SHOWN} more")
    return len(coverage.points), len(found)
