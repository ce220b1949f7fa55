"""The crates that crates.txt lists, and copies of them to try things on."""

import contextlib
import os
import pathlib
import shutil
import signal
import sys
import tempfile

ROOT = pathlib.Path(__file__).resolve().parent.parent
# What a check of a crate reads, and what earlier checks kept of it.
PARTS = ("src", "specs", "proofs", "out")


def listed():
    """The crates of crates.txt, each with the names after its colon."""
    rows = (ROOT / "crates.txt").read_text(encoding="utf-8").splitlines()
    pairs = (row.partition("#")[0].partition(":") for row in rows)
    return {name.split()[0]: used.split() for name, _, used in pairs if name.strip()}


def below(name, crates=None):
    """The crates that this one stands on, each after those that it stands on itself."""
    crates = listed() if crates is None else crates
    found = {}
    for used in crates[name]:
        if used in crates:
            found.update(dict.fromkeys([*below(used, crates), used]))
    return list(found)


def edits(name, folder):
    """The edits in a folder of a crate, in the order in which they are tried."""
    return sorted((ROOT / "crates" / name / folder).glob("*.edit"))


def copy(one, other):
    """Copies a file; one of what was proved by a link, where that can be made, since a check replaces it and changes none."""
    try:
        if one.endswith(".oantt"):
            return os.link(one, other)
    except OSError:
        pass
    return shutil.copy2(one, other)


@contextlib.contextmanager
def copied(names):
    """A folder with a copy of these crates and of those below them, which goes afterwards."""
    crates = listed()
    wanted = dict.fromkeys(it for name in names for it in [*below(name, crates), name])
    with tempfile.TemporaryDirectory(prefix="crates-") as folder:
        top = pathlib.Path(folder)
        rows = [f"{name}: {' '.join(crates[name])}\n" for name in wanted]
        (top / "crates.txt").write_text("".join(rows), encoding="utf-8")
        for name in wanted:
            for part in PARTS:
                source = ROOT / "crates" / name / part
                if source.is_dir():
                    shutil.copytree(source, top / "crates" / name / part, copy_function=copy)
        yield top


def rt():
    """The toolchain's command."""
    return os.environ.get("RT", "rt")


def end_when_told():
    """Has a request to end this script leave nothing behind: no copy, and no command that runs on."""
    signal.signal(signal.SIGTERM, lambda *_: sys.exit(143))
