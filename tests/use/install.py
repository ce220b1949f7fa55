"""`make install` and `make uninstall`: files, manual pages, completion."""

import pathlib
import re
import shutil
import tempfile

from .command import ROOT, is_there, run

PLACE = "Makefile: install"
FILES = {
    "sno": ["bin/sno", "share/man/man1/sno.1", "share/bash-completion/completions/sno"],
    "snobol": ["bin/snobol", "share/man/man1/snobol.1", "share/bash-completion/completions/snobol"],
    "sno_list": ["bin/sno_list", "share/man/man1/sno_list.1", "share/bash-completion/completions/sno_list"],
}
# What is typed, and what is offered, in a folder with the files a.sno and a.module.
COMPLETED = [
    ("sno", ["sno", "co"], ["compile"]),
    ("sno", ["sno", ""], ["compile", "upgrade", "check", "show", "run", "go"]),
    ("sno", ["sno", "compile", "a.s"], ["a.sno"]),
    ("sno", ["sno", "run", "a.module", "--"], ["--steps"]),
    ("sno", ["sno", "run", "a.module", "5", "=", "a.s"], ["a.sno"]),
    ("sno_list", ["sno_list", "--error", "E16"], ["E16"]),
    ("sno_list", ["sno_list", "--c"], ["--code"]),
    ("snobol", ["snobol", "ch"], ["check"]),
    ("snobol", ["snobol", "a"], ["a.sno", "a.module"]),
    ("snobol", ["snobol", "check", "--w"], ["--warnings"]),
    ("snobol", ["snobol", "check", "--warnings", "=", "e"], ["error"]),
    ("snobol", ["snobol", "--messages", "="], ["text", "json", "codes"]),
    ("snobol", ["snobol", "a.sno", "5", "=", "a.s"], ["a.sno"]),
    ("snobol", ["snobol", "explain", "E16"], ["E16"]),
    ("snobol", ["snobol", "explain", "beh"], ["behind-end"]),
]


def files_below(folder):
    """The files below a folder, by their paths there."""
    return sorted(str(it.relative_to(folder)) for it in folder.rglob("*") if it.is_file())


def made(target, prefix, programs):
    """What `make` does for a target, with programs that are there already."""
    given = [program if program.exists() else "" for program in programs]
    words = [f"{name}={program}" for name, program in zip(("SNO", "LIST", "SNOBOL"), given)]
    return run(["make", "-s", target, f"PREFIX={prefix}", *words], folder=ROOT)


def library_checks(prefix, folder):
    """A deck that takes in one of the library that is installed."""
    (folder / "deck.sno").write_text("-INCLUDE 'text.sno'\n OUTPUT = UPPER('hi')\nEND\n", encoding="ascii")
    ran = run([prefix / "bin/snobol", "deck.sno"], folder=folder, SNOPATH="")
    yield PLACE, f"a deck with a file of the installed library: {ran}", ran == (b"HI\n", b"", 0)


def page_checks(prefix):
    """The manual pages, as mandoc sees them."""
    pages = sorted((prefix / "share/man").glob("*/*"))
    for page in pages:
        text = page.read_text(encoding="ascii")
        yield PLACE, f"a title and a name in {page.name}", text.startswith(".TH ") and "\n.SH NAME\n" in text
        has_example = "EXAMPLES" in text or "\nThe deck\n" in text
        yield PLACE, f"examples in {page.name}", has_example
        cited = re.findall(r"\S*\.md\b|\bdocs/\S*|fBmake\\~\S+|\brepository\b", text)
        yield PLACE, f"nothing in {page.name} of what isn't installed: {cited}", not cited
        also = text.partition("SEE ALSO")[2]
        pages_cited = [f"{name}.{section}" for name, section in re.findall(r"^\.BR (\w+) \((\d)\)", also, re.MULTILINE)]
        missing = [name for name in pages_cited if name not in {it.name for it in pages}]
        yield PLACE, f"pages that {page.name} cites and that aren't installed: {missing}", not missing
    if is_there("mandoc", "a look at the manual pages"):
        out, told, status = run(["mandoc", "-Tlint", *pages])
        yield PLACE, f"manual pages without a warning: {(out + told).decode()}", status == 0 and not out + told


def offered(file, function, words, folder):
    """What the completion offers behind words."""
    listed = " ".join(f"'{word}'" for word in words)
    script = f"source '{file}'; COMP_WORDS=({listed}); COMP_CWORD={len(words) - 1}; {function}; "
    script += "printf '%s\\n' \"${COMPREPLY[@]}\""
    return run(["bash", "--norc", "-c", script], folder=folder)[0].decode().split()


def completion_checks(file, folder):
    """The completion, in a folder with a deck and a module."""
    for name in ("a.sno", "a.module"):
        (folder / name).write_bytes(b"")
    for program, words, wanted in COMPLETED:
        got = offered(file, f"_{program}", words, folder)
        yield PLACE, f"completion of {' '.join(words)}: {got}", sorted(got) == sorted(wanted)


def package_checks(folder, programs):
    """A Debian package, installed into a folder of its own and removed."""
    file, root = folder / "fizhdova.deb", folder / "root"
    ran = run([ROOT / "tools" / "deb", file, *programs])
    yield PLACE, f"a Debian package: {ran[1].decode()}", file.is_file() and ran[2] == 0
    (root / "var/lib/dpkg/updates").mkdir(parents=True)
    (root / "var/lib/dpkg/info").mkdir()
    (root / "var/lib/dpkg/status").write_bytes(b"")
    dpkg = ["dpkg", "--root", root, "--force-not-root", "--force-depends", "--force-bad-path", "--log=/dev/null"]
    ran = run([*dpkg, "--install", file])
    yield PLACE, f"the package installed: {ran[1].decode()}", ran[2] == 0
    out, _, status = run([root / "usr/bin/sno"], b" OUTPUT = 'HI'\nEND\n")
    yield PLACE, "a program of the package that runs a deck", (out, status) == (b"HI\n", 0)
    ran = run([*dpkg, "--purge", "fizhdova"])
    yield PLACE, f"nothing left of the package: {files_below(root / 'usr')}", ran[2] == 0 and not files_below(root / "usr")


def checks(sno, *others):
    """Installs into a new folder, looks at what is there, and takes it away again."""
    with tempfile.TemporaryDirectory(prefix="sno-install-") as name:
        folder = pathlib.Path(name)
        programs = [folder / "built" / name for name in ("sno", "sno_list", "snobol")]
        programs[0].parent.mkdir()
        for program, given in zip(programs, (sno, *others)):
            if given:
                shutil.copy(given, program)
        prefix = folder / "prefix"
        ran = made("install", prefix, programs)
        yield PLACE, f"an installation: {ran[1].decode()}", ran[2] == 0
        wanted = [file for program in programs if program.exists() for file in FILES[program.name]]
        library = [f"share/snobol/{deck.name}" for deck in (ROOT / "share" / "snobol").glob("*.sno")]
        wanted = sorted([*wanted, *library, "share/man/man7/snobol4.7", "share/man/man7/snobol_library.7"])
        yield PLACE, f"what is installed: {files_below(prefix)}", files_below(prefix) == wanted
        out, _, status = run([prefix / "bin/sno"], b" OUTPUT = 'HI'\nEND\n")
        yield PLACE, "an installed program that runs a deck", (out, status) == (b"HI\n", 0)
        if (prefix / "bin/snobol").exists():
            yield from library_checks(prefix, folder)
        yield from page_checks(prefix)
        completion = prefix / "share/bash-completion/completions/sno"
        (folder / "decks").mkdir()
        yield from completion_checks(completion, folder / "decks")
        if is_there("dpkg-deb", "a Debian package"):
            yield from package_checks(folder, [program for program in programs if program.exists()])
        ran = made("uninstall", prefix, programs)
        yield PLACE, "nothing left after `make uninstall`", ran[2] == 0 and not files_below(prefix)
