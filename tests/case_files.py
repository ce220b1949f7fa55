"""The cases of decks/ and snobol/, which stand many to a file, as folders of files.

A file FOLDER/SUBJECT.cases holds the cases of a subject. Lines in front of the first case say what they are about.
A case begins with the line `=== NAME`, and each of its sections with `--- SECTION`; SECTIONS has their names, `unit 9`
is what the file of unit 9 holds afterwards, and `unit 9 before` what it holds before. All lines up to the next such
line are what the section holds. Behind the section's name may stand `(no line feed)`: the last line has none; and
`(escaped)`: `\\\\` is a backslash and `\\xNN` the byte with this number.
"""

import hashlib
import pathlib
import re
import shutil
import sys
import tempfile

TESTS = pathlib.Path(__file__).resolve().parent
BUILD = TESTS.parent / "build" / "cases"
# The sections of a case and the endings of the files that they become.
SECTIONS = {
    "deck": ".sno",
    "more": ".more",
    "commands": ".cmd",
    "words": ".words",
    "input": ".in",
    "output": ".out",
    "told": ".told",
    "status": ".status",
    "module": ".module",
}
MARK = re.compile(rb"(===|---) ([^\n(]+?)( \(escaped\))?( \(no line feed\))?\n")
ESCAPE = re.compile(rb"\\(\\|x[0-9a-f]{2})")


def ending(section):
    """The ending of the file that a section becomes."""
    unit = re.fullmatch(r"unit ([0-9]+)( before)?", section)
    if unit:
        return f".{unit[1]}.in" if unit[2] else f".{unit[1]}"
    return SECTIONS[section]


def unescaped(content):
    """What an escaped section means."""
    return ESCAPE.sub(lambda it: b"\\" if it[1] == b"\\" else bytes([int(it[1][1:], 16)]), content)


def sections(file):
    """The name, ending and content of each section of a file of cases."""
    lines = re.findall(rb"[^\n]*\n|[^\n]+$", file.read_bytes())
    name, place, found = None, None, []
    for number, line in enumerate(lines, 1):
        mark = MARK.fullmatch(line)
        if mark and mark[1] == b"===":
            name, place = mark[2].decode(), None
        elif mark:
            if name is None:
                raise ValueError(f"{file.name}:{number}: a section in front of the first case")
            place = [name, ending(mark[2].decode()), b"", bool(mark[3]), bool(mark[4])]
            found.append(place)
        elif place:
            place[2] += line
        elif name:
            raise ValueError(f"{file.name}:{number}: a line in front of the first section of {name}")
    return [(name, end, whole(*rest)) for name, end, *rest in found]


def whole(content, is_escaped, has_no_end):
    """What the lines of a section mean."""
    if has_no_end:
        content = content.removesuffix(b"\n")
    return unescaped(content) if is_escaped else content


def unpacked(folder):
    """The folder in which each case of `folder` is a group of files, SUBJECT/NAME.ENDING; it's made if it isn't there."""
    files = sorted((TESTS / folder).glob("*.cases"))
    digest = hashlib.sha256(b"".join(it.name.encode() + it.read_bytes() for it in [pathlib.Path(__file__), *files]))
    made = BUILD / f"{folder}-{digest.hexdigest()[:16]}"
    if made.is_dir():
        return made
    BUILD.mkdir(parents=True, exist_ok=True)
    scratch = pathlib.Path(tempfile.mkdtemp(dir=BUILD))
    for file in files:
        (scratch / file.stem).mkdir()
        for name, end, content in sections(file):
            target = scratch / file.stem / (name + end)
            if target.exists():
                raise ValueError(f"{file.name}: two sections are {target.name}")
            target.write_bytes(content)
    scratch.chmod(0o755)
    try:
        scratch.rename(made)
    except OSError:
        # Another process made it meanwhile.
        shutil.rmtree(scratch)
    return made


if __name__ == "__main__":
    print(unpacked(sys.argv[1] if len(sys.argv) > 1 else "decks"))
