"""The scripts and decks of docs/batch.md, on a hundred files."""

import collections
import pathlib
import re
import tempfile

from .command import ROOT, is_there, run

PLACE = "docs/batch.md"
BATCH = ROOT / "examples" / "batch"
FILES = 100


def text_of(number):
    """The text of one of the files."""
    return "".join(f"File {number} has the words of {n}; the\n\n words\n" for n in range(number % 7 + 1))


def words_of(text):
    """The words of a text, in small letters."""
    return re.findall("[a-z]+", text.lower())


def script_checks(sno, script, module, files, wanted, **environment):
    """A script on all files; and on files of which one isn't there."""
    own = {"SNO": str(sno), "JOBS": "4", "PARALLEL_HOME": str(module.parent / "parallel")}
    how = {"folder": module.parent, **own, **environment}
    out, told, status = run([BATCH / script, module, *files], **how)
    yield PLACE, f"{script} on {len(files)} files, in order: {told.decode()}", (out.decode(), status) == (wanted, 0)
    out, told, status = run([BATCH / script, module, files[0], "missing", files[0]], **how)
    first = "".join(f"{word}\t1\n" for word in words_of(text_of(0)))
    seen = (out.decode(), b"missing: status " in told, status)
    yield PLACE, f"{script} with a file that isn't there: {told.decode()}", seen == (first * 2, True, 1)


def reduce_checks(sno, modules, texts):
    """The mapper and the reducer in a pipe."""
    mapped = run([sno, "run", modules[0]], "".join(texts).encode())[0]
    rows = b"".join(sorted(mapped.splitlines(keepends=True)))
    out = run([sno, "run", modules[1]], rows)[0].decode()
    counts = collections.Counter(word for text in texts for word in words_of(text))
    wanted = "".join(f"{word}\t{counts[word]}\n" for word in sorted(counts))
    yield PLACE, "the counts of a mapper and a reducer", out == wanted


def checks(sno):
    """Compiles the decks, and runs them in each of the ways that the page shows."""
    with tempfile.TemporaryDirectory(prefix="sno-batch-") as name:
        folder = pathlib.Path(name)
        modules = [folder / "words.module", folder / "sums.module"]
        for module in modules:
            ran = run([sno, "compile", BATCH / f"{module.stem}.sno", module])
            yield PLACE, f"{module.stem}.sno, compiled", ran == (b"", b"", 0)
        texts = [text_of(number) for number in range(FILES)]
        files = [folder / f"file {number:02}.txt" for number in range(FILES)]
        for file, text in zip(files, texts):
            file.write_text(text, encoding="ascii")
        wanted = "".join(f"{word}\t1\n" for text in texts for word in words_of(text))
        yield from script_checks(sno, "with_xargs", modules[0], files, wanted)
        if is_there("parallel", "examples/batch/with_parallel"):
            yield from script_checks(sno, "with_parallel", modules[0], files, wanted)
        yield from reduce_checks(sno, modules, texts)
