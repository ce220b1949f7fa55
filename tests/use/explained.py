"""What `snobol explain` says of each code, and that the deck beside it has what it shows."""

import pathlib
import re
import tempfile

from .command import run

PLACE = "docs/snobol.md"
CODES = [f"{letter}{number}" for letter, most in zip("CLPEUFW", (7, 5, 6, 16, 4, 7, 5)) for number in range(1, most + 1)]
TOPICS = (
    "memory read write steps stlimit undefined-label undefined-function case columns behind-end unused ported source"
).split()
MEANING = re.compile(r"(\S+): \S.*\n\n(?:\S.*[.]\n)+(?:\nA deck that (is refused|ends) so:\n\n((?:.*\n)*))?")


def has(snobol, folder, code, deck, is_run):
    """Whether a deck is refused, or ends, by a code."""
    (folder / "deck.sno").write_text(deck)
    _, told, _ = run([snobol, "--strict", "deck.sno"] if is_run else [snobol, "check", "deck.sno"], b"", folder)
    return f" error {code}" in told.decode().partition("\n")[0]


def checks(snobol):
    """Each code has its meaning, and each that a deck shows is shown."""
    with tempfile.TemporaryDirectory(prefix="snobol-explained-") as name:
        for code in CODES + TOPICS:
            out, _, status = run([snobol, "explain", code])
            said = MEANING.fullmatch(out.decode())
            yield PLACE, f"what {code} means: {out}", status == 0 and said and said[1] == code
            if said and said[3]:
                deck = said[3].rstrip("\n") + "\n"
                shown = has(snobol, pathlib.Path(name), code, deck, said[2] == "ends")
                yield PLACE, f"the deck of {code}: {deck}", shown
