"""bench/compare on a hundredth of each input, its rewrites too, and drawn loops: all outputs are the same."""

from .command import ROOT, is_there, run

PLACE = "bench/README.md"


def checks(sno):
    """A short comparison."""
    out, told, status = run([ROOT / "bench" / "compare", sno, "--runs", "1", "--scale", "0.01"])
    yield PLACE, f"the same outputs: {(out + told).decode()}", status == 0
    names = {file.stem for file in (ROOT / "bench" / "workloads").glob("*.sno")}
    page = (ROOT / PLACE).read_text(encoding="utf-8")
    for name in sorted(names):
        yield PLACE, f"the workload {name}", f"| `{name}` |" in page and f"| {name} |" in out.decode()
    yield from rewrites()
    if is_there("lua5.4", "rewrites and drawn loops in Lua"):
        out, told, status = run([ROOT / "bench" / "compare", sno, "--variants", "--runs", "1", "--scale", "0.01"])
        yield PLACE, f"the same outputs of rewrites: {(out + told).decode()}", status == 0
        out, told, status = run([ROOT / "bench" / "random", "1", "--check", "--loops", "40", "--program", sno])
        yield PLACE, f"the same outputs of drawn loops: {(out + told).decode()}", status == 0


def rewrites():
    """Each rewrite of a workload stands beside the same in Lua, and six workloads have at least six."""
    folders = [folder for folder in (ROOT / "bench" / "variants").iterdir() if folder.is_dir()]
    yield PLACE, "rewrites of six workloads", len(folders) >= 6
    for folder in folders:
        decks = {file.stem for file in folder.glob("*.sno")}
        yield PLACE, f"six rewrites of {folder.name}", len(decks) >= 6
        in_lua = {file.stem for file in folder.glob("*.lua")}
        yield PLACE, f"the rewrites of {folder.name} in Lua", in_lua == {"plain", *decks}
