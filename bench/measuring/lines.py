"""The lines of each crate: of code, of definitions and of proofs, with their comments, as `wc -l` counts them."""
from pathlib import Path

CRATES = Path(__file__).resolve().parent.parent.parent / "crates"
FILES = {"code": "src/**/*.rt", "definitions": "specs/**/*.antt", "proofs": "proofs/**/*.antt"}


def lines(args, add):
    """The lines of each crate; they are those of the commit, so the first turn suffices."""
    if args.turn:
        return
    for crate in sorted(CRATES.iterdir()):
        sums = {what: sum(file.read_bytes().count(b"\n") for file in crate.glob(pattern)) for what, pattern in FILES.items()}
        add("lines", crate.name, sums)
