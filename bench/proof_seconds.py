#!/usr/bin/env python3
"""Where the proof of a crate spends its time, by the functions and the files of lemmas.

    bench/proof_seconds.py CRATE

Reads what `rt lib --jobs 1`, or `./keyreg`, has left in `crates/CRATE/out` after a proof from nothing: the checker
keeps each module as soon as it has checked it, one after the other, so the time between two of these files is what
the later one took. It proves nothing itself. With more jobs, or after an edit, the times say nothing.

A function has a module for its code, for what is borrowed in it (`Lts`), for the answers by hand, and for the rest of
its proof, where the checker searches; `Tie` is what its type parameters are bound to. Lemmas stand under their file.
"""
import collections
import pathlib
import sys

PARTS = ("Lts", "Proof", "Answers", "Tie")
OF_FUNCTION = {*PARTS, "Code", "Given", "Goals", "Instances", "Invariants", "Kinds", "Layout", "Met", "Mir", "Reads",
               "Statement", "TheLink"}


def owner_of(module: str, crate: str) -> tuple[str, str]:
    """The function or the file that a module is of, and its part in it."""
    names = module.removeprefix(f"Rattle-{crate}-proofs.").split(".")
    # What a function keeps has modules of its own, as Kinds-6-0-0-2.
    while len(names) > 1 and names[-1].split("-")[0] in OF_FUNCTION:
        part = names.pop()
        if part in PARTS:
            return ".".join(names), part
    return ".".join(names), "other"


def line(parts: collections.Counter[str], of: str) -> str:
    return f"{parts.total():7.1f}  {''.join(f'{parts[part]:9.1f}' for part in PARTS)}  {of}"


def main() -> None:
    if len(sys.argv) != 2:
        sys.exit(__doc__)
    kept = pathlib.Path(__file__).resolve().parents[1] / "crates" / sys.argv[1] / "out" / "incremental"
    files = sorted((path.stat().st_mtime, path.stem) for path in kept.rglob("*.oantt") if path.parent.name != "records")
    if not files:
        sys.exit(f"{kept} has no proof")
    seconds, total = collections.defaultdict(collections.Counter), collections.Counter[str]()
    for (before, _), (after, module) in zip(files, files[1:]):
        owner, part = owner_of(module, sys.argv[1])
        seconds[owner][part] += after - before
        total[part] += after - before
    print("Seconds  " + "".join(f"{part:>9}" for part in PARTS) + "  Of")
    for owner, parts in sorted(seconds.items(), key=lambda row: -row[1].total())[:30]:
        print(line(parts, owner))
    print(line(total, f"together, {len(files) - 1} modules"))


main()
