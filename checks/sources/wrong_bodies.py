#!/usr/bin/env python3
"""The wrong bodies that the gate leaves out: each is refused by the contracts of its crate.

    checks/sources/wrong_bodies.py [CRATE..]
    checks/sources/wrong_bodies.py --texts

Puts the edits of crates/*/more-must-fail.edits, or of the crates that are named, into a copy of the repository, in the
place of those that the gate tries, and lets `rt ci` try them there: a proof of each crate, kept ones of those below,
and some 10 to 60 seconds for each edit. What `rt` says is passed on, but that an edit is refused. With --texts it tries
none: it names those whose old text is gone or stands twice, as `rt fmt` does of those in must-fail, and those of a name
that stands there. In such a file a line `# name` stands before the lines of each edit.
"""
import pathlib
import re
import shutil
import subprocess
import sys
from typing import Iterator

sys.path.insert(1, str(pathlib.Path(__file__).resolve().parents[1] / "shared"))
from places import TOP
from script import fresh_folder, not_none, options, verdict

EDITS = "more-must-fail.edits"
NAMED = re.compile(r"(?m)^# (\w+)\n((?:\w+: ?.*\n)+)")
REFUSED = re.compile(r"(?:rt: )?must-fail [\w-]+/[\w.-]+\.edit: refused, as it must be\b")


def edits_of(crate: str) -> dict[str, str]:
    """The edits of a crate by their names."""
    return dict(NAMED.findall((TOP / "crates" / crate / EDITS).read_text(encoding="utf-8")))


def text_faults(crate: str, name: str, edit: str) -> Iterator[str]:
    """Why the edit could not be tried: it is a file, and pairs of an old text and a new one."""
    name, folder = f"{crate}/{name}.edit", TOP / "crates" / crate
    if (folder / "must-fail" / name.split("/")[1]).exists():
        yield f"{name}: must-fail has one of its name"
    path, *texts = re.findall(r"(?m)^(?:file|old|new): ?(.*)$", edit) or [""]
    whole = (folder / path).read_text(encoding="utf-8") if (folder / path).is_file() else ""
    if not texts or len(texts) % 2:
        yield f"{name}: it has no change"
    for old, new in zip(texts[::2], texts[1::2]):
        if not old or whole.count(old) != 1 or old == new:
            yield f"{name}: in {path} {whole.count(old)} times, to become {new}: {old}"
        whole = whole.replace(old, new)


def refused(crates: list[str]) -> int:
    """How many edits `rt` says are refused, in a copy of the repository with those of these crates where `rt` looks
    for them; what else it says is passed on."""
    count = 0
    with fresh_folder() as copy:
        leaving = shutil.ignore_patterns("out", "packages", "__pycache__", ".git")
        shutil.copytree(TOP, copy, ignore=leaving, dirs_exist_ok=True)
        for folder in copy.glob("crates/*/must-fail"):
            shutil.rmtree(folder)
        for crate in crates:
            (folder := copy / "crates" / crate / "must-fail").mkdir()
            for name, edit in edits_of(crate).items():
                (folder / f"{name}.edit").write_text(edit, encoding="utf-8")
        with subprocess.Popen(["rt", "ci", *crates], cwd=copy, stdout=subprocess.PIPE, stderr=subprocess.STDOUT,
                              text=True, errors="replace", stdin=subprocess.DEVNULL) as child:
            for line in not_none(child.stdout):
                is_refused = bool(REFUSED.match(line))
                count += is_refused
                print(line * (line.startswith("rt:") and not is_refused), end="", flush=True)
    return count


def main() -> None:
    edits = {path.parent.name: edits_of(path.parent.name) for path in sorted(TOP.glob(f"crates/*/{EDITS}"))}
    asked = options(__doc__, tuple(edits), texts=False)
    number = sum(len(edits[crate]) for crate in asked.parts)
    what = f"{number} wrong bodies of {len(asked.parts)} crates"
    if asked.texts:
        faults = [fault for crate in asked.parts for name, edit in edits[crate].items()
                  for fault in text_faults(crate, name, edit)]
        verdict(f"{what} looked at: {len(faults)} faults", faults)
    count = refused(asked.parts)
    verdict(f"{what} tried: {count} refused", number - count)


main()
