#!/usr/bin/env python3
"""What reads sources finds no fault in ours: mypy no wrong hint in office/ and in checks/, where each function has
hints, and in office/ whole ones; shellcheck nothing in what a shell runs.

    checks/sources/linted.py

It needs Debian's mypy and shellcheck. mypy.ini says where the scripts find what they share.
"""
import pathlib
import subprocess
import sys
from typing import Any, Iterator, Sequence

sys.path.insert(1, str(pathlib.Path(__file__).resolve().parents[1] / "shared"))
from places import TOP, listed
from script import fresh_folder, options, verdict

SHELLS = ("keyreg", "package", ".ci/run", "samples/*.sh", "checks/**/*.sh")


def said(*words: Any) -> list[str]:
    """What a tool says that is to say nothing; that it failed, where it says nothing of it."""
    done = subprocess.run([*map(str, words)], cwd=TOP, stdin=subprocess.DEVNULL, stdout=subprocess.PIPE,
                          stderr=subprocess.STDOUT, text=True, check=False)
    return done.stdout.splitlines() or [f"{words[0]}: status {done.returncode}"] * bool(done.returncode)


def hint_faults(folders: Sequence[str]) -> Iterator[str]:
    """What mypy says. Two folders of checks/ may have a module of one name, so each is read alone."""
    with fresh_folder() as cache:
        for words in (["--strict", "office"], ["checks/gate.py"], *([folder] for folder in folders)):
            yield from (line for line in said("mypy", "--cache-dir", cache, "--no-error-summary", *words)
                        if ": note: " not in line)


def main() -> None:
    options(__doc__)
    scripts = [path for pattern in SHELLS for path in listed(pattern)]
    folders = sorted({str(pathlib.Path(path).parent) for path in listed("checks/*/*.py")})
    # What several folders share is told once.
    faults = list(dict.fromkeys([*hint_faults(folders), *said("shellcheck", "--format", "gcc", *scripts)]))
    verdict(f"office/, {len(folders)} folders of checks/ and {len(scripts)} scripts of shells: {len(faults)} faults",
            faults)


main()
