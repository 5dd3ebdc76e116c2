#!/usr/bin/env python3
"""The desk's code: its tests pass under node's own runner, each name that a module exports is used by another one, and
each name that is imported is used. The first page asks at once for the modules that it needs.

    checks/desk/own_tests.py

Tests use names too, and checks/desk/rules.py, which compares desk/rules.js with the document.
It needs node 18 or later (Debian's `nodejs`).
"""
import pathlib
import re
import subprocess
import sys
from typing import Iterator

sys.path.insert(1, str(pathlib.Path(__file__).resolve().parents[1] / "shared"))
from places import DESK, TOP, read
from script import verdict

PATIENCE = 50
# Comments and texts, in which a name is no use of it.
PLAIN = re.compile(r"^\s*//.*$|\"[^\"\n]*\"", re.M)
EXPORT = re.compile(r"^export (?:async )?(?:const|let|class|function\*?) (\w+)", re.M)
IMPORT = re.compile(r"^import \{([^}]*)\} from \"\.\.?/(\w+\.js)\";", re.M)
# What comes when it is wanted.
LATER = re.compile(r"\{([^{}]*)\} = await part\(\"\./(\w+\.js)\"\)")


def imported(path: pathlib.Path) -> set[tuple[str, str]]:
    """The names that a module imports, each behind the file that has it."""
    text = path.read_text("utf-8")
    return {(file, name) for names, file in IMPORT.findall(text) + LATER.findall(text)
            for name in re.findall(r"\w+", names)}


def name_faults(modules: list[pathlib.Path]) -> Iterator[str]:
    """Names that are exported or imported and not used, and names that are not there."""
    exported = {(path.name, name) for path in modules for name in EXPORT.findall(path.read_text("utf-8"))}
    rules = read("checks/desk/rules.py")
    used = {(file, name) for file, name in exported if file == "rules.js" and re.search(rf"\b{name}\b", rules)}
    for path in modules:
        body = PLAIN.sub("", LATER.sub("part", IMPORT.sub("", path.read_text("utf-8"))))
        yield from (f"{path.name}: {file} exports no {name}" for file, name in imported(path) - exported)
        yield from (f"{path.name}: {name} is imported and not used" for _, name in imported(path)
                    if not re.search(rf"\b{name}\b", body))
    used = used.union(*map(imported, [*modules, *DESK.glob("tests/*.js")]))
    yield from (f"{file}: {name} is exported, and no module uses it" for file, name in exported - used)


def preload_faults() -> Iterator[str]:
    """Modules that the first page needs and does not ask for at once, and those that it asks for without need."""
    needed, waiting = set[str](), ["desk.js"]
    while waiting:
        names = {file for _, file in IMPORT.findall((DESK / waiting.pop()).read_text("utf-8"))}
        waiting += names - needed
        needed |= names
    asked = set(re.findall(r'(?:rel="modulepreload" href|src)="((?!desk)\w+\.js)"', read("desk/index.html")))
    yield from (f"index.html: {file} is asked for too late" for file in needed - asked)
    yield from (f"index.html: {file} is asked for, and the first page does not need it" for file in asked - needed)


def main() -> None:
    modules = sorted(DESK.glob("*.js"))
    faults = [*sorted(name_faults(modules)), *sorted(preload_faults())]
    done = subprocess.run(["timeout", str(PATIENCE), "node", "--test", "--test-reporter=tap", "desk/"], cwd=TOP,
                          capture_output=True, text=True, check=False)
    passed = re.search(r"^# pass ([1-9]\d*)", done.stdout, re.M)
    faults += re.findall(r"(?ms)^ *not ok .*?^ *\.\.\.$", done.stdout)
    if done.returncode or not passed:
        faults.append(f"node: status {done.returncode}, 124 after {PATIENCE} s: {done.stderr[-2000:]}")
    verdict(f"the desk: {len(modules)} modules, {passed and passed[1]} tests passed, {len(faults)} faults", faults)


main()
