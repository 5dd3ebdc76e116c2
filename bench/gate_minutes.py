#!/usr/bin/env python3
"""What the gate costs, in minutes of processor time by crate.

    bench/gate_minutes.py [--edits] [WORDS..]
    bench/gate_minutes.py --edits --anew --write

Runs `rt ci` with these words, and prints a row for each crate after that; with --edits a line in seconds for each wrong
body as well. A crate's proof, the proof of its tests, and its wrong bodies are kept apart. To these count the proof
that they begin with, and the one more after them, with which `rt` sees that nothing has changed. A row has what was
done in this run: with --anew among the words, or on a machine that has nothing kept, that is all. Where `rt` is ended
early, it prints what was done. It needs Linux, for /proc.

With --write, which wants --anew, docs/GATE.md gets the table: the commit and the machine that it is of, the rows in the
order of crates.txt, and the sums. It is written where `rt ci` passed and each crate was proved, over a commit.
"""
import collections
import contextlib
import os
import pathlib
import re
import subprocess
import sys
import textwrap
import time
from typing import Iterator, NamedTuple, Optional

TOP = pathlib.Path(__file__).resolve().parents[1]
PAGE = TOP / "docs" / "GATE.md"
# Between these the page has what is written here.
BEGIN, END = "<!-- Written by bench/gate_minutes.py. -->\n", "<!-- Up to here. -->\n"
TICKS = os.sysconf("SC_CLK_TCK")
KINDS = ("proof", "tests", "edits")


class Label(NamedTuple):
    """The crate and the kind of a check, and the name of a wrong body."""
    crate: str
    kind: str
    edit: str = ""


# The parent of a process, the processor seconds of it and of those that it has waited for, and when it began: a number
# of a process comes back.
Stat = tuple[int, float, int]


def stat_of(pid: int) -> Stat:
    fields = pathlib.Path(f"/proc/{pid}/stat").read_text(encoding="utf-8", errors="replace").rpartition(")")[2].split()
    return int(fields[1]), sum(map(int, fields[11:15])) / TICKS, int(fields[19])


def is_made(edit: pathlib.Path, room: pathlib.Path) -> bool:
    """Whether a wrong body stands in a copy of its crate: its file, with each old text replaced by the new one."""
    path, *texts = re.findall(r"(?m)^(?:file|old|new): ?(.*)$", edit.read_text(encoding="utf-8"))
    whole = (edit.parents[1] / path).read_text(encoding="utf-8")
    for old, new in zip(texts[::2], texts[1::2]):
        whole = whole.replace(old, new)
    return (room / path).read_text(encoding="utf-8") == whole


def label_of(pid: int) -> Optional[Label]:
    """What a process checks, where it is the checker."""
    words = pathlib.Path(f"/proc/{pid}/cmdline").read_bytes().decode(errors="replace").split("\0")
    if not words[0].endswith("/rattle") or "--crate-name" not in words:
        return None
    name, room = words[words.index("--crate-name") + 1], pathlib.Path(os.readlink(f"/proc/{pid}/cwd"))
    if not room.name.startswith("rt-edit-"):
        return Label(name, "tests" if any(word.startswith("--test") for word in words) else "proof")
    edits = (TOP / "crates" / name / "must-fail").glob("*.edit")
    return Label(name, "edits", next((edit.stem for edit in edits if is_made(edit, room)), ""))


class Watch:
    """Looks at the processes below one, again and again, and keeps what each of its checks has used."""

    def __init__(self, pid: int) -> None:
        self.pid, self.labels = pid, dict[tuple[int, int], Optional[Label]]()
        self.used = collections.defaultdict[tuple[int, int], float](float)

    def checks(self, pid: int, stats: dict[int, Stat]) -> Optional[tuple[int, int]]:
        """The labelled process that this one is or stands below, the nearest to the one that is watched."""
        nearest = None
        while pid > 1 and pid in stats:
            parent, _, began = stats[pid]
            nearest = (pid, began) if self.labels.get((pid, began)) else nearest
            if pid == self.pid:
                return nearest
            pid = parent
        return None

    def look(self) -> None:
        stats, now = dict[int, Stat](), collections.Counter[tuple[int, int]]()
        for pid in map(int, filter(str.isdigit, os.listdir("/proc"))):
            with contextlib.suppress(OSError, ValueError, IndexError):
                stats[pid] = stat_of(pid)
        for pid, (_, seconds, began) in stats.items():
            if (pid, began) not in self.labels:
                with contextlib.suppress(OSError):
                    label = label_of(pid)
                    # A young process may become the checker yet.
                    if label or seconds > 1:
                        self.labels[pid, began] = label
        for pid, (_, seconds, _) in stats.items():
            if above := self.checks(pid, stats):
                now[above] += seconds
        for process, seconds in now.items():
            self.used[process] = max(self.used[process], seconds)

    def costs(self) -> dict[str, "Cost"]:
        """What each crate's checks have used."""
        costs = collections.defaultdict[str, Cost](Cost)
        for process, seconds in self.used.items():
            crate, kind, edit = self.labels[process]
            costs[crate].minutes[kind] += seconds / 60
            costs[crate].edits += [(seconds, edit)] * (kind == "edits")
        return costs


class Cost:
    """The minutes of a crate by the kind of a check, and the seconds of each wrong body with its name; of the proof
    before them and the one after them the name is empty."""

    def __init__(self) -> None:
        self.minutes, self.edits = collections.Counter[str](), list[tuple[float, str]]()

    def number(self) -> int:
        return len({name for _, name in self.edits if name})

    def edit_lines(self) -> Iterator[str]:
        for seconds, name in sorted(self.edits, reverse=True):
            yield f"    {seconds:6.1f} {name or '(begin or end)'}"


def row(name: str, minutes: dict[str, float], number: int, form: str) -> str:
    cells = [format(minutes[kind], form) if minutes[kind] else "" for kind in KINDS]
    return f"| {name} | {' | '.join(cells)} | {number or ''} |".replace("|  ", "| ")


def table(costs: dict[str, Cost], order: list[str], has_edits: bool) -> Iterator[str]:
    """A row for each crate, behind it its wrong bodies, and the sums."""
    yield "| Crate | Proof | Tests | Edits | Number |\n|---|---|---|---|---|"
    for crate in order:
        yield row(f"`{crate}`", costs[crate].minutes, costs[crate].number(), ".1f")
        yield from costs[crate].edit_lines() if has_edits else ()
    sums = {kind: sum(cost.minutes[kind] for cost in costs.values()) for kind in KINDS}
    yield row("all", sums, sum(cost.number() for cost in costs.values()), ".0f")


# ---- the page


def git(*words: str) -> str:
    return subprocess.run(["git", *words], cwd=TOP, capture_output=True, text=True, check=True).stdout.strip()


def crates() -> list[str]:
    return re.findall(r"(?m)^(\w+)(?: staticlib)?:", (TOP / "crates.txt").read_text(encoding="utf-8"))


def machine() -> str:
    models = re.findall(r"(?m)^model name\s*: (.*)$", pathlib.Path("/proc/cpuinfo").read_text(encoding="utf-8"))
    return f"{len(os.sched_getaffinity(0))} cores ({models[0] if models else 'of no name'})"


def whole(costs: dict[str, Cost]) -> list[str]:
    """The crates of which a proof is missing."""
    return [crate for crate in crates() if crate not in costs or not costs[crate].minutes["proof"]]


def write(costs: dict[str, Cost], commit: str, clock: float) -> None:
    """Puts the table into the page, in the place of the one before."""
    first = sum(cost.minutes["proof"] for crate, cost in costs.items() if not crate.startswith("test_"))
    all_of = sum(minutes for cost in costs.values() for minutes in cost.minutes.values())
    lines = [*textwrap.wrap(f"In minutes of processor time from nothing, over commit {commit} on {machine()}. A crate's "
                            "edits hold the proof that they begin with, and one check more after them.", 120), "",
             *table(costs, crates(), False), "",
             f"Together {all_of:.0f} minutes; by the clock {clock / 60:.0f}. The crates of a first `./keyreg` are "
             f"{first:.0f} of them."]
    page = PAGE.read_text(encoding="utf-8")
    before, after = page.index(BEGIN) + len(BEGIN), page.index(END)
    PAGE.write_text(page[:before] + "\n".join(lines) + "\n" + page[after:], encoding="utf-8")


def main() -> None:
    words, writes = [word for word in sys.argv[1:] if word not in ("--edits", "--write")], "--write" in sys.argv
    if writes and ("--anew" not in words or git("status", "--porcelain", "--", "crates", "crates.txt")):
        sys.exit("--write wants --anew, and crates as a commit has them")
    commit = git("rev-parse", "--short=8", "HEAD") if writes else ""
    child, begun = subprocess.Popen(["rt", "ci", *words], cwd=TOP), time.monotonic()
    watch = Watch(child.pid)
    while child.poll() is None:
        watch.look()
        time.sleep(0.2)
    clock, used, costs = time.monotonic() - begun, os.times(), watch.costs()
    print(*table(costs, sorted(costs), "--edits" in sys.argv), sep="\n")
    print(f"together: {sum(watch.used.values()) / 60:.0f} processor minutes, "
          f"{(used.children_user + used.children_system) / 60:.0f} with all that `rt` did besides")
    print(f"by the clock: {clock / 60:.0f} minutes")
    if writes and (child.returncode or whole(costs)):
        sys.exit(f"not written: `rt ci` ended with {child.returncode}, and of {whole(costs)} no proof was seen")
    if writes:
        write(costs, commit, clock)
    sys.exit(child.returncode)


if __name__ == "__main__":
    main()
