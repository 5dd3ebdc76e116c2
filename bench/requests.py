#!/usr/bin/env python3
"""What a request costs in microseconds over a file, beside the same statements given to the kit's `sqlite` alone, and
to Python's `sqlite3` with the same rules; and what runs cost over no file, beside the same over a file in memory.

    bench/requests.py [--over file|memory] [--requests N] [--rounds N] [--instructions] [--keys N,..]

docs/COSTS.md has the kinds of requests. They are served by three programs over copies of one register of so many keys,
half of them Pre-Active and half Active, each with the request that made it. Keys are taken out of their order, so that
each stands on another page of the file. There are N requests that assign or advance with no key due, ten times as many
repeats, as many registrations but no more than a fourth of the keys, and a fourth as many other advances.

`keyreg` reads lines, decides and writes replies, each before the next line is read, and *python* does the same by
python_register.py. The *bare* program, bare_requests.rt.txt, gives the statements of an accepted request to the kit's
`sqlite`: it knows the values before, has nothing to decide and writes no reply. All three hold the file's lock, keep a
log beside the file, copy it into the file when it has 1000 pages, keep 2000 pages in memory, and sync at each commit:
the kit twice, since it trusts no checksum to refuse a torn write, and SQLite once (synchronous = FULL).

One run serves a kind after the other. Its clocks are read where the first requests of a kind are answered and where the
counted ones after them are, so no start and no opening is in a figure; the least of the rounds counts. Each reply is
compared with the expected one, and after a run the rows that the three programs left.

With --instructions valgrind's callgrind (Debian's package valgrind) counts what each program executes in place of time.
"""
import filecmp
import os
import pathlib
import re
import sqlite3
import subprocess
import sys
import tempfile
import time
from typing import Iterator, NamedTuple, Sequence

from measuring import STEP, built, clock_of, least, measured, table
import python_register
from places import PROGRAM
from registers import STATES, UNSET, copy_files, new_register, table_rows, write_register
from register_rules import ACTIVE, PRE_ACTIVE
from script import expect, fresh_folder, options

# The latest moment of the register at first; the one after which its keys fall due, one each second; the Activation
# Date of the keys that are registered later; the Protect Stop and the Deactivation Date of all keys.
START, DUE, LATER, STOP, END = 1_000_000, 2_000_000, 10_000_000, 50_000_000, 100_000_000
DATA_ENCRYPTION = 1
# The numbers of the assignments of one key lie after this one.
BEHIND = 1_000_000_000
# So many requests of a kind come before those that are counted.
FIRST = 50
# What the kinds are called that have other names in the table.
NAMES = {"one": "assign, one key", "active": "register, Active", "clock": "advance, none due",
         "advance": "advance, one due"}
# Seconds after which a program is taken to hang.
PATIENCE = 600


class Span(NamedTuple):
    """Requests of one kind, with the places from `first` up to `end`."""
    kind: str
    is_rising: bool
    # The moment of all of them, or, where they are rising, a second and its place before that of each.
    base: int
    # How many keys the register has at first, and how many where the requests make none.
    prepared: int
    keys: int
    first: int
    end: int


class Kept(NamedTuple):
    """The row of a request."""
    caller: str
    number: int
    command: str
    key: int
    state: int
    moment: int

    @property
    def line(self) -> str:
        return f"{self.moment} {self.caller} {self.number} {self.command}\n"

    @property
    def reply(self) -> str:
        return f"ok {self.key} {STATES[self.state]} {self.moment}\n"


# ---- the requests


def activation_at(place: int, keys: int) -> int:
    """The Activation Date of the key at this place of a register of so many keys, 0 in every second."""
    return 0 if place % 2 else DUE + 1 + place // 2 * STEP % (keys - keys // 2)


def registered(number: int, activation: int, moment: int) -> Kept:
    command = f"register data-encryption office {activation} {STOP} {END} backup volume {number}"
    return Kept("ann", number, command, number, PRE_ACTIVE if activation else ACTIVE, moment)


def assigned(key: int, turn: int, number: int, moment: int) -> Kept:
    owner, other = ("branch", "office") if turn % 2 else ("office", "branch")
    return Kept(owner, number, f"assign {key} {other}", key, PRE_ACTIVE if key % 2 else ACTIVE, moment)


def request(span: Span, place: int) -> Kept:
    moment, prepared = span.base + (place + 1) * span.is_rising, span.prepared
    if span.kind == "prepare":
        return registered(place + 1, activation_at(place, prepared), moment)
    if span.kind == "repeat":
        key = place * STEP % prepared
        return registered(key + 1, activation_at(key, prepared), START)
    if span.kind in ("register", "active"):
        return registered(prepared + place + 1, LATER if span.kind == "register" else 0, moment)
    if span.kind == "assign":
        others = prepared - 1
        return assigned(place * STEP % others + 1, place // others, place + 1, moment)
    if span.kind == "one":
        return assigned(prepared, place, BEHIND + place + 1, moment)
    return Kept(span.kind, place + 1, "advance", 0, 0, moment)


def requests(span: Span) -> Iterator[Kept]:
    return (request(span, place) for place in range(span.first, span.end))


def prepared(keys: int) -> Span:
    """The registrations of so many keys."""
    return Span("prepare", False, START, keys, keys, 0, keys)


def spans(keys: int, count: int) -> Iterator[tuple[Span, Span]]:
    """For each kind of request over a register of so many keys the span that is not counted, and the one that is."""
    few = min(count, keys // 4)
    latest, served, made = START, dict[str, int](), 0
    for kind, is_rising, counted in (
        ("repeat", False, 10 * count), ("assign", False, count), ("assign", True, count), ("one", False, count),
        ("one", True, count), ("register", False, few), ("register", True, few), ("active", False, few),
        ("active", True, few), ("clock", True, count), ("advance", True, min(count // 4, keys // 2 - FIRST)),
    ):
        latest = DUE if kind == "advance" else latest
        # Keys that are Active at once have the numbers after the others.
        places = "register" if kind == "active" else kind
        first = served.get(places, 0)
        end = served[places] = first + FIRST + counted
        whole = Span(kind, is_rising, latest - first * is_rising, keys, keys + made, first, end)
        yield whole._replace(end=first + FIRST), whole._replace(first=first + FIRST)
        latest = whole.base + end if is_rising else latest
        made = served.get("register", 0)
        expect(kind == "advance" or latest < DUE, "so many requests make keys due")


def write(file: pathlib.Path, keys: int) -> None:
    """Writes the register that the requests find."""
    made = list(requests(prepared(keys)))
    write_register(file, START, keys, request=made, keys=(
        (kept.key, DATA_ENCRYPTION, "office", f"backup volume {kept.key}", kept.state, START,
         activation_at(place, keys), STOP, END, UNSET, UNSET, UNSET) for place, kept in enumerate(made)))


def bare_program() -> str:
    """The bare program, with the statements and the numbers above as its items."""
    names = ("STEP", "BEHIND", "DUE", "LATER", "STOP", "END", "UNSET", "DATA_ENCRYPTION", "PRE_ACTIVE", "ACTIVE")
    return built("bare_requests", "".join((
        *(f"const {name}: {'u64' if name == 'STEP' else 'i64'} = {globals()[name]};\n" for name in names),
        *(f'const {name}: &str = "{text}";\n' for name, text in python_register.STATEMENTS.items()))))


# ---- the runs


class Run:
    """A run of a program, which is given its input part by part."""
    UNIT = "Microseconds of processor time"

    def __init__(self, words: Sequence[str]) -> None:
        self.written, self.size = tempfile.TemporaryFile(), 0
        self.child = subprocess.Popen(words, stdin=subprocess.PIPE, stdout=self.written)

    def give(self, given: bytes, wanted: bytes) -> float:
        """Gives a part of the input and waits for what is to be written. Gives the microseconds of it."""
        clock, begun = clock_of(self.child.pid), time.monotonic()
        used = time.clock_gettime(clock)
        self.child.stdin.write(given)
        self.child.stdin.flush()
        while (size := os.fstat(self.written.fileno()).st_size - self.size) < len(wanted):
            expect(self.child.poll() is None, f"{self.child.args[:2]}: status {self.child.returncode}")
            expect(time.monotonic() < begun + PATIENCE, f"{self.child.args[:2]}: {size} bytes, not {len(wanted)}")
            time.sleep(0.0002)
        used = time.clock_gettime(clock) - used
        written = os.pread(self.written.fileno(), size, self.size)
        expect(written == wanted, f"{self.child.args[:2]}: wrote {written[-80:]}, and not {wanted[-80:]}")
        self.size += size
        return 1e6 * used

    def end(self) -> None:
        self.child.stdin.close()
        expect(self.child.wait() == 0, f"{self.child.args[:2]}: status {self.child.returncode}")
        self.written.close()


class CountedRun(Run):
    """The same by valgrind, which counts its instructions."""
    UNIT = "Thousands of instructions"

    def __init__(self, words: Sequence[str]) -> None:
        self.folder = tempfile.TemporaryDirectory()
        super().__init__(["valgrind", "-q", "--tool=callgrind", f"--callgrind-out-file={self.folder.name}/counts",
                          *words])

    def give(self, given: bytes, wanted: bytes) -> float:
        """Gives the thousands of instructions since the last part, which stand in a file that comes then."""
        super().give(given, wanted)
        before, late = {*os.listdir(self.folder.name)}, time.monotonic() + PATIENCE
        subprocess.run(["callgrind_control", "--dump", str(self.child.pid)], check=True, capture_output=True)
        while time.monotonic() < late:
            for name in {*os.listdir(self.folder.name)} - before:
                if total := re.search(r"(?m)^totals: (\d+)$", pathlib.Path(self.folder.name, name).read_text("utf-8")):
                    return int(total[1]) / 1000
            time.sleep(0.01)
        sys.exit("FAILED: callgrind wrote no count")


def serve_by(program: str, run: Run, span: Span) -> float:
    """Has the span served by a run of the program. Gives what the run measures of a request."""
    if program == "bare":
        line = " ".join((span.kind, "rising" if span.is_rising else "level", *map(str, span[2:])))
        given, wanted = f"{line}\n", "done\n"
    else:
        given, wanted = ("".join(texts) for texts in zip(*((kept.line, kept.reply) for kept in requests(span))))
    return run.give(given.encode(), wanted.encode()) / (span.end - span.first)


def file_rows(runs: type[Run], keys: int, count: int, rounds: int) -> Iterator[list[str]]:
    """For each kind of request the figures of the three programs over a file, and the ratios of ours to the others'.
    The three files are to hold the same rows after each round."""
    programs = {"keyreg": [PROGRAM, "run", "--file"], "bare": [bare_program()],
                "python": [sys.executable, python_register.__file__]}
    figures: dict[str, list[list[float]]] = {program: [] for program in programs}
    with fresh_folder() as folder:
        write(folder / "prepared.keyreg", keys)
        for _ in range(rounds):
            files = {program: copy_files(folder / "prepared.keyreg", folder / program) for program in programs}
            for program, file in files.items():
                run = runs([*programs[program], file])
                pairs = [[serve_by(program, run, span) for span in both] for both in spans(keys, count)]
                run.end()
                figures[program].append([counted for _, counted in pairs])
            wanted, *others = map(table_rows, files.values())
            expect(all(other == wanted for other in others), "the files hold other rows")
    for (_, span), *of in zip(spans(keys, count), *map(least, figures.values())):
        kind = NAMES.get(span.kind, span.kind)
        kind += "" if span.kind == "repeat" else ", rising" if span.is_rising else ", level"
        yield [str(keys), kind, str(span.end - span.first), *(f"{figure:.1f}" for figure in of),
               *(f"{of[0] / other:.2f}" for other in of[1:])]


def memory_row(count: int, rounds: int) -> list[str]:
    """What a run of so many registrations uses over no file, and over a file in memory: for each the least processor
    seconds and the most memory of the rounds. No line is held here: a program's memory begins as ours."""
    uses: dict[str, list] = {"memory": [], "file": []}
    with tempfile.TemporaryDirectory(dir="/dev/shm") as folder:
        given, wanted, written, file = (os.path.join(folder, name) for name in ("given", "wanted", "written", "keys"))
        with open(given, "w", encoding="utf-8") as lines, open(wanted, "w", encoding="utf-8") as replies:
            for kept in requests(prepared(count)):
                lines.write(kept.line)
                replies.write(kept.reply)
        for over, words in [("memory", []), ("file", ["run", "--file", file])] * rounds:
            if over == "file":
                copy_files(None, file)
                new_register(file)
            uses[over].append(measured([PROGRAM, *words], given, written))
            expect(filecmp.cmp(written, wanted, shallow=False), f"{count} registrations over {over}: other replies")
    (mine, memory), (its, other) = ((min(used.processor for used in of), max(used.memory for used in of))
                                    for of in uses.values())
    return [f"{count}", f"{mine:.1f}", f"{memory:.0f}", f"{its:.1f}", f"{other:.0f}", f"{mine / its:.2f}"]


def main() -> None:
    given = options(__doc__, over="", requests=1000, rounds=3, instructions=False, keys="")
    sizes = [int(size) for size in given.keys.split(",") if size]
    if given.over != "memory":
        runs, files = CountedRun if given.instructions else Run, sizes or [1_000, 10_000, 100_000]
        fit = all(keys >= 200 and keys % STEP and (keys - 1) % STEP and (keys - keys // 2) % STEP for keys in files)
        expect(fit and given.requests >= 4, f"sizes {files}, {given.requests} requests")
        print(f"SQLite {sqlite3.sqlite_version} in Python. {runs.UNIT} a request; the least of {given.rounds}.\n")
        table(["keys", "request", "counted", "keyreg", "bare", "python", "keyreg / bare", "keyreg / python"],
              (row for keys in files for row in file_rows(runs, keys, given.requests, given.rounds)))
    if given.over != "file":
        table(("registrations", "no file: processor s", "memory, MB", "a file in /dev/shm: processor s", "memory, MB",
               "to it"), (memory_row(count, given.rounds) for count in sizes or [20_000, 100_000, 1_000_000]))


main()
