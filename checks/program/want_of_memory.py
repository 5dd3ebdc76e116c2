#!/usr/bin/env python3
"""Refuses the program's allocations, each to another process: it ends as docs/SPECIFICATION.md has it, what it wrote is
a prefix of what it is to write, and the file has all rows of what was answered, or after `Store` of one item more.

    checks/program/want_of_memory.py [--step N] [PART..]

`day` is a run of all commands (checks/shared/command_day.py), `memory` the same over no file, `opening` that of a
served file, `migration` that of a file of version 1. What is to be written, and the rows, come from the rules. First
nothing is refused, and the allocations are counted; then each is refused, or each N-th with --step N. Those of an
exchange are counted from the connection on, each in a run of its own; the others from the start of the program, or
behind an opening, and the run is forked at each (refusing.py). After each end the program opens the file, SQLite reads
it, and the program is given the same again, unless an equal end has left the same bytes before.

A text after a part says how often the program ended so. *as asked* are runs in which the program did without what was
refused. It needs Linux, gcc and glibc.
"""
import collections
import contextlib
import dataclasses
import multiprocessing
import os
import pathlib
import signal
import socket
import sys
import tempfile
import time
from typing import Any, Callable, Iterable, Iterator, Optional, Union

sys.path.insert(1, str(pathlib.Path(__file__).resolve().parents[1] / "shared"))
from places import PROGRAM
from answers import MEMORY, STORE, get_reply, served_since, register_of
from command_day import SHORT
from refusing import PATIENCE, End, Refusing, built
from registers import APPROVED_ANEW_ROWS, copy_files, expect_replies, keyreg, new_register, run_program, sound_rows
from registers import write_first_version
from register_rules import Refused, Register, request_of
from rules_shown import Rows, export_text, import_table, report_text, tables
from script import expect, fresh_folder, options, verdict
from serving import Served, get, post_command

PROCESSES = 2
# So many allocations are given to a process at once.
SHARE = 250
MOMENT = 100
# Three keys with an Activation Date.
PURPOSES = ["disks, payroll", 'the "blue" disks', "\u05de\u05e4\u05ea\u05d7"]
ROWS = [("master", "bob", 0, None, None, purpose) for purpose in PURPOSES]
REGISTER, LINES = register_of(*((MOMENT, "ann", number, ("register", *row)) for number, row in enumerate(ROWS, 1)))
REGISTERED = "".join(f"ok {number} Active {MOMENT}\n" for number in range(1, len(ROWS) + 1))
# The short day, and a line that is no request.
DAY_LINES, DAY_REPLIES = zip(*((asked.text, asked.reply) for asked in SHORT), ("x", "refused 1 BadLine"))
OF_MEMORY, OF_STORE = b"keyreg: Memory\n", b"keyreg: Store\n"
ENDS = [(status, error) for status in (2, 3) for error in (OF_MEMORY, OF_STORE)]


def end_of(words: list[str], given: bytes, environment: Optional[dict[str, str]] = None) -> End:
    done = run_program(words, given, env=environment, timeout=PATIENCE)
    return End(done.returncode, done.stdout, done.stderr)


def text(lines: Iterable[str]) -> bytes:
    return "".join(f"{line}\n" for line in lines).encode()


def steps_of(lines: Iterable[str]) -> list[Rows]:
    """The rows of an empty register, and after each of these lines, by the rules."""
    register, steps = Register(), [tables(Register())]
    for given in lines:
        with contextlib.suppress(Refused, ValueError):
            register.answer(request_of(given))
        steps.append(tables(register))
    return steps


# ---- what the program does over a file, or over none


@dataclasses.dataclass
class Part:
    """The program's words, what makes the file that it finds, what it is given and writes, the rows after each item
    that it answers, and how it ends."""
    words: list[str]
    make: Optional[Callable[[str], object]] = None
    given: bytes = b""
    output: bytes = b""
    steps: list[Rows] = dataclasses.field(default_factory=list)
    # Whether the allocations of the opening are left out, which are those of the part day.
    is_opened: bool = False
    status: int = 0
    error: bytes = b""

    def words_over(self, file: str) -> list[str]:
        return [self.words[0], "--file", file, *self.words[1:]] if self.words else []

    def prepare(self, name: str, folder: str, here: Refusing) -> tuple[int, int]:
        """Makes what the program finds, sees how it ends where nothing is refused, and counts the allocations. Gives
        the numbers of the first and the last that is refused."""
        self.name, self.made, file, first = name, os.path.join(folder, f"{name}.keyreg"), here.path(name), 1
        if self.make:
            self.make(self.made)
        if self.is_opened:
            end_of(["run", "--file", copy_files(self.made, file)], b"", here.environment(0))
            first = here.count()
        self.usual = End(self.status, self.output, self.error)
        end = end_of(self.words_over(copy_files(self.made, file)), self.given, here.environment(0))
        last = here.count()
        expect(end == self.usual and self.look(end, file, here) == "as asked", f"{name}: {end}")
        return first, last

    def tried(self, numbers: range, here: Refusing) -> Iterator[str]:
        """How the program ended, time after time, of which these allocations were refused."""
        file = copy_files(self.made, here.path(self.name))
        for number, end in here.ends([PROGRAM, *self.words_over(file)], self.given, file, numbers):
            if number:
                yield self.look(end, file, here)
            else:
                expect(end == self.usual, f"behind the refused ones: {end}")

    def look(self, end: End, file: str, here: Refusing) -> str:
        """Holds an end, and what it left, to what may be; gives how it ended."""
        if end != self.usual:
            # The output is whole lines of what is to be written, from the first on.
            is_front = self.output.startswith(end.output) and (end.output.endswith(b"\n") or not end.output)
            expect((end.status, end.error) in ENDS and is_front and (end.status == 3 or not end.output), f"{end}")
        answered = end.output.count(b"\n")
        if self.make and here.is_new(file, self.name, end.status, end.error, answered):
            self.look_at_file(copy_files(file, here.path("left.keyreg")), end, answered)
        return "as asked" if end == self.usual else f"status {end.status}, {end.error.decode().strip()}"

    def look_at_file(self, file: str, end: End, answered: int) -> None:
        keyreg(["run", "--file", file])
        rows, first = sound_rows(file), answered if len(self.steps) > 1 else 0
        # 30 leaves what was answered alone; so does a refused opening.
        allowed = self.steps[first:first + (2 if (end.status, end.error) == (3, OF_STORE) else 1)]
        expect(rows in allowed, f"{end}: rows {rows}")
        again = end_of(self.words_over(file), self.given)
        expect(again == self.usual and sound_rows(file) == self.steps[-1], f"{end}, then again: {again}")


class Init(Part):
    """It makes a register or leaves none; asked again, it makes one or finds it."""

    def look_at_file(self, file: str, end: End, _: int) -> None:
        again = end_of(self.words_over(file), b"")
        is_made, is_there = again == (0, b"", b""), again == (2, b"", b"keyreg: NotARegister\n")
        expect(is_there or (is_made and end.status), f"{end}, then again: {again}")
        expect_replies(file, [("100 ann 1 advance", "ok 0 - 100")])


# ---- exchanges

# The register, whose key has two custodians of whom one has approved.
SERVED, SERVED_LINES = register_of(
    (MOMENT, "ann", 1, ("register", "master", "bob", None, None, None, "spare")),
    (MOMENT, "bob", 1, ("add-custodian", 1, "cat")), (MOMENT, "bob", 2, ("add-custodian", 1, "dan")),
    (MOMENT, "cat", 1, ("approve", 1)))
# What is asked of it: a request, or a GET of key 1 or, where it is true, of its usage.
ASKED: dict[str, Union[bool, tuple]] = {
    "GET of a key": False,
    "GET of a usage": True,
    "POST of a registration": ("ann", 2, ("register", *ROWS[1])),
    "POST of a removal": ("bob", 3, ("remove-custodian", 1, "cat")),
    "POST of a repeat": ("cat", 1, ("approve", 1)),
    "POST of what is refused": ("cat", 2, ("approve", 1)),
}


@dataclasses.dataclass
class Exchange:
    """What is asked in an exchange, over a register of the rules."""
    asked: Union[bool, tuple]

    def prepare(self, _: str, folder: str, here: Refusing) -> tuple[int, int]:
        self.made = os.path.join(folder, "served.keyreg")
        if not os.path.exists(self.made):
            new_register(self.made, SERVED_LINES)
        how = self.exchanged(0, here)
        expect(how == "as asked", f"{self.asked}: {how}")
        return 1, self.count

    def tried(self, numbers: range, here: Refusing) -> Iterator[str]:
        return (self.exchanged(number, here) for number in numbers)

    def exchanged(self, refused: int, here: Refusing) -> str:
        """How the exchange ended of which this allocation is refused; then it is asked again, of a new program where
        need be."""
        file, begun, again = copy_files(self.made, here.path("served.keyreg")), int(time.time()), None
        request = get("/keys/1" + "/usage" * self.asked) if isinstance(self.asked, bool) else post_command(*self.asked)
        with Served(file=file, environment=here.environment(refused, on_signal=True)) as served:
            os.kill(served.process.pid, signal.SIGUSR1)
            reply = served.raw(request)
            self.count, is_right = here.count(), reply in self.replies(begun)
            expect(self.count >= refused, f"only {self.count} were asked for")
            expect(is_right or reply in (MEMORY, STORE), f"{reply!r}")
            if reply == STORE:
                fault = served.ended(3, OF_STORE)
                expect(fault is None, f"{fault}")
            else:
                again = served.raw(request)
        if again is None:
            with Served(file=file) as served:
                again = served.raw(request)
        # Where it was applied it comes again, with the reply that it has.
        expect(again == reply if is_right else again in self.replies(begun), f"again: {again!r}")
        return "as asked" if is_right else "503" if reply == MEMORY else "500"

    def replies(self, begun: int) -> list[bytes]:
        if isinstance(self.asked, bool):
            return [get_reply(SERVED, 1, self.asked)]
        return [*served_since(begun, SERVED, *self.asked)]


# ---- all parts

# The port is taken, so that the program ends once all is opened.
TAKEN = socket.create_server(("127.0.0.1", 0))
STEPS = steps_of(LINES)


def made_of_lines(file: str) -> None:
    new_register(file, LINES)


PARTS: dict[str, Any] = {
    "day": Part(["run"], new_register, text(DAY_LINES), text(DAY_REPLIES), steps_of(DAY_LINES)),
    "memory": Part([], None, text(DAY_LINES), text(DAY_REPLIES)),
    "import": Part(["import", "--moment", str(MOMENT), "--caller", "ann", "--first", "1"], new_register,
                   import_table(ROWS).encode(), REGISTERED.encode(), STEPS, is_opened=True),
    "export": Part(["export"], made_of_lines, b"", export_text(REGISTER).encode(), STEPS[-1:], is_opened=True),
    "report": Part(["report", "--days", "365"], made_of_lines, b"", report_text(REGISTER, 365).encode(), STEPS[-1:],
                   is_opened=True),
    "init": Init(["init"], lambda file: None),
    "opening": Part(["serve", "--port", str(TAKEN.getsockname()[1]), "--exchanges", "1"], made_of_lines,
                    steps=STEPS[-1:], status=4, error=b"keyreg: ReadFault\n"),
    "migration": Part(["run"], write_first_version, steps=[APPROVED_ANEW_ROWS]),
    **{name: Exchange(asked) for name, asked in ASKED.items()},
}
# Where each process tries.
HERE: list[Refusing] = []


def begin(library: str, folder: str) -> None:
    HERE[:] = [Refusing(library, tempfile.mkdtemp(dir=folder))]


def refuse_share(share: tuple[str, range]) -> tuple[str, collections.Counter, str]:
    """Refuses each of these allocations of a part: how often the program ended how, and a fault, or none."""
    name, numbers = share
    ends: collections.Counter = collections.Counter()
    try:
        for how in PARTS[name].tried(numbers, HERE[0]):
            ends[how] += 1
        expect(ends.total() == len(numbers), f"{ends.total()} refused of {numbers}")
    except SystemExit as fault:
        return name, ends, f"{name}, allocation {[*numbers, 0][ends.total()]}: {fault}"
    return name, ends, ""


def main() -> None:
    asked = options(__doc__, tuple(PARTS), step=1)
    numbers, counted = {}, {}
    ends: dict[str, collections.Counter] = collections.defaultdict(collections.Counter)
    with fresh_folder(memory=2**24) as folder:
        library = built("refusing.c", str(folder))
        begin(library, str(folder))
        for name in asked.parts:
            counted[name] = first, last = PARTS[name].prepare(name, str(folder), HERE[0])
            numbers[name] = range(first, last + 1, asked.step)
        # The longest part comes first.
        shares = [(name, numbers[name][place:place + SHARE])
                  for name in sorted(numbers, key=lambda name: len(numbers[name]), reverse=True)
                  for place in range(0, len(numbers[name]), SHARE)]
        with multiprocessing.get_context("fork").Pool(PROCESSES, begin, (library, str(folder))) as pool:
            for name, of_share, fault in pool.imap_unordered(refuse_share, shares):
                ends[name] += of_share
                expect(not fault, fault)
    for name in asked.parts:
        how = ", ".join(f"{how}: {count}" for how, count in sorted(ends[name].items()))
        print(f"{name}: allocations {counted[name][0]} to {counted[name][1]}; {how}")
    verdict(f"{sum(map(len, numbers.values()))} allocations refused, each to a process of its own: none ended "
            "otherwise than it may")


main()
