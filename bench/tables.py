#!/usr/bin/env python3
"""What an export, a report and an import cost: an export and a report beside the same rows read bare by the kit's
`sqlite`, and beside Python; an import beside a run of the same registrations, by CSV and by request lines.

    bench/tables.py [--rounds N] [--days N] [--keys N]

A register of so many keys has keys of all types and in all states but Destroyed. About half are Active, and with 30
days about half of these are due, their dates out of the order of numbers. *report, periods set* is of the same keys,
where the office has set shorter periods of two types. The same rows are read by

    keyreg           the command, by its own searches, each line flushed before the next row is read
    bare             bare_tables.rt.txt: one SELECT given to the kit's `sqlite`; it adds its cells up and writes none
    python           the same SELECT by its `sqlite3`, and `csv` for an export: it writes the same, in large pieces
    python, tested   the same, over a register that it opens as opened.py does: all rows are put to the tests first

*After the opening* is a run without what it had used when its first byte was in the file, which each writes where the
file is open and no row is read. The program is stopped there, its clocks are read, and it goes on; a run in which that
came more than 1 ms late is repeated. *Memory* is the greatest resident one; the kernel counts for a program also what
this script had when it started it. The programs take turns, and each figure is the least of the rounds.
"""
import csv
import filecmp
import itertools
import pathlib
import resource
import sqlite3
import sys
from typing import Any, Iterator, Mapping, Sequence

from measuring import STEP, built, least, measured, measured_behind, table
from opened import opened
from places import PROGRAM
from registers import EXPORT_COLUMNS, EXPORT_DATES, IMPORT_COLUMNS, STATES, TYPES, UNSET
from registers import columns_of, database, new_register, table_rows, write_register
from register_rules import LAST, PERIODS, date_of, is_long, state_at, text_of
from script import expect, fresh_folder, options

# The cells of an export that are no column of `keys` of the same name, in SQL. What the text of such a cell is made of
# stands in CELL_TEXTS too, unless it is a text or a number.
CELLS = {"type": "kind"}
expect(set(EXPORT_COLUMNS) <= {*columns_of("keys"), *CELLS}, f"{set(EXPORT_COLUMNS) - {*columns_of('keys'), *CELLS}}: "
       "columns of an export that `keys` has not: CELLS of bench/tables.py has to say what they are in SQL")
# What is read of the keys, by the bare program and by Python.
SELECTS = {
    "export": f"SELECT {', '.join(CELLS.get(column, column) for column in EXPORT_COLUMNS)} FROM keys ORDER BY number",
    "report": "SELECT number, protect_stop, kind, owner, purpose FROM keys WHERE state = 2 AND protect_stop <= ?1 "
    "ORDER BY protect_stop, number",
}
# What Python reads of them for a report where periods are set.
DATED = SELECTS["report"].replace("purpose", "purpose, activation, deactivation")
# The months of originator and of recipient use that the office sets, by type.
SHORTER = {1: (6, 36), 7: (6, 0)}
# The latest moment, 2001-09-09T01:46:40Z, and the one at which the keys were registered.
LATEST, DAY = 1_000_000_000, 86400
MADE = LATEST - 200 * DAY
PROGRAMS = ("keyreg", "bare", "python", "python, tested")


# ---- the register


def registrations(keys: int) -> Iterator[tuple[Any, ...]]:
    """The type, the owner, three dates and the purpose of each key, by number. Most Protect Stop Dates are up to 90
    days before or after the latest moment; every tenth purpose has a comma, and every hundredth double quotes."""
    for place in range(keys):
        kind, number = place % len(TYPES) + 1, place + 1
        activation = LATEST + 10 * DAY if place % 16 == 6 else MADE
        stop = activation + 110 * DAY + (place - (place % 8 == 7)) * STEP % keys * 180 * DAY // keys
        dates = (UNSET,) * 3 if place % 16 == 3 else (activation, stop, stop + 365 * DAY if kind <= 3 else stop)
        purpose = f'the "blue" disks, volume {number}' if number % 100 == 0 else \
            f"disks, volume {number}" if number % 10 == 0 else f"backup volume {number}"
        yield kind, f"team-{place % 11}", *dates, purpose


def state_of(moment: int, *cells: int) -> int:
    """The state by the cells of Activation, Deactivation, Destroy and Compromise."""
    return state_at(moment, *map(date_of, cells))


def key_rows(keys: int) -> Iterator[tuple[Any, ...]]:
    for place, (kind, owner, *dates, text) in enumerate(registrations(keys)):
        destroyed = LATEST - 5 if place % 16 == 9 else UNSET
        compromised, occurrence = (LATEST - 10, LATEST - 20) if place % 16 in (9, 12) else (UNSET, UNSET)
        state = state_of(LATEST, dates[0], dates[2], destroyed, compromised)
        yield place + 1, kind, owner, text, state, MADE, *dates, destroyed, compromised, occurrence


def command(kind: int, owner: str, *fields: Any) -> str:
    *dates, text = fields
    return " ".join(("register", TYPES[kind], owner, *("-" if date == UNSET else str(date) for date in dates), text))


def request_rows(keys: int, periods: Mapping[int, tuple[int, int]]) -> Iterator[tuple[Any, ...]]:
    """The registrations, and how the office then set these periods."""
    for number, fields in enumerate(registrations(keys), 1):
        yield "ann", number, command(*fields), number, state_of(MADE, fields[2], fields[4], UNSET, UNSET), MADE
    for number, (kind, (originator, recipient)) in enumerate(periods.items(), 1):
        yield "office", number, f"set-period {TYPES[kind]} {originator} {recipient}", 0, 0, LATEST


def write(file: pathlib.Path, keys: int, periods: Mapping[int, tuple[int, int]]) -> None:
    write_register(file, LATEST, keys, keys=key_rows(keys), request=request_rows(keys, periods),
                   period=[(kind, *months) for kind, months in periods.items()])


# ---- Python's side


def date_text(date: int) -> str:
    return "" if date == UNSET else text_of(date)


# What makes the text of a cell; the cells of other columns stand as they are.
CELL_TEXTS = {"type": TYPES.get, "state": STATES.get, **dict.fromkeys(EXPORT_DATES, date_text)}


def listed_rows(connection: sqlite3.Connection, until: int) -> Iterator[Sequence[Any]]:
    """The rows of a report: the keys that are due, and where periods are set the long ones too."""
    set_periods = {kind: months for kind, *months in connection.execute("SELECT * FROM period")}
    if not set_periods:
        yield from connection.execute(SELECTS["report"], (until,))
        return
    periods = {kind: set_periods.get(kind, PERIODS[text]) for kind, text in TYPES.items()}
    for *row, activation, deactivation in connection.execute(DATED, (LAST,)):
        _, stop, kind, *_ = row
        if stop <= until or is_long(map(date_of, (activation, stop, deactivation)), periods[kind]):
            yield row


def write_by_python(program: str, file: str, days: str = "") -> None:
    """An export, or a report for so many days."""
    connection, written = opened(file) if program == "python, tested" else sqlite3.connect(file), sys.stdout
    written.reconfigure(encoding="utf-8", newline="\n")
    if not days:
        rows = csv.writer(written, lineterminator="\n")
        rows.writerow(EXPORT_COLUMNS)
        written.flush()
        texts = [CELL_TEXTS.get(column) for column in EXPORT_COLUMNS]
        rows.writerows([text(cell) if text else cell for text, cell in zip(texts, row)]
                       for row in connection.execute(SELECTS["export"]))
        return
    latest, = connection.execute("SELECT latest FROM meta").fetchone()
    until, count = min(latest + int(days) * DAY, LAST), 0
    print(f"Keys due for rotation by {date_text(until)}", flush=True)
    for number, stop, kind, owner, text in listed_rows(connection, until):
        mark = "overdue" if stop <= latest else "due" if stop <= until else "long"
        written.write(f"{number:>7}  {date_text(stop)}  {mark:<7}  {TYPES[kind]:<22}  {owner}  {text}\n")
        count += 1
    print(f"total {count}")


# ---- exports and reports


def bare_program() -> str:
    """The bare program, with the SELECTs above as its items."""
    return built("bare_tables", "".join(f'const {name.upper()}: &str = "{text}";\n' for name, text in SELECTS.items()))


def cell_sum(file: pathlib.Path, name: str, *last: int) -> int:
    """The sum that the bare program is to write, by SQLite's own library."""
    with database(file) as connection:
        return sum(cell if isinstance(cell, int) else len(cell.encode())
                   for row in connection.execute(SELECTS[name], last) for cell in row)


def table_lines(title: str, file: pathlib.Path, rounds: int, days: Sequence[int] = (),
                last: Sequence[int] = ()) -> Iterator[list[str]]:
    """For each program the least processor seconds of it whole and after the opening, the share that `keyreg` has of
    each, and the most memory. A report is for so many days; the bare program reads its rows up to the last moment. Each
    output is to be what it has to be."""
    name, of_python = title.split(",")[0], [sys.executable, __file__, "--python"]
    words = {"keyreg": [PROGRAM, name, "--file", file, *(word for day in days for word in ("--days", str(day)))],
             "bare": [bare_program(), file, *map(str, last)],
             **{program: [*of_python, program, file, *map(str, days)] for program in PROGRAMS[2:]}}
    uses: dict[str, list[list[float]]] = {program: [] for program in PROGRAMS}
    with fresh_folder() as folder:
        for _ in range(rounds):
            for program in PROGRAMS:
                whole, after = measured_behind(words[program], folder / program)
                uses[program].append([whole.processor, after, whole.memory])
            for program in PROGRAMS[2:]:
                is_same = filecmp.cmp(folder / "keyreg", folder / program, shallow=False)
                expect(is_same, f"{title}: {program} writes other bytes")
            wanted = f"opened\n{cell_sum(file, name, *last)}\n"
            expect((folder / "bare").read_text() == wanted, f"{title}: bare reads other cells than {wanted!r}")
        with open(folder / "keyreg", "rb") as lines:
            count = sum(1 for _ in lines)
    figures = {program: least(of) for program, of in uses.items()}
    for program, of in figures.items():
        yield [title, f"{count}", program, *(f"{x:.3f}" for x in of[:2]),
               *(f"{ours / other:.2f}" for ours, other in zip(figures["keyreg"], of[:2])),
               f"{max(memory for *_, memory in uses[program]):.1f}"]


# ---- imports


def write_inputs(folder: pathlib.Path, keys: int) -> None:
    """The registrations as CSV and as request lines, and the replies to them, each in a file."""
    with open(folder / "import.given", "w", encoding="utf-8", newline="") as given, \
            open(folder / "run.given", "w", encoding="utf-8") as lines, \
            open(folder / "replies", "w", encoding="utf-8") as replies:
        rows = csv.writer(given, lineterminator="\n")
        rows.writerow(IMPORT_COLUMNS)
        for number, fields in enumerate(registrations(keys), 1):
            kind, owner, *dates, text = fields
            rows.writerow((TYPES[kind], owner, *map(date_text, dates), text))
            lines.write(f"{LATEST} ann {number} {command(*fields)}\n")
            replies.write(f"ok {number} {STATES[state_of(LATEST, dates[0], dates[2], UNSET, UNSET)]} {LATEST}\n")


def import_lines(keys: int, rounds: int) -> Iterator[list[str]]:
    """The processor seconds of an import and a run. Both are to reply by the rules, and to leave the same rows."""
    options_of = {"import": ["--moment", str(LATEST), "--caller", "ann", "--first", "1"], "run": []}
    uses: dict[str, list[float]] = {name: [] for name in options_of}
    with fresh_folder() as folder:
        write_inputs(folder, keys)
        for number in range(rounds):
            files = {name: folder / f"{name}{number}.keyreg" for name in uses}
            for name, file in files.items():
                new_register(file)
                uses[name].append(measured([PROGRAM, name, "--file", file, *options_of[name]],
                                           folder / f"{name}.given", folder / name).processor)
                expect(filecmp.cmp(folder / name, folder / "replies", shallow=False), f"{name}: other replies")
            left, wanted = map(table_rows, files.values())
            expect(left == wanted, "import and run leave other rows")
    for name, seconds in uses.items():
        yield [name, f"{min(seconds):.2f}", f"{min(uses['import']) / min(seconds):.2f}"]


def main() -> None:
    if sys.argv[1:2] == ["--python"]:
        return write_by_python(*sys.argv[2:])
    given = options(__doc__, rounds=3, days=30, keys=100_000)
    expect(given.keys % STEP, f"{given.keys} keys")
    print(f"SQLite {sqlite3.sqlite_version} in Python. {given.keys} keys, a report for {given.days} days. Seconds of "
          f"processor time; the least of {given.rounds}.\n")
    with fresh_folder() as folder:
        office, shorter = folder / "office.keyreg", folder / "shorter.keyreg"
        write(office, given.keys, {})
        write(shorter, given.keys, SHORTER)
        due = min(LATEST + given.days * DAY, LAST)
        table(("command", "lines", "program", "whole", "after opening", "keyreg / it: whole", "after", "memory, MB"),
              itertools.chain(table_lines("export", office, given.rounds),
                              table_lines("report", office, given.rounds, [given.days], [due]),
                              table_lines("report, periods set", shorter, given.rounds, [given.days], [LAST])))
        opening = min(measured([PROGRAM, "run", "--file", office]).memory for _ in range(given.rounds))
    own = resource.getrusage(resource.RUSAGE_SELF).ru_maxrss / 1024
    print(f"\nMemory: an opening {opening:.1f} MB, and this script's own {own:.1f} MB.\n")
    table(("command", "seconds", "import / it"), import_lines(given.keys, given.rounds))


main()
