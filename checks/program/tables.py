#!/usr/bin/env python3
"""Tables that go in and out of the program, in files: what docs/SPECIFICATION.md says of imports, exports and reports,
and the calendar of Python's datetime.

    checks/program/tables.py [PART..]

    imports   tables with and without their header, with odd ends of lines, quotes, rows and bytes: each is answered so,
              also where it is sent again, and makes so many keys
    exports   what registers are written out as
    months    sums of calendar months, about leap years, centuries and both ends of the range, in usage periods
    days      sums of days, up to which a report looks ahead
    moments   texts that are moments, and some that are none
    lines     lines that are no requests by their bytes or their length change no row
"""
import calendar
import csv
import io
import pathlib
import sys
from datetime import datetime, timedelta
from typing import Any, Optional, Sequence

sys.path.insert(1, str(pathlib.Path(__file__).resolve().parents[1] / "shared"))
from registers import EXPORT_COLUMNS, IMPORT_COLUMNS, File, keyreg, new_register, run_program, table_rows, words_for
from script import expect, fresh_folder, options, verdict

HEADER = ",".join(IMPORT_COLUMNS) + "\n"
WELL, BAD_HEADER, READ_FAULT = (0, ""), (4, "keyreg: BadHeader\n"), (4, "keyreg: ReadFault\n")
DEFAULTS = "100 ann 1 register data-encryption bob 0 - - payroll disks"


def look(words: Sequence[Any], end: tuple[int, str], output: str = "", given: bytes = b"") -> None:
    """Holds the program's status, its line on standard error and what it writes to these."""
    done = run_program(words, given)
    found = (done.returncode, done.stderr.decode()), done.stdout.decode()
    expect(found == (end, output), f"{words}, given {given!r}: {found}, where {(end, output)} is wanted")


def exported(file: File) -> list[dict[str, str]]:
    """The rows of an export, by Python's csv."""
    return list(csv.DictReader(io.StringIO(run_program(["export", "--file", file]).stdout.decode(), newline="")))


# ---- imports

# A table, its replies, how its import ends, and how many keys there are then.
IMPORTS = [
    # Without their header.
    (b"\n\n", "", BAD_HEADER, 0),
    (HEADER.replace("purpose", "purpose,number").encode(), "", BAD_HEADER, 0),
    (b"owner,type,activation,protect_stop,deactivation,purpose\nmaster,bob,,,,a\n", "", BAD_HEADER, 0),
    (b"master,bob,,,,a\n", "", BAD_HEADER, 0),
    # The header alone; odd ends of lines, blank lines and quotes; rows of other lengths; a quote that stays open.
    (HEADER.encode().strip(), "", WELL, 0),
    (HEADER.encode().strip() + b'\r\n\r\nmaster,bob,,,,a\r\n\n"master",bob,"",,,"b""c"',
     "ok 1 Pre-Active 100\nok 2 Pre-Active 100\n", WELL, 2),
    (HEADER.encode() + b"master,bob,,,a\nmaster,bob,,,,a,b\nmaster,bob,,,,c\n",
     "refused 1 BadLine\nrefused 1 BadLine\nok 1 Pre-Active 100\n", WELL, 1),
    (HEADER.encode() + b'master,bob,,,,"a\nmaster,bob,,,,b\n', "refused 1 BadLine\n", WELL, 0),
    # A record that is no text ends the import, after the rows before it.
    (HEADER.encode() + b"master,bob,,,,a\nmaster,bob,,,,\xff\nmaster,bob,,,,c\n", "ok 1 Pre-Active 100\n",
     READ_FAULT, 1),
    (HEADER.encode().replace(b"purpose", b"purp\xff") + b"master,bob,,,,a\n", "", READ_FAULT, 0),
]


def imports(folder: pathlib.Path) -> int:
    for place, (table, replies, end, keys) in enumerate(IMPORTS):
        file = folder / f"import_{place}"
        new_register(file)
        for moment in ("100", "200"):
            look(words_for("import", file, moment=moment), end, replies, table)
        rows = table_rows(file)
        expect((len(rows["keys"]), rows["meta"][0][2]) == (keys, 100 * bool(keys)), f"{table!r} made {rows}")
    # The last number and the last moment, and a caller whose name begins with a dash.
    file = folder / "last"
    new_register(file)
    look(words_for("import", file, moment="253402300799", caller="-x", first="9007199254740991"), WELL,
         "ok 1 Pre-Active 253402300799\n", HEADER.encode() + b"master,bob,,,,a\n")
    look(words_for("report", file, days="36500"), WELL, "Keys due for rotation by 9999-12-31T23:59:59Z\ntotal 0\n")
    return len(IMPORTS) + 1


# ---- exports and reports

# The cells of the key of *defaults*.
DEFAULT_CELLS = {**EXPORT_COLUMNS, "type": "data-encryption", "activation": "1970-01-01T00:00:00Z",
                 "protect_stop": "1972-01-01T00:00:00Z", "deactivation": "1975-01-01T00:00:00Z",
                 "purpose": "payroll disks"}
HEBREW = "\u05de\u05e4\u05ea\u05d7"
OF_500 = {"protect_stop": "1970-01-01T00:08:20Z", "deactivation": "1970-01-01T00:16:40Z"}


def due(number: int, stop: str, mark: str, owner: str, purpose: str) -> str:
    return f"{number:>7}  1970-01-01T{stop}Z  {mark:<7}  data-encryption         {owner}  {purpose}\n"


# Lines, the cells of each key in an export where they are others than those of *defaults*, and by how many days a
# report looks ahead, the moment up to which it does, and its lines of keys.
REGISTERS: list[tuple[list[str], list[dict[str, str]], dict[int, tuple[str, list[str]]]]] = [
    ([], [], {0: ("1970-01-01T00:00:00Z", []), 36_500: ("2069-12-07T00:00:00Z", [])}),
    # A key with all dates but its destruction's; two with one Protect Stop Date, and one with a later one.
    (["100 ann 1 register master bob 1000 2000 2000 say \"hi\", twice",
      "100 ann 2 register data-encryption eve 0 600 1000 late",
      "100 ann 3 register data-encryption bob 0 500 1000 =1+1",
      f"100 ann 4 register data-encryption bob 0 500 1000 {HEBREW}",
      "300 zed 1 revoke 1 2 200", "500 ann 5 advance"],
     [{"type": "master", "activation": "1970-01-01T00:16:40Z", "protect_stop": "1970-01-01T00:33:20Z",
       "deactivation": "1970-01-01T00:33:20Z", "state": "Compromised", "compromised": "1970-01-01T00:05:00Z",
       "occurrence": "1970-01-01T00:03:20Z", "purpose": '"say ""hi"", twice"'},
      {**OF_500, "owner": "eve", "protect_stop": "1970-01-01T00:10:00Z", "purpose": "late"},
      {**OF_500, "purpose": "=1+1"}, {**OF_500, "purpose": HEBREW}],
     {0: ("1970-01-01T00:08:20Z", [due(3, "00:08:20", "overdue", "bob", "=1+1"),
                                   due(4, "00:08:20", "overdue", "bob", HEBREW)]),
      1: ("1970-01-02T00:08:20Z", [due(3, "00:08:20", "overdue", "bob", "=1+1"),
                                   due(4, "00:08:20", "overdue", "bob", HEBREW),
                                   due(2, "00:10:00", "due", "eve", "late")])}),
    # A long key past the horizon and within it.
    ([DEFAULTS, "200 office 1 set-period data-encryption 12 36", "300 ann 2 register data-encryption bob 0 - - x"],
     [{}, {"protect_stop": "1971-01-01T00:00:00Z", "deactivation": "1974-01-01T00:00:00Z",
           "initial": "1970-01-01T00:05:00Z", "purpose": "x"}],
     {365: ("1971-01-01T00:05:00Z", [
         "      2  1971-01-01T00:00:00Z  due      data-encryption         bob  x\n",
         "      1  1972-01-01T00:00:00Z  long     data-encryption         bob  payroll disks\n"]),
      730: ("1972-01-01T00:05:00Z", [
          "      2  1971-01-01T00:00:00Z  due      data-encryption         bob  x\n",
          "      1  1972-01-01T00:00:00Z  due      data-encryption         bob  payroll disks\n"])}),
]


def exports(folder: pathlib.Path) -> int:
    for place, (lines, keys, reports) in enumerate(REGISTERS):
        file = folder / f"export_{place}"
        new_register(file, lines)
        rows = [{**DEFAULT_CELLS, "number": str(number), **cells} for number, cells in enumerate(keys, 1)]
        look(["export", "--file", file], WELL,
             "".join(",".join(row) + "\n" for row in (EXPORT_COLUMNS, *(row.values() for row in rows))))
        for days, (until, texts) in reports.items():
            look(words_for("report", file, days=str(days)), WELL,
                 f"Keys due for rotation by {until}\n{''.join(texts)}total {len(texts)}\n")
    return len(REGISTERS)


# ---- the calendar

EPOCH, END = datetime(1970, 1, 1), datetime(9999, 12, 31, 23, 59, 59)
MONTHS = (1, 11, 12, 36, 1200)
DATES = [
    datetime(1970, 1, 31), datetime(1972, 2, 29, 23, 59, 59), datetime(1972, 3, 1, 4, 23, 58),
    datetime(1999, 12, 31, 11, 35, 22), datetime(2000, 1, 31, 23, 59, 59), datetime(2000, 2, 29, 23, 59, 59),
    datetime(2000, 3, 1), datetime(2020, 2, 29, 23, 59, 59), datetime(2100, 1, 31), datetime(2100, 2, 28, 23, 59, 59),
    datetime(2100, 3, 1, 0, 47, 16), datetime(2200, 12, 31, 23, 59, 59), datetime(2300, 2, 28), datetime(2400, 2, 29),
    datetime(2400, 12, 31), datetime(9989, 12, 31, 23, 59, 59), datetime(9996, 2, 29, 12, 10, 49),
    datetime(9998, 1, 31, 23, 59, 59), datetime(9999, 10, 31), END,
]


def seconds(date: datetime) -> int:
    return (date - EPOCH) // timedelta(seconds=1)


def text(date: datetime) -> str:
    return f"{date.isoformat()}Z"


def plus_months(date: Optional[datetime], months: int) -> Optional[datetime]:
    """The date so many months later, with the length of months as the calendar module has it; None past the last
    year."""
    year, month = divmod(date.year * 12 + date.month - 1 + months, 12) if date else (10_000, 0)
    if date is None or year > END.year:
        return None
    return date.replace(year=year, month=month + 1, day=min(date.day, calendar.monthrange(year, month + 1)[1]))


def months(folder: pathlib.Path) -> int:
    """A key gets its Protect Stop so many months after its Activation, and its Deactivation as many after that; one of
    which a date would be past the range is refused."""
    asked, wanted, rows = list[str](), list[str](), list[tuple[str, str]]()
    for place, count in enumerate(MONTHS, 1):
        asked.append(f"100 office {place} set-period data-encryption {count} {count}")
        wanted.append("ok 0 - 100")
        for date in DATES:
            stop = plus_months(date, count)
            end = plus_months(stop, count)
            asked.append(f"100 ann {len(asked)} register data-encryption bob {seconds(date)} - - x")
            if stop and end:
                rows.append((text(stop), text(end)))
            wanted.append(f"ok {len(rows)} Pre-Active 100" if stop and end else "refused 11 DateRange")
    replies = new_register(folder / "months", asked)
    for line, reply, of_python in zip(asked, replies, wanted):
        expect(reply == of_python, f"{line}: {reply}, where {of_python} is wanted")
    found = [(row["protect_stop"], row["deactivation"]) for row in exported(folder / "months")]
    expect(found == rows, f"sums of months: {[pair for pair in zip(found, rows) if pair[0] != pair[1]][:3]}")
    return len(MONTHS) * len(DATES)


def days(folder: pathlib.Path) -> int:
    """A report looks ahead by so many days from the latest moment, at most up to the last moment."""
    sums = [(EPOCH, 1), (datetime(1972, 2, 29), 1), (datetime(1999, 12, 31, 23, 59, 59), 60), (END, 0), (END, 1),
            (END - timedelta(days=1), 1), (datetime(9999, 12, 1), 31), (datetime(2026, 3, 1), 36_500)]
    for place, (date, count) in enumerate(sums):
        file = folder / f"days_{place}"
        new_register(file, [f"{seconds(date)} ann 1 advance"])
        until = text(date + min(timedelta(days=count), END - date))
        look(words_for("report", file, days=str(count)), WELL, f"Keys due for rotation by {until}\ntotal 0\n")
    return len(sums)


NO_MOMENTS = ("1970-02-30T00:00:00Z", "1970-01-01T24:00:00Z", "1970-01-01T00:00:60Z", "1970-01-01t00:00:00Z",
              "1969-12-31T23:59:59Z", "10000-01-01T00:00:00Z", "1970-01-01T00:00:00", "1970-01-01", "100", "-")


def moments(folder: pathlib.Path) -> int:
    """Each date as a Protect Stop, which comes out of an export as it went in, and stands in the file in seconds."""
    file, dates = folder / "moments", [EPOCH, datetime(2000, 2, 29), datetime(1972, 1, 1, 0, 1, 40), *DATES]
    new_register(file)
    texts = [text(date) for date in dates]
    table = HEADER + "".join(f"master,bob,,{moment},,x\n" for moment in (*texts, *NO_MOMENTS))
    replies = "".join(f"ok {number} Pre-Active 110\n" for number in range(1, len(texts) + 1))
    look(words_for("import", file), WELL, replies + "refused 1 BadLine\n" * len(NO_MOMENTS), table.encode())
    found = [row["protect_stop"] for row in exported(file)]
    kept = [row[7] for row in table_rows(file)["keys"]]
    expect(found == texts and kept == [*map(seconds, dates)], f"moments come out as {found}, and stand as {kept}")
    return len(texts) + len(NO_MOMENTS)


# ---- lines

NO_LINES = [b"x" * 5000, b"100 ann 2 register master bob - - - \xc3", b"100 ann 2 register master bob - - - a\0b",
            b"100 ann 2 register master bob - - - " + b"x" * 1024, b"\xff" * 100, b"", b" ", b"100 ann 2 advance\r"]


def lines(folder: pathlib.Path) -> int:
    file = folder / "lines"
    new_register(file, [DEFAULTS])
    before = table_rows(file)
    for line in NO_LINES:
        look(["run", "--file", file], WELL, "refused 1 BadLine\n", line + b"\n")
    expect(table_rows(file) == before, "lines that are no requests changed the rows")
    expect(keyreg(["run", "--file", file], [DEFAULTS]) == ["ok 1 Active 100"], "the register does not go on")
    return len(NO_LINES)


PARTS = {part.__name__: part for part in (imports, exports, months, days, moments, lines)}


def main() -> None:
    counts = []
    for name in options(__doc__, tuple(PARTS)).parts:
        with fresh_folder(2**24) as folder:
            counts.append(f"{PARTS[name](folder)} {name}")
    verdict(f"{', '.join(counts)} are as the specification and Python's calendar have them")


main()
