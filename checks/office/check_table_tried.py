#!/usr/bin/env python3
"""Puts tables to office/check_table.py that went out by `keyreg export` and came back: with what spreadsheets were seen
to make of fields; with rows that are keys already, that an import refuses, and that stand twice; and of ten thousand
rows that were all changed each is reported as it is found.

    checks/office/check_table_tried.py
"""
import csv
import io
import json
import pathlib
import re
import shutil
import subprocess
import sys
import time
from typing import Any, Iterable, Mapping, Sequence

sys.path.insert(1, str(pathlib.Path(__file__).resolve().parents[1] / "shared"))
from places import DESK
from check_table import requests_of
from registers import IMPORT_COLUMNS, File, copy_files, new_register, run_program
from register_rules import moment_of, text_of
from script import expect, fresh_folder, not_none, output_of, verdict
from tools import exported, run_tool, words_of

CASES, SHEETS, NUMBERS = (json.loads((DESK / "tests" / f"{name}.json").read_text("utf-8"))
                          for name in ("made", "sheets", "numbers"))
COLUMNS, DATES = list(IMPORT_COLUMNS), IMPORT_COLUMNS[2:5]
START = "2026-02-01T00:00:00Z"
# A key's column, its text, what spreadsheets were seen to make of it, and what is said of that: the words behind a
# colon or a comma are the desk's own.
RECORDED = [(column, was, now, re.split("[:,]", how)[0]) for column, was, now, how in SHEETS["changed"]]
# How LibreOffice reads a table: as it proposes, as Windows-1252, and as UTF-8 with each column as text.
FILTER = "Text - txt - csv (StarCalc)"
READINGS: dict[str, list[str]] = {"as it proposes": [], "as Windows-1252": [f"--infilter={FILTER}:44,34,1"],
                                   "as text": [f"--infilter={FILTER}:44,34,76,1,1/2/2/2/3/2/4/2/5/2/6/2"]}
# What an import refuses for its form, and what is said of it.
REFUSED = [
    ({"type": "Master"}, "none of the seven"), ({"owner": "two words"}, "no name"), ({"owner": "Müller"}, "no name"),
    ({"protect_stop": "2027-01-05"}, "YYYY"), ({"protect_stop": "2027-02-30T00:00:00Z"}, "no moment"),
    ({"protect_stop": "1969-12-31T23:59:59Z"}, "no moment"), ({"purpose": " x"}, "space"), ({"purpose": ""}, "empty"),
    ({"purpose": "a\tb"}, "control"), ({"purpose": "ü" * 101}, "too long"),
]
KEY = {"type": "master", "owner": "ann", "activation": "", "protect_stop": "", "deactivation": "", "purpose": "root"}
# How many rows are all changed, at first and at last.
FEW, MANY = 2_500, 10_000

Row = Mapping[str, Any]


def put(path: File, rows: Iterable[Row], columns: Sequence[str] = COLUMNS) -> None:
    with open(path, "w", encoding="utf-8", newline="") as target:
        table = csv.DictWriter(target, columns, lineterminator="\n", extrasaction="ignore")
        table.writeheader()
        table.writerows(rows)


def checked(table: File, export: File, *more: Any) -> tuple[int, list[str]]:
    """The status and the lines of a check."""
    done = run_tool("check_table", table, "--export", export, *more, text=True)
    expect(not done.stderr, f"{table} {more}: {done.stderr}")
    return done.returncode, done.stdout.splitlines()


class Desk:
    """A register with these keys, its export, and the table of import that comes of it."""

    def __init__(self, folder: pathlib.Path, keys: Sequence[Row]) -> None:
        self.file, self.export, self.table = (folder / name for name in ("a.keyreg", "export.csv", "table.csv"))
        new_register(copy_files(None, self.file))
        self.import_rows(keys, 1, "ok")
        self.keys = self.write_export()

    def write_export(self) -> list[dict[str, str]]:
        export = exported(self.file)
        self.export.write_text(export, encoding="utf-8")
        return list(csv.DictReader(io.StringIO(export)))

    def import_rows(self, rows: Sequence[Row], first: int, wanted: str) -> None:
        """Imports a table of these rows, each of which is answered so."""
        put(self.table, rows)
        words = ["import", "--file", self.file, "--moment", "1769904000", "--caller", "intake", "--first", str(first)]
        done = run_program(words, self.table.read_bytes())
        answers = [line.split(" ")[0] for line in done.stdout.decode().splitlines()]
        expect((done.returncode, answers) == (0, [wanted] * len(rows)), f"import: {done}")

    def expect_lines(self, rows: Iterable[Row], status: int, last: str, *begins: tuple[str, str],
                     more: Sequence[Any] = ()) -> None:
        """A check of a table of these rows ends so. Its last line has this text, and there are lines that begin with
        the one text and have the other."""
        put(self.table, rows)
        end, lines = checked(self.table, self.export, *more)
        expect(end == status and last in lines[-1], f"not {status} with {last!r}: {end}, {lines}")
        for begin, text in begins:
            is_there = any(line.startswith(begin) and text in line for line in lines)
            expect(is_there, f"no {begin!r} with {text!r}: {lines}")


# ---- the parts


def recorded(folder: pathlib.Path) -> None:
    """Each conversion is reported, with its row, its key and its column, also where the rows were turned round."""
    keys = [{**KEY, "owner": f"team{place}", "purpose": f"disks {place}", column: was}
            for place, (column, was, _, _) in enumerate(RECORDED)]
    desk, count = Desk(folder, keys), len(RECORDED)
    rows = [{**key, column: now} for key, (column, _, now, _) in zip(desk.keys, RECORDED)]
    for way in (1, -1):
        desk.expect_lines(rows[::way], 1, f"{count} changed by a spreadsheet", *(
            (f"row {key if way == 1 else count + 1 - key} (key {key}): {column} was {was!r} and is {now!r}: ", how)
            for key, (column, was, now, how) in enumerate(RECORDED, 1)))


def by_libreoffice(folder: pathlib.Path) -> str:
    """What LibreOffice makes of a table is reported; where it reads each column as text, the table comes back as it
    was. Gives how many fields it changed."""
    if not shutil.which("soffice"):
        return "LibreOffice is not installed, and was left out"
    owners, purposes = ["0042", "1e5", "3.10", ".5", "ann"], ["plain", "00123", "=1+1", "Schlüssel", "=A1"]
    desk = Desk(folder, [{**KEY, "owner": owner, "purpose": purpose, "activation": START}
                         for owner, purpose in zip(owners, purposes)])
    put(desk.table, desk.keys)
    made, counts = folder / "out" / desk.table.name, list[str]()
    for way, reading in READINGS.items():
        output_of(["soffice", "--headless", f"-env:UserInstallation=file://{folder}/profile", "--convert-to",
                   f"csv:{FILTER}:44,34,76", "--outdir", made.parent, *reading, desk.table], timeout=120)
        status, lines = checked(made, desk.export)
        changed = re.findall(r"(?m)^row .* was '(.*)' and is ", "\n".join(lines))
        wanted = {*owners[:4], "00123", "=1+1", *["Schlüssel"] * (way == "as Windows-1252")}
        is_same = made.read_bytes() == desk.table.read_bytes()
        expect(status == 1 and " 0 new" in lines[-1] and is_same == (way == "as text")
               and (not changed if is_same else wanted <= set(changed)), f"{way}: {status}, {lines}")
        counts.append(f"{len(changed)} fields read {way}")
    return f"LibreOffice changed {', '.join(counts)}"


def rows_reported(folder: pathlib.Path) -> None:
    """Rows that are keys already, that are refused, that stand twice, and new ones; an import answers as was said."""
    desk = Desk(folder, [KEY, {**KEY, "purpose": "another"}])
    desk.expect_lines(desk.keys, 1, "2 there already", ("row 1: it is key 1 already", ""))
    refused = [{**KEY, **change} for change, _ in REFUSED]
    desk.expect_lines(refused, 1, f"{len(REFUSED)} of another form, 0 new",
                      *((f"row {place}: ", how) for place, (_, how) in enumerate(REFUSED, 1)))
    desk.import_rows(refused, 100, "refused")
    # A number need not be above the last one of the caller.
    desk.import_rows([{**KEY, "owner": "bob", "purpose": "new"}, {**KEY, "purpose": "b=new"}], 50, "ok")
    rows = [{**KEY, "owner": "carl", "purpose": "newer"}]
    desk.import_rows(rows, 2, "refused")
    for caller, number in (("intake", 52), ("nobody", 1)):
        desk.expect_lines(rows, 0, "1 new", (f"the next first number of {caller}: --first {number}", ""),
                          more=("--copy", desk.file, "--caller", caller))
    desk.import_rows(rows, 52, "ok")
    # Of two rows one has the dates that the period gives the other.
    row = {**KEY, "owner": "dora", "activation": START}
    whole = {**row, "protect_stop": "2027-02-01T00:00:00Z", "deactivation": "2027-02-01T00:00:00Z"}
    rows = [row, {**row, "owner": "emil"}, row, whole]
    desk.expect_lines(rows, 1, "2 repeated, 0 of another form, 2 new",
                      *((f"row {number}: it is row 1 again", "") for number in (3, 4)))
    # A table that was imported is known, though its rows leave the later dates out.
    desk.import_rows(rows, 200, "ok")
    desk.write_export()
    desk.expect_lines(rows, 1, "4 there already, 0 repeated, 0 of another form, 0 new")


def known_again(folder: pathlib.Path) -> int:
    """Rows that are keys already, whatever dates they leave out: the cases that the desk judges too."""
    table, export = folder / "table.csv", folder / "export.csv"
    put(export, [CASES["key"], CASES["ended"]], ["number", *COLUMNS, "state"])
    cases = [*CASES["rows"], *CASES["endedRows"]]
    for case in cases:
        put(table, [dict(zip(COLUMNS, case["row"]))])
        status, lines = checked(table, export)
        expect(("1 there already" in lines[-1]) == case["made"], f"{case['case']}: {status}, {lines}")
    return len(cases)


def requests_written(desk: Desk, rows: Iterable[Row], caller: str) -> list[str]:
    """The request lines of the new rows of a table."""
    put(desk.table, rows)
    target = desk.table.with_suffix(".txt")
    checked(desk.table, desk.export, "--caller", caller, "--requests", target)
    return target.read_text("utf-8").splitlines()


def sent_once(folder: pathlib.Path) -> None:
    """The numbers of rows are those of the cases, which the desk has too. A table that `keyreg run` takes twice is
    taken once; of one that was corrected in between the corrected row alone is new, and no import's number comes of
    it."""
    desk = Desk(folder, [KEY])
    for case in NUMBERS:
        rows = [dict(zip(COLUMNS, case["row"]))] * case["time"]
        *_, last = requests_of([*rows[1:], None, {**rows[0], "owner": "zoe"}, rows[0]], case["caller"])
        expect(last and last[0] == case["number"], f"{case} has the number {last}")
    rows = [{**KEY, "purpose": f"volume {place}"} for place in range(1000)]
    lines = requests_written(desk, rows, "intake")
    replies = [run_program(["run", "--file", desk.file], "\n".join([*some, ""]).encode()).stdout.decode().splitlines()
               for some in (lines[:400], lines, lines)]
    expect(len(set(replies[1])) == len(rows) and replies[1] == replies[2] and replies[1][:400] == replies[0]
           and all(reply.startswith("ok ") for reply in replies[1]), f"replies: {replies[2][:3]}, {replies[1][:3]}")
    corrected = [*rows[:499], {**rows[499], "purpose": "corrected"}, *rows[500:]]
    others = requests_written(desk, corrected, "intake")
    new = [line for line, other in zip(others, lines) if line.split(" ")[2] != other.split(" ")[2]]
    expect(len(new) == 1 and new[0].endswith(" corrected"), f"of a corrected table new are {new}")
    desk.expect_lines(rows[:1], 0, "1 new", ("the next first number of intake: --first 2", ""),
                      more=("--copy", desk.file, "--caller", "intake"))


def no_tables(folder: pathlib.Path) -> None:
    """Of what is no table it is said what is wrong."""
    table, export, whole = folder / "none.csv", folder / "export.csv", ",".join(COLUMNS) + "\nmaster,a,,,,Schlüssel\n"
    for raw, how in ((None, "No such file"), (whole.encode("utf-16"), "UTF-16"), (whole.encode("latin-1"), "no UTF-8"),
                     (whole.encode("utf-8-sig"), "byte order mark"), (whole.replace(",", ";").encode(), "`;`"),
                     (b"", "header row"), (b"number,owner\n", "header row")):
        if raw is not None:
            table.write_bytes(raw)
        status, lines = checked(table, export)
        expect(status == 2 and how in lines[-1], f"not 2 with {how!r}: {status}, {lines}")


def all_changed(folder: pathlib.Path, count: int) -> list[float]:
    """So many rows of which each was changed, in all dates, in place and the other way round: each is reported with its
    key, and the first before the others were looked at. Gives the seconds that each way took."""
    begin, seconds = moment_of("2026-01-01T00:00:00Z"), list[float]()
    export, table = folder / "export.csv", folder / "table.csv"
    dates = [[begin + 3600 * (7 * n + 7200 * later) for later in range(3)] for n in range(1, count + 1)]
    keys = [{**KEY, "type": "data-encryption", "number": n, "owner": f"team{n % 40}", "purpose": f"disks {n}",
             **dict(zip(DATES, map(text_of, of_key)))} for n, of_key in enumerate(dates, 1)]
    put(export, keys, ["number", *COLUMNS])
    for form, way in (("%m/%d/%y %I:%M:%S %p", 1), ("%Y-%m-%d %H:%M:%S", 1), ("%d.%m.%Y %H:%M", -1)):
        put(table, [{**key, **{name: time.strftime(form, time.gmtime(date)) for name, date in zip(DATES, of_key)}}
                    for key, of_key in zip(keys, dates)][::way])
        begun, words = time.monotonic(), words_of("check_table", table, "--export", export)
        with subprocess.Popen(words, stdout=subprocess.PIPE, text=True) as process:
            output = not_none(process.stdout)
            first, came = output.readline(), time.monotonic() - begun
            lines = [first, *output]
        seconds.append(time.monotonic() - begun)
        expect(came < seconds[-1] / 2, f"{form}: the first line came after {came:.1f} of {seconds[-1]:.1f} seconds")
        places = dict(re.findall(r"row (\d+) \(key (\d+)\): deactivation was .*: taken for a date", "".join(lines)))
        wanted = {str(row): str(row if way == 1 else count + 1 - row) for row in range(1, count + 1)}
        has_all = places == wanted and f"{count} changed by a spreadsheet" in lines[-1]
        expect(has_all, f"{form}: {len(places)} rows with their keys, {lines[-1]}")
    return seconds


def main() -> None:
    with fresh_folder() as folder:
        recorded(folder)
        print(by_libreoffice(folder))
        rows_reported(folder)
        known = known_again(folder)
        sent_once(folder)
        no_tables(folder)
        few, most = all_changed(folder, FEW), all_changed(folder, MANY)
    grown = sum(most) / sum(few)
    expect(grown <= 2 * MANY / FEW, f"{MANY} changed rows took {grown:.1f} times as long as {FEW}: {most}, {few}")
    verdict(f"{len(RECORDED)} conversions, {len(REFUSED)} refused rows and {known} rows of keys were reported; {MANY} "
            f"changed rows took {max(most):.1f} seconds at most, {grown:.1f} times as long as {FEW}")


if __name__ == "__main__":
    main()
