#!/usr/bin/env python3
"""Walks into the trap of a restore, and takes the right way, at 40 lengths of a log.

    checks/sqlite/restored.py [--step N]

A register is backed up as one file. It goes on, and at each of 40 lengths, ten of the first requests and thirty that
are N apart, its two files are taken as a killed service leaves them; the last life is killed indeed, and has left just
these bytes. Then

    the trap     the backup is copied over the database, beside the log that is there. Where the program says nothing,
                 the rows of all tables are those that office/register_rules.py gives for the requests that are there,
                 or office/replay.py finds it. How often it comes to what is printed
    the way      both files are moved aside, and the backup is copied to where no log is: its rows are there
"""
import collections
import contextlib
import filecmp
import os
import pathlib
import shutil
import sqlite3
import subprocess
import sys

sys.path.insert(1, str(pathlib.Path(__file__).resolve().parents[1] / "shared"))
from places import OFFICE
from registers import Life, copy_files, database, keyreg, new_register, run_program, table_rows
from register_rules import Register, request_of
from rules_shown import Rows, tables
from script import expect, fresh_folder, options, verdict

BEFORE = 40


def line_at(place: int) -> str:
    """The request at a place, from 1; each is accepted."""
    moment, key = 1_700_000_000 + 60 * place, (place + 3) // 4
    return (f"{moment} bob {place} " + {
        1: f"register data-encryption bob {moment} - - disks of rack {key}", 2: f"add-custodian {key} cat",
        3: f"set {key} = {moment + 86400 * 300} -", 0: "advance"}[place % 4])


def rows_after(count: int) -> Rows:
    """The rows of each table after so many requests, by the rules."""
    register = Register()
    for place in range(1, count + 1):
        register.answer(request_of(line_at(place)))
    return tables(register)


def as_taken(file: str) -> Rows:
    """The rows of a file and its log, as SQLite reads copies of them; none where it cannot."""
    with fresh_folder() as folder, contextlib.suppress(sqlite3.Error):
        return table_rows(copy_files(file, folder / "copy"))
    return {}


def killed_at(file: str, lengths: list[int]) -> dict[int, str]:
    """A life that goes on to these lengths, and copies of its files at each. The kill leaves what was taken last."""
    copies, place = {}, BEFORE
    with Life(file) as life:
        for length in lengths:
            for place in range(place + 1, BEFORE + length + 1):
                reply = life.reply(line_at(place))
                expect(reply.startswith("ok "), f"request {place}: {reply}")
            copies[length] = str(copy_files(file, f"{file}.{length}"))
        life.kill()
    for end in ("", "-wal"):
        is_same = filecmp.cmp(file + end, copies[length] + end, shallow=False)
        expect(is_same, "a kill leaves other files than were taken")
    return copies


def trapped(backup: str, killed: str, length: int) -> str:
    """What becomes of a backup that is copied beside a log."""
    file = f"{killed}.trap"
    shutil.copy(killed + "-wal", file + "-wal")
    shutil.copy(backup, file)
    done = run_program(["run", "--file", file])
    if done.returncode:
        return f"refused, {done.stderr.decode().strip()}"
    rows = as_taken(file)
    count = len(rows.get("request", ()))
    if rows == rows_after(count):
        return {BEFORE: "the backup", BEFORE + length: "without a word, what was restored away"}.get(
            count, "without a word, a part of what was restored away")
    words = [sys.executable, str(OFFICE / "replay.py"), file]
    status = subprocess.run(words, capture_output=True, check=False).returncode
    expect(status == 1, f"length {length}: taken, no register of the rules, and replay.py ends with {status}")
    return "without a word, a mixture, which replay.py finds"


def main() -> None:
    step = options(__doc__, step=20).step
    lengths = [*range(1, 11), *range(10 + step, 11 + 30 * step, step)]
    ends = collections.defaultdict(list)
    with fresh_folder() as folder:
        file, backup, wanted = str(folder / "office.keyreg"), str(folder / "backup.keyreg"), rows_after(BEFORE)
        new_register(file, map(line_at, range(1, BEFORE + 1)))
        with database(file) as source, database(backup) as target:
            source.backup(target)
        expect(as_taken(backup) == wanted, "the backup is another register")
        for length, killed in killed_at(file, lengths).items():
            ends[trapped(backup, killed, length)].append(length)
            # The right way, from the same files.
            for end in ("", "-wal"):
                os.rename(killed + end, f"{killed}.aside{end}")
            shutil.copy(backup, killed)
            keyreg(["run", "--file", killed])
            expect(as_taken(killed) == wanted, f"{killed}: by the right way the backup does not come back")
    for end, of_end in sorted(ends.items()):
        print(f"{len(of_end)} of {len(lengths)} lengths: {end}: after {', '.join(map(str, of_end))} requests")
    silent, refused = (sum(len(of_end) for end, of_end in ends.items() if end.startswith(begin))
                       for begin in ("without a word", "refused"))
    expect(silent and refused, "all lengths came to one end: too few to tell")
    verdict(f"{len(lengths)} logs beside a restored backup: {silent} were taken without a word and {refused} refused; "
            f"by the right way each of {len(lengths)} is the backup")


main()
