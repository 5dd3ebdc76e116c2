#!/usr/bin/env python3
"""The views of office/audit.sql beside the rules of office/register_rules.py, over the register of docs/AUDIT.md: each
key's state and usage, and what is due beside what `keyreg report` writes. Of a file of version 1 each view answers what
it does of the same file in version 2. What the commands of the page print is asked by checks/sources/documents.py.

    checks/office/audit_views.py

It needs SQLite's shell, of version 3.38 or above.
"""
import pathlib
import re
import shutil
import sys

sys.path.insert(1, str(pathlib.Path(__file__).resolve().parents[1] / "shared"))
from places import OFFICE, SAMPLES, VERSION_1
from answers import reply_line
from registers import STATES, File, database, keyreg, new_register, run_program
from register_rules import Register, command_of
from script import expect, fresh_folder, in_order, output_of, verdict

VIEWS = OFFICE / "audit.sql"
DAYS = 60


def asked(file: File, question: str) -> list[list[str]]:
    """The rows of a question over the views."""
    words = ["sqlite3", "-readonly", "-list", file, f".read {VIEWS}", question]
    return [row.split("|") for row in output_of(words).splitlines()]


def look_at_views(file: File) -> tuple[int, int]:
    """The views beside the rules over the same accepted requests, and the program's report; the register is that of the
    page: a day, a table of keys, and a year."""
    new_register(file, (SAMPLES / "day.txt").read_text("ascii").splitlines())
    words = ["import", "--file", file, "--moment", "1767690000", "--caller", "intake", "--first", "1"]
    expect(run_program(words, (SAMPLES / "keys.csv").read_bytes()).returncode == 0, "the table is not imported")
    keyreg(["run", "--file", file], (SAMPLES / "year.txt").read_text("ascii").splitlines())
    register = Register()
    requests = asked(file, "SELECT moment, caller, number, command FROM request ORDER BY moment, rowid")
    for moment, caller, number, command in requests:
        reply = reply_line(register, int(moment), caller, int(number), command_of(command))
        expect(reply.startswith("ok "), f"{command} is refused: {reply}")
    latest = register.latest
    wanted = [[str(number), STATES[key.state(latest)], "yes" if key.protects(latest) else "no", key.processes(latest)]
              for number, key in register.keys.items()]
    in_order(asked(file, "SELECT number, state, protects, processes FROM standing ORDER BY number"), wanted, "standing")
    due = asked(file, "SELECT number, protect_stop, mark, type, owner, purpose FROM due")
    lines = ["  ".join([f"{number:>7}", stop, f"{mark:7}", f"{kind:22}", owner, purpose])
             for number, stop, mark, kind, owner, purpose in due]
    in_order(lines, keyreg(["report", "--file", file, "--days", str(DAYS)])[1:-1], "due")
    return len(requests), len(wanted)


def look_at_version_1(folder: pathlib.Path) -> int:
    """Each view answers of a file of version 1 as of the same file in version 2, and not all of them nothing."""
    names = re.findall(r"^CREATE TEMP VIEW (\w+)", VIEWS.read_text(encoding="utf-8"), re.M)
    file, later = (folder / f"version_{version}.keyreg" for version in (1, 2))
    with database(file) as connection:
        connection.executescript(VERSION_1.read_text("ascii"))
    shutil.copy(file, later)
    keyreg(["report", "--file", later, "--days", "0"])
    rows = 0
    for name in names:
        answers, wanted = (asked(of_version, f"SELECT * FROM {name}") for of_version in (file, later))
        in_order(answers, wanted, f"{name} of version 1")
        rows += len(answers)
    expect(rows > len(names), f"{rows} rows of {len(names)} views")
    return len(names)


def main() -> None:
    with fresh_folder() as folder:
        requests, keys = look_at_views(folder / "year.keyreg")
        views = look_at_version_1(folder)
    verdict(f"{keys} keys of {requests} requests are as the rules say; {views} views answer of version 1 too")


main()
