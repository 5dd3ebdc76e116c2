#!/usr/bin/env python3
"""Registers that SQLite's own library writes, rebuilds, or wrote in version 1.

    checks/sqlite/by_sqlite3.py [PART..]

    rebuilt   a register in whatever order its rows and in whatever trees its tables stand opens, repeats replies and
              goes on: after VACUUM, with indexes of an office's own, and put together from a dump
    edited    after an edit that breaks one of the tests of opening a register is refused and left as it was
    migrated  an opening takes a file of version 1 to version 2, in which every row stands as it was but for the
              version; each accepted request is answered as it was
    refused   a file of version 1 for which that may not be is left as it was
    beside    a register is made beside an office's own table, which stays as it was
"""
import pathlib
import sqlite3
import sys
from typing import Any

sys.path.insert(1, str(pathlib.Path(__file__).resolve().parents[1] / "shared"))
from answers import register_of
from places import VERSION_1
from registers import ACCEPTED, APPROVED_ANEW, APPROVED_ANEW_ROWS, INDEXES, STATES, TABLES, VERSION
from registers import are_sound, columns_of, database, expect_replies, keyreg, new_register, run_program, sound_rows
from registers import write_first_version, write_register
from rules_shown import tables
from script import expect, fresh_folder, options, verdict
from worked_rows import exchanges_of

# Requests after those of *approved anew*.
MORE = [
    ("110 bob 6 assign 1 eve", "ok 1 Destroyed-Compromised 110"),
    ("111 ann 2 register master eve 0 - - root", "ok 2 Active 111"),
    ("31536111 zed 2 advance", "ok 0 - 31536111"),
]


# ---- rebuilt


def in_another_order(_: pathlib.Path, other: pathlib.Path) -> None:
    rows: dict[str, Any] = {name: rows[::-1] for name, rows in APPROVED_ANEW_ROWS.items() if name != "meta"}
    write_register(other, 109, 1, more="", **rows)


def vacuumed(file: pathlib.Path, other: pathlib.Path) -> None:
    with database(file) as connection:
        connection.execute("VACUUM INTO ?", (str(other),))
    with database(other) as connection:
        connection.execute("DROP INDEX keys_by_activation")
        connection.execute("CREATE INDEX office_by_owner ON keys (owner)")
        connection.execute("VACUUM")


def with_indexes_between(file: pathlib.Path, other: pathlib.Path) -> None:
    """An index after each table, so that each but the first stands in another tree."""
    with database(other) as connection:
        for statement in filter(None, TABLES.splitlines()):
            name = statement.split()[2]
            columns = columns_of(name)
            connection.execute(statement)
            connection.execute(f"CREATE INDEX office_{name} ON {name} ({columns[1]})")
            connection.executemany(f"INSERT INTO {name} VALUES ({', '.join('?' * len(columns))})",
                                   APPROVED_ANEW_ROWS[name])
    trees, others = roots(file), roots(other)
    expect(all(trees[name] != others[name] for name in APPROVED_ANEW_ROWS if name != "meta"), f"the trees are {others}")


def from_dump(file: pathlib.Path, other: pathlib.Path) -> None:
    with database(file) as connection, database(other) as made:
        made.executescript("\n".join(connection.iterdump()))


def roots(file: pathlib.Path) -> dict[str, int]:
    with database(file) as connection:
        return dict(connection.execute("SELECT name, rootpage FROM sqlite_schema WHERE type = 'table'"))


def rebuilt(folder: pathlib.Path) -> str:
    file, ways = folder / "office.keyreg", (in_another_order, vacuumed, with_indexes_between, from_dump)
    new_register(file)
    expect_replies(file, APPROVED_ANEW)
    others = [folder / way.__name__ for way in ways]
    for way, other in zip(ways, others):
        way(file, other)
    expect(any(roots(other) != roots(file) for other in others), "every table has the tree that it had")
    for path in (file, *others):
        for exchanges in (ACCEPTED, MORE, ACCEPTED + MORE):
            expect_replies(path, exchanges)
        expect(sound_rows(path) == sound_rows(file), f"other rows in {path}")
    return f"rebuilt registers in {len(ways)} ways, which open, repeat their replies and go on"


# ---- edited

# The rows of *defaults*, and what its file is made of no register by.
DEFAULTS = tables(register_of((100, "ann", 1, ("register", "data-encryption", "bob", 0, None, None,
                                               "payroll disks")))[0])
EDITS = (
    "UPDATE meta SET key_count = 2", "UPDATE meta SET latest = 253402300800", "UPDATE meta SET version = 0",
    "UPDATE meta SET id = 2", "DELETE FROM meta", "UPDATE meta SET version = 3; INSERT INTO meta VALUES (2, 2, 0, 0)",
    "UPDATE keys SET activation = 50, protect_stop = 40", "UPDATE keys SET occurrence = 50",
    "UPDATE keys SET state = 5", "UPDATE keys SET initial = 101",
    "INSERT INTO custodian (key_no, name) VALUES (1, 'bob')",
    "UPDATE request SET command = 'advance '", "UPDATE request SET state = 7", "UPDATE request SET key_no = 2",
    "UPDATE request SET moment = 101",
    "INSERT INTO period (kind, originator, recipient) VALUES (1, 0, 36)",
    "INSERT INTO period (kind, originator, recipient) VALUES (0, 24, 36)",
    "INSERT INTO period (kind, originator, recipient) VALUES (7, 1201, 0)",
    "INSERT INTO period (kind, originator, recipient) VALUES (1, 24, 1201)",
    "INSERT INTO quorum (key_no, need) VALUES (1, 6)", "INSERT INTO quorum (key_no, need) VALUES (1, 1)",
    "DROP TABLE period", "DROP TABLE approval",
)


def expect_left(file: pathlib.Path, change: str, name: str) -> None:
    """A run over a file that was changed so ends by this name with status 2, and leaves the file byte for byte."""
    content = file.read_bytes()
    done = run_program(["run", "--file", file], b"200 ann 9 advance\n")
    end = (done.returncode, done.stdout, done.stderr)
    expect(end == (2, b"", f"keyreg: {name}\n".encode()), f"{change}: {end}")
    expect(file.read_bytes() == content, f"{change}: it has changed")


def edited(folder: pathlib.Path) -> str:
    for place, edit in enumerate(EDITS):
        file = folder / f"edited_{place}.keyreg"
        new_register(file)
        expect_replies(file, exchanges_of("defaults"))
        with database(file) as connection:
            connection.executescript(edit)
        expect_left(file, edit, "NotARegister")
    return f"made {len(EDITS)} edits by which a register is none, and which were left as they were"


# ---- migrated

# What an office may have beside the register's own tables, and what is in the way of it or makes it no register.
BESIDE = """
CREATE TABLE notes (key_no INTEGER, note TEXT);
CREATE INDEX by_note ON notes (note);
INSERT INTO notes VALUES (1, 'x'), (2, 'y');
"""
OWN = "CREATE INDEX by_moment ON request (moment);" + BESIDE
TAKEN = ("", INDEXES, OWN, INDEXES + OWN + "VACUUM;")
REFUSED = {
    "CREATE TABLE period (kind INTEGER PRIMARY KEY) STRICT;": "NotARegister",
    "CREATE VIEW quorum AS SELECT 1;": "NotARegister",
    "".join(f"INSERT INTO custodian VALUES (1, 'custodian{n}');" for n in range(7)): "NotARegister",
    "UPDATE meta SET version = 3;": "NewerVersion",
    "CREATE INDEX quorum ON keys (owner);": "Store",
}
# What version 1 of *defaults* is no register by: custodians, an approval of none of them, dates that do not fit the
# period of the type, commands that came with version 2, and tables that it added, of whatever kind.
WRONG = (
    "".join(f"INSERT INTO custodian VALUES (1, 'c{n}');" for n in range(9)),
    "UPDATE keys SET protect_stop = 63072001", "UPDATE keys SET deactivation = 157766401",
    "INSERT INTO request VALUES ('bob', 1, 'set-quorum 1 3', 1, 2, 100)",
    "INSERT INTO request VALUES ('office', 1, 'set-period master 12 12', 0, 0, 100)",
    TABLES.strip().splitlines()[-2], "CREATE TABLE quorum (note TEXT)", "CREATE VIEW period AS SELECT 1",
)
# As many custodians as a key of version 1 may have, and what goes on then.
MOST = "".join(f"INSERT INTO custodian VALUES (1, 'c{n}');" for n in range(8)) + OWN
GO_ON = [("50 ann 1 register data-encryption bob 0 - - payroll disks", "ok 1 Active 100"),
         ("200 bob 1 set-quorum 1 3", "ok 1 Active 200")]
GOES_ON = [
    ("110 bob 6 set-quorum 1 3", "ok 1 Destroyed-Compromised 110"),
    ("110 office 1 set-period master 24 12", "ok 0 - 110"),
    ("111 bob 7 assign 1 eve", "ok 1 Destroyed-Compromised 111"),
]


def dump(file: pathlib.Path) -> set[str]:
    """The statements that make all that a file has."""
    with database(file) as connection:
        expect(are_sound(connection), f"{file} is not sound")
        return set(connection.iterdump())


def look_at_migration(file: pathlib.Path, goes_on: list[tuple[str, str]]) -> None:
    """The file is taken to version 2, and its accepted requests are answered as they were."""
    before = dump(file)
    with database(file) as connection:
        requests = connection.execute("SELECT * FROM request").fetchall()
    keyreg(["run", "--file", file])
    after = dump(file)
    gone, added = before - after, sorted(after - before)
    begins = [statement.split("(")[0].strip() for statement in added]
    expect(begins == ["CREATE TABLE period", "CREATE TABLE quorum", 'INSERT INTO "meta" VALUES']
           and gone == {added[-1].replace(f"VALUES(1,{VERSION},", "VALUES(1,1,")}, f"{file}: {gone} became {added}")
    expect_replies(file, [(f"{moment} {caller} {number} {command}", f"ok {key} {STATES[state]} {moment}")
                          for caller, number, command, key, state, moment in requests])
    expect(dump(file) == after, f"{file}: the rows after the repeats")
    expect_replies(file, goes_on)


def migrated(folder: pathlib.Path) -> str:
    for place, more in enumerate(TAKEN):
        file = folder / f"taken_{place}.keyreg"
        write_first_version(file, more)
        look_at_migration(file, GOES_ON)
    file = folder / "most.keyreg"
    write_first_version(file, MOST, DEFAULTS)
    look_at_migration(file, GO_ON)
    # The number of its version put back makes it no register of that one.
    with database(file) as connection:
        connection.execute("UPDATE meta SET version = 1")
    expect_left(file, "version 1 put back", "NotARegister")
    # The file that a program of version 1 wrote.
    file = folder / "version_1.keyreg"
    with database(file) as connection:
        connection.executescript(VERSION_1.read_text("ascii"))
    look_at_migration(file, [("4000 zed 100 advance", "ok 0 - 4000")])
    return f"wrote {len(TAKEN) + 1} files of version 1, which were taken to version 2 as one of an older program was"


def refused(folder: pathlib.Path) -> str:
    for place, (more, name) in enumerate(REFUSED.items()):
        file = folder / f"refused_{place}.keyreg"
        write_first_version(file, more)
        before, content = dump(file), file.read_bytes()
        done = run_program(["run", "--file", file], b"200 ann 9 advance\n")
        end = (done.returncode, done.stdout, done.stderr)
        expect(end == (2, b"", f"keyreg: {name}\n".encode()), f"{more}: {end}")
        # Byte for byte, where the database was not asked to change it.
        expect(dump(file) == before and (name == "Store" or file.read_bytes() == content), f"{more}: it has changed")
    for place, change in enumerate(WRONG):
        file = folder / f"wrong_{place}.keyreg"
        write_first_version(file, change + ";", DEFAULTS)
        expect_left(file, change, "NotARegister")
    return f"wrote {len(REFUSED) + len(WRONG)} that were refused and left as they were"


def beside(folder: pathlib.Path) -> str:
    file = folder / "beside.keyreg"
    with database(file) as connection:
        connection.executescript(BESIDE)
    before = dump(file)
    keyreg(["init", "--file", file])
    expect_replies(file, [("100 ann 1 register data-encryption bob 0 - - payroll disks", "ok 1 Active 100")])
    expect(before <= dump(file), f"an office's own table: {before - dump(file)} is gone")
    expect(len(sound_rows(file)["keys"]) == 1, "a register beside an office's own table")
    return "wrote a table of an office's own, beside which a register was made"


PARTS = {part.__name__: part for part in (rebuilt, edited, migrated, refused, beside)}


def main() -> None:
    for name in options(__doc__, tuple(PARTS)).parts:
        with fresh_folder() as folder:
            print(f"SQLite {sqlite3.sqlite_version} {PARTS[name](folder)}", flush=True)
    verdict("the program takes the files that SQLite's library wrote")


main()
