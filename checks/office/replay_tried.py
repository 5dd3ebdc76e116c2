#!/usr/bin/env python3
"""Puts registers to office/replay.py: those that keyreg wrote, of both versions, drawn ones, and many requests of one
moment; one change in each column of each table, a row too many and one too few; requests that the rules refuse; rows in
another order than in an earlier copy; tables as keyreg reads them, under other names and orders; definitions that are
another than keyreg's; logs of a killed program, whole and damaged. Last a register of many requests, for its time and
memory.

    checks/office/replay_tried.py [--requests N] [--seed N]
"""
import pathlib
import random
import re
import shutil
import sys
import time
from typing import Any, Iterator

sys.path.insert(1, str(pathlib.Path(__file__).resolve().parents[1] / "shared"))
from places import VERSION_1
from command_day import SHORT
from drawn_registers import DAY, FULL, KINDS, anew, at_one_moment, changed, drawn, made, rows_of
from registers import TABLES, File, answered_and_killed, columns_of, copy_files, database, keyreg, new_register
from register_rules import COMMANDS, command_text
from script import expect, fresh_folder, not_none, options, output_of, verdict
from tools import many_requests, run_tool, words_of

# So many bytes any requests may take, and each of them.
LEAST_BYTES, BYTES_OF_ONE = 20 << 20, 250
# What a cell becomes. A request is what is replayed: of its own columns these are changes that the others belie.
OTHER = "CASE typeof({0}) WHEN 'text' THEN 'x' || {0} ELSE {0} + 100 END"
REQUEST = {"caller": "'nobody'", "number": "0", "command": "'assign 1 nobody'", "key_no": "2", "state": "5",
           "moment": "99"}
OWNER_CHANGED = "UPDATE keys SET owner = 'eve' WHERE number = 1"


def replay(file: File, *words: Any) -> tuple[int, list[str]]:
    """The status and the lines of a replay, which leaves what it reads as it was."""
    files = [path for word in (file, *words) for path in (pathlib.Path(f"{word}"), pathlib.Path(f"{word}-wal"))
             if path.is_file()]
    before, done = [path.read_bytes() for path in files], run_tool("replay", file, *words, text=True)
    expect(before == [path.read_bytes() for path in files], f"replay {file} {words} has changed what it read")
    expect(not done.stderr, f"replay {file} {words}: {done.stderr}")
    return done.returncode, done.stdout.splitlines()


def expect_told(file: File, status: int, pattern: str, *statements: str, since: File = "") -> None:
    """A replay of the file, with the changes of these statements, ends so, and a line has the pattern."""
    words = ["--since", since] if since else []
    end, lines = replay(changed(file, *zip(statements)) if statements else file, *words)
    is_told = end == status and any(re.search(pattern, line) for line in lines)
    expect(is_told, f"{file} {words} {statements}: {end}, not {status} with {pattern!r}: {lines[:8]}")


# ---- what is as the requests give


def untouched(folder: pathlib.Path, chance: random.Random) -> tuple[File, File]:
    """Registers of keyreg are what their requests give, and stand in another order where rows of `request` do. Gives
    one of version 1, and one of version 2."""
    first = folder / "first.keyreg"
    with database(first) as connection:
        connection.executescript(VERSION_1.read_text("ascii"))
    expect_told(first, 0, "version 1: each row")
    second = shutil.copy(first, folder / "second.keyreg")
    keyreg(["report", "--file", second, "--days", "0"])
    expect_told(second, 0, "version 2: each row")
    full, _ = made(folder, "full", FULL)
    expect_told(full, 0, "each row")
    for name, lines, told in (("dense", drawn(chance, 1500, (0, 0, 0, 0, 0, DAY)), "in another order than that of"),
                              ("sparse", drawn(chance, 1500, (0, DAY, 30 * DAY)), "in another order than that of"),
                              ("level", at_one_moment(400), "another one than the rows'")):
        file, accepted = made(folder, name, lines)
        expect(accepted > 200, f"{accepted} requests were accepted")
        expect_told(file, 0, "2800 requests share their moment" if name == "level" else "each row")
        with database(copy_files(file, f"{file}.shuffled")) as connection:
            rows = connection.execute("DELETE FROM request RETURNING *").fetchall()
            chance.shuffle(rows)
            connection.executemany("INSERT INTO request VALUES (?, ?, ?, ?, ?, ?)", rows)
        expect_told(f"{file}.shuffled", 3, told)
    return first, full


def read_as_keyreg(folder: pathlib.Path, full: File) -> None:
    """What the program opens is read: names in any case, columns in any order and more of them, keys or none. What is
    no register ends with 2."""
    for name, statements in {
            "tables in capitals": ["ALTER TABLE keys RENAME TO more", "ALTER TABLE more RENAME TO KEYS"],
            "columns in another order": anew("request", "moment, state, key_no, command, number, caller"),
            "columns in capitals": ["ALTER TABLE request RENAME COLUMN moment TO MOMENT",
                                    "ALTER TABLE keys RENAME COLUMN owner TO Owner"],
            "a column more": ["ALTER TABLE keys ADD COLUMN more INTEGER"],
            "a column rowid": anew("request", "*, 100 - rowid AS rowid")}.items():
        file = shutil.copy(changed(full, *zip(statements)), folder / "as_keyreg.keyreg")
        expect_told(file, 0, "each row")
        expect_told(file, 1, "keys 1: owner is 'eve'.*'bob'", OWNER_CHANGED)
        replies = keyreg(["run", "--file", file], ["400 zed 9 advance"])
        expect(replies == ["ok 0 - 400"], f"{name}: the program does not take it, {replies}")
    for statements in (["UPDATE meta SET version = 3"], ["DROP TABLE approval"], ["ALTER TABLE meta RENAME TO other"],
                       ["ALTER TABLE keys ADD COLUMN more INTEGER AS (number * 2)"],
                       ["ALTER TABLE keys RENAME COLUMN owner TO holder"],
                       ["ALTER TABLE period RENAME TO other", "CREATE VIEW period AS SELECT * FROM other"]):
        expect_told(full, 2, "cannot be read", *statements)
    text, empty = folder / "text", folder / "empty"
    text.write_text("no database", encoding="ascii")
    empty.write_bytes(b"")
    for path in (text, folder / "none", empty, folder):
        expect_told(path, 2, "cannot be read")


# ---- what is not


def changes_of(file: File) -> Iterator[tuple[int, str, str]]:
    """A change in each column of each table, a row too many and one too few, each with the status and how the line
    begins that tells it."""
    for table in rows_of(file):
        first, *others = columns = columns_of(table)
        row, values = f"rowid = (SELECT max(rowid) FROM {table})", {column: OTHER.format(column) for column in columns}
        more, gone = ", ".join([f"{first} + 100", *others]), row
        if table == "request":
            row, values = "command IN ('set-quorum 3 3', 'assign 9 fay')", REQUEST
            more, gone = "'zed', 900, 'register master bob - - - x', 51, 1, 99", "rowid = 1"
        for column, value in values.items():
            names_row = column == first or table in ("custodian", "approval", "request")
            status, told = (2, "") if column == "version" else (1, f"^{table} " + f".*{column} is " * (not names_row))
            yield status, told, f"UPDATE {table} SET {column} = {value} WHERE {row}"
        # Without its one row in `meta` it is no register.
        status, told = (2, "") if table == "meta" else (1, f"^{table} ")
        yield status, told, f"INSERT INTO {table} SELECT {more} FROM {table} WHERE {row}"
        yield status, told, f"DELETE FROM {table} WHERE {gone}"


def planted(folder: pathlib.Path, first: File, full: File) -> int:
    """Changes, and requests that the rules of the file's version refuse; how many there were. Each is found."""
    few, _ = made(folder, "few", at_one_moment(3))
    put = "INSERT INTO request VALUES ('{}', {}, '{}', 4, 2, 3001)".format
    changes = [(file, status, told, [statement]) for file in (first, full)
               for status, told, statement in changes_of(file)]
    changes += [
        (full, 1, "the rules refuse it, NotOwner", [put("ann", 900, "assign 3 bob")]),
        (full, 1, "it is none by the rules of version 2", [put("bob", 900, "activate 01")]),
        (full, 1, "quorum: a table of version 2", ["UPDATE meta SET version = 1"]),
        *((first, 1, "it is none by the rules of version 1", [put("zed", 900, command_text(asked.request.command))])
          for asked in SHORT if COMMANDS[asked.request.word].since > 1),
        # The ninth custodian of version 1.
        (first, 1, "'fay', 906.* the rules refuse it, TooManyCustodians",
         [put("fay", 900 + place, f"add-custodian 9 name{place}") for place in range(7)]),
        # What no order of the requests of one moment gives.
        (few, 1, "^request .'bob', 29.* state is 1", ["UPDATE request SET state = 1 WHERE command = 'destroy 2'"]),
        (few, 1, "^approval .2, 'cat'.* no row", ["DELETE FROM approval WHERE key_no = 2 AND name = 'cat'"])]
    changes += [(full, 1, "^request .'ann', 1.: its row is there 2 times",
                 [*anew("request"), f"INSERT INTO request SELECT {row} FROM request WHERE rowid = 1"])
                for row in ("*", "caller, number, 'advance', 0, 0, moment")]
    for file, status, told, statements in changes:
        expect_told(file, status, told, *statements)
    return len(changes)


def swapped(first: int, second: int) -> list[str]:
    """Statements after which these two rows of `request` stand in each other's places."""
    return [f"UPDATE request SET rowid = {new} WHERE rowid = {old}"
            for old, new in ((first, -1), (second, first), (-1, second))]


def earlier_copies(folder: pathlib.Path, full: File, chance: random.Random) -> int:
    """Under --since what an earlier copy belies is found, also where the copy alone shows nothing, and nothing is
    reported of what SQLite rebuilt. Gives how many were found."""
    later = shutil.copy(changed(full, ("UPDATE meta SET latest = 400",),
                                ("INSERT INTO request VALUES ('zed', 9, 'advance', 0, 0, 400)",)), folder / "later")
    expect_told(later, 0, "each row", since=full)
    periods, _ = made(folder, "periods", [
        "100 ann 1 register master bob - - - x", "200 office 1 set-period master 6 0",
        "200 office 2 set-period master 7 0", "200 bob 1 set-quorum 1 3", "200 bob 2 set-quorum 1 4"])
    early = shutil.copy(changed(periods, ("UPDATE meta SET latest = 200",)), folder / "early.keyreg")
    file, accepted = made(folder, "goes_on", drawn(chance, 300, (0, 0, DAY)))
    half = accepted // 2
    before = shutil.copy(changed(file, ("DELETE FROM request WHERE rowid > ?", (half,))), folder / "before.keyreg")
    renumbered = "UPDATE request SET number = 77 WHERE command = 'advance' AND moment = 300"
    put_in, told = "INSERT INTO request VALUES ('zed', 78, 'advance', 0, 0, 250)", "'zed', 78.: it came in since"
    cases = [
        (later, full, 1, "and in the earlier copy", [renumbered]), (later, full, 1, told, [put_in]),
        (later, full, 1, told, [renumbered, put_in]),
        (periods, early, 1, "stand in another order", [*swapped(2, 3), "UPDATE period SET originator = 6"]),
        (periods, early, 3, "another one than the rows'", ["UPDATE quorum SET need = 3"]),
        (periods, early, 1, "stands among those of it",
         ["UPDATE request SET rowid = rowid + 10 WHERE rowid > 3",
          "INSERT INTO request (rowid, caller, number, command, key_no, state, moment) "
          "VALUES (4, 'zed', 1, 'advance', 0, 0, 200)"]),
        *((file, before, 1, "stand in another order", swapped(*chance.sample(range(1, half + 1), 2)))
          for _ in range(10))]
    for changed_file, earlier, status, told, statements in cases:
        expect_told(changed_file, status, told, *statements, since=earlier)
    vacuumed, dumped = f"{file}.vacuumed", f"{file}.dumped"
    with database(file) as source, database(dumped) as target:
        source.execute("VACUUM INTO ?", (vacuumed,))
        target.executescript("\n".join(source.iterdump()))
    for whole in (vacuumed, dumped, file):
        expect_told(whole, 0, "each row", since=before)
    return len(cases)


def remade(table: str, old: str, new: str) -> list[str]:
    """Statements that make a table of the register again with this change of its definition."""
    made = not_none(re.search(rf"(?m)^CREATE TABLE {table} (.*);$", TABLES))[1]
    expect(old in made, f"no {old!r} in {made}")
    return [f"CREATE TABLE other {made.replace(old, new, 1)}",
            f"INSERT INTO other SELECT * FROM {table} ORDER BY rowid", f"DROP TABLE {table}",
            f"ALTER TABLE other RENAME TO {table}"]


def defined_otherwise(folder: pathlib.Path, first: File, full: File) -> int:
    """A definition that another program changed is told by its table, and is a difference where the earlier copy had
    another; how many there were. Nothing is told of tables that were made again as they were, and of what an office
    has beside them."""
    cases = [(table, remade(table, ") STRICT", ")")) for table in rows_of(full)] + [
        ("request", remade("request", "TEXT NOT NULL", "TEXT NOT NULL COLLATE NOCASE")),
        ("request", remade("request", "PRIMARY KEY (caller, number)", "PRIMARY KEY (caller COLLATE NOCASE, number)")),
        ("keys", remade("keys", "TEXT NOT NULL", "TEXT NOT NULL CHECK (owner <> 'zed')")),
        ("keys", remade("keys", "purpose TEXT NOT NULL", "purpose TEXT")),
        ("approval", remade("approval", " ON DELETE CASCADE", "")),
        ("custodian", remade("custodian", " REFERENCES keys(number)", "")),
        ("period", remade("period", "recipient INTEGER NOT NULL", "recipient INTEGER NOT NULL DEFAULT 0")),
        ("quorum", ["ALTER TABLE quorum ADD COLUMN more INTEGER"]),
        ("trigger late", ["CREATE TRIGGER late AFTER INSERT ON request BEGIN SELECT 1; END"]),
        ("index once", ["CREATE UNIQUE INDEX once ON request (moment, caller, number)"])]
    told = "^schema: {} is .* in the earlier copy it was".format
    for name, statements in cases:
        expect_told(full, 0, f"^schema: {name} is ", *statements)
        expect_told(full, 0, r"each row of each table .*; definitions that are not keyreg's: 1$", *statements)
        expect_told(full, 1, told(name), *statements, since=full)
        expect_told(full, 1, told(name), since=shutil.copy(changed(full, *zip(statements)), folder / "other.keyreg"))
    later = shutil.copy(first, folder / "later_version")
    keyreg(["report", "--file", later, "--days", "0"])
    spelled = ['CREATE TABLE other (\n\tkey_no integer /* its key */ PRIMARY KEY REFERENCES "keys" ([number]),\n\t'
               '`need` Integer not null -- 2 to 5\n) Strict', "INSERT INTO other SELECT * FROM quorum",
               "DROP TABLE quorum", "ALTER TABLE other RENAME TO quorum"]
    alike: list[tuple[File, File, list[str]]] = [
            (first, first, []), (full, full, []), (later, first, []), (full, full, remade("request", "", "")),
            (full, full, spelled), (full, full, ["CREATE INDEX of_callers ON request (caller COLLATE NOCASE)",
                                                 "CREATE TABLE mine (a UNIQUE)", "CREATE UNIQUE INDEX b ON mine (a)",
                                                 "CREATE TRIGGER c AFTER INSERT ON mine BEGIN SELECT 1; END"])]
    for file, earlier, statements in alike:
        status, lines = replay(changed(file, *zip(statements)), "--since", earlier)
        expect(status == 0 and not any("schema" in line or "definitions" in line for line in lines),
               f"{file} {statements}: {status}, {lines}")
    return len(cases)


# ---- logs, and many requests


def logs(folder: pathlib.Path) -> int:
    """Of logs that a killed program left, whole and damaged, the frames that count are those that SQLite counts as it
    copies them into a copy of the file."""
    file = folder / "killed.keyreg"
    new_register(file)
    answered_and_killed(file, FULL)
    log = pathlib.Path(f"{file}-wal")
    whole, salt = log.read_bytes(), b"12345678"
    size = 24 + int.from_bytes(whole[8:12], "big")
    room = range(32, len(whole) - size + 1, size)
    places = [at for at in room if any(whole[at:at + 24])]
    half, middle = places[len(places) // 2], places[len(places) // 3] + 700
    older = b"".join(whole[at:at + 8] + salt + whole[at + 16:at + size] for at in places if at >= half)
    ways = {"whole": whole, "cut off": whole[:half], "over an earlier log": whole[:half] + older,
            "no header": bytes(1) + whole[1:],
            "a byte in the middle": whole[:middle] + bytes([whole[middle] ^ 1]) + whole[middle + 1:],
            "a frame of another": whole[:half + 8] + salt + whole[half + 16:]}
    for name, raw in ways.items():
        log.write_bytes(raw)
        with database(copy_files(file, f"{file}.counted")) as connection:
            count = max(connection.execute("PRAGMA wal_checkpoint").fetchone()[1], 0)
        lines = [line for line in replay(file)[1] if line.startswith("log: ")]
        # Room that was never written is no frame, as far as a header tells the size of one.
        frames = len(room) if name == "no header" else sum(any(raw[at:at + 24]) for at in places)
        wanted = f"log: {count} of its frames count, and {frames - count} that follow do not"
        expect(lines and lines[0].startswith(wanted), f"{name}: {lines}, not {wanted}")
        loses = name in ("a byte in the middle", "a frame of another")
        expect(loses == any("what stood behind it is lost" in line for line in lines), f"{name}: {lines}")
        expect(name != "whole" or count == len(places), f"{count} of {len(places)} frames count")
    return len(ways)


def measured(folder: pathlib.Path, count: int) -> float:
    """The seconds that a register of so many requests takes, some of each kind, in no more memory than it may."""
    file, accepted = made(folder, f"many_{count}", many_requests(count, KINDS, [f"rack {n}" for n in range(1000)]))
    expect(accepted == count // 2 * 2, f"{accepted} of {count} accepted")
    begun = time.monotonic()
    output_of(["prlimit", f"--data={LEAST_BYTES + BYTES_OF_ONE * count}", *words_of("replay", file)])
    seconds = time.monotonic() - begun
    expect_told(file, 1, "keys 1: owner is 'eve'.*'bob'", OWNER_CHANGED)
    return seconds


def main() -> None:
    given = options(__doc__, requests=100_000, seed=random.randrange(1_000_000))
    print(f"seed {given.seed}", flush=True)
    chance = random.Random(given.seed)
    with fresh_folder(2**28) as folder:
        first, full = untouched(folder, chance)
        count = planted(folder, first, full) + earlier_copies(folder, full, chance)
        read_as_keyreg(folder, full)
        definitions = defined_otherwise(folder, first, full)
        kinds = logs(folder)
        few, seconds = measured(folder, given.requests // 4), measured(folder, given.requests)
    expect(seconds <= 8 * few, f"{given.requests} requests took {seconds:.1f} seconds, and a quarter of them {few:.1f}")
    verdict(f"registers are what their requests give; each of {count} planted changes was found, and of {definitions} "
            f"in definitions; {kinds} logs were counted as SQLite does; {given.requests} requests took {seconds:.1f} "
            "seconds and no more memory than they may")


main()
