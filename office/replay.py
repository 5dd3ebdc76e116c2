#!/usr/bin/env python3
"""Tells whether a register is what its accepted requests give. Nothing of keyreg is needed or asked.

    office/replay.py COPY [--since EARLIER]

COPY is a copy of a register's file, of version 1 or 2, with its log COPY-wal beside it (docs/AUDIT.md takes one).
Neither is written to. The requests of its table `request` are taken one after the other by the rules of
docs/SPECIFICATION.md, which stand anew in register_rules.py beside this file. Each has to be accepted, with the reply
that is kept of it, and each row of each table has to be what they give. What differs is printed by table, row and
column. The last line is the verdict. The status is

    0  all is as the requests give, in the order of their rows
    1  something differs
    2  COPY, or EARLIER, cannot be read as a register
    3  all is as the requests give, but in another order than that of their rows: keyreg writes no such file

The order. Requests are taken by their moments, and those of one moment as their rows stand, which keyreg writes as it
accepts, and which VACUUM and a dump keep. Where something differs in that order, another one is looked for, by
other_order.py, which stands beside this file. It only proposes: the verdict is always that of one plain replay, in the
order that is named. So a 3 says that there is an order that gives the tables, not that it is the only one or the true
one.

What it cannot know: whether the requests are those that were made. Who may write to the file may write another
history, with rows that agree with it. --since shows that each request of an earlier copy stands in COPY as it stood
and in the order in which it stood, before all that came since, and that nothing came since with a moment below the
earlier copy's latest.

A file that was taken from version 1 to version 2 does not tell when. All its requests are put to the rules of version
2: what version 1 accepted they accept, with the same reply. So a ninth custodian, whom version 1 refused, may be there
from any moment on. A file of version 1 is put to its own rules.

What keyreg reads is read: tables and columns by their names, in any case and order, and no column more is looked at.
keyreg looks at no definition, but what it finds and keeps hangs on them. So a line tells each table of the register
that is defined otherwise than keyreg does it, each trigger and each unique index on one; with --since it is a
difference where the earlier copy had it otherwise. It reports which part of the log counts (log_frames.py). No more
than one row of a request, and each key in few bytes, are held: a million registrations took 240 MB, and it takes more
where another order is looked for.
"""
import argparse
import collections
import contextlib
import filecmp
import heapq
import itertools
import marshal
import operator
import os
import pathlib
import re
import shutil
import sqlite3
import sys
import tempfile
from typing import Iterable, Iterator, MutableMapping, Optional, Sequence

# What is read from beside this file leaves none there.
sys.dont_write_bytecode = True
from register_rules import (GREATEST_NUMBER, LAST, NAME, Key, Refused, Register, Request, Row, command_of, key_rows,
                            other_rows, text_of)

# ---- a file

# The columns of each table, and how many of them tell its rows apart. Version 1 has the first five.
TABLES = {
    "meta": (("id", "version", "latest", "key_count"), 1),
    "keys": (("number", "kind", "owner", "purpose", "state", "initial", "activation", "protect_stop", "deactivation",
              "destroyed", "compromised", "occurrence"), 1),
    "custodian": (("key_no", "name"), 2),
    "approval": (("key_no", "name"), 2),
    "request": (("caller", "number", "command", "key_no", "state", "moment"), 2),
    "period": (("kind", "originator", "recipient"), 1),
    "quorum": (("key_no", "need"), 1),
}
OF_TEXT = {"owner", "purpose", "name", "caller", "command"}
# What `key_no` refers to, and what stands behind the columns.
REFERS = {name: " REFERENCES keys(number)" for name in ("custodian", "quorum")}
ENDS = {"approval": ", FOREIGN KEY (key_no, name) REFERENCES custodian(key_no, name) ON DELETE CASCADE"}
# A remark or room, a text, a name in quotes, a word or a mark of SQL.
TOKEN = re.compile(r"(--[^\n]*|/\*.*?(?:\*/|$)|\s+)|'(?:[^']|'')*'|\"((?:[^\"]|\"\")*)\"|\[([^\]]*)\]|`([^`]*)`|\w+|.",
                   re.S)


def definition(name: str) -> str:
    """The statement that makes a table, as keyreg writes it."""
    columns, width = TABLES[name]
    cells = [f"{column} {'TEXT' if column in OF_TEXT else 'INTEGER'} NOT NULL" for column in columns]
    cells[0] = cells[0].replace("NOT NULL", "PRIMARY KEY") if width == 1 else cells[0]
    cells[0] += REFERS.get(name, "")
    keys = f", PRIMARY KEY ({', '.join(columns[:width])})" if width > 1 else ""
    return f"CREATE TABLE {name} ({', '.join(cells)}{keys}{ENDS.get(name, '')}) STRICT"


def wanted_of(name: str) -> str:
    """What keyreg makes by this name: a table, or nothing."""
    return definition(name) if name in TABLES else "none"


def tokens(sql: str) -> list[str]:
    """A statement as SQLite reads it: without remarks and quotes of names, and texts alone in their case."""
    return [token[0] if token[0][0] == "'" else ((token[2] or token[3] or token[4] or token[0]).lower())
            for token in TOKEN.finditer(sql) if not token[1]]


def accepted_of(row: Row, version: int) -> Request:
    """The request of a row of the table `request`; ValueError where it is none by the rules of the version."""
    caller, number, command, key_no, state, moment = row
    if not (NAME.fullmatch(caller) and 1 <= number <= GREATEST_NUMBER and 0 <= moment <= LAST):
        raise ValueError(command)
    return Request(moment, caller, number, command_of(command, version), key_no, state)


class Unreadable(Exception):
    """The file is no register of a version that is known here."""


@contextlib.contextmanager
def opened(path: str, tries: int = 1) -> Iterator[sqlite3.Connection]:
    """A connection to a copy of the file and its log, so that SQLite makes no file beside them. Where the database was
    written to while its log was copied, the copy is begun anew, so often at most. Texts are read whatever their bytes
    are."""
    with tempfile.TemporaryDirectory() as folder:
        other = pathlib.Path(folder, "copy")
        try:
            while not is_copied(path, str(other)):
                tries -= 1
                if tries < 1:
                    raise Unreadable("it is being written to: take a copy")
            with contextlib.closing(sqlite3.connect(other.as_uri() + "?mode=ro", uri=True)) as connection:
                connection.text_factory = lambda raw: raw.decode(errors="surrogateescape")
                yield connection
        except (OSError, sqlite3.Error) as fault:
            raise Unreadable(fault) from None


def is_copied(path: str, other: str) -> bool:
    """Copies the database and then its log, and tells whether the database is still what was copied."""
    for end in ("", "-wal"):
        if os.path.exists(other + end):
            os.remove(other + end)
        if not end or os.path.exists(path + end):
            shutil.copyfile(path + end, other + end)
    filecmp.clear_cache()
    return filecmp.cmp(path, other, shallow=False)


def row_place(columns: dict[str, int]) -> str:
    """The name under which SQLite gives a row's place in its table, where the table has these columns."""
    return next(place for place in ("rowid", "_rowid_", "oid") if place not in columns)


def columns_of(connection: sqlite3.Connection, name: str) -> dict[str, int]:
    """The names of a table's columns, in small letters, each with whether it is hidden or made of others."""
    return {row[1].lower(): row[-1] for row in connection.execute(f'PRAGMA table_xinfo("{name}")')}


class File:
    """The rows of a file's tables, in their order, and what is wrong with the file itself."""

    def __init__(self, connection: sqlite3.Connection) -> None:
        self.connection = connection
        self.faults: list[str] = []
        made = {name.lower(): (name, sql) for name, sql in
                connection.execute("SELECT name, sql FROM sqlite_schema WHERE type = 'table'")}
        has_meta, asked = "meta" in made, "SELECT version FROM meta LIMIT 2"
        versions = connection.execute(asked).fetchall() if has_meta else "no table meta"
        if versions not in ([(1,)], [(2,)]):
            raise Unreadable(f"of versions 1 and 2 it has {versions}")
        self.version = versions[0][0]
        self.faults += [f"file: {line}" for line, in connection.execute("PRAGMA integrity_check") if line != "ok"]
        self.kept = list(TABLES)[:5 if self.version == 1 else 7]
        self.faults += [f"{name}: a table of version 2 in a file of version 1" for name in TABLES
                        if name in made and name not in self.kept]
        self.places = {name: self.place_of(*made.get(name, (name, ""))) for name in self.kept}
        self.defined = {name: tokens(made[name][1]) for name in self.kept} | dict(self.further())
        self.schema = [f"schema: {name} is {' '.join(words)}, and keyreg makes {wanted_of(name)}"
                       for name, words in self.defined.items() if words != tokens(wanted_of(name))]
        for name in self.kept:
            mistyped = self.rows(name, where=self.is_mistyped(name))
            self.faults += [f"{name} {row}: a cell of another type" for row in mistyped]
        self.look_at_requests()

    def place_of(self, name: str, sql: str) -> str:
        """The name under which a row's place is read. The table has the columns, and none is made of others."""
        columns, wanted = columns_of(self.connection, name), TABLES[name.lower()][0]
        if not columns.keys() >= set(wanted) or any(columns.values()) or not sql.upper().startswith("CREATE TABLE"):
            raise Unreadable(f"it has no table {name} with the columns {wanted}")
        return row_place(columns)

    def further(self) -> Iterator[tuple[str, list[str]]]:
        """The triggers and the unique indexes on the tables, each by a name that no table has, in tokens."""
        for kind, name, table, sql in self.connection.execute(
                "SELECT type, name, tbl_name, sql FROM sqlite_schema WHERE type IN ('trigger', 'index') AND sql <> ''"):
            if table.lower() in self.kept and (kind == "trigger" or tokens(sql)[1] == "unique"):
                yield f"{kind} {name}", tokens(sql)

    @staticmethod
    def is_mistyped(name: str) -> str:
        return " OR ".join(f"typeof({column}) <> '{'text' if column in OF_TEXT else 'integer'}'"
                           for column in TABLES[name][0])

    def rows(self, name: str, order: str = "", where: str = "1") -> Iterator[Row]:
        """The rows of a table as they stand, or first by a column. No index of it is asked."""
        columns, by = ", ".join(TABLES[name][0]), f"{order}, " if order else ""
        return self.connection.execute(
            f"SELECT {columns} FROM {name} NOT INDEXED WHERE {where} ORDER BY {by}{self.places[name]}")

    def count(self, name: str) -> int:
        count: int = self.connection.execute(f"SELECT count(*) FROM {name} NOT INDEXED").fetchone()[0]
        return count

    def look_at_requests(self) -> None:
        """Whether their rows go by their moments, which are there twice, and how many share their moment."""
        before = f"lag(moment, 1, -1) OVER (ORDER BY {self.places['request']})"
        self.goes_by_moments = not self.connection.execute(
            f"SELECT count(*) FROM (SELECT moment, {before} AS before FROM request NOT INDEXED "
            "WHERE typeof(moment) = 'integer') WHERE before > moment").fetchone()[0]
        self.twice = {(caller, number): count for caller, number, count in self.connection.execute(
            "SELECT caller, number, count(*) FROM request NOT INDEXED "
            "GROUP BY caller COLLATE BINARY, number HAVING count(*) > 1")}
        self.faults += [f"request {place}: its row is there {count} times" for place, count in self.twice.items()]
        self.shared = self.connection.execute(
            "SELECT count(*), sum(many), min(moment) FROM (SELECT moment, count(*) AS many FROM request NOT INDEXED "
            "WHERE typeof(moment) = 'integer' GROUP BY moment HAVING many > 1)").fetchone()

    def requests(self, faults: Optional[list[str]] = None) -> Iterator[Request]:
        """The requests by their moments, and then as their rows stand. A row that is none is a fault. Of the rows of
        one caller and number the first is taken."""
        came = set[Row]()
        for row in self.rows("request", "" if self.goes_by_moments else "moment"):
            place = row[:2]
            if place in came:
                continue
            came |= self.twice.keys() & {place}
            try:
                yield accepted_of(row, self.version)
            except (ValueError, TypeError, AttributeError):
                if faults is not None:
                    faults.append(f"request {row}: it is none by the rules of version {self.version}")


# ---- the replay

class Keys(MutableMapping[int, Key]):
    """Keys by their numbers, each in few bytes."""

    def __init__(self) -> None:
        self.packed: dict[int, bytes] = {}

    def __getitem__(self, number: int) -> Key:
        return Key(*marshal.loads(self.packed[number]))

    def __setitem__(self, number: int, key: Key) -> None:
        self.packed[number] = marshal.dumps(tuple(key), 2)

    def __delitem__(self, number: int) -> None:
        del self.packed[number]

    def __iter__(self) -> Iterator[int]:
        return iter(self.packed)

    def __len__(self) -> int:
        return len(self.packed)


class Replay(Register):
    """What accepted requests give. What the rules do not give is a fault."""

    def __init__(self, version: int) -> None:
        super().__init__(version)
        self.keys, self.newest, self.should_be = Keys(), 0, 0
        self.faults: list[str] = []

    def next_number(self, request: Request) -> int:
        """A key is kept under its reply's number, which is the next one, lest one fault make many."""
        self.should_be = self.newest + 1
        self.newest = request.key_no if request.key_no not in self.keys else self.should_be
        return self.newest

    def take(self, request: Request) -> None:
        self.latest = request.moment
        try:
            key_no, state = self.accept(request)
        except Refused as refused:
            self.faults.append(f"{request}: the rules refuse it, {refused}")
            return
        key_no = self.should_be if request.word == "register" else key_no
        for column, kept, should_be in (("key_no", request.key_no, key_no), ("state", request.state, state)):
            if kept != should_be:
                self.faults.append(f"{request}: {column} is {kept}, and the rules give {should_be}")


def replayed(file: File, requests: Iterable[Request]) -> list[str]:
    """What differs in the file from what the requests give."""
    register, count = Replay(file.version), file.count("request") if sys.stderr.isatty() else 0
    for place, request in enumerate(requests):
        if count and place % 5000 == 0:
            print(f"{place} of {count} requests", end="\r", file=sys.stderr, flush=True)
        register.take(request)
    faults = register.faults
    for name, wanted in other_rows(register).items():
        if name in file.kept:
            faults += differences(name, file.rows(name), wanted)
    return faults + list(key_differences(file, register))


def by_number(name: str, rows: Iterable[Row]) -> Iterator[tuple[int, str, Row]]:
    """Rows with the number of the key that each is about, and with the name of their table."""
    return ((row[0], name, row) for row in rows)


def key_differences(file: File, register: Replay) -> Iterator[str]:
    """A line for each difference in the tables that are about keys, by key, so that the rows of one alone are held."""
    firsts = {name: TABLES[name][0][0] for name in ("keys", "custodian", "approval", "quorum") if name in file.kept}
    found = (by_number(name, file.rows(name, first, f"typeof({first}) = 'integer'")) for name, first in firsts.items())
    number_of = operator.itemgetter(0)
    merged = heapq.merge(*found, by_number("", zip(sorted(register.keys))), key=number_of)
    for number, group in itertools.groupby(merged, number_of):
        rows = collections.defaultdict[str, list[Row]](list)
        for _, name, row in group:
            rows[name].append(row)
        wanted = key_rows(number, register.keys[number], register.latest) if "" in rows else {}
        for name in firsts:
            if rows[name] != wanted.get(name, []):
                yield from differences(name, rows[name], wanted.get(name, ()))
    for name, first in firsts.items():
        yield from differences(name, file.rows(name, where=f"typeof({first}) <> 'integer'"), ())


def differences(name: str, rows: Iterable[Row], wanted: Iterable[Row]) -> Iterator[str]:
    """A line for each cell and each row of a table that is not as the requests give."""
    columns, width = TABLES[name]
    given, seen = {row[:width]: row for row in wanted}, set[Row]()
    for row in rows:
        place = row[:width]
        label = f"{name} {place if width > 1 else place[0]}"
        if place in seen or place not in given:
            yield f"{label}: the row is there, and the requests give none" + " but the one before" * (place in seen)
        elif row != given[place]:
            for column, is_so, should_be in zip(columns, row, given[place]):
                if is_so != should_be:
                    yield f"{label}: {column} is {is_so!r}, and the requests give {should_be!r}"
        seen.add(place)
    for place in sorted(given.keys() - seen):
        yield f"{name} {place if width > 1 else place[0]}: no row is there, and the requests give one"


# ---- the verdict

def by_moment(requests: Iterable[Request]) -> list[list[Request]]:
    return [list(group) for _, group in itertools.groupby(requests, lambda request: request.moment)]


def lines_of_order(file: File, ordered: Optional[list[Request]], met_bound: bool) -> Iterator[str]:
    """Lines that say where the file tells no order, and which one was taken."""
    moments, requests, first = file.shared
    if not file.goes_by_moments:
        yield "order: the rows of request do not go by their moments: another program than keyreg put them so"
    if moments:
        yield (f"order: {requests} requests share their moment with another (moments: {moments}, the "
               f"first {text_of(first)}): of these the file tells no order but that of its rows")
    if ordered:
        groups = zip(by_moment(file.requests()), by_moment(ordered))
        moved = [by_rows[0].moment for by_rows, taken in groups if by_rows != taken]
        yield f"order: another one than the rows' is taken (moments: {len(moved)}, the first {text_of(moved[0])})"
    if met_bound:
        yield "order: the bound was met: not all orders of requests at one moment were tried"


def defined_since(earlier: File, file: File) -> Iterator[str]:
    """What is defined otherwise than in the earlier copy. The tables that version 2 adds may have come."""
    for name in {**earlier.defined, **file.defined}:
        now, then = file.defined.get(name), earlier.defined.get(name)
        if now != then and not (then is None and name in TABLES):
            yield (f"schema: {name} is {' '.join(now or ['none'])}, and in the earlier copy it was "
                   f"{' '.join(then or ['none'])}")


def since(earlier: File, file: File) -> list[str]:
    """What of an earlier copy's requests is not here as it was and in its order, and what came in among them."""
    now = file.rows("request")
    if all(next(now, None) == row for row in earlier.rows("request")):
        latest = earlier.connection.execute("SELECT max(moment) FROM request").fetchone()[0] or 0
        return [f"request {row[:2]}: it came in since the earlier copy, at {row[5]}, below its latest moment {latest}"
                for row in now if row[5] < latest]
    return list(since_in_detail(earlier, file))


def since_in_detail(earlier: File, file: File) -> Iterator[str]:
    """The same of copies that are known to differ, whose rows are all held."""
    now, then = ({row[:2]: row for row in copy.rows("request")} for copy in (file, earlier))
    latest = max((row[5] for row in then.values()), default=0)
    for place, row in then.items():
        if now.get(place) != row:
            yield f"request {place}: {now.get(place, ('', '', 'none'))[2:]} is there, and in the earlier copy {row[2:]}"
    for place, row in now.items():
        if place not in then and row[5] < latest:
            yield f"request {place}: it came in since the earlier copy, at {row[5]}, below its latest moment {latest}"
    stood, stands = [place for place in then if place in now], [place for place in now if place in then]
    moved = [(before, after) for before, after in zip(stood, stands) if before != after]
    if moved:
        yield (f"request {moved[0][1]}: its row stands where that of {moved[0][0]} stood in the earlier copy; so "
               f"{len(moved)} rows stand in another order")
    last = max((at for at, place in enumerate(now) if place in then), default=-1)
    among = [place for at, place in enumerate(now) if at < last and place not in then]
    if among:
        yield (f"request {among[0]}: its row came in since the earlier copy, and stands among those of it; so "
               f"{len(among)} rows do")


def judged(file: File) -> tuple[list[str], list[str], bool]:
    """What differs, and what is to be said of the order; whether it is another one than the rows'."""
    faults, met_bound = replayed(file, file.requests(file.faults)), False
    ordered: Optional[list[Request]] = None
    if faults and file.shared[0]:
        try:
            # It stands beside this file. Where it does not, no other order is looked for.
            from other_order import Search
        except ImportError:
            line = "order: no other was looked for: other_order.py is not beside this file"
            return file.faults + faults, [line], False
        search = Search(file, list(file.requests()))
        other = search.order()
        again = replayed(file, other)
        met_bound = search.met_bound and bool(again)
        if len(again) < len(faults):
            faults, ordered = again, other
    order = list(lines_of_order(file, ordered, met_bound))
    return file.faults + faults, order, bool(ordered) or not file.goes_by_moments


def lines_of_log(path: str) -> list[str]:
    """What is to be said of the log: how much of it counts."""
    if not os.path.exists(path + "-wal"):
        return ["log: none is beside it. If it had one, requests may be missing that stood there alone"]
    try:
        import log_frames
    except ImportError:
        return []
    return log_frames.lines_of_log(path + "-wal")


def main() -> int:
    parser = argparse.ArgumentParser(description="Tells whether a register is what its accepted requests give.")
    parser.add_argument("copy")
    parser.add_argument("--since", metavar="EARLIER", help="an earlier copy of the same register")
    words = parser.parse_args()
    path, before = words.copy, list[str]()
    try:
        with opened(path) as connection:
            file = File(connection)
            if words.since:
                path = words.since
                with opened(path) as other:
                    earlier = File(other)
                    before = [*since(earlier, file), *defined_since(earlier, file)]
                path = words.copy
            faults, order, is_another_order = judged(file)
            counts = f"{file.count('request')} requests, {file.count('keys')} keys, version {file.version}"
            order += file.schema + lines_of_log(path)
    except Unreadable as fault:
        print(f"{path}: it cannot be read as a register: {fault}")
        return 2
    faults += before
    for line in faults + order:
        print(line.encode(errors="backslashreplace").decode())
    verdict = "each row of each table is as the requests give"
    verdict += ", in another order than that of their rows" * is_another_order
    verdict += f"; definitions that are not keyreg's: {len(file.schema)}" if file.schema else ""
    print(f"{words.copy}: {counts}: {f'{len(faults)} differences' if faults else verdict}")
    return 1 if faults else 3 if is_another_order else 0


if __name__ == "__main__":
    sys.exit(main())
