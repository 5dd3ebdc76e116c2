#!/usr/bin/env python3
"""Makes what a page of the desk in the browser cannot ask keyreg: the list that it finds keys by, and their history.

    office/list.py REGISTER LIST [--most KEYS] [--rows COUNT]

REGISTER is a register's file with its log REGISTER-wal beside it, and may be served meanwhile: a copy of both is taken
and read, again where the log went into the database in between. Neither is written to. LIST is a file of JSON, which is
moved into place whole: whoever reads it meanwhile reads the one before. Its owner and its group may read it, and nobody
else; a folder with the setgid bit gives it the folder's group. The last line is the verdict. The status is 0 where the
list was made, 2 where REGISTER cannot be read as a register, 3 where LIST cannot be written; then the list of before
stays.

The list has these members:

    form      2
    made      the clock's second before the copy was begun
    latest    the latest accepted moment
    count     how many keys there are
    periods   of each type whose period was set, its originator and its recipient months
    names     the names of owners, custodians and callers; others have them by their places here, from 0
    types     the seven types; keys have them by their places here
    keys      a column for each member of a key that `GET /keys/<key>` has, but `number` and `state`, and `replaces`,
              the number of the key that it replaces by the end of its purpose, or null. The n-th cell of each is
              key n's
    history   the name of a folder below `history` beside LIST

A register of more keys than --most, which is 100,000, has null as its `keys` and its `history`: a page that is to hold
more takes long. The columns are made as bytes, row by row, so that little more than the list itself is held.

The folder has each accepted request but advances, in files of at most --rows of them, which is 500: `keys-0.json` and
so on those that name a key, by the numbers of the keys, and `callers-0.json` and so on all, by the names of the
callers; those of one stand as they were accepted. Each is a row: its place among all requests, its key or 0, its
caller, its number, its moment, the state's code that its reply has or 0, and its command's text. `index.json` has the
key and the caller of the first row of each file as `keys` and `callers`, and as `periods` of each period that was set
its place, its type and its months. Nothing in it changes: where a request comes, the next call makes another folder,
and leaves this one until the call after.
"""
import argparse
import contextlib
import itertools
import json
import operator
import os
import pathlib
import shutil
import sqlite3
import sys
import tempfile
import time
from typing import Any, Iterable, Iterator, Mapping, Optional

# What is read from beside this file leaves none there.
sys.dont_write_bytecode = True
from register_rules import TYPES, UNSET, command_of, predecessor, text_of
from replay import Unreadable, columns_of, opened, row_place

# How often a copy is begun anew of a register that is written to meanwhile.
TRIES = 50
DATES = ("activation", "protect_stop", "deactivation", "destroyed", "compromised", "occurrence")
# After each key.
END = (float("inf"), ())
COLUMNS = ("type", "owner", "purpose", "initial", *DATES, "need", "custodians", "approvals", "replaces")


json_text = json.JSONEncoder(ensure_ascii=False).encode


def as_bytes(text: str) -> bytes:
    """The bytes of a text of JSON. What is no UTF-8 in a register is an escape."""
    return text.encode(errors="backslashreplace")


class Unwritable(Exception):
    """A file of the history cannot be written."""


class Names(dict[str, int]):
    """The places of names, in the order in which they are asked for."""

    def __missing__(self, name: str) -> int:
        return self.setdefault(name, len(self))


def has_table(connection: sqlite3.Connection, name: str) -> bool:
    asked = "SELECT count(*) FROM sqlite_schema WHERE type = 'table' AND lower(name) = ?"
    return bool(connection.execute(asked, [name]).fetchone()[0])


class Beside:
    """The names that a table has of each key, by the numbers of the keys, so that those of one alone are held."""

    def __init__(self, connection: sqlite3.Connection, table: str, names: Names) -> None:
        self.groups = itertools.groupby(connection.execute(
            f"SELECT key_no, name FROM {table} WHERE typeof(key_no) = 'integer' "
            "ORDER BY key_no, name COLLATE BINARY"), operator.itemgetter(0))
        self.names, self.ahead = names, next(self.groups, END)

    def of(self, number: int) -> str:
        """The places of the names of this key, which comes after those that were asked for before it."""
        while self.ahead[0] < number:
            self.ahead = next(self.groups, END)
        rows = self.ahead[1] if self.ahead[0] == number else ()
        return f"[{','.join(str(self.names[name]) for _, name in rows)}]"


def rows_of(connection: sqlite3.Connection, names: Names) -> Iterator[tuple[str, ...]]:
    """Each key's cells as JSON."""
    custodians, approvals = (Beside(connection, table, names) for table in ("custodian", "approval"))
    needs = dict(connection.execute("SELECT key_no, need FROM quorum")) if has_table(connection, "quorum") else {}
    asked = ("SELECT number, kind, owner, purpose, initial, activation, protect_stop, deactivation, destroyed, "
             "compromised, occurrence FROM keys ORDER BY number")
    for place, (number, kind, owner, purpose, initial, *dates) in enumerate(connection.execute(asked), 1):
        if number != place or not 1 <= kind <= len(TYPES):
            raise Unreadable(f"key {number} of type {kind} stands at place {place}")
        yield (str(kind - 1), str(names[owner]), json_text(purpose), str(initial),
               *("null" if date == UNSET else str(date) for date in dates), str(needs.get(number, 2)),
               custodians.of(number), approvals.of(number), str(predecessor(number, purpose) or "null"))


def columns(connection: sqlite3.Connection, names: Names) -> dict[str, bytearray]:
    """The columns of the keys as JSON, in bytes, by their names."""
    made, rows = {name: bytearray() for name in COLUMNS}, rows_of(connection, names)
    while some := list(itertools.islice(rows, 1000)):
        for name, cells in zip(COLUMNS, zip(*some)):
            made[name] += (b"," if made[name] else b"") + as_bytes(",".join(cells))
    return made


# ---- the history

class History:
    """The files of a register's accepted requests but advances, in a folder that is named by the last of them."""

    def __init__(self, connection: sqlite3.Connection, folder: pathlib.Path) -> None:
        self.connection, self.place = connection, row_place(columns_of(connection, "request"))
        self.rows = "FROM request NOT INDEXED WHERE command <> 'advance'"
        last = connection.execute(f"SELECT {self.place}, moment {self.rows} ORDER BY 1 DESC LIMIT 1").fetchone()
        self.folder = folder / "-".join(map(str, last or (0, 0)))

    def put(self, count: int) -> None:
        """Makes the folder, with files of so many rows, where it is not there yet."""
        if self.folder.exists():
            return
        made = self.folder.with_name(f".{self.folder.name}")
        shutil.rmtree(made, ignore_errors=True)
        made.parent.mkdir(exist_ok=True)
        made.mkdir()
        # A million texts go from the database to the files as they are.
        self.connection.text_factory = bytes
        index = {"keys": list(self.files(made / "keys", "key_no", "typeof(key_no) = 'integer' AND key_no > 0", count)),
                 "callers": list(self.files(made / "callers", "caller", "1", count)), "periods": self.periods()}
        (made / "index.json").write_bytes(as_bytes(json.dumps(index)))
        # All of it at once, before anybody finds it.
        os.sync()
        made.rename(self.folder)

    def files(self, path: pathlib.Path, column: str, where: str, count: int) -> Iterator[Any]:
        """Writes the files of the requests by the value of a column, and gives that of the first row of each."""
        rows = self.connection.execute(
            f"SELECT {column}, json_array({self.place}, key_no, caller, number, moment, state, command) {self.rows} "
            f"AND {where} ORDER BY {column} COLLATE BINARY, {self.place}")
        for turn in itertools.count():
            if not (some := rows.fetchmany(count)):
                return
            text = b"[%b]" % b",".join([row for _, row in some])
            path.with_name(f"{path.name}-{turn}.json").write_bytes(as_bytes(text.decode(errors="surrogateescape")))
            first = some[0][0]
            yield first.decode() if isinstance(first, bytes) else first

    def periods(self) -> list[list[Any]]:
        asked = f"SELECT {self.place}, command {self.rows} AND command GLOB 'set-period *' ORDER BY 1"
        return [[place, *command_of(command.decode())[1:]] for place, command in self.connection.execute(asked)]

    def leave(self) -> None:
        """Takes away all but this folder and the one before it, which pages with the list before ask for still."""
        others = sorted(self.folder.parent.glob("[0-9]*"), key=os.path.getmtime)
        for path in [*self.folder.parent.glob(".*"), *[path for path in others if path != self.folder][:-1]]:
            shutil.rmtree(path, ignore_errors=True)


# ---- the list

def list_of(path: str, most: int, rows: int, folder: pathlib.Path
            ) -> tuple[dict[str, Any], Optional[dict[str, bytearray]], Optional[History]]:
    """The list of a register: its members before `keys`, and the columns of the keys with their history, where there
    are not too many."""
    made = int(time.time())
    with opened(path, TRIES) as connection:
        # Reads the same texts without a call of Python for each: of 100,000 keys there are a million.
        connection.text_factory = operator.methodcaller("decode", errors="surrogateescape")
        asked = "SELECT version, latest, key_count FROM meta"
        version, latest, count = connection.execute(asked).fetchone() or (0, 0, 0)
        if version not in (1, 2):
            raise Unreadable(f"its version is {version}")
        periods, names, keys, history = {}, Names(), None, None
        if has_table(connection, "period"):
            periods = {TYPES[kind - 1]: months for kind, *months in
                       connection.execute("SELECT kind, originator, recipient FROM period ORDER BY kind")}
        if count <= most:
            keys, history = columns(connection, names), History(connection, folder)
        for caller, in connection.execute("SELECT DISTINCT caller FROM request"):
            names[caller]
        if history:
            try:
                history.put(rows)
            except OSError as fault:
                # Not that of a register that cannot be read.
                raise Unwritable(fault.strerror) from None
    return {"form": 2, "made": made, "latest": latest, "count": count, "periods": periods, "names": list(names),
            "types": TYPES, "history": history and history.folder.name}, keys, history


def pieces_of(members: dict[str, Any], keys: Optional[Mapping[str, bytes]]) -> Iterator[bytes]:
    """The list in pieces of bytes."""
    yield as_bytes(json.dumps(members, ensure_ascii=False, separators=(",", ":"))[:-1] + ',"keys":')
    for place, (name, cells) in enumerate((keys or {}).items()):
        yield as_bytes(f'{"," if place else "{"}"{name}":[')
        yield cells
        yield b"]"
    yield b"}}" if keys else b"null}"


def put(path: str, pieces: Iterable[bytes], mode: int = 0o640) -> int:
    """Moves a file of these bytes into the place, whole; how many there are."""
    handle, other = tempfile.mkstemp(prefix=".list-", dir=os.path.dirname(os.path.abspath(path)))
    try:
        with os.fdopen(handle, "wb") as file:
            size = sum(map(file.write, pieces))
            file.flush()
            os.fsync(handle)
        os.chmod(other, mode)
        os.replace(other, path)
    finally:
        # It is there still where it could not be moved.
        with contextlib.suppress(OSError):
            os.remove(other)
    return size


def main() -> int:
    parser = argparse.ArgumentParser(description="Makes the list that the desk finds keys by, and their history.")
    parser.add_argument("register")
    parser.add_argument("list")
    parser.add_argument("--most", type=int, default=100_000, metavar="KEYS")
    parser.add_argument("--rows", type=int, default=500, metavar="COUNT")
    words = parser.parse_args()
    # What is made here the owner and the group may read.
    os.umask(0o027)
    try:
        members, keys, history = list_of(words.register, words.most, words.rows,
                                         pathlib.Path(words.list).absolute().with_name("history"))
        size = put(words.list, pieces_of(members, keys))
        if history:
            history.leave()
    except (Unreadable, sqlite3.Error, ValueError) as fault:
        print(f"{words.register} cannot be read as a register: {fault}", file=sys.stderr)
        return 2
    except (OSError, Unwritable) as fault:
        print(f"{words.list} cannot be written: {getattr(fault, 'strerror', fault)}", file=sys.stderr)
        return 3
    count = f"{members['count']} keys" if keys else f"no keys, since there are {members['count']}"
    print(f"{words.list}: {count}, up to {text_of(members['latest'])}, {size} bytes")
    return 0


if __name__ == "__main__":
    sys.exit(main())
