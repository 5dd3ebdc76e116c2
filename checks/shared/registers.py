"""What the checks over files share: runs of the program, and the tables of docs/SPECIFICATION.md."""
import contextlib
import itertools
import os
import re
import shutil
import sqlite3
import subprocess
from typing import Any, Iterable, Iterator, Mapping, Optional, Sequence, TypeVar, Union

from places import PROGRAM, VERSION_1
import register_rules
from script import expect, not_none
from worked_rows import exchanges_of

File = Union[str, os.PathLike]
Place = TypeVar("Place", bound=File)

# The texts of the key types and of the states by their codes, of which 0 stands where a reply names no state; a date
# that is not set; the version of the tables.
TYPES, STATES = dict(enumerate(register_rules.TYPES, 1)), dict(enumerate(register_rules.STATES))
UNSET, VERSION = register_rules.UNSET, 2

# The columns of an export, in their order, each with its cell of a key of which no more is said; those that are dates;
# and the columns of an import.
EXPORT_COLUMNS = {
    "number": "1", "type": "master", "owner": "bob", "activation": "", "protect_stop": "", "deactivation": "",
    "state": "Active", "initial": "1970-01-01T00:01:40Z", "destroyed": "", "compromised": "", "occurrence": "",
    "purpose": "spare"}
EXPORT_DATES = ("activation", "protect_stop", "deactivation", "initial", "destroyed", "compromised", "occurrence")
IMPORT_COLUMNS = ("type", "owner", "activation", "protect_stop", "deactivation", "purpose")

# What makes the tables that version 1 had, and the indexes of keys beside their primary key, which a new register has
# and an older one has not; and the tables that version 2 added.
MADE = re.findall(r"CREATE .*\n", VERSION_1.read_text(encoding="utf-8"))
FIRST_TABLES, INDEXES = ("".join(text for text in MADE if f"CREATE {kind}" in text) for kind in ("TABLE", "INDEX"))
TABLES = FIRST_TABLES + """
CREATE TABLE period (kind INTEGER PRIMARY KEY, originator INTEGER NOT NULL, recipient INTEGER NOT NULL) STRICT;
CREATE TABLE quorum (key_no INTEGER PRIMARY KEY REFERENCES keys(number), need INTEGER NOT NULL) STRICT;
"""

# A worked row: each line with its reply, and those that are accepted.
APPROVED_ANEW = exchanges_of("approved anew by one who was removed")
ACCEPTED = [exchange for exchange in APPROVED_ANEW if exchange[1].startswith("ok ")]

# Its rows, by the formats: type 7 is master, state 6 Destroyed-Compromised; a compromise without an occurrence gets the
# Initial Date. A request has its line's parts, and of its reply the key and the state.
APPROVED_ANEW_ROWS: dict[str, list[tuple]] = {
    "meta": [(1, VERSION, 109, 1)],
    "keys": [(1, 7, "bob", "spare", 6, 100, UNSET, UNSET, UNSET, 108, 109, 100)],
    "custodian": [(1, "cat"), (1, "dan")], "approval": [(1, "cat"), (1, "dan")],
    "request": sorted((caller, int(number), text, 1, register_rules.STATES.index(reply.split(" ")[2]), int(moment))
                      for (moment, caller, number, text), reply in ((line.split(" ", 3), of) for line, of in ACCEPTED)),
    "period": [], "quorum": [],
}


# The options of each command of the program beside its file, each with a value that serves.
OPTIONS: dict[str, dict[str, str]] = {
    "init": {}, "run": {}, "export": {}, "report": {"days": "7"},
    "import": {"moment": "110", "caller": "imp", "first": "1"},
    "serve": {"port": "8420", "exchanges": "1"},
}


def words_for(command: str, file: File, **values: str) -> list[str]:
    """The words of a command over a file, with these values in the place of the usual ones."""
    pairs = {"file": str(file), **OPTIONS[command], **values}
    return [command, *itertools.chain.from_iterable((f"--{name}", value) for name, value in pairs.items())]


def export_row(**cells: Any) -> list[str]:
    """The row of a key in an export that has these cells, by the names of their columns, and else the usual ones."""
    return [str(cell) for cell in {**EXPORT_COLUMNS, **cells}.values()]


def run_program(words: Sequence[Any], given: Any = b"", **how: Any) -> subprocess.CompletedProcess:
    """Runs the program to its end; given are bytes, or an open file."""
    usual: dict[str, Any] = {"stdout": subprocess.PIPE, "stderr": subprocess.PIPE, "check": False}
    source: dict[str, Any] = {"input": given} if isinstance(given, bytes) else {"stdin": given}
    return subprocess.run([PROGRAM, *words], **{**source, **usual, **how})


def keyreg(words: Sequence[Any], lines: Iterable[str] = ()) -> list[str]:
    """Runs the program over the lines, and gives what it writes, line by line, where it ends with status 0."""
    done = run_program(words, "".join(line + "\n" for line in lines).encode())
    expect(done.returncode == 0, f"{words}: status {done.returncode}, {done.stderr.decode(errors='replace').strip()}")
    return done.stdout.decode().splitlines()


def new_register(file: File, lines: Iterable[str] = ()) -> list[str]:
    """Makes a register in a file, and gives the replies to the lines."""
    keyreg(["init", "--file", file])
    return keyreg(["run", "--file", file], lines) if lines else []


def expect_replies(file: File, exchanges: Iterable[tuple[str, str]]) -> None:
    """Holds the replies to lines over a file to those that stand beside them."""
    lines, wanted = zip(*exchanges)
    replies = keyreg(["run", "--file", file], lines)
    expect(replies == list(wanted), f"{file}: replies {replies}, not {list(wanted)}")


class Life(subprocess.Popen):
    """A run over a file, or what other words ask for, which no other program gets before the `with` ends it."""

    def __init__(self, file: File, words: Sequence[Any] = ()) -> None:
        super().__init__([PROGRAM, *(words or ["run", "--file", file])], stdin=subprocess.PIPE, stdout=subprocess.PIPE)

    def reply(self, line: str) -> str:
        not_none(self.stdin).write(f"{line}\n".encode())
        not_none(self.stdin).flush()
        return not_none(self.stdout).readline().decode().rstrip("\n")


def answered_and_killed(file: File, lines: Iterable[str]) -> None:
    """Runs the lines over the file, and kills the program once it has answered them: they stand in the log."""
    with Life(file) as life:
        for line in lines:
            life.reply(line)
        life.kill()


def copy_files(file: Optional[File], other: Place) -> Place:
    """Copies a file with its log, if there is one; nothing else is left by these names."""
    for end in ("", "-wal"):
        if file and os.path.exists(f"{file}{end}"):
            shutil.copyfile(f"{file}{end}", f"{other}{end}")
        elif os.path.exists(f"{other}{end}"):
            os.remove(f"{other}{end}")
    return other


@contextlib.contextmanager
def database(file: File) -> Iterator[sqlite3.Connection]:
    """A file in SQLite's own library; what is written is committed in the end."""
    with contextlib.closing(sqlite3.connect(file)) as connection, connection:
        yield connection


def all_rows(connection: sqlite3.Connection) -> dict[str, list[tuple]]:
    """The rows of each table, in order."""
    return {name: sorted(connection.execute(f"SELECT * FROM {name}")) for name in APPROVED_ANEW_ROWS}


def columns_of(name: str) -> list[str]:
    """The names of a table's columns, in its order."""
    with contextlib.closing(sqlite3.connect(":memory:")) as connection:
        connection.executescript(TABLES)
        return [row[1] for row in connection.execute(f"PRAGMA table_info({name})")]


def are_sound(connection: sqlite3.Connection) -> bool:
    """Whether SQLite's own library finds nothing wrong in the file."""
    return (connection.execute("PRAGMA integrity_check").fetchall() == [("ok",)]
            and not connection.execute("PRAGMA foreign_key_check").fetchall())


def table_rows(file: File) -> dict[str, list[tuple]]:
    """The rows of each table of a file, in order."""
    with database(file) as connection:
        return all_rows(connection)


def sound_rows(file: File) -> dict[str, list[tuple]]:
    """The same of a file in which SQLite's own library finds nothing wrong."""
    with database(file) as connection:
        expect(are_sound(connection), f"SQLite finds {file} unsound")
        return all_rows(connection)


def write_register(file: File, latest: int, count: int, version: int = VERSION, more: str = INDEXES,
                   **rows: Iterable[Any]) -> None:
    """A register of so many keys at this moment that SQLite's own library writes, with these rows of its tables, and
    with what more statements make."""
    with database(file) as connection:
        connection.executescript("PRAGMA synchronous = OFF; PRAGMA journal_mode = OFF;"
                                 + (TABLES if version == VERSION else FIRST_TABLES))
        tables: dict[str, Iterable[Any]] = {"meta": [(1, version, latest, count)], **rows}
        for name, of_table in tables.items():
            cells = ", ".join("?" * len(columns_of(name)))
            connection.executemany(f"INSERT INTO {name} VALUES ({cells})", of_table)
        connection.commit()
        connection.executescript(more)


def write_first_version(file: File, more: str = "", tables: Mapping[str, Sequence[tuple]] = APPROVED_ANEW_ROWS) -> None:
    """A file of version 1 with the rows of these tables, those of version 2 aside, and with what an office has."""
    [(_, _, latest, count)] = tables["meta"]
    rows = {name: tables[name][::-1] for name in APPROVED_ANEW_ROWS if name not in ("meta", "period", "quorum")}
    write_register(file, latest, count, 1, more, **rows)
