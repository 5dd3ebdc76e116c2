"""Registers for the checks of what is read out of copies: drawn requests, files of both versions of them, changes that
another program makes, and purposes that trip up whoever reads or writes them."""
import contextlib
import os
import pathlib
import random
import sqlite3
from typing import Callable, Iterable, Iterator, Optional, Sequence

from registers import APPROVED_ANEW, INDEXES, File, copy_files, database, new_register, write_first_version
from register_rules import COMMANDS, COMPROMISES, OFFICE, line
from rules_shown import DAY
from script import expect

# Rows in each table, a moment apart: periods, needs, custodians and approvals that stand.
FULL = [line for line, _ in APPROVED_ANEW] + [
    "200 office 1 set-period master 6 0",
    "210 office 2 set-period data-encryption 12 24",
    "220 ann 2 register data-encryption bob 220 - - payroll disks",
    "230 ann 3 register master eve - - - root",
    "240 eve 1 set-quorum 3 3",
    "250 bob 6 set-quorum 2 2",
    "260 eve 2 add-custodian 3 cat",
    "270 eve 3 add-custodian 3 dan",
    "280 cat 2 approve 3",
    "285 ann 4 register data-encryption bob 285 - - disks of site B",
    "286 ann 5 register data-encryption bob 286 288 - disks of site C",
    "290 zed 2 revoke 2 3 150",
    "300 zed 3 advance",
]
# Purposes that a register takes, each of which something takes for something else: a terminal, a shell, a spreadsheet,
# SQL, a line's end that is none, a request line, the longest there are.
HOSTILE = [
    "a  b   c", "=1+1", "-1", "@sum", "+", "'; DROP TABLE request; --", "\"quoted\", \"again\"", "back\\slash\\n",
    "%s %d {0}", "$(reboot)`id`", "a\u0085b", "a\u2028b\u2029c", "\u202eesrever", "\u0080\u009b31mred", "\ufeffmark",
    "\u00a0spaces\u3000", "e\u0301", "\U0010ffff\uffff", "\U0001f511 key", "ü" * 100, "x" * 200,
    "1700000000 ann 1 advance", "-", "- - - root", "NULL", "key|0|1", "a,b;c\u0300", "\u200b",
]


def rows_of(file: File) -> dict[str, list[tuple]]:
    """The rows of each table of a file, by the tables' names, in the order in which they were put there."""
    place = pathlib.Path(file).absolute().as_uri()
    with contextlib.closing(sqlite3.connect(f"{place}?mode=ro", uri=True)) as connection:
        names = [name for name, in connection.execute("SELECT name FROM sqlite_schema WHERE type = 'table'")]
        return {name: connection.execute(f"SELECT * FROM {name} ORDER BY rowid").fetchall() for name in names}


def first_version(file: str) -> str:
    """A file of version 1 with the rows of one of version 2 in which no request is of version 2 alone."""
    write_first_version(f"{file}.first", INDEXES, {name: rows[::-1] for name, rows in rows_of(file).items()})
    return f"{file}.first"


def changed(file: File, *statements: tuple) -> str:
    """A copy of the file in which another program made these changes."""
    other = copy_files(None, f"{file}.changed")
    with database(file) as source, database(other) as target:
        source.backup(target)
        target.execute("PRAGMA foreign_keys = OFF")
        for statement in statements:
            expect(target.execute(*statement).rowcount != 0, f"{statement} changed nothing")
    return other


def anew(table: str, columns: str = "*", order: str = "") -> list[str]:
    """Statements that make a table of the register anew: with these columns, in an order, and of no types."""
    return [f"CREATE TABLE other AS SELECT {columns} FROM {table} {order}", f"DROP TABLE {table}",
            f"ALTER TABLE other RENAME TO {table}"]


# ---- drawn requests

KINDS, PEOPLE = ("data-encryption", "private-signature", "master"), ("ann", "bob", "cat", "dan", "eve", "office")


def drawn_command(chance: random.Random, date: Callable[[], Optional[int]], occurrence: Optional[int], key: int,
                  name: str, kind: str, purpose: str) -> tuple:
    """A command of any kind about this key, name and type, each as often as its row says."""
    reason = chance.choice([1, 1, 2, 3, 4, 5, 6, 7])
    rows: list[tuple] = [
        (9, "register", kind, name, date(), date(), date(), purpose),
        (6, "activate", key), (9, "set", key, *(chance.choice(["=", "=", date()]) for _ in range(3))),
        (7, "revoke", key, reason, occurrence if reason in COMPROMISES else None), (3, "assign", key, name),
        (12, "add-custodian", key, name), (4, "remove-custodian", key, name),
        (12, "approve", key), (4, "withdraw", key), (9, "destroy", key), (3, "set-quorum", key, chance.randint(2, 5)),
        (2, "set-period", kind, chance.choice([1, 12, 24, 1200]), chance.choice([0, 12, 36, 1200])), (1, "advance")]
    [(_, *command)] = chance.choices(rows, [often for often, *_ in rows])
    return tuple(command)


def drawn(chance: random.Random, count: int, steps: Sequence[int], purposes: Sequence[str] = ()) -> Iterator[str]:
    """Lines of all commands; many are refused. The moments go on by one of the steps."""
    moment, date = 1_700_000_000, lambda: chance.choice([None, None, moment + chance.randrange(-9, 900) * DAY])
    for number in range(1, count + 1):
        moment += chance.choice(steps)
        key, name, who = chance.randint(1, 2 + number // 8), chance.choice(PEOPLE[:5]), chance.choice(PEOPLE)
        command = drawn_command(chance, date, chance.choice([None, moment - DAY]), key, name, chance.choice(KINDS),
                                chance.choice(purposes or [f"key {number}"]))
        yield line(moment, OFFICE if COMMANDS[command[0]].who == "office" else who, number, command)


def at_one_moment(keys: int, people: Sequence[str] = ("cat", "dan", "eve")) -> list[str]:
    """Lines of one moment alone: keys that are made, get custodians and approvals, and are destroyed."""
    lines = []
    for key in range(1, keys + 1):
        lines.append(f"ann {key} register master bob - - - key {key}")
        lines += [f"bob {key * 10 + place} add-custodian {key} {name}" for place, name in enumerate(people)]
        lines += [f"{name} {key} approve {key}" for name in people[:2]]
        lines.append(f"bob {key * 10 + 9} destroy {key}")
    return [f"1700000000 {line}" for line in lines]


def made(folder: File, name: str, lines: Iterable[str]) -> tuple[str, int]:
    """The file of a register that keyreg made, which accepted something of each."""
    file = os.path.join(folder, f"{name}.keyreg")
    return file, sum(reply.startswith("ok ") for reply in new_register(file, lines))
