#!/usr/bin/env python3
"""Gives a second register the accepted requests that a register has more than it: a standby that follows.

    office/follow.py REGISTER STANDBY [--keyreg PROGRAM]

REGISTER is a register's file, with its log REGISTER-wal beside it, or a copy of both. It may be one that is served: a
copy is taken here, again where the log went into the database meanwhile, and neither file is written to. STANDBY is
made where it is not there. Its requests have to be the first ones of REGISTER, row by row. The others go to `keyreg
run --file STANDBY`, one after the other: the next is given when the reply came, and the reply was the one that
REGISTER keeps.

It may be called as often as wanted, and be ended at any time: what STANDBY has then is the requests up to some moment,
and the next call goes on from there, since a request acts once. Nobody else may write to STANDBY: what it accepts
besides, the register does not have. The last line is the verdict. The status is

    0  STANDBY has each request that REGISTER had when the copy was taken
    1  STANDBY has another request than REGISTER, or one more, or a reply was another one: nothing more is given to it
    2  REGISTER or STANDBY cannot be read
    3  the program ended otherwise, as its line on standard error says, or is not there; where STANDBY is in use by
       another call, call again
"""
import argparse
import contextlib
import itertools
import os
import sqlite3
import subprocess
import sys
from typing import Any, Iterable, Iterator, Optional

# What is read from beside this file leaves none there.
sys.dont_write_bytecode = True
from register_rules import STATES, Row, text_of
from replay import Unreadable, columns_of, opened, row_place

# How often a copy is begun anew of a register that is written to meanwhile.
TRIES = 50
ROWS = "SELECT caller, number, command, key_no, state, moment FROM request NOT INDEXED ORDER BY "


class Fault(Exception):
    """What ends a call with another status than 0."""

    def __init__(self, status: int, text: str) -> None:
        super().__init__(text)
        self.status = status


@contextlib.contextmanager
def reading(path: str) -> Iterator[sqlite3.Connection]:
    try:
        with opened(path, TRIES) as connection:
            yield connection
    except Unreadable as fault:
        raise Fault(2, f"{path} cannot be read: {fault}") from None


def rows_of(connection: sqlite3.Connection) -> Iterator[Row]:
    """The rows of `request`; none where there is no such table yet."""
    if connection.execute("SELECT count(*) FROM sqlite_schema WHERE lower(name) = 'request'").fetchone()[0]:
        for row in connection.execute(ROWS + row_place(columns_of(connection, "request"))):
            yield row


def shown(row: Row) -> str:
    caller, number, command, *_, moment = row
    return f"{moment} {caller!r} {number} {command!r}"


def further(rows: Iterator[Row], standby: str) -> int:
    """How many requests the standby has, which have to be the first of the rows. The rows go on behind them."""
    with reading(standby) as connection:
        place = 0
        for place, held in enumerate(rows_of(connection), 1):
            row = next(rows, None)
            if row is None:
                raise Fault(1, f"request {place} is in the standby alone, {shown(held)}: the register is an older one "
                               "than it was, or the standby was written to")
            if row != held:
                raise Fault(1, f"request {place} is {shown(row)} in the register, and {shown(held)} in the standby")
    return place


def has_tables(standby: str) -> bool:
    """Whether there is a register, so that none is made. A call may have been ended between a file and its tables."""
    if not os.path.exists(standby) or not os.path.getsize(standby):
        return False
    with reading(standby) as connection:
        return bool(connection.execute("SELECT count(*) FROM sqlite_schema").fetchone()[0])


def run(words: list[str], **how: Any) -> subprocess.Popen[bytes]:
    try:
        return subprocess.Popen(words, **how)
    except OSError as fault:
        raise Fault(3, f"{words[0]}: {fault.strerror}") from None


def give(rows: Iterable[Row], standby: str, program: str) -> tuple[int, Optional[int]]:
    """Gives the rows to the standby, each when the one before it is answered; their count, and the last moment."""
    count, moment = 0, None
    with run([program, "run", "--file", standby], stdin=subprocess.PIPE, stdout=subprocess.PIPE) as register:
        assert register.stdin and register.stdout
        with contextlib.suppress(BrokenPipeError):
            for caller, number, command, key, state, moment in rows:
                line = f"{moment} {caller} {number} {command}\n"
                if line.count("\n") != 1:
                    raise Fault(1, f"{line!r} is no request")
                register.stdin.write(line.encode(errors="surrogateescape"))
                register.stdin.flush()
                reply = register.stdout.readline().decode().rstrip("\n")
                if not reply:
                    break
                first = f"ok {key} {STATES[state]} {moment}"
                if reply != first:
                    raise Fault(1, f"the reply to {line.rstrip()!r} is {reply!r}, and was {first!r}")
                count += 1
        with contextlib.suppress(BrokenPipeError):
            register.stdin.close()
    if register.returncode:
        raise Fault(3, f"{program} ended with status {register.returncode} after {count} requests")
    return count, moment


def follow(source: str, standby: str, program: str) -> str:
    """The line of a standby that has all."""
    with reading(source) as connection:
        if not has_tables(standby) and run([program, "init", "--file", standby]).wait():
            raise Fault(3, "the standby could not be made")
        rows = rows_of(connection)
        before = further(rows, standby)
        first = next(rows, None)
        count, moment = (0, None) if first is None else give(itertools.chain([first], rows), standby, program)
        moment = connection.execute("SELECT max(moment) FROM request").fetchone()[0] if moment is None else moment
    return f"{count} requests given, {before + count} in all, up to {text_of(moment or 0)}"


def main() -> int:
    parser = argparse.ArgumentParser(description="Gives a second register what a register has more than it.")
    parser.add_argument("register")
    parser.add_argument("standby")
    parser.add_argument("--keyreg", metavar="PROGRAM", default="keyreg")
    words = parser.parse_args()
    status = 0
    try:
        end = follow(words.register, words.standby, words.keyreg)
    except Fault as fault:
        status, end = fault.status, str(fault)
    line = f"{words.standby}: {end}".encode(errors="backslashreplace").decode()
    print(line, file=sys.stderr if status else sys.stdout)
    return status


if __name__ == "__main__":
    sys.exit(main())
