#!/usr/bin/env python3
"""Says why a register's file is not opened: which of its causes a `keyreg: Store` with status 2 has.

    why.py FILE [--user NAME]

FILE is named as it was to keyreg. Nothing is written to: locks are asked about, and what SQLite reads is a copy of the
file and its log. --user looks as that user does, as of the service (`--user keyreg`); root alone may say it.

Each cause that is found is a line, with what to do. The causes: the name is none of a file; there is no file, no
right, a second hard link; another program has it, or was interrupted as it wrote; the disk is full; the file is no
database; a page is damaged, or the log is of another file; the schema cannot be read. The status is 1 where one is
found, 0 where none is, 2 where words are wrong.

It needs replay.py and register_rules.py beside it, and Linux.
"""
import argparse
import contextlib
import fcntl
import os
import pathlib
import pwd
import sqlite3
import stat
import struct
import sys
import tempfile
from typing import Iterator, Union

# What is read from beside this file leaves none there.
sys.dont_write_bytecode = True
from replay import is_copied

BEGIN, HEAD = b"SQLite format 3\0", 100
# Numbers of four bytes in the head of a database that keyreg reads: their place, the number, what another one says.
FORMS = ((56, 1, "its texts are in UTF-16"), (52, 0, "its auto_vacuum is on"))
AGAIN = "make it again from its requests, or restore it"
# The bytes of a file that SQLite locks: 512 from there on.
LOCKED = 0x40000000
# So many bytes an opening may need of the disk, for the log.
ROOM = 64 * 1024
FLOCK = "hhqqi4x"


def may_not(do: str, place: Union[str, pathlib.Path]) -> str:
    """That the user may not do this at a place that is there."""
    told = os.stat(place)
    return (f"{pwd.getpwuid(os.geteuid()).pw_name} may not {do} {place}, of user {told.st_uid} and group {told.st_gid}, "
            f"mode {stat.S_IMODE(told.st_mode):o}: give the user access")


def of_name(path: str) -> Iterator[str]:
    """What is wrong with the name alone."""
    folder = pathlib.Path(os.path.abspath(path)).parent
    shut = [place for place in (*reversed(folder.parents), folder) if not os.access(place, os.X_OK, effective_ids=True)]
    if path in ("", ":memory:") or path.startswith("file:"):
        yield f"{path!r} is no name of a file: name another one"
    elif shut and shut[0].is_dir():
        yield may_not("enter", shut[0])
    elif not folder.is_dir():
        yield f"there is no folder {folder}: make it, or name another one"
    elif os.path.isdir(path) or path.endswith("/"):
        yield f"{path} is a folder: name a file"
    elif not os.path.exists(path):
        gone = f"the link leads to no file: {os.readlink(path)}" if os.path.islink(path) else "there is no such file"
        yield f"{gone}: name the right one, or `keyreg init` it"
    elif not stat.S_ISREG(os.stat(path).st_mode):
        yield f"{path} is no regular file: name another one"


def of_rights(path: str) -> Iterator[str]:
    wanted = {path + end: os.R_OK | os.W_OK for end in ("", "-wal") if os.path.exists(path + end)}
    if len(wanted) == 1:
        # The log is made there.
        wanted[os.path.dirname(os.path.realpath(path))] = os.W_OK | os.X_OK
    for place, mode in wanted.items():
        if not os.access(place, mode, effective_ids=True):
            yield may_not("read and write", place)
    if (count := os.stat(path).st_nlink) > 1:
        yield f"the file has {count} hard links: remove the others"


def is_locked(path: str) -> bool:
    """Whether another process has a lock of SQLite on the file. Of some locks the system tells no process."""
    with open(path, "rb") as file:
        asked = struct.pack(FLOCK, fcntl.F_WRLCK, os.SEEK_SET, LOCKED, 512, 0)
        kind: int = struct.unpack(FLOCK, fcntl.fcntl(file, fcntl.F_GETLK, asked))[0]
    return kind != fcntl.F_UNLCK


def users_of(path: str) -> Iterator[str]:
    """The processes that have the file open. Those of a service root alone may see."""
    for process in pathlib.Path("/proc").glob("[0-9]*"):
        with contextlib.suppress(OSError):
            if any(os.path.samefile(opened, path) for opened in (process / "fd").iterdir()):
                words = (process / "cmdline").read_bytes().replace(b"\0", b" ").decode(errors="replace").strip()
                yield f"process {process.name}, {words}"


def of_others(path: str, users: list[str]) -> Iterator[str]:
    if is_locked(path):
        told = "; ".join(users) or "a process of another user"
        yield f"another program has it: {told}: ask a copy, or wait until it ends"


def of_disk(path: str) -> Iterator[str]:
    disk = os.statvfs(os.path.dirname(os.path.realpath(path)))
    if (room := disk.f_bavail * disk.f_frsize) < ROOM:
        yield f"the disk is full: {room} bytes are free: make room"
    elif disk.f_files and not disk.f_favail:
        yield "the disk has no inode left for the log: remove files"


# ---- what is in it


def read_fault(path: str, with_log: bool) -> tuple[str, bool]:
    """What SQLite finds wrong in a copy of the file, or an empty text; and whether that is the schema's."""
    with tempfile.TemporaryDirectory() as folder:
        copy = os.path.join(folder, "copy")
        is_copied(path, copy)
        if not with_log and os.path.exists(copy + "-wal"):
            os.remove(copy + "-wal")
        try:
            with contextlib.closing(sqlite3.connect(copy)) as connection:
                asked = "SELECT name FROM sqlite_schema WHERE sql LIKE 'CREATE VIRTUAL%'"
                virtual = connection.execute(asked).fetchall()
                found = connection.execute("PRAGMA integrity_check(3)").fetchall()
        except sqlite3.Error as fault:
            return str(fault), isinstance(fault, sqlite3.OperationalError) or "schema" in str(fault)
    if virtual:
        return f"{virtual[0][0]} is a virtual table", True
    text = "; ".join(" ".join(str(line).split()) for (line,) in found)
    return ("" if text == "ok" else text), False


def of_content(path: str) -> Iterator[str]:
    head = pathlib.Path(path).read_bytes()[:HEAD]
    if not head.startswith(BEGIN):
        # An empty file is answered otherwise: NotARegister.
        if head:
            yield f"it is no SQLite database: it begins with {head[:len(BEGIN)]!r}: name the right one"
        return
    if os.path.exists(path + "-journal"):
        yield ("another program was interrupted as it wrote: `sqlite3 FILE 'SELECT count(*) FROM request'` takes the "
               "file back to before that, by the journal beside it")
        return
    fault, is_of_schema = read_fault(path, True)
    for place, wanted, what in FORMS:
        if not fault and int.from_bytes(head[place:place + 4], "big") != wanted:
            fault, is_of_schema = what, True
    if not fault:
        return
    if is_of_schema:
        yield f"its schema cannot be read: {fault}: {AGAIN}"
    elif os.path.exists(path + "-wal") and not read_fault(path, False)[0]:
        yield f"the log beside it is of another file, as after a backup was copied over it: restore it anew: {fault}"
    else:
        yield f"a page is damaged: {fault}: {AGAIN}"


def causes(path: str, users: list[str]) -> list[str]:
    """The causes that are found, the first ones first: what stands behind a name or a right is not looked at."""
    if found := list(of_name(path)) or list(of_rights(path)):
        return found
    return [*of_others(path, users), *of_disk(path), *of_content(path)]


def main() -> int:
    parser = argparse.ArgumentParser(description="Says why a register's file is not opened.")
    parser.add_argument("file")
    parser.add_argument("--user", type=pwd.getpwnam, metavar="NAME")
    words = parser.parse_args()
    users = list(users_of(words.file))
    if words.user:
        os.initgroups(words.user.pw_name, words.user.pw_gid)
        os.setgid(words.user.pw_gid)
        os.setuid(words.user.pw_uid)
    found = causes(words.file, users)
    print(*(found or ["no cause is found"]), sep="\n")
    return 1 if found else 0


if __name__ == "__main__":
    sys.exit(main())
