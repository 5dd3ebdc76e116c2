#!/usr/bin/env python3
"""Each cause of a `keyreg: Store` at an opening is made: keyreg ends by it, and office/why.py names that cause and no
other. Of a register that opens, or that is refused otherwise, it names none. It changes no file.

    checks/office/why_tried.py

Root tries rights and a full disk too.
"""
import contextlib
import os
import pathlib
import re
import shutil
import subprocess
import sys
from typing import Any, Callable, Iterator

sys.path.insert(1, str(pathlib.Path(__file__).resolve().parents[1] / "shared"))
from places import PROGRAM
from registers import Life, answered_and_killed, new_register
from script import expect, fresh_folder, not_none, output_of, verdict
from tools import words_of

NOBODY = 65534
STORE, REFUSED = (2, "keyreg: Store\n"), (2, "keyreg: NotARegister\n")


def lines(caller: str, count: int) -> list[str]:
    return [f"{place} {caller} {place} register master bob - - - {caller * 20}" for place in range(1, count + 1)]


def by_shell(file: pathlib.Path, statements: str) -> None:
    """SQLite's shell does these to the file."""
    output_of(["sqlite3", file], input=statements)


def made(folder: pathlib.Path, count: int = 200, caller: str = "ann") -> pathlib.Path:
    """A register in one file."""
    file = folder / "office.keyreg"
    new_register(file, lines(caller, count))
    by_shell(file, "PRAGMA wal_checkpoint(TRUNCATE)")
    return file


# ---- how a register comes to its cause: what is made of a good one in a folder. Each gives the path that is looked at,
# and ends what it began.


def named(folder: pathlib.Path, path: str) -> Iterator[Any]:
    """A path below the folder, or one that is none."""
    made(folder)
    (folder / "link").symlink_to("gone")
    yield path.replace("@", str(folder))


def with_mode(folder: pathlib.Path, name: str, mode: int) -> Iterator[Any]:
    """Another user looks, to whom this mode of a part keeps the register shut."""
    file = made(folder, 3)
    if name.endswith("-wal"):
        answered_and_killed(file, ["9 ann 9 advance"])
    for path in folder.iterdir():
        path.chmod(0o666)
    folder.chmod(0o777)
    (folder / name).chmod(mode)
    yield file


def below(folder: pathlib.Path) -> Iterator[Any]:
    """Another user looks, who may not enter a folder on the way."""
    inner = folder / "inner"
    inner.mkdir()
    file = made(inner, 3)
    folder.chmod(0o700)
    yield file


def linked(folder: pathlib.Path) -> Iterator[Any]:
    os.link(file := made(folder), folder / "other")
    yield file


def held(folder: pathlib.Path) -> Iterator[Any]:
    with Life(file := made(folder)) as life:
        life.reply("500 zed 1 advance")
        yield file


@contextlib.contextmanager
def shell_at(file: pathlib.Path, statements: str) -> Iterator[subprocess.Popen]:
    """A shell that has done these, and goes on."""
    with subprocess.Popen(["sqlite3", file], stdin=subprocess.PIPE, stdout=subprocess.PIPE, text=True) as shell:
        print(statements, "SELECT 'done';", file=shell.stdin, flush=True)
        while not_none(shell.stdout).readline() != "done\n":
            pass
        yield shell
        shell.kill()


def written_by_a_shell(folder: pathlib.Path) -> Iterator[Any]:
    with shell_at(file := made(folder), "BEGIN IMMEDIATE;"):
        yield file


def interrupted(folder: pathlib.Path) -> Iterator[Any]:
    """A shell is killed as it writes, with pages in the file that it would not keep."""
    with shell_at(file := made(folder), "PRAGMA journal_mode = DELETE; PRAGMA cache_size = 1; BEGIN; "
                                        "UPDATE request SET moment = moment + 1;"):
        pass
    yield file


def full(folder: pathlib.Path) -> Iterator[Any]:
    """A disk of its own without room."""
    disk = folder / "disk"
    disk.mkdir()
    output_of(["mount", "-t", "tmpfs", "-o", "size=400k", "tmpfs", disk])
    try:
        file = made(disk, 3)
        with contextlib.suppress(OSError), open(disk / "filler", "wb", buffering=0) as filler:
            while True:
                filler.write(b"\0" * 512)
        yield file
    finally:
        output_of(["umount", disk])


def edited(folder: pathlib.Path, statements: str) -> Iterator[Any]:
    by_shell(file := made(folder), statements)
    yield file


def in_utf_16(folder: pathlib.Path) -> Iterator[Any]:
    """A dump of the register, read into a database of another encoding."""
    dump = output_of(["sqlite3", made(folder), ".dump"])
    by_shell(other := folder / "other", f"PRAGMA encoding = 'UTF-16le';\n{dump}")
    yield other


def damaged(folder: pathlib.Path, first: int, content: bytes) -> Iterator[Any]:
    """The file has this from a byte on."""
    file = made(folder)
    whole = file.read_bytes()[:first] + content
    file.write_bytes(whole.ljust(file.stat().st_size, b"\0"))
    yield file


def copied_over(folder: pathlib.Path) -> Iterator[Any]:
    """A backup lies beside the log of a killed service, some of whose pages are newer than the backup."""
    (folder / "other").mkdir()
    file, other = made(folder), made(folder / "other", 900, "zed")
    answered_and_killed(file, [line.replace(" - - -", " 0 - -") for line in lines("eve", 300)[210:]])
    shutil.copyfile(other, file)
    yield file


# Each cause: what why.py says of it, who makes it, and of what.
CAUSES: dict[str, tuple[Any, ...]] = {
    "no name": ("'' is no name", named, ""), "a name in memory": ("':memory:' is no name", named, ":memory:"),
    "an address": ("is no name", named, "file:@/office.keyreg"), "a folder": ("is a folder", named, "@"),
    "no folder": ("there is no folder", named, "@/no/office.keyreg"),
    "no file": ("there is no such file", named, "@/no"),
    "a link to nothing": ("the link leads to no file: gone", named, "@/link"),
    "a second link": ("the file has 2 hard links", linked),
    "a service": (r"another program has it: process \d+, \S+ run --file", held),
    "a shell": (r"another program has it: process \d+, sqlite3 ", written_by_a_shell),
    "a shell that was killed": ("another program was interrupted as it wrote", interrupted),
    "another file": ("it is no SQLite database", damaged, 0, b"number,type,owner\n"),
    "a damaged page": ("a page is damaged", damaged, 9 * 4096, b""),
    "a backup over a log": ("the log beside it is of another file", copied_over),
    "a schema": ("its schema cannot be read: malformed", edited, "PRAGMA writable_schema = ON; "
                 "UPDATE sqlite_schema SET sql = 'CREATE INDEX x' WHERE name = 'keys_by_activation'"),
    "a virtual table": ("is a virtual table", edited, "CREATE VIRTUAL TABLE found USING fts5(text)"),
    "another encoding": ("its texts are in UTF-16", in_utf_16),
    "auto_vacuum": ("its auto_vacuum is on", edited, "PRAGMA auto_vacuum = 1; VACUUM"),
}
# The same where another user looks, or root alone can make it.
SHUT, NO_WAY = "may not read and write", "may not enter"
FOR_ROOT: dict[str, tuple[Any, ...]] = {
    "a full disk": ("the disk is full", full), "another's file": (SHUT, with_mode, "office.keyreg", 0o600),
    "a file that is read alone": (SHUT, with_mode, "office.keyreg", 0o444),
    "another's log": (SHUT, with_mode, "office.keyreg-wal", 0o600), "another's folder": (SHUT, with_mode, ".", 0o755),
    "another's folder on the way": (NO_WAY, below),
}


def end_of(path: Any, user: int = 0) -> tuple[int, str]:
    """How a report of the register ends, as this user."""
    program, other = os.open(PROGRAM, os.O_RDONLY), dict[str, Any](user=user) if user else {}
    done = subprocess.run([f"/proc/self/fd/{program}", "report", "--file", str(path), "--days", "0"], check=False,
                          capture_output=True, pass_fds=[program], **other)
    os.close(program)
    return done.returncode, done.stderr.decode()


def said_of(path: Any, user: int = 0) -> tuple[int, list[str]]:
    """What why.py says, which changes nothing."""
    there = [pathlib.Path(place) for place in (str(path), f"{path}-wal") if os.path.isfile(place)]
    before = [place.read_bytes() for place in there]
    words = words_of("why", path, *(["--user", "nobody"] if user else []))
    done = subprocess.run(words, capture_output=True, text=True, check=False)
    expect(not done.stderr, f"why {path}: {done}")
    expect([place.read_bytes() for place in there] == before, f"why {path} has written to it")
    return done.returncode, done.stdout.splitlines()


def told(name: str, words: str, make: Callable[..., Iterator[Any]], *given: Any) -> None:
    user = NOBODY if words in (SHUT, NO_WAY) else 0
    with fresh_folder() as folder:
        # A folder of the gate's may be shut to others.
        for place in (folder, *folder.parents) if user else ():
            place.chmod(place.stat().st_mode | 0o011)
        folder.chmod(0o755)
        with contextlib.contextmanager(make)(folder, *given) as path:
            status, said = said_of(path, user)
            expect(end_of(path, user) == STORE, f"{name}: keyreg ends with {end_of(path, user)}")
        expect(status == 1 and len(said) == 1 and re.search(words, said[0]), f"{name}: {said}, not {words!r}")


def main() -> None:
    causes = {**CAUSES, **(FOR_ROOT if os.geteuid() == 0 else {})}
    for name, given in causes.items():
        told(name, *given)
    with fresh_folder() as folder:
        file = made(folder)
        expect((said_of(file), end_of(file)) == ((0, ["no cause is found"]), (0, "")), "of a register a cause is told")
        by_shell(file, "UPDATE keys SET state = 6 WHERE number = 1")
        expect((said_of(file)[0], end_of(file)) == (0, REFUSED), "of a changed row a cause is told")
    verdict(f"{len(causes)} causes of a Store at an opening, each made, are named")


main()
