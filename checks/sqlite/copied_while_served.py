#!/usr/bin/env python3
"""Copies a register while it is served and written to, as docs/AUDIT.md says: the database, then its log, then `cmp`.

    checks/sqlite/copied_while_served.py [--seconds N]

Each copy in which `cmp` finds no difference is a sound database and a register with every request that was answered
before it was begun, and with the first requests alone, and `keyreg export` and `keyreg report` have all its keys. Every
other copy waits between the two until the program has copied its log into the database: `cmp` finds these.

It needs SQLite's shell.
"""
import itertools
import os
import pathlib
import subprocess
import sys
import threading
import time

sys.path.insert(1, str(pathlib.Path(__file__).resolve().parents[1] / "shared"))
from registers import keyreg
from script import expect, options, output_of, verdict
from serving import Served, post_command

# A key that is Active, and is so to the end of the check: a report of this many days lists it.
COMMAND = ("register", "master", "bob", int(time.time()) - 86400, None, None, "spare")
DAYS = 400
# So long, in seconds, a copy waits at most.
PATIENCE = 120
QUESTION = """PRAGMA integrity_check; SELECT count(*), max(number) FROM request;
SELECT count(*), max(number) FROM keys; SELECT key_count FROM meta"""


class Load(threading.Thread):
    """A caller that sends one registration after the other."""

    def __init__(self, served: Served) -> None:
        super().__init__(daemon=True)
        self.served, self.answered, self.ends = served, 0, False

    def run(self) -> None:
        for number in itertools.count(1):
            reply = self.served.raw(post_command("ann", number, COMMAND))
            if self.ends or not reply.startswith(b"HTTP/1.1 200 "):
                return
            self.answered = number


def copy(file: str, other: str, waits: bool) -> bool:
    """Copies the two files, and gives whether the database is still what was copied."""
    changed, late = os.stat(file).st_mtime_ns, time.monotonic() + PATIENCE * waits
    for end in ("", "-wal", "-shm"):
        pathlib.Path(other + end).unlink(missing_ok=True)
    subprocess.run(["cp", file, other], check=True)
    while time.monotonic() < late and os.stat(file).st_mtime_ns == changed:
        time.sleep(0.01)
    # The log begins anew.
    time.sleep(waits)
    subprocess.run(["cp", file + "-wal", other + "-wal"], check=True)
    return subprocess.run(["cmp", "-s", file, other], check=False).returncode == 0


def look_at_copy(other: str, before: int, after: int) -> None:
    """Holds a copy to the requests that were answered before it was begun, and after it."""
    found, *rows = output_of(["sqlite3", "-readonly", other, QUESTION]).split()
    [count, *others] = {int(number) for row in rows for number in row.split("|")}
    expect(found == "ok" and not others and before <= count <= after + 1,
           f"a copy: {found}, {rows}; {before} requests were answered before it, {after} after it")
    exported = keyreg(["export", "--file", other])
    expect(len(exported) == count + 1, f"an export of {len(exported)} rows of {count} requests")
    reported = keyreg(["report", "--file", other, "--days", str(DAYS)])
    expect(len(reported) == count + 2 and reported[-1] == f"total {count}",
           f"a report of {len(reported)} lines, of {count} requests: {reported[-1]}")


def main() -> None:
    late = time.monotonic() + options(__doc__, seconds=60.0).seconds
    whole = changed = 0
    with Served() as served:
        load, other = Load(served), served.file + ".copy"
        load.start()
        while load.answered == 0:
            time.sleep(0.01)
        while time.monotonic() < late:
            before, waits = load.answered, whole > changed
            is_same = copy(served.file, other, waits)
            expect(not (waits and is_same), "cmp finds no difference after the log was copied")
            if is_same:
                look_at_copy(other, before, load.answered)
            whole, changed = whole + is_same, changed + (not is_same)
        expect(load.is_alive(), "a registration was not accepted")
        load.ends = True
        load.join()
    expect(whole and changed, f"{whole} copies without a difference, {changed} with one")
    verdict(f"{load.answered} requests served; {whole} copies without a difference are registers; {changed} had one")


main()
