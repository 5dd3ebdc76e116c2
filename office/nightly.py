#!/usr/bin/env python3
"""A nightly look at a register, served or not: a copy is taken and held to its own requests and to the last good copy
by replay.py, exported, and drawn. What keyreg-nightly.service calls; it stands beside replay.py, register_rules.py and
timeline.py with its style and its script.

    nightly.py --file FILE --folder FOLDER [--keyreg PROGRAM] [--nights N] [--stale SECONDS]
        [--room PERCENT] [--room-nights N]

Each night has a folder in FOLDER, by its moment, with copy.keyreg, export.csv and keys.html. `last` leads to the last
one where nothing failed; a night that fails stays to be looked at, and the next is held to the good one before it.
Folders beyond --nights (30) are removed, that of `last` never. Without `last` a night is held to none before it: after
a register was set right or restored, remove `last` (docs/OPERATING.md, Set right).

--keyreg       the program; else the one in the path
--stale        so many seconds ago the latest accepted moment is at most
--room         a disk of which so many hundredths are free has room; else 10
--room-nights  so has one with room for so many nights like this one, however large it is; else 100

It prints a line for each step. The status is 0 where nothing differs, 1 where one of these fails: the copy, replay.py
with any status, the export, the picture, a moment that is too old, or after the clock by more than 60 seconds, a disk
without room; 2 where words are wrong.
"""
import argparse
import contextlib
import os
import pathlib
import shutil
import sqlite3
import subprocess
import sys
import time
from datetime import datetime, timezone
from typing import Any, Optional, Sequence, Union

# What is read from beside this file leaves none there.
sys.dont_write_bytecode = True
from register_rules import text_of
from replay import is_copied

HERE = pathlib.Path(__file__).resolve().parent
NAME, LAST, TRIES = "copy.keyreg", "last", 20
# So many seconds the latest moment may be after the clock: a time service may set the clock back by some, and a
# request line may come from a machine whose clock is ahead by some.
AHEAD = 60


class Failed(Exception):
    """A step that ends the night."""


def copied(file: pathlib.Path, copy: pathlib.Path) -> None:
    """Copies the database, then its log, until the database did not change in between."""
    for _ in range(TRIES):
        if is_copied(str(file), str(copy)):
            print(f"copied: {copy.stat().st_size} bytes", flush=True)
            return
        time.sleep(0.5)
    raise Failed(f"{file} changed under each of {TRIES} copies")


def ran(words: Sequence[Union[str, pathlib.Path]], step: str, **more: Any) -> None:
    """Runs a step's program; what it prints goes where ours goes."""
    status = subprocess.run([str(word) for word in words], check=False, **more).returncode
    if status:
        raise Failed(f"{step}: status {status}")


def looked_at(night: pathlib.Path, last: pathlib.Path, program: str) -> None:
    """Holds the copy to its requests and to the last good one, and has it exported and drawn."""
    since = ["--since", str(last / NAME)] if last.exists() else []
    ran([sys.executable, HERE / "replay.py", *since, night / NAME], "replay.py")
    with open(night / "export.csv", "wb") as table:
        ran([program, "export", "--file", night / NAME], "the export", stdout=table)
    with open(night / "export.csv", "rb") as table, open(night / "keys.html", "wb") as page:
        ran([sys.executable, HERE / "timeline.py"], "timeline.py", stdin=table, stdout=page)


def room_on(night: pathlib.Path, hundredths: float, nights: int) -> None:
    """Tells how full the disk is. It has no room where both are lacking: a share of it, and room for so many nights."""
    disk, size = shutil.disk_usage(night), sum(path.stat().st_size for path in night.iterdir())
    free, more = 100 * disk.free / disk.total, disk.free // size
    print(f"disk: {free:.0f} in a hundred free, room for {more} nights of {size} bytes", flush=True)
    if free < hundredths and more < nights:
        raise Failed(f"of the disk {free:.1f} in a hundred are free, fewer than {hundredths:g}, and there is room for "
                     f"{more} nights, fewer than {nights}")


def watched(night: pathlib.Path, stale: Optional[int]) -> None:
    """How old the latest accepted moment is."""
    with contextlib.closing(sqlite3.connect(f"file:{night / NAME}?mode=ro", uri=True)) as copy:
        (latest,) = copy.execute("SELECT latest FROM meta").fetchone()
    (night / (NAME + "-shm")).unlink(missing_ok=True)
    age = int(time.time()) - latest
    print(f"latest accepted moment: {age} seconds ago", flush=True)
    if age < -AHEAD:
        raise Failed(f"the latest accepted moment, {text_of(latest)}, is after the clock: until then each request is "
                     "refused")
    if stale is not None and age > stale:
        raise Failed(f"the latest accepted moment is {age} seconds old: more than {stale}")


def tidied(folder: pathlib.Path, nights: int) -> None:
    """Removes the oldest nights beyond so many, and none that `last` leads to."""
    for path in sorted(path for path in folder.glob("20*") if path.is_dir())[:-nights]:
        if path.resolve() != (folder / LAST).resolve():
            shutil.rmtree(path)


def spent(words: argparse.Namespace) -> None:
    """One night."""
    folder = pathlib.Path(words.folder)
    name = datetime.now(timezone.utc).strftime("%Y-%m-%dT%H-%M-%SZ")
    night, last = folder / name, folder / LAST
    before = last.resolve().name if last.exists() else None
    night.mkdir(parents=True, mode=0o750)
    copied(pathlib.Path(words.file), night / NAME)
    looked_at(night, last, words.keyreg)
    watched(night, words.stale)
    room_on(night, words.room, words.room_nights)
    (folder / "next").unlink(missing_ok=True)
    (folder / "next").symlink_to(name)
    os.replace(folder / "next", last)
    tidied(folder, words.nights)
    print(f"{night}: as its requests give" + (f", and as {before} had it" if before else ""), flush=True)


def main() -> int:
    words = argparse.ArgumentParser(description="A nightly look at a register.")
    words.add_argument("--file", required=True)
    words.add_argument("--folder", required=True)
    words.add_argument("--keyreg", default="keyreg")
    words.add_argument("--nights", type=int, default=30)
    words.add_argument("--stale", type=int)
    words.add_argument("--room", type=float, default=10)
    words.add_argument("--room-nights", type=int, default=100)
    try:
        spent(words.parse_args())
    except (Failed, OSError, sqlite3.Error) as fault:
        print(f"nightly: {fault}", file=sys.stderr)
        return 1
    return 0


if __name__ == "__main__":
    sys.exit(main())
