#!/usr/bin/env python3
"""Gives the program inputs and files that were changed at random: no crash, no hang, no status but its own, and a file
that opens after it.

    checks/program/mutated.py [--seconds N] [--seed N] [PART..]

Each part has its share of the seconds. What is changed is a good input of its kind, or bytes of a good file or its log.
After each input SQLite reads the file, and the program opens it; after a changed file it is enough that the program
ends as it may. A fault comes with its seed, and --seed repeats it.
"""
import collections
import itertools
import pathlib
import random
import re
import subprocess
import sys
import time
from typing import Sequence

sys.path.insert(1, str(pathlib.Path(__file__).resolve().parents[1] / "shared"))
from command_day import SHORT
from registers import copy_files, new_register, run_program, sound_rows
from register_rules import REFUSALS
from rules_shown import import_table
from script import expect, fresh_folder, not_none, options, verdict
from serving import Served, get, post_command

PATIENCE = 20
ERROR = re.compile(rb"(keyreg: (Memory|Store|Broken|NotARegister|NewerVersion|ReadFault|WriteFault|BadHeader)\n)?")
REFUSED = "|".join(f"{number} {name}" for number, name in enumerate(REFUSALS, 1)).encode()
LINE = re.compile(rb"(ok ([1-9][0-9]*|0) ([A-Z][-A-Za-z]*|-) [0-9]+|refused (%b)( [a-z]+=[-A-Za-z0-9]+)*)\n" % REFUSED)
REPLY = re.compile(rb"HTTP/1\.1 (200|400|404|405|409|411|413|500|503) [A-Za-z ]+\r\n")

DAY = "".join(f"{asked.text}\n" for asked in SHORT).encode()
TABLE = import_table([
    ("data-encryption", "bob", 0, None, None, "disks, payroll"),
    ("master", "bob", None, None, None, 'the "blue" disks'),
    ("private-signature", "eve", 0, 13046400, 31536000, "code signing")]).encode()
# A command of each kind, and the two that ask for a key.
COMMANDS = {asked.request.word: asked.request.command for asked in SHORT}.values()
HEADS = [get("/keys/1"), b"GET /keys/1/usage HTTP/1.0\r\n\r\n"] + [
    post_command("ann", number, command) for number, command in enumerate(COMMANDS, 1)]
PIECES = [
    b"\n", b"\r", b"\r\n", b"\0", b" ", b"  ", b",", b'"', b'""', b"-", b"=", b"0", b"01", b"253402300799",
    b"253402300800", b"4294967296", b"9007199254740992", b"18446744073709551616", b"\xff", b"\xc3\x28",
    b"\xed\xa0\x80", b"{", b"[" * 300, b"}", b"null", b"1e3", b"\\u0000", b"Host: b\r\n", b"Content-Length: 5\r\n",
    b"Transfer-Encoding: chunked\r\n", b"%31", b"x" * 1100, b"x" * 9000,
]


def changed(chance: random.Random, given: bytes) -> bytes:
    """The bytes with one to six changes."""
    data = bytearray(given)
    for _ in range(chance.choice([1, 1, 1, 2, 3, 6])):
        place = chance.randrange(len(data) + 1)
        end = min(len(data), place + chance.choice([1, 1, 2, 4, 16, 64]))
        how = chance.randrange(6)
        if how == 0 and place < len(data):
            data[place] ^= 1 << chance.randrange(8)
        elif how == 1:
            del data[place:end]
        elif how == 2:
            data[place:place] = data[place:end]
        elif how == 3:
            data[place:end] = chance.randbytes(end - place)
        else:
            data[place:place] = chance.choice(PIECES)
    return bytes(data)


def end_of(words: Sequence[str], given: bytes, statuses: Sequence[int]) -> tuple[int, bytes]:
    """The program's status, which is one of these, with a line that it has, and what it wrote."""
    try:
        done = run_program(words, given, timeout=PATIENCE)
    except subprocess.TimeoutExpired:
        sys.exit(f"FAILED: {words}: no end after {PATIENCE} seconds; given {given!r}")
    expect(done.returncode in statuses and ERROR.fullmatch(done.stderr) and bool(done.stderr) == bool(done.returncode),
           f"{words}: status {done.returncode}, {done.stderr!r}; given {given!r}")
    return done.returncode, done.stdout


def look_at(file: str, given: bytes) -> None:
    """The file opens, for SQLite and for the program, and every key has a request."""
    rows = sound_rows(file)
    registered = [row for row in rows["request"] if row[2].startswith("register ")]
    expect(len(rows["keys"]) == len(registered) == rows["meta"][0][3], f"{len(rows['keys'])} keys; given {given!r}")
    end_of(["export", "--file", file], b"", [0])


# ---- the parts: each changes an input at random, gives it to the program, and gives how that ended


def lines(chance: random.Random, file: str) -> str:
    given = changed(chance, DAY)
    _, output = end_of(["run", "--file", file], given, [0])
    replies = output.splitlines(keepends=True)
    is_whole = len(replies) == given.count(b"\n") and all(map(LINE.fullmatch, replies))
    expect(is_whole, f"lines: {output!r}; given {given!r}")
    look_at(file, given)
    return "refusals" if b"refused" in output else "no refusal"


def imported(chance: random.Random, file: str) -> str:
    given = changed(chance, TABLE)
    words = ["import", "--file", file, "--moment", "200", "--caller", "ann", "--first", "50"]
    status, output = end_of(words, given, [0, 4])
    expect(all(map(LINE.fullmatch, output.splitlines(keepends=True))), f"import: {output!r}; given {given!r}")
    look_at(file, given)
    return f"status {status}"


def heads(chance: random.Random, file: str) -> str:
    """A hundred heads or bodies, and the status of the last."""
    with Served(file=file) as served:
        for _ in range(100):
            given = changed(chance, chance.choice(HEADS))
            reply = served.raw(given)
            expect(REPLY.match(reply) if given else not reply, f"head: {reply!r}; given {given!r}")
            length = int(not_none(re.search(rb"Content-Length: ([0-9]+)\r\n", reply))[1]) if reply else 0
            expect(len(reply.partition(b"\r\n\r\n")[2]) == length, f"head: {reply!r}; given {given!r}")
            expect(not served.has_ended(), f"head: serve ended; given {given!r}")
    look_at(file, given)
    return reply[9:12].decode()


def changed_file(chance: random.Random, file: str) -> str:
    path = pathlib.Path(file + chance.choice(["", "-wal"]))
    path = path if path.exists() and path.stat().st_size else pathlib.Path(file)
    data = bytearray(path.read_bytes())
    for _ in range(chance.choice([1, 1, 2, 8, 64])):
        data[chance.randrange(len(data))] = chance.randrange(256)
    if chance.randrange(6) == 0:
        del data[chance.randrange(len(data) + 1):]
    path.write_bytes(data)
    status, _ = end_of(["export", "--file", file], b"", [0, 2, 3, 4])
    again, _ = end_of(["run", "--file", file], b"900 zed 900 advance\n", [0, 2, 3, 4])
    return f"status {status}, then {again}"


PARTS = {"lines": lines, "import": imported, "head": heads, "file": changed_file}


def main() -> None:
    asked, count = options(__doc__, tuple(PARTS), seconds=60.0, seed=1), 0
    with fresh_folder() as folder:
        made, file = str(folder / "made.keyreg"), str(folder / "copy.keyreg")
        new_register(made, DAY.decode().splitlines()[:6])
        for name in asked.parts:
            ends, late = collections.Counter[str](), time.monotonic() + asked.seconds / len(asked.parts)
            for seed in itertools.takewhile(lambda _: time.monotonic() < late, itertools.count(asked.seed)):
                copy_files(made, file)
                try:
                    ends[PARTS[name](random.Random(f"{name} {seed}"), file)] += 1
                except SystemExit as fault:
                    sys.exit(f"{fault}\n{name}, --seed {seed}")
            count += ends.total()
            print(f"{name}: " + ", ".join(f"{how}: {number}" for how, number in sorted(ends.items())), flush=True)
    verdict(f"{count} inputs and files that were changed at random: no end but the program's own")


main()
