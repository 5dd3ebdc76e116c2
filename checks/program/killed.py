#!/usr/bin/env python3
"""Lives of the program that SIGKILL ends at random moments: what the next opening finds is the accepted requests whose
replies were written, or one more.

    checks/program/killed.py [--runs N] [--migrations N] [--seed N]

Each of the runs over one file is given the requests after those that it holds. Each of the migrations begins with a
file of version 1, which SQLite's own library writes, and is killed in its opening or in the run after it: the file is
left as it was, or it is of version 2. Then SQLite reads a copy of the file and its log, and the program opens the file.
"""
import pathlib
import random
import subprocess
import sys
import tempfile
import time

sys.path.insert(1, str(pathlib.Path(__file__).resolve().parents[1] / "shared"))
from places import PROGRAM
from registers import STATES, UNSET, VERSION
from registers import are_sound, copy_files, database, expect_replies, keyreg, new_register, write_register
from script import expect, fresh_folder, in_order, options, verdict

# So many requests are given to a life, more than it serves before it is killed.
AHEAD = 3000
LONGEST_SECONDS = 0.25
# So many requests made the file of version 1.
BEFORE = 20_000
CODES = {text: code for code, text in STATES.items()}


def request(place: int) -> tuple[str, str, str]:
    """The line of the request at this place, from 1, its command's text, and its reply: every tenth registers a key,
    each after it gives a key to itself, and every seventh of those only moves the time on."""
    moment, keys = 100 + place, (place + 9) // 10
    key = keys if place % 10 == 1 else 1 + place % keys
    command, reply = f"assign {key} bob", f"ok {key} Pre-Active {moment}"
    if place % 10 == 1:
        command = f"register master bob - - - key {key}"
    elif place % 7 == 0:
        command, reply = "advance", f"ok 0 - {moment}"
    return f"{moment} bob {place} {command}", command, reply


def write_older_file(file: pathlib.Path) -> None:
    rows = []
    for place in range(1, BEFORE + 1):
        _, command, reply = request(place)
        _, key, state, moment = reply.split()
        rows.append(("bob", place, command, int(key), CODES[state], int(moment)))
    keys = [(row[3], 7, "bob", f"key {row[3]}", 1, row[5], *[UNSET] * 6) for row in rows if row[1] % 10 == 1]
    write_register(file, 100 + BEFORE, len(keys), 1, request=rows, keys=keys)


def killed_life(file: pathlib.Path, before: int, seconds: float) -> tuple[int, int]:
    """A run over the requests after so many, which is killed, and what it leaves: the version of the file and how many
    requests it kept that were not answered."""
    with tempfile.TemporaryFile() as source:
        source.write("".join(request(before + place)[0] + "\n" for place in range(1, AHEAD + 1)).encode())
        source.seek(0)
        process = subprocess.Popen([PROGRAM, "run", "--file", file], stdin=source, stdout=subprocess.PIPE)
        try:
            output, _ = process.communicate(timeout=seconds)
        except subprocess.TimeoutExpired:
            process.kill()
            output, _ = process.communicate()
    replies = output.decode().split("\n")[:-1]
    in_order(replies, [request(before + place)[2] for place in range(1, len(replies) + 1)], f"replies behind {before}")
    version, count = kept(file)
    most = before if version == 1 else before + len(replies) + 1
    expect(before + len(replies) <= count <= most, f"version {version}, {count} kept of {before} and {len(replies)}")
    # The program's own opening finds it a register, and repeats the first reply and the last.
    for line, _, reply in map(request, {min(count, 1), count} - {0}):
        expect_replies(file, [(line, reply)])
    return version, count - before - len(replies)


def kept(file: pathlib.Path) -> tuple[int, int]:
    """The version and the number of requests in a copy of the file and its log, which are the first ones."""
    copy = copy_files(file, file.with_name("copy.keyreg"))
    with database(copy) as connection:
        expect(are_sound(connection), "SQLite finds the file unsound")
        texts = connection.execute("SELECT number, command, moment FROM request ORDER BY number").fetchall()
        [(_, version, *counts)] = connection.execute("SELECT * FROM meta")
    copy_files(None, copy)
    count = len(texts)
    expect(texts == [(place, request(place)[1], 100 + place) for place in range(1, count + 1)],
           "the requests that are kept are no prefix")
    expect(counts == [100 + count if count else 0, (count + 9) // 10], f"meta {counts} of {count} requests")
    return version, count


def kill_runs(lives: int, chance: random.Random, folder: pathlib.Path) -> str:
    file, ahead = folder / "office.keyreg", 0
    new_register(file)
    for _ in range(lives):
        version, more = killed_life(file, kept(file)[1], chance.uniform(0.0, LONGEST_SECONDS))
        expect(version == VERSION, f"version {version}")
        ahead += more
    return f"{lives} runs killed, {kept(file)[1]} requests accepted, {ahead} of them not answered"


def kill_migrations(lives: int, chance: random.Random, folder: pathlib.Path) -> str:
    older, file = folder / "older.keyreg", folder / "office.keyreg"
    write_older_file(older)
    copy_files(older, file)
    begun = time.monotonic()
    keyreg(["run", "--file", file])
    longest, left = 4.0 * (time.monotonic() - begun), []
    # One in each part of that time, so that some come before the file is of version 2 and some after.
    for part in range(lives):
        copy_files(older, file)
        left.append(killed_life(file, BEFORE, chance.uniform(part, part + 1) * longest / lives))
    first, ahead = sum(version == 1 for version, _ in left), sum(more for _, more in left)
    expect(0 < first < lives, f"{first} lives were killed before their files were of version 2")
    return f"{lives} migrations killed, {first} of their files left of version 1, {ahead} requests not answered"


def main() -> None:
    asked = options(__doc__, runs=100, migrations=100, seed=random.randrange(10**6))
    lines = [f"seed {asked.seed}"]
    for kill, count in ((kill_runs, asked.runs), (kill_migrations, asked.migrations)):
        with fresh_folder() as folder:
            lines.append(kill(count, random.Random(asked.seed), folder))
    verdict(f"{'; '.join(lines)}; each file held")


main()
