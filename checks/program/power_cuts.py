#!/usr/bin/env python3
"""Power cuts: between any two calls that the program makes of its files, and of each thing that a disk may then hold of
them, the next opening finds exactly the register of the answered requests, or of one more.

    checks/program/power_cuts.py [--choices N] [--points N] [--seed N]

strace records the calls of a creation, a day of all commands (checks/shared/command_day.py), a file of version 1 that
is taken to version 2, an import that is long enough for the log to be copied into the database on the way, and
exchanges. disk_cuts.py says what a disk may hold: each file all old, all new or all noise, and N choices at random, 4
where nothing is said; --points bounds the points that are tried of each recording, 300 where nothing is said. The
program opens each pair of files, SQLite's library reads the rows, and office/register_rules.py says which they are to
be. Of every eighth pair all requests are sent again: each has its first reply, and acts once.

A disk that keeps what it synced has to lose nothing. A second one, that takes every second sync for done and forgets
it, has to be found out, or this check sees nothing. It needs Linux and strace.
"""
import argparse
import functools
import hashlib
import itertools
import json
import multiprocessing
import pathlib
import sqlite3
import subprocess
import sys
from typing import NamedTuple, Optional, Sequence

sys.path.insert(1, str(pathlib.Path(__file__).resolve().parents[1] / "shared"))
from places import PROGRAM
from answers import reply_line
from command_day import SHORT
from disk_cuts import AT_RANDOM, EXTREMES, PARTS, Choice, Disk, Event, Files, events_of, put, traced
from registers import INDEXES, answered_and_killed, new_register, run_program, sound_rows, write_first_version
from register_rules import COMMANDS, Register, Request, line
from rules_shown import Rows, import_table, tables
from script import expect, fresh_folder, options, verdict
from serving import PATIENCE, Served

PROCESSES = 2
# Of so many pairs of files one is given all requests again.
AGAIN = 8

# The short day, in which time moves the second key as the first one is worked at, with a repeat and a refusal behind
# the first approval.
DAY = [asked.request for asked in SHORT]
APPROVED = next(place for place, request in enumerate(DAY, 1) if request.word == "approve")
DAY[APPROVED:APPROVED] = [DAY[APPROVED - 1], Request(DAY[APPROVED - 1].moment, "bob", 99, ("destroy", 1))]
# What a file of version 1 has of the day, and what is asked of it then: the repeat, the refusal, and what it has not.
FIRST = DAY[:APPROVED]
AFTER = DAY[APPROVED:APPROVED + 4] + [request for request in DAY if COMMANDS[request.word].since > 1]
# What is accepted of it at any moment of the clock.
OF_CUSTODY = ("register", "add-custodian", "remove-custodian", "approve", "withdraw")
# So many rows that the log is copied before the last is answered, which comes after a thousand of its frames.
ROWS = [("master", "bob", None, None, None, f"key {place} " + "x" * 150) for place in range(1, 361)]
IMPORTED = [Request(100, "imp", number, ("register", *row)) for number, row in enumerate(ROWS, 1)]


class Recording(NamedTuple):
    """A recorded life: the files before it, what was done to them, and the replies in turn; the requests before it and
    in it."""
    files: Files
    events: list[Event]
    replies: list[bytes]
    before: Sequence[Request]
    requests: Sequence[Request]

    def answered(self, count: int) -> int:
        """How many of the replies were written whole by so many events."""
        written = sum(len(event.data) for event in self.events[:count] if event.kind == "answered")
        return sum(end <= written for end in itertools.accumulate(map(len, self.replies)))


RECORDINGS: dict[str, Recording] = {}


@functools.lru_cache(maxsize=None)
def rows_after(name: str, count: int) -> Rows:
    """The rows after so many requests of a recording."""
    register, recording = Register(), RECORDINGS[name]
    for request in (*recording.before, *recording.requests[:count]):
        reply_line(register, *request)
    return tables(register)


# ---- what is recorded


def files_of(file: str) -> Files:
    paths = {part: pathlib.Path(file + part) for part in PARTS}
    return {part: path.read_bytes() if path.exists() else None for part, path in paths.items()}


def lines_of(requests: Sequence[Request]) -> bytes:
    return "".join(line(*request) + "\n" for request in requests).encode()


def replies_to(before: Sequence[Request], requests: Sequence[Request]) -> list[bytes]:
    register = Register()
    return [f"{reply_line(register, *request)}\n".encode() for request in (*before, *requests)][len(before):]


def recorded(file: str, before: Sequence[Request], requests: Sequence[Request], command: str = "run",
             terms: Sequence[str] = (), given: Optional[bytes] = None) -> Recording:
    """Records a command whose replies are lines."""
    files, wanted, trace = files_of(file), replies_to(before, requests), file + ".trace"
    done = subprocess.run([*traced(trace), PROGRAM, command, "--file", file, *terms], capture_output=True, check=False,
                          input=lines_of(requests) if given is None else given)
    end = (done.returncode, done.stdout, done.stderr)
    expect(end == (0, b"".join(wanted), b""), f"{command}: {done.returncode}, {done.stderr!r}, {done.stdout[-2000:]!r}")
    return Recording(files, events_of(trace, file), wanted, before, requests)


def second_life(file: str) -> Recording:
    """The day's second half, over a log that a killed program left."""
    new_register(file)
    answered_and_killed(file, [line(*request) for request in DAY[:10]])
    return recorded(file, DAY[:10], DAY[10:14])


def migration(file: str) -> Recording:
    register = Register()
    for request in FIRST:
        reply_line(register, *request)
    write_first_version(file, INDEXES, tables(register))
    return recorded(file, FIRST, AFTER)


def long_import(file: str) -> Recording:
    new_register(file)
    recording = recorded(file, [], IMPORTED, "import", ["--moment", "100", "--caller", "imp", "--first", "1"],
                         import_table(ROWS).encode())
    last = max(place for place, event in enumerate(recording.events) if event.kind == "answered")
    copied = any(event.kind == "written" and event.file == "" for event in recording.events[:last])
    expect(copied, "import: the log was not copied on the way")
    return recording


def exchanges(file: str) -> Recording:
    """Requests over HTTP, at the moments of their replies."""
    asks = [request[1:4] for request in DAY if request.word in OF_CUSTODY]
    new_register(file)
    files, trace = files_of(file), file + ".trace"
    replies, requests, register = [], [], Register()
    with Served(exchanges=len(asks), file=file, before=traced(trace)) as served:
        for ask in asks:
            reply, register = served.answered(register, *ask)
            expect(reply.startswith(b"HTTP/1.1 200 "), f"exchanges: {reply!r}")
            replies.append(reply)
            requests.append(Request(json.loads(reply.partition(b"\r\n\r\n")[2])["moment"], *ask))
        expect((fault := served.ended()) is None, f"exchanges: {fault}")
    return Recording(files, events_of(trace, file), replies, [], requests)


def day(file: str) -> Recording:
    new_register(file)
    return recorded(file, [], DAY)


RECORDED = {
    "creation": lambda file: recorded(file, [], [], "init"), "day": day, "second life": second_life,
    "migration": migration, "import": long_import, "exchanges": exchanges,
}


# ---- what is found after a cut


def look_at_files(name: str, file: str, answered: int, is_over: bool, is_sent_again: bool) -> None:
    """Holds the register in the files, of whose requests so many were answered, to what may be."""
    recording = RECORDINGS[name]
    done = run_program(["run", "--file", file], timeout=PATIENCE)
    if name == "creation" and not is_over and done.returncode == 2:
        # There is no register yet; then one can be made.
        done = run_program(["init", "--file", file], timeout=PATIENCE)
    end = (done.returncode, done.stdout, done.stderr)
    expect(end == (0, b"", b""), f"the opening: {end}")
    expect(sound_rows(file) in (rows_after(name, answered), rows_after(name, answered + 1)),
           f"other rows than of {answered} requests or one more")
    if is_sent_again and recording.requests:
        # A refused request is judged anew, at the moment that the register has by then.
        pairs = [pair for pair in zip(recording.requests, replies_to(recording.before, recording.requests))
                 if pair[1].startswith(b"ok ")]
        done = run_program(["run", "--file", file], lines_of([request for request, _ in pairs]), timeout=PATIENCE)
        expect((done.returncode, done.stdout) == (0, b"".join(reply for _, reply in pairs)), f"sent again: {done}")
        expect(sound_rows(file) == rows_after(name, len(recording.requests)), "other rows after all was sent again")


def cut_at(task: tuple[str, list[int], bool, int, int]) -> tuple[int, list[str]]:
    """Cuts at these points of a recording: how many pairs of files were looked at, and what was wrong with which."""
    name, points, forgets, at_random, seed = task
    recording, losses, seen = RECORDINGS[name], [], set()
    disk, done = Disk(recording.files, forgets), 0
    with fresh_folder(memory=2**24) as folder:
        file = str(folder / "cut.keyreg")
        for point in points:
            for event in recording.events[done:point]:
                disk.take(event)
            done = point
            answered, is_over = recording.answered(point), point == len(recording.events)
            chances = [AT_RANDOM[number % len(AT_RANDOM)] for number in range(at_random)]
            for number, ways in enumerate(EXTREMES + chances):
                choice = Choice(ways, f"{seed} {name} {point} {number}")
                files = {part: disk.kept(part, choice) for part in PARTS}
                mark = (answered, is_over, *(content and hashlib.sha1(content).digest() for content in files.values()))
                if mark in seen:
                    continue
                seen.add(mark)
                put(files, file)
                try:
                    look_at_files(name, file, answered, is_over, len(seen) % AGAIN == 1)
                except (SystemExit, sqlite3.Error) as fault:
                    losses.append(f"{name}, after {point} of {len(recording.events)} calls, choice {number}: {fault}")
    return len(seen), losses


# ---- all of it


def points_of(events: list[Event], most: int) -> list[int]:
    """The points that are tried: all, or so many of them, evenly, and those at which the database itself is written."""
    every = range(len(events) + 1)
    if len(every) <= most:
        return list(every)
    copying = [point for point in every[1:] if events[point - 1].file == ""]
    spread = {every[len(every) * place // most] for place in range(most // 2)}
    return sorted({*spread, *copying[::max(1, 2 * len(copying) // most)], every[-1]})


def cut_all(names: list[str], forgets: bool, asked: argparse.Namespace, most: int) -> tuple[int, list[str]]:
    tasks = []
    for name in names:
        points = points_of(RECORDINGS[name].events, most)
        step = max(4, len(points) // 16)
        tasks += [(name, points[first:first + step], forgets, asked.choices, asked.seed)
                  for first in range(0, len(points), step)]
    with multiprocessing.get_context("fork").Pool(PROCESSES) as pool:
        counts, losses = zip(*pool.imap(cut_at, tasks))
    return sum(counts), [loss for of_task in losses for loss in of_task]


def main() -> None:
    asked = options(__doc__, choices=4, points=300, seed=1)
    with fresh_folder() as folder:
        for number, (name, record) in enumerate(RECORDED.items()):
            RECORDINGS[name] = recording = record(str(folder / f"recorded_{number}.keyreg"))
            print(f"{name}: {len(recording.events)} calls, {len(recording.replies)} replies", flush=True)
    count, losses = cut_all([*RECORDINGS], False, asked, asked.points)
    # A few points are enough to find out a disk that forgets.
    more, forgotten = cut_all(["day"], True, asked, max(asked.points // 5, 20))
    print(f"a disk that forgets every second sync: {more} cuts, {len(forgotten)} of them with a loss")
    verdict(f"seed {asked.seed}: {count} cuts of {len(RECORDINGS)} recordings, {len(losses)} losses",
            losses[:20] + ([] if forgotten else ["a disk that forgets is not found out"]))


main()
