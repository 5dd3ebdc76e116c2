#!/usr/bin/env python3
"""Exchanges a second of `keyreg serve`, beside a bare HTTP server in Python that does the same work, in each of two
journal modes.

    bench/exchanges.py [--rounds N] [--seconds N] [--exchanges N] [--keys N] [--connections N] [--directory FOLDER]

*python* is python_server.py, on a copy of the same file. All hold the file's lock as long as they run and sync at each
commit (synchronous = FULL): with the rollback journal that `sqlite3` has where nothing else is said, *delete*, or with
a log, *wal*, which Python syncs once and the kit twice.

First so many exchanges of each kind are asked one after the other, and each reply is compared with the expected one.
Then `wrk` asks all in rounds that take turns, so many seconds for each kind, one exchange a connection, so many at
once. Each reply is to have the status 200. After the last round the rows that the compared exchanges left are compared,
and the number of keys with what `wrk` counted (Debian's package wrk). In a FOLDER that is a disk a POST costs its
syncs.
"""
import argparse
import contextlib
import json
import pathlib
import shutil
import socket
import subprocess
import sys
import tempfile
import time
from statistics import median
from typing import Any, Iterator, Sequence

from measuring import STEP, clock_of, table
from answers import shown
from places import PROGRAM
from register_rules import Register, Request, line
from registers import new_register, table_rows
from script import expect, options, output_of
from serving import begins_to_listen, free_port, get, post_command, received

HERE = pathlib.Path(__file__).resolve().parent
JOURNALS, KINDS, MOMENT = ("delete", "wal"), {"get": "GET of a key", "post": "POST of a registration"}, 1_000_000
# After the greatest moment of the clock in these runs: the keys stay Pre-Active.
LATER = 10_000_000_000


# ---- the compared exchanges


def registration(number: int) -> tuple[Any, ...]:
    """The command that makes the key; the Activation Dates are out of the order of the numbers."""
    activation = LATER - 1 - number * STEP % 1_000_000
    return "register", "data-encryption", "office", activation, LATER + 1, LATER + 2, f"backup volume {number}"


def exchange(port: int, given: bytes) -> Any:
    """The value of a good reply's body."""
    with socket.create_connection(("127.0.0.1", port)) as connection:
        connection.sendall(given)
        reply = received(connection)
    head, _, body = reply.partition(b"\r\n\r\n")
    expect(head.split(b" ")[1:2] == [b"200"], f"reply {reply!r}")
    return json.loads(body)


def compare(port: int, register: Register, count: int) -> None:
    """So many GETs of keys that are there, and POSTs of the next ones."""
    keys = len(register.keys)
    for number in (1 + place * STEP % keys for place in range(count)):
        expect(exchange(port, get(f"/keys/{number}")) == shown(register, number), f"key {number} is another")
    begun = int(time.time())
    for number in range(keys + 1, keys + count + 1):
        reply = exchange(port, post_command("bob", number, registration(number)))
        expect(reply["key"] == number and reply["state"] == "Pre-Active" and begun <= reply["moment"] <= time.time(),
               f"registration {number}: {reply}")


def rows_left(file: pathlib.Path, keys: int) -> tuple[list[Any], int]:
    """The rows of the keys up to that number, and those of bob's requests, without when a request came; and how many
    keys there are."""
    tables = table_rows(file)
    rows = [row[:5] + row[6:9] for row in tables["keys"] if row[0] <= keys]
    rows += [row[:5] for row in tables["request"] if row[0] == "bob"]
    return rows, tables["meta"][0][-1]


# ---- the timed exchanges


class Server:
    """A server over a file, with the times of its rounds by kind: exchanges a second, and its processor microseconds of
    one."""

    def __init__(self, name: str, file: pathlib.Path) -> None:
        self.name, self.file, self.port = name if name == "keyreg" else f"python, {name}", file, free_port()
        words = [sys.executable, HERE / "python_server.py", file, str(self.port), name]
        if name == "keyreg":
            words = [PROGRAM, "serve", "--file", file, "--port", str(self.port), "--exchanges", "1000000"]
        self.process = subprocess.Popen(words, stdin=subprocess.DEVNULL)
        self.times: dict[str, list[tuple[float, float]]] = {kind: [] for kind in KINDS}
        self.registered = 0

    def time(self, kind: str, caller: str, given: argparse.Namespace) -> None:
        """Has `wrk` ask exchanges of this kind."""
        clock = clock_of(self.process.pid)
        used = time.clock_gettime(clock)
        written = output_of(["wrk", "-t2", f"-c{given.connections}", f"-d{given.seconds}s",
                             "-s", HERE / "exchanges.lua", f"http://127.0.0.1:{self.port}",
                             "--", kind, caller, given.keys, LATER, STEP])
        count, micros, failed = map(int, written.splitlines()[-1].split())
        expect(count > 0 and failed == 0, f"{self.name}, {kind}: {count} exchanges, {failed} failed")
        self.times[kind].append((1e6 * count / micros, 1e6 * (time.clock_gettime(clock) - used) / count))
        self.registered += count * (kind == "post")


@contextlib.contextmanager
def served(folder: pathlib.Path, lines: Sequence[str]) -> Iterator[list[Server]]:
    """`keyreg` over a register that the lines make, and the bare servers over copies of it."""
    files = {name: folder / f"{name}.keyreg" for name in ("keyreg", *JOURNALS)}
    new_register(files["keyreg"], lines)
    for journal in JOURNALS:
        shutil.copy(files["keyreg"], files[journal])
    servers = [Server(name, file) for name, file in files.items()]
    try:
        for server in servers:
            expect(begins_to_listen(server.process, server.port), f"{server.name} does not listen")
        yield servers
    finally:
        for server in servers:
            server.process.kill()
            server.process.wait()


def serve_all(given: argparse.Namespace, folder: pathlib.Path) -> list[Server]:
    """Has all servers asked, and gives them with their times, `keyreg` first."""
    register = Register()
    requests = [Request(MOMENT, "ann", number, registration(number)) for number in range(1, given.keys + 1)]
    for request in requests:
        register.answer(request)
    with served(folder, [line(*request) for request in requests]) as servers:
        for server in servers:
            compare(server.port, register, given.exchanges)
        for turn in range(given.rounds):
            for kind in KINDS:
                first = turn % len(servers)
                for server in servers[first:] + servers[:first]:
                    server.time(kind, f"round{turn}", given)
    compared = given.keys + given.exchanges
    ours, _ = rows_left(servers[0].file, compared)
    for server in servers:
        rows, keys = rows_left(server.file, compared)
        expect(rows == ours, f"{server.name} left other rows")
        # At the end of a round each connection may be left without its reply.
        more = keys - compared - server.registered
        expect(0 <= more <= given.rounds * given.connections,
               f"{server.name}: {more} keys more than registrations with a reply")
    return servers


def rows(servers: Sequence[Server]) -> Iterator[list[str]]:
    """Of each kind and server the medians of the rounds, and of what `keyreg` has to it in each."""
    for kind, name in KINDS.items():
        for server in servers:
            rates, micros = zip(*server.times[kind])
            ratio = median(ours / rate for (ours, _), rate in zip(servers[0].times[kind], rates))
            yield [name, server.name, f"{median(rates):.0f}", f"{median(micros):.0f}", f"{ratio:.2f}"]


def main() -> None:
    given = options(__doc__, rounds=7, seconds=1, exchanges=1000, keys=1000, connections=16, directory="")
    expect(shutil.which("wrk"), "wrk is not there")
    print(f"{given.rounds} rounds of {given.seconds} s for each kind; connections at once: {given.connections}; "
          f"keys at first: {given.keys}")
    with tempfile.TemporaryDirectory(dir=given.directory or None) as folder:
        servers = serve_all(given, pathlib.Path(folder))
    table(["exchange", "server", "a second", "processor us", "a second, keyreg to it"], rows(servers))


main()
