#!/usr/bin/env python3
"""The bytes and the time of a connection to `keyreg serve`, over the real program and TCP.

    checks/program/connections.py

whole      The longest reply that a register has, of more than 2 KB, arrives whole, also where the client takes it
           in small pieces. A long request is read in pieces, and not byte by byte.
behind     A client that sends 1 MiB behind its request, all of it before it is served, has its whole reply and then
           an end in order: behind replies and a 500, with which the program ends. Of one that sends on and on as
           much is taken off, once it was told of the end.
waited     A client keeps the next one waiting for 10 seconds in all, half a second less at least and one more at most:
           one that sends nothing, one that sends slowly, also after eight seconds of silence, and one that takes
           nothing of its reply; one that sends for five seconds and then takes nothing for these five besides.
slow       What a commit takes is no time of the client's: a request whose two syncs take six seconds each has its
           reply, and is applied once.
clock      The moment of an exchange is the second that the wall clock tells once its client was accepted, also where
           it is set back, or forward while the client is read.
failing    Of calls for a client, and of clocks, one fails: there is no reply, the request is applied or is not, and
           the next client is served, or the program ends by 35.
each       Of more clients than 16 bits count each is answered, and no request is applied but theirs.

The system would do little of this, so a library stands before libc, system.c. Where a reply is not taken, `send` takes
some bytes of it, and then none within the time that the program gave the system: no reply is long enough to fill a
buffer.

The parts run side by side, some 15 seconds. It wants Linux and gcc.
"""
import concurrent.futures
import contextlib
import os
import pathlib
import socket
import sys
import threading
import time
from typing import Any, Callable, Optional

sys.path.insert(1, str(pathlib.Path(__file__).resolve().parents[1] / "shared"))
from answers import BAD, STORE, TOO_LARGE, get_reply, post_reply, register_of, served_since
from refusing import built
from registers import sound_rows
from register_rules import LAST, MOST_CUSTODIANS, TYPES, Register
from rules_shown import tables
from script import expect, fresh_folder, options, verdict
from serving import ADVANCE, MOST_BODY, PATIENCE, Served, get, post

KEY = get("/keys/1")
REGISTER, LINES = register_of((100, "bob", 1, ("register", "data-encryption", "bob", None, None, None, "disks")))
# As much as is taken off a connection before it is closed.
BEHIND = b"x" * 2**20
# What a client keeps the next one waiting, in seconds: so much less at least, and so much more at most.
SECONDS, LESS, MORE = 10.0, 0.5, 1.0
# How long a sync takes that is slow, in seconds.
SYNC = 6
# The most reads of a request with the longest body: some for each of its pieces of 4096 bytes.
MOST_READS = 100


def to_the_end(connection: socket.socket) -> Any:
    """All that comes up to an end in order, or what came and what broke the connection then."""
    pieces: list[bytes] = []
    try:
        while piece := connection.recv(65536):
            pieces.append(piece)
    except OSError as broken:
        return b"".join(pieces), broken
    return b"".join(pieces)


# ---- whole


def longest_reply() -> str:
    """A key with all dates late, and custodians, approvals, names and a purpose as long as they may be."""
    names = [f"{place:02}".ljust(64, "c") for place in range(MOST_CUSTODIANS[2])]
    owner, moment = "o" * 64, LAST - 1000
    register, lines = register_of(
        (moment, owner, 1, ("register", max(TYPES, key=len), owner, *[moment + 1] * 3, '"' * 200)),
        *((moment + 2, owner, 2 + place, ("add-custodian", 1, name)) for place, name in enumerate(names)),
        *((moment + 3, name, 1, ("approve", 1)) for name in names), (moment + 4, owner, 100, ("destroy", 1)),
        (moment + 5, owner, 101, ("revoke", 1, 2, moment + 5)))
    wanted = get_reply(register, 1, False)
    expect(2048 < len(wanted), f"a reply of {len(wanted)} bytes")
    with Served(exchanges=2, lines=lines) as served:
        reply = served.raw(KEY)
        expect(reply == wanted, f"the longest reply: {reply!r}")
        # A client whose system has room for little, and which takes some bytes now and then.
        with socket.socket() as connection:
            connection.setsockopt(socket.SOL_SOCKET, socket.SO_RCVBUF, 1)
            connection.settimeout(PATIENCE)
            connection.connect(("127.0.0.1", served.port))
            connection.sendall(KEY)
            pieces = []
            while piece := connection.recv(100):
                pieces.append(piece)
                time.sleep(0.01)
        expect(b"".join(pieces) == wanted, f"the longest reply, taken in small pieces: {pieces}")
    return f"a reply of {len(wanted)} bytes came whole"


def calls_of(path: pathlib.Path) -> list[tuple[str, int]]:
    """The calls on connections that a run made, each with what it gave."""
    return [(name, int(given)) for name, given in map(str.split, path.read_text("ascii").splitlines())]


def longest_body(environment: dict[str, str], calls: pathlib.Path) -> str:
    with Served(exchanges=1, environment={**environment, "CALLS": str(calls)}) as served:
        begun = int(time.time())
        reply = served.raw(post(ADVANCE.ljust(MOST_BODY), "Caller: zed", "Request-Number: 1"))
        wanted = served_since(begun, Register(), "zed", 1, ("advance",))
        expect(reply in wanted, f"a body of {MOST_BODY} bytes: {reply!r}")
        expect((fault := served.ended()) is None, f"after a long body: {fault}")
    reads = [name for name, _ in calls_of(calls)].count("recv")
    expect(0 < reads <= MOST_READS, f"a body of {MOST_BODY} bytes was read in {reads} pieces")
    return f"a body of {MOST_BODY} bytes was read in {reads} pieces"


# ---- behind


def send_all(connection: socket.socket, sent: bytes) -> None:
    with contextlib.suppress(OSError):
        connection.sendall(sent)


def heard(served: Served, request: bytes) -> Any:
    """What a client hears that has sent these bytes, and all that is behind them, before it is served, and what broke
    its connection, if that was not closed in order. One before it, which sends nothing, is heard until then. One after
    it is heard once it is closed, or the program has ended."""
    with served.connected() as first, served.connected() as second:
        sends = threading.Thread(target=send_all, args=(second, request + BEHIND), daemon=True)
        sends.start()
        # On a busy machine that takes its time; the first may be silent for ten seconds.
        sends.join(8)
        first.shutdown(socket.SHUT_WR)
        expect(to_the_end(first) == b"", "the client before it")
        reply = to_the_end(second)
        sends.join()
        with contextlib.suppress(OSError), served.connected() as third:
            third.shutdown(socket.SHUT_WR)
            to_the_end(third)
        # An end that was read already hides what came after it.
        broken = second.getsockopt(socket.SOL_SOCKET, socket.SO_ERROR)
        return (reply, os.strerror(broken)) if broken else reply


def behind_replies() -> str:
    cases = {KEY: get_reply(REGISTER, 1, False), b"no request\r\n\r\n": BAD, post(b"", length=MOST_BODY + 1): TOO_LARGE}
    with Served(exchanges=3 * len(cases), lines=LINES) as served:
        for request, wanted in cases.items():
            reply = heard(served, request)
            expect(reply == wanted, f"bytes behind {request!r}: {reply}")
        expect((fault := served.ended()) is None, f"after bytes behind requests: {fault}")
    return f"{len(cases)} replies came whole before {len(BEHIND)} bytes that nobody asked for"


def behind_500() -> str:
    """The database may not grow, so that the first request that would change it is answered so."""
    with Served(lines=LINES, file_limit=4096) as served:
        reply = heard(served, post(ADVANCE, "Caller: zed", "Request-Number: 1"))
        expect(reply == STORE, f"bytes behind a 500: {reply}")
        expect((fault := served.ended(3, b"keyreg: Store\n")) is None, f"after a 500: {fault}")
    return "so did a 500"


def endless(environment: dict[str, str], calls: pathlib.Path) -> str:
    with Served(exchanges=1, lines=LINES, environment={**environment, "CALLS": str(calls), "ENDLESS": "1"}) as served:
        reply = served.raw(KEY)
        expect(reply == get_reply(REGISTER, 1, False), f"a client that sends on and on: {reply!r}")
        expect((fault := served.ended()) is None, f"after a client that sends on and on: {fault}")
    names, counts = zip(*calls_of(calls))
    told = names.index("shutdown")
    expect(names[:told] == ("accept4", "recv", "send") and {*names[told + 1:]} == {"recv"},
           f"a client that sends on and on: {names[:told + 2]}")
    taken = sum(counts[told + 1:])
    expect(taken == len(BEHIND), f"{taken} bytes are taken off a client that sends on and on, not {len(BEHIND)}")
    return f"{taken} bytes were taken off a client that sends on and on, once it was told of the end"


# ---- waited


def slowly(client: socket.socket) -> None:
    """Sends a byte every 0.4 seconds, up to the end of the connection."""
    for byte in KEY[:-1]:
        client.sendall(bytes([byte]))
        time.sleep(0.4)


def late_and_slowly(client: socket.socket) -> None:
    time.sleep(8)
    slowly(client)


def for_half_the_time(client: socket.socket) -> None:
    for byte in KEY[:10]:
        client.sendall(bytes([byte]))
        time.sleep(0.5)
    client.sendall(KEY[10:])


def waited(name: str, sends: Callable[[socket.socket], object], environment: Optional[dict[str, str]] = None,
           wanted: float = SECONDS) -> str:
    """How long a client that sends so keeps the next one waiting, which is then served."""
    def send(client: socket.socket) -> None:
        with contextlib.suppress(OSError):
            sends(client)

    with Served(exchanges=2, lines=LINES, environment=environment) as served, served.connected() as client:
        begun = time.monotonic()
        with served.connected() as following:
            following.sendall(KEY)
            thread = threading.Thread(target=send, args=(client,), daemon=True)
            thread.start()
            reply = to_the_end(following)
            seconds = time.monotonic() - begun
            thread.join()
        expect(reply == get_reply(REGISTER, 1, False), f"the client after one that {name}: {reply}")
        expect(wanted - LESS <= seconds <= wanted + MORE,
               f"a client that {name} kept the next one waiting for {seconds:.1f} s, where {wanted:.0f} are wanted")
        expect((fault := served.ended()) is None, f"after a client that {name}: {fault}")
    return f"a client that {name} kept the next one waiting for {seconds:.1f} s"


# ---- slow, clock and failing


def advance(number: int) -> bytes:
    return post(ADVANCE, "Caller: ann", f"Request-Number: {number}")


def slow(environment: dict[str, str]) -> str:
    with Served(exchanges=2, environment={**environment, "SYNC": str(SYNC), "WALL": "9 10 11"}) as served:
        begun = time.monotonic()
        wanted = post_reply(Register(), 10, "ann", 1, ("advance",))
        reply = served.raw(advance(1))
        expect(reply == wanted, f"behind a slow commit: {reply!r}, where {wanted!r} is wanted")
        seconds = time.monotonic() - begun
        expect(seconds > SECONDS, f"a commit that is to be slow took {seconds:.1f} s")
        expect((reply := served.raw(advance(1))) == wanted, f"sent again: {reply!r}, where {wanted!r} is wanted")
        expect((fault := served.ended()) is None, f"after a slow commit: {fault}")
    return f"a request whose commit took {seconds:.0f} s has its reply"


# What the wall clock tells before a client was accepted, and the number of each of its requests with what it tells
# then: up to the last moment, and past it.
BEFORE, TIMES, PAST = 9000, ((1, 1000.75), (2, 2000.5), (3, 1500), (1, 1200), (3, 2000.9), (4, LAST + 0.5)), LAST + 1


def by_the_clock(environment: dict[str, str]) -> str:
    wall = " ".join(map(str, (BEFORE, *(seconds for _, seconds in TIMES), PAST)))
    register, replies = Register(), []
    with Served(exchanges=len(TIMES) + 2, environment={**environment, "WALL": wall}) as served:
        for number, seconds in TIMES:
            wanted = post_reply(register, int(seconds), "ann", number, ("advance",))
            replies.append(served.raw(advance(number)))
            expect(replies[-1] == wanted, f"request {number} at {seconds}: {replies[-1]!r}, where {wanted!r} is wanted")
        expect((reply := served.raw(advance(5))) == b"", f"a request at {PAST}: {reply!r}")
        fault = served.ended(4, b"keyreg: ReadFault\n")
        expect(fault is None, f"after a clock past the last moment: {fault}")
    expect(sum(b"MomentBehind" in reply for reply in replies) == 1, f"of {replies} one is refused 3")
    return f"{len(replies)} exchanges have the second of the wall clock, wherever it is set"


# Which call fails, and whether the request was applied: None where the program ends. The timer is asked before and
# after each turn.
FAILING = {
    "monotonic 1": False, "monotonic 3": True, "SO_RCVTIMEO 1": False, "SO_SNDTIMEO 1": True,
    "recv 1": False, "send 1": True, "realtime 1": None, "accept4 1": None,
}


def failing(environment: dict[str, str]) -> str:
    """The same request is sent again, a second later: its reply tells at which of the two it was applied."""
    for call, is_applied in FAILING.items():
        with Served(exchanges=2, environment={**environment, "FAILS": call, "WALL": "9 10 11"}) as served:
            expect((reply := served.raw(advance(1))) == b"", f"where {call} fails: {reply!r}")
            if is_applied is not None:
                reply = served.raw(advance(1))
                wanted = post_reply(Register(), 10 if is_applied else 11, "ann", 1, ("advance",))
                expect(reply == wanted, f"after {call} failed: {reply!r}, where {wanted!r} is wanted")
            fault = served.ended(*((0, b"") if is_applied is not None else (4, b"keyreg: ReadFault\n")))
            expect(fault is None, f"after {call} failed: {fault}")
    # Behind the failing timer no time is left: a request that has come whole is answered, one that has not ends there.
    broken = {**environment, "FAILS": "monotonic 2", "WALL": "9 10 11"}
    for begins, wanted in ((len(advance(1)), post_reply(Register(), 10, "ann", 1, ("advance",))), (40, b"")):
        with Served(exchanges=1, environment=broken) as served, served.connected() as client:
            client.sendall(advance(1)[:begins])
            time.sleep(1)
            with contextlib.suppress(OSError):
                client.sendall(advance(1)[begins:])
            reply = to_the_end(client)
            expect(reply == wanted, f"where the timer fails behind a turn: {reply!r}, where {wanted!r} is wanted")
            expect((fault := served.ended()) is None, f"where the timer fails behind a turn: {fault}")
    return f"{len(FAILING) + 1} calls that fail end an exchange, or the program by 35"


# ---- each

CLIENTS = 65_540


def each() -> str:
    with Served(exchanges=CLIENTS, lines=LINES) as served:
        wanted = get_reply(REGISTER, 1, False)
        for client in range(1, CLIENTS + 1):
            reply = served.raw(KEY)
            expect(reply == wanted, f"client {client}: {reply!r}")
        expect((fault := served.ended()) is None, f"after {CLIENTS} clients: {fault}")
        rows = sound_rows(served.file)
        expect(rows == {**rows, **tables(REGISTER)}, f"{CLIENTS} clients who ask for a key changed it: {rows}")
    return f"each of {CLIENTS} clients was answered"


def main() -> None:
    options(__doc__)
    with fresh_folder() as folder, concurrent.futures.ThreadPoolExecutor(16) as pool:
        environment = {**os.environ, "LD_PRELOAD": built("system.c", str(folder))}
        full = {**environment, "ROOM": "100"}
        parts = [
            pool.submit(waited, "sends nothing", lambda client: None),
            pool.submit(waited, "sends slowly", slowly),
            pool.submit(waited, "is silent for eight seconds and then sends slowly", late_and_slowly),
            pool.submit(waited, "takes nothing of its reply", lambda client: client.sendall(KEY), full),
            pool.submit(waited, "sends for five seconds and then takes nothing", for_half_the_time, full, SECONDS + 5),
            pool.submit(slow, environment),
            pool.submit(longest_reply), pool.submit(longest_body, environment, folder / "longest_body"),
            pool.submit(behind_replies), pool.submit(behind_500),
            pool.submit(endless, environment, folder / "endless"), pool.submit(by_the_clock, environment),
            pool.submit(failing, environment), pool.submit(each),
        ]
        for part in parts:
            print(part.result(), flush=True)
    verdict(f"{len(parts)} parts are as they should be")


main()
