"""What the checks over HTTP share: `keyreg serve` over a file on a free port, raw exchanges with it, and its end.

It needs Linux: that the port listens is read from /proc, since a connection made to try it would be served.
"""
import contextlib
import itertools
import os
import random
import resource
import signal
import socket
import subprocess
import tempfile
import time
from typing import Any, Iterable, Optional

from answers import compact, request_object, served_since
from places import PROGRAM
from registers import File, keyreg, new_register
from register_rules import Register
from script import expect, fail, in_memory, not_none

# So long, in seconds, a start, a reply and an end may take.
PATIENCE = 60
LISTEN = "0A"
# Ports that the system gives to no client by itself. Each process takes its own of them, so that two of them side by
# side choose none twice.
PORTS, SHARES = range(10_000, 32_000), 8


def free_port() -> int:
    ports = PORTS[os.getpid() % SHARES::SHARES]
    for port in random.sample(ports, len(ports)):
        with socket.socket() as chosen, contextlib.suppress(OSError):
            chosen.bind(("127.0.0.1", port))
            return port
    fail("no port is free")


def free_ports(count: int) -> list[int]:
    """So many free ports, none twice."""
    ports = set[int]()
    while len(ports) < count:
        ports.add(free_port())
    return list(ports)


def listens(port: int) -> bool:
    """Whether a socket on 127.0.0.1 listens at the port. Those that listen stand before all others."""
    with open("/proc/net/tcp", encoding="ascii") as sockets:
        next(sockets)
        rows = itertools.takewhile(lambda row: row[3] == LISTEN, map(str.split, sockets))
        return any(row[1] == f"0100007F:{port:04X}" for row in rows)


def begins_to_listen(process: subprocess.Popen, port: int) -> bool:
    """Waits until a program that was started listens at its port; whether it does."""
    late = time.monotonic() + PATIENCE
    while not listens(port) and process.poll() is None and time.monotonic() < late:
        time.sleep(0.002)
    return listens(port)


def received(connection: socket.socket) -> bytes:
    """All that comes up to the end. A reset ends it too: the program closes a connection whose last bytes it did not
    read."""
    pieces = []
    with contextlib.suppress(ConnectionResetError):
        while piece := connection.recv(65536):
            pieces.append(piece)
    return b"".join(pieces)


class Served:
    """A served register: a new one in a folder of its own, with what the lines make of it, or that of a given file."""

    def __init__(self, exchanges: int = 1_000_000, lines: Iterable[str] = (), file: Optional[File] = None,
                 file_limit: Optional[int] = None, environment: Optional[dict[str, str]] = None,
                 port: Optional[int] = None, before: Iterable[str] = ()) -> None:
        self.folder = None if file else tempfile.TemporaryDirectory(dir=in_memory(2**24))
        self.file = str(file) if file else os.path.join(not_none(self.folder).name, "office.keyreg")
        self.replies = keyreg(["run", "--file", file], lines) if file and lines else []
        if not file:
            self.replies = new_register(self.file, lines)
        self.port = port or free_port()
        words = [*before, PROGRAM, "serve", "--file", self.file, "--port", str(self.port),
                 "--exchanges", str(exchanges)]

        def limited() -> None:
            if file_limit:
                signal.signal(signal.SIGXFSZ, signal.SIG_IGN)
                resource.setrlimit(resource.RLIMIT_FSIZE, (file_limit, file_limit))

        self.process = subprocess.Popen(words, stdin=subprocess.DEVNULL, stdout=subprocess.PIPE,
                                        stderr=subprocess.PIPE, preexec_fn=limited, env=environment)
        if not begins_to_listen(self.process, self.port):
            error = not_none(self.process.stderr)
            why = f": status {self.process.returncode}, {error.read()!r}" if self.has_ended() else ""
            fail(f"serve does not listen at port {self.port}{why}")

    def connected(self) -> socket.socket:
        return socket.create_connection(("127.0.0.1", self.port), timeout=PATIENCE)

    def raw(self, request: bytes, ends: bool = True, pieces: Optional[int] = None) -> bytes:
        """The reply to these bytes, sent at once or in pieces of so many; then the input ends, where it does."""
        step = pieces or max(len(request), 1)
        with self.connected() as connection:
            connection.setsockopt(socket.IPPROTO_TCP, socket.TCP_NODELAY, 1)
            with contextlib.suppress(OSError):
                for place in range(0, len(request), step):
                    connection.sendall(request[place:place + step])
                if ends:
                    connection.shutdown(socket.SHUT_WR)
            return received(connection)

    def answered(self, register: Register, *request: Any) -> tuple[bytes, Register]:
        """The reply to a request, which is that of the rules at a second since it was begun, and the register then."""
        begun, reply = int(time.time()), self.raw(post_command(*request))
        after = served_since(begun, register, *request)
        expect(reply in after, f"{request}: {reply!r}, where {[*after]} is wanted")
        return reply, after[reply]

    def has_ended(self) -> bool:
        return self.process.poll() is not None

    def ended(self, status: int = 0, error: bytes = b"") -> Optional[str]:
        """Waits for the program's own end: what is another one than that with this status and these bytes on standard
        error, or None."""
        try:
            end = (*self.process.communicate(timeout=PATIENCE), self.process.returncode)
        except subprocess.TimeoutExpired:
            return "serve did not end"
        return None if end == (b"", error, status) else f"serve ended with {end}, not {(b'', error, status)}"

    def kill(self) -> None:
        self.process.kill()
        self.process.wait()

    def close(self) -> None:
        if not self.has_ended():
            self.kill()
        for stream in (self.process.stdout, self.process.stderr):
            not_none(stream).close()
        if self.folder:
            self.folder.cleanup()

    def __enter__(self) -> "Served":
        return self

    def __exit__(self, *_: object) -> None:
        self.close()


# ---- bytes of requests

ADVANCE = b'{"kind":"advance"}'
# The most bytes of a head and of a body.
MOST_HEAD, MOST_BODY = 8192, 65536


def head(first: str, *fields: str) -> bytes:
    return "\r\n".join([first, *fields, "", ""]).encode()


def get(path: str, *fields: str) -> bytes:
    return head(f"GET {path} HTTP/1.1", "Host: localhost", *fields)


def post_command(caller: str, number: int, command: tuple) -> bytes:
    return post(compact(request_object(command)), f"Caller: {caller}", f"Request-Number: {number}")


def post(body: bytes, *fields: str, length: Optional[int] = None) -> bytes:
    length = len(body) if length is None else length
    return head("POST /requests HTTP/1.1", "Host: localhost", *fields, f"Content-Length: {length}") + body
