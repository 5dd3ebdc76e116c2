#!/usr/bin/env python3
"""A client of `keyreg serve`, in one file, with the standard library alone, to be taken as it is.

    from client import Client, Refused

    with Client("http://127.0.0.1:8420", caller="alice.meyer", numbers="alice.numbers") as office:
        made = office.register("master", "key-office", "spare root")
        try:
            office.activate(made.key)
        except Refused as refusal:
            print(refusal.name, refusal.values)

Or of a shell, a request as JSON on each line of standard input; the status is 1 where one was refused, and 2 where no
answer came:

    echo '{"kind":"advance"}' | client.py --caller clock.job --numbers clock.numbers

By way of nginx it needs the caller's password, which is the first line of a file that nobody else may read, and for a
certificate of the office's own that of who signed it:

    client.py --address https://keyreg.example --password clock.password --trust office.pem ..

What it takes off its writer:

- Numbers that never come twice. Each is above all before it, and not below the microseconds of the clock, so neither a
  clock that is set back nor a lost file brings one back alone. The last one stands in a file, on the disk before it is
  sent. One client at a time has the file.
- Sending again. After a lost or broken answer, a 429 of nginx, a 500, a 502, a 503 or a 504 the same request goes out
  under the same number, ever more slowly, until an answer comes: it acts once. What was not answered when patience
  ended, or when the client was killed, stands in the file, and `resume` sends it again; no other request goes out
  before it. So it is with an answer that is none of keyreg's, as a proxy's own, which does not tell whether it acted:
  `forget` gives up.
- Refusals as exceptions, with the values that they tell.
"""
import argparse
import base64
import contextlib
import fcntl
import http.client
import itertools
import json
import os
import ssl
import sys
import time
import urllib.parse
from typing import Any, Iterable, Iterator, NamedTuple, Optional

GREATEST_NUMBER = 9007199254740991
# Statuses after which a request is sent again: of nginx, which takes no more of this address yet; and those that do not
# tell whether it acted, of keyreg and of what stands before it.
UNTOLD = (429, 500, 502, 503, 504)


class Refused(Exception):
    """keyreg refused the request, which changed nothing: `number` and `name` of the refusal, and its `values`."""

    def __init__(self, reply: dict[str, Any]) -> None:
        super().__init__(f"{reply['refused']} {reply['name']}")
        self.number, self.name = reply["refused"], reply["name"]
        self.values = {name: value for name, value in reply.items() if name not in ("refused", "name")}


class Unexpected(Exception):
    """An answer that no sending again mends, as another program's before keyreg: `status` and `body`."""

    def __init__(self, status: int, body: bytes) -> None:
        super().__init__(f"status {status}: {body[:200]!r}")
        self.status, self.body = status, body


class InUse(OSError):
    """Another client has the file of numbers."""


class NoAnswer(Exception):
    """No answer came for as long as patience lasted. `resume` sends a request again."""


class Reply(NamedTuple):
    """What an accepted request came to. Of an advance and a set-period the key is 0 and the state None."""
    key: int
    moment: int
    state: Optional[str]


class Numbers:
    """The last number of a caller, and the request that was sent under it as long as it has no answer, in a file. A
    stop leaves the file as it was before a change or as it is after it."""

    def __init__(self, path: str) -> None:
        self.path = os.path.abspath(path)
        self.lock = os.open(self.path + ".lock", os.O_RDWR | os.O_CREAT, 0o600)
        try:
            fcntl.flock(self.lock, fcntl.LOCK_EX | fcntl.LOCK_NB)
        except OSError as fault:
            os.close(self.lock)
            if isinstance(fault, BlockingIOError):
                raise InUse(f"another client has the numbers of {self.path}: one at a time") from None
            raise
        self.last = 0
        self.request: Optional[dict[str, Any]] = None
        if os.path.exists(self.path):
            with open(self.path, encoding="utf-8") as kept:
                self.last, self.request = json.load(kept)

    def keep(self, last: int, request: Optional[dict[str, Any]]) -> None:
        with open(self.path + ".new", "w", encoding="utf-8") as made:
            json.dump([last, request], made)
            made.flush()
            os.fsync(made.fileno())
        os.replace(self.path + ".new", self.path)
        folder = os.open(os.path.dirname(self.path), os.O_RDONLY)
        os.fsync(folder)
        os.close(folder)
        self.last, self.request = last, request


class Client:
    """A caller of a served register. For `patience` seconds it sends again, None is for good, with a pause that doubles
    up to `slowest`; an exchange has `timeout` seconds. With a password it goes by HTTP's Basic scheme, as to nginx, and
    `context` is that of an `https` address."""

    def __init__(self, address: str, caller: str, numbers: str, password: Optional[str] = None,
                 patience: Optional[float] = 60, slowest: float = 5, timeout: float = 30,
                 context: Optional[ssl.SSLContext] = None) -> None:
        self.address = urllib.parse.urlsplit(address)
        self.caller, self.patience, self.slowest = caller, patience, slowest
        self.timeout, self.context = timeout, context
        self.headers = {"Caller": caller}
        if password is not None:
            pair = base64.b64encode(f"{caller}:{password}".encode()).decode()
            self.headers["Authorization"] = f"Basic {pair}"
        self.numbers = Numbers(numbers)

    def __enter__(self) -> "Client":
        return self

    def __exit__(self, *_: object) -> None:
        os.close(self.numbers.lock)

    # ---- requests

    def ask(self, kind: str, **members: Any) -> Reply:
        """Sends a request under a number of its own until it is answered."""
        if self.numbers.request is not None:
            raise NoAnswer(f"request {self.numbers.last} has no answer yet: resume")
        number = max(self.numbers.last + 1, time.time_ns() // 1000)
        if number > GREATEST_NUMBER:
            raise OverflowError(f"no number is left to {self.caller}")
        request = {"kind": kind, **members}
        self.numbers.keep(number, request)
        return self.send(request)

    def resume(self) -> Optional[Reply]:
        """Sends what has no answer yet again, and gives its reply; None where all were answered."""
        request = self.numbers.request
        return None if request is None else self.send(request)

    def send(self, request: dict[str, Any]) -> Reply:
        """Sends the request that has no answer yet, under the last number, and gives its reply."""
        headers = {**self.headers, "Request-Number": str(self.numbers.last), "Content-Type": "application/json"}
        try:
            reply = self.answer("POST", "/requests", json.dumps(request).encode(), headers)
        except Refused:
            self.forget()
            raise
        if set(reply) != {"key", "moment", "state"}:
            raise Unexpected(200, json.dumps(reply).encode())
        self.forget()
        return Reply(reply["key"], reply["moment"], reply["state"])

    def forget(self) -> None:
        """Gives up the request that has no answer, which may have acted."""
        self.numbers.keep(self.numbers.last, None)

    def register(self, type: str, owner: str, purpose: str, activation: Optional[int] = None,
                 protect_stop: Optional[int] = None, deactivation: Optional[int] = None) -> Reply:
        return self.ask("register", type=type, owner=owner, purpose=purpose, activation=activation,
                        protect_stop=protect_stop, deactivation=deactivation)

    def activate(self, key: int) -> Reply:
        return self.ask("activate", key=key)

    def set(self, key: int, activation: Any = "keep", protect_stop: Any = "keep", deactivation: Any = "keep") -> Reply:
        return self.ask("set", key=key, activation=activation, protect_stop=protect_stop, deactivation=deactivation)

    def revoke(self, key: int, reason: int, occurrence: Optional[int] = None) -> Reply:
        return self.ask("revoke", key=key, reason=reason, occurrence=occurrence)

    def assign(self, key: int, owner: str) -> Reply:
        return self.ask("assign", key=key, owner=owner)

    def add_custodian(self, key: int, name: str) -> Reply:
        return self.ask("add-custodian", key=key, name=name)

    def remove_custodian(self, key: int, name: str) -> Reply:
        return self.ask("remove-custodian", key=key, name=name)

    def approve(self, key: int) -> Reply:
        return self.ask("approve", key=key)

    def withdraw(self, key: int) -> Reply:
        return self.ask("withdraw", key=key)

    def destroy(self, key: int) -> Reply:
        return self.ask("destroy", key=key)

    def set_quorum(self, key: int, need: int) -> Reply:
        return self.ask("set-quorum", key=key, need=need)

    def set_period(self, type: str, originator: int, recipient: int) -> Reply:
        return self.ask("set-period", type=type, originator=originator, recipient=recipient)

    def advance(self) -> Reply:
        return self.ask("advance")

    # ---- questions, which are answered as of the latest accepted moment

    def key(self, number: int) -> dict[str, Any]:
        return self.answer("GET", f"/keys/{number}", None, self.headers)

    def usage(self, number: int) -> dict[str, Any]:
        return self.answer("GET", f"/keys/{number}/usage", None, self.headers)

    def keys(self) -> Iterator[dict[str, Any]]:
        """Each key in turn. There is no list of them: they have the numbers from 1 on."""
        for number in itertools.count(1):
            try:
                yield self.key(number)
            except Refused as refusal:
                if refusal.name != "UnknownKey":
                    raise
                return

    # ---- exchanges

    def exchange(self, method: str, target: str, body: Optional[bytes], headers: dict[str, str]) -> tuple[int, bytes]:
        """The status and the body of one exchange."""
        secure = self.address.scheme == "https"
        kind = http.client.HTTPSConnection if secure else http.client.HTTPConnection
        more = {"context": self.context} if secure else {}
        connection = kind(self.address.hostname, self.address.port, timeout=self.timeout, **more)
        try:
            connection.request(method, self.address.path.rstrip("/") + target, body, headers)
            reply = connection.getresponse()
            if reply.length is None and not reply.chunked:
                # A head that was cut off looks like one whose body goes on to the end of the connection.
                raise http.client.IncompleteRead(b"")
            return reply.status, reply.read()
        finally:
            connection.close()

    def answer(self, method: str, target: str, body: Optional[bytes], headers: dict[str, str]) -> dict[str, Any]:
        """The object that the first answer has which tells something."""
        late = None if self.patience is None else time.monotonic() + self.patience
        pause = 0.05
        while True:
            try:
                status, text = self.exchange(method, target, body, headers)
            except (OSError, http.client.HTTPException) as lost:
                fault = str(lost)
            else:
                if status not in UNTOLD:
                    return meant(status, text)
                fault = f"status {status}"
            if late is not None and time.monotonic() + pause > late:
                raise NoAnswer(fault) from None
            time.sleep(pause)
            pause = min(pause * 2, self.slowest)


def meant(status: int, text: bytes) -> dict[str, Any]:
    """The object of an answer of keyreg's own; a refusal is raised, and so is what keyreg does not write."""
    with contextlib.suppress(ValueError):
        reply = json.loads(text)
        if isinstance(reply, dict) and status == 200:
            return reply
        if isinstance(reply, dict) and isinstance(reply.get("refused"), int):
            raise Refused(reply)
    raise Unexpected(status, text)


def main() -> int:
    parser = argparse.ArgumentParser(description="Sends requests, one of JSON on each line, to a served register.")
    parser.add_argument("--address", default="http://127.0.0.1:8420")
    parser.add_argument("--caller", required=True)
    parser.add_argument("--numbers", required=True, metavar="FILE", help="the file of the last number")
    parser.add_argument("--patience", type=float, default=60, metavar="SECONDS")
    parser.add_argument("--password", metavar="FILE", help="the file with the caller's password, for nginx")
    parser.add_argument("--trust", metavar="FILE", help="the certificate of who signed that of an https address")
    words = parser.parse_args()
    try:
        password = words.password and first_line(words.password)
        context = ssl.create_default_context(cafile=words.trust) if words.trust else None
        with Client(words.address, words.caller, words.numbers, password, words.patience, context=context) as office:
            return typed(office, sys.stdin)
    except InUse as fault:
        print(f"client: {fault}", file=sys.stderr)
        return 2
    except (NoAnswer, Unexpected, OSError, ValueError, KeyError, TypeError) as fault:
        print(f"client: {type(fault).__name__}: {fault}", file=sys.stderr)
        return 2


def first_line(path: str) -> str:
    with open(path, encoding="utf-8") as file:
        return file.readline().rstrip("\n")


def told(word: str, reply: Reply) -> None:
    """Prints a reply as a reply line has it."""
    print(word, reply.key, reply.state or "-", reply.moment, flush=True)


def typed(office: Client, lines: Iterable[str]) -> int:
    """Sends what has no answer yet, and then the request of each line; the status is 1 where one was refused."""
    status, resumed = 0, office.resume()
    if resumed:
        told("resumed", resumed)
    for line in lines:
        request = json.loads(line)
        try:
            told("ok", office.ask(request.pop("kind"), **request))
        except Refused as refusal:
            status = 1
            values = (f"{name}={value}" for name, value in refusal.values.items())
            print("refused", refusal.number, refusal.name, *values, flush=True)
    return status


if __name__ == "__main__":
    sys.exit(main())
