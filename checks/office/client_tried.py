#!/usr/bin/env python3
"""office/client.py over a served register, with a network between that loses requests and answers, cuts answers short,
and answers 500, 502 and 503 by itself; meanwhile the service is killed and started again, and so is the client. At the
end each request that was asked has acted once, in its order. Numbers rise though the clock is set back, and refusals
are raised with the values of the rules.

    checks/office/client_tried.py [--requests N]
"""
import contextlib
import json
import pathlib
import random
import re
import socket
import subprocess
import sys
import threading
import time
import unittest.mock
from typing import Any, Callable, Optional

sys.path.insert(1, str(pathlib.Path(__file__).resolve().parents[1] / "shared"))
from answers import MEMBERS
from registers import File, database, new_register
from script import expect, fail, fresh_folder, not_none, options, verdict
from serving import PATIENCE, Served, free_port, received
from tools import words_of
from client import Client, NoAnswer, Numbers, Refused, Unexpected

SEED = 68
PAGE = b"HTTP/1.1 %d Other\r\nContent-Type: text/html\r\nContent-Length: 13\r\nConnection: close\r\n\r\n<html></html>"
# What the network does with an exchange, and how often of twenty times.
FATES = {"as it is": 9, "request lost": 2, "answer lost": 3, "answer cut": 2, "500": 1, "502": 1, "503": 1,
         "504 behind": 1}


class Network:
    """A port that hands exchanges on to another one, or does not."""

    def __init__(self, chance: random.Random) -> None:
        self.port, self.target, self.chance = free_port(), 0, chance
        self.fixed: Optional[str] = None
        self.fates: list[str] = []
        self.address = f"http://127.0.0.1:{self.port}"
        self.listener = socket.create_server(("127.0.0.1", self.port))
        threading.Thread(target=self.run, daemon=True).start()

    def run(self) -> None:
        while True:
            with self.listener.accept()[0] as near, contextlib.suppress(OSError):
                self.exchange(near)

    def exchange(self, near: socket.socket) -> None:
        fate = self.fixed or self.chance.choices(list(FATES), list(FATES.values()))[0]
        self.fates.append(fate)
        request = b""
        while b"\r\n\r\n" not in request:
            request += near.recv(65536)
        length = int(not_none(re.search(rb"(?i)content-length: (\d+)", request))[1]) if b"POST" in request[:4] else 0
        while len(request.partition(b"\r\n\r\n")[2]) < length:
            request += near.recv(65536)
        answer = PAGE % int(fate[:3]) if fate[0] in "45" else b""
        if fate in ("as it is", "504 behind") or fate.startswith("answer"):
            with socket.create_connection(("127.0.0.1", self.target), timeout=10) as far:
                far.sendall(request)
                answer = answer or received(far)
        if fate == "answer cut" and answer:
            answer = answer[:self.chance.randrange(len(answer))]
        if not fate.endswith("lost"):
            near.sendall(answer)


def expect_requests(file: File, count: int) -> None:
    """The register has the registrations that were asked, each once and in their order, under rising numbers."""
    with database(file) as connection:
        rows = connection.execute("SELECT number, command FROM request ORDER BY rowid").fetchall()
    numbers, purposes = [row[0] for row in rows], [row[1].split(" - ")[-1] for row in rows]
    expect(purposes == [f"key {place}" for place in range(1, count + 1)], f"{len(rows)} of {count}: {purposes[:20]}")
    expect(numbers == sorted(set(numbers)), "a number came twice")


def asked_through(network: Network, folder: pathlib.Path, count: int) -> int:
    """So many registrations through the network, over a service that is killed and started again."""
    file = folder / "office.keyreg"
    new_register(file)
    chance, lives, replies = random.Random(SEED + 1), 0, list[Any]()

    def ask() -> None:
        with Client(network.address, "ann", f"{folder}/ann.numbers", patience=PATIENCE, slowest=0.2) as office:
            for place in range(1, count + 1):
                replies.append(office.register("master", "bob", f"key {place}"))

    asking = threading.Thread(target=ask)
    asking.start()
    while asking.is_alive():
        with Served(file=file) as served:
            network.target, lives = served.port, lives + 1
            asking.join(chance.uniform(0.2, 2))
    expect([reply.key for reply in replies] == list(range(1, count + 1)), f"the replies are {replies[:20]}")
    expect_requests(file, count)
    return lives


# ---- a client that is killed


def kept(numbers: pathlib.Path) -> list[Any]:
    """The last number in a client's file, and the request that has no answer."""
    return json.loads(numbers.read_text(encoding="utf-8")) if numbers.exists() else [0, None]


def killed(network: Network, folder: pathlib.Path, count: int) -> int:
    """A client that is killed again and again, and started anew with what it had not taken yet, as its file shows. One
    that came to nothing before it was killed, as on a busy machine, is followed by one that may live twice as long."""
    file, numbers = folder / "killed.keyreg", folder / "zed.numbers"
    new_register(file)
    chance, kills, taken, longest = random.Random(SEED + 2), 0, 0, 1.2
    words = words_of("client", "--address", network.address, "--caller", "zed", "--numbers", numbers)
    with Served(file=file) as served:
        network.target = served.port
        while taken < count or kept(numbers)[1]:
            with subprocess.Popen(words, stdin=subprocess.PIPE, stdout=subprocess.PIPE, text=True) as asking:
                killer = threading.Timer(chance.uniform(0.2, longest), asking.kill)
                killer.start()
                before, taken = taken, typed(asking, numbers, taken, count)
                longest = 1.2 if taken > before else 2 * longest
                killer.cancel()
                asking.kill()
                kills += 1
    expect_requests(file, count)
    return kills


def typed(asking: subprocess.Popen, numbers: pathlib.Path, taken: int, count: int) -> int:
    """Types one request after the other, each after the reply to the one before, until the client is gone; gives how
    many it has taken."""
    if kept(numbers)[1] and not not_none(asking.stdout).readline().startswith("resumed"):
        return taken
    while taken < count:
        request = {"kind": "register", "type": "master", "owner": "bob", "purpose": f"key {taken + 1}",
                   "activation": None, "protect_stop": None, "deactivation": None}
        before, is_answered = kept(numbers)[0], False
        with contextlib.suppress(BrokenPipeError):
            not_none(asking.stdin).write(json.dumps(request) + "\n")
            not_none(asking.stdin).flush()
            is_answered = not_none(asking.stdout).readline().startswith("ok")
        if not is_answered:
            asking.wait()
            return taken + (kept(numbers)[0] != before)
        taken += 1
    return taken


# ---- what is raised


def raised(kind: type[Exception], call: Callable[..., Any], *words: Any, **more: Any) -> Any:
    try:
        call(*words, **more)
    except kind as fault:
        return fault
    fail(f"{call.__name__} {words} raised no {kind.__name__}")


def refused(network: Network, folder: pathlib.Path) -> None:
    """Refusals with the values that the rules give them, and questions."""
    now, numbers = int(time.time()) - 9, f"{folder}/refused"
    lines = [f"{now} ann 1 register master bob - - - root", f"{now} ann 2 register master ann - - - spare"]
    with Served(lines=lines) as served, Client(network.address, "ann", numbers) as office:
        network.target, network.fixed = served.port, "as it is"
        cases: list[tuple[Callable[..., Any], list[Any], tuple[int, str, dict[str, Any]]]] = [
                (office.activate, [1], (5, "NotOwner", {})), (office.activate, [3], (4, "UnknownKey", {})),
                (office.destroy, [2], (18, "ApprovalsMissing", {"have": 0, "need": 2})),
                (office.set, [2, "soon"], (1, "BadLine", {})),
                (office.revoke, [2, 5], (7, "WrongState", {"state": "Pre-Active"})),
                (office.key, [3], (4, "UnknownKey", {}))]
        for call, words, wanted in cases:
            fault = raised(Refused, call, *words)
            expect((fault.number, fault.name, fault.values) == wanted, f"{fault}, {fault.values} and not {wanted}")
        with unittest.mock.patch.object(office, "ask", lambda kind, **members: (kind, members)):
            for kind, members in MEMBERS.items():
                values = dict(zip(members, members))
                asked = getattr(office, kind.replace("-", "_"))(**values)
                expect(asked == (kind, values), f"{kind} asks {asked}, not {values}")
        expect(office.activate(2).state == "Active", "an activation")
        expect(office.usage(2) == {"process": "yes", "protect": True}, "a usage")
        expect([key["purpose"] for key in office.keys()] == ["root", "spare"], "the keys")
        before = office.numbers.last
        with unittest.mock.patch("time.time_ns", lambda: 1):
            office.advance()
        expect(office.numbers.last == before + 1, "a clock that was set back gives another number than the next")
        raised(OSError, Numbers, numbers)
        # What another program answers by itself is raised, and the request stands until it is resumed or forgotten.
        network.fixed, network.fates = "401 by itself", []
        fault = raised(Unexpected, office.advance)
        expect(fault.status == 401 and len(network.fates) == 1, f"{fault}, sent {len(network.fates)} times")
        raised(NoAnswer, office.advance)
        network.fixed, office.patience = "request lost", 0.3
        raised(NoAnswer, office.resume)
        network.fixed = "as it is"
        expect(not_none(office.resume()).key == 0 and office.resume() is None, "a resumed request has its reply, once")
        network.fixed = "502"
        raised(NoAnswer, office.advance)
        office.forget()
        network.fixed = "as it is"
        expect(office.advance().state is None, "the next request goes out after one was forgotten")


def main() -> None:
    count = options(__doc__, requests=40).requests
    network = Network(random.Random(SEED))
    with fresh_folder() as folder:
        lives = asked_through(network, folder, count)
        fates = {fate: network.fates.count(fate) for fate in FATES}
        expect(all(fates.values()), f"the network did not do all: {fates}")
        kills = killed(network, folder, count // 2)
        refused(network, folder)
    verdict(f"{count} requests through {fates}, over {lives} lives of the service, and {count // 2} of a client that "
            f"was killed {kills} times: each acted once")


main()
