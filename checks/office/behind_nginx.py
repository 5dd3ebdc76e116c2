#!/usr/bin/env python3
"""A register behind nginx with office/units/nginx-keyreg.conf, and what reaches it without, as docs/OPERATING.md says:
who a request is from, who is refused, and what a page of another site may ask. A client that stalls holds up nobody,
and who guesses passwords himself alone. All of it is tried with the file as it stands, and by TLS, after the edit that
the file's head names, with a certificate that is made here; then what is asked without TLS is led to it. What nginx
answers by itself is as docs/openapi.yaml says.

    checks/office/behind_nginx.py

It needs Debian's nginx-light, and openssl.
"""
import base64
import contextlib
import io
import json
import os
import pathlib
import socket
import ssl
import sys
import time
import unittest.mock
from typing import Any, NamedTuple, Optional, Union

sys.path.insert(1, str(pathlib.Path(__file__).resolve().parents[1] / "shared"))
from places import use
from nginx import HOST, USERS, Guard, has_ipv6
from registers import File, database
from script import expect, verdict
from serving import PATIENCE, Served, head, received
from tools import run_tool
use("checks/program")
import client
from openapi import unmet_by_nginx

PERIOD = {"kind": "set-period", "type": "master", "originator": 6, "recipient": 0}
KEY: dict[str, Any] = {"kind": "register", "type": "master", "owner": "bob", "activation": None, "protect_stop": None,
       "deactivation": None, "purpose": "root"}
POLICY = "content-security-policy: default-src 'none'; script-src 'self'; style-src 'self'; connect-src 'self';"
EVIL = "Origin: http://evil.example"
# How many wrong passwords are tried at once, and how many exchanges of one address go on by the file.
TRIED, MOST = 60, 40
# Users without their password: none is given, another one, and nobody's.
STRANGERS = ((None, None), ("office", "another"), ("nobody", "desk"))

# A guard, or a port of the register itself.
Place = Union[Guard, int]


class Answer(NamedTuple):
    """The status, the lines of the head in small letters, the body, its value where it is JSON, and the fields of the
    head by their names in small letters."""
    status: int
    lines: str
    body: bytes
    value: Any
    fields: dict[str, str]


def basic(user: str, word: Optional[str] = None) -> str:
    return "Authorization: Basic " + base64.b64encode(f"{user}:{word or USERS[user]}".encode()).decode()


def asked(place: Place, *lines: str, body: bytes = b"", user: Any = None, word: Any = None,
          source: str = "127.0.0.1") -> Answer:
    """The answer to a request; a user gives a password."""
    lines = (*lines, basic(user, word)) if user else lines
    with (socket.create_connection(("::1" if ":" in source else "127.0.0.1", place), PATIENCE)
          if isinstance(place, int) else place.connected(source=source)) as connection:
        connection.sendall(head(*lines, "Connection: close") + body)
        reply = received(connection)
    first, _, body = reply.partition(b"\r\n\r\n")
    value = json.loads(body) if b"application/json" in first and body else None
    fields = {name.lower(): value for name, value in
              (line.split(": ", 1) for line in first.decode("latin-1").split("\r\n")[1:])}
    return Answer(int(first.split()[1]), first.decode().lower(), body, value, fields)


def posted(place: Place, value: Any, *fields: str, user: Any = None, word: Any = None, host: str = HOST) -> Answer:
    body = json.dumps(value).encode()
    lines = ("POST /requests HTTP/1.1", f"Host: {host}", *fields, f"Content-Length: {len(body)}")
    return asked(place, *lines, body=body, user=user, word=word)


def got(place: Place, path: str, user: Any = None, word: Any = None, source: str = "127.0.0.1") -> Answer:
    return asked(place, f"GET {path} HTTP/1.1", f"Host: {HOST}", user=user, word=word, source=source)


def expect_no_preflight(place: Place, status: int, host: str, *fields: str) -> None:
    """What a browser asks before it sends another page's request is refused."""
    answer = asked(place, "OPTIONS /requests HTTP/1.1", f"Host: {host}", EVIL, "Access-Control-Request-Method: POST",
                   *fields)
    expect(answer.status == status and "access-control" not in answer.lines, f"a preflight: {answer}")


# ---- behind nginx


def behind(guard: Guard) -> None:
    """Who a request that comes by way of nginx is from, and who is refused. A request that says for which user it is
    acts for that one alone."""
    forged: dict[str, Any] = {"fields": ("Caller: office", "caller: office")}
    refused, another = {"name": "NotOffice", "refused": 21}, {**KEY, "owner": "another"}
    cases: list[tuple[dict[str, Any], dict[str, Any], int, Any]] = [
        *(({**forged, "user": user, "word": word}, PERIOD, 401, None) for user, word in STRANGERS),
        ({**forged, "user": "alice.meyer"}, PERIOD, 409, refused),
        ({"fields": ("Caller: bob",), "user": "alice.meyer"}, KEY, 200, 1),
        *(({"user": "office", "host": host}, PERIOD, 421, None) for host in (
            "evil.example", "127.0.0.1", f"127.0.0.1:{guard.port}", "evil.example:80", f"{HOST}.evil.example")),
        ({"fields": ("Caller: alice.meyer",), "user": "office"}, PERIOD, 200, 0),
        *(({"fields": (f"Desk-User: {shows}",), "user": "office"}, another, 412, None)
          for shows in ("alice.meyer", "offic", "office:office")),
        ({"fields": ("Desk-User: office",)}, another, 401, None),
        ({"fields": ("Desk-User: alice.meyer",), "user": "alice.meyer"}, {**KEY, "purpose": "more"}, 200, 2)]
    for number, (how, value, status, wanted) in enumerate(cases, 1):
        answer = posted(guard, value, *how.pop("fields", ()), f"Request-Number: {number}", **how)
        told = answer.value["key"] if status == 200 == answer.status else answer.value
        expect((answer.status, told) == (status, wanted), f"request {number}: {answer}, not {status} with {wanted}")
    expect_no_preflight(guard, 401, HOST)


def by_document(guard: Guard, path: str, status: int, user: Any = None, word: Any = None) -> Answer:
    """An answer to a GET of a path that is nginx's own, as docs/openapi.yaml has it."""
    answer = got(guard, path, user, word)
    fault = unmet_by_nginx(path, answer.status, answer.fields, answer.body.decode())
    expect(answer.status == status and not fault, f"{path}: {answer}, {fault}")
    return answer


def desk(guard: Guard, file: File) -> None:
    """The desk, the user's name, the list and the history: each for users alone, with the content policy, and by TLS
    with the word that browsers keep to it."""
    by_document(guard, "/list.json", 404, "office")
    made = run_tool("list", file, pathlib.Path(guard.list_folder, "list.json"), text=True)
    expect(made.returncode == 0, f"the list: {made}")
    folder = f"/history/{got(guard, '/list.json', 'office').value['history']}"
    of_list = ("/list.json", *(f"{folder}/{name}.json" for name in ("index", "keys-0", "callers-0")))
    for path in ("/", "/desk.js", "/me", *of_list):
        for user, word in STRANGERS:
            answer = got(guard, path, user, word)
            expect(answer.status == 401 and b"office" not in answer.body, f"{path} for {user} with {word}: {answer}")
        answer = got(guard, path, "office")
        is_held = (path in of_list or POLICY in answer.lines) and "nosniff" in answer.lines
        expect(answer.status == 200 and answer.body and is_held and "unsafe" not in answer.lines, f"{path}: {answer}")
        for answer in (answer, got(guard, path)):
            keeps = answer.fields.get("strict-transport-security")
            expect(keeps == ("max-age=31536000" if guard.tls else None), f"{path}, kept to TLS: {answer}")
    by_document(guard, f"{folder}/keys-1.json", 404, "office")
    for path in ("/me", *of_list):
        by_document(guard, path, 401, "office", "another")
        by_document(guard, path, 200, "office")
    expect(got(guard, "/me", "alice.meyer").body == b"alice.meyer", "the name of the user")
    for path in ("/../list/list.json", "/nginx.conf", "/%2e%2e/users", "/history/", f"{folder}/"):
        expect(got(guard, path, "office").status in (400, 403, 404), f"{path} is handed out")


def led_to_tls(guard: Guard) -> None:
    """What is asked without TLS is led to the same page by TLS, by both kinds of addresses, of which each is served."""
    for source in ("127.0.0.1", "::1")[:1 + has_ipv6()]:
        answer = asked(guard.plain_port, "GET /list.json?a=b HTTP/1.1", f"Host: {HOST}", source=source)
        place = f"https://{HOST}/list.json?a=b"
        expect(answer.status == 301 and answer.fields["location"] == place, f"without TLS from {source}: {answer}")
        expect(got(guard, "/me", "office", source=source).body == b"office", f"by TLS from {source}")


def guessed(port: int) -> None:
    """Who tries many passwords at once gets few answers, and none that tells a right one from a wrong one before there
    is room again, also where he goes away and comes again. Another address is served meanwhile."""
    def ask_right(source: str = "127.0.0.1") -> int:
        return got(guard, "/me", "office", source=source).status

    # One wrong password in ten seconds is answered, so that nothing hangs on how fast this machine is.
    with Guard(port, rate="6r/m") as guard, contextlib.ExitStack() as tries:
        expect(got(guard, "/me", "office", "another").status == 401, "the first wrong password is refused")
        guesses = [tries.enter_context(guard.connected()) for _ in range(TRIED)]
        for guess in guesses:
            guess.sendall(head("GET /me HTTP/1.1", f"Host: {HOST}", basic("office", "another"), "Connection: close"))
        time.sleep(1)
        statuses = []
        for guess in guesses:
            guess.setblocking(False)
            with contextlib.suppress(BlockingIOError):
                statuses.append(int(guess.recv(65536).split()[1]))
        expect(statuses == [429] * (TRIED - MOST), f"of {TRIED} wrong passwords are answered {statuses}")
        expect(ask_right() == 429, "a right password among wrong ones is told from them")
        tries.close()
        time.sleep(0.5)
        expect(ask_right() == 429, "a right password of who went away and came again is told from wrong ones")
        expect(ask_right("127.0.0.2") == 200, "another address is not served meanwhile")
        late = time.monotonic() + PATIENCE
        while ask_right() != 200:
            expect(time.monotonic() < late, "an address is shut out for good")
            time.sleep(0.2)


def by_client(guard: Guard) -> None:
    """office/client.py, as a shell calls it, gives the password of its file, and says plainly that a file of numbers
    is in use. The host's name leads here."""
    folder = pathlib.Path(guard.folder, "client")
    folder.mkdir()
    (folder / "right").write_text(f"{USERS['alice.meyer']}\n", "ascii")
    (folder / "wrong").write_text("another\n", "ascii")
    address = f"http{'s' * guard.tls}://{HOST}:{guard.port}"
    trust = ["--trust", str(guard.folder / "certificate.pem")] if guard.tls else []

    def called(word: str) -> tuple[int, str]:
        words = ["client.py", "--address", address, "--caller", "alice.meyer", "--numbers", str(folder / "numbers"),
                 "--password", str(folder / word), *trust]
        output, here = io.StringIO(), [(socket.AF_INET, socket.SOCK_STREAM, 6, "", ("127.0.0.1", guard.port))]
        typed = io.StringIO('{"kind":"advance"}')
        with (unittest.mock.patch("sys.argv", words), unittest.mock.patch("sys.stdin", typed),
              unittest.mock.patch("socket.getaddrinfo", lambda *_, **__: here),
              contextlib.redirect_stdout(output), contextlib.redirect_stderr(output)):
            return client.main(), output.getvalue()

    status, told = called("wrong")
    expect(status == 2 and told.startswith("client: Unexpected: status 401"), f"by a wrong password: {status}, {told}")
    status, told = called("right")
    expect(status == 0 and told.startswith("resumed 0 - ") and "ok 0 - " in told, f"by the right one: {status}, {told}")
    numbers = client.Numbers(str(folder / "numbers"))
    status, told = called("right")
    os.close(numbers.lock)
    wanted = f"client: another client has the numbers of {folder / 'numbers'}: one at a time\n"
    expect((status, told) == (2, wanted), f"of numbers in use: {status}, {told}")


def stalled(guard: Guard) -> None:
    """A client that sends half a body holds up nobody."""
    with guard.connected() as connection:
        connection.sendall(head("POST /requests HTTP/1.1", f"Host: {HOST}", basic("office"), "Request-Number: 50",
                                "Content-Length: 100") + b'{"kind"')
        begun = time.monotonic()
        answer = posted(guard, {"kind": "advance"}, "Request-Number: 51", user="office")
        expect(answer.status == 200 and time.monotonic() - begun < 5, f"beside a client that stalls: {answer}")


def other_names(guard: Guard) -> None:
    """By TLS who names another host in the first message, or none, gets no connection; without TLS nothing is given."""
    for name in ("evil.example", f"{HOST}.evil.example", None):
        try:
            guard.connected(name).close()
        except ssl.SSLError:
            continue
        expect(False, f"by TLS {name or 'a client that names no host'} is connected")
    answer = got(guard.port, "/me")
    expect(answer.status == 400, f"without TLS the port of TLS answers {answer}")


def without(port: int) -> None:
    """What reaches the register itself: any host and any name; no page of another origin that asks first."""
    answer = posted(port, PERIOD, "Caller: office", "Request-Number: 60", EVIL, host="evil.example")
    expect(answer.status == 200, f"a foreign host and a forged name: {answer}")
    expect_no_preflight(port, 405, f"127.0.0.1:{port}", "Access-Control-Request-Headers: caller,request-number")
    answer = posted(port, PERIOD, EVIL, "Content-Type: text/plain", host=f"127.0.0.1:{port}")
    expect(answer.status == 400, f"a request of a page that may set no header: {answer}")


def tried(tls: bool) -> None:
    """What reaches a register by way of nginx, and beside it."""
    with Served() as served:
        with Guard(served.port, tls=tls) as guard:
            behind(guard)
            stalled(guard)
            desk(guard, served.file)
            by_client(guard)
            if tls:
                other_names(guard)
                led_to_tls(guard)
        if not tls:
            guessed(served.port)
        without(served.port)
        served.kill()
        with database(served.file) as connection:
            rows = connection.execute("SELECT caller, number FROM request ORDER BY rowid").fetchall()
    # client.py sent two, under numbers of its own.
    rows = [(caller, min(number, 1000)) for caller, number in rows]
    wanted = [("alice.meyer", 5), ("office", 11), ("alice.meyer", 16), ("office", 51), *[("alice.meyer", 1000)] * 2,
              ("office", 60)]
    expect(rows == wanted, f"accepted were {rows}, not {wanted}")


def main() -> None:
    tried(tls=False)
    tried(tls=True)
    verdict("behind nginx, without TLS and by it, a caller is the user who sent the request, a foreign host is "
            "refused, and who guesses passwords waits; without it both are taken")


main()
