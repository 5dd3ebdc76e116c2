#!/usr/bin/env python3
"""Each route, method, command, refusal and status of `keyreg serve`, asked by curl, by http.client, and with raw bytes
where these cannot make them: each reply has the bytes of the rules, and is as docs/openapi.yaml says.

    checks/program/exchanges_by_curl.py [PART..]

One case of each kind is asked: docs/PROMISES.md says what carries the replies to all others. Nothing is taken from the
program but the second at which it served, which lies within the exchange. The rules are first put to worked rows.

A body that is sent as a command meets the schema of requests in docs/openapi.yaml, and one that is refused as none does
not. The examples of that document are those of the specification.

It needs Linux, curl, and Python's jsonschema and PyYAML: `pip install openapi-spec-validator` brings both, and Debian's
are of /usr/bin/python3.
"""
import concurrent.futures
import contextlib
import http.client
import itertools
import json
import pathlib
import socket
import subprocess
import sys
import time
from typing import Any, Callable, Iterator, Optional, Sequence

sys.path.insert(1, str(pathlib.Path(__file__).resolve().parents[1] / "shared"))
from answers import BAD, LENGTH_REQUIRED, NO_ROUTE, TOO_LARGE
from answers import compact, get_reply, not_allowed, register_of, request_object, served_since
from command_day import SHORT
from openapi import example_faults, is_command, unmet
from register_rules import ACTIVE, COMMANDS, DEACTIVATED, GREATEST_NUMBER, LAST, Register
from rules_tried import look_at_rules
from script import expect, options, verdict
from serving import ADVANCE, MOST_BODY, MOST_HEAD, Served, get, head, post, post_command

DAY = 86400
ANN = ("Caller: ann", "Request-Number: 1")
A_KEY = (100, "bob", 1, ("register", "data-encryption", "bob", None, None, None, "payroll disks"))
Way = Callable[..., bytes]


# ---- the ways to ask


def by_curl(served: Served, method: str, path: str, fields: Sequence[str] = (), body: Optional[bytes] = None) -> bytes:
    words = ["curl", "--silent", "--include", "--raw", "--noproxy", "*", "--path-as-is", "--max-time", "60",
             *(["--head"] if method == "HEAD" else ["--request", method]),
             *(word for field in fields for word in ("--header", field)),
             *([] if body is None else ["--data-binary", "@-"]), f"http://127.0.0.1:{served.port}{path}"]
    return subprocess.run(words, input=body, capture_output=True, check=False).stdout


def by_python(served: Served, method: str, path: str, fields: Sequence[str] = (),
              body: Optional[bytes] = None) -> bytes:
    with contextlib.closing(http.client.HTTPConnection("127.0.0.1", served.port, timeout=60)) as connection:
        connection.request(method, path, body, dict(field.split(": ") for field in fields))
        reply = connection.getresponse()
        lines = [f"{name}: {value}" for name, value in reply.getheaders()]
        return head(f"HTTP/1.{reply.version - 10} {reply.status} {reply.reason}", *lines) + reply.read()


def by_bytes(served: Served, method: str, path: str, fields: Sequence[str] = (), body: Optional[bytes] = None) -> bytes:
    length = [] if body is None else [f"Content-Length: {len(body)}"]
    return served.raw(head(f"{method} {path} HTTP/1.1", "Host: localhost", *fields, *length) + (body or b""))


WAYS = (by_curl, by_python, by_bytes)


class Compared:
    """A served register beside that of the rules, which is given what it is given."""
    count = 0

    def __init__(self, served: Served, register: Register) -> None:
        self.served, self.register = served, register

    def hold(self, asked: str, reply: bytes, wanted: bytes) -> None:
        """Holds a reply to that of the rules, and to what docs/openapi.yaml says of the method and target."""
        Compared.count += 1
        expect(reply == wanted, f"{asked}: {reply!r}, where {wanted!r} is wanted")
        method, target = (asked.split(" ") + [""])[:2]
        fault = reply and unmet(method, target, reply)
        expect(not fault, f"{asked}, by docs/openapi.yaml: {fault!r}")

    def post(self, caller: str, number: int, command: tuple, refusal: Optional[int] = None, *,
             way: Way = by_curl, body: Optional[bytes] = None) -> None:
        """A request with a command, and the number of its refusal, None for one that is accepted."""
        body = body or json.dumps(request_object(command), ensure_ascii=False).encode()
        expect(is_command(body), f"by docs/openapi.yaml {body!r} is no command")
        fields, begun = (f"Caller: {caller}", f"Request-Number: {number}"), int(time.time())
        self.answered(way(self.served, "POST", "/requests", fields, body), begun, caller, number, command, refusal)

    def answered(self, reply: bytes, begun: int, caller: str, number: int, command: tuple,
                 refusal: Optional[int] = None) -> None:
        """Holds the reply to a request to that of the rules, at a second since it was begun."""
        after = served_since(begun, self.register, caller, number, command)
        self.hold(f"POST /requests {caller} {number} {command}", reply, reply if reply in after else next(iter(after)))
        self.register = after[reply]
        refused = body_of(reply).get("refused")
        expect(refused == refusal, f"{caller} {number} {command}: refused by {refused}, not {refusal}")

    def get(self, key: int, way: Way = by_curl) -> None:
        """A key and its usage."""
        for of_usage, path in enumerate((f"/keys/{key}", f"/keys/{key}/usage")):
            self.hold(f"GET {path}", way(self.served, "GET", path), get_reply(self.register, key, bool(of_usage)))

    def raw(self, request: bytes, wanted: bytes, **how: Any) -> None:
        first = request.lstrip(b"\r\n").partition(b"\n")[0].rstrip(b"\r").decode(errors="replace")
        self.hold(f"{first} {request[:200]!r}", self.served.raw(request, **how), wanted)


def body_of(reply: bytes) -> dict:
    return json.loads(reply.partition(b"\r\n\r\n")[2])


@contextlib.contextmanager
def compared(*requests: tuple) -> Iterator[Compared]:
    """A served register that these requests made."""
    register, lines = register_of(*requests)
    with Served(lines=lines) as served:
        yield Compared(served, register)


# ---- commands


def commands() -> None:
    """Each command, accepted: the short day, whose dates are to come by the clock, as they are by its moments."""
    later = int(time.time()) + DAY - SHORT[0].request.moment
    with compared() as both:
        for way, (request, *_) in zip(itertools.cycle(WAYS), SHORT):
            moves, fields = request.word in ("register", "set"), COMMANDS[request.word].fields
            values = [value + later if moves and field in ("date", "edit") and isinstance(value, int) else value
                      for field, value in zip(fields, request.command[1:])]
            both.post(request.caller, request.number, (request.word, *values), way=way)
            both.get(request.named or 1, way)


def refusals() -> None:
    """Each refusal but 1, 3 and 20, which other parts and full_register.py have, each by the next way. A key is shown
    with each number of custodians."""
    now, master = int(time.time()), ("register", "master", "bob")
    purpose = 'payroll disks, "site A" \\ \u03b2\u2028\U0001f511'
    first = ("register", "data-encryption", "bob", now - DAY, None, None, purpose)
    last = ("ann", GREATEST_NUMBER, ("register", "authentication", "b" * 64, LAST - DAY, LAST, LAST, "end of days"))
    requests: list[tuple] = [
        ("ann", 1, first), ("ann", 1, first), ("ann", 1, ("advance",), 2),
        ("ann", 2, (*master, None, None, None, "\u00e9" * 100)),
        ("ann", 3, (*master, 500, 400, 600, "x"), 9),
        ("ann", 3, ("register", "data-encryption", "bob", 0, 63072001, None, "x"), 10),
        ("ann", 3, (*master, LAST, None, None, "x"), 11),
        last, last,
        ("bob", 1, ("activate", 4294967295), 4), ("zed", 1, ("set", 2, "=", "=", "="), 5),
        ("zed", 1, ("approve", 2), 6), ("bob", 1, ("activate", 1), 7), ("bob", 1, ("set", 1, now, "=", "="), 8),
        *(("bob", 1 + place, ("add-custodian", 2, f"c{place}")) for place in range(16)),
        ("bob", 20, ("add-custodian", 2, "c0"), 12), ("bob", 20, ("remove-custodian", 2, "dan"), 13),
        ("bob", 20, ("add-custodian", 2, "c16"), 14), ("bob", 20, ("add-custodian", 1, "bob"), 15),
        ("c0", 1, ("withdraw", 2), 17), ("c0", 1, ("approve", 2)), ("c0", 2, ("approve", 2), 16),
        ("bob", 20, ("destroy", 2), 18), ("zed", 1, ("revoke", 2, 3, LAST), 19),
        ("zed", 1, ("set-period", "master", 24, 12), 21), ("zed", 1, ("revoke", 2, 3, 17)),
    ]
    with compared() as both:
        for way, request in zip(itertools.cycle(WAYS), requests):
            both.post(*request, way=way)
            both.get(2, by_bytes)
        for way, key in itertools.product(WAYS, (1, 2, 3, 4)):
            both.get(key, way)


def clock() -> None:
    """A key is shown as of the latest accepted moment, when the clock has reached its dates too; 3 where the latest
    moment is ahead of the clock."""
    with compared() as both:
        now = int(time.time())
        both.post("ann", 1, ("register", "master", "bob", now + 2, None, now + 4, "soon"))
        for number, moment, state in ((2, now + 2, ACTIVE), (3, now + 4, DEACTIVATED)):
            time.sleep(max(0, moment - time.time()) + 0.05)
            both.get(1)
            both.post("ann", number, ("advance",))
            both.get(1)
            expect(both.register.keys[1].state(both.register.latest) == state, "the clock and the rules differ")
    with compared((4_000_000_000, "ann", 1, ("advance",))) as both:
        requests: list[tuple] = [("ann", 2, ("advance",), 3), ("ann", 1, ("advance",)), ("ann", 1, ("approve", 1), 2)]
        for request in requests:
            both.post(*request)


# ---- routes, heads and lengths

# Targets that lead nowhere.
NO_ROUTES = ["/", "/requests/", "/requests?x=1", "//requests", "/keys/", "/keys/0", "/keys/01", "/keys/1?",
             "/keys/4294967296", "/keys/%31", "/keys/1/Usage", "/keys/0/usage", "/keys/./1", "/keys/1/usage/usage"]
ALLOWED = {"/requests": "POST", "/keys/1": "GET", "/keys/9": "GET", "/keys/1/usage": "GET"}


def routes() -> None:
    with compared(A_KEY) as both:
        for key, way in itertools.product((1, 2, 4294967295), WAYS):
            both.get(key, way)
        for method, path in itertools.product(("GET", "POST", "PUT"), NO_ROUTES):
            both.hold(f"{method} {path}", by_curl(both.served, method, path), NO_ROUTE)
        for target in ("http://localhost/keys/1", "*", "keys/1", "/keys/1#a", "/keys/\u0661"):
            both.raw(head(f"GET {target} HTTP/1.1", "Host: localhost"), NO_ROUTE)
        for path, allowed in ALLOWED.items():
            wanted = not_allowed(allowed)
            for method in ("PUT", "DELETE", "OPTIONS", "BREW", allowed.lower(), allowed.title(), "POSTS",
                           "GET" if allowed == "POST" else "POST"):
                both.hold(f"{method} {path}", by_curl(both.served, method, path), wanted)
            for method in ("PUT", allowed.lower()):
                both.hold(f"{method} {path}", by_python(both.served, method, path, ANN, ADVANCE), wanted)
            both.hold(f"HEAD {path}", by_curl(both.served, "HEAD", path), wanted.partition(b"{")[0])
            for method in ("HEAD", "TRACE", "CONNECT"):
                both.hold(f"{method} {path}", by_bytes(both.served, method, path), wanted)


KEY = get("/keys/1")
# As many header lines as there may be, with Host; and what they and the head leave for the value of another one.
HEADERS = [f"F{place}: {place}" for place in range(63)]
SPARE = MOST_HEAD - len(get("/keys/1", "Fill: "))
FIRST = ("POST /requests HTTP/1.1", "Host: localhost")
TAKEN = post(ADVANCE, *ANN)


def heads() -> None:
    """What a head may be, its lengths and callers among it, and what comes before what."""
    with compared(A_KEY) as both:
        shown = get_reply(both.register, 1, False)
        cases = {
            b"": [b""],
            shown: [b"GET /keys/1 HTTP/1.0\r\n\r\n", b"\r\n" + KEY, KEY.replace(b"\r\n", b"\n"), KEY + get("/keys/2"),
                    head("GET /keys/1 HTTP/1.1", "Host:"), get("/keys/1", "Content-Length: x"),
                    get("/keys/1", *HEADERS), get("/keys/1", "Fill: " + "x" * SPARE) + b"x" * 5000,
                    b"\r\n\r\nGET /keys/1 HTTP/1.1\nhOST:\n\n", head("GET /keys/1 HTTP/1.0", "Host: a", "Host: b")],
            BAD: [head("GET /nothing HTTP/1.1"), head("PUT /requests HTTP/1.1"), KEY[:-1], b"\0" * 100,
                  get("/keys/1", "host: b"), get("/keys/1", *HEADERS, "Last: 1"), get("/keys/1", "Name : x"),
                  head("GET /keys/1 HTTP/2.0", "Host: a"), head("GET /keys/1", "Host: a"),
                  head("GET /nothing HTTP/1.1", "Host: a", "host: b"), b"100 ann 1 advance\n",
                  KEY.replace(b"localhost", b"localhost\r\n folded"),
                  head(FIRST[0], "Host: a", "Host: b", *ANN, "Content-Length: 18") + ADVANCE,
                  # Each proper prefix of a request that would be taken.
                  *(TAKEN[:length] for length in range(1, len(TAKEN))),
                  get("/keys/1", "Fill: " + "x" * MOST_HEAD)[:MOST_HEAD - 1],
                  *(head(*FIRST, *ANN, f"Content-Length: {length}") + ADVANCE
                    for length in ("", "x", "+18", "18, 18", "0", "17", "19", "18\r\ncontent-length: 18")),
                  *(post(ADVANCE, f"Caller: {caller}", ANN[1]) for caller in ("", "a b", "\u00e4nn", "a" * 65)),
                  *(post(ADVANCE, ANN[0], f"Request-Number: {number}")
                    for number in ("", "0", "01", GREATEST_NUMBER + 1)),
                  post(ADVANCE, ANN[0]), post(ADVANCE, ANN[1]), post(ADVANCE, *ANN, "CALLER: bob"), post(b"x"),
                  post(ADVANCE, *ANN, *HEADERS[:61])],
            LENGTH_REQUIRED: [head(*FIRST), head(*FIRST, *ANN, "Transfer-Encoding: chunked"),
                              head(*FIRST, "TRANSFER-ENCODING: x", "Content-Length: 18", "Content-Length: 18")],
            TOO_LARGE: [get("/keys/1", "Fill: " + "x" * (SPARE + 1)), post(b"", length=MOST_BODY + 1),
                        post(ADVANCE.ljust(MOST_BODY + 1), *ANN), post(b"", *ANN, length=2 ** 64 + 18)],
        }
        for wanted, requests in cases.items():
            for request in requests:
                both.raw(request, wanted)
        both.raw(KEY, shown, pieces=1)
        both.raw(KEY, shown, ends=False)
        both.raw(head(*FIRST, "Content-Length: 18"), BAD, ends=False)
        for fields, wanted in ((["Transfer-Encoding: chunked", *ANN], LENGTH_REQUIRED), (["Host:"], BAD),
                               (["Fill: " + "x" * MOST_HEAD], TOO_LARGE), ([ANN[0]], BAD)):
            both.hold(f"POST /requests {fields}", by_curl(both.served, "POST", "/requests", fields, ADVANCE), wanted)
        # None of these was applied: the number is still free, and the key as it was.
        both.get(1)
        ann = ["Caller: ann", "Request-Number: {}"]
        odd: list[tuple[list[str], bytes, dict[str, Any]]] = [
                (["CALLER:\t ann \t", "rEQUEST-nUMBER:{}", "content-length:  0018 \t"], ADVANCE, {}),
                (["Content-Length: 18", "X-Caller: bob", *ann, "Expect: 100-continue"], ADVANCE + KEY, {}),
                ([*ann, f"Content-Length: {MOST_BODY}"], ADVANCE.rjust(MOST_BODY), {"pieces": 1009}),
                ([*ann, "Content-Length: 18", *HEADERS[:60]], ADVANCE, {"ends": False})]
        for number, (fields, body, how) in enumerate(odd, 1):
            begun = int(time.time())
            reply = both.served.raw(head(*FIRST, *(field.format(number) for field in fields)) + body, **how)
            both.answered(reply, begun, "ann", number, ("advance",))


# ---- bodies

# A good command of each kind: the last one of the day, whose revocation is for compromise.
SAMPLES = {asked.request.word: asked.request.command for asked in SHORT}
NO_NAME = ["null", '""', '"a b"', '"' + "a" * 65 + '"', '"\u00e4"', '"a\\n"']
NO_DATE = ["1.0", "1e0", "-1", "-0", "253402300800", "true", '"5"', '"Keep"']
# What no member may be, as it stands in the text.
WRONG = {
    "key": ["0", "4294967296", "18446744073709551617", "1.0", "-0", "null", '"1"'], "owner": NO_NAME, "name": NO_NAME,
    "purpose": ["null", '""', '" x"', '"x "', '"' + "x" * 201 + '"', '"' + "\u00e9" * 101 + '"', '"a\\nb"',
                '"\\u007f"', '"\\ud800"'],
    "type": ["null", '"Master"', '"public"', "[]"], "reason": ["0", "8", "2.0", "null", '"2"'],
    "need": ["1", "6", "2.0", "null", '"2"'], "originator": ["0", "1201", "1.0", "null", '"1"'],
    "recipient": ["-1", "1201", "1.0", "null", '"1"'], "activation": NO_DATE, "protect_stop": NO_DATE,
    "deactivation": NO_DATE, "occurrence": [*NO_DATE, '"keep"'], "kind": ["null", "11", '"Advance"', '"list"', "[]"],
}
NO_BODIES = [
    b"", b"advance", b'"advance"', b"null", b'[{"kind":"advance"}]', b"{}", ADVANCE[:-1], ADVANCE + b"x",
    b'{"kind":"advance",}', b"\xef\xbb\xbf" + ADVANCE, b"[" * 1000, b'{"kind":"advance\xff"}', b'{"Kind":"advance"}',
    b'{"kind":"advance","kind":"x"}', b'{"kind":"adv\nance"}',
    *(compact({"kind": "revoke", "key": 1, "reason": reason, "occurrence": 5}) for reason in (1, 4, 5, 6, 7)),
]
# Other spellings of a command than the usual one, each with the command.
SPELLINGS = [
    (b' \t\r\n{ "kind" :\n"adv\\u0061nce" } \r\n', ("advance",)),
    (b'{"kind":"destroy","kind":"advance"}', ("advance",)),
    (b'{"kind":"assign","key":"x","owner":7,"owner":"bob","key":1}', ("assign", 1, "bob")),
    (b'{"purpose":"a\\u00e9\\"\\\\\\/b\\ud83d\\udd11","deactivation":7,"type":"master","protect_stop":7,"owner":"bob",'
     b'"activation":null,"kind":"register"}', ("register", "master", "bob", None, 7, 7, "a\u00e9\"\\/b\U0001f511")),
    (b'{"kind":"set","key":1,"activation":"keep","protect_stop":null,"deactivation":"k\\u0065ep"}',
     ("set", 1, "=", None, "=")),
]


def body_text(members: dict[str, str]) -> bytes:
    return ("{" + ",".join(f'"{name}":{value}' for name, value in members.items()) + "}").encode()


def wrong_members() -> Iterator[bytes]:
    """Bodies of which one member is missing, wrong or too many."""
    for command in SAMPLES.values():
        sample = {name: json.dumps(value) for name, value in request_object(command).items()}
        for name in sample:
            yield body_text({other: sample[other] for other in sample if other != name})
            keeps = ['"keep"'] * (command[0] == "register" and WRONG[name] is NO_DATE)
            yield from (body_text({**sample, name: wrong}) for wrong in WRONG[name] + keeps)
        yield body_text({**sample, "moment": "1"})


def bodies() -> None:
    """What a body may be and what it may not, member by member."""
    with compared(A_KEY) as both:
        for body in (*NO_BODIES, *wrong_members()):
            expect(not is_command(body), f"by docs/openapi.yaml {body!r} is a command")
            both.hold(f"POST /requests {body[:200]!r}", both.served.raw(post(body, *ANN)), BAD)
        both.get(1)
        for number, (body, command) in enumerate(SPELLINGS, 2):
            for spelling in (body, compact(request_object(command))):
                both.post("bob", number, command, way=by_bytes, body=spelling)


# ---- clients


def left_clients() -> None:
    """Clients that leave: at once, within the head, within the body, and before they read the reply."""
    whole = post(ADVANCE, "Caller: zed", "Request-Number: 1")
    with compared(A_KEY) as both:
        for sent, resets in itertools.product((b"", whole[:10], whole[:-5]), (False, True)):
            with both.served.connected() as connection:
                if resets:
                    connection.setsockopt(socket.SOL_SOCKET, socket.SO_LINGER, b"\1\0\0\0\0\0\0\0")
                connection.sendall(sent)
            both.get(1)
        # The request was sent whole, and acts once, whether or not its reply was read.
        begun = int(time.time())
        with both.served.connected() as connection:
            connection.sendall(whole)
        both.answered(both.served.raw(whole), begun, "zed", 1, ("advance",))


def several_at_once() -> None:
    """Clients that come at once are served one after the other, each with its own reply."""
    requests = [(f"caller-{place}", 1, ("register", "master", f"owner-{place}", None, None, None, f"key of {place}"))
                for place in range(32)]
    with compared() as both, concurrent.futures.ThreadPoolExecutor(len(requests)) as pool:
        begun = int(time.time())
        replies = pool.map(lambda request: both.served.raw(post_command(*request)), requests)
        for reply, request in sorted(zip(replies, requests), key=lambda pair: body_of(pair[0])["key"]):
            both.answered(reply, begun, *request)
        for key in range(1, len(requests) + 1):
            both.get(key, by_bytes)


PARTS = {part.__name__: part for part in (
    commands, refusals, clock, routes, heads, bodies, left_clients, several_at_once)}


def main() -> None:
    names = options(__doc__, tuple(PARTS)).parts
    look_at_rules()
    faults = [*example_faults()]
    for name in names:
        PARTS[name]()
    verdict(f"{Compared.count} exchanges agreed with the rules and docs/openapi.yaml; {len(faults)} of its examples "
            "are faulty", faults)


main()
