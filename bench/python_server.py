"""A bare HTTP server over python_register.py, for exchanges.py: it answers GET of a key and POST of a registration.

    bench/python_server.py FILE PORT JOURNAL
"""
import http.server
import json
import re
import socket
import sys
import time
from typing import Any

from python_register import PythonRegister
from answers import MEMBERS, compact
from register_rules import Refused, command_of, command_text, date_of, field_of
from registers import STATES, TYPES, columns_of
from script import expect

ROUTE = re.compile(r"/keys/([1-9][0-9]{0,9})\Z")
DATES = columns_of("keys")[5:]


class Bare(http.server.BaseHTTPRequestHandler):
    register: PythonRegister

    def answer(self, status: int, value: Any) -> None:
        body = compact(value)
        self.send_response_only(status)
        self.send_header("Content-Type", "application/json")
        self.send_header("Content-Length", str(len(body)))
        self.send_header("Connection", "close")
        self.end_headers()
        self.wfile.write(body)

    def do_GET(self) -> None:
        asked, run = ROUTE.match(self.path), self.register.run
        if not asked:
            return self.answer(404, {"name": "NoRoute"})
        number = int(asked[1])
        row = run("SELECT * FROM keys WHERE number = ?", (number,)).fetchone()
        if not row:
            return self.answer(404, {"name": "UnknownKey", "refused": 4})
        _, kind, owner, purpose, state, *dates = row
        select = "SELECT name FROM {} WHERE key_no = ? ORDER BY name"
        custodians, approvals = ([name for name, in run(select.format(names), (number,))]
                                 for names in ("custodian", "approval"))
        need = run("SELECT need FROM quorum WHERE key_no = ?", (number,)).fetchone()
        return self.answer(200, {
            "approvals": approvals, "custodians": custodians, "need": need[0] if need else 2, "number": number,
            "owner": owner, "purpose": purpose, "state": STATES[state], "type": TYPES[kind],
            **dict(zip(DATES, map(date_of, dates)))})

    def do_POST(self) -> None:
        moment = int(time.time())
        try:
            caller = field_of("name", self.headers["Caller"] or "")
            number = field_of("number", self.headers["Request-Number"] or "")
            given = json.loads(self.rfile.read(int(self.headers["Content-Length"])))
            text = command_text((given["kind"], *(given[name] for name in MEMBERS["register"])))
            command_of(text)
        except (KeyError, ValueError):
            return self.answer(400, {"name": "BadLine", "refused": 1})
        try:
            key, state, moment = self.register.answer(moment, caller, number, text)
        except Refused as refused:
            return self.answer(409, {"name": refused.name, "refused": refused.number, **refused.details})
        return self.answer(200, {"key": key, "moment": moment, "state": STATES[state]})

    def log_message(self, *_: Any) -> None:
        pass


class BareServer(http.server.HTTPServer):
    request_queue_size = 128

    def server_bind(self) -> None:
        # HTTPServer's own looks the machine's name up.
        self.socket.setsockopt(socket.SOL_SOCKET, socket.SO_REUSEADDR, 1)
        self.socket.bind(self.server_address)
        self.server_name, self.server_port = self.server_address

    def handle_error(self, *_: Any) -> None:
        """Says nothing of a client that has left; of any other error the client sees that there is no reply."""


def main() -> None:
    file, port, journal = sys.argv[1:]
    Bare.register = PythonRegister(file, journal)
    expect(Bare.register.run("PRAGMA journal_mode").fetchone() == (journal,), f"no journal mode {journal}")
    BareServer(("127.0.0.1", int(port)), Bare).serve_forever()


main()
