"""What the register of office/register_rules.py answers, by docs/SPECIFICATION.md: reply lines, the JSON of commands
and keys, and the bytes of replies over HTTP. It shares nothing with the program."""
import json
import time
from typing import Any, Optional

from registers import IMPORT_COLUMNS, STATES
from register_rules import COMMANDS, REFUSALS, Refused, Register, Request, line


def reply_line(register: Register, *request: Any) -> str:
    """The reply to a request, which is its moment, caller, number and command."""
    try:
        accepted = register.answer(Request(*request))
        return f"ok {accepted.key_no} {STATES[accepted.state]} {accepted.moment}"
    except Refused as refused:
        return refused.line


def register_of(*requests: tuple) -> tuple[Register, list[str]]:
    """The register that these requests make, each of which is accepted, and their lines."""
    register = Register()
    for request in requests:
        register.answer(Request(*request))
    return register, [line(*request) for request in requests]


# ---- JSON

# The members of a command beside its kind, which have the names of its fields, but for those of four.
MEMBERS = {word: command.fields for word, command in COMMANDS.items()} | {
    "register": IMPORT_COLUMNS, "set": ("key", "activation", "protect_stop", "deactivation"),
    "revoke": ("key", "reason", "occurrence"), "assign": ("key", "owner"),
}


def request_object(command: tuple) -> dict[str, Any]:
    """The JSON object of a command."""
    word, *values = command
    values = ["keep" if value == "=" else value for value in values]
    return {"kind": word, **dict(zip(MEMBERS[word], values))}


def shown(register: Register, number: int) -> dict[str, Any]:
    """The JSON object of a key."""
    key = register.keys[number]
    return {
        "activation": key.activation, "approvals": sorted(key.approvals), "compromised": key.compromised,
        "custodians": sorted(key.custodians), "deactivation": key.end, "destroyed": key.destroyed,
        "initial": key.initial, "need": key.need, "number": number, "occurrence": key.occurrence, "owner": key.owner,
        "protect_stop": key.stop, "purpose": key.purpose, "state": STATES[key.state(register.latest)],
        "type": key.kind,
    }


def usage(register: Register, number: int) -> dict[str, Any]:
    key, latest = register.keys[number], register.latest
    return {"process": key.processes(latest), "protect": key.protects(latest)}


def compact(value: Any) -> bytes:
    """The compact JSON of a value, members in order of their bytes."""
    return json.dumps(value, sort_keys=True, separators=(",", ":"), ensure_ascii=False).encode()


# ---- replies over HTTP

PHRASES = {
    200: "OK", 400: "Bad Request", 404: "Not Found", 405: "Method Not Allowed", 409: "Conflict", 411: "Length Required",
    413: "Payload Too Large", 500: "Internal Server Error", 503: "Service Unavailable",
}


def reply(status: int, value: Any, allow: Optional[str] = None) -> bytes:
    """The bytes of a reply."""
    body = compact(value)
    head = [f"HTTP/1.1 {status} {PHRASES[status]}", "Content-Type: application/json", f"Content-Length: {len(body)}"]
    head += [f"Allow: {allow}"] if allow else []
    return "\r\n".join([*head, "Connection: close", "", ""]).encode() + body


def refusal_reply(number: int, **members: Any) -> bytes:
    status = {1: 400, 4: 404}.get(number, 409)
    return reply(status, {"name": REFUSALS[number - 1], "refused": number, **members})


BAD, UNKNOWN = refusal_reply(1), refusal_reply(4)
NO_ROUTE = reply(404, {"name": "NoRoute"})
LENGTH_REQUIRED = reply(411, {"name": "LengthRequired"})
TOO_LARGE = reply(413, {"name": "TooLarge"})
STORE = reply(500, {"end": 31, "name": "Store"})
MEMORY = reply(503, {"end": 30, "name": "Memory"})


def not_allowed(method: str) -> bytes:
    return reply(405, {"name": "MethodNotAllowed"}, method)


def post_reply(register: Register, *request: Any) -> bytes:
    try:
        accepted = register.answer(Request(*request))
    except Refused as refused:
        return refusal_reply(refused.number, **refused.details)
    state = STATES[accepted.state] if accepted.key_no else None
    return reply(200, {"key": accepted.key_no, "moment": accepted.moment, "state": state})


def served_since(begun: int, register: Register, *request: Any) -> dict[bytes, Register]:
    """The replies that a request may have that was served at any second since that one, and the register after each."""
    after = [(moment, register.copy()) for moment in range(begun, int(time.time()) + 1)]
    return {post_reply(copy, moment, *request): copy for moment, copy in after}


def get_reply(register: Register, number: int, of_usage: bool) -> bytes:
    if number not in register.keys:
        return UNKNOWN
    return reply(200, usage(register, number) if of_usage else shown(register, number))
