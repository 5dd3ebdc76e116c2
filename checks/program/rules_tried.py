"""The rules of office/register_rules.py, put to the worked rows of docs/WORKED.md before anything is held to them."""
import re

from answers import compact, post_reply, register_of, reply_line, shown, usage
from places import read
from register_rules import LAST, Register, request_of
from script import expect, not_none
from worked_rows import exchanges_of, worked_rows

# Lines that are no request, by the bounds of the fields; of the last purpose a byte less would do.
NO_REQUESTS = [
    "253402300800 ann 1 advance", "0100 ann 1 advance", "100 ann 1  advance", "200 bob 1 revoke 1 5 100",
    "108 bob 6 set-quorum 1 6", "108 bob 6 set-quorum 1 1", "100 ann 0 advance", "100 ann 9007199254740992 advance",
    "100 a/b 1 advance", "100 ann 1 Advance", "100 ann 1 advance 1", "100 ann 1 activate 0",
    "100 ann 1 activate 4294967296", "100 ann 1 revoke 1 8 -", "100 ann 1 set 1 = = 253402300800",
    "100 office 1 set-period master 0 0", "100 office 1 set-period master 1 1201",
    "100 ann 1 register Master bob - - - x", f"100 ann 1 register master {'b' * 65} - - - x",
    f"100 ann 1 register master bob - - - {'ü' * 100}x",
]


def reply_to(register: Register, text: str) -> str:
    try:
        return reply_line(register, *request_of(text)[:4])
    except ValueError:
        return "refused 1 BadLine"


def look_at_rules() -> None:
    for text in NO_REQUESTS:
        expect(reply_to(Register(), text) == "refused 1 BadLine", f"the rules take {text!r}")
    request_of(f"{LAST} {'a' * 64} 9007199254740991 register master bob - - - {'ü' * 100}")
    rows = worked_rows()
    expect(len(rows) >= 36, f"no more than {len(rows)} worked rows are lines with a reply each")
    for name in rows:
        lines, wanted = zip(*exchanges_of(name))
        register = Register()
        replies = [reply_to(register, text) for text in lines]
        expect(replies == list(wanted), f"the rules give {replies} for *{name}*")
    worked = read("docs/WORKED.md")
    advanced = not_none(re.search(r"(?s)```\n(HTTP/1.1 200 OK\n.*?)\n```", worked))[1].replace("\n", "\r\n").encode()
    expect(post_reply(Register(), 100, "ann", 1, ("advance",)) == advanced, "the rules' reply to *advanced*")
    register, _ = register_of((100, "ann", 1, ("register", "data-encryption", "bob", 0, None, None, "payroll disks")))
    for body in (shown(register, 1), usage(register, 1)):
        expect(f"| `{compact(body).decode()}` |" in worked, f"the rules show {body}")
