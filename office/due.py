#!/usr/bin/env python3
"""Tells what is due for rotation: as calendars (RFC 5545), and as mails (RFC 5322) to those for whom something waits.

    due.py REGISTER FOLDER [--days N] [--alarm DAYS].. [--addresses TABLE] [--sender ADDRESS]

REGISTER is a register's file with its log beside it, and may be served meanwhile: a copy of both is taken and read.
Due is what `keyreg report --days N` lists, as of the latest accepted moment; N is 60 where none is given. FOLDER gets

    all.ics           an event at the Protect Stop Date of each key that is due
    owners/NAME.ics   the same of an owner's keys
    mails/NAME.eml    what is due of a name's keys, what lacks its approval where another one stands, and what it may
                      destroy

each as a whole. What is there of a name that has nothing any more is removed. An event's UID follows from the key's
number and the register's first request, so that a calendar has one event of a key, whatever its dates become.

--alarm      an event rings so many days before; several are taken
--addresses  a table of CSV with the header row `name,address`, else /etc/keyreg/addresses.csv. A name may have several
             rows. Where it is not there, no mail is written; tell.py sends those that are
--sender     else keyreg at this machine's name

It needs audit.sql, list.py, register_rules.py and replay.py beside it, and SQLite 3.38. The last line is the verdict,
after one for each name without an address. The status is 0 where all was written, 1 where a row of the table is no name
with an address, 2 where REGISTER cannot be read as a register, 3 where TABLE cannot be read or FOLDER written.
"""
import argparse
import contextlib
import csv
import email.policy
import hashlib
import itertools
import os
import pathlib
import sqlite3
import sys
import time
from email.errors import MessageError
from email.headerregistry import Address
from email.message import EmailMessage
from email.utils import formatdate, make_msgid
from typing import Iterable, Iterator, NamedTuple, Optional

# What is read from beside this file leaves none there.
sys.dont_write_bytecode = True
from list import TRIES, put
from register_rules import NAME, shown, text_of
from replay import Unreadable, opened

VIEWS = pathlib.Path(__file__).with_name("audit.sql")
# The most bytes of a line of a calendar, the break aside.
WIDTH = 75
MARKS = {"due": "is due for rotation", "overdue": "is overdue for rotation",
         "long": "has dates past a period that the office set since"}


class Key(NamedTuple):
    """A key that is due, as a report has it."""
    number: int
    stop: int
    mark: str
    kind: str
    owner: str
    purpose: str


class Pending(NamedTuple):
    """A key whose destruction somebody approved: who else may, how many approvals stand, and how many it needs."""
    others: list[str]
    number: int
    owner: str
    have: int
    need: int
    purpose: str


class Due(NamedTuple):
    """What is due in a register, which its first request tells apart from others, and what waits, at its latest
    moment."""
    latest: int
    first: str
    keys: list[Key]
    pending: list[Pending]


@contextlib.contextmanager
def viewed(path: str, days: int) -> Iterator[sqlite3.Connection]:
    """A copy of a register with the views of audit.sql, by which so many days are due."""
    with opened(path, TRIES) as connection:
        connection.executescript(VIEWS.read_text("utf-8"))
        connection.execute("UPDATE question SET days = ?", [days])
        yield connection


def due_of(path: str, days: int) -> Due:
    with viewed(path, days) as connection:
        latest = connection.execute("SELECT now FROM question").fetchone()[0]
        request = connection.execute("SELECT caller, number, command, moment FROM request ORDER BY rowid LIMIT 1")
        first = hashlib.sha256(repr(request.fetchone()).encode()).hexdigest()[:16]
        keys = [Key(*row) for row in connection.execute(
            "SELECT number, protect_stop, mark, type, owner, purpose FROM marked WHERE mark IS NOT NULL "
            "ORDER BY protect_stop, number")]
        pending = [Pending((others or "").split(), *row) for others, *row in connection.execute(
            "SELECT others, key, pending.owner, have, need, purpose FROM pending JOIN main.keys ON number = key "
            "WHERE pending.state <> 'Active' ORDER BY key")]
    for owner in {key.owner for key in keys}:
        if not NAME.fullmatch(owner):
            raise Unreadable(f"an owner is {owner!r}")
    return Due(latest, first, keys, pending)


# ---- calendars


def folded(line: str) -> bytes:
    """A line as a calendar has it: in parts of so many bytes, none of which ends within a character."""
    parts, rest = list[bytes](), line.encode()
    while len(rest) > (end := WIDTH - bool(parts)):
        while rest[end] & 0xC0 == 0x80:
            end -= 1
        parts.append(rest[:end])
        rest = rest[end:]
    return b"\r\n ".join([*parts, rest]) + b"\r\n"


def escaped(text: str) -> str:
    """A text that has no line breaks, as the value of a property."""
    return shown(text).replace("\\", "\\\\").replace(";", "\\;").replace(",", "\\,")


def stamp(moment: int) -> str:
    return time.strftime("%Y%m%dT%H%M%SZ", time.gmtime(moment))


def event_lines(key: Key, due: Due, alarms: Iterable[int]) -> Iterator[str]:
    title = f"Key {key.number} of {key.owner} {MARKS[key.mark]}: "
    yield from ("BEGIN:VEVENT", f"UID:key-{key.number}-{due.first}@keyreg", f"DTSTAMP:{stamp(due.latest)}",
                f"DTSTART:{stamp(key.stop)}", f"SUMMARY:{escaped(title + key.purpose)}",
                f"DESCRIPTION:{escaped(f'{key.kind}. As of {text_of(due.latest)}.')}", f"CATEGORIES:{key.mark}",
                "TRANSP:TRANSPARENT")
    for days in alarms:
        yield from ("BEGIN:VALARM", "ACTION:DISPLAY", f"DESCRIPTION:{escaped(title + key.purpose)}",
                    f"TRIGGER:-P{days}D", "END:VALARM")
    yield "END:VEVENT"


def calendar_of(name: str, keys: Iterable[Key], due: Due, alarms: Iterable[int]) -> Iterator[bytes]:
    """The lines of a calendar. A reader takes it anew each day."""
    head = ("BEGIN:VCALENDAR", "VERSION:2.0", "PRODID:-//keyreg//due.py//EN", f"X-WR-CALNAME:{name}",
            "REFRESH-INTERVAL;VALUE=DURATION:P1D")
    lines = (event_lines(key, due, alarms) for key in keys)
    return map(folded, itertools.chain(head, *lines, ["END:VCALENDAR"]))


# ---- mails


class Part(NamedTuple):
    """What a mail says of some keys: how its subject calls them, a head, and a line for each."""
    word: str
    head: str
    lines: list[str]


def parts_of(name: str, due: Due) -> list[Part]:
    """What there is to say to a name."""
    parts = [
        Part("due", "Your keys that are due for rotation",
             [f"{key.number:>7}  {text_of(key.stop)}  {key.mark:7}  {key.kind:22}  {shown(key.purpose)}"
              for key in due.keys if key.owner == name]),
        Part("to approve", "Keys whose destruction was begun, and lacks your approval",
             [f"{key.number:>7}  {key.have} of {key.need} approvals, owner {key.owner}  {shown(key.purpose)}"
              for key in due.pending if name in key.others]),
        Part("to destroy", "Keys of yours that have the approvals of their destruction",
             [f"{key.number:>7}  {shown(key.purpose)}"
              for key in due.pending if key.owner == name and key.have >= key.need])]
    return [part for part in parts if part.lines]


def mail_of(name: str, addresses: Iterable[Address], sender: Address, due: Due) -> Optional[EmailMessage]:
    """The mail to a name; None where there is nothing to say."""
    if not (parts := parts_of(name, due)):
        return None
    text = "\n".join(line for part in parts for line in (f"{part.head}:", "", *part.lines, ""))
    return new_mail(sender, addresses,
                    f"Keys of {name}: " + ", ".join(f"{len(part.lines)} {part.word}" for part in parts),
                    f"{text}\nAs of {text_of(due.latest)}, the register's latest accepted moment.\n")


def new_mail(sender: Address, addresses: Iterable[Address], subject: str, text: str) -> EmailMessage:
    """A mail that nobody is to answer."""
    message = EmailMessage(policy=email.policy.default.clone(cte_type="7bit"))
    message["From"], message["To"], message["Date"] = sender, tuple(addresses), formatdate()
    message["Message-ID"] = make_msgid(domain=sender.domain)
    message["Auto-Submitted"] = "auto-generated"
    message["Subject"] = subject
    message.set_content(text)
    return message


def address_of(text: str) -> Address:
    """An address without a display name; ValueError where it is none that each mail server takes."""
    try:
        address = Address(addr_spec=text)
    except (MessageError, IndexError, AttributeError):
        raise ValueError(text) from None
    if not text.isascii() or not text.isprintable() or address.addr_spec != text or not address.domain:
        raise ValueError(text)
    return address


def table_of(path: str) -> tuple[dict[str, list[Address]], list[str]]:
    """The addresses of each name by the office's table, and a line for each of its rows that is none."""
    addresses, wrong = dict[str, list[Address]](), list[str]()
    with open(path, encoding="utf-8-sig", errors="replace", newline="") as file:
        for place, row in enumerate(csv.DictReader(file), 1):
            try:
                name, text = (row[column].strip() for column in ("name", "address"))
                address = address_of(text)
                if not NAME.fullmatch(name):
                    raise ValueError(name)
                addresses.setdefault(name, []).append(address)
            except (KeyError, AttributeError, ValueError):
                wrong.append(f"{path}, row {place}: no name with an address: {row}")
    return addresses, wrong


# ---- the folder


def put_all(folder: pathlib.Path, files: dict[str, Iterable[bytes]]) -> None:
    """Moves these files into the folder, and removes what else of their kind is there."""
    folder.mkdir(mode=0o750, parents=True, exist_ok=True)
    for name, pieces in files.items():
        put(str(folder / name), pieces)
    for path in folder.iterdir():
        if path.suffix in (".ics", ".eml") and path.name not in files:
            path.unlink()


def written(words: argparse.Namespace, due: Due) -> tuple[list[str], int]:
    """Writes the files; the lines that tell it, and how many rows of the table are wrong."""
    folder, owners = pathlib.Path(words.folder), sorted({key.owner for key in due.keys})
    put_all(folder, {"all.ics": calendar_of("Keys due", due.keys, due, words.alarm)} if due.keys else {})
    put_all(folder / "owners", {
        f"{owner}.ics": calendar_of(f"Keys of {owner}", [key for key in due.keys if key.owner == owner], due,
                                    words.alarm) for owner in owners})
    addresses, lines = table_of(words.addresses) if os.path.exists(words.addresses) else ({}, [])
    mails = {name: mail for name in addresses if (mail := mail_of(name, addresses[name], words.sender, due))}
    put_all(folder / "mails", {f"{name}.eml": [mail.as_bytes()] for name, mail in mails.items()})
    told = {*owners, *(name for key in due.pending for name in (key.owner, *key.others))}
    lacking = sorted(name for name in told - set(addresses) if parts_of(name, due))
    return [*lines, *(f"no address: {name}" for name in lacking),
            f"{folder}: {len(due.keys)} keys of {len(owners)} owners are due as of {text_of(due.latest)}, {len(mails)} "
            "mails"], len(lines)


def main() -> int:
    parser = argparse.ArgumentParser(description="Tells what is due, as calendars and as mails.")
    parser.add_argument("register")
    parser.add_argument("folder")
    parser.add_argument("--days", type=int, default=60)
    parser.add_argument("--alarm", type=int, action="append", default=[], metavar="DAYS")
    parser.add_argument("--addresses", default="/etc/keyreg/addresses.csv", metavar="TABLE")
    parser.add_argument("--sender", type=address_of, default=address_of(f"keyreg@{os.uname().nodename}"),
                        metavar="ADDRESS")
    words = parser.parse_args()
    try:
        lines, wrong = written(words, due_of(words.register, words.days))
    except (Unreadable, sqlite3.Error, ValueError) as fault:
        print(f"{words.register} cannot be read as a register: {fault}", file=sys.stderr)
        return 2
    except OSError as fault:
        print(f"{fault.filename}: {fault.strerror}", file=sys.stderr)
        return 3
    print(*lines, sep="\n")
    return 1 if wrong else 0


if __name__ == "__main__":
    sys.exit(main())
