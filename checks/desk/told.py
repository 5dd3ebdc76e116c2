"""What the desk tells by itself: how much waits for the reader and is due, behind its links and on the page of what is
due; which register it is, in title and head; and Help."""
import re
import time
import types
from typing import Any, Callable, Mapping

from answers import request_object
from client import Client
from day import day, register
from nginx import HOST, Guard
from parts import PASSWORDS, Reader
from places import read
from register_rules import ACTIVE, COMMANDS, STATES, STILL, Key, Register, command_of, is_long, request_of
from script import expect, not_none

# A name with what would be markup, and with letters of two and three bytes.
NAME = "Zahlungen <b>&amp; Schlüssel</b> €"
DAYS = 30


def keys_of(reader: Reader) -> tuple[Mapping[int, Key], Callable[[Key], object]]:
    """The keys by the rules over the register's requests, and which of them are due."""
    rules, now = Register(), int(time.time())
    for caller, number, command, moment in reader.desk.requests():
        rules.answer(request_of(f"{moment} {caller} {number} {command}"))

    def is_due(key: Key) -> object:
        dates, period = (key.activation, key.stop, key.end), rules.period(key.kind)
        return key.state(now) == ACTIVE and (not_none(key.stop) <= now + DAYS * 86400 or is_long(dates, period))

    return rules.keys, is_due


def waiting_for(user: str, keys: Mapping[int, Key]) -> int:
    """How many destructions lack this user's approval, or may be done by it."""
    still = [key for key in keys.values() if key.state(int(time.time())) in STILL]
    return sum(bool(user in key.custodians - key.approvals and key.approvals
                    or user == key.owner and len(key.approvals) >= key.need) for key in still)


def links(reader: Reader, *wanted: str) -> None:
    reader.wait(lambda: [link.text for link in reader.find("nav a") if link.text.startswith(("Waiting", "Due"))]
                == [*wanted], f"the links are not {wanted}: {reader.text('nav')}", 5)


def counted(ann: Reader, bob: Reader) -> int:
    """The counts are those of the rules, by the list, after what the reader does, and where a newer list comes."""
    numbers = [register(ann, "key-wrapping", owner, f"a key that is due in {days} days", day(-200), day(days))
               for owner, days in (("bob", 10), ("bob", -3), ("bob", 40), ("ann", 29))]
    key = register(ann, "master", "ann", "a key whose destruction was begun")
    ann.adds(key, "bob", "cat")
    keys, is_due = keys_of(bob)
    due = [number for number, one in keys.items() if is_due(one)]
    mine = {number for number in due if keys[number].owner == "bob"}
    expect({*numbers[:2]} <= mine and numbers[2] not in due and numbers[3] in due, f"due are {due}")
    before = waiting_for("bob", keys)
    words = ["Waiting for you" + f" ({before})" * bool(before), f"Due ({len(mine)})"]
    links(bob.with_list("due"), *words)
    for part, wanted in (("mine", mine), ("others", {*due} - mine)):
        shown = {int(cell.text) for cell in bob.find(f"section.{part} td:first-child")}
        expect(shown == {*sorted(wanted, key=due.index)[:50]}, f"{part}: {shown}, not {wanted}")
    bob.execute("document.querySelector('nav a[href=\"#due\"]').focus()")
    # Another one begins: it waits for bob once a newer list tells it.
    posted(ann, "cat", f"approve {key}")
    bob.renew()
    links(bob, f"Waiting for you ({before + 1})", words[1])
    expect(bob.execute("return document.activeElement.getAttribute('href')") == "#due", "a count takes the focus")
    bob.press("Show it", "#newer button")
    bob.key(key).does(f"approve {key}")
    links(bob, words[0], words[1])
    return len(due)


def posted(reader: Reader, caller: str, command: str) -> int:
    """A request that comes from elsewhere than the desk; the key of its reply."""
    reader.said.append((caller, None, command))
    with Client(f"http://127.0.0.1:{reader.desk.port}", caller, f"{reader.desk.file}-{caller}.numbers") as office:
        return office.ask(**request_object(command_of(command))).key


def which_register(here: Any, reader: Reader) -> None:
    """Two desks of one host say which register theirs is: one by its name, the other by its host and port. Without a
    list nothing is counted."""
    port = reader.desk.line.server_port
    expect(reader.open("find").driver.title == f"Find keys - {HOST}:{port}", reader.driver.title)
    expect(reader.text("header .title") == f"Register of keys {HOST}:{port}", reader.text("header .title"))
    with Guard(here.desk.port, PASSWORDS, name=NAME) as guard:
        there: Any = types.SimpleNamespace(line=types.SimpleNamespace(server_port=guard.port))
        other = Reader(there, "ann")
        try:
            for page, head in (("find", "Find keys"), ("help", "Help")):
                expect(other.open(page).driver.title == f"{head} - {NAME}", other.driver.title)
            expect(other.text("header .title") == f"Register of keys {NAME}", other.text("header .title"))
            expect(NAME in other.text(".about"), other.text(".about"))
            links(other, "Waiting for you", "Due")
        finally:
            other.driver.quit()


def helped(reader: Reader) -> None:
    """Help has the version, each page, each command and each state."""
    version = not_none(re.search(r"(?m)^## ([0-9.-]+)$", read("CHANGES.md")))[1]
    reader.open("help").says(f"of keyreg {version}.")
    pages = [link.text.split(" (")[0] for link in reader.find("nav a")]
    words = [term.text for term in reader.find("main dt")]
    expect({*pages} - {"Help", "Mine"} <= {*words} and all(any(state in word for word in words) for state in STATES[1:]),
           f"Help has {words}, and there are {pages}")
    rows = len(reader.find("main table tbody tr"))
    # A revocation for a compromise has a row of its own.
    expect(rows == len(COMMANDS) + 1, f"Help has {rows} commands, of {len(COMMANDS) + 1}")


def all_told(here: Any) -> str:
    """All of it."""
    ann, bob = here.reader("ann"), here.reader("bob")
    due = counted(ann, bob)
    which_register(here, ann)
    helped(bob)
    here.closes(ann, bob)
    return f"{due} keys are due, and counted for whom they wait; two desks of one host say which is which"
