"""The history of each key and of each reader's own requests: it has each request that the register accepted, with what
office/register_rules.py says that it changed, over as many files as it takes. After a restore a page says what has to
be sent again, and sends it under its number."""
import collections
import re
import time
from typing import Iterator, Optional

from day import day, register
from lists import put_back
from parts import Reader
from register_rules import STATES, Key, Register, request_of, text_of
from script import expect, in_order

LABELS = {"activation": "Activation", "stop": "Protect Stop", "end": "Deactivation"}
# The cells of the rows of a table, each line by itself, without the words that tell how long ago it was.
CELLS = """return [...document.querySelectorAll(arguments[0] + " tbody tr")].map((row) =>
  [...row.cells].map((cell) => cell.innerText.replace(/ \\(.* ago\\)| \\(now\\)/, "").split("\\n")))"""
# So many keys are looked at.
MOST = 40
# When, who, under which number, and what it changed.
Entry = tuple[str, str, str, list[str]]


def utc(moment: Optional[int]) -> str:
    return "none" if moment is None else text_of(moment).replace("T", " ").replace("Z", " UTC")


def changes(before: Optional[Key], after: Key, moment: int) -> list[str]:
    """What a request changed: each date, the state, and what else of a key that was there."""
    lines = [f"{label}: {utc(getattr(after, name))}" for name, label in LABELS.items()
             if getattr(after, name) != (before and getattr(before, name))]
    if not before or before.state(moment) != after.state(moment):
        lines.append(f"State: {STATES[after.state(moment)]}")
    if before:
        pairs = {"Owner": (before.owner, after.owner), "Approvals needed": (str(before.need), str(after.need)),
                 "Custodians": (names(before.custodians), names(after.custodians)),
                 "Approvals": (names(before.approvals), names(after.approvals))}
        lines += [f"{label}: {now} (it was {then})" for label, (then, now) in pairs.items() if then != now]
    return lines or ["nothing"]


def names(some: frozenset[str]) -> str:
    return ", ".join(sorted(some)) or "none"


def by_dates(key: Key, since: int, until: int) -> Iterator[Entry]:
    """What a key became without a request between two moments."""
    for moment in sorted({date for date in (key.activation, key.stop, key.end) if date and since < date <= until}):
        lines = [f"State: {STATES[key.state(moment)]}"] * (key.state(moment - 1) != key.state(moment))
        lines += ["It protects no new data"] * (key.protects(moment - 1) and not key.protects(moment))
        if lines:
            yield utc(moment), "by its dates", "", lines


def histories(reader: Reader) -> dict[int, list[Entry]]:
    """What the rules give of each key, the oldest first."""
    rules, told, last = Register(), collections.defaultdict[int, list[Entry]](list), dict[int, int]()
    for caller, number, command, moment in reader.desk.requests():
        request = request_of(f"{moment} {caller} {number} {command}")
        before = rules.keys.get(request.named or 0)
        key = rules.answer(request).key_no
        if key:
            told[key] += by_dates(before, last[key], moment) if before else ()
            told[key].append((utc(moment), caller, str(number), changes(before, rules.keys[key], moment)))
            last[key] = moment
    return told


def cells(reader: Reader, selector: str) -> list[list[list[str]]]:
    """The rows of a table, after some presses for more."""
    for _ in range(6):
        count = len(reader.execute(CELLS, selector))
        if more := reader.find(f"{selector} button.more"):
            more[0].click()
            reader.wait(lambda: len(reader.execute(CELLS, selector)) > count, f"no more rows come behind {count}")
    return reader.execute(CELLS, selector)


def of_keys(reader: Reader) -> int:
    """The pages of the keys of which most is told have their histories, the newest first; how many entries they are."""
    count, told = 0, histories(reader)
    for key, wanted in sorted(told.items(), key=lambda item: -len(item[1]))[:MOST]:
        reader.key(key).says("of this key, the newest first", "section.history")
        rows = cells(reader, "section.history")
        # What came by dates since the last request is not the rules' to say.
        while rows and rows[0][1] == ["by its dates"] and len(rows) > len(wanted):
            rows = rows[1:]
        # Behind a moment in UTC stands the reader's own time.
        shown = [(when[0], who[0], number[0], [re.sub(r" UTC, .*", " UTC", line) for line in changed])
                 for when, who, number, _, changed in rows]
        in_order(shown[::-1], wanted, f"the history of key {key}")
        count += len(wanted)
    return count


def of_reader(reader: Reader) -> int:
    """*Mine* has the reader's requests but advances, with their numbers, the newest first; how many they are."""
    wanted = [(utc(moment), str(number)) for caller, number, command, moment in reader.desk.requests()
              if caller == reader.user and command != "advance"]
    reader.with_list("mine").says("Advances are left out")
    expect(not reader.find("section.lost"), f"the page takes requests for lost: {reader.text('section.lost')}")
    rows = [(when[0], number[0]) for when, number, _, _ in cells(reader, "#main > .results")]
    in_order(rows, wanted[::-1][:max(len(rows), 50)], f"{reader.user}'s own requests")
    return len(rows)


def gone(reader: Reader, other: Reader, key: int) -> None:
    """A page whose list names a history that is gone asks for a newer list by itself."""
    reader.with_list(f"key/{key}").says("of this key, the newest first")
    for need in (4, 3):
        other.key(key).does(f"set-quorum {key} {need}", [("Approvals needed", str(need))])
        other.desk.make_list()
    second = register(other, "master", other.user, "a key behind the list")
    # Before the page asks for a newer list by itself.
    reader.key(second).says("of this key, the newest first", "section.history", 5)


def restored(reader: Reader, key: int) -> None:
    """A register is restored: the page says which of the reader's requests are not there any more, and sends each again
    under its own number."""
    copy, before = reader.desk.copy(), len(reader.said)
    reader.key(key)
    for command, label, value in (("add-custodian", "Custodian", "cat"), ("set-quorum", "Approvals needed", "5")):
        reader.does(f"{command} {key} {value}", [(label, value)])
    lost, reader.said[before:] = reader.said[before:], []
    put_back(reader, copy)
    # By so much the page takes its clock for another one than that of the list.
    time.sleep(6.5)
    reader.with_list("mine").says("Not in the register any more")
    numbers = [number[0] for _, number, _, _ in cells(reader, "section.lost")]
    expect(numbers == [str(number) for _, number, _ in lost], f"lost are {lost}, and the page says {numbers}")
    for _, number, command in lost:
        reader.forget()
        reader.seen(f"button[aria-label='Send again: request {number}']").click()
        reader.accepted(command, str(number))
    reader.wait(lambda: not reader.find("section.lost"), "what was sent again is lost still")
    of_reader(reader)


def all_histories(ann: Reader, bob: Reader, office: Reader) -> str:
    """All of it, over the register of a day."""
    office.open("periods").does("set-period private-transport 12 0", [
        ("Type", "private-transport"), ("Months of protecting (originator use)", "12")])
    soon = time.strftime("%Y-%m-%dT%H:%M:%S", time.gmtime(time.time() + 10))
    key = register(ann, "private-transport", "ann", "a key with a history", soon)
    ann.adds(key, *(f"officer-{place}" for place in range(9)))
    gone(bob, ann, key)
    restored(ann, key)
    ann.with_list()
    return (f"{of_keys(ann)} entries of histories are as the rules give them, and "
            f"{sum(map(of_reader, (ann, bob, office)))} requests stand under Mine")
