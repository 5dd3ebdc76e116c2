"""A day of the desk: every command by those whom the rules let give it, what is refused, and what is found. What the
page has to say comes from docs/SPECIFICATION.md and from office/register_rules.py."""
import json
import pathlib
import re
import time
from typing import Callable

from parts import By, Reader
from registers import STATES
from register_rules import ACTIVE, ALL, STILL, Key, Register, moment_of, request_of, text_of
from script import expect, not_none


def second(text: str) -> int:
    return moment_of(f"{text}Z")


def day(days: int) -> str:
    """The text of a moment so many days from now, near midnight: in another time zone it is another day."""
    return time.strftime("%Y-%m-%dT23:30:00", time.gmtime(time.time() + days * 86400))


def register(reader: Reader, kind: str, owner: str, purpose: str, *dates: str) -> int:
    """Registers a key by its form; `dates` are texts in UTC, empty where none is given."""
    reader.anew("register")
    names = ("Activation (UTC)", "Protect Stop (UTC)", "Deactivation (UTC)")
    fields = [("Type", kind), ("Owner", owner), ("Purpose", purpose)]
    fields += [(name, date) for name, date in zip(names, dates) if date]
    seconds = [str(second(date)) if date else "-" for date in (*dates, "", "", "")[:3]]
    reader.does(f"register {kind} {owner} {' '.join(seconds)} {purpose}", fields)
    return int(reader.driver.current_url.split("#key/")[1])


def is_headed(reader: Reader, state: str) -> None:
    expect(state in reader.text("h1"), f"the key is not {state}: {reader.text('h1')}")


def destroyed(ann: Reader, bob: Reader, cat: Reader) -> None:
    """A key that is registered, approved by two others and destroyed: the smallest form of a day."""
    key = register(ann, "master", "ann", "root of vault 2")
    ann.adds(key, "bob", "cat")
    for reader in (bob, cat):
        if reader is cat:
            ann.submit("destroy")
            ann.refused("ApprovalsMissing", "1 of 2 approvals stand")
        reader.key(key).does(f"approve {key}")
    ann.key(key).does(f"destroy {key}")
    is_headed(ann, "Destroyed")


def custody(ann: Reader, bob: Reader, cat: Reader) -> None:
    """Custodians, approvals and the quorum, with what waits for whom."""
    key = register(ann, "key-wrapping", "ann", "wrapping keys of site B")
    ann.adds(key, "bob", "cat", "dan")
    ann.does(f"remove-custodian {key} dan", [("Custodian", "dan")])
    ann.does(f"set-quorum {key} 3", [("Approvals needed", "3")])
    bob.with_list("waits").seen(f"section.guarded a[href='#key/{key}']").click()
    bob.says("As the register told it")
    bob.does(f"approve {key}")
    bob.open("waits")
    expect(not bob.find(f"section:not(.destroyable) a[href='#key/{key}']"), "what is approved still waits")
    cat.key(key)
    for command in ("approve", "withdraw", "approve"):
        cat.does(f"{command} {key}")
    ann.key(key).submit("destroy")
    ann.refused("ApprovalsMissing", "2 of 3 approvals stand")
    ann.does(f"set-quorum {key} 2", [("Approvals needed", "2")])
    ann.open("waits")
    expect(f"\n{key} " in ann.text(), f"key {key} may be destroyed, and does not wait: {ann.text()}")
    ann.key(key).does(f"destroy {key}")


def dates(ann: Reader, cat: Reader) -> int:
    """Dates that are set, defaults that are shown before they are taken, an activation, a revocation and a
    compromise. Gives the number of a key that was activated."""
    key = register(ann, "data-encryption", "ann", "disks of site C", day(-40), day(200))
    is_headed(ann, "Active")
    end = day(400)
    ann.does(f"set {key} = = {second(end)}", edits=[("keep", ""), ("keep", ""), ("set", end)])
    ann.submit("set", edits=[("keep", ""), ("set", day(500)), ("set", day(450))])
    ann.refused("DateOrder", "in order")
    ann.submit("set", edits=[("set", day(-1)), ("keep", ""), ("keep", "")])
    ann.refused("DateFrozen", "stay as they are")
    ann.does(f"revoke {key} 5 -", [("Reason", "5")])
    is_headed(ann, "Deactivated")
    ann.does(f"assign {key} cat", [("New owner", "cat")])
    may = [title.text for title in ann.find("details.act > summary")]
    expect("Give to another owner" not in may, f"ann may still {may}")
    other = register(ann, "private-signature", "ann", "code of the desktop client")
    foretold = ann.submit("set", edits=[("set", "2026-02-28T23:30:00"), ("clear", ""), ("clear", "")])
    # 36 months of protecting, and none of processing after.
    for line in ("Protect Stop: 2029-02-28 23:30:00 UTC", "Deactivation: 2029-02-28 23:30:00 UTC"):
        expect(line in foretold and "by the period" in foretold, f"the default is not shown: {foretold}")
    ann.accepted(f"set {other} {second('2026-02-28T23:30:00')} - -")
    since = day(-3)
    cat.key(other).does(f"revoke {other} 2 {second(since)}", [("Reason", "2"), ("Compromised since (UTC)", since)])
    is_headed(cat, "Compromised")
    third = register(ann, "authentication", "ann", "partner interface")
    ann.does(f"activate {third}")
    is_headed(ann, "Active")
    return third


def periods(ann: Reader, office: Reader) -> None:
    """The office sets a period. A page with an older list foretells otherwise, and shows what the register said."""
    ann.with_list()
    office.open("periods").does("set-period master 6 0", [
        ("Type", "master"), ("Months of protecting (originator use)", "6"),
        ("Months of processing after (recipient use)", "0")])
    expect("master 6 0 set by office" in office.text(), office.text())
    ann.open("periods")
    expect(not ann.find("form.set-period"), "ann is shown the office's form")
    fields = [("Type", "master"), ("Owner", "ann"), ("Purpose", "root"), ("Activation (UTC)", "2026-08-31T12:00:00"),
              ("Protect Stop (UTC)", "2027-03-01T12:00:00")]
    # Six months from the last of August is the last of February, in UTC and in the reader's time.
    last = "2027-02-28 12:00:00 UTC"
    for words in (["Would be accepted"], ["Would be refused", last]):
        foretold = ann.open("register").submit("register", fields)
        expect(all(word in foretold for word in words), f"not {words}: {foretold}")
        ann.refused("PeriodTooLong", last, "Feb 28, 2027, 08:30:00 AM")
        ann.with_list()


def moved_on(bob: Reader, key: int) -> None:
    """The register is brought to now, and the answer of its own moves on to it."""
    bob.key(key)
    bob.forget()
    bob.seen("button.advance").click()
    bob.accepted("advance", "as of")
    rows = [row.text for row in bob.find("section.usage tbody tr")]
    expect(len(rows) == 2 and all(" yes yes " in row for row in rows), f"the two answers are {rows}")


def finds(reader: Reader) -> None:
    """What is found by number, owner, type, state, purpose, what is due and what waits. The list may be older than
    what the page did: the register's requests are the measure."""
    rules, now = Register(), int(time.time())
    for caller, number, command, moment in reader.desk.requests():
        rules.answer(request_of(f"{moment} {caller} {number} {command}"))
    states = {number: key.state(now) for number, key in rules.keys.items()}

    def in_state(code: int) -> Callable[[Key], object]:
        return lambda key: key.state(now) == code

    asked: dict[str, Callable[[Key], object]] = {
        "": lambda key: True,
        "owner=cat": lambda key: key.owner == "cat", "type=master": lambda key: key.kind == "master",
        "text=SITE+b": lambda key: "site B" in key.purpose,
        "text=disks+ann": lambda key: "disks" in key.purpose and key.owner == "ann",
        "days=800": lambda key: key.state(now) == ACTIVE and not_none(key.stop) <= now + 800 * 86400,
        "waits=1": lambda key: key.custodians and len(key.approvals) < key.need and key.state(now) in STILL,
        **{f"state={STATES[code]}": in_state(code) for code in ALL},
    }
    for words, holds in asked.items():
        numbers = [number for number, key in rules.keys.items() if holds(key)]
        if words == "days=800":
            numbers.sort(key=lambda number: (rules.keys[number].stop, number))
        reader.anew(f"find?{words}" if words else "find")
        texts = [str(number) for number in numbers][:50]
        reader.wait(lambda: [cell.text for cell in reader.find("table.cards td:first-child")] == texts,
                    f"{words} does not find {texts}", 3)
    reader.anew("find")
    for row in reader.find("table.cards tbody tr"):
        number, shown = (cell.text for cell in row.find_elements(By.TAG_NAME, "td")[:2])
        expect(shown.split(" ", 1)[1] == STATES[states[int(number)]], f"{number} is shown as {shown}")
    reader.seen("input[type='search']").send_keys("2\n")
    reader.says("Key 2", "h1")


# ---- a key and the next one


def steps(reader: Reader) -> list[str]:
    """The requests of a next key as its page has them in their order, those that are done behind that word."""
    return [step.text.split("\n")[0] for step in reader.find("ol.steps > li")]


def falls_due(ann: Reader) -> tuple[int, int, int]:
    """A key that is due, and overdue from its Protect Stop on, within seconds; that moment, and the one at which it is
    deactivated."""
    stop, end = (int(time.time()) + seconds for seconds in (8, 50))
    dates = (text_of(moment).removesuffix("Z") for moment in (stop, end))
    key = register(ann, "data-encryption", "ann", "disks of site D", day(-40), *dates)
    ann.adds(key, "bob", "cat")
    ann.does(f"set-quorum {key} 3", [("Approvals needed", "3")])
    ann.with_list("find?days=1").says("disks of site D")
    ann.wait(lambda: time.time() > stop + 1, "time stands")
    expect("overdue" in ann.key(key).text("h1"), f"it is past its Protect Stop: {ann.text('h1')}")
    ann.says("It protects no new data", "section.history")
    return key, stop, end


def next_key(ann: Reader, other: Reader, key: int, stop: int) -> int:
    """The next key as one act: told in its order before the first request goes, each of which is sent once, also by a
    second window and over an answer that is lost, and gone on with in another window. Gives its number."""
    for reader in (ann, other):
        reader.with_list(f"next/{key}").says("The next key of key")
    told = ["Register the new key, of type data-encryption, for ann", "Add bob as a custodian of the new key",
            "Add cat as a custodian of the new key", "3 approvals needed for the new key"]
    expect(all(is_so.startswith(wanted) for is_so, wanted in zip(steps(ann), told, strict=True)), f"{steps(ann)}")
    ann.desk.line.todo = ["cut"]
    foretold = ann.submit("register")
    begin = text_of(stop).replace("T", " ").replace("Z", " UTC")
    expect(f"Activation: {begin}" in foretold and "State: Active" in foretold, f"foretold is {foretold}")
    ann.accepted(f"register data-encryption ann {stop} - - disks of site D (replaces key {key})")
    new = int(not_none(re.search(r"Key (\d+) is", ann.text("#said")))[1])
    other.submit("register")
    other.answer(True, f"Key {new} is")
    for reader, command, words in (
            (ann, f"add-custodian {new} bob", f"Add bob as a custodian of key {new}"),
            (other, f"add-custodian {new} cat", f"Add cat as a custodian of key {new}"),
            (other, f"set-quorum {new} 3", f"3 approvals needed for key {new}")):
        # The other window knows no more than the register says.
        if reader is other:
            other.reload(forgets=True)
        reader.open(f"next/{key}").forget()
        reader.press(words, "button.send")
        reader.accepted(command)
    other.says("All is done")
    expect(all(step.startswith("Done: ") for step in steps(other)), f"{steps(other)}")
    facts = other.key(new).text("dl.facts")
    expect(f"Replaces\nkey {key}" in facts and "bob\ncat" in facts and "0 of 3" in facts, f"the next key has {facts}")
    is_headed(other, "Active")
    other.key(key).says(f"Replaced by\nkey {new}", "dl.facts")
    return new


def succession(ann: Reader, other: Reader, bob: Reader, cat: Reader) -> None:
    """A key falls due, its owner registers the next one, its date deactivates the old one, two custodians approve, and
    it is destroyed. Each page tells it so."""
    key, stop, end = falls_due(ann)
    new = next_key(ann, other, key, stop)
    place = pathlib.Path(ann.desk.guard.list_folder, "list.json")
    ann.key(key).does(f"set-quorum {key} 2", [("Approvals needed", "2")])
    ann.wait(lambda: time.time() > end + 1, "time stands", 60)
    is_headed(bob.with_list("waits").key(key), "Deactivated")
    expect(bob.find("section.usage tbody tr") and "The two differ" in bob.text(), "the register's own answer is older")
    for reader in (bob, cat):
        reader.key(key).does(f"approve {key}")
    ann.open("waits")
    ann.with_list("waits").seen(f"section.destroyable a[href='#key/{key}']")
    ann.key(key).does(f"destroy {key}")
    is_headed(ann, "Destroyed")
    ann.with_list(f"key/{key}").says("reached its Deactivation", "section.history")
    told = [row.text for row in ann.find("section.history tbody tr")]
    for words in ("State: Destroyed", "Approvals: bob, cat (it was bob)", "State: Deactivated", "It protects no new data"):
        expect(any(words in row for row in told), f"the history does not say {words!r}: {told}")
    replaces = json.loads(place.read_text("utf-8"))["keys"]["replaces"]
    expect(replaces[new - 1] == key and replaces[key - 1] is None, f"the list has {replaces}")


def long_purpose(ann: Reader) -> None:
    """A purpose that the name of its predecessor would make too long is told; without that name it is no next key."""
    key = register(ann, "master", "ann", "x" * 190, day(-9), day(100))
    end = f" (replaces key {key})"
    form = ann.open(f"next/{key}").form("register")
    size = 190 + len(end)
    expect(f"would have {size} of 200 bytes" in ann.text() and f"{size} of 200 bytes" in form.text, ann.text())
    for purpose, words in (("y" * 20, "would not be the next key"), ("y" * 20 + end, "Would be accepted")):
        ann.put(form.find_element("name", "purpose"), purpose)
        ann.wait(lambda: words in form.text, f"{purpose} does not say {words}: {form.text}")
        ann.forget()
        form.find_element("css selector", "button.send").click()
    ann.accepted(f"register master ann {second(day(100))} - - {'y' * 20}{end}")


def whole_day(ann: Reader, bob: Reader, cat: Reader, office: Reader, other: Reader) -> None:
    """All of it, as four users."""
    destroyed(ann, bob, cat)
    custody(ann, bob, cat)
    succession(ann, other, bob, cat)
    long_purpose(ann)
    third = dates(ann, cat)
    periods(ann, office)
    moved_on(bob, third)
    # After the last list, which has the key as Active.
    ann.key(third).does(f"revoke {third} 1 -", [("Reason", "1")])
    # What the page did stands over a list that is older, before and after a reload, and the newer list says the same.
    begins: tuple[Callable[[], object], ...] = (lambda: None, ann.reload, ann.with_list)
    for begin in begins:
        begin()
        finds(ann)
