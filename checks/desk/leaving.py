"""A leaver's keys: the page lists what a name owns and guards, and gives the keys to another owner, one request each,
through a cut connection, a reload and a browser that is killed."""
import collections
import re
import time
from typing import Any

from parts import Reader
from script import expect
from told import posted
from windows import killed

KEYS = 40
LEAVER, HEIR = "dan", "eve"


def furnished(reader: Reader) -> tuple[list[int], list[int]]:
    """The leaver owns keys, of the last of which the heir is a custodian, and guards two of another's, of which one has
    the leaver's approval."""
    owned, guarded = ([posted(reader, owner, f"register master {owner} - - - a key that a leaver {what} {place}")
                       for place in range(count)] for owner, what, count in ((LEAVER, "owns", KEYS + 1),
                                                                             ("bob", "guards", 2)))
    for key, owner, name in ((owned[-1], LEAVER, HEIR), (guarded[0], "bob", LEAVER), (guarded[1], "bob", LEAVER)):
        posted(reader, owner, f"add-custodian {key} {name}")
    posted(reader, LEAVER, f"approve {guarded[0]}")
    return owned, guarded


def listed(reader: Reader, owned: list[int], guarded: list[int]) -> set[int]:
    """The page has what the name owns and guards, and which approval stands; all that it has as owned."""
    found = {int(cell.text) for cell in reader.find("section.owns td[data-head='Key']")}
    expect({*owned} <= found and not found & {*guarded}, f"{reader.user} is shown as owned {sorted(found)}")
    rows = {int(row.text.split()[0]): row.text for row in reader.find("section.guards tbody tr")}
    stands = {number: " stands " in f" {rows.get(number, '')} " for number in guarded}
    expect(stands == {guarded[0]: True, guarded[1]: False}, f"what is guarded is shown as {rows}")
    return found


def begins(reader: Reader, count: int) -> None:
    """The keys are given to the heir, but for one that is told to be refused and those that are left out."""
    entry = reader.seen("section.owns input[name='owner']")
    entry.send_keys(HEIR)
    reader.says("would be refused: The owner of a key is none of its custodians", "section.owns")
    reader.press(f"Give {count} keys")


def assigned(reader: Reader) -> dict[str, int]:
    """How often each key of the leaver was given to the heir, by the register."""
    commands = [command for caller, _, command, _ in reader.desk.requests() if caller == LEAVER]
    return collections.Counter(command for command in commands if re.fullmatch(rf"assign \d+ {HEIR}", command))


def goes_until(reader: Reader, count: int) -> None:
    reader.wait(lambda: len(assigned(reader)) >= count, f"{count} keys are not given", 60)


def ended(reader: Reader, count: int) -> None:
    reader.wait(lambda: f"{count} of {count} keys given to {HEIR}" in reader.text("section.owns .count"),
                f"not {count} keys: {reader.text('section.owns')[:300]}", 60)
    said = reader.execute("return document.getElementById('heard').textContent")
    expect(f"{count} of {count} keys given" in said, f"in the end is heard {said!r}")
    reader.press("Done")


def all_leaving(here: Any) -> str:
    """All of it."""
    first, other, line = here.reader(LEAVER), here.reader("cat"), here.desk.line
    owned, guarded = furnished(first)
    posts, numbers = len(line.posts), [number for _, number, _, _ in here.desk.requests()]
    keys = listed(first.with_list("leaver"), owned, guarded) - {owned[-1]}
    listed(other.with_list(f"leaver?name={LEAVER}"), owned, guarded)
    other.says(f"Only {LEAVER} gives these away", "section.owns")
    expect(not other.find("section.owns :is(input, button.send)"), "another may give them away")
    # One is left out by hand, and given in the end.
    first.seen(f"input[aria-label='give key {owned[3]}']").click()
    line.delay = 0.15
    begins(first, len(keys) - 1)
    goes_until(first, 5)
    line.todo = ["cut", "503"]
    goes_until(first, 12)
    first.reload()
    first.says(f"of {len(keys) - 1} keys given to {HEIR}", "section.owns")
    first.wait(lambda: not first.text("#kept"), "a request waits still")
    first.press("Go on")
    goes_until(first, 20)
    killed(first)
    first.is_gone = True
    time.sleep(0.5)
    there = len(assigned(other))
    # Another browser, with the list of before: the register is asked of each key.
    second = here.reader(LEAVER).open("leaver")
    begins(second, len(keys))
    ended(second, len(keys))
    line.delay = 0.0
    counts = assigned(second)
    expect(counts == {f"assign {number} {HEIR}": 1 for number in keys}, f"given were {counts}")
    sent = set(map(int, line.posts[posts:])) - {*numbers}
    expect(len(sent) == len(keys) >= KEYS, f"{len(keys)} keys were given by {len(sent)} requests")
    second.said += [(LEAVER, None, command) for command in counts]
    listed(second.with_list("leaver"), owned[-1:], guarded)
    here.closes(other, second)
    return f"{len(keys)} keys of a leaver have another owner, {there} by a browser that was killed: one request each"
