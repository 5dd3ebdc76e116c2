"""A table is taken in once, whoever crashed and however many windows send it; and two people at one window: what waits
of one keeps the other from nothing, and is no other's to throw away. Passwords that are taken away, and users whose
names no register takes."""
import contextlib
import os
import pathlib
import signal
import time
from typing import Any

from day import register
from parts import NO_CALLER, Reader
from script import expect
from tables import chosen, judged, put_away

# ---- tables


def rows_of(name: str, count: int) -> list[str]:
    return [f"master,ann,,,,{name} {place}" for place in range(1, count + 1)]


def commands_of(rows: list[str]) -> list[str]:
    return [f"register master ann - - - {row.split(',,,,')[1]}" for row in rows]


def sends(reader: Reader) -> None:
    reader.seen(".buttons button.send").click()


def is_answered(reader: Reader, count: int, words: str = "") -> str:
    """The page says that so many rows are answered, and how."""
    said = f"{count} of {count} rows answered"
    reader.wait(lambda: said in reader.text(".progress") and not reader.find(".buttons button.send:not(:disabled)"),
                f"not {said}", max(60, count))
    expect(words in reader.text(".progress"), f"not {words!r}: {reader.text('.progress')}")
    return reader.text(".progress")


def one_each(reader: Reader, rows: list[str], callers: set[str]) -> None:
    """Each row is one accepted request, of one of these callers; the pages said so."""
    wanted = commands_of(rows)
    kept = [(caller, command) for caller, _, command, _ in reader.desk.requests() if command in set(wanted)]
    expect(sorted(command for _, command in kept) == sorted(wanted) and {caller for caller, _ in kept} <= callers,
           f"of {len(wanted)} rows {len(kept)} requests were accepted, {len(set(kept))} of them different")
    reader.said += [(caller, None, command) for caller, command in kept]


def killed(reader: Reader) -> None:
    """The browser ends by SIGKILL, as by a crash."""
    driver = reader.driver.service.process.pid
    for place in pathlib.Path("/proc").glob("[0-9]*/stat"):
        with contextlib.suppress(OSError):
            if int(place.read_text("utf-8", "replace").rsplit(")", 1)[1].split()[1]) == driver:
                os.kill(int(place.parent.name), signal.SIGKILL)


def after_a_crash(here: Any, folder: pathlib.Path, count: int) -> None:
    """The browser is killed in the midst of a table, and another one takes the same file in, before there is a newer
    list: each row is a key, and none twice. Then one row is corrected: one key more, and the page says which."""
    here.desk.make_list()
    first, second, rows = here.reader("ann"), here.reader("ann"), rows_of("volume of a crash", count)
    chosen(first, folder, *rows)
    before = len(here.desk.line.posts)
    sends(first)
    first.wait(lambda: len(here.desk.line.posts) - before >= count // 3, "the rows are not sent", count)
    killed(first)
    first.is_gone = True
    chosen(second, folder, *rows)
    there = sum(command in set(commands_of(rows)) for _, _, command, _ in here.desk.requests())
    judged(second, count - there, 0, 0, there, 0, 0)
    sends(second)
    is_answered(second, count - there, f"{count - there} accepted, 0 refused")
    one_each(second, rows, {"ann"})
    put_away(second)
    place = count // 4
    corrected = [*rows[:place - 1], f"{rows[place - 1]} corrected", *rows[place:]]
    chosen(second, folder, *corrected)
    judged(second, 1, 0, 0, count - 1, 0, 0)
    marked = [row.text for row in second.find("table.rows tbody tr:has(input:checked) th")]
    second.fill(second.seen("main"), "Rows shown", "good")
    numbers = [row.text for row in second.find("table.rows tbody th")]
    expect(numbers == [str(place)], f"new is row {numbers}, and marked {marked}, not row {place}")
    sends(second)
    is_answered(second, 1, "1 accepted, 0 refused")
    one_each(second, corrected[place - 1:place], {"ann"})
    put_away(second)
    here.closes(second)


def two_windows(here: Any, folder: pathlib.Path, count: int) -> None:
    """Two windows of a user send one table at once; a third one, which never heard of the keys, sends it again: the
    register answers as it did. Another user's page knows the rows as keys."""
    here.desk.make_list()
    one, other, third = (here.reader(user) for user in ("ann", "ann", "bob"))
    rows = rows_of("volume of two windows", count)
    for reader in (one, other):
        chosen(reader, folder, *rows)
        judged(reader, count, 0, 0, 0, 0, 0)
    # Neither knows of the other's keys before it sends.
    here.desk.line.delay = 2.0
    for reader in (one, other):
        sends(reader)
    one.wait(lambda: not other.find(".buttons button.send"), "the second does not begin")
    time.sleep(0.5)
    here.desk.line.delay = 0.0
    texts = [is_answered(reader, count, " 0 refused") for reader in (one, other)]
    one_each(one, rows, {"ann"})
    chosen(third, folder, *rows)
    judged(third, 0, 0, 0, count, 0, 0)
    put_away(third)
    put_away(one)
    # By the reader's hand the rows go once more, and nothing more is done.
    chosen(one, folder, *rows)
    judged(one, 0, 0, 0, count, 0, 0)
    one.fill(one.seen("main"), "Rows shown", "twice")
    one.press(f"Send these {count}")
    sends(one)
    is_answered(one, count, f"0 accepted, 0 refused, {count} sent before")
    expect("nothing more was done" in one.text("table.rows"), one.text("table.rows")[:500])
    kept = [command for _, _, command, _ in here.desk.requests() if command in set(commands_of(rows))]
    expect(len(kept) == count, f"{count} rows sent again are {len(kept)} keys, after {texts}")
    for reader in (one, other):
        put_away(reader)
    here.closes(one, other, third)


# ---- two people at one window


def signs_in(reader: Reader, user: str) -> None:
    """The user of the window is another one from now on."""
    if reader.find("#who a"):
        reader.press("Sign out", "#who a")
        reader.wait(lambda: "You:" not in reader.text("body"), "the page stands as it was")
    reader.log_in(user)
    reader.driver.get(reader.place)
    reader.wait(lambda: f"You: {user}" in reader.text("#who"), f"the page is not {user}'s: {reader.text('#who')}")
    reader.user = user
    reader.wait(lambda: reader.find("main[data-page]"), "the page does not come")


def at_one_window(here: Any, folder: pathlib.Path) -> None:
    """ann's request waits, and a table of hers is half sent; bob signs in, sends, takes a table in and puts it away.
    Hers are there when she comes back, and each request stands once, under its own caller."""
    reader, line = here.reader("ann"), here.desk.line
    key, rows = register(reader, "master", "ann", "a key of two people"), rows_of("volume of one window", 60)
    chosen(reader, folder, *rows)
    line.delay = 0.1
    sends(reader)
    reader.wait(lambda: not reader.text(".progress .count").startswith("0 "), "no row is answered")
    reader.press("Stop")
    reader.says("Go on", ".buttons")
    line.delay = 0.0
    reader.key(key)
    line.todo = ["cut"] + ["503"] * 1000
    reader.submit("add-custodian", [("Custodian", "cat")])
    reader.says("Not answered yet", "#kept")
    signs_in(reader, "bob")
    line.todo = []
    reader.says("It is of the user ann", "#kept")
    expect(not reader.find("#kept button"), f"bob may press {[one.text for one in reader.find('#kept button')]}")
    reader.key(key).seen("button.advance").click()
    reader.accepted("advance")
    register(reader, "master", "bob", "a key of the second of two people")
    chosen(reader, folder, *rows_of("volume of the second", 3))
    put_away(reader)
    expect("It is of the user ann" in reader.text("#kept"), "what waits of ann is thrown away")
    signs_in(reader, "ann")
    reader.accepted(f"add-custodian {key} cat")
    reader.open("table").press("Go on")
    is_answered(reader, len(rows), "0 refused")
    one_each(reader, rows, {"ann"})
    put_away(reader)
    kept = [caller for caller, _, command, _ in here.desk.requests() if command == f"add-custodian {key} cat"]
    expect(kept == ["ann"], f"of the request that waited there are {kept}")
    here.closes(reader)


# ---- passwords and names


def password_taken(here: Any) -> None:
    """The password of a user is taken away while a request goes: the page says that it did not reach the register, does
    not send it again by itself, and offers a sign-in; after that it acts once."""
    reader, users = here.reader("dan"), pathlib.Path(here.desk.guard.folder, "users")
    key, text = register(reader, "master", "dan", "a key of a leaver"), users.read_text("utf-8")
    reader.key(key)
    users.write_text("".join(line for line in text.splitlines(True) if not line.startswith("dan:")), "utf-8")
    reader.submit("set-quorum", [("Approvals needed", "3")])
    reader.says("did not reach the register", "#kept")
    reader.says("You are signed out", "#other")
    time.sleep(4)
    expect("(1 time)" in reader.text("#kept"), f"it is sent again by itself: {reader.text('#kept')}")
    users.write_text(text, "utf-8")
    # A browser with a screen asks for the password here.
    reader.press("Sign in", "#other button")
    reader.log_in("dan")
    reader.driver.get(reader.place)
    reader.accepted(f"set-quorum {key} 3")
    expect(not reader.text("#other"), f"the page says still: {reader.text('#other')}")
    here.closes(reader)


def no_caller(here: Any) -> None:
    """A user whose name is none of a caller is told so, and nothing is foretold."""
    reader = here.reader("dan")
    reader.log_in(NO_CALLER)
    reader.driver.get(reader.place)
    said = reader.says("takes no request of the user")
    expect(NO_CALLER in said and "none of the ASCII letters" in said and not reader.find("form"), f"it says {said}")
    expect("another user" not in reader.text("body"), reader.text("body"))
    here.closes(reader)


def all_windows(here: Any, folder: pathlib.Path, count: int) -> str:
    """All of it."""
    after_a_crash(here, folder, count)
    two_windows(here, folder, max(count // 10, 20))
    at_one_window(here, folder)
    password_taken(here)
    no_caller(here)
    return f"a table of {count} rows, whose browser was killed in its midst, is {count} keys"
