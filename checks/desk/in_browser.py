#!/usr/bin/env python3
"""The desk in Chromium: people go through a day of every command, and after it the register is exactly what the pages
said.

    checks/desk/in_browser.py [--least] [--rows N] [PART..]

keyreg is served behind nginx with office/units/nginx-keyreg.conf, and a browser for each user goes through a day by
forms and lists (day.py), what breaks (breaks.py), what is typed (typed.py) and tables (tables.py), also after a crash
and from two windows, by two people at one window (windows.py), without a list, with an older and a newer one and over a
slow line (lists.py). What is found is sorted, given away as a file and printed whole (found.py). The histories of keys
and of readers are the register's, also after a restore (histories.py). What waits and is due is counted (told.py), and
a leaver's keys are given away (leaving.py). What is heard of forms and of sendings is asked of Chromium's accessibility
tree (heard.py). Each page is looked at by that and by axe, for contrast, by Tab, at several widths, light, dark and
printed, and by the seconds that a list of 100,000 keys takes (looks.py).

After it each request of which a page said that it was accepted is in the register under the number that the page
showed, and no other is; and by office/replay.py all else in the register follows from them. The console has nothing but
what Chromium writes of refusals and of connections that were cut on purpose.

The parts are day, breaks, typed, tables, windows, lists, found, history, told, leaving, heard, looks and many, all where
none is named. --least does the smallest form alone, as the gate has it. It needs Debian's chromium, chromium-driver,
nodejs, python3-selenium, nginx-light and poppler-utils, and Linux.
"""
import collections
import contextlib
import pathlib
import re
import sys
from typing import Optional, Sequence

sys.path.insert(1, str(pathlib.Path(__file__).resolve().parents[1] / "shared"))
from places import OFFICE
import breaks
import day
import found
import heard
import histories
import leaving
import lists
import looks
import tables
import told
import typed
import windows
from parts import Desk, Reader
from register_rules import COMMANDS
from script import expect, fresh_folder, options, output_of, verdict

# What Chromium itself writes to the console: of each refusal, and of what was broken on purpose.
BY_STATUS = re.compile(
    r"\S+/(requests|keys/\d+(/usage)?|list\.json|history/\S+|favicon\.ico|me|sign-out\?user=\w+|chromewebdata/) - "
    r"Failed to load resource: (the server responded with a status of (40[0149]|412|50[023]) .*|net::ERR_[A-Z_]+)")
PARTS = ("day", "breaks", "typed", "tables", "windows", "lists", "found", "history", "told", "leaving", "heard", "looks",
         "many")


class Office:
    """A desk and its readers, who are gone when the stack ends."""

    def __init__(self, folder: pathlib.Path, stack: contextlib.ExitStack) -> None:
        self.stack, self.desk = stack, Desk(folder)
        self.readers: list[Reader] = []
        stack.callback(self.desk.close)

    def reader(self, user: str) -> Reader:
        self.readers.append(Reader(self.desk, user))
        self.stack.callback(self.readers[-1].driver.quit)
        return self.readers[-1]

    def closes(self, *readers: Reader) -> None:
        """Looks at the consoles of browsers that are not needed any more, and ends them."""
        self.quiet(readers)
        for reader in readers:
            reader.is_gone = True
            reader.driver.quit()

    def compared(self) -> int:
        """Compares the register with what the pages and their consoles said; how many requests it has."""
        output_of([sys.executable, "-B", OFFICE / "replay.py", self.desk.copy()])
        kept: dict[tuple[str, Optional[int]], str] = {row[:2]: row[2] for row in self.desk.requests()}
        said = [request for reader in self.readers for request in reader.said]
        numbered = {request[:2]: request[2] for request in said if request[1]}
        wrong = {request: kept.get(request) for request in numbered if kept.get(request) != numbered[request]}
        expect(not wrong, f"the pages said that accepted was {numbered}, and otherwise kept are {wrong}")
        expect(len(numbered) == sum(bool(request[1]) for request in said), "a number is shown twice")
        accepted = collections.Counter((caller, command) for (caller, _), command in kept.items())
        shown = collections.Counter((caller, command) for caller, _, command in said)
        expect(accepted == shown,
               f"the register has besides {accepted - shown}, and the pages said besides {shown - accepted}")
        self.quiet([reader for reader in self.readers if not reader.is_gone])
        return len(kept)

    @staticmethod
    def quiet(readers: Sequence[Reader]) -> None:
        """The console is empty, and nothing was asked of another place."""
        for reader in readers:
            console, asked = reader.logs()
            entries = [entry for entry in console if not BY_STATUS.fullmatch(entry)]
            expect(not entries, f"{reader.user}'s console says {entries[:5]}")
            ours = (reader.place, f"blob:{reader.place}", "data:image/")
            elsewhere = [place for place in asked if not place.startswith(ours) and "@" not in place]
            expect(not elsewhere, f"{reader.user}'s page asked for {elsewhere[:5]}")


def least(here: Office) -> str:
    """The smallest form."""
    day.destroyed(*map(here.reader, ("ann", "bob", "cat")))
    count = here.compared()
    return f"a key is registered, approved by two and destroyed in {count} requests, as the pages said"


def whole(here: Office, folder: pathlib.Path, parts: Sequence[str], rows: int) -> str:
    """The parts, over one register."""
    readers = [here.reader(name) for name in ("ann", "bob", "cat", "office")]
    ann, bob, cat, office = readers
    if "day" in parts:
        readers.append(here.reader("ann"))
        day.whole_day(*readers)
        given = {command.split(" ")[0] for reader in readers for _, _, command in reader.said}
        expect(given == set(COMMANDS), f"the day of the pages lacks {set(COMMANDS) - given}")
    if "breaks" in parts:
        breaks.all_breaks(ann, bob, here.reader("ann"))
    if "typed" in parts:
        typed.all_typed(ann, bob)
    if "tables" in parts:
        print(tables.all_taken(cat, folder, rows))
    if "windows" in parts:
        print(windows.all_windows(here, folder, rows))
    if "lists" in parts:
        print(lists.all_lists(here, folder))
    if "found" in parts:
        print(found.all_found(ann, bob, folder))
    if "history" in parts:
        print(histories.all_histories(ann, bob, office))
    if "told" in parts:
        print(told.all_told(here))
    if "leaving" in parts:
        print(leaving.all_leaving(here))
    if "heard" in parts:
        print(heard.all_heard(here, folder))
    if "looks" in parts:
        print(looks.all_pages(ann, bob, cat, folder))
    if "many" in parts:
        print(looks.many_keys(bob, folder))
    count = here.compared()
    return f"{count} requests of {len(here.readers)} pages are the register's, as the pages said; the console is empty"


def main() -> None:
    given = options(__doc__, PARTS, least=False, rows=2000)
    with fresh_folder(2**28) as folder, contextlib.ExitStack() as stack:
        folder.chmod(0o755)
        here = Office(folder, stack)
        line = least(here) if given.least else whole(here, folder, given.parts, given.rows)
    verdict(line)


main()
