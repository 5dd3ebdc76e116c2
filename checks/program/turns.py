#!/usr/bin/env python3
"""Turn after turn over one disk that stops: after each turn the register is that of what was answered, or of one more.

    checks/program/turns.py

A day of all commands, an import and exchanges go over one file in memory. Each turn is a run of the program, in which
from a write on every call that changes the register's files fails: from the first write, in the next turn from the
second, and so on, and from the first again once a request was accepted. The next turn begins with what the one before
left, and sends all again. SQLite reads a copy of the files behind each turn, and office/register_rules.py says which
rows they are to have. It needs Linux and strace, which fails the calls.
"""
import contextlib
import pathlib
import subprocess
import sys
import time
from typing import Iterator, Sequence

sys.path.insert(1, str(pathlib.Path(__file__).resolve().parents[1] / "shared"))
from places import PROGRAM
from answers import reply_line, served_since
from command_day import SHORT
from registers import copy_files, new_register, sound_rows
from register_rules import Register, Request, line
from rules_shown import import_table, tables
from script import expect, fresh_folder, options, verdict
from serving import Served, post_command

DAY = [asked.request for asked in SHORT]
ROWS = [("master", "bob", None, None, None, f"key {place}") for place in range(1, 6)]
TERMS = ["--moment", str(DAY[-1].moment), "--caller", "imp", "--first", "1"]
POSTED = [("web", number, ("register", "master", "bob", None, None, None, f"posted {number}")) for number in (1, 2, 3)]
# Calls that change a file, and the parts of a register in files.
WRITES = "pwrite64,write,writev,pwritev,ftruncate,fsync,fdatasync"
PARTS = ("", "-wal")


def stopping(file: str, before: int) -> list[str]:
    """The words before those of a program whose writes to the file fail behind so many."""
    paths = [word for part in PARTS for word in ("-P", file + part)]
    return ["strace", "-f", "-qq", "-o", "/dev/null", *paths, "-e", f"trace={WRITES}",
            "-e", f"inject={WRITES}:error=EIO:when={before + 1}+"]


class Turns:
    """The file, the register of the rules that it holds, and how many turns were, and requests that were accepted and
    not answered."""

    def __init__(self, file: str) -> None:
        self.file, self.register, self.turns, self.unanswered = file, Register(), 0, 0

    def held(self) -> int:
        return len(self.register.kept)

    def look(self, answered: Register, *more: Register) -> None:
        """Takes for the register the one of these whose rows are there."""
        self.turns += 1
        rows = sound_rows(str(copy_files(self.file, self.file + ".copy")))
        found = [register for register in (answered, *more) if tables(register) == rows]
        expect(found, f"turn {self.turns}: other rows than of what was answered, or of one more")
        self.register = found[0]
        self.unanswered += self.register is not answered

    def after(self, requests: Sequence[Request]) -> Iterator[tuple[Register, str]]:
        """The register after each of the requests, and the reply line."""
        register = self.register.copy()
        for request in requests:
            reply = reply_line(register, *request)
            yield register.copy(), reply

    def sent(self, before: int, command: str, terms: Sequence[str], given: str, requests: Sequence[Request]) -> bool:
        """A turn of a command whose replies are lines; whether it came to its end."""
        done = subprocess.run([*stopping(self.file, before), PROGRAM, command, "--file", self.file, *terms],
                              input=given.encode(), capture_output=True, check=False)
        replies, after = done.stdout.decode().splitlines(), [*self.after(requests)]
        expect(replies == [reply for _, reply in after[:len(replies)]], f"{command}, turn {self.turns}: {replies}")
        registers = [self.register, *(register for register, _ in after)]
        self.look(*registers[len(replies):len(replies) + 2])
        expect((done.returncode == 0) == (len(replies) == len(requests)), f"{command}: {done.returncode}")
        return done.returncode == 0

    def served(self, before: int) -> bool:
        """A turn that serves those of the posted requests that the register has not, one after the other."""
        with contextlib.ExitStack() as stack:
            try:
                served = stack.enter_context(Served(exchanges=len(POSTED), file=self.file,
                                                    before=stopping(self.file, before)))
            except SystemExit:
                # The disk refused the opening.
                self.look(self.register)
                return False
            for request in POSTED:
                begun, reply = int(time.time()), served.raw(post_command(*request))
                either = [self.register, *served_since(begun, self.register, *request).values()]
                if not reply.startswith(b"HTTP/1.1 200 "):
                    served.ended(3, b"keyreg: Store\n")
                    self.look(*either)
                    return False
                expect(reply in served_since(begun, self.register, *request), f"{request}: {reply!r}")
                self.register = served_since(begun, self.register, *request)[reply]
            served.ended()
        self.look(self.register)
        return True


def main() -> None:
    options(__doc__)
    with fresh_folder(memory=2**24) as folder:
        turns = Turns(str(folder / "office.keyreg"))
        new_register(turns.file)
        imported = [Request(DAY[-1].moment, "imp", number, ("register", *row)) for number, row in enumerate(ROWS, 1)]
        days = "".join(line(*request) + "\n" for request in DAY)
        for turn in (lambda before: turns.sent(before, "run", [], days, DAY),
                     lambda before: turns.sent(before, "import", TERMS, import_table(ROWS), imported),
                     turns.served):
            before, held = 0, turns.held()
            while not turn(before):
                before, held = (0 if turns.held() > held else before + 1), turns.held()
    verdict(f"{turns.turns} turns over one disk, {turns.held()} requests accepted, {turns.unanswered} of them unanswered")


main()
