#!/usr/bin/env python3
"""Writes the accepted requests of a register as request lines, from which `keyreg run` makes the register again.

    office/rebuild.py COPY [--until MOMENT] [--without CALLER NUMBER].. > requests.txt
    keyreg init --file new.keyreg && keyreg run --file new.keyreg < requests.txt

A register is what its accepted requests make of an empty one. COPY is a copy of a register's file, of version 1 or 2,
with its log COPY-wal beside it (docs/AUDIT.md takes one). Neither is written to, and of its tables `request` alone is
read: the others may be damaged. The lines come by their moments, and then as their rows stand, which is the order in
which they were accepted.

    --until MOMENT            leaves out each request with a later moment: seconds since 1970, or YYYY-MM-DDTHH:MM:SSZ
    --without CALLER NUMBER   leaves out this request; may be given again

The requests that are left out, and what that does to the others, are on standard error before anything is written:

    left out:   a request that was asked to be left out, or a row that is no request, or comes a second time
    refused:    a request that is written and that keyreg will refuse, with the refusal's name and what is lacking
    otherwise:  one that will be accepted with another reply than it had: another state, or another key

Keys have their numbers by the order of their registrations. Where one of these is left out, the keys after it have
other numbers, and a request that names one reaches another key than it meant.

The rules are those of register_rules.py in version 2, since that is what keyreg makes; it stands beside this file, and
so does replay.py. The last line counts. The status is

    0  all is written that was not asked to be left out, and each request will be accepted with the reply that is kept
    1  all that can be is written; what standard error tells is refused, answered otherwise, or no request
    2  nothing is written: COPY cannot be read, or has no such request to leave out
    3  standard output failed: what was written is a prefix of the lines
"""
import argparse
import os
import sqlite3
import sys
from typing import Iterable, Iterator, Optional, Union

# What is read from beside this file leaves none there.
sys.dont_write_bytecode = True
from register_rules import (LAST, MOMENT_TEXT, STATES, Refused, Register, Request, Row, command_text, line, moment_of,
                            text_of)
from replay import Keys, Unreadable, accepted_of, columns_of, opened, row_place

ROW = (str, int, str, int, int, int)


class Choice:
    """Which requests of a copy are written: all but those after a moment and those that are named."""

    def __init__(self, connection: sqlite3.Connection, until: int, without: set[tuple[str, int]]) -> None:
        self.connection, self.until, self.without = connection, until, without
        self.named = set[tuple[str, int]]()
        twice = "SELECT caller, number FROM request NOT INDEXED GROUP BY caller, number HAVING count(*) > 1"
        self.twice, self.goes_by_moments = set(connection.execute(twice)), True
        self.place = row_place(columns_of(connection, "request"))

    def rows(self) -> Iterator[tuple[Row, Optional[Request], Optional[str]]]:
        """Each row, by its moment and then its place, with its request, if it is one, and why it is left out."""
        columns = f"{self.place}, caller, number, command, key_no, state, moment"
        asked, last, came = f"SELECT {columns} FROM request NOT INDEXED ORDER BY moment, {self.place}", None, set[Row]()
        for place, *cells in self.connection.execute(asked):
            self.goes_by_moments &= last is None or last < place
            row, last = tuple(cells), place
            request, name = read_request(row), row[:2]
            if request is None:
                yield row, None, "it is no request"
            elif name in came:
                yield row, request, "its caller has one of this number before"
            elif request.moment > self.until or name in self.without:
                self.named |= self.without & {name}
                yield row, request, ""
            else:
                came |= self.twice & {name}
                yield row, request, None


def read_request(row: Row) -> Optional[Request]:
    """The request of a row, or None. A text with a line's end in it would be two lines: it is none."""
    if tuple(map(type, row)) != ROW:
        return None
    try:
        return accepted_of(row, 2)
    except ValueError:
        return None


def shown(row: Row) -> str:
    """A row as it is printed. Characters that a terminal obeys are escaped."""
    caller, number, command, *_, at = row
    return f"{at} {caller if type(caller) is str and caller.isprintable() else repr(caller)} {number!r} {command!r}"


def text_of_request(request: Request) -> str:
    return shown((request.caller, request.number, command_text(request.command), request.moment))


def reply_text(key_no: int, state: int) -> str:
    """A reply as it is printed, also one of a state that is none."""
    return f"ok {key_no} {STATES[state] if state in range(7) else state}"


class Foreseen:
    """What keyreg will answer to the requests that are written, beside what it answered first."""

    def __init__(self) -> None:
        self.register = Register()
        self.register.keys = Keys()
        # The number that each key had.
        self.old: dict[int, int] = {}
        # What was left out last of a key, by the number that it had, of a type's periods, and of all registrations.
        self.lacking: dict[Union[int, str], Request] = {}

    def leave_out(self, request: Request, cause: Optional[Request] = None) -> None:
        """Of a request that is refused the cause is what was left out before it, if anything was."""
        cause = cause or request
        if request.word == "set-period":
            self.lacking[request.values[0]] = cause
        elif request.word != "advance":
            self.lacking[request.named or request.key_no] = cause
        if request.word == "register":
            self.lacking["register"] = cause

    def cause(self, request: Request, name: str) -> Optional[Request]:
        """What is lacking for a request that is refused."""
        number = request.named
        if name == "UnknownKey":
            return self.lacking.get("register")
        if number is None:
            return self.lacking.get(request.values[0]) if request.word == "register" else None
        key = self.register.keys.get(number)
        return self.lacking.get(number) or (self.lacking.get(key.kind) if key else None)

    def answer(self, request: Request) -> Optional[str]:
        """A line where the answer is another one than was kept, else None."""
        self.register.latest = request.moment
        try:
            key_no, state = self.register.accept(request)
        except Refused as refused:
            cause = self.cause(request, refused.name)
            self.leave_out(request, cause)
            want = f", for want of {text_of_request(cause)}" if cause else ""
            return f"refused: {text_of_request(request)}: {refused.name}{want}"
        if request.word == "register":
            self.old[key_no] = request.key_no
        elif key_no and self.old[key_no] != request.named:
            return f"otherwise: {text_of_request(request)}: it reaches key {key_no}, which was key {self.old[key_no]}"
        if (key_no, state) != (request.key_no, request.state):
            now, before = reply_text(key_no, state), reply_text(request.key_no, request.state)
            return f"otherwise: {text_of_request(request)}: {now}, and {before} before"
        return None


def foretold(choice: Choice) -> tuple[list[str], dict[str, int], int, bool]:
    """What is to be said of the choice: its lines, how many requests there are of each sort, the moment of the last one
    that is written, and whether nothing but what was asked for is amiss."""
    foreseen, counts, is_well = Foreseen(), dict.fromkeys(("written", "left out", "refused", "otherwise"), 0), True
    latest, lines = 0, list[str]()
    for row, request, why in choice.rows():
        if request and why is None:
            counts["written"] += 1
            latest = request.moment
            answer = foreseen.answer(request)
            if answer:
                counts[answer.split(":")[0]] += 1
                lines.append(answer)
            continue
        counts["left out"] += 1
        is_well &= not why
        if request is not None:
            foreseen.leave_out(request)
        lines.append(f"left out: {shown(row)}" + f": {why}" * bool(why))
    if not choice.goes_by_moments:
        lines.append("order: the rows do not go by their moments: another program than keyreg put them so")
    return lines, counts, latest, is_well and not counts["refused"] + counts["otherwise"]


def number_word(text: str) -> int:
    if not (text.isascii() and text.isdigit()):
        raise ValueError(text)
    return int(text)


def moment(text: str) -> int:
    """A moment as it is typed. By this name argparse says what was wanted."""
    seconds = moment_of(text) if MOMENT_TEXT.fullmatch(text) else number_word(text)
    if not 0 <= seconds <= LAST:
        raise ValueError(text)
    return seconds


def read_words() -> argparse.Namespace:
    words = argparse.ArgumentParser(description="Writes the accepted requests of a register as request lines.")
    words.add_argument("copy")
    words.add_argument("--until", metavar="MOMENT", type=moment, default=LAST)
    words.add_argument("--without", metavar=("CALLER", "NUMBER"), nargs=2, action="append", default=[])
    given = words.parse_args()
    try:
        given.without = {(caller, number_word(number)) for caller, number in given.without}
    except ValueError as fault:
        words.error(f"--without: {fault} is no number of a request")
    return given


def say(text: str) -> None:
    print(text.encode(errors="backslashreplace").decode(), file=sys.stderr)


def write(lines: Iterable[str]) -> int:
    """Writes the lines; the status."""
    try:
        for text in lines:
            sys.stdout.buffer.write(f"{text}\n".encode(errors="surrogateescape"))
        sys.stdout.buffer.flush()
    except OSError as fault:
        # What is still held is given up, or the end of Python would try it again.
        os.dup2(os.open(os.devnull, os.O_WRONLY), sys.stdout.fileno())
        say(f"standard output: {fault.strerror}: what was written is a prefix of the lines")
        return 3
    return 0


def main() -> int:
    words = read_words()
    try:
        with opened(words.copy) as connection:
            choice = Choice(connection, words.until, words.without)
            lines, counts, latest, is_well = foretold(choice)
            missing = sorted(words.without - choice.named)
            for caller, number in missing:
                say(f"{words.copy}: no accepted request of {caller} has the number {number}")
            if missing:
                return 2
            for text in lines:
                say(text)
            say(f"{words.copy}: {counts['written']} requests up to {text_of(latest)}, {counts['left out']} left out; "
                f"{counts['refused']} will be refused, {counts['otherwise']} answered otherwise")
            sys.stderr.flush()
            written = (line(*request) for _, request, why in choice.rows() if request and why is None)
            return write(written) or int(not is_well)
    except Unreadable as fault:
        say(f"{words.copy}: its requests cannot be read: {fault}")
        return 2


if __name__ == "__main__":
    sys.exit(main())
