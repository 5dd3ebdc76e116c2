#!/usr/bin/env python3
"""Tells what a spreadsheet did to a table before it is imported.

    office/check_table.py TABLE --export EXPORT [--caller NAME [--copy COPY] [--requests FILE]]

TABLE is the CSV that is about to be imported, EXPORT what `keyreg export` wrote of the keys that it came from. A row
of TABLE is found again among the keys where each of its fields is the key's, or is what a spreadsheet may have made of
it:

    a number     0042 becomes 42, 1e5 100000, 3.10 3.1, .5 0.5, and 20 digits become 15
    a date       2026-02-01T00:00:00Z becomes 2026-02-01 00:00:00 or 02/01/26, and 3-4 the fourth of March
    a formula    =1+1 becomes 2, and =A1 another cell's text or an error
    a truth      true becomes TRUE
    other bytes  Schlüssel becomes SchlÃ¼ssel or Schl?ssel
    other marks  quotes, dashes and dots that were typed become typographic ones, and spaces at the ends go

Each such field is printed, with its row (the first after the header row is 1) and its key. So are rows that are keys
already, whose import makes a second key: type, owner, purpose and each date that the row gives are the key's, and of a
row without dates the key is in use. So are rows that ask for the same key as a row before them, and rows that the
register would refuse for their form. With a copy of the register (docs/AUDIT.md takes one) it prints the first number
that the caller's next import may take.

--requests  writes the new rows to FILE as request lines of the caller, for `keyreg run`, with the moment of the clock
            and under the numbers under which the desk sends them: 2^52 plus the number that the first 13 digits of the
            SHA-256 of `CALLER TIME COMMAND` are, where COMMAND is the line's own and TIME is 1 for the first row of the
            table with this command, 2 for the second, and so on. So a row of a caller acts once, whoever sends it

register_rules.py and replay.py have to stand beside it. The last line is the verdict. The status is 0 where every row
is new and would be a request, 1 where not, 2 where a file cannot be read or written.
"""
import argparse
import collections
import contextlib
import csv
import decimal
import functools
import hashlib
import io
import itertools
import pathlib
import re
import sys
import time
from datetime import datetime
from typing import Iterable, Iterator, Optional, Sequence, Union

# What is read from beside this file leaves none there.
sys.dont_write_bytecode = True
from register_rules import NAME, NO_PURPOSE, PERIODS, Refused, fitted, moment_of
from replay import Unreadable, opened

COLUMNS = "type owner activation protect_stop deactivation purpose".split()
DATES = COLUMNS[2:5]
WORDS = ("type", "owner", "purpose")
IN_USE = ("Pre-Active", "Active")
# From here to the greatest number go the requests of tables, and below it all others.
LEAST_OF_TABLES = 1 << 52
FORMULA = "taken for a formula, and this is its result"
# How spreadsheets write dates, the least ambiguous first.
FORMS = ["%Y-%m-%d", "%Y/%m/%d", "%d.%m.%Y", "%d.%m.%y", "%m/%d/%Y", "%m/%d/%y", "%d/%m/%Y", "%d/%m/%y", "%d-%m-%Y",
         "%d-%b", "%b-%d", "%d-%b-%y", "%d-%b-%Y", "%d %b %Y", "%m-%d", "%d-%m"]
CLOCKS = ["", " %H:%M:%S", " %H:%M", " %I:%M:%S %p", " %I:%M %p"]
# The forms that a text can have, by what is left of it where numbers and words are alike.
SHAPED = collections.defaultdict(list)
for form, clock in itertools.product(FORMS, CLOCKS):
    SHAPED[re.sub("%[bp]", "a", re.sub("%[YymdHIMS]", "0", form + clock))].append(form + clock)
MARKS = str.maketrans({"“": '"', "”": '"', "„": '"', "‘": "'", "’": "'", "–": "-", "—": "-", "…": "..."})


# ---- what a spreadsheet may have made of a text

@functools.cache
def number_of(text: str) -> Optional[decimal.Decimal]:
    """The number that a spreadsheet takes the text for, with the 15 digits that it keeps, or None."""
    if not re.fullmatch(r"[+-]?(\d+\.?\d*|\.\d+)([eE][+-]?\d{1,3})?", text):
        return None
    return decimal.Context(prec=15).create_decimal(text).normalize()


def is_close(number: decimal.Decimal, other: decimal.Decimal) -> bool:
    """Whether the numbers agree to the digits that are left of the shorter one."""
    digits = max(min(len(number.as_tuple().digits), len(other.as_tuple().digits)), 6)
    context = decimal.Context(prec=digits)
    return context.plus(number).normalize() == context.plus(other).normalize()


@functools.cache
def days_of(text: str) -> set[tuple[int, int]]:
    """Each day that the text may stand for, as month and day, in one form or another; the year may be gone."""
    plain, days = " ".join(re.sub(r"[TZ]", " ", text).split()), set[tuple[int, int]]()
    for form in SHAPED.get(re.sub(r"[^\W\d_]+", "a", re.sub(r"\d+", "0", plain)), ()):
        with contextlib.suppress(ValueError):
            # A day without a year is one of a leap year.
            year, form_of_year = ("", "") if "%y" in form.lower() else ("2000 ", "%Y ")
            day = datetime.strptime(year + plain, form_of_year + form)
            days.add((day.month, day.day))
    return days


def other_bytes(text: str) -> Iterator[str]:
    """What the text becomes where its UTF-8 is read as another code, or written in one that lacks its letters."""
    raw = text.encode(errors="replace")
    yield from (raw.decode(code, errors="replace") for code in ("cp1252", "latin-1", "mac-roman"))
    yield from (text.encode(code, errors="replace").decode(code) for code in ("ascii", "latin-1", "cp1252"))
    yield re.sub("[^\0-\x7f]", "\ufffd", text)


def became(was: str, now: str) -> str:
    """How a spreadsheet made the one text of the other; an empty text where it is no way that is known here."""
    if was[:1] in ("=", "+", "-", "@") and number_of(was) is None:
        return FORMULA
    before, after = number_of(was), number_of(now)
    if before is not None and after is not None and is_close(before, after):
        return "taken for a number, and written in another form"
    if not was.isascii() and now in other_bytes(was):
        return "its bytes were read or written in another code than UTF-8"
    if was.upper() == now.upper() and was.upper() in ("TRUE", "FALSE"):
        return "taken for a truth value"
    if now.translate(MARKS).strip() == was.translate(MARKS).strip() and now != was:
        return "its marks or spaces were put right"
    if any(letter.isdigit() for letter in was) and days_of(was) & days_of(now):
        return "taken for a date, and written in another form"
    return ""


# ---- the tables

def rows_of(path: str, columns: Sequence[str]) -> list[Optional[dict[str, str]]]:
    """The rows of a CSV with at least these columns, each as a dictionary; None where a row has another number of
    fields."""
    try:
        raw = pathlib.Path(path).read_bytes()
        text = raw.decode("utf-8")
    except OSError as fault:
        raise Unreadable(f"{path}: {fault.strerror}") from None
    except UnicodeDecodeError:
        code = "UTF-16" if raw[:2] in (b"\xff\xfe", b"\xfe\xff") else "another code, as Latin-1"
        raise Unreadable(f"{path}: it is no UTF-8, but {code}: save it as UTF-8") from None
    if text.startswith("\ufeff"):
        raise Unreadable(f"{path}: it begins with a byte order mark: save it without")
    records = [record for record in csv.reader(io.StringIO(text, newline="")) if record]
    header = records[0] if records else []
    if not set(columns) <= set(header):
        why = "its fields are parted by `;`" if ";" in "".join(header) else f"its header row is {','.join(header)!r}"
        raise Unreadable(f"{path}: {why}, and should have {','.join(columns)}")
    return [dict(zip(header, record)) if len(record) == len(header) else None for record in records[1:]]


def is_moment(text: str) -> bool:
    with contextlib.suppress(ValueError):
        return moment_of(text) >= 0
    return False


def refusals(row: Optional[dict[str, str]]) -> Iterator[str]:
    """Why the register would refuse the row for its form."""
    if row is None:
        yield "it has another number of fields than the header row"
        return
    if row["type"] not in PERIODS:
        yield f"type is {row['type']!r}, which is none of the seven"
    if not NAME.fullmatch(row["owner"]):
        yield f"owner is {row['owner']!r}, which is no name"
    for column in DATES:
        if row[column] and not is_moment(row[column]):
            yield f"{column} is {row[column]!r}, and no moment in the form YYYY-MM-DDTHH:MM:SSZ"
    purpose = row["purpose"]
    if not 1 <= len(purpose.encode()) <= 200 or purpose != purpose.strip(" ") or NO_PURPOSE.search(purpose):
        yield f"purpose is {purpose[:60]!r}, which is empty, too long, or has a space at an end or a control character"


def forms(text: str) -> set[Union[str, decimal.Decimal]]:
    """The text, and the number that it may have been or become."""
    number = number_of(text)
    return {text} if number is None else {text, decimal.Context(prec=6).plus(number).normalize()}


class Keys:
    """The keys of an export, which find a row again."""

    def __init__(self, keys: Sequence[dict[str, str]]) -> None:
        self.keys = keys
        # The places of keys by a field in one of its forms, and by their words and a date.
        self.by_field = collections.defaultdict[tuple[str, Union[str, decimal.Decimal]], list[int]](list)
        self.by_words = collections.defaultdict[tuple[str, ...], list[int]](list)
        for place, key in enumerate(keys):
            for date in {"", *(key[column] for column in DATES)}:
                self.by_words[(*(key[column] for column in WORDS), date)].append(place)
            for column in COLUMNS[1:]:
                for form in forms(key[column]):
                    self.by_field[column, form].append(place)
        self.taken = set[int]()

    def made(self, row: dict[str, str]) -> Optional[dict[str, str]]:
        """The key that the row may have made already, or None: each date that it gives is the key's."""
        given = [column for column in DATES if row[column]]
        for place in self.by_words.get((*(row[column] for column in WORDS), row[given[0]] if given else ""), ()):
            key = self.keys[place]
            is_it = all(row[column] == key[column] for column in given)
            if is_it and (given or key.get("state", "Active") in IN_USE):
                self.taken.add(place)
                return key
        return None

    def likely(self, row: dict[str, str], place: int) -> list[int]:
        """The keys that the row may have come from: that at its own place, and those that share most fields with it."""
        shared = collections.Counter[int]()
        for column in COLUMNS[1:]:
            for form in forms(row[column]) if row[column] else ():
                places = self.by_field[column, form]
                shared.update(places if len(places) <= MOST_LIKE else [])
        others = [other for other, _ in shared.most_common(MOST_LIKE) if other != place]
        return [place, *others] if place < len(self.keys) else others

    def changed(self, row: dict[str, str], place: int) -> tuple[Optional[dict[str, str]], dict[str, str]]:
        """The key that the row came from, with what became of its fields; that at its own place is asked first."""
        best: Optional[tuple[tuple[int, bool, int, bool], int, dict[str, str]]] = None
        for other in self.likely(row, place):
            key = self.keys[other]
            differs = [column for column in COLUMNS if row[column] != key[column]]
            # A formula may have become anything, and a key that was found for another row is a worse one.
            least = (0, other in self.taken, len(differs), other != place)
            if len(differs) >= len(COLUMNS) - 1 or best and least >= best[0]:
                continue
            changes = {}
            for column in differs:
                changes[column] = became(key[column], row[column])
                if not changes[column]:
                    break
            else:
                rank = (list(changes.values()).count(FORMULA), *least[1:])
                best = (rank, other, changes) if best is None or rank < best[0] else best
                # Of no key less differs: one that has all fields was looked for before.
                if rank <= (0, False, 1, False):
                    break
        if best is None:
            return None, {}
        self.taken.add(best[1])
        return self.keys[best[1]], best[2]


# So many keys that share a field with a row are compared with it.
MOST_LIKE = 50


def asked_for(row: dict[str, str]) -> tuple[object, ...]:
    """The key that a row of the right form asks for: its words, and the dates that it gives or that a period gives."""
    dates = [moment_of(row[column]) if row[column] else None for column in DATES]
    with contextlib.suppress(Refused):
        fit = fitted(dates, PERIODS[row["type"]], False)
        dates = [fit["activation"], fit["stop"], fit["end"]]
    return (*(row[column] for column in WORDS), *dates)


SORTS = ("changed by a spreadsheet", "there already", "repeated", "of another form", "new")


def looked_at(rows: Iterable[Optional[dict[str, str]]], keys: Keys, counts: collections.Counter[str],
              new: list[int]) -> Iterator[str]:
    """A line for each thing to tell of the rows, which are counted by their sorts; the places of new ones are added."""
    before = dict[tuple[object, ...], int]()
    for place, row in enumerate(rows):
        others, row_no = list(refusals(row)), f"row {place + 1}"
        if row and (key := keys.made(row)):
            counts["there already"] += 1
            yield f"{row_no}: it is key {key['number']} already, and its import makes a second one"
            continue
        if row and not others and (first := before.setdefault(asked_for(row), place)) != place:
            counts["repeated"] += 1
            yield f"{row_no}: it is row {first + 1} again, and its import makes a second key"
            continue
        key, changes = keys.changed(row, place) if row else (None, {})
        if row and key:
            for column, how in changes.items():
                yield f"{row_no} (key {key['number']}): {column} was {key[column]!r} and is {row[column]!r}: {how}"
        others = [why for why in others if why.split(" ")[0] not in changes]
        yield from (f"{row_no}: {why}" for why in others)
        counts["changed by a spreadsheet" if changes else "of another form" if others else "new"] += 1
        new += [] if changes or others else [place]


def last_number(path: str, caller: str) -> int:
    """The greatest number of the caller's accepted requests, but for those of tables."""
    with opened(path) as connection:
        asked = "SELECT max(number) FROM request WHERE caller = ? AND number < ?"
        last: Optional[int] = connection.execute(asked, [caller, LEAST_OF_TABLES]).fetchone()[0]
        return last or 0


def requests_of(rows: Iterable[Optional[dict[str, str]]], caller: str) -> Iterator[Optional[tuple[int, str]]]:
    """Of each row its number and its command, or None where it is no request. The desk (desk/numbers.js) has the same
    rule."""
    times, taken = collections.Counter[str](), set[int]()
    for row in rows:
        if row is None or any(refusals(row)):
            yield None
            continue
        dates = [moment_of(row[column]) if row[column] else "-" for column in DATES]
        command, number = " ".join(map(str, ("register", row["type"], row["owner"], *dates, row["purpose"]))), None
        while number is None or number in taken:
            times[command] += 1
            digest = hashlib.sha256(f"{caller} {times[command]} {command}".encode()).hexdigest()
            number = LEAST_OF_TABLES + int(digest[:13], 16)
        taken.add(number)
        yield number, command


def write_requests(path: str, rows: Iterable[Optional[dict[str, str]]], new: Iterable[int], caller: str) -> None:
    """Writes the new rows as request lines of the caller."""
    moment, requests = int(time.time()), list(requests_of(rows, caller))
    lines = [f"{moment} {caller} {asked[0]} {asked[1]}\n" for asked in map(requests.__getitem__, new) if asked]
    try:
        pathlib.Path(path).write_text("".join(lines), encoding="utf-8")
    except OSError as fault:
        raise Unreadable(f"{path}: {fault.strerror}") from None


def main() -> int:
    parser = argparse.ArgumentParser(description="Tells what a spreadsheet did to a table before it is imported.")
    parser.add_argument("table")
    parser.add_argument("--export", required=True)
    for name in ("--copy", "--caller", "--requests"):
        parser.add_argument(name)
    words = parser.parse_args()
    if bool(words.copy or words.requests) != bool(words.caller) or not NAME.fullmatch(words.caller or "none"):
        sys.exit("--copy and --requests are of a --caller, which is a name")
    try:
        keys = Keys([key for key in rows_of(words.export, ["number", *COLUMNS]) if key])
        rows, counts, new = rows_of(words.table, COLUMNS), collections.Counter[str](), list[int]()
        for line in looked_at(rows, keys, counts, new):
            print(line, flush=True)
        if words.copy:
            last = last_number(words.copy, words.caller)
            has_room = last + len(rows) < LEAST_OF_TABLES
            first = f"--first {last + 1}" if has_room else "none above: take one that is free"
            print(f"the next first number of {words.caller}: {first}")
        if words.requests:
            write_requests(words.requests, rows, new, words.caller)
    except Unreadable as fault:
        print(fault)
        return 2
    print(f"{words.table}: {len(rows)} rows: {', '.join(f'{counts[sort]} {sort}' for sort in SORTS)}")
    return 0 if counts["new"] == len(rows) else 1


if __name__ == "__main__":
    sys.exit(main())
