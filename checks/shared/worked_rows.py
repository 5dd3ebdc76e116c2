"""The rows of docs/WORKED.md: those of request lines with a reply each, and what they say of keys; and the cells of the
others, by their names."""
import functools
import re
from typing import Any, NamedTuple, Optional

from places import read
from script import expect

INPUT = re.compile(r"(?:after \*(.*?)\*: )?((?:`[^`]+`(?:, )?)+)(?: \(\S+\))?")
ROW = re.compile(r"(?m)^\| \*([^|]*)\* \| ([^|]*) \| ([^|]*) \|$")
# The columns of an export that have a key's dates, by what the page calls them.
DATES = {"Initial": "initial", "Activation": "activation", "Protect Stop": "protect_stop",
         "Deactivation": "deactivation", "Destroy": "destroyed", "Compromise": "compromised",
         "Occurrence": "occurrence"}
DATE = "|".join(DATES)
# What may be said of a key, each by its form: dates, one that is not set, names, that there is none, and the state.
SAID_DATES = re.compile(rf"((?:{DATE})(?: and (?:{DATE}))*) (\d+)(?: \([\d-]+\))?")
SAID_UNSET = re.compile(rf"no ({DATE})")
SAID_NAMES = re.compile(r"the (custodian|approval)s? (?:of )?(\w+(?: and \w+)*)")
SAID_STATE = re.compile(r"Pre-Active|Active|Deactivated|Compromised|Destroyed|Destroyed-Compromised")


class Fact(NamedTuple):
    """What is shown after a row: of a key, 0 for the register itself, a column of an export with its moment or text,
    the names in a table, the latest moment; or that there is no such key."""
    key: int
    what: str
    value: Any = None


class Row(NamedTuple):
    """A row: the name of the one whose input was served before, or none, its lines and their replies, and what is shown
    then."""
    before: str
    lines: list[str]
    replies: list[str]
    facts: list[Fact]


def ticked(cell: str) -> list[str]:
    """What stands between backquotes in a cell."""
    return re.findall(r"`([^`]*)`", cell)


def replies_of(cell: str) -> list[str]:
    """The lines of an output, of which some stand for several."""
    text = re.sub(r"`([^`]*)` with (\d+) to (\d+)", lambda row: ", ".join(
        f"`{row[1]} {moment}`" for moment in range(int(row[2]), int(row[3]) + 1)), cell.split(";")[0])
    text = re.sub(r"`([^`]*)` with ((?:\d+, )*\d+ and \d+)", lambda row: ", ".join(
        f"`{row[1]} {moment}`" for moment in re.findall(r"\d+", row[2])), text)
    return ticked(re.sub(r"(`[^`]*`) twice", r"\1, \1", text))


def facts_of_key(key: int, said: str) -> Optional[list[Fact]]:
    """What is said of a key, or None where that has no form that is known."""
    if dates := SAID_DATES.fullmatch(said):
        return [Fact(key, DATES[name], int(dates[2])) for name in dates[1].split(" and ")]
    if unset := SAID_UNSET.fullmatch(said):
        return [Fact(key, DATES[unset[1]])]
    if names := SAID_NAMES.fullmatch(said):
        return [Fact(key, names[1], names[2].split(" and "))]
    if said == "no approval":
        return [Fact(key, "approval", [])]
    return [Fact(key, "state", said)] if SAID_STATE.fullmatch(said) else None


def facts_of(cell: str) -> list[Fact]:
    """What an output says of keys, behind its semicolon: all of it has a form that is known."""
    facts, key = list[Fact](), 0
    for said in cell.partition("; ")[2].split(", "):
        if begins := re.fullmatch(r"key (\d+) (?:is|has) (.*)", said):
            key, said = int(begins[1]), begins[2]
        if none := re.fullmatch(r"there is no key (\d+)", said):
            facts.append(Fact(int(none[1]), "none"))
        elif latest := re.fullmatch(r"the latest moment is (\d+)", said):
            facts.append(Fact(0, "latest", int(latest[1])))
        elif said:
            of_key = facts_of_key(key, said)
            expect(key and of_key, f"docs/WORKED.md: {said!r} has no form that is known")
            facts += of_key or []
    return facts


@functools.lru_cache
def cells() -> dict[str, tuple[str, str]]:
    """The input and the output of each row, by its name, but for those of exchanges."""
    rows = read("docs/WORKED.md").split("## Exchanges")[0]
    return {name: (given, output) for name, given, output in ROW.findall(rows)}


@functools.lru_cache
def worked_rows() -> dict[str, Row]:
    """The rows of request lines with a reply each, by their names."""
    rows = {}
    for name, (given, output) in cells().items():
        parts = INPUT.fullmatch(given)
        lines, replies = ticked(parts[2]) if parts else [], replies_of(output)
        if parts and lines and len(lines) == len(replies):
            rows[name] = Row(parts[1] or "", lines, replies, facts_of(output))
    return {name: row for name, row in rows.items() if not row.before or row.before in rows}


def exchanges_of(name: str) -> list[tuple[str, str]]:
    """The lines of a row, behind those that were served before it, each with its reply."""
    row = worked_rows()[name]
    return (exchanges_of(row.before) if row.before else []) + list(zip(row.lines, row.replies))
