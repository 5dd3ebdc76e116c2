"""A register opened by Python: the seven tables of docs/SPECIFICATION.md are read and put to the tests of an opening,
row by row, as `keyreg` puts them. Where one fails the program ends.

That a cell holds a whole number or a text is left to the tables, which are STRICT. The pages of the file are not
audited, as the kit's `sqlite` audits them at each opening."""
import collections
import sqlite3
from typing import Any, Callable, Sequence

import measuring  # noqa: F401 - it has the path of modules
from registers import STATES, TYPES, UNSET, VERSION
from register_rules import (
    GREATEST_NUMBER, MOST_CUSTODIANS, MOST_KEYS, NAME, RANGES, command_of, date_of, field_of, state_at)
from script import expect


def is_in(form: str, number: int) -> bool:
    """Whether the number is one of a field of this form."""
    least, most = RANGES[form]
    return least <= number <= most


def is_read(read: Callable[..., Any], *words: str) -> bool:
    """Whether the rules read such a text."""
    try:
        return read(*words) is not None
    except ValueError:
        return False


def is_sound(latest: int, row: Sequence[Any]) -> bool:
    """Whether the cells behind a key's number are those of a key: its dates in their order, of which the last two are
    set where the first is, and what was done to it no later than the latest moment."""
    kind, owner, purpose, state, *dates = row
    initial, activation, stop, end, destroyed, compromised, occurrence = dates
    in_order = activation <= stop <= end < UNSET
    if activation == UNSET:
        in_order = UNSET in (stop, end) or stop <= end
    return (kind in TYPES and NAME.fullmatch(owner) and is_read(field_of, "purpose", purpose)
            and min(dates) >= 0 and max(dates) <= UNSET and in_order
            and initial <= latest and all(date == UNSET or date <= latest for date in (destroyed, compromised))
            and (occurrence == UNSET) == (compromised == UNSET) and occurrence <= compromised
            and state == state_at(latest, activation, end, date_of(destroyed), date_of(compromised)))


def is_kept(latest: int, keys: int, row: Sequence[Any]) -> bool:
    caller, number, command, key, state, moment = row
    is_of_no_key = command == "advance" or command.startswith("set-period ")
    is_reply = key == state == 0 if is_of_no_key else 0 < key <= keys and state in STATES and state != 0
    return (is_reply and is_read(command_of, command) and 0 <= moment <= latest and NAME.fullmatch(caller)
            and 0 < number <= GREATEST_NUMBER)


def opened(file: str) -> sqlite3.Connection:
    """The register in the file, put to its tests."""
    connection = sqlite3.connect(file)
    counts = connection.execute("SELECT * FROM meta ORDER BY id").fetchall()
    expect(len(counts) == 1 and counts[0][:2] == (1, VERSION), "meta")
    _, _, latest, keys = counts[0]
    expect(0 <= latest < UNSET and 0 <= keys <= MOST_KEYS, "meta")
    owners, custodians = list[str](), collections.defaultdict[int, list[str]](list)
    for number, *row in connection.execute("SELECT * FROM keys ORDER BY number"):
        owners.append(row[1])
        expect(number == len(owners) and is_sound(latest, row), f"key {number}")
    expect(len(owners) == keys, "keys")
    for key, name in connection.execute("SELECT * FROM custodian"):
        expect(0 < key <= keys and NAME.fullmatch(name) and name != owners[key - 1], f"custodian of {key}")
        custodians[key].append(name)
        expect(len(custodians[key]) <= MOST_CUSTODIANS[VERSION], f"custodians of {key}")
    for key, name in connection.execute("SELECT * FROM approval"):
        expect(name in custodians[key], f"approval of {key}")
    for row in connection.execute("SELECT * FROM request"):
        expect(is_kept(latest, keys, row), f"request {row[1]} of {row[0]}")
    for kind, originator, recipient in connection.execute("SELECT * FROM period"):
        expect(kind in TYPES and is_in("originator", originator) and is_in("recipient", recipient), f"period of {kind}")
    for key, need in connection.execute("SELECT * FROM quorum"):
        expect(0 < key <= keys and is_in("need", need), f"need of {key}")
    return connection
