"""The day on which each command is accepted: the request lines of samples/every_command.txt, and what stands beside
each in samples/every_command.tsv, row by row. That is its reply, and the name of the file in which a crate's test has
it as a table: `steps` of test_desk_trials, `requests` of test_fault_trials, or `-` for none.

The lines of `requests` are about keys that time moves, moments apart. The others, SHORT, are a day by themselves.
"""
import collections
from typing import NamedTuple

from places import SAMPLES
from register_rules import Request, line, request_of
from script import expect

LINES, BESIDE = SAMPLES / "every_command.txt", SAMPLES / "every_command.tsv"


class Asked(NamedTuple):
    """A line of the day with its reply, and the table that has it."""
    request: Request
    reply: str
    table: str

    @property
    def text(self) -> str:
        return line(*self.request)


def read() -> list[Asked]:
    lines = LINES.read_text(encoding="utf-8").splitlines()
    head, *rows = (row.split("\t") for row in BESIDE.read_text(encoding="utf-8").splitlines())
    expect(head == ["reply", "table"] and len(rows) == len(lines),
           f"{len(lines)} lines of the day, and {len(rows)} rows beside them, of {head}")
    return [Asked(request_of(text), *row) for text, row in zip(lines, rows)]


DAY = read()
SHORT = [asked for asked in DAY if asked.table != "requests"]


def alone(table: str) -> list[Asked]:
    """The lines of a table as they are without the others: keys, and the requests of each caller, count from 1."""
    keys, numbers, lines = dict[int, int](), collections.Counter[str](), list[Asked]()
    for request, reply, of_table in DAY:
        if of_table != table:
            continue
        numbers[request.caller] += 1
        words, command = reply.split(" "), request.command
        key_no = int(words[1])
        if request.word == "register":
            keys[key_no] = len(keys) + 1
        elif request.named:
            command = (request.word, keys.get(key_no, key_no), *request.values)
        words[1] = str(keys.get(key_no, 0))
        lines.append(Asked(request._replace(number=numbers[request.caller], command=command), " ".join(words), table))
    return lines
