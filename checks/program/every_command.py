#!/usr/bin/env python3
"""The day of samples/every_command.txt has each command, accepted, and whoever goes through a day goes through it.

    checks/program/every_command.py

- Each line has the reply that stands beside it in samples/every_command.tsv, also when the day is sent again: by the
  rules of office/register_rules.py, and by the program. So has the short day, and each table by itself.
- Each command of docs/SPECIFICATION.md is accepted in it, in the short day and in each table; a revocation for
  compromise and another one count as two.
- The tables in the tests of crates are its lines, as they are without the others: keys and the requests of each caller
  count from 1. The steps of the database that a test expects of each line are those of the rule that stands there in
  words.

Where the program is not built it is not asked, which is a fault too: ./keyreg </dev/null builds it.
"""
import os
import pathlib
import re
import sys
from difflib import unified_diff
from typing import Iterator, Optional

sys.path.insert(1, str(pathlib.Path(__file__).resolve().parents[1] / "shared"))
from places import PROGRAM, read
from answers import reply_line
from command_day import DAY, SHORT, Asked, alone
from registers import keyreg
from register_rules import COMMANDS, COMPROMISES, Key, Register
from script import options, verdict

HAS_PROGRAM = os.access(PROGRAM, os.X_OK)
STEPS, TRIALS = (f"crates/test_{name}.rt" for name in ("desk_trials/src/steps", "fault_trials/src/requests"))
# The commands of the document's table of texts, and a revocation for compromise, which is a kind by itself.
TEXTS = read("docs/SPECIFICATION.md").split("| Command's text |\n|---|\n")[1].split("\n\n")[0]
FOR_COMPROMISE = "revoke for compromise"
KINDS = {*re.findall(r"^\| `([a-z-]+)", TEXTS, re.M), FOR_COMPROMISE}
# The commands whose refusals look at a key's custodians and approvals; those that look at the need of approvals too;
# and those that change one of these lists.
LOOKS = {"assign", "add-custodian", "remove-custodian", "approve", "withdraw", "destroy"}
NEEDS = {"destroy"}
CHANGES = {"add-custodian", "remove-custodian", "approve", "withdraw"}
# What else is looked up in the tables of needs and periods, or written there.
MORE_STEPS = {"set-quorum": 2, "set-period": 2, "register": 2, "activate": 1, "set": 1}


def day_faults(name: str, day: list[Asked]) -> Iterator[str]:
    """Where the rules or the program answer otherwise than stands there, or otherwise when the day is sent again, and
    which commands the day has not."""
    register, twice = Register(), day * 2
    answers = {"the rules": [reply_line(register, *asked.request[:4]) for asked in twice]}
    if HAS_PROGRAM:
        answers["the program"] = keyreg([], [asked.text for asked in twice])
    for who, replies in answers.items():
        yield from (f"{name}: {asked.text}: {asked.reply!r} stands beside it, and {who} say {reply!r}"
                    for asked, reply in zip(twice, replies, strict=True) if reply != asked.reply)
    requests = [asked.request for asked in day]
    accepted = {FOR_COMPROMISE if request.word == "revoke" and request.values[0] in COMPROMISES else request.word
                for request in requests}
    yield from (f"{name}: no {kind} is accepted" for kind in sorted(KINDS - accepted))
    yield from (f"{name}: {asked.text}: it is refused" for asked in day if not asked.reply.startswith("ok "))


def table_faults(path: str, day: list[Asked]) -> Iterator[str]:
    """Where the table of texts DAY in a crate's source differs from the lines and their replies."""
    table = re.search(r"\bDAY: [^\n]*\[\n(.*?)\n\];", read(path), re.S)
    rows = [re.findall(r'"((?:[^"\\]|\\.)*)"', row) for row in table[1].split("\n")] if table else []
    wanted = [[asked.text, asked.reply] for asked in day]
    yield from unified_diff([*map(str, rows)], [*map(str, wanted)], path, "the day", lineterm="", n=0)


def steps_of(asked: Asked, key: Optional[Key], latest: int) -> int:
    """How many steps of the database an accepted line takes, by the key and the latest moment before it. No period of a
    type is set."""
    word = asked.request.word
    # A search for what is kept, a transaction, the updates of due keys where time has passed, the rows of the request
    # and of meta.
    steps = 1 + 2 + 2 * (asked.request.moment > latest) + 2
    if key:
        steps += 2 + 1
    if key and word in LOOKS:
        steps += 1 + len(key.custodians) + 1 + len(key.approvals)
    if key and word in NEEDS:
        steps += 1 + key.has_set_need
    return steps + (word in CHANGES) + MORE_STEPS.get(word, 0)


def step_faults(day: list[Asked]) -> Iterator[str]:
    counts = dict(re.findall(r'^ +\("([^"]+)", "[^"]+", (\d+)\),$', read(STEPS), re.M))
    register = Register()
    for asked in day:
        named = asked.request.named
        wanted = steps_of(asked, register.keys.get(named) if named else None, register.latest)
        reply_line(register, *asked.request[:4])
        if counts.get(asked.text) != str(wanted):
            yield f"{STEPS}: {asked.text}: {counts.get(asked.text)} stands there, and by the rule it takes {wanted}"


def main() -> None:
    options(__doc__)
    steps, trials = alone("steps"), alone("requests")
    days = {"the day": DAY, "the short day": SHORT, "steps": steps, "requests": trials}
    faults = [fault for name, day in days.items() for fault in day_faults(name, day)]
    faults += [f"office/register_rules.py: {word} is a command there or in the document alone"
               for word in sorted(set(COMMANDS) ^ (KINDS - {FOR_COMPROMISE}))]
    faults += [*table_faults(STEPS, steps), *table_faults(TRIALS, trials), *step_faults(steps)]
    faults += [] if HAS_PROGRAM else [f"no program at {PROGRAM}, so it was not asked: ./keyreg </dev/null builds it"]
    verdict(f"{len(DAY)} lines with {len(KINDS)} kinds of request, of which tables of crates have {len(steps)} and "
            f"{len(trials)}: {len(faults)} faults", faults)


main()
