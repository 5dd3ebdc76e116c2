#!/usr/bin/env python3
"""The rules that the desk in the browser knows, desk/rules.js, are those of docs/SPECIFICATION.md and of
office/register_rules.py. The tables of both are compared with the document's. Then N requests are drawn, of all
commands in states that requests before them made, and each is judged under node with what a page would know: the
judgement, and the key afterwards, have to be those of office/register_rules.py.

    checks/desk/rules.py [--requests N]

It needs node 18 or later (Debian's `nodejs`).
"""
import collections
import itertools
import json
import pathlib
import random
import re
import sys
from typing import Any, Iterator, Optional, Sequence

sys.path.insert(1, str(pathlib.Path(__file__).resolve().parents[1] / "shared"))
from places import DESK, read
from answers import MEMBERS, request_object, shown, usage
from drawn_registers import DAY, PEOPLE, drawn_command
from register_rules import (
    COMMANDS, FOR_COMPROMISE, LAST, OFFICE, PERIODS, RANGES, REFUSALS, STATES, Refused, Register, Request, moment_of)
from script import expect, fresh_folder, not_none, options, output_of, verdict

FIRST = 1_700_000_000
# The last days of months, of leap years too: a month more has no such day often.
MONTH_ENDS = [moment_of(f"{year}-{day}T23:59:59Z") for year in range(2023, 2033)
              for day in ("01-31", "02-29", "03-31", "05-30", "08-29", "12-31") if day != "02-29" or year % 4 == 0]
# What node runs: the tables, then for each line of a request a line with its judgement.
JUDGE = """
import {createInterface} from "node:readline";
import * as rules from "./rules.mjs";
console.log(JSON.stringify(rules));
for await (const line of createInterface({input: process.stdin})) {
  const {command, key, ...known} = JSON.parse(line);
  const judged = rules.judged(command, {key, ...known}) ?? null;
  const shown = key && {state: rules.stateAt(key, known.moment), usage: rules.usageAt(key, known.moment)};
  console.log(JSON.stringify({judged, shown}));
}
"""


def node(cases: list[dict[str, Any]]) -> list[Any]:
    """What node writes: the tables, and a judgement of each command with what a page knows."""
    with fresh_folder() as folder:
        (folder / "rules.mjs").write_bytes((DESK / "rules.js").read_bytes())
        (folder / "judge.mjs").write_text(JUDGE, encoding="ascii")
        written = output_of(["node", folder / "judge.mjs"], input="".join(f"{json.dumps(case)}\n" for case in cases))
    return [json.loads(row) for row in written.split("\n") if row]


# ---- the tables of the document

def rows_under(text: str, head: str) -> Iterator[list[str]]:
    """The cells of the rows of the table whose head row begins so."""
    rows = text[text.index(f"\n{head}") + 1:].split("\n")[2:]
    return ([cell.strip() for cell in row.strip("|").split("|")]
            for row in itertools.takewhile(lambda row: row.startswith("|"), rows))


def states_of(cell: str, all_states: list[str]) -> Optional[list[str]]:
    """The states of a cell of the table of commands; None where it names none."""
    named = [name for name in re.split(", | and ", re.sub("^all( but )?", "", cell)) if name]
    expect(set(named) <= set(all_states), f"states {cell!r}")
    return [state for state in all_states if (state in named) != cell.startswith("all")] if cell else None


def commands_of(text: str, all_states: list[str]) -> Iterator[tuple[str, dict[str, Any]]]:
    """Who may give each command and in which states, by the desk's words for them."""
    for name, who, states, *_ in rows_under(text, "| Command | Who | States |"):
        word = name.split(":")[0].lower().replace(" ", "-")
        word = {"set-dates": "set"}.get(word, word) + " for compromise" * ("for compromise" in name)
        yield word, {"who": who.split()[-1], "states": states_of(states, all_states)}


def tables_of(text: str) -> dict[str, dict[Any, Any]]:
    """The tables of the document, by the desk's names for them."""
    states = re.findall("`([^`]*)`", not_none(re.search(r"The states are (.*?`) \(the", text, re.DOTALL))[1])
    reasons = not_none(re.search(r"Revocation Reason: (.*?)\.\s", text, re.DOTALL))[1]
    later = not_none(re.search(r"custodians in it\. It has (?:neither|none of) (.*?), so each", text, re.DOTALL))[1]
    later = {"-".join(name.lower().split()) for name in re.split(r",\s|\s(?:nor|and)\s", later)}
    commands = dict(commands_of(text, states))
    for kinds, members in rows_under(text, "| `kind` | The other members |"):
        for kind in re.findall('`"([^"]*)"`', kinds):
            commands.setdefault(kind, {})["members"] = sorted(set(re.findall("`([a-z_]*)`", members)))
    return {
        "STATES": dict(enumerate(states)),
        "PERIODS": {kind: [int(first), int(last)] for kinds, first, last in
                    rows_under(text, "| Key type | Originator months |") for kind in re.findall("`([^`]*)`", kinds)},
        "REFUSALS": {number: name.strip("`") for number, name, *_ in rows_under(text, "| No. | Name | Where |")},
        "REASONS": {number: " ".join(name.split())
                    for number, name in re.findall(r"(\d)\s+([A-Z][A-Za-z\s]*?)(?:,|$)", reasons)},
        "COMMANDS": commands, "SINCE": {word: 1 + (word in later) for word in {*commands, *later}},
        "RANGES": {"date": [0, LAST]} | {
            field: [*map(int, not_none(re.search(rf"{words}\s+from\s+(\d+)\s+to\s+(\d+)", text)).groups())]
            for field, words in (
                ("key", "A key is a number"), ("need", "a need one"), ("reason", "a reason one"),
                ("originator", "originator months are a number"), ("recipient", "recipient months one"))},
    }


def tables_of_rules() -> dict[str, dict[Any, Any]]:
    """The same of office/register_rules.py and checks/shared/answers.py, which have no reasons."""
    rows = {**COMMANDS, "revoke for compromise": FOR_COMPROMISE}
    commands = {word: {"who": row.who, "states": [STATES[state] for state in row.states] or None}
                for word, row in rows.items()}
    for word, members in MEMBERS.items():
        commands[word]["members"] = sorted(members)
    return {
        "STATES": dict(enumerate(STATES[1:])),
        "PERIODS": {kind: [*months] for kind, months in PERIODS.items()},
        "REFUSALS": {str(number): name for number, name in enumerate(REFUSALS, 1)},
        "COMMANDS": commands, "SINCE": {word: row.since for word, row in rows.items()},
        "RANGES": {field: [*ends] for field, ends in RANGES.items() if field not in ("edit", "number")},
    }


def look_at_tables(of_desk: dict[str, Any]) -> int:
    """Compares the tables of desk/rules.js and of the rules with the document's; how many there are."""
    text = read("docs/SPECIFICATION.md")
    of_document, of_rules = tables_of(text), tables_of_rules()
    of_desk["STATES"] = dict(enumerate(of_desk["STATES"]))
    for command in of_desk["COMMANDS"].values():
        command |= {"members": sorted(command["members"])} if "members" in command else {}
    faults = [f"{name} of {whose}, {row}: {tables[name].get(row)}, and of the document {table.get(row)}"
              for whose, tables in (("desk/rules.js", of_desk), ("the rules", of_rules))
              for name, table in of_document.items() if name in tables
              for row in {**table, **tables[name]} if tables[name].get(row) != table.get(row)]
    expect(not faults, "\n".join(faults))
    for name, value, words in (("LAST_MOMENT", LAST, str(LAST)), ("GREATEST_NUMBER", 2**53 - 1, str(2**53 - 1)),
                               ("MOST_KEYS", 10**6, str(10**6)), ("MOST_CUSTODIANS", 16, "up to 16 *custodians*")):
        expect(of_desk[name] == value and words in text, f"{name} is {of_desk[name]}, and not {value}")
    return len(of_document)


# ---- drawn requests

def command_at(chance: random.Random, moment: int, keys: int) -> tuple:
    """A command of any kind, with dates about the moment and now and then at the ends of the range."""
    def date() -> Optional[int]:
        near = [None, moment + chance.randrange(-900, 1900) * DAY, moment + chance.randrange(-9, 9)]
        far = [0, LAST, LAST - chance.randrange(5 * 366 * DAY)]
        ranges: list[Sequence[Optional[int]]] = [near, MONTH_ENDS, far]
        return chance.choice(chance.choices(ranges, [75, 19, 6])[0])

    key, name = chance.randint(1, keys + 1 if chance.random() < 0.05 else max(keys, 1)), chance.choice(PEOPLE)
    kind = chance.choice(list(PERIODS))
    occurrence = chance.choice([None, moment - chance.randrange(9 * DAY), moment + chance.randrange(-1, 3)])
    if chance.random() < 0.02:
        name = chance.choice(["x" * 64, f"more-{chance.randrange(20)}"])
    if chance.random() < 0.01:
        return ("register", kind, name, LAST - chance.randrange(3 * 366 * DAY), None, None, "late")
    return drawn_command(chance, date, occurrence, key, name, kind, f"key {chance.randrange(10**6)}")


def drawn(chance: random.Random, count: int) -> Iterator[tuple[Register, Request]]:
    """Requests with the register that they find; each register is left after it has some keys."""
    register, moment = Register(), FIRST
    for number in range(1, count + 1):
        if len(register.keys) >= 60:
            register, moment = Register(), FIRST
        moment += chance.choice([0, 0, 1, 60, DAY, 30 * DAY, -1])
        # Now and then one that is just reached, of any date of a key.
        dates = [(date, place) for place, key in list(register.keys.items())[-9:]
                 for date in (key.activation, key.stop, key.end)
                 if date is not None and register.latest <= date < register.latest + 999 * DAY]
        command = command_at(chance, moment, len(register.keys))
        if dates and chance.random() < 0.2:
            moment, place = chance.choice(dates)
            command = chance.choice([command, ("set", place, "=", chance.choice([None, moment + DAY]), "="),
                                     ("approve", place), ("destroy", place)])
        caller, who = chance.choice(PEOPLE), COMMANDS[command[0]].who
        # Most come from somebody who may send them.
        named = Request(moment, caller, number, command).named
        key = register.keys.get(named) if named else None
        if who == "office" and chance.random() < 0.7:
            caller = OFFICE
        elif key and chance.random() < 0.75:
            people = sorted(key.custodians) if who == "custodian" else [key.owner]
            caller = chance.choice(people or [caller])
        yield register, Request(moment, caller, number, command)


def judged(register: Register, request: Request) -> tuple[dict[str, Any], dict[str, Any]]:
    """The command with what a page knows, and what the rules say, in the desk's words; what they accept is done."""
    named = request.named if request.named in register.keys else None
    wanted: dict[str, Any] = {"shown": None}
    known = {"command": request_object(request.command), "caller": request.caller, "moment": request.moment,
             "latest": register.latest, "key": shown(register, named) if named else None, "count": len(register.keys),
             "periods": {kind: months for kind, months in register.set_periods.items() if months != PERIODS[kind]}}
    if named:
        latest, register.latest = register.latest, request.moment
        wanted["shown"] = {"state": STATES[register.keys[named].state(request.moment)], "usage": usage(register, named)}
        register.latest = latest
    try:
        number = register.answer(request).key_no
    except Refused as refused:
        return known, {"judged": {"refused": refused.number, "name": refused.name, **refused.details}, **wanted}
    after = shown(register, number) if number else None
    if after and request.word == "register":
        del after["number"]
    return known, {"judged": {"key": after}, **wanted}


def main() -> None:
    given, counts = options(__doc__, requests=10_000, seed=69), collections.Counter[str]()
    count = look_at_tables(*node([]))
    cases = [judged(*found) for found in drawn(random.Random(given.seed), given.requests)]
    _, *judgements = node([known for known, _ in cases])
    for (known, wanted), judgement in zip(cases, judgements, strict=True):
        expect(judgement == wanted, f"{json.dumps(known)}\n  is judged\n{judgement}\n  and the rules say\n{wanted}")
        counts[wanted["judged"].get("name", "accepted")] += 1
    print(", ".join(f"{name} {times}" for name, times in counts.most_common()))
    expect(counts["accepted"] > given.requests / 5, f"only {counts['accepted']} were accepted")
    # A page never judges that a number was used; and the ranges, a full register and the seventeenth name are rare.
    never = set(REFUSALS) - set(counts) - {"BadLine", "RequestReused", "Full", "TooManyCustodians"}
    expect(not never, f"never drawn were {never}")
    verdict(f"desk/rules.js: {count} tables are the document's; {len(cases)} judgements agree")


main()
