#!/usr/bin/env python3
"""Registers of some size, in both versions: every command and every call over them gives what the rules of
office/register_rules.py give. A program that gives up past some number of keys, needs, rows or requests is seen here:
no contract can refuse an end that comes too early.

    checks/program/large_office.py [--rows N]

An office has 150 keys of all types, up to 16 custodians and needs of 2 to 5, and a period set for each type. Its
register is made by the program, and once more from a file of version 1 that SQLite's library wrote. Each is asked
again, exported, reported, served, and read by SQLite. An import gets 20000 rows one by one. Then so many rows as --rows
says, 100000 where nothing is said, are imported at once, and asked at the first and the last keys. A register of more
requests than an advance each minute makes in three years answers. It needs Linux.
"""
import itertools
import pathlib
import sys
from typing import Any

sys.path.insert(1, str(pathlib.Path(__file__).resolve().parents[1] / "shared"))
from answers import get_reply, reply_line
from registers import INDEXES, Life, export_row, keyreg, new_register, sound_rows, words_for
from registers import write_first_version, write_register
from register_rules import PERIODS, Register, line
from rules_shown import DAY, export_text, import_table, report_text, tables
from script import expect, fresh_folder, in_memory, in_order, not_none, options, verdict
from serving import Served, get

KEYS, BEGUN, YEAR = 150, 1_000_000_000, 365 * DAY
# How many rows an import gets one by one, at most, and how many requests a register has at last.
BY_ROWS, REQUESTS = 20_000, 2_000_001
Exchanges = list[tuple[str, str]]


class Office:
    """A register of the rules, with the lines that made it and their replies, each a minute after the last."""

    def __init__(self) -> None:
        self.register, self.moment = Register(), BEGUN
        self.exchanges: Exchanges = []

    def ask(self, caller: str, *command: Any) -> None:
        self.moment += 60
        request = (self.moment, caller, len(self.exchanges) + 1, command)
        reply = reply_line(self.register, *request)
        expect(reply.startswith("ok "), f"the rules say {reply} to {request}")
        self.exchanges.append((line(*request), reply))

    def destroy(self, key: int) -> None:
        """As many approvals as the key needs, and the destruction."""
        for place in range(self.register.keys[key].need):
            self.ask(f"custodian-{place}", "approve", key)
        self.ask(owner(key), "destroy", key)


# ---- the office's requests. What a key goes through depends on the last digit of its number.


def owner(key: int) -> str:
    return f"owner-{key % 8}"


def purpose(key: int) -> str:
    return (f"key {key}", f'"{key}", quoted', f"\u05de\u05e4\u05ea\u05d7 {key}", f"=sum({key})", "x" * 200)[key % 5]


def dates(key: int) -> tuple:
    """An Activation that is past or to come, or none."""
    return {
        1: (BEGUN - YEAR // 2, None, None), 2: (BEGUN + key * DAY, None, None),
        3: (BEGUN - 10 * DAY, BEGUN + 20 * DAY, BEGUN + 20 * DAY),
    }.get(key % 5, (None, None, None))


def first_requests(office: Office) -> None:
    """What version 1 has: no more than 8 custodians of a key, no period and no need."""
    for key, kind in zip(range(1, KEYS + 1), itertools.cycle(PERIODS)):
        office.ask("clerk", "register", kind, owner(key), *dates(key), purpose(key))
    for key in range(1, KEYS + 1):
        for place in range(8 if key % 10 == 0 else 5):
            office.ask(owner(key), "add-custodian", key, f"custodian-{place}")
    for key in range(1, KEYS + 1):
        commands: dict[int, list[tuple]] = {
            1: [("revoke", key, 1, None)], 2: [("set", key, office.moment + YEAR, "=", "="), ("activate", key)],
            3: [("assign", key, f"heir-{key}")], 5: [("set", key, office.moment + YEAR, None, "=")],
            6: [("revoke", key, 6, None)], 7: [("revoke", key, 2, BEGUN - key)], 8: [("revoke", key, 3, None)],
        }
        for command in commands.get(key % 10, []):
            office.ask(owner(key), *command)
        if key % 10 == 5:
            # An approval goes with its custodian, and does not come back with it.
            office.ask("custodian-1", "approve", key)
            office.ask(owner(key), "remove-custodian", key, "custodian-1")
            office.ask(owner(key), "add-custodian", key, "custodian-1")
        if key % 10 in (6, 9):
            office.destroy(key)
    office.ask("zed", "advance")


def later_requests(office: Office) -> None:
    """What version 2 added: a period for each type, needs of 2 to 5, and sixteen custodians."""
    for place, kind in enumerate(PERIODS):
        office.ask("office", "set-period", kind, (3, 1200, 18, 36, 7, 24, 12)[place], (0, 1200, 5, 36, 1, 0, 12)[place])
    for key in range(1, KEYS + 1):
        if key % 10 in (0, 4, 5):
            office.ask(owner(key), "set-quorum", key, 2 + (key // 10 + key) % 4)
        if key % 10 == 4:
            office.destroy(key)
        if key % 10 == 5:
            office.ask("custodian-1", "approve", key)
            office.ask("custodian-1", "withdraw", key)
        if key % 10 == 0:
            for place in range(8, 16):
                office.ask(owner(key), "add-custodian", key, f"custodian-{place}")
            for place in range(16):
                office.ask(f"custodian-{place}", "approve", key)


# ---- what the program makes of it


def look_at_rows(file: pathlib.Path, register: Register, name: str) -> None:
    rows, wanted = sound_rows(file), tables(register)
    for table in wanted:
        in_order(rows[table], wanted[table], f"{name}, table {table}")


def look_at_replies(file: pathlib.Path, exchanges: Exchanges, name: str) -> None:
    lines, replies = zip(*exchanges)
    in_order(keyreg(["run", "--file", file], lines), replies, name)


def look_at_keys(served: Served, register: Register, keys: list[int]) -> None:
    for key, of_usage in itertools.product(keys, (False, True)):
        path = f"/keys/{key}" + "/usage" * of_usage
        reply, wanted = served.raw(get(path)), get_reply(register, key, of_usage)
        expect(reply == wanted, f"GET {path}: {reply!r}, where {wanted!r} is wanted")


def look_at_serve(file: pathlib.Path, register: Register) -> Register:
    """Each key and its usage, then destructions of keys of each need and requests at the last keys, then these keys
    anew; the program ends after the last. The register after it."""
    last = KEYS + 1
    requests: list[tuple[str, int, tuple]] = [(owner(key), 9000 + key, ("destroy", key)) for key in (10, 20, 30, 40)]
    requests += [("zed", 9000, ("register", "master", "zed", None, None, None, "one more")),
                 ("zed", 9001, ("add-custodian", last, "ann")), (owner(KEYS), 9002, ("set-quorum", KEYS, 5)),
                 ("zed", 9003, ("destroy", last + 1))]
    keys, touched = [*range(1, KEYS + 1)], [10, 20, 30, 40, KEYS, last, last + 1]
    with Served(exchanges=len(requests) + 2 * len(keys + touched), file=str(file)) as served:
        look_at_keys(served, register, keys)
        for request in requests:
            _, register = served.answered(register, *request)
        look_at_keys(served, register, touched)
        expect((fault := served.ended()) is None, f"serve: {fault}")
    return register


def look_at_office(file: pathlib.Path, office: Office, name: str) -> None:
    """Everything there is to ask of the whole office in a file."""
    look_at_rows(file, office.register, name)
    look_at_replies(file, office.exchanges, f"{name}, again")
    look_at_rows(file, look_at_serve(file, office.register), f"{name}, served")


def look_at_texts(file: pathlib.Path, register: Register) -> None:
    in_order(keyreg(["export", "--file", file]), export_text(register).splitlines(), "export")
    for days in (0, 400, 36500):
        lines = keyreg(["report", "--file", file, "--days", str(days)])
        in_order(lines, report_text(register, days).splitlines(), f"report for {days} days")


def look_at_versions(folder: pathlib.Path) -> Office:
    """The office made by the program, and from a file of version 1."""
    office, made, first = Office(), folder / "made", folder / "first"
    first_requests(office)
    write_first_version(first, INDEXES, tables(office.register))
    count = len(office.exchanges)
    later_requests(office)
    look_at_replies(first, office.exchanges[count:], "version 1, run")
    look_at_office(first, office, "version 1")
    new_register(made)
    look_at_replies(made, office.exchanges, "version 2, run")
    look_at_texts(made, office.register)
    look_at_office(made, office, "version 2")
    return office


IMPORTER = {"moment": "100", "caller": "importer", "first": "1"}


def look_at_import_by_rows(file: pathlib.Path, count: int) -> None:
    """An import of so many rows, each of which comes once the one before it was answered; purposes of each length."""
    new_register(file)
    purposes = ["x" * (1 + place % 200) for place in range(count)]
    header, *rows = import_table([("master", "bob", None, None, None, purpose) for purpose in purposes]).splitlines()
    wanted = [f"ok {place} Pre-Active 100" for place in range(1, count + 1)]
    with Life(file, words_for("import", file, **IMPORTER)) as life:
        not_none(life.stdin).write(f"{header}\n".encode())
        in_order(map(life.reply, rows), wanted, f"{count} rows, one by one")
    expect(life.returncode == 0, f"an import row by row: status {life.returncode}")
    exported = [",".join(export_row(number=number, state="Pre-Active", purpose=purpose))
                for number, purpose in enumerate(purposes, 1)]
    in_order(keyreg(["export", "--file", file])[1:], exported, "the export of purposes of each length")


def look_at_import(file: pathlib.Path, count: int, keys: int) -> None:
    """One import of so many rows, of which so many are keys, the last one among them."""
    new_register(file)
    types = itertools.chain(["master"] * (keys - 1), ["monster"] * (count - keys), ["master"])
    table = import_table([(kind, "bob", None, None, None, f"key {place}") for place, kind in enumerate(types, 1)])
    wanted = [f"ok {place} Pre-Active 100" for place in range(1, keys + 1)]
    wanted[-1:-1] = ["refused 1 BadLine"] * (count - keys)
    in_order(keyreg(words_for("import", file, **IMPORTER), table.splitlines()), wanted, f"{count} rows")
    lines = keyreg(["export", "--file", file])
    is_whole = len(lines) == keys + 1 and lines[-1].startswith(f"{keys},master,bob,")
    expect(is_whole, f"an export of {len(lines)} lines, {lines[-1]}")


def look_at_far_keys(file: pathlib.Path, count: int) -> None:
    """Requests, keys and usages at the first key of an import of so many, at the last ones, and about the 65536th. A
    report has keys that stand near those."""
    register, exchanges = Register(), Exchanges()
    for key in range(1, count + 1):
        reply_line(register, 100, "importer", key, ("register", "master", "bob", None, None, None, f"key {key}"))
    keys = sorted({1, *(key for key in (65535, 65536, 65537) if key < count), count - 1, count, count + 1})
    due = [key - 8 for key in keys[1:-1]]
    for key in due:
        for command in (("activate", key), ("set", key, "=", 5000, 5000)):
            request = (200, "bob", 1 + len(exchanges), command)
            exchanges.append((line(*request), reply_line(register, *request)))
    for key in keys:
        commands: list[tuple] = [
                ("bob", "set-quorum", key, 2), ("bob", "add-custodian", key, "ann"),
                ("bob", "add-custodian", key, "cy"), ("bob", "activate", key), ("bob", "revoke", key, 1, None),
                ("ann", "approve", key), ("cy", "approve", key), ("bob", "destroy", key)]
        for caller, *words in commands:
            place = len(exchanges)
            request = (200 + place, caller, 1 + place, tuple(words))
            exchanges.append((line(*request), reply_line(register, *request)))
    expect(all(reply.startswith("ok ") for _, reply in exchanges[:-8]), f"the rules say {exchanges}")
    look_at_replies(file, exchanges, f"keys {keys}")
    report = keyreg(["report", "--file", file, "--days", "1"])
    in_order(report, report_text(register, 1).splitlines(), f"report of keys {due}")
    expect(report[-1] == f"total {len(due)}", f"the rules report {report}")
    with Served(exchanges=2 * len(keys), file=str(file)) as served:
        look_at_keys(served, register, keys)
        expect((fault := served.ended()) is None, f"serve: {fault}")


def look_at_many_requests(file: pathlib.Path) -> None:
    """The first and the last of so many requests come again, and one more is accepted."""
    write_register(file, 100, 0, request=(("zed", number, "advance", 0, 0, 100) for number in range(1, REQUESTS + 1)))
    look_at_replies(file, [("100 zed 1 advance", "ok 0 - 100"), (f"100 zed {REQUESTS} advance", "ok 0 - 100"),
                           (f"101 zed {REQUESTS + 1} advance", "ok 0 - 101")], f"{REQUESTS} requests")


def main() -> None:
    count = options(__doc__, rows=100_000).rows
    with fresh_folder(memory=2**28) as folder:
        office = look_at_versions(folder)
        # Where a sync costs time fewer rows are keys.
        keys, file = count if in_memory(2**27) else min(count, 3000), folder / "rows"
        look_at_import_by_rows(folder / "one_by_one", min(count, keys, BY_ROWS))
        look_at_import(file, count, keys)
        look_at_far_keys(file, keys)
        look_at_many_requests(folder / "many_requests")
    needs = {key.need for key in office.register.keys.values() if key.destroyed is not None}
    expect(needs == {2, 3, 4, 5}, f"destroyed keys have needs of {needs}")
    verdict(f"{len(office.exchanges)} requests over {KEYS} keys in both versions, an import of {count} rows, "
            f"{REQUESTS} requests: all by the rules")


main()
