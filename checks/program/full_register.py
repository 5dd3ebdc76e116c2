#!/usr/bin/env python3
"""A register of 1000000 keys, which is full, and of more requests than that: it opens, its export and its report have
every key, its first and last request are answered again, the last key takes a request, and a further registration is
refused 20, over HTTP too.

    checks/program/full_register.py [--keys N]

With fewer keys a further registration is accepted. SQLite's own library writes the file, by the formats of
docs/SPECIFICATION.md.
"""
import itertools
import pathlib
import sys

sys.path.insert(1, str(pathlib.Path(__file__).resolve().parents[1] / "shared"))
from answers import refusal_reply
from registers import EXPORT_COLUMNS, UNSET, expect_replies, export_row, keyreg, write_register
from register_rules import MOST_KEYS
from script import expect, fresh_folder, in_order, options, verdict
from serving import Served, post_command

# Advances after the registrations, of another caller.
MORE = 100
# Every key is a data encryption key with these dates, Active since it was registered at second 100.
ACTIVATION, PROTECT_STOP, DEACTIVATION, REGISTERED = 0, 5000, 6000, 100
STOPS = "1970-01-01T01:23:20Z"
COMMAND = f"register data-encryption bob {ACTIVATION} {PROTECT_STOP} {DEACTIVATION} disks"


def exported(number: int) -> str:
    return ",".join(export_row(number=number, type="data-encryption", activation="1970-01-01T00:00:00Z",
                               protect_stop=STOPS, deactivation="1970-01-01T01:40:00Z", purpose="disks"))


def main() -> None:
    keys = options(__doc__, keys=MOST_KEYS).keys
    numbers, dates = range(1, keys + 1), (REGISTERED, ACTIVATION, PROTECT_STOP, DEACTIVATION, UNSET, UNSET, UNSET)
    with fresh_folder(memory=2**31) as folder:
        file = folder / "office.keyreg"
        write_register(file, REGISTERED, keys, keys=((number, 1, "bob", "disks", 2, *dates) for number in numbers),
                       request=itertools.chain(
                           (("ann", number, COMMAND, number, 2, REGISTERED) for number in numbers),
                           (("zed", number, "advance", 0, 0, REGISTERED) for number in range(1, MORE + 1))))
        in_order(keyreg(["export", "--file", file]), [",".join(EXPORT_COLUMNS), *map(exported, numbers)], "the export")
        due = (f"{number:7}  {STOPS}  due      {'data-encryption':22}  bob  disks" for number in numbers)
        in_order(keyreg(["report", "--file", file, "--days", "1"]),
                 ["Keys due for rotation by 1970-01-02T00:01:40Z", *due, f"total {keys}"], "the report")
        expect_replies(file, [
            (f"100 ann 1 {COMMAND}", "ok 1 Active 100"),
            (f"100 ann {keys} {COMMAND}", f"ok {keys} Active 100"),
            (f"100 zed {MORE} advance", "ok 0 - 100"),
            (f"100 eve 1 {COMMAND}", "refused 20 Full" if keys == MOST_KEYS else f"ok {keys + 1} Active 100"),
            (f"200 bob 1 assign {keys} fay", f"ok {keys} Active 200"),
        ])
        with Served(file=str(file)) as served:
            reply = served.raw(post_command("eve", 2, ("register", "master", "bob", None, None, None, "disks")))
            is_right = reply == refusal_reply(20) if keys == MOST_KEYS else reply.startswith(b"HTTP/1.1 200 ")
            expect(is_right, f"over HTTP one key more gets {reply!r}")
    verdict(f"a register of {keys} keys opens, is exported and reported whole, and answers")


main()
