#!/usr/bin/env python3
"""What is due, by office/due.py and office/tell.py, over a register with hostile purposes and names: the calendars,
read by Debian's vobject, have the keys and the moments of `keyreg report`, under UIDs that stay; the mails, read by
Python's email with its default policy, go to whom the office's table names, and say what is due and what waits. A
sendmail gets each once, and no other program is started. Each unit names the one that tells that it failed.

    checks/office/due_tried.py

It needs Debian's python3-vobject and strace.
"""
import email
import email.policy
import json
import os
import pathlib
import re
import sys
import time
from datetime import datetime, timedelta, timezone
from typing import Any, NamedTuple, Sequence

sys.path.insert(1, str(pathlib.Path(__file__).resolve().parents[1] / "shared"))
# Debian's package is of the system's Python; another one finds it here.
sys.path.append("/usr/lib/python3/dist-packages")
from vobject.base import readOne
from places import UNITS
from registers import File, copy_files, keyreg, new_register, run_program
from script import expect, fresh_folder, output_of, verdict
from tools import run_tool, words_of

DAY, DAYS, ALARMS = 86400, 60, (30, 7)
# Purposes, each with how it has to be seen.
PURPOSES = [(text, text) for text in (
    "payroll disks, site A; vault\\2", "=?utf-8?q?Bcc=3A_eve=40example?=", "Bcc: eve@office.example", "END:VEVENT",
    '"quoted" \'twice\' \\n \\, \\;', "ü" * 100, "€" * 66, "🔑" * 50, "a" + "🔑" * 49, "x" * 200, ".", "-",
    "From me",
    "$(touch canary)", "`touch canary`; touch canary | touch canary", "=1+1", "%0d%0aBcc: eve@office.example")] + [
    ("a\u202eb", "a\\u202eb"), ("a\u2028Bcc: b\u0085c", "a\\u2028Bcc: b\\u0085c"), ("\ufeffd", "\\ufeffd")]
OWNERS = ("bob", "..", "-oX", "all", "Bcc", "x" * 64, "ann@office.example")
# Rows of the table of addresses that are none, and the names that have some.
WRONG = ('bob,"a@office.example\nBcc: eve@office.example"', "bob,nobody", "bob,ü@office.example",
         "b b,b@office.example", "bob", "bob,", "bob,a@office.example (c)", '"bob","a@office.example, eve@office.example"')
TABLE = {"bob": ["bob@office.example", "second@office.example"], "..": ["-oQ@office.example"], "all": ["a@b.example"],
         "cat": ["cat@office.example"], "zed": ["zed@office.example"], "x" * 64: ["x@office.example"]}
HEADERS = ["From", "To", "Date", "Message-ID", "Auto-Submitted", "Subject", "Content-Type", "Content-Transfer-Encoding",
           "MIME-Version"]
SENDMAIL = """#!{python}
import json, sys
with open({log!r}, "a", encoding="utf-8") as log:
    print(json.dumps([sys.argv[1:], sys.stdin.buffer.read().decode("ascii")]), file=log)
sys.exit(75 * ("cat@office.example" in sys.argv))
"""
SYSTEMCTL = """#!{python}
import sys
print(sys.argv[-1], "has failed: Bcc: eve@office.example\\n.", flush=True)
sys.stdout.buffer.write(b"\\xff $(touch canary)\\n")
sys.exit(3)
"""
FAILURE = "keyreg-list.service has failed: Bcc: eve@office.example\n.\n\ufffd $(touch canary)\n"


class Row(NamedTuple):
    """A line of a report."""
    stop: datetime
    mark: str
    kind: str
    owner: str
    purpose: str


def reported(file: File) -> dict[int, Row]:
    """What `keyreg report` says of a copy, by key. Purposes stand as they have to be seen."""
    words = ["report", "--file", copy_files(file, f"{file}-report"), "--days", str(DAYS)]
    rows, seen = {}, dict(PURPOSES)
    for line in run_program(words).stdout.decode().split("\n")[1:-2]:
        number, stop, mark, kind, rest = line[:7], line[9:29], line[31:38], line[40:62], line[64:]
        owner, purpose = rest.split("  ", 1)
        at = datetime.strptime(stop, "%Y-%m-%dT%H:%M:%SZ").replace(tzinfo=timezone.utc)
        rows[int(number)] = Row(at, mark.strip(), kind.strip(), owner, seen.get(purpose, purpose))
    return rows


def registered(file: File, before: Sequence[str] = ()) -> int:
    """A register of keys that are due, overdue, long and none of these, of whose destructions one was begun and one is
    approved; its latest moment."""
    now = int(time.time())
    lines = [f"{now} intake {place} register data-encryption {OWNERS[place % len(OWNERS)]} {now - 90 * DAY} "
             f"{now + (place - 5) * 4 * DAY} - {purpose}" for place, (purpose, _) in enumerate(PURPOSES, 1)]
    lines += [f"{now} intake {place} register {kind} bob {dates} {purpose}" for place, kind, dates, purpose in (
        (101, "master", f"{now - DAY} {now + 300 * DAY} -", "long"),
        (102, "authentication", f"{now - DAY} {now + 61 * DAY} -", "not yet"), (103, "master", "- - -", "begun"),
        (104, "master", "- - -", "approved"))]
    lines.append(f"{now} office 1 set-period master 6 0")
    begun, approved = len(PURPOSES) + 3, len(PURPOSES) + 4
    lines += [f"{now} bob {place} add-custodian {key} {name}" for place, (key, name) in enumerate(
        [(begun, "cat"), (begun, "dan"), (approved, "cat"), (approved, "dan")], 1)]
    lines += [f"{now} {name} {key} approve {key}" for name, key in (
        ("dan", begun), ("cat", approved), ("dan", approved))]
    expect(all(reply.startswith("ok ") for reply in new_register(file, [*before, *lines])), "a line is refused")
    return now


# ---- calendars


def told(folder: pathlib.Path, file: File, *words: Any, status: int = 0) -> list[str]:
    done = run_tool("due", file, folder / "due", "--days", DAYS, *words, cwd=folder)
    expect(done.returncode == status, f"due {words}: {done}, not {status}")
    return done.stdout.decode().splitlines()


def events(path: pathlib.Path) -> dict[int, Any]:
    """The events of a calendar by the number of their key. Its lines are of RFC 5545."""
    lines = path.read_bytes().split(b"\r\n")
    expect(lines.pop() == b"" and all(len(line) <= 75 and not re.search(rb"[\r\n]", line) and line.decode()
                                      for line in lines), f"{path.name}: its lines")
    calendar = readOne(path.read_text("utf-8"))
    expect(calendar.validate(), f"{path.name} is no calendar")
    by_key = {int(event.uid.value.split("-")[1]): event for event in calendar.vevent_list}
    expect(len(by_key) == len(calendar.vevent_list), f"{path.name} has a key twice")
    return by_key


def compared(folder: pathlib.Path, file: File, alarms: tuple[int, ...]) -> dict[int, str]:
    """The calendars have what the report says, each owner's its own; the UID of each key."""
    rows, every = reported(file), events(folder / "due/all.ics")
    expect(every.keys() == rows.keys(), f"in the calendar are {sorted(every)}, and reported {sorted(rows)}")
    of_owner = {path.name[:-4]: events(path) for path in (folder / "due/owners").iterdir()}
    expect(of_owner.keys() == {row.owner for row in rows.values()}, f"calendars have {sorted(of_owner)}")
    for number, row in rows.items():
        for event in (every[number], of_owner[row.owner][number]):
            summary = event.summary.value
            expect(event.dtstart.value == row.stop and event.categories.value == [row.mark],
                   f"key {number}: {event}, not {row}")
            expect(summary.startswith(f"Key {number} of {row.owner} ") and summary.endswith(f": {row.purpose}"),
                   f"key {number}, {row}, is {summary!r}")
            rings = [alarm.trigger.value for alarm in event.contents.get("valarm", [])]
            expect(rings == [timedelta(days=-days) for days in alarms], f"key {number} rings {rings}")
    expect(sum(map(len, of_owner.values())) == len(rows), "an owner has another one's key")
    return {number: event.uid.value for number, event in every.items()}


def days_pass(folder: pathlib.Path, file: File, now: int) -> int:
    """Requests change what is due: calendars follow, under the UIDs of before; how many keys were due."""
    told(folder, file)
    before, marks = compared(folder, file, ()), {row.mark for row in reported(file).values()}
    expect(marks == {"due", "overdue", "long"}, f"reported are {marks}")
    owner = OWNERS[1]
    lines = [f"{now + DAY} clock.job 1 advance", f"{now + DAY} {OWNERS[2]} 1 set 16 = {now + 50 * DAY} ="]
    lines += [f"{now + DAY} {owner} {place} assign {number} all" for place, number in enumerate(
        [number for number, row in reported(file).items() if row.owner == owner], 1)]
    replies = keyreg(["run", "--file", file], lines)
    expect(all(reply.startswith("ok ") for reply in replies), f"refused: {replies}")
    told(folder, file, *(word for days in ALARMS for word in ("--alarm", days)))
    after = compared(folder, file, ALARMS)
    expect(before.items() <= after.items(), f"UIDs change: {before}, {after}")
    expect(not (folder / f"due/owners/{owner}.ics").exists(), "who owns nothing any more has a calendar still")
    other = folder / "other.keyreg"
    # Another first request tells it apart, also where both are made in one second.
    registered(other, ["1 other 1 advance"])
    keyreg(["run", "--file", other], [f"{now + DAY} ann 1 advance"])
    run_tool("due", other, folder / "due_other", "--days", DAYS)
    shared = {event.uid.value for event in events(folder / "due_other/all.ics").values()} & {*after.values()}
    expect(not shared, f"another register has {shared} too")
    return len(after)


# ---- mails


def wrong_rows(folder: pathlib.Path, file: File) -> None:
    """Each row of a table that is none is told, and no mail goes to it."""
    table = folder / "wrong.csv"
    table.write_text("name,address\n" + "".join(f"{row}\n" for row in WRONG), "utf-8")
    lines = told(folder, file, "--addresses", table, status=1)
    expect([f"row {place}:" in line for place, line in enumerate(lines[:len(WRONG)], 1)] == [True] * len(WRONG),
           f"wrong rows are told as {lines}")
    mails = [path.read_text("ascii") for path in (folder / "due/mails").iterdir()]
    expect(not mails, f"written to nobody are {mails}")


def read_mails(folder: pathlib.Path, file: File) -> dict[str, Any]:
    """The mails of the folder, each right by its headers, and by its lines what the report says of its name."""
    rows, mails = reported(file), {}
    for path in (folder / "due/mails").iterdir():
        name, raw = path.name[:-4], path.read_bytes()
        mail: Any = email.message_from_bytes(raw, policy=email.policy.default)
        mails[name] = mail
        expect(mail.keys() == HEADERS and not mail.defects and not any(mail[header].defects for header in HEADERS)
               and raw.isascii() and max(map(len, raw.split(b"\n"))) <= 78, f"{name}: {raw!r}")
        addresses = [address.addr_spec for address in mail["To"].addresses]
        expect(addresses == TABLE[name], f"the mail of {name} goes to {addresses}")
        lines = mail.get_content().split("\n")
        wanted = [(number, row) for number, row in rows.items() if row.owner == name]
        is_told = [any(line.split()[:3] == [str(number), row.stop.strftime("%Y-%m-%dT%H:%M:%SZ"), row.mark]
                       and line.endswith(f" {row.purpose}") for line in lines) for number, row in wanted]
        expect(all(is_told), f"{name} is told {lines}, not {wanted}")
        count = len([line for line in lines if re.match(r" +\d+  \d{4}-", line)])
        expect(count == len(wanted) and (f"{count} due" in mail["Subject"]) == (count > 0),
               f"{name}: {mail['Subject']}")
    return mails


def mailed(folder: pathlib.Path, file: File) -> int:
    """Mails are written to those of the table who have something due or waiting, and to nobody else; how many."""
    table = folder / "table.csv"
    table.write_text("\ufeffname,address\n" + "".join(
        f"{name},{address}\n" for name, addresses in TABLE.items() for address in addresses), "utf-8")
    lines = told(folder, file, "--addresses", table)
    mails = read_mails(folder, file)
    expect({*mails} == {*TABLE} - {"zed", ".."}, f"mails go to {sorted(mails)}")
    lacking = sorted({row.owner for row in reported(file).values()} - {*TABLE})
    expect(lines[:-1] == [f"no address: {name}" for name in lacking], f"told is {lines}, and {lacking} have no address")
    begun, approved = (str(len(PURPOSES) + more) for more in (3, 4))
    texts = {name: mails[name].get_content() for name in ("bob", "cat")}
    expect(re.search(rf"lacks your approval:\n\n +{begun}  1 of 2 approvals, owner bob  begun\n\n", texts["cat"])
           and approved not in texts["cat"].split(), f"cat is told {texts['cat']}")
    expect(re.search(rf"approvals of their destruction:\n\n +{approved}  approved\n\n", texts["bob"]), texts["bob"])
    return len(mails)


# ---- sending


def started(log: pathlib.Path) -> set[str]:
    """The programs that were started, by strace."""
    return {pathlib.Path(path).name for path in re.findall(r'execve\("([^"]+)".* = 0$', log.read_text("utf-8"), re.M)}


def sent(folder: pathlib.Path) -> None:
    """A sendmail gets each mail whole, with its addresses as words; the one that it refuses is told, and the others go.
    So does word of a failed unit."""
    log, sendmail, systemctl = folder / "sent", folder / "sendmail", folder / "systemctl"
    sendmail.write_text(SENDMAIL.format(python=sys.executable, log=str(log)), "utf-8")
    systemctl.write_text(SYSTEMCTL.format(python=sys.executable), "utf-8")
    for path in (sendmail, systemctl):
        path.chmod(0o755)
    environment = {**os.environ, "PATH": f"{folder}:{os.environ['PATH']}"}

    def tells(*words: Any, status: int = 0) -> list[Any]:
        log.write_text("")
        run = ["strace", "-f", "-e", "trace=execve", "-o", folder / "strace", *words_of("tell", *words)]
        output_of(["sh", "-c", '"$@"; test $? = ' + str(status), "sh", *run], cwd=folder, env=environment)
        names = {pathlib.Path(sys.executable).name, "sendmail", "systemctl"}
        expect(started(folder / "strace") <= names, f"started are {started(folder / 'strace')}")
        return [json.loads(line) for line in log.read_text("utf-8").splitlines()]

    calls, mails = tells("mails", folder / "due/mails", "--sendmail", sendmail, status=1), folder / "due/mails"
    wanted = [[["-i", "--", *TABLE[path.name[:-4]]], path.read_text("ascii")] for path in sorted(mails.iterdir())]
    expect(calls == wanted, f"sendmail is called as {calls}")
    expect(not tells("failed", "keyreg-list.service", "--to", "", "--sendmail", sendmail), "nobody is told something")
    [(words, text)] = tells("failed", "keyreg-list.service", "--to", "a@b.example c@d.example", "--sendmail", sendmail)
    mail: Any = email.message_from_string(text, policy=email.policy.default)
    expect(words == ["-i", "--", "a@b.example", "c@d.example"] and mail.keys() == HEADERS
           and mail["Subject"].startswith("keyreg-list.service has failed") and mail.get_content() == FAILURE,
           f"word of a failed unit is {words}, {text}")


def main() -> None:
    for unit in UNITS.glob("*.service"):
        names_it = "\nOnFailure=keyreg-failed@%N.service\n" in unit.read_text("ascii")
        expect(names_it != (unit.name == "keyreg-failed@.service"), f"{unit.name} tells nobody that it failed")
    with fresh_folder() as folder:
        file = folder / "office.keyreg"
        keys = days_pass(folder, file, registered(file))
        wrong_rows(folder, file)
        mails = mailed(folder, file)
        sent(folder)
        expect(not (folder / "canary").exists(), "a purpose ran in a shell")
    verdict(f"{keys} keys that are due are the report's in each calendar, {mails} mails go to whom the table names")


main()
