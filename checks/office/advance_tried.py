#!/usr/bin/env python3
"""An advance that keyreg-advance.service or the line of keyreg-advance.cron, both in office/units/, posts moves a
served register on: of a key whose Protect Stop has passed the usage says `protect` until then, and not any more after
it. A refusal is told by its name; where all is well cron, which sends by mail what is told, is told nothing. The
command is run as it stands in the file, with the port of the check.

    checks/office/advance_tried.py
"""
import pathlib
import re
import subprocess
import sys
import time

sys.path.insert(1, str(pathlib.Path(__file__).resolve().parents[1] / "shared"))
from places import UNITS
from client import Client
from registers import database
from register_rules import GREATEST_NUMBER
from script import expect, fresh_folder, not_none, verdict
from serving import Served

# So many seconds a key may still protect as it is served first.
AHEAD = 3


def unit_command() -> str:
    """The command that the unit runs, as a shell's text."""
    text = (UNITS / "keyreg-advance.service").read_text(encoding="ascii")
    line = not_none(re.search(r"^ExecStart=/bin/sh -c '(.*)'$", text, re.M))[1]
    return line.replace("$$", "$").replace("%%", "%").replace('\\\\"', '\\"')


def cron_command() -> str:
    """The command of the line of cron, likewise: five fields and a user stand before it."""
    line = (UNITS / "keyreg-advance.cron").read_text(encoding="ascii").splitlines()[-1]
    return line.split(" ", 6)[6].replace("\\%", "%")


def expect_status(status: int, command: str, served: Served) -> str:
    """The command ends so, over the served register, and tells this."""
    text = command.replace("8420", str(served.port))
    expect(text != command, f"no port 8420 in {command}")
    done = subprocess.run(["sh", "-c", text], capture_output=True, text=True, check=False)
    expect(done.returncode == status, f"{command}: {done}, not {status}")
    return done.stdout + done.stderr


def expect_protects(protects: bool, when: str, served: Served) -> None:
    with fresh_folder() as folder, Client(f"http://127.0.0.1:{served.port}", "ann", f"{folder}/numbers") as office:
        usage = office.usage(1)
    expect(usage["protect"] == protects, f"{when}: {usage}")


def moves_on(command: str) -> int:
    """The command makes the answer fresh. Gives how many requests of it the file has."""
    now = int(time.time())
    stop = now + AHEAD
    with Served(lines=[f"{now} ann 1 register master bob {now - 86400} {stop} - root"]) as served:
        expect_protects(True, "a key that may protect", served)
        time.sleep(max(stop + 1.1 - time.time(), 0))
        expect_protects(True, "past its Protect Stop, without a request", served)
        told = expect_status(0, command, served)
        expect(not told or command != cron_command(), f"cron is told {told!r}")
        expect_protects(False, "after the advance", served)
        for _ in range(20):
            expect_status(0, command, served)
        served.kill()
        with database(served.file) as connection:
            columns = "caller, number, command, moment"
            rows = connection.execute(f"SELECT {columns} FROM request WHERE caller <> 'ann'").fetchall()
    are_advances = all(
        (caller, text) == ("clock.job", "advance") and 1 <= number <= GREATEST_NUMBER and 0 <= moment - number <= 2
        for caller, number, text, moment in rows)
    expect(are_advances, f"the requests are {rows}")
    expect(0 < len(rows) < 21, "no two of 21 requests came in one second: this check shows nothing")
    return len(rows)


def main() -> None:
    counts = []
    for command in (unit_command(), cron_command()):
        counts.append(moves_on(command))
        # A register that is ahead of the clock refuses it, and the command says so.
        with Served(lines=[f"{int(time.time()) + 86400} ann 1 advance"]) as served:
            told = expect_status(22, command, served)
            expect('"MomentBehind"' in told, f"a refusal is told as {told!r}")
    verdict(f"the unit's command and cron's line move the register on; of 21 requests {counts[0]} and {counts[1]} were "
            "accepted")


main()
