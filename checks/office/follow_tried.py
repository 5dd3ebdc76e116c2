#!/usr/bin/env python3
"""A standby follows a register by office/follow.py. While the register takes one request after the other, calls are
begun and killed at random, some with the program that they called. After each kill the standby has so many of the first
requests and the tables that they give, by office/replay.py; after a last call it has all. What is no standby of the
register is reported, and left as it is.

    checks/office/follow_tried.py [--lines N] [--kills N] [--longest SECONDS] [--seed N]
"""
import contextlib
import os
import pathlib
import random
import signal
import subprocess
import sys
import threading
import time
from typing import Any

sys.path.insert(1, str(pathlib.Path(__file__).resolve().parents[1] / "shared"))
from places import PROGRAM
from drawn_registers import DAY, FULL, HOSTILE, changed, drawn, first_version, made, rows_of
from registers import File, Life, copy_files, database, keyreg, new_register
from register_rules import COMMANDS
from script import expect, fresh_folder, in_order, options, verdict
from tools import run_tool, words_of

# So long, in seconds, a program that was left alone may take to its end.
PATIENCE = 120

Rows = dict[str, list[tuple]]


def follow(register: File, standby: File, program: File = PROGRAM) -> subprocess.Popen:
    return subprocess.Popen(words_of("follow", register, standby, "--keyreg", program), stdout=subprocess.PIPE,
                            stderr=subprocess.PIPE, start_new_session=True)


def expect_end(status: int, text: str, register: File, standby: File, program: File = PROGRAM) -> None:
    """A call ends with this status and a line of this text; one that reports a fault leaves the standby as it was."""
    before = pathlib.Path(standby).read_bytes() if os.path.exists(standby) else None
    call = follow(register, standby, program)
    output, error = call.communicate()
    end = (error or output).decode()
    expect(call.returncode == status and text in end.splitlines()[-1], f"{register}, {standby}: {end}, no {text!r}")
    is_left = not status or before is None or pathlib.Path(standby).read_bytes() == before
    expect(is_left, f"{register}, {standby}: the standby was changed")


def killed(register: File, standby: File, seconds: float, chance: random.Random) -> bool:
    """A call that is killed after so many seconds, with the program or without it; whether it had not ended before."""
    call = follow(register, standby)
    with contextlib.suppress(subprocess.TimeoutExpired):
        call.wait(seconds)
    was_going = call.returncode is None
    with contextlib.suppress(ProcessLookupError):
        if chance.random() < 0.5:
            call.kill()
        else:
            os.killpg(call.pid, signal.SIGKILL)
    call.communicate()
    late = time.monotonic() + PATIENCE
    # The program that was left alone finds the end of its input.
    with contextlib.suppress(ProcessLookupError):
        while time.monotonic() < late:
            os.killpg(call.pid, 0)
            time.sleep(0.005)
    return was_going


def kept(file: File) -> Rows:
    """The rows of a copy of the two files, which by office/replay.py are what the requests among them give; of a file
    without tables none."""
    copy = copy_files(file, pathlib.Path(file).with_name("look.keyreg"))
    rows = rows_of(copy) if os.path.exists(copy) else {}
    expect(not rows or run_tool("replay", copy).returncode == 0, f"{file} is not what its requests give")
    return rows


def killed_at_random(folder: pathlib.Path, lines: list[str], given: Any, chance: random.Random) -> tuple[int, int]:
    """How many calls were killed before their end, and how many requests the standby has at last."""
    register, standby, looks, going = folder / "office.keyreg", folder / "standby.keyreg", list[list[tuple]](), 0
    new_register(register)
    with Life(register) as life:
        writer = threading.Thread(target=lambda: [*map(life.reply, lines)], daemon=True)
        writer.start()
        while going < given.kills and (writer.is_alive() or len(looks) < given.kills):
            going += killed(register, standby, chance.uniform(0, given.longest), chance)
            looks.append(kept(standby).get("request", []))
        writer.join()
    expect(life.returncode == 0, "the register ended before all was given")
    wanted, counts = rows_of(register), [len(rows) for rows in looks]
    count = len(wanted["request"])
    for rows in looks:
        in_order(rows, wanted["request"][:len(rows)], "a standby of the first requests")
    expect(counts == sorted(counts), f"the standby lost requests: {counts}")
    expect(len(set(counts)) > 2, f"the standby had {counts} requests: too few looks to tell")
    expect_end(0, f", {count} in all", register, standby)
    held = rows_of(standby)
    for name in wanted:
        in_order(held[name], wanted[name], f"at the end: {name}")
    expect_end(0, f": 0 requests given, {count} in all", register, standby)
    return going, count


def of_first_version(folder: pathlib.Path, chance: random.Random) -> None:
    """A standby of a file of version 1 has its requests, in a file of version 2."""
    lines = [line for line in drawn(chance, 60, (0, DAY), HOSTILE) if COMMANDS[line.split(" ")[3]].since == 1]
    first, standby = first_version(made(folder, "first", lines)[0]), folder / "of_first.keyreg"
    expect_end(0, " in all", first, standby)
    in_order(rows_of(standby)["request"], rows_of(first)["request"], "a standby of version 1")


def no_standbys(folder: pathlib.Path) -> None:
    """What is no standby of the register, or cannot be one, is reported and left as it is."""
    full, _ = made(folder, "full", FULL)
    fresh, text = folder / "fresh.keyreg", folder / "text"
    text.write_text("no database", encoding="ascii")
    ahead = changed(full, ("INSERT INTO request VALUES ('zed', 9, 'advance', 0, 0, 400)",),
                    ("UPDATE meta SET latest = 400",))
    expect_end(1, "in the standby alone", full, ahead)
    expect_end(1, "request 3 is", changed(full, ("UPDATE request SET number = 77777 WHERE moment = 102",)), full)
    expect_end(1, "the reply to", changed(full, ("UPDATE request SET state = 2 WHERE rowid = 1",)), fresh)
    copy_files(None, fresh)
    two_lines = ("UPDATE request SET command = 'advance' || char(10) || '1 x 1 advance' WHERE rowid = 1",)
    expect_end(1, "is no request", changed(full, two_lines), fresh)
    pairs: list[tuple[File, File]] = [(text, fresh), (folder / "none", fresh), (full, text)]
    for register, standby in pairs:
        expect_end(2, "cannot be read", register, standby)
    expect_end(3, "No such file", full, folder / "other.keyreg", program=folder / "no_program")
    expect_end(3, "could not be made", full, folder / "no_folder" / "other.keyreg")
    keyreg(["run", "--file", fresh])
    with Life(fresh) as life:
        life.reply("none")
        expect_end(3, "ended with status 2", full, fresh)
    bare = folder / "bare.keyreg"
    with database(bare) as connection:
        connection.execute("PRAGMA user_version = 1")
    for standby in (fresh, bare):
        expect_end(0, f"{len(FULL) - 1} in all", full, standby)


def main() -> None:
    given = options(__doc__, lines=40_000, kills=40, longest=0.6, seed=random.randrange(1_000_000))
    print(f"seed {given.seed}", flush=True)
    chance = random.Random(given.seed)
    with fresh_folder() as folder:
        no_standbys(folder)
        of_first_version(folder, chance)
        lines = list(drawn(chance, given.lines, (0, 0, 1, DAY), HOSTILE))
        going, count = killed_at_random(folder, lines, given, chance)
    verdict(f"{going} calls were killed, and each left the register of the first requests; at last the standby had all "
            f"{count}")


main()
