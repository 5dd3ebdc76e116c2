#!/usr/bin/env python3
"""Makes registers again from the lines that office/rebuild.py writes of a copy: drawn registers of all commands and of
both versions, with purposes that a terminal, a shell or a spreadsheet takes for something else, prefixes of them
(--until), and what is left without some requests (--without), foretold exactly. Rows that are no requests come through
to no line, and of a damaged file what is whole comes.

    checks/office/rebuild_tried.py [--requests N] [--registers N] [--lines N] [--seed N]

It ends within the five minutes that checks/gate.py gives it. It needs SQLite's shell.
"""
import pathlib
import random
import re
import subprocess
import sys
from typing import Any

sys.path.insert(1, str(pathlib.Path(__file__).resolve().parents[1] / "shared"))
from drawn_registers import DAY, FULL, HOSTILE, anew, changed, drawn, first_version, made, rows_of
from registers import STATES, File, copy_files, database, new_register
from register_rules import COMMANDS
from script import expect, fresh_folder, in_order, options, verdict
from tools import exported, many_requests, run_tool

# By how much the moments of a register go on: where not at all, the rows' order alone shows that of the requests.
STEPS = [(0, 0, 0, DAY), (0, DAY, 30 * DAY), (0,)]
FORETOLD = re.compile(r"(refused|otherwise): \d+ (\S+) (\d+) ['\"].*['\"]: (\w+)")
PAGE = 4096


def rebuilt(*words: Any) -> tuple[int, list[str], list[str]]:
    """The status, the lines, and what is said on standard error."""
    done = run_tool("rebuild", *words)
    return done.returncode, done.stdout.decode().split("\n")[:-1], done.stderr.decode().splitlines()


def remade(folder: pathlib.Path, lines: list[str], *words: Any) -> tuple[File, list[str]]:
    """The register that the lines make in a new file, and the replies; these have to begin with the words."""
    file = copy_files(None, folder / "again.keyreg")
    replies = new_register(file, lines) if lines else new_register(file)
    expect(all(reply.startswith(words) for reply in replies), f"{lines[:3]}..: a reply is none of {words}")
    return file, replies


def whole(folder: pathlib.Path, copy: File) -> int:
    """Of the whole list the same register comes, row by row. Gives how many requests that were."""
    status, lines, said = rebuilt(copy)
    is_whole = said[0].endswith(", 0 left out; 0 will be refused, 0 answered otherwise")
    expect(status == 0 and len(said) == 1 and is_whole, f"{copy}: {status}, {said[:3]}")
    again, _ = remade(folder, lines, "ok ")
    # A file of version 1 becomes one of version 2 in the program's hands.
    later = copy_files(copy, folder / "later.keyreg")
    expect(exported(later) == exported(again), f"{copy}: another export")
    wanted, rows = rows_of(later), rows_of(again)
    expect(wanted.keys() == rows.keys(), f"{copy}: other tables")
    for name in wanted:
        in_order(rows[name], wanted[name], f"{copy}: {name}")
    return len(wanted["request"])


def prefixes(folder: pathlib.Path, copy: File, chance: random.Random) -> None:
    """Of a prefix come its requests, and by office/replay.py the tables that they give."""
    requests = rows_of(copy)["request"]
    moments = [row[-1] for row in requests]
    for until in {0, moments[0], chance.choice(moments), chance.choice(moments) - 1, moments[-1]}:
        status, lines, said = rebuilt(copy, "--until", until)
        expect(status == 0, f"--until {until}: {status}, {said[-1]}")
        again, _ = remade(folder, lines, "ok ")
        in_order(rows_of(again)["request"], [row for row in requests if row[-1] <= until], f"--until {until}")
        expect(run_tool("replay", again).returncode == 0, f"--until {until}: not what its requests give")


def without(folder: pathlib.Path, copy: File, chance: random.Random) -> tuple[int, int]:
    """What is said to be refused and answered otherwise is, and nothing else. Gives how many of each."""
    kept = {row[:2]: row for row in rows_of(copy)["request"]}
    gone = chance.sample(sorted(kept), chance.randint(1, 4))
    words = [word for place in gone for word in ("--without", *place)]
    status, lines, said = rebuilt(copy, *words)
    foretold: dict[str, dict[tuple[str, int], str]] = {"refused": {}, "otherwise": {}}
    for kind, caller, number, how in (match.groups() for match in map(FORETOLD.match, said) if match):
        foretold[kind][caller, int(number)] = how
    refused, otherwise = {}, set()
    for line, reply in zip(lines, remade(folder, lines, "ok ", "refused ")[1]):
        place = (line.split(" ")[1], int(line.split(" ")[2]))
        key, state, moment = kept.pop(place)[3:]
        if reply.startswith("refused "):
            refused[place] = reply.split(" ")[2]
        elif reply != f"ok {key} {STATES[state]} {moment}":
            otherwise.add(place)
    expect(refused == foretold["refused"], f"{words}: refused {refused}, said {foretold['refused']}")
    # A request that reaches another key may have the same reply.
    others = {place for place, how in foretold["otherwise"].items() if how == "ok"}
    expect(others <= otherwise <= foretold["otherwise"].keys(), f"{words}: otherwise {otherwise}, said {foretold}")
    expect(sorted(kept) == sorted(gone), f"{words}: left out {sorted(kept)}")
    expect(status == bool(refused or foretold["otherwise"]), f"{words}: status {status}")
    return len(refused), len(foretold["otherwise"])


def another_key(folder: pathlib.Path) -> None:
    """What goes to another key, once a registration is gone, is reported although each of its replies is as before."""
    copy, _ = made(folder, "three", [
        "100 ann 1 register master bob - - - first", "100 ann 2 register master bob - - - second",
        "100 ann 3 register master bob - - - third", "101 bob 1 assign 2 eve", "102 cat 1 revoke 3 2 -"])
    status, _, said = rebuilt(copy, "--without", "ann", "1")
    for pattern in ("assign 2 eve.*it reaches key 2, which was key 3", "revoke 3 2 -.*UnknownKey, for want of 100 ann",
                    "1 will be refused, 3 answered otherwise"):
        expect(status == 1 and re.search(pattern, "\n".join(said)), f"{status}, no {pattern!r} in {said}")


def no_requests(copy: File) -> None:
    """Rows that are no requests become no line, and are reported."""
    put = "INSERT INTO request VALUES (?, ?, ?, 1, 1, 300)"
    two_lines = "register master bob - - - x\n300 office 900 set-period master 1 0"
    rows = [("eve", 900, two_lines), ("eve", 900, ""), ("e e", 900, "advance"), ("eve", 0, "advance"),
            ("eve", 900, "register master bob - - - x\r")]
    twice: list[tuple] = [*zip(anew("request")), ("INSERT INTO request SELECT * FROM request WHERE number = 2",)]
    lines = rebuilt(copy)[1]
    cases: list[tuple[str, list[tuple]]] = [("it is no request", [(put, row)]) for row in rows]
    cases.append(("of this number before", twice))
    for text, statements in cases:
        status, given, said = rebuilt(changed(copy, *statements))
        expect(status == 1 and any(text in line for line in said), f"{statements}: {status}, {said}")
        expect(given == lines, f"{statements}: other lines")
    said = rebuilt(changed(copy, *zip(anew("request", order="ORDER BY rowid DESC"))))[2]
    expect(any(line.startswith("order: ") for line in said), "rows that do not go by their moments are not reported")


def with_noise(copy: File, table: str) -> File:
    """A copy whose first page below the root of a table is noise."""
    with database(copy) as connection:
        root, = connection.execute("SELECT rootpage FROM sqlite_schema WHERE name = ?", [table]).fetchone()
    raw = bytearray(pathlib.Path(copy).read_bytes())
    child = int.from_bytes(raw[(root - 1) * PAGE + 12:][:2], "big") + (root - 1) * PAGE
    leaf = int.from_bytes(raw[child:child + 4], "big")
    raw[(leaf - 1) * PAGE:leaf * PAGE] = b"\xff" * PAGE
    pathlib.Path(f"{copy}.{table}").write_bytes(raw)
    return f"{copy}.{table}"


def damaged(folder: pathlib.Path) -> None:
    """Of a file with a page of noise all requests come, where it is none of theirs. Where it is one of theirs, none is
    written; of what SQLite's shell finds in the other pages each comes, in its order."""
    lines = [f"{100 + n} ann {n} register master bob - - - disks {n} {'x' * 150}" for n in range(1, 121)]
    copy = changed(made(folder, "whole", lines)[0], ("UPDATE meta SET latest = latest",))
    for table, wanted, wanted_lines in (("keys", 0, lines), ("request", 2, [])):
        bad = with_noise(copy, table)
        status, given, said = rebuilt(bad)
        expect((status, given) == (wanted, wanted_lines), f"{table}: {status}, {given[:3]}, {said}")
    dump = f"sqlite3 {bad} '.dump --preserve-rowids request' | sed 's/^ROLLBACK.*/COMMIT;/' | sqlite3 {copy}.found"
    subprocess.run(["sh", "-c", dump], stderr=subprocess.DEVNULL, check=True)
    _, found, said = rebuilt(f"{copy}.found")
    expect(found == [line for line in lines if line in found], "what was found comes otherwise")
    expect(60 < len(found) < len(lines), f"{len(found)} of {len(lines)} requests were found")
    expect(", 0 answered otherwise" not in said[-1], f"what comes of the lost ones is not said: {said[-1]}")


def statuses(folder: pathlib.Path, copy: File) -> None:
    """What cannot be read, left out or written ends with its own status, and nothing is written that should not be."""
    text = folder / "text"
    text.write_text("no database", encoding="ascii")
    for words in ((text,), (folder / "none",), (copy, "--until", "tomorrow"), (copy, "--until", "-1"),
                  (copy, "--without", "ann", "77777"), (copy, "--without", "ann", "one"), (copy, "--without", "ann")):
        status, lines, said = rebuilt(*words)
        expect((status, lines) == (2, []) and said, f"{words}: {status}, {said}")
    with open("/dev/full", "wb") as full:
        done = run_tool("rebuild", copy, capture_output=False, stdout=full, stderr=subprocess.PIPE)
    expect(done.returncode == 3 and b"Traceback" not in done.stderr, f"a full disk: {done}")
    by_text, by_number = rebuilt(copy, "--until", "1970-01-01T00:04:00Z"), rebuilt(copy, "--until", "240")
    is_same = by_text == by_number and by_text[1][-1].endswith("set-quorum 3 3")
    expect(is_same, f"a moment as a text is another than as a number: {by_text}")


def main() -> None:
    given = options(__doc__, requests=20_000, registers=6, lines=700, seed=random.randrange(1_000_000))
    print(f"seed {given.seed}", flush=True)
    chance, requests, foretold = random.Random(given.seed), 0, [0, 0]
    with fresh_folder(2**28) as folder:
        for place in range(given.registers):
            lines, is_first = list(drawn(chance, given.lines, STEPS[place // 2 % len(STEPS)], HOSTILE)), place % 2
            lines = [line for line in lines if not is_first or COMMANDS[line.split(" ")[3]].since == 1]
            copy, _ = made(folder, f"drawn_{place}", lines)
            copy = first_version(copy) if is_first else copy
            requests += whole(folder, copy)
            prefixes(folder, copy, chance)
            for _ in range(4):
                foretold = [before + more for before, more in zip(foretold, without(folder, copy, chance))]
        expect(min(foretold) > 0, f"{foretold} refused and answered otherwise: too few to tell")
        full, _ = made(folder, "full", FULL)
        another_key(folder)
        no_requests(full)
        statuses(folder, full)
        damaged(folder)
        requests += whole(folder, made(folder, "many", many_requests(given.requests, ["data-encryption"], HOSTILE))[0])
    verdict(f"{given.registers + 1} registers of {requests} requests were made again row by row; {foretold[0]} "
            f"refusals and {foretold[1]} other answers came as was said")


main()
