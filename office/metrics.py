#!/usr/bin/env python3
"""Writes what a monitor asks of a register, in the text format of node_exporter's textfile collector; and looks at it
as monitors call a plugin.

    metrics.py write REGISTER FILE [--list LIST] [--nights FOLDER]
    metrics.py look FILE [--address URL] [--request SECONDS] [--list SECONDS] [--night SECONDS] [--metrics SECONDS]

write  reads a copy of REGISTER and its log, which may be served meanwhile, and moves FILE into place whole. Anybody may
       read it. Its metrics, each with a label `register`, which is the path:

    keyreg_keys{state,type}                   keys, as of the latest accepted moment
    keyreg_keys_due{mark}                     the lines of `keyreg report --days 30`: due, overdue or long
    keyreg_last_request_timestamp_seconds     the latest accepted moment
    keyreg_list_timestamp_seconds             when LIST was made, by list.py
    keyreg_last_night_timestamp_seconds       when the last good nightly look in FOLDER ended
    keyreg_file_bytes, keyreg_log_bytes       the size of REGISTER and of its log

       Ages follow by `time() - ..`: a metric of an age would be as old as the file. What is not there has the moment 0.
       The status is 0, 2 where REGISTER cannot be read as a register, or 3 where FILE cannot be written.

look   prints a line, and ends by 0 where all is well, 1 where keys are overdue, 2 where something of FILE, or FILE, is
       older than so many seconds, or URL is no `keyreg serve` that answers, 3 where FILE has not these metrics. The
       bounds are 7200 for the last request, 900 for the list and for FILE, 93600 for the night; 0 looks at none.
"""
import argparse
import contextlib
import os
import pathlib
import re
import sqlite3
import sys
import time
import urllib.error
import urllib.request
from typing import Iterator, Sequence, Union

# What is read from beside this file leaves none there.
sys.dont_write_bytecode = True
from due import viewed
from list import put
from register_rules import STATES, TYPES
from replay import Unreadable

DAYS, MARKS = 30, ("due", "overdue", "long")
# A value with its labels.
Sample = tuple[dict[str, str], Union[int, float]]
# What is looked at for its age: its metric, its words and after how many seconds it is old.
AGES = {"request": ("keyreg_last_request_timestamp_seconds", "the last accepted request", 7200),
        "list": ("keyreg_list_timestamp_seconds", "the list of the desk", 900),
        "night": ("keyreg_last_night_timestamp_seconds", "the last good nightly look", 93600),
        "metrics": ("", "the file of metrics", 900)}
LINE = re.compile(r'(\w+)\{(.*)\} ([0-9.]+)')


# ---- the file


def written_at(path: str) -> float:
    """When a file, or a link, was written; 0 where there is none."""
    with contextlib.suppress(OSError):
        return os.lstat(path).st_mtime
    return 0


def metrics_of(words: argparse.Namespace) -> Iterator[tuple[str, str, list[Sample]]]:
    """Each metric: its name, what it is, and its values."""
    with viewed(words.register, DAYS) as connection:
        latest = connection.execute("SELECT now FROM question").fetchone()[0]
        keys = {(state, kind): count for state, kind, count in
                connection.execute("SELECT state, type, count(*) FROM standing GROUP BY 1, 2")}
        marks = dict(connection.execute("SELECT mark, count(*) FROM due GROUP BY mark"))
    yield "keyreg_keys", "Keys by state and type, as of the latest accepted moment.", [
        ({"state": state, "type": kind}, keys.get((state, kind), 0)) for state in STATES[1:] for kind in TYPES]
    yield "keyreg_keys_due", f"Keys that keyreg report --days {DAYS} lists, by mark.", [
        ({"mark": mark}, marks.get(mark, 0)) for mark in MARKS]
    yield "keyreg_last_request_timestamp_seconds", "The latest accepted moment.", [({}, latest)]
    for name, what, path in (("list", "When the list of the desk was made.", words.list),
                             ("last_night", "When the last good nightly look ended.", f"{words.nights}/last")):
        yield f"keyreg_{name}_timestamp_seconds", what, [({}, written_at(path))]
    for name, end in (("file", ""), ("log", "-wal")):
        path = words.register + end
        yield f"keyreg_{name}_bytes", f"Size of the register's {name}.", [
            ({}, os.path.getsize(path) if os.path.exists(path) else 0)]


def quoted(text: str) -> str:
    """A label's value."""
    return '"' + text.replace("\\", "\\\\").replace('"', '\\"').replace("\n", "\\n") + '"'


def lines_of(words: argparse.Namespace) -> Iterator[bytes]:
    for name, what, samples in list(metrics_of(words)):
        yield f"# HELP {name} {what}\n# TYPE {name} gauge\n".encode()
        for labels, value in samples:
            text = ",".join(f"{label}={quoted(given)}" for label, given in
                            {"register": os.path.abspath(words.register), **labels}.items())
            yield f"{name}{{{text}}} {value:.0f}\n".encode(errors="backslashreplace")


def write(words: argparse.Namespace) -> int:
    try:
        lines = list(lines_of(words))
        put(words.file, lines, 0o644)
    except (Unreadable, sqlite3.Error) as fault:
        print(f"{words.register} cannot be read as a register: {fault}", file=sys.stderr)
        return 2
    except OSError as fault:
        print(f"{fault.filename}: {fault.strerror}", file=sys.stderr)
        return 3
    return 0


# ---- the look


def age_text(seconds: float) -> str:
    for size, word in ((86400, "days"), (3600, "hours"), (60, "minutes")):
        if seconds >= 2 * size:
            return f"{seconds // size:.0f} {word}"
    return f"{seconds:.0f} seconds"


def old(words: argparse.Namespace, values: dict[str, float], now: float) -> Iterator[str]:
    """What is older than its bound."""
    for option, (name, what, _) in AGES.items():
        bound, at = getattr(words, option), values[name] if name else written_at(words.file)
        if bound and at == 0:
            yield f"{what} is not there"
        elif bound and now - at > bound:
            yield f"{what} is {age_text(now - at)} old"


def silent(address: str) -> Iterator[str]:
    """Whether no register answers there. One without keys answers that there is no key 1."""
    try:
        opener = urllib.request.build_opener(urllib.request.ProxyHandler({}))
        with opener.open(f"{address}/keys/1", timeout=20) as reply:
            text = reply.read()
    except urllib.error.HTTPError as reply:
        text = reply.read()
    except OSError as fault:
        yield f"{address} does not answer: {getattr(fault, 'reason', fault)}"
        return
    if b'"UnknownKey"' not in text and b'"protect_stop"' not in text:
        yield f"{address} answers otherwise than keyreg"


def look(words: argparse.Namespace) -> int:
    try:
        rows = LINE.findall(pathlib.Path(words.file).read_text("utf-8"))
        values = {name: float(value) for name, _, value in rows}
        due = {mark: sum(float(value) for name, labels, value in rows
                         if name == "keyreg_keys_due" and f'mark="{mark}"' in labels) for mark in MARKS}
        faults = [*old(words, values, time.time()), *(silent(words.address) if words.address else ())]
    except (OSError, KeyError, ValueError) as fault:
        print(f"KEYREG UNKNOWN - {words.file}: {fault!r}")
        return 3
    overdue = [f"{due['overdue']:.0f} keys are overdue"] if due["overdue"] else []
    status, word = (2, "CRITICAL") if faults else (1, "WARNING") if overdue else (0, "OK")
    counts = " ".join(f"{mark}={count:.0f}" for mark, count in due.items())
    print(f"KEYREG {word} - {', '.join([*faults, *overdue]) or 'nothing is old or overdue'} | {counts}")
    return status


def main(given: Sequence[str] = sys.argv[1:]) -> int:
    parser = argparse.ArgumentParser(description="Metrics of a register, and a look at them.")
    acts = parser.add_subparsers(dest="act", required=True)
    of_write, of_look = acts.add_parser("write"), acts.add_parser("look")
    of_write.add_argument("register")
    for of_act in (of_write, of_look):
        of_act.add_argument("file")
    of_write.add_argument("--list", default="/var/lib/keyreg-list/list.json")
    of_write.add_argument("--nights", default="/var/lib/keyreg/nightly", metavar="FOLDER")
    of_look.add_argument("--address", metavar="URL")
    for option, (_, _, bound) in AGES.items():
        of_look.add_argument(f"--{option}", type=int, default=bound, metavar="SECONDS")
    words = parser.parse_args(given)
    return write(words) if words.act == "write" else look(words)


if __name__ == "__main__":
    sys.exit(main())
