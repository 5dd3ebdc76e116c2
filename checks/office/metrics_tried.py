#!/usr/bin/env python3
"""What office/metrics.py writes of a register, by way of Debian's prometheus-node-exporter: the counts of `keyreg
export` and `keyreg report`, the sizes of the files, and when the list, the last night and the latest request were. Its
look tells each of these that is old, keys that are overdue and a service that does not answer, by a line and a status.

    checks/office/metrics_tried.py

It needs Debian's prometheus-node-exporter.
"""
import collections
import csv
import http.server
import io
import os
import pathlib
import re
import shutil
import subprocess
import sys
import threading
import time
import urllib.request
from typing import Any

sys.path.insert(1, str(pathlib.Path(__file__).resolve().parents[1] / "shared"))
from places import SAMPLES
from registers import STATES, TYPES, copy_files, keyreg, new_register, run_program
from register_rules import moment_of
from script import expect, fresh_folder, not_none, verdict
from serving import Served, begins_to_listen, free_port
from tools import exported, run_tool

class Other(http.server.BaseHTTPRequestHandler):
    """Another program at the port."""

    def do_GET(self) -> None:
        self.send_response(404)
        self.end_headers()
        self.wfile.write(b'{"name":"NoRoute"}')

    def log_message(self, *_: object) -> None:
        pass


Values = dict[tuple[str, frozenset[tuple[str, str]]], float]
DAY = 86400


def scraped(folder: pathlib.Path) -> Values:
    """What the collector hands out of the folder's files."""
    port, program = free_port(), not_none(shutil.which("prometheus-node-exporter"))
    words = [program, "--collector.disable-defaults", "--collector.textfile",
             f"--collector.textfile.directory={folder}", f"--web.listen-address=127.0.0.1:{port}"]
    with subprocess.Popen(words, stderr=subprocess.DEVNULL) as process:
        try:
            expect(begins_to_listen(process, port), "the exporter does not listen")
            with urllib.request.urlopen(f"http://127.0.0.1:{port}/metrics", timeout=60) as reply:
                text = reply.read().decode()
        finally:
            process.terminate()
    expect("node_textfile_scrape_error 0\n" in text, "the collector finds a fault in the file")
    return {(name, frozenset(re.findall(r'(\w+)="((?:[^"\\]|\\.)*)"', labels))): float(value)
            for name, labels, value in re.findall(r"(?m)^(keyreg_\w+)\{(.*)\} (\S+)$", text)}


def wanted_of(file: pathlib.Path, copy: pathlib.Path, moments: dict[str, float]) -> Values:
    """What the program and the files say."""
    rows = list(csv.DictReader(io.StringIO(exported(copy))))
    counts = collections.Counter((row["state"], row["type"]) for row in rows)
    report = keyreg(["report", "--file", copy, "--days", "30"])
    marks = collections.Counter(line[31:38].strip() for line in report[1:-1])
    values: list[tuple[str, dict[str, str], float]] = [
        ("keyreg_keys", {"state": state, "type": kind}, counts[state, kind])
        for state in list(STATES.values())[1:] for kind in TYPES.values()]
    values += [("keyreg_keys_due", {"mark": mark}, marks[mark]) for mark in ("due", "overdue", "long")]
    values += [(f"keyreg_{name}_timestamp_seconds", {}, moment) for name, moment in moments.items()]
    values += [(f"keyreg_{name}_bytes", {}, os.path.getsize(f"{file}{end}")) for name, end in
               (("file", ""), ("log", "-wal"))]
    return {(name, frozenset({**labels, "register": str(file).replace('"', '\\"')}.items())): value
            for name, labels, value in values}


def compared(folder: pathlib.Path, file: pathlib.Path) -> int:
    """A register of a year, by a path with quotes; how many keys there are."""
    new_register(file, (SAMPLES / "day.txt").read_text("ascii").splitlines())
    run_program(["import", "--file", file, "--moment", "1767690000", "--caller", "intake", "--first", "1"],
                (SAMPLES / "keys.csv").read_bytes())
    year = (SAMPLES / "year.txt").read_text("ascii").splitlines()
    latest = moment_of("2026-12-01T08:00:00Z")
    lines = [*year, *(f"{latest} ann {place} register master bob {latest - DAY} {latest + days * DAY} - of {days} days"
                      for place, days in enumerate((1, 29, 31, 200), 101)), f"{latest} office 99 set-period master 6 0"]
    keyreg(["run", "--file", file], lines)
    nights, its_list = folder / "nights", folder / "list.json"
    (nights / "one").mkdir(parents=True)
    (nights / "last").symlink_to("one")
    its_list.touch()
    os.utime(its_list, (latest, latest))
    os.utime(nights / "last", (latest + 60, latest + 60), follow_symlinks=False)
    written(folder, file)
    moments = {"last_request": float(latest), "list": float(latest), "last_night": float(latest + 60)}
    values = scraped(folder / "metrics")
    wanted = wanted_of(file, copy_files(file, folder / "copy"), moments)
    expect(values == wanted, f"otherwise are {sorted(values.items() ^ wanted.items(), key=str)}")
    marks = [value for (name, _), value in values.items() if name == "keyreg_keys_due"]
    expect(len(marks) == 3 and all(marks), f"of the marks there are {marks}")
    return int(sum(value for (name, _), value in values.items() if name == "keyreg_keys"))


def written(folder: pathlib.Path, file: pathlib.Path) -> None:
    (folder / "metrics").mkdir(exist_ok=True)
    done = run_tool("metrics", "write", file, folder / "metrics/keyreg.prom", "--list", folder / "list.json",
                    "--nights", folder / "nights")
    expect(done.returncode == 0 and (folder / "metrics/keyreg.prom").stat().st_mode & 0o777 == 0o644, f"{done}")


def looks(folder: pathlib.Path, status: int, words: str, *more: Any) -> None:
    done = run_tool("metrics", "look", folder / "metrics/keyreg.prom", *more)
    line, name = done.stdout.decode(), ("OK", "WARNING", "CRITICAL", "UNKNOWN")[status]
    expect(done.returncode == status and line.startswith(f"KEYREG {name} - ") and line.count("\n") == 1
           and words in line and not done.stderr, f"the look says {done}, not {status}, {words!r}")


def looked_at(folder: pathlib.Path, file: pathlib.Path) -> None:
    """All that the look tells."""
    now, nights = int(time.time()), folder / "nights"
    new_register(file, [f"{now} ann 1 advance"])
    prom, its_list = folder / "metrics/keyreg.prom", folder / "list.json"
    its_list.touch()
    os.utime(nights / "last", follow_symlinks=False)
    with Served(file=file) as served:
        address = ("--address", f"http://127.0.0.1:{served.port}")
        written(folder, file)
        looks(folder, 0, "nothing is old or overdue | due=0 overdue=0 long=0", *address)
        for place, seconds, words, option in (
                (its_list, 1000, "the list of the desk is 16 minutes old", "--list"),
                (nights / "last", 2 * DAY + 9, "the last good nightly look is 2 days old", "--night")):
            os.utime(place, (now - seconds, now - seconds), follow_symlinks=False)
            written(folder, file)
            looks(folder, 2, words, *address)
            looks(folder, 0, "nothing", option, "0", *address)
            os.utime(place, follow_symlinks=False)
        (nights / "last").unlink()
        written(folder, file)
        looks(folder, 2, "the last good nightly look is not there", *address)
        (nights / "last").symlink_to("one")
        written(folder, file)
        os.utime(prom, (now - 1000, now - 1000))
        looks(folder, 2, "the file of metrics is 16 minutes old", *address)
    looks(folder, 2, "does not answer", "--metrics", "0", *address)
    with http.server.HTTPServer(("127.0.0.1", 0), Other) as other:
        threading.Thread(target=other.handle_request, daemon=True).start()
        looks(folder, 2, "answers otherwise than keyreg", "--metrics", "0", "--address",
              f"http://127.0.0.1:{other.server_port}")
    old = folder / "old.keyreg"
    new_register(old, [f"{now - 3 * DAY} ann 1 register key-wrapping bob {now - 9 * DAY} {now - 4 * DAY} - overdue"])
    written(folder, old)
    looks(folder, 2, "the last accepted request is 3 days old, 1 keys are overdue")
    looks(folder, 1, "1 keys are overdue | due=0 overdue=1 long=0", "--request", "0")
    prom.write_text("keyreg_keys_due{} 1\n")
    looks(folder, 3, "keyreg.prom")
    prom.unlink()
    looks(folder, 3, "keyreg.prom")
    done = run_tool("metrics", "write", __file__, prom)
    expect(done.returncode == 2 and not prom.exists() and done.stderr, f"of no register: {done}")


def main() -> None:
    with fresh_folder() as folder:
        keys = compared(folder, folder / 'a "year".keyreg')
        looked_at(folder, folder / "office.keyreg")
    verdict(f"the metrics of {keys} keys are what the program and the files say; what is old or silent is told")


main()
