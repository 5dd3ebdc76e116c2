#!/usr/bin/env python3
"""The scripts that show from outside the program that `rt ci` built.

    checks/gate.py [PART..]
    checks/gate.py --all [PART..]
    checks/gate.py --furnish
    rt ci | checks/gate.py --behind-proofs

Each part of the table GATE below is run, with --all of the table REST too, or those that are named, as many side by
side as two cores take. Each has a limit of seconds, after which it is killed and has failed. KEYREG names another
program than the one that stands. A part that passes gets one line, one that fails its output too. The last line counts
the passed and the failed, and with --all those that were left out for want of a package or of root.

--all            root installs from Debian's packages what the parts use
--furnish        looks for each command and module that the gate's parts use, and runs none. Root installs what is
                 missing; where something is missing then, it fails
--behind-proofs  passes on what `rt ci` prints. Where that is green, all parts are run over the program of this
                 repository. The last line counts those of `rt ci` too
"""
import argparse
import contextlib
import os
import pathlib
import re
import shutil
import signal
import subprocess
import sys
import tempfile
import time
from typing import NamedTuple

sys.path.insert(1, str(pathlib.Path(__file__).resolve().parent / "shared"))
from places import BUILT, PROGRAM, TOP
from script import in_memory

CORES = 2
COUNTS = re.compile(rb"(\d+) passed, (\d+) failed\s*")


class Part(NamedTuple):
    """A script under checks/ with its words, its limit in seconds, how many cores it keeps, the commands that it uses
    beside those of COMMANDS, and whether root alone runs it."""
    words: str
    seconds: int
    cores: int = 1
    commands: tuple[str, ...] = ()
    is_roots: bool = False

    def name(self) -> str:
        return pathlib.Path(self.words.split()[0]).stem


# Those that keep both cores come first, then the longest.
GATE = (
    Part("program/want_of_memory.py", 600, cores=2),
    Part("program/power_cuts.py --points 60 --choices 1", 120, cores=2),
    Part("program/exchanges_by_curl.py", 120),
    Part("sources/first_build.py", 300),
    Part("program/large_office.py", 180),
    Part("program/words.py", 120),
    Part("program/killed.py --runs 20 --migrations 16", 180),
    Part("sqlite/copied_while_served.py --seconds 15", 90),
    Part("program/connections.py", 90),
    Part("program/turns.py", 90),
    Part("desk/in_browser.py --least", 180),
    Part("sqlite/by_sqlite3.py", 180),
    Part("sources/linted.py", 120),
    Part("sources/documents.py", 90),
    Part("office/behind_nginx.py", 60),
    Part("desk/own_tests.py", 60),
    Part("desk/rules.py", 60),
    Part("office/advance_tried.py", 60),
    Part("office/audit_views.py", 60),
    Part("office/users_tried.py", 60),
    Part("office/due_tried.py", 60),
    Part("office/why_tried.py", 60),
    Part("program/worked.py", 60),
    Part("program/tables.py", 60),
    Part("program/every_command.py", 30),
    Part("package/man_page.py", 30),
    Part("sources/unseen_by_contracts.py", 30),
    Part("sources/recipes.py", 30),
    Part("sources/wrong_bodies.py --texts", 30),
)

# What --all runs besides: what takes longer, and what wants root or packages of its own.
ROOT_OF_DEBIAN = ("debootstrap", "systemd-nspawn")
REST = (
    Part("desk/in_browser.py", 3600, cores=2, commands=("pdftotext",)),
    Part("desk/in_firefox.py", 300, commands=("firefox-esr",)),
    Part("office/timeline_tried.py", 900, cores=2, commands=("pdftotext",)),
    # These two make packages/ anew, so neither runs beside the other.
    Part("package/installed.py", 1800, cores=2, is_roots=True,
         commands=(*ROOT_OF_DEBIAN, "lintian", "tmux", "zsh", "fish", "readelf")),
    Part("package/in_systemd.py", 3600, cores=2, commands=ROOT_OF_DEBIAN, is_roots=True),
    Part("package/same_bytes.py", 900, commands=("readelf",)),
    Part("package/completion.py", 300, commands=("tmux", "zsh", "fish")),
    Part("office/client_tried.py", 900),
    Part("office/metrics_tried.py", 120, commands=("prometheus-node-exporter",)),
    Part("office/follow_tried.py", 900),
    Part("sqlite/restored.py", 900),
    Part("office/replay_tried.py", 900),
    Part("office/rebuild_tried.py", 300),
    Part("office/check_table_tried.py", 600),
    Part("program/full_register.py", 1800),
    Part("program/mutated.py --seconds 60", 900),
)

# What the scripts call, by the Debian package that has it. Those of one command stand together:
# the compiler needs the headers of the C library, mypy the types of what is not Python's own.
COMMANDS = {
    "bash": "bash", "chromedriver": "chromium-driver", "chromium": "chromium", "cmp": "diffutils",
    "curl": "curl", "gcc": "gcc libc6-dev", "groff": "groff-base", "mandoc": "mandoc",
    "mypy": "mypy python3-typeshed", "nginx": "nginx-light", "node": "nodejs", "openssl": "openssl",
    "shellcheck": "shellcheck", "sqlite3": "sqlite3", "strace": "strace",
}
# What parts of REST call besides.
MORE_COMMANDS = {
    "debootstrap": "debootstrap", "firefox-esr": "firefox-esr", "fish": "fish", "lintian": "lintian",
    "pdftotext": "poppler-utils", "prometheus-node-exporter": "prometheus-node-exporter", "readelf": "binutils",
    "systemd-nspawn": "systemd-container systemd", "tmux": "tmux", "zsh": "zsh",
}
MODULES = {"jsonschema": "python3-jsonschema", "selenium": "python3-selenium", "vobject": "python3-vobject",
           "yaml": "python3-yaml"}
# Debian's modules belong to its own interpreter.
INTERPRETERS = (sys.executable, "/usr/bin/python3")


# ---- what has to be there


def missing_modules(python: str) -> list[str]:
    """The modules that an interpreter has not; all, where there is no such interpreter."""
    return [module for module in MODULES if not shutil.which(python)
            or subprocess.run([python, "-c", f"import {module}"], capture_output=True, check=False).returncode]


def missing(commands: dict[str, str]) -> dict[str, str]:
    """Which of these commands, and which modules, are not there, each with its package. The commands of services stand
    where not everybody's PATH leads."""
    modules = missing_modules(INTERPRETERS[-1]) if all(map(missing_modules, INTERPRETERS)) else []
    return {name: package for name, package in commands.items()
            if not shutil.which(name) and not shutil.which(name, path="/usr/sbin")
            } | {name: MODULES[name] for name in modules}


def furnish(commands: dict[str, str]) -> dict[str, str]:
    """What is not there of what the scripts use, each with its package, after root has installed what it can."""
    lacking = missing(commands)
    if not lacking or os.geteuid() != 0 or not shutil.which("apt-get"):
        return lacking
    packages = sorted({name for wanted in lacking.values() for name in wanted.split()})
    print("gate: installs", *packages, flush=True)
    # Without a service that starts, as nginx would on the port of others.
    environment = {**os.environ, "DEBIAN_FRONTEND": "noninteractive", "RUNLEVEL": "1"}
    for words in (["update"], ["install", "--yes", "--no-install-recommends", *packages]):
        subprocess.run(["apt-get", "--quiet", "--quiet", *words], env=environment, check=False,
                       stdin=subprocess.DEVNULL, stdout=sys.stderr)
    return missing(commands)


def whys(part: Part, lacking: dict[str, str]) -> list[str]:
    """Why a part cannot run where these commands and modules are not there."""
    return [f"no {name} (Debian's {package})" for name, package in lacking.items()
            if name in part.commands or name not in MORE_COMMANDS
            ] + ["not root"] * (part.is_roots and os.geteuid() != 0)


# ---- the proofs and the scripts


def pass_on() -> tuple[int, int]:
    """Passes on what `rt ci` prints, and gives how many it counted as passed and as failed. A green one has passed
    some, failed none, and said so in its last line."""
    last = b""
    for line in sys.stdin.buffer:
        sys.stdout.buffer.write(line)
        sys.stdout.buffer.flush()
        last = line if line.strip() else last
    counts = COUNTS.fullmatch(last)
    passed, failed = map(int, counts.groups()) if counts else (0, 0)
    return passed, failed if passed > 0 and failed == 0 else max(failed, 1)


class Running:
    """A part that was begun: in a session of its own, so that it can be ended with all it began."""

    def __init__(self, part: Part, python: str, environment: dict[str, str]) -> None:
        self.part, self.begun, self.output = part, time.monotonic(), tempfile.TemporaryFile()
        script, *words = part.words.split()
        self.process = subprocess.Popen(
            [python, str(TOP / "checks" / script), *words], cwd=TOP, env=environment, stdin=subprocess.DEVNULL,
            stdout=self.output, stderr=subprocess.STDOUT, start_new_session=True)

    def seconds(self) -> float:
        return time.monotonic() - self.begun

    def is_over(self) -> bool:
        """Whether it has ended or is at its limit. It is not waited for yet: its number is kept."""
        return (self.seconds() > self.part.seconds
                or os.waitid(os.P_PID, self.process.pid, os.WEXITED | os.WNOHANG | os.WNOWAIT) is not None)

    def end(self) -> int:
        """Ends whatever is left of it, and gives its status."""
        with contextlib.suppress(ProcessLookupError):
            os.killpg(self.process.pid, signal.SIGKILL)
        return self.process.wait()

    def has_passed(self) -> bool:
        """Ends it, says how it ended, and gives whether it passed."""
        seconds, status, why = self.seconds(), self.end(), ""
        if status or seconds > self.part.seconds:
            why = f"status {status}" if seconds <= self.part.seconds else f"no end in {self.part.seconds} s"
        self.output.seek(0)
        sys.stdout.buffer.write(self.output.read() if why else b"")
        print(f"{self.part.name()}: {f'FAILED, {why}' if why else f'passed in {seconds:.0f} s'}", flush=True)
        return not why


def run_parts(parts: list[Part], program: str) -> int:
    """Runs the parts over a program, and gives how many of them failed."""
    python = next(python for python in INTERPRETERS if not missing_modules(python))
    waiting, running, failed = list(parts), list[Running](), 0
    with tempfile.TemporaryDirectory() as folder, tempfile.TemporaryDirectory(dir=in_memory(0)) as memory:
        environment = {**os.environ, "KEYREG": program, "PYTHONDONTWRITEBYTECODE": "1", "TMPDIR": folder,
                       "KEYREG_IN_MEMORY": memory}
        try:
            while waiting or running:
                free = CORES - sum(other.part.cores for other in running)
                if fitting := next((part for part in waiting if part.cores <= free), None):
                    waiting.remove(fitting)
                    running.append(Running(fitting, python, environment))
                    continue
                time.sleep(0.05)
                for over in [other for other in running if other.is_over()]:
                    running.remove(over)
                    failed += not over.has_passed()
        finally:
            for left in running:
                left.end()
    return failed


def main() -> None:
    words = argparse.ArgumentParser(description=__doc__, formatter_class=argparse.RawDescriptionHelpFormatter)
    modes = words.add_mutually_exclusive_group()
    for name in ("--all", "--furnish", "--behind-proofs"):
        modes.add_argument(name, action="store_true")
    words.add_argument("parts", nargs="*", metavar="PART")
    asked = words.parse_args()
    table = GATE + REST if asked.all else GATE
    known = [part.name() for part in table]
    if wrong := [name for name in asked.parts if name not in known]:
        words.error(f"no part {', '.join(wrong)}; there are {', '.join(known)}")
    parts = [part for part in table if not asked.parts or part.name() in asked.parts]
    # Whoever ends the gate ends what it began.
    signal.signal(signal.SIGTERM, lambda *_: sys.exit(1))
    passed, failed = pass_on() if asked.behind_proofs else (0, 0)
    program, left_out = str(BUILT) if asked.behind_proofs else PROGRAM, dict[str, list[str]]()
    if not failed:
        lacking = furnish(COMMANDS | MORE_COMMANDS if asked.all else COMMANDS)
        wants = [f"no program at {program}"] if not asked.furnish and not os.access(program, os.X_OK) else []
        if asked.all:
            left_out = {part.words: why for part in parts if (why := whys(part, lacking))}
        else:
            wants += [f"no {name}: Debian's package {package} has it" for name, package in lacking.items()]
        for line in [*wants, *(f"{part}: left out: {', '.join(why)}" for part, why in left_out.items())]:
            print(f"gate: {line}", flush=True)
        failed = len(wants)
        if not asked.furnish and not wants:
            can = [part for part in parts if part.words not in left_out]
            failed = run_parts(can, program)
            passed += len(can) - failed
    if failed or not asked.furnish:
        print(f"{passed} passed, {failed} failed" + f", {len(left_out)} left out" * asked.all, flush=True)
    sys.exit(1 if failed else 0)


main()
