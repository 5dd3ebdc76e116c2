"""What the checks of the programs of office/ share: runs of them, and large registers."""
import subprocess
import sys
from typing import Any, Iterable

from places import OFFICE
from registers import File, keyreg

BEGUN = 1_700_000_000


def words_of(name: str, *words: Any) -> list[str]:
    return [sys.executable, str(OFFICE / f"{name}.py"), *map(str, words)]


def run_tool(name: str, *words: Any, **how: Any) -> subprocess.CompletedProcess:
    """Runs a program of office/ to its end."""
    usual: dict[str, Any] = {"capture_output": True, "check": False}
    return subprocess.run(words_of(name, *words), **{**usual, **how})


def exported(file: File) -> str:
    return "".join(line + "\n" for line in keyreg(["export", "--file", file]))


def many_requests(count: int, kinds: Iterable[str], purposes: Iterable[str]) -> list[str]:
    """So many requests: as many registrations as additions of a custodian. Types and purposes take turns."""
    numbers, kinds, purposes = range(1, count // 2 + 1), list(kinds), list(purposes)
    return [*(f"{BEGUN + n} ann {n} register {kinds[n % len(kinds)]} bob {BEGUN + n} - - {purposes[n % len(purposes)]}"
              for n in numbers),
            *(f"{BEGUN + count + n} bob {n} add-custodian {n} cat" for n in numbers)]
