"""A root with Debian's base, the package that goes into it, and the blocks of commands of a page.

The base has nothing of what the pages have a person install, and what they name alone is brought in by their words."""
import os
import pathlib
import re
import subprocess
import sys
from typing import Any

from places import PROGRAM, TOP
from document_commands import anchor_of
from script import expect, not_none, output_of

PACKAGES = TOP / "packages"
MIRROR = "http://deb.debian.org/debian"
# What a machine has that boots.
BASE = ("systemd", "systemd-sysv", "dbus")
# What the pages have a person install, by its commands.
NAMED = ("curl", "nginx", "openssl", "python3", "sqlite3")
# Installing asks nothing, and starts no service.
ALONE = ("env", "DEBIAN_FRONTEND=noninteractive", "RUNLEVEL=1")


def call(*words: Any, **more: Any) -> subprocess.CompletedProcess:
    return subprocess.run([*map(str, words)], capture_output=True, text=True, check=False, **more)


def made_package() -> pathlib.Path:
    """The package of Debian, made of the program."""
    output_of([TOP / "package"], env={**os.environ, "KEYREG": PROGRAM})
    return next(PACKAGES.glob("*.deb"))


def make_base(root: pathlib.Path, base: str, mirror: str) -> None:
    """Debian's base in a root, with nothing that the pages have a person install: a copy of a folder, or what
    debootstrap fetches. apt knows what there is."""
    if base:
        output_of(["cp", "-a", base, root])
    else:
        print("fetching Debian's base", file=sys.stderr)
        output_of(["debootstrap", "--variant=minbase", f"--include={','.join(BASE)}", "bookworm", root, mirror])
    output_of(["chroot", root, "apt-get", "--quiet", "--quiet", "update"])
    expect(not (there := present(root)), f"the base has {there}, which the pages have a person install")


def present(root: pathlib.Path) -> list[str]:
    """Which of the commands that the pages have a person install are there."""
    return [name for name in NAMED if any((root / folder / name).exists() for folder in ("usr/bin", "usr/sbin"))]


def row_words(page: pathlib.Path, name: str) -> str:
    """What the row of this name in the table of *Packages* has a person type; a name of a unit is no command."""
    row = not_none(re.search(rf"(?m)^\| {name} \| (.*) \|$", page.read_text("utf-8")))[1]
    return "\n".join(words for words in re.findall(r"`([^`]*)`", row) if " " in words)


def blocks_of(page: pathlib.Path) -> dict[str, list[list[str]]]:
    """The blocks of commands of a page, fenced as `sh` or indented, by the names of their headings' links."""
    by_heading: dict[str, list[list[str]]] = {}
    heading, block, fence, before = "", list[str](), "", ""
    for line in [*page.read_text("utf-8").split("\n"), ""]:
        is_indented = not fence and line.startswith("    ") and (block or not before)
        if fence and not line.startswith("```"):
            block.append(line)
        elif is_indented:
            block.append(line[4:])
        else:
            if block and fence in ("", "sh"):
                by_heading[heading].append(block)
            block, fence = [], line[3:] or "none" if line.startswith("```") and not fence else ""
            if line.startswith("#"):
                heading = anchor_of(line)
                by_heading[heading] = []
        before = line.strip()
    return by_heading
