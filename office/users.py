#!/usr/bin/env python3
"""Adds, changes and takes out users of nginx-keyreg.conf, whose lines stand in a file of passwords.

    users.py set NAME [--file FILE] [--group GROUP]
    users.py remove NAME [--file FILE]
    users.py list [--file FILE]

set     gives the user the password that is asked for twice in a terminal, or is a line of standard input
remove  takes the user out, and says what is left behind
list    prints the names

FILE is /etc/nginx/keyreg.users where none is named. nginx takes the first line of a name, so `set` leaves no other one:
the password before is refused from then on. nginx reads the file with each exchange; a new one is moved into the place
whole. The first belongs to GROUP (www-data), which may read it; each later one has owner, group and mode of the former.

A user's name is a caller's, and no other is taken. It needs openssl. The status is 0 where it is done, 1 where nothing
was changed, 2 where words are wrong.
"""
import argparse
import contextlib
import getpass
import os
import shutil
import subprocess
import sys
import tempfile
from typing import Iterable, Optional

# What is read from beside this file leaves none there.
sys.dont_write_bytecode = True
from register_rules import NAME

# What a user leaves behind.
LEFT = """{0} is no user any more. In the register
- keys that {0} owns wait: {0} alone assigns them, so set a password once more and assign them by that
- approvals of {0} stand until each key's owner removes {0} as a custodian
- requests of {0} stay for good: give the name to nobody else
The desk lists these keys, under *Who leaves*, and a copy of the register: docs/AUDIT.md, the view `part`."""
# Of a new file: its owner writes it and its group reads it.
MODE = 0o640


class Refused(Exception):
    """What is asked cannot be done, and nothing was changed."""


def lines_of(path: str) -> list[str]:
    """The lines of the file, none where it is not there."""
    try:
        with open(path, encoding="utf-8", errors="surrogateescape") as file:
            return file.read().splitlines()
    except FileNotFoundError:
        return []


def name_of(line: str) -> Optional[str]:
    """The user of a line; None of a remark."""
    name, colon, _ = line.partition(":")
    return name if colon and not line.startswith("#") else None


def put(path: str, lines: Iterable[str], group: str) -> None:
    """Moves a file of these lines into the place, whole."""
    handle, other = tempfile.mkstemp(prefix=".keyreg-", dir=os.path.dirname(os.path.abspath(path)))
    try:
        with os.fdopen(handle, "w", encoding="utf-8", errors="surrogateescape") as file:
            file.writelines(line + "\n" for line in lines)
            file.flush()
            os.fsync(handle)
        if os.path.exists(path):
            stands = os.stat(path)
            os.chown(other, stands.st_uid, stands.st_gid)
            os.chmod(other, stands.st_mode & 0o777)
        else:
            shutil.chown(other, group=group)
            os.chmod(other, MODE)
        os.replace(other, path)
    finally:
        # It is there still where it could not be moved.
        with contextlib.suppress(OSError):
            os.remove(other)


def asked_password(name: str) -> str:
    """The password that is typed twice in a terminal, or that is the next line of standard input."""
    if not sys.stdin.isatty():
        password = sys.stdin.readline().rstrip("\n")
    else:
        password = getpass.getpass(f"{name}, password: ")
        if getpass.getpass("The same password: ") != password:
            raise Refused("the two passwords differ")
    if not password:
        raise Refused("no password was given")
    return password


def hashed(password: str) -> str:
    """The password as the file has it, by openssl's SHA-512."""
    done = subprocess.run(["openssl", "passwd", "-6", "-stdin"], input=password + "\n", capture_output=True, text=True,
                          check=False)
    if done.returncode or not done.stdout.startswith("$6$"):
        raise Refused(f"openssl: {done.stderr.strip()}")
    return done.stdout.strip()


def acted(words: argparse.Namespace) -> list[str]:
    """Does what the words ask, and gives the lines that tell it."""
    lines = lines_of(words.file)
    if words.act == "list":
        return list(dict.fromkeys(filter(None, map(name_of, lines))))
    if not NAME.fullmatch(words.name):
        raise Refused(f"{words.name!r} is no caller's name: 1 to 64 ASCII letters, digits, `-`, `_`, `.` and `@`")
    others = [line for line in lines if name_of(line) != words.name]
    if words.act == "set":
        put(words.file, [*others, f"{words.name}:{hashed(asked_password(words.name))}"], words.group)
        return [f"{words.name} has {'this password now' if others != lines else 'a password'}"]
    if others == lines:
        raise Refused(f"{words.name} is no user")
    put(words.file, others, "")
    return [LEFT.format(words.name)]


def main() -> int:
    words = argparse.ArgumentParser(description="Adds, changes and takes out users before a register.")
    acts = words.add_subparsers(dest="act", required=True)
    for act in ("set", "remove", "list"):
        of_act = acts.add_parser(act)
        of_act.add_argument("--file", default="/etc/nginx/keyreg.users")
        if act != "list":
            of_act.add_argument("name", metavar="NAME")
        if act == "set":
            of_act.add_argument("--group", default="www-data")
    try:
        for line in acted(words.parse_args()):
            print(line)
    except (Refused, OSError, LookupError) as fault:
        print(f"users: {fault}", file=sys.stderr)
        return 1
    return 0


if __name__ == "__main__":
    sys.exit(main())
