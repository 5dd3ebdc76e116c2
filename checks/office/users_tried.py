#!/usr/bin/env python3
"""Users before a register, by office/users.py: nginx takes who was added, at once and by the newest password alone,
also where a name had two lines; it refuses who was taken out. What is no caller's name, or no password, changes
nothing.

    checks/office/users_tried.py

It needs Debian's nginx-light, and openssl.
"""
import base64
import grp
import os
import pathlib
import pty
import stat
import sys
import time

sys.path.insert(1, str(pathlib.Path(__file__).resolve().parents[1] / "shared"))
from nginx import HOST, USERS, Guard
from script import expect, verdict
from serving import free_port, head, received
from tools import run_tool, words_of

NAMES_THAT_ARE_NONE = ("", "jörg müller", "a b", "a:b", "a\nb", "x" * 65, "#a")
# What Basic authentication may carry, and a shell, a file of passwords or openssl may trip over.
ODD = ("a:b", "ü ö", "$6$x", "' \"", "{PLAIN}a", "x" * 200)


def status_for(guard: Guard, user: str, word: str) -> int:
    """How nginx answers who gives this password."""
    pair = base64.b64encode(f"{user}:{word}".encode()).decode()
    with guard.connected() as connection:
        connection.sendall(head("GET /me HTTP/1.1", f"Host: {HOST}", f"Authorization: Basic {pair}",
                                "Connection: close"))
        return int(received(connection).split()[1])


def call(file: pathlib.Path, status: int, *words: str, word: str = "") -> list[str]:
    """Calls the script with this line of standard input, which ends so, and gives the lines that it prints. A fault
    changes nothing."""
    before = file.read_bytes() if file.exists() else b""
    done = run_tool("users", *words, "--file", file, input=f"{word}\n".encode())
    expect(done.returncode == status, f"users {words}: {done}, not {status}")
    expect(status == 0 or file.read_bytes() == before and done.stderr, f"users {words} has changed the file: {done}")
    return done.stdout.decode().splitlines()


def typed(file: pathlib.Path, user: str, *passwords: str) -> tuple[int, str]:
    """Types the passwords in a terminal, each as it is asked for; the status, and what was shown."""
    process, terminal = pty.fork()
    if not process:
        os.execvp(sys.executable, words_of("users", "set", user, "--file", file))
    shown = ""
    for word in passwords:
        while not shown.endswith(": "):
            shown += os.read(terminal, 4096).decode()
        # The terminal hides what is typed a moment later.
        time.sleep(0.3)
        os.write(terminal, f"{word}\n".encode())
        shown += "\n"
    try:
        while piece := os.read(terminal, 4096):
            shown += piece.decode()
    except OSError:
        pass
    os.close(terminal)
    return os.waitstatus_to_exitcode(os.waitpid(process, 0)[1]), shown


def changed(guard: Guard, file: pathlib.Path) -> int:
    """Users who come, change and go, each tried; how many passwords were tried."""
    tried = 0

    def expect_only(user: str, *words: tuple[str, int]) -> None:
        nonlocal tried
        for word, wanted in words:
            status = status_for(guard, user, word)
            expect(status == wanted, f"{user} by {word}: {status}, not {wanted}")
            tried += 1
        for other, word in USERS.items():
            expect(status_for(guard, other, word) == 200, f"{other} is refused")

    expect_only("bob", ("one", 401))
    call(file, 0, "set", "bob", word="one")
    expect_only("bob", ("one", 200), ("two", 401))
    call(file, 0, "set", "bob", word="two")
    expect_only("bob", ("one", 401), ("two", 200))
    # What comes of a line that is added by hand: nginx takes the first one of a name.
    file.write_text("# the office\nbob:{PLAIN}three\n" + file.read_text("utf-8"), "utf-8")
    expect_only("bob", ("two", 401), ("three", 200))
    call(file, 0, "set", "bob", word="four")
    expect_only("bob", ("two", 401), ("three", 401), ("four", 200))
    expect(call(file, 0, "list") == [*USERS, "bob"], f"the users are {call(file, 0, 'list')}")
    expect(file.read_text("utf-8").startswith("# the office\n"), "a remark is lost")
    status, shown = typed(file, "bob", "five", "five")
    expect(status == 0 and "five" not in shown, f"in a terminal: {status}, {shown}")
    expect_only("bob", ("four", 401), ("five", 200))
    status, shown = typed(file, "bob", "six", "seven")
    expect(status == 1, f"of two passwords that differ: {status}, {shown}")
    expect_only("bob", ("six", 401), ("seven", 401), ("five", 200))
    for word in ODD:
        call(file, 0, "set", "bob", word=word)
        expect_only("bob", (word, 200), ("five", 401))
    told = " ".join(call(file, 0, "remove", "bob"))
    expect(all(word in told for word in ("owns", "custodian", "requests")), f"what bob leaves behind is told as {told}")
    expect_only("bob", *((word, 401) for word in ("one", "four", "five", ODD[-1])))
    return tried


def refused(file: pathlib.Path) -> None:
    """What changes nothing."""
    for name in NAMES_THAT_ARE_NONE:
        call(file, 1, "set", name, word="one")
    call(file, 1, "set", "bob")
    call(file, 1, "remove", "bob")
    call(file, 2, "set")


def kept_from_others(guard: Guard, file: pathlib.Path) -> None:
    """Who may read the file: a group that it had, of a new one nginx's."""
    group = 1 if os.geteuid() == 0 else os.getegid()
    os.chown(file, -1, group)
    file.chmod(0o640)
    call(file, 0, "set", "bob", word="one")
    new, nginx = guard.folder / "new", grp.getgrgid(os.getegid()).gr_name if os.geteuid() else "www-data"
    call(new, 0, "set", "bob", "--group", nginx, word="one")
    for path in (file, new):
        told = path.stat()
        expect(stat.S_IMODE(told.st_mode) == 0o640, f"{path.name} has mode {oct(told.st_mode)}")
        wanted = group if path == file else grp.getgrnam(nginx).gr_gid
        expect(told.st_gid == wanted, f"{path.name} has group {told.st_gid}, not {wanted}")
        expect(":$6$" in path.read_text("utf-8"), f"{path.name} has a password as it is typed")


def main() -> None:
    with Guard(free_port()) as guard:
        file = guard.folder / "users"
        tried = changed(guard, file)
        refused(file)
        kept_from_others(guard, file)
    verdict(f"users come, change and go: nginx took or refused each of {tried} passwords as it had to")


main()
