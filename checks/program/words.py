#!/usr/bin/env python3
"""The program's words from outside: of each command its options, its exit status, its line on standard error and what
it writes, as docs/SPECIFICATION.md has them under "The program".

    checks/program/words.py [PART..]

The files are registers, what is none, paths of many bytes and of odd names, and files that are not there or not to be
read. A command copies the log into the database at its end: the database alone then holds the whole register. `serve`
serves exactly so many connections on exactly that port. Repeats take no memory. It needs Linux.
"""
import csv
import io
import itertools
import os
import pathlib
import re
import resource
import shutil
import signal
import socket
import subprocess
import sys
import tempfile
import time
from typing import Any, Sequence

sys.path.insert(1, str(pathlib.Path(__file__).resolve().parents[1] / "shared"))
from answers import BAD, get_reply, register_of
from places import PROGRAM, read
from registers import ACCEPTED, APPROVED_ANEW, APPROVED_ANEW_ROWS, EXPORT_COLUMNS, IMPORT_COLUMNS, OPTIONS, VERSION
from registers import File, Life, answered_and_killed, database, export_row, new_register, run_program, table_rows
from registers import words_for, write_first_version
from script import expect, fresh_folder, not_none, options, verdict
from serving import Served, begins_to_listen, free_port, get, listens

# So long, in seconds, a command may take, and so long a program is looked at that is not to end.
PATIENCE, GLANCE = 30, 0.2
# The most bytes of a path that Linux takes.
MOST_PATH = 4095
HEADER, ROW, IMPORTED = ",".join(IMPORT_COLUMNS) + "\n", "master,bob,,,,spare\n", "ok 2 Pre-Active 110\n"
# Of those that are accepted each has its first reply where it comes again.
LINES, REPLIES, AGAIN, FIRST_REPLIES = ("".join(text + "\n" for text in texts)
                                        for exchanges in (APPROVED_ANEW, ACCEPTED) for texts in zip(*exchanges))
EXPORTED = "".join(",".join(row) + "\n" for row in (EXPORT_COLUMNS, export_row(
    state="Destroyed-Compromised", destroyed="1970-01-01T00:01:48Z", compromised="1970-01-01T00:01:49Z",
    occurrence="1970-01-01T00:01:40Z")))
REPORTED = "Keys due for rotation by 1970-01-08T00:01:49Z\ntotal 0\n"
End = tuple[int, Any]
WELL: End = (0, "")
# clap's account of the words, in whatever words.
CLAPS: End = (1, None)
BAD_VALUE, STORE, STRANGER, NEWER, FULL_DISK, READ_FAULT, WRITE_FAULT, BAD_HEADER = (
    (status, f"keyreg: {name}\n") for status, name in (
        (1, "BadValue"), (2, "Store"), (2, "NotARegister"), (2, "NewerVersion"), (3, "Store"), (4, "ReadFault"),
        (4, "WriteFault"), (4, "BadHeader")))

# The greatest value that an option has, or one that looks like another option, and values that it has not.
VALUES = {
    "moment": ("253402300799", ("", "0100", "+1", "1970-01-01T00:00:00Z", "253402300800")),
    "caller": ("--first", ("", "a b", "\u00e4nn", "a" * 65)),
    "first": ("9007199254740991", ("", "0", "01", "9007199254740992", "18446744073709551617")),
    "days": ("36500", ("", "-1", "00", "1.5", "36501", "4294967296")),
    "port": ("65535", ("", "0", "08420", "65536")), "exchanges": ("1000000", ("", "0", "-1", "1000001")),
}
# A value that each option but --caller has, and its spellings that none has; likewise of --caller.
SEVEN = ("7", (" 7", "7 ", "7\n", "\t7", "007", "+7", "-7", "7.", "0x7", "\u0667"))
ANN = ("ann", (" ann", "ann ", "ann\n", "\tann", "ann\u00a0"))
# What is said first of words that are no command, or ask for help.
REQUIRED, FILE = "error: the following required arguments were not provided:", "'--file <FILE>'"
FIRST_LINES = [
    (["--help"], "The register of cryptographic keys: owners, purposes and lifecycles"),
    (["run", "--help"], "Applies the request lines of standard input, and writes their reply lines"),
    (["import", "--help"], "Registers a key for each row of the CSV of standard input, and writes the reply lines"),
    (["show"], "error: unrecognized subcommand 'show'"),
    (["--"], f"error: '{os.path.basename(PROGRAM)}' requires a subcommand but one was not provided"),
    (["init"], REQUIRED), (["export"], REQUIRED), (["report", "--file", "a"], REQUIRED),
    (["run", "--file"], f"error: a value is required for {FILE} but none was supplied"),
    (["run", "--file", "a", "b"], "error: unexpected argument 'b' found"),
    (["init", "--file", "a", "--file", "b"], f"error: the argument {FILE} cannot be used multiple times"),
    (["--file", "a"], "error: unexpected argument '--file' found"),
]


def look(words: Sequence[Any], wanted: End, output: str = "", given: Any = "", **how: Any) -> None:
    """Holds the program's end to a status and the text on standard error, and to the output."""
    source = given.encode() if isinstance(given, str) else given
    done = run_program(words, source, **{"timeout": PATIENCE, **how})
    written, error = (stream.decode() if stream else "" for stream in (done.stdout, done.stderr))
    is_claps = wanted == CLAPS and bool(error) and not error.startswith("keyreg: ")
    expect(done.returncode == wanted[0] and (is_claps or error == wanted[1]) and written == output,
           f"{str(words)[:400]}: status {done.returncode}, {error[:400]!r}, {written[:400]!r}, "
           f"where {wanted}, {output[:400]!r} are wanted")


def made(file: File, lines: str = LINES) -> File:
    """A register in a new file, with what the lines make of it."""
    new_register(file, lines.splitlines())
    return file


# ---- words and values


def look_at_wrong_words(folder: pathlib.Path) -> None:
    """Words that ask for help or are no command, and words of which one is no UTF-8."""
    file = folder / "never.keyreg"
    wrong: list[list[Any]] = [["--help"], ["-h"], ["--"], [""], ["show"], ["help"], ["Init"], ["ini"], ["--file", file],
                              ["--", "init", "--file", file]]
    for command in OPTIONS:
        whole = words_for(command, file)
        wrong += [[command, "--help"], [*whole, "--help"], [*whole, "more"], [command, "--", *whole[1:]],
                  [*whole, "--more", "1"]]
        for place in range(1, len(whole), 2):
            without = whole[:place] + whole[place + 2:]
            wrong += [without, [*without, whole[place]], [*whole, *whole[place:place + 2]]]
        for place, word in enumerate(whole):
            look([*whole[:place], word.encode() + b"\xff", *whole[place + 1:]], BAD_VALUE, given=LINES)
    for words in wrong:
        look(words, CLAPS, given=LINES)
    for words, first in FIRST_LINES:
        said = run_program(words, LINES.encode()).stderr.decode()
        expect(said.startswith(f"{first}\n"), f"{words}: {said!r} does not begin with {first!r}")
    # The newest version of CHANGES without a package's number, that of the tables, and the logic that README names.
    newest = not_none(re.search(r"^## ([0-9.]+)(?:-[0-9]+)?$", read("CHANGES.md"), re.M))[1]
    logic = not_none(re.search(r"logic ([0-9a-f]{16})", read("README.md")))[1]
    for word in ("--version", "-V"):
        look([word], (1, f"keyreg {newest} (tables of version {VERSION}, program logic {logic})\n"))
    expect(os.listdir(folder) == [], f"wrong words made {os.listdir(folder)}")


def look_at_values(folder: pathlib.Path) -> None:
    """A bad value is found before the file is looked at; a good one is none, so that the file is."""
    for command, values in OPTIONS.items():
        for name, (good, wrong) in itertools.chain.from_iterable(
                ((name, VALUES[name]), (name, ANN if name == "caller" else SEVEN)) for name in values):
            look(words_for(command, folder / "missing", **{name: good}), STORE, given=HEADER + ROW)
            for bad in wrong:
                look(words_for(command, folder / "missing", **{name: bad}), BAD_VALUE, given=HEADER + ROW)
    expect(os.listdir(folder) == [], f"values made {os.listdir(folder)}")


# ---- what each command does at a path

# Names that look like options or other kinds of a path, or that these end early or read otherwise: a query, a fragment,
# an escape, spaces before and behind, and the end of a log's name.
ODD_NAMES = ("-", "-file", "--help", "a b", "\u05de\u05e4\u05ea\u05d7", "none:memory:", "my file:x", "a?b", "a#b",
             "a%41", "a ", " a", "  a  ", "a-wal")


def look_at_life(folder: pathlib.Path, file: str) -> None:
    """Each command but `serve` over a new register in a file."""
    look(["init", "--file", file], WELL, cwd=folder)
    look(["run", "--file", file], WELL, REPLIES, LINES, cwd=folder)
    look(["export", "--file", file], WELL, EXPORTED, cwd=folder)
    look(words_for("report", file), WELL, REPORTED, cwd=folder)
    look(words_for("import", file, caller="-x"), WELL, IMPORTED, HEADER + ROW, cwd=folder)
    # The file alone holds the rows. SQLite's library opens no path of more than 512 bytes.
    rows = table_rows(shutil.copy(folder / file, folder / "copy"))["request"]
    os.remove(folder / "copy")
    wanted = [("-x", 1, "register master bob - - - spare", 2, 1, 110), *APPROVED_ANEW_ROWS["request"]]
    expect(rows == wanted, f"the requests kept at {file}: {rows}")
    look(["init", "--file", file], STRANGER, cwd=folder)
    look(["run", "--file", file], WELL, FIRST_REPLIES, AGAIN, cwd=folder)


def look_at_names(folder: pathlib.Path) -> None:
    look([], WELL, REPLIES, LINES)
    for name in ODD_NAMES:
        look_at_life(folder, name)
    there, logs = set(os.listdir(folder)), {f"{name}-wal" for name in ODD_NAMES}
    expect(set(ODD_NAMES) <= there <= logs.union(ODD_NAMES), f"files of odd names made {sorted(there)}")


def look_at_long_paths(folder: pathlib.Path) -> None:
    """The longest is the one beside which a journal of SQLite's, which is looked for too, can have its name. Beside one
    of as many bytes as there may be no log can, so that it is `Store`, and no other file than its own is made."""
    for length in (200, 255, 256, 300, 1100, 4000, MOST_PATH - len("-journal")):
        look_at_life(folder, long_path(folder, length))
    path = long_path(folder, MOST_PATH, 150)
    there = os.listdir(os.path.dirname(path))
    for command in OPTIONS:
        look(words_for(command, path), STORE, given=HEADER + ROW)
    others = {*os.listdir(os.path.dirname(path))} - {*there, os.path.basename(path)}
    expect(not others, f"a path of {MOST_PATH} bytes made {others}")


def long_path(folder: pathlib.Path, length: int, last: int = 100) -> str:
    """A path of so many bytes, or of as few as there can be: each part of it has under 100, and the last at most so
    many."""
    path = str(folder / "r")
    while len(os.fsencode(path)) < length - last:
        path = os.path.join(os.path.dirname(path), "d" * 80, "r")
    os.makedirs(os.path.dirname(path), exist_ok=True)
    return path + "e" * max(length - len(os.fsencode(path)), 1)


def look_at_no_files(folder: pathlib.Path) -> None:
    """Paths that name no file, a register with a slash behind it among them, and a file that is not there: nothing is
    made or changed."""
    before = pathlib.Path(made(folder / "register")).read_bytes()
    for path, command in itertools.product((":memory:", "file:x", "file::memory:", "", "gone/x", ".", "x", "x/",
                                            "register/", "register//", "register/."), OPTIONS):
        if (path, command) != ("x", "init"):
            look(words_for(command, path), STORE, given=HEADER + ROW, cwd=folder)
    there = {*os.listdir(folder)} - {"register-wal"}
    expect(there == {"register"}, f"paths of no file made {there}")
    expect((folder / "register").read_bytes() == before, "a register with a slash behind it changed")


# Files that are no registers, by their bytes or by a statement of SQL over a new file or a register; how they open, and
# how `init` ends over them.
STRANGERS = {
    "empty": (b"", STRANGER, WELL), "text": (b"hello, this is a text and no database\n" * 200, STORE, STORE),
    "short_text": (b"no database\n", STORE, STORE), "zeros": (b"\0" * 8192, STORE, STORE),
    "other": ("CREATE TABLE notes (note TEXT)", STRANGER, WELL),
    "table_of_the_name": ("CREATE TABLE quorum (note TEXT)", STRANGER, STRANGER),
    "newer": ("UPDATE meta SET version = 3", NEWER, STRANGER),
    "wrong_row": ("UPDATE meta SET key_count = 2", STRANGER, STRANGER),
}


def look_at_strangers(folder: pathlib.Path) -> None:
    for name, (made_by, opened, begun) in STRANGERS.items():
        file = folder / name
        if isinstance(made_by, bytes):
            file.write_bytes(made_by)
        elif isinstance(made_by, str):
            if made_by.startswith("UPDATE"):
                made(file)
            with database(file) as connection:
                connection.execute(made_by)
        before = file.read_bytes()
        for command in ("run", "export", "report", "import", "serve"):
            look(words_for(command, file), opened, given=HEADER + ROW)
        # An empty file may have become an empty database.
        expect(not before or file.read_bytes() == before, f"{name}: a file that is no register changed")
        look(["init", "--file", file], begun)
        expect(begun == WELL or file.read_bytes() == before, f"{name}: a file in which none is made changed")


def look_at_held(folder: pathlib.Path) -> None:
    """A register that another program holds."""
    file = made(folder / "held")
    with Life(file) as life:
        life.reply("200 zed 1 advance")
        for command in OPTIONS:
            look(words_for(command, file), STORE, given=LINES)


# ---- streams and files that fail


def look_at_streams(folder: pathlib.Path) -> None:
    file = folder / "streams"
    run, imports = ["run", "--file", file], words_for("import", file)
    with open("/dev/full", "wb") as full:
        look(["init", "--file", file], WELL, stdout=full)
        look(run, WRITE_FAULT, given=LINES, stdout=full)
        # The request in hand was applied, and none after it.
        kept = table_rows(file)["request"]
        expect(kept == APPROVED_ANEW_ROWS["request"][:1], f"run, output full: {kept}")
        calls: list[tuple[Sequence[Any], End, str]] = [
            ([], WRITE_FAULT, LINES), (["export", "--file", file], WRITE_FAULT, ""),
            (words_for("report", file), WRITE_FAULT, ""), (run, WELL, ""),
            (imports, WRITE_FAULT, HEADER + ROW), (["run"], CLAPS, "")]
        for words, wanted, given in calls:
            look(words, wanted, given=given, stdout=full)
    before, unread = table_rows(file), os.open(folder, os.O_RDONLY)
    for words in (list[Any](), run, imports):
        look(words, READ_FAULT, given=unread)
    os.close(unread)
    # Where the fault can be named nowhere, its status tells of it.
    with open("/dev/full", "wb") as full:
        for words, status in ((list[Any](), 4), (run, 4), (words_for("export", folder / "gone"), 2), (["show"], 1)):
            done = run_program(words, LINES.encode(), stdout=full, stderr=full)
            expect(done.returncode == status, f"{words}, both outputs full: status {done.returncode}, not {status}")
    look(imports, READ_FAULT, given=HEADER.encode() + b"\xff,b,,,,p\n")
    look(imports, BAD_HEADER, given=EXPORTED)
    look(run, WELL, given="200 ann 1 advance")
    expect(table_rows(file) == before, "input that could not be read changed the rows")


def look_at_full_disk(folder: pathlib.Path) -> None:
    """A file that may not grow ends a run by `Store`, with a prefix of the replies; opened again it goes on."""
    file, most = made(folder / "full_disk", ""), 60

    def limited(most_bytes: int = 200_000) -> None:
        signal.signal(signal.SIGXFSZ, signal.SIG_IGN)
        resource.setrlimit(resource.RLIMIT_FSIZE, (most_bytes, most_bytes))

    lines = [f"{place} ann {place} register master bob - - - {'x' * 150}\n" for place in range(1, most + 1)]
    replies = [f"ok {place} Pre-Active {place}\n" for place in range(1, most + 1)]
    with tempfile.TemporaryFile() as source:
        source.write("".join(lines).encode())
        source.seek(0)
        done = run_program(["run", "--file", file], source, preexec_fn=limited)
    answered = done.stdout.count(b"\n")
    is_prefix = 0 < answered < most and done.stdout.decode() == "".join(replies[:answered])
    expect(is_prefix and (done.returncode, done.stderr.decode()) == FULL_DISK, f"a file that may not grow: {done}")
    look(["run", "--file", file], WELL, "".join(replies), "".join(lines))
    # Nor is it want of memory where a register cannot be made, or one of version 1 not be taken on.
    write_first_version(first := folder / "first")
    for words in (["init", "--file", folder / "new"], ["run", "--file", first]):
        look(words, STORE, given=LINES, preexec_fn=lambda: limited(100))
    look(["run", "--file", first], WELL, FIRST_REPLIES, AGAIN)


def look_at_unreadable(folder: pathlib.Path) -> None:
    """A file that the program has no leave to read stays as it is. Root starts the program as another user."""
    file = made(folder / "unreadable", "")
    nobody: dict[str, Any] = {"user": 65534} if os.geteuid() == 0 else {}
    folder.chmod(0o777)
    for path in folder.iterdir():
        path.chmod(0)
    size, program = os.path.getsize(file), os.open(PROGRAM, os.O_RDONLY)
    for command in ("run", "init"):
        done = subprocess.run([f"/proc/self/fd/{program}", command, "--file", file], input=b"", capture_output=True,
                              check=False, pass_fds=[program], **nobody)
        end = (done.returncode, done.stderr.decode())
        expect(end == STORE and not done.stdout, f"{command} of a file without leave to read: {done}")
    os.close(program)
    expect(os.path.getsize(file) == size, "a file without leave to read changed")


# ---- readers of CSV, and memory

PURPOSES = ["disks, payroll", 'the "blue" disks', '"', '",",', "a\u2028b\u2029c\u0085d",
            "\u05de\u05e4\u05ea\u05d7, \u05d2\u05d9\u05d1\u05d5\u05d9", "=1+1", "\U0001f511 \u6771\u4eac"]


def look_at_readers(folder: pathlib.Path) -> None:
    """Python's csv reads an export back to the fields of an import that it wrote."""
    table, file = io.StringIO(), made(folder / "readers", "")
    csv.writer(table, lineterminator="\n").writerows(
        [IMPORT_COLUMNS, *(["master", "bob", "", "", "", purpose] for purpose in PURPOSES)])
    replies = "".join(f"ok {number} Pre-Active 100\n" for number in range(1, len(PURPOSES) + 1))
    look(words_for("import", file, moment="100"), WELL, replies, table.getvalue())
    exported = run_program(["export", "--file", file]).stdout.decode()
    rows = list(csv.reader(io.StringIO(exported, newline="")))
    wanted = [export_row(number=number, state="Pre-Active", purpose=purpose)
              for number, purpose in enumerate(PURPOSES, 1)]
    expect(rows == [list(EXPORT_COLUMNS), *wanted], f"Python's csv reads {rows}")


REGISTER, REGISTERED = "100 ann %d register data-encryption bob 0 - - payroll disks\n", "ok %d Active 100\n"
# What two runs over the same input differ by: some pages.
NOISE_KIB = 256
REPEATS, REGISTRATIONS = 100_000, 10_000


def peak_kib(numbers: Sequence[int], folder: pathlib.Path) -> int:
    """The greatest resident memory of a run in memory over the registrations of these numbers, which is read once all
    is answered and before its input ends."""
    output, wanted = folder / "out", "".join(REGISTERED % number for number in numbers)
    with open(output, "wb") as target, subprocess.Popen([PROGRAM], stdin=subprocess.PIPE, stdout=target) as process:
        not_none(process.stdin).write("".join(REGISTER % number for number in numbers).encode())
        not_none(process.stdin).flush()
        while os.path.getsize(output) < len(wanted) and process.poll() is None:
            time.sleep(0.01)
        status = pathlib.Path(f"/proc/{process.pid}/status").read_text(encoding="ascii")
        not_none(process.stdin).close()
    expect(process.returncode == 0 and output.read_text("ascii") == wanted,
           f"{len(numbers)} registrations in memory: status {process.returncode}, or other replies")
    return int(not_none(re.search(r"^VmHWM:\s*(\d+) kB$", status, re.M))[1])


def look_at_memory(folder: pathlib.Path) -> None:
    """Repeats take no memory, and a registration half a kilobyte at most, which is twice what it adds by the rows."""
    few, many = peak_kib([1] * 10, folder), peak_kib([1] * REPEATS, folder)
    most = peak_kib(range(1, REGISTRATIONS + 1), folder)
    print(f"in memory: ten repeats {few} KiB, {REPEATS} {many}, {REGISTRATIONS} registrations {most}", flush=True)
    expect(many <= few + NOISE_KIB and most <= few + REGISTRATIONS // 2, "that is too much memory")


# ---- the log, and what is served


def look_at_log(folder: pathlib.Path) -> None:
    """After each command the database holds the register without its log."""
    for command, given, output in (("run", "", ""), ("export", "", EXPORTED), ("report", "", REPORTED),
                                   ("import", HEADER + ROW, IMPORTED)):
        file, alone = made(folder / command, ""), folder / f"{command}_alone"
        answered_and_killed(file, LINES.splitlines())
        rows = table_rows(shutil.copy(file, alone))
        expect(rows["request"] == [], f"{command}: the log is copied before the end")
        look(words_for(command, file), WELL, output, given)
        rows, count = table_rows(shutil.copy(file, alone)), 2 if command == "import" else 1
        expect(len(rows["keys"]) == count and set(APPROVED_ANEW_ROWS["request"]) <= set(rows["request"]),
               f"the database of {command} alone: {rows}")
        look(["run", "--file", alone], WELL, FIRST_REPLIES, AGAIN)


def look_at_serve(folder: pathlib.Path) -> None:
    """So many connections are served at 127.0.0.1 alone, an empty one and one that asks for nothing among them; then
    the program ends, and the request stands in the database alone. Output that is full is not written to."""
    register, lines = register_of((100, "ann", 1, ("register", "master", "bob", None, None, None, "spare")))
    exchanges = [(get("/keys/1"), get_reply(register, 1, False)), (b"no request\r\n\r\n", BAD), (b"", b"")]
    for count, length in enumerate((100, 200, 300), 1):
        file = made(long_path(folder, length), lines[0])
        with Served(exchanges=count + 1, file=file) as served, socket.socket() as other:
            expect(other.connect_ex(("127.0.0.2", served.port)), "another address is served")
            for sent, wanted in exchanges[:count]:
                reply = served.raw(sent)
                expect(reply == wanted, f"serve {count + 1}: {reply!r} to {sent!r}")
                time.sleep(GLANCE)
                expect(not served.has_ended(), f"serve {count + 1} ended behind {sent!r}")
            served.answered(register, "zed", 1, ("advance",))
            fault = served.ended()
            expect(fault is None and not listens(served.port), f"serve {count + 1}: {fault}, or it listens still")
        kept = [row[:3] for row in table_rows(shutil.copy(file, folder / "alone"))["request"]]
        expect(kept == [("ann", 1, "register master bob - - - spare"), ("zed", 1, "advance")],
               f"the database of serve alone: {kept}")
    with socket.create_server(("127.0.0.1", 0)) as taken:
        held = str(taken.getsockname()[1])
        look(words_for("serve", file, port=held), READ_FAULT)
        look(words_for("serve", folder / "gone", port=held), STORE)
    port = free_port()
    with open("/dev/full", "wb") as full, subprocess.Popen([PROGRAM, *words_for("serve", file, port=str(port))],
                                                           stdout=full) as process:
        begins_to_listen(process, port)
        socket.create_connection(("127.0.0.1", port)).close()
        expect(process.wait(PATIENCE) == 0, f"serve, output full: status {process.returncode}")


PARTS = {part.__name__.removeprefix("look_at_"): part for part in (
    look_at_wrong_words, look_at_values, look_at_names, look_at_long_paths, look_at_no_files, look_at_strangers,
    look_at_held, look_at_streams, look_at_full_disk, look_at_unreadable, look_at_readers, look_at_memory, look_at_log,
    look_at_serve)}


def main() -> None:
    names = options(__doc__, tuple(PARTS)).parts
    for name in names:
        with fresh_folder() as folder:
            PARTS[name](folder)
    verdict(f"{len(names)} parts: the program's words are as the specification has them")


main()
