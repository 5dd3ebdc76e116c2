#!/usr/bin/env python3
"""What no contract can see stands in few places of the sources, and nowhere else.

    checks/sources/unseen_by_contracts.py

- What a read, a write or a flush answered: the marks that a stream failed or has something unflushed are named in the
  lines of MARKED alone, in a pattern or as a field, and so are the calls that set one. These are the turns of
  crates/streams, each a function of a few lines. So it is with what came of listening, accepting and asking for the
  moment.
- Whether memory gave out: the end 30, and the error that becomes it, is told in PLACES, behind a call that asks for
  memory, or where a count of bytes would pass 2^64. None asks for room beforehand, so that no more is asked for than a
  value needs.
- Whether a call of the database was refused, which no contract of `sqlite`'s ties to what it left: the end 31, the
  refusal and the errors that become it, and the mark of a broken desk, are made in PLACES, each behind such a call, or
  behind a row that no register holds. The one `sqlite::Error` that is made here is that of rows past 2^64.
- How often a connection was called: each function of `Counted` makes the calls of CALLS, once.
- What a crate of the program touches of the machine. A function reaches a file, a connection, a clock or the program's
  words only through what it is given: the calls of `std` that do take the runtime, or a value under one of its bounds.
  So where neither a word of GIVEN nor a runtime stands, no function reaches them.
- What has the runtime, and of which contracts say little, and loops over rows that might end too early: these stand
  word by word in held.rt.txt too, without comments and empty lines.
"""
import collections
import difflib
import pathlib
import re
import sys
from typing import Iterator

sys.path.insert(1, str(pathlib.Path(__file__).resolve().parents[1] / "shared"))
from places import listed, read
from contracts import bare, functions_of, stands_on
from script import options, verdict

# Of the files of a pattern: the words that mark, and by function the lines of bodies that have one.
MARKED = {
    "crates/streams/src/**/*.rt": (re.compile(r"\b(?:failed|unflushed|count_failed|count_error)\b"), {
        "count_error": ["self.count_failed();"],
        "count_failed": ["self.failed = true;"],
        "flush_turn": ["self.unflushed = false;", "Err(error) => self.count_error(&error),"],
        "has_failed": ["self.failed"],
        "into_inner": ["failed: _,", "unflushed: _,"],
        "new": ["failed: false,", "unflushed: false,"],
        "read_turn": ["Err(error) => self.count_error(&error),"],
        "write_turn": ["self.count_failed();", "self.unflushed = true;", "Err(error) => self.count_error(&error),"],
    }),
    "crates/register_http/src/attendance.rt": (re.compile(r"\b(?:failed|accepted)\b"), {
        "accept": ["self.accepted += 1;", "self.failed = true;"],
        "accepted": ["self.accepted"],
        "has_failed": ["self.failed"],
        "listen": ["self.failed = true;"],
        "new": ["accepted: 0,", "failed: false,"],
        "tell_moment": ["self.failed = true;", "self.failed = self.failed || moment.is_none();"],
    }),
}
# The most lines of the body of a turn, and of what it calls.
TURNS, MOST_LINES = "crates/streams/src/watched/turns.rt", 14

# In how many places a file makes an end, an error or a refusal that says that memory gave out, and in how many one that
# says that a call of the database was refused. One that is handed on under another name counts, one that is looked at
# does not: a value counts, and no pattern of a match, nor of an `if let`, nor a type.
PLACES = {
    "register_desk/src/desk.rt": (0, 1),
    "register_desk/src/desk/applying.rt": (0, 2),
    "register_desk/src/desk/listing.rt": (0, 2),
    "register_desk/src/desk/look_ups.rt": (0, 2),
    "register_desk/src/end.rt": (2, 1),
    "register_desk/src/opened_tables.rt": (0, 1),
    "register_desk/src/opening.rt": (1, 1),
    "register_desk/src/rows.rt": (0, 1),
    "disk_files/src/disk_files.rt": (0, 1),
    "disk_files/src/opening.rt": (1, 1),
    "http_messages/src/asking.rt": (3, 0),
    "http_messages/src/route.rt": (2, 0),
    "key_rows/src/export.rt": (3, 0),
    "keyreg/src/main.rt": (1, 0),
    "memory_disk/src/lib.rt": (1, 0),
    "register_http/src/exchanging.rt": (1, 0),
    "register_in_memory/src/lib.rt": (1, 1),
    "register_checks/src/refusal.rt": (2, 1),
    "register_schema/src/refusal.rt": (0, 1),
    "register_program/src/faults.rt": (3, 1),
    "register_program/src/refused.rt": (1, 1),
    "register_report/src/importing.rt": (2, 0),
    "register_report/src/table_writing.rt": (1, 1),
    "register_rows/src/stored_key.rt": (0, 1),
    "register_tables/src/counted.rt": (0, 3),
    "register_tables/src/error.rt": (1, 1),
    "row_checks/src/reading.rt": (1, 4),
}
MEMORY = re.compile(r"\b(?:End|OpenRefusal|ConnectError|AskFault|StoreError|CheckError|RowsError)::Memory\b"
                    r"(?!\)*\s*(?:=>|=[^=]|\|)|\.fmt)|(?<![<,:] )(?<!<)\bAllocError\b(?!>)")
REFUSAL = re.compile(r"\b(?:(?:End|OpenRefusal|ConnectError)::Store|StoreError::NoRegister"
                     r"|(?:StoreError|CheckError|CreateError|RowsError)::Database|(?<!\w)Error::SqliteFailure)\b"
                     r"(?!(?:\([^()]*\))?\)*\s*(?:=>|=[^=]|\|)|\.fmt)"
                     r"|\bis_broken = |\bis_broken: true")
# What asks for room beforehand, or for any room at all, whose refusal is want of memory; and the lines of a file in
# memory, which is as long as it was asked to be.
ROOM = re.compile(r"\b(?:with_capacity|(?:try_)?reserve(?:_exact)?|from_elem|repeat(?:_n)?|usize::MAX)\b"
                  r"|\.(?:resize(?:_with)?|extend)\(|\bvec!\[[^\]]*;")
ROOM_OF_FILES = {("crates/memory_disk/src/lib.rt", "file.resize(len, 0)")}

# What each function of counted.rt that calls a connection, or one of these, calls.
COUNTED = "crates/register_tables/src/counted.rt"
CALLS = {
    "execute": {"execute": 1},
    "find_one_row": {"query_row": 1},
    "query_all": {"query_all": 1},
    "transact": {"run_in_transaction": 1},
    "run_in_transaction": {"transaction": 1, "run": 1, "commit": 1, "rollback": 1},
}
CALL = re.compile(r"(?:\.|::|(?<!fn )\b)"
                  r"(execute|query|query_row|query_all|transaction|run|run_in_transaction|commit|rollback)\(")

# The code that stands in held.rt.txt beside this script too: of a file all, or these functions.
HELD: dict[str, tuple[str, ...]] = {
    "crates/keyreg/src/main.rt": (),
    "crates/disk_files/src/network.rt": (),
    "crates/disk_files/src/opening.rt": ("of_no_file", "connect_error", "open_files"),
    "crates/disk_files/src/disk_files.rt": ("connect",),
    "crates/row_checks/src/reading.rt": ("check_rows_left",),
    "crates/register_desk/src/desk/listing.rt": ("next_row_by_number", "next_due_row_by_stop"),
    "crates/register_report/src/table_writing.rt": ("put_and_count_listed_rows",),
}

# The word, as it stands in code, and the crates in which it may.
GIVEN: dict[str, tuple[str, set[str]]] = {
    "the runtime": (r"\bHostRuntime\b", {"disk_files", "keyreg"}),
    "files": (r"\bstd::fs\b", {"disk_files"}),
    "the network": (r"\bstd::net\b|\bTcp(?:Stream|Listener)\b|\bNet\b", {"disk_files"}),
    "words and the environment": (r"\bstd::env\b|\benv::", {"keyreg"}),
    "processes, threads and the system": (r"\bstd::(?:thread|os|sync)\b|\b(?:Processes|Threads|Abort|Wait)\b", set()),
    "the end of the program": (r"\bstd::process\b", {"keyreg"}),
    "a clock": (r"\b(?:Clock|Instant|SystemTime)\b", {"register_http", "register_program", "disk_files"}),
    "standard streams": (r"\.std(?:in|out|err)\(\)", {"keyreg"}),
    # Above the crates of the store nothing speaks SQL: the desk alone names them, with the crate that gives them
    # out, and no code makes a call of a counted connection that takes a statement.
    "statements": (r"\.(?:find_one_row|query_all|transact)\(", {"register_rows", "register_tables"}),
    "the tables": (r"\bregister_(?:tables|rows|checks|schema)::",
                   {"register_checks", "register_desk", "register_rows", "register_schema", "register_store"}),
}


def lines_of(path: str) -> list[str]:
    """The lines of a file, without comments."""
    return [*map(bare, read(path).split("\n"))]


def given_faults() -> Iterator[str]:
    """Where a word of the machine stands in a crate that it is not given, or in none of one that it is."""
    for what, (word, allowed) in GIVEN.items():
        having = {crate for crate in stands_on() if not crate.startswith("test_") and any(
            re.search(word, line) for path in listed(f"crates/{crate}/src/**/*.rt") for line in lines_of(path))}
        yield from (f"{crate} {'names' if crate in having else 'is given, and does not name,'} {what}"
                    for crate in sorted(having ^ allowed))


def held_lines(path: str, names: tuple[str, ...]) -> list[str]:
    """The lines of a file, or of these functions of it, that are no comment and not empty."""
    lines = [line for function in functions_of(path) if function.name in names
             for line in (f"fn {function.name}", *function.body)] if names else lines_of(path)
    return [*filter(None, lines)]


def held_faults() -> Iterator[str]:
    """Where code differs from the text that holds it."""
    stands = [line for path, names in HELD.items() for line in held_lines(path, names)]
    differences = difflib.unified_diff(read("checks/sources/held.rt.txt").splitlines(), stands, n=0, lineterm="")
    yield from (f"not as in held.rt.txt: {line}" for line in [*differences][2:])


def mark_faults() -> Iterator[str]:
    """Where what came of a stream, the network or the clock is marked otherwise."""
    for files, (mark, wanted) in MARKED.items():
        marked = collections.defaultdict[str, list[str]](list)
        for function in (function for path in listed(files) for function in functions_of(path)):
            marked[function.name] += [line.strip() for line in function.body if mark.search(line)]
        yield from (f"{files}: {name} names marks in {marked.get(name)}" for name in sorted({*marked, *wanted})
                    if marked.get(name) != wanted.get(name, []))
    yield from (f"{TURNS}: {function.name} has {len(function.body)} lines"
                for function in functions_of(TURNS) if len(function.body) > MOST_LINES)


def place_faults() -> Iterator[str]:
    """Where want of memory or a refused call is told in more places than it should be, or in fewer, and where room is
    asked for beforehand: in crates that are no tests, without imports and clauses."""
    lines = [(path, line) for path in listed("crates/*/src/**/*.rt") if not path.startswith("crates/test_")
             for line in lines_of(path) if "use " not in line and "ensures" not in line]
    yield from (f"{path} asks for room: {line.strip()}" for path, line in lines
                if ROOM.search(line) and (path, line.strip()) not in ROOM_OF_FILES)
    for at, (what, word) in enumerate((("want of memory", MEMORY), ("a refused call", REFUSAL))):
        told = [(path, line.strip()) for path, line in lines for _ in word.findall(line)]
        counts = collections.Counter(path.removeprefix("crates/") for path, _ in told)
        for file in sorted({*counts, *PLACES}):
            wanted = PLACES.get(file, (0, 0))[at]
            if counts[file] != wanted:
                yield f"{file} tells {what} in {counts[file]} places, and not in {wanted}:"
                yield from (f"    {line}" for path, line in told if path == f"crates/{file}")


def call_faults() -> Iterator[str]:
    """Which functions of a counted connection call it otherwise, or in a loop."""
    bodies = {function.name: "\n".join(function.body) for function in functions_of(COUNTED)}
    for name in sorted({*bodies, *CALLS}):
        calls = dict(collections.Counter(CALL.findall(bodies.get(name, ""))))
        if calls != CALLS.get(name, {}) or re.search(r"\b(for|while|loop)\b", bodies.get(name, "")):
            yield f"{COUNTED}: {name} calls {calls}, and not {CALLS.get(name, {})}, once"


def main() -> None:
    options(__doc__)
    faults = [*mark_faults(), *place_faults(), *call_faults(), *given_faults(), *held_faults()]
    memory, refused = map(sum, zip(*PLACES.values()))
    verdict(f"marks of streams, {memory} places that make want of memory, {refused} a refused call, {len(CALLS)} "
            f"functions that call a connection, {len(GIVEN)} words of the machine, code of {len(HELD)} files: "
            f"{len(faults)} faults", faults)


main()
