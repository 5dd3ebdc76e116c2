#!/usr/bin/env python3
"""The worked rows of docs/WORKED.md, which are read there, put to the program.

    checks/program/worked.py [PART..]

    lines    request lines with a reply each, over no file and over one. Then keys are shown as the row says, and every
             row of the file's tables is that of the rules of office/register_rules.py
    tables   imports, exports and reports
    files    registers in files: made twice, over several lives, changed by others, and of version 1; and bad values

Each row of the page is put to the program by one of these, but for exchanges, which exchanges_by_curl.py has.
"""
import csv
import io
import pathlib
import re
import sys

sys.path.insert(1, str(pathlib.Path(__file__).resolve().parents[1] / "shared"))
from answers import reply_line
from register_rules import Register, request_of
from registers import VERSION, File, database, expect_replies, keyreg, new_register, run_program, table_rows, words_for
from registers import write_register
from rules_shown import moment_text, tables
from script import expect, fresh_folder, not_none, options, verdict
from worked_rows import Fact, cells, exchanges_of, ticked, worked_rows

HEADER = "type,owner,activation,protect_stop,deactivation,purpose\n"
WELL, STRANGER, NEWER, BAD_VALUE, BAD_HEADER = (
    (status, name and f"keyreg: {name}\n") for status, name in (
        (0, ""), (2, "NotARegister"), (2, "NewerVersion"), (1, "BadValue"), (4, "BadHeader")))


def look(name: str, words: list[str], end: tuple[int, str], output: str = "", given: str = "") -> None:
    """Holds the program's status, its line on standard error and what it writes to those of a row."""
    done = run_program(words, given.encode())
    found = (done.returncode, done.stderr.decode()), done.stdout.decode()
    expect(found == (end, output), f"*{name}*: {words} end with {found}, where {(end, output)} is wanted")


def lines_of(texts: list[str]) -> str:
    return "".join(f"{text}\n" for text in texts)


def register_in(file: File, name: str) -> None:
    """Makes the register of a row in a new file."""
    new_register(file)
    expect_replies(file, exchanges_of(name))


# ---- request lines


def rules_after(lines: list[str]) -> Register:
    """The register of the rules after these lines, of which some may be no requests."""
    register = Register()
    for line in lines:
        try:
            reply_line(register, *request_of(line)[:4])
        except ValueError:
            pass
    return register


def shown_by(file: File, fact: Fact, keys: dict[str, dict[str, str]]) -> object:
    """What is shown in the place of a fact, by an export and by the tables of the file."""
    rows = table_rows(file)
    if fact.what == "latest":
        return rows["meta"][0][2]
    if fact.what in ("custodian", "approval"):
        return [name for key, name in rows[fact.what] if key == fact.key]
    of_key = keys.get(str(fact.key))
    return None if of_key is None else of_key[fact.what] if fact.what != "none" else "a key"


def look_at_facts(name: str, file: File, facts: list[Fact]) -> None:
    done = run_program(["export", "--file", file])
    expect(done.returncode == 0, f"*{name}*: an export ends with {done.returncode}, {done.stderr.decode()!r}")
    keys = {row["number"]: row for row in csv.DictReader(io.StringIO(done.stdout.decode()))}
    for fact in facts:
        is_date = fact.key and fact.what not in ("state", "none", "custodian", "approval")
        wanted = moment_text(fact.value) if is_date else fact.value
        found = shown_by(file, fact, keys)
        expect(found == wanted, f"*{name}*: of key {fact.key} {fact.what} is {found!r}, where {wanted!r} is wanted")


def look_at_lines(name: str, file: File, exchanges: list[tuple[str, str]], facts: list[Fact]) -> None:
    """A run over no file, one over a new file, and what is in this then."""
    lines, wanted = (list(texts) for texts in zip(*exchanges))
    for where, replies in (("no file", keyreg([], lines)), ("a file", new_register(file, lines))):
        expect(replies == wanted, f"*{name}* over {where}: {replies}, where {wanted} are wanted")
    look_at_facts(name, file, facts)
    rows, of_rules = table_rows(file), tables(rules_after(lines))
    expect(rows == of_rules, f"*{name}*: the tables have {rows}, and by the rules {of_rules}")


def nothing(_: pathlib.Path, name: str) -> None:
    look(name, [], WELL)


def not_a_request(_: pathlib.Path, name: str) -> None:
    """The last line has no LF, and so no reply."""
    given, output = cells()[name]
    *lines, rest = ticked(given)
    look(name, [], WELL, lines_of(ticked(output) * 2), lines_of(lines) + rest)


def sixteen_custodians(folder: pathlib.Path, name: str) -> None:
    given, output = cells()[name]
    (first, template), (accepted, refused) = ticked(given), ticked(output)
    names = ["kim", "joe", "ian", "hal", "gil", "fay", "dan", "cat", "max", "nat", "oda", "pam", "ron", "sal", "tom",
             "una", "lea"]
    lines = [first, *(template.replace("<number>", str(number)).replace("<name>", custodian)
                      for number, custodian in enumerate(names, 1))]
    replies = [accepted] * 17 + [refused]
    look_at_lines(name, folder / name, list(zip(lines, replies)), [Fact(1, "custodian", sorted(names[:16]))])


def put_lines(folder: pathlib.Path) -> set[str]:
    for name, row in worked_rows().items():
        look_at_lines(name, folder / name, exchanges_of(name), row.facts)
    others = {"nothing": nothing, "not a request": not_a_request, "sixteen custodians": sixteen_custodians}
    for name, other in others.items():
        other(folder, name)
    return {*worked_rows(), *others}


# ---- imports, exports and reports

IMPORT = re.compile(r"an import at (\d+), of `(\w+)`, first (\d+): the header row, (.*)")
REPORT = re.compile(r"after \*(.*)\*: a report for (\d+) days")


def look_at_import(name: str, file: File) -> None:
    """The import of a row into a new register; where it is sent again at another moment, it is answered alike."""
    given, output = cells()[name]
    moment, caller, first, rows = not_none(IMPORT.fullmatch(given)).groups()
    keyreg(["init", "--file", file])
    again = re.findall(r"the same at (\d+)", rows)
    for at in (moment, *again):
        look(name, words_for("import", file, moment=at, caller=caller, first=first), WELL,
             lines_of(ticked(output)), HEADER + lines_of(ticked(rows)))
    expect(len(table_rows(file)["keys"]) == 1, f"*{name}*: not one key")


def look_at_report(name: str, file: File) -> None:
    """A line of a key is the number, the moment, the mark, the type, the owner and the purpose, in their widths."""
    given, output = cells()[name]
    before, days = not_none(REPORT.fullmatch(given)).groups()
    register_in(file, before)
    head, *key, total = ticked(output)
    text = [f"{key[0]:>7}  {key[1]}  {key[2]:<7}  {key[3]:<22}  {key[4]}  {key[5]}"] if key else []
    look(name, words_for("report", file, days=days), WELL, lines_of([head, *text, total]))


def look_at_no_header(name: str, file: File) -> None:
    keyreg(["init", "--file", file])
    for given in ("", HEADER.replace(",purpose", "") + "master,bob,,,\n"):
        look(name, words_for("import", file), BAD_HEADER, given=given)
    expect(table_rows(file)["keys"] == [], f"*{name}*: there are keys")


def put_tables(folder: pathlib.Path) -> set[str]:
    imports = [name for name, (given, _) in cells().items() if IMPORT.fullmatch(given)]
    reports = [name for name, (given, _) in cells().items() if REPORT.fullmatch(given)]
    for name in imports:
        look_at_import(name, folder / name)
    for name in reports:
        look_at_report(name, folder / name)
    look("exported", ["export", "--file", str(folder / "imported")], WELL, lines_of(ticked(cells()["exported"][1])))
    look_at_no_header("imported without a header", folder / "no header")
    return {*imports, *reports, "exported", "imported without a header"}


# ---- files

DEFAULTS = [line for line, _ in exchanges_of("defaults")]


def dump(file: File) -> list[str]:
    with database(file) as connection:
        return list(connection.iterdump())


def is_left(name: str, file: File, words: list[str], end: tuple[int, str]) -> None:
    """The program is refused with this end, and leaves the file as it was, byte for byte."""
    before, content = dump(file), pathlib.Path(file).read_bytes()
    look(name, words, end, given=lines_of(DEFAULTS))
    expect(dump(file) == before and pathlib.Path(file).read_bytes() == content, f"*{name}*: {file} has changed")


def made_twice(folder: pathlib.Path, name: str) -> None:
    names = ticked(cells()[name][0])
    expect(set(names) == {*tables(Register())}, f"*{name}* names {names}")
    register_in(folder / "register", "defaults")
    for table in names:
        with database(folder / table) as connection:
            connection.execute(f"CREATE TABLE {table} (note TEXT) STRICT")
            connection.execute(f"INSERT INTO {table} VALUES ('a')")
    for file in ("register", *names):
        is_left(name, folder / file, words_for("init", folder / file), STRANGER)


def three_hundred_lines(folder: pathlib.Path, name: str) -> None:
    file, (given, output) = folder / "lines", cells()[name]
    (template, last), (reply, refused) = ticked(given), ticked(output)
    register_in(file, "defaults")

    def filled(text: str, number: int) -> str:
        return text.replace("<100 + n>", str(100 + number)).replace("<n>", str(number))

    for begin in (1, 101, 201) * 2:
        expect_replies(file, [(filled(template, number), filled(reply, number))
                              for number in range(begin, begin + 100)])
    expect_replies(file, [(last, refused)])
    look_at_facts(name, file, [Fact(0, "latest", 400), *worked_rows()["defaults"].facts])


def wrong_files(folder: pathlib.Path, name: str) -> None:
    for statement, end in (("UPDATE keys SET state = 5", STRANGER), ("UPDATE meta SET version = 3", NEWER)):
        file = folder / f"wrong_{end[0]}_{statement.split()[1]}"
        register_in(file, "defaults")
        with database(file) as connection:
            connection.execute(statement)
        is_left(name, file, words_for("run", file), end)


def first_version(file: File, custodians: int = 0) -> None:
    """The register of *defaults* in a file of version 1, with so many custodians of its key."""
    rows = tables(rules_after(DEFAULTS))
    write_register(file, 100, 1, 1, "", keys=rows["keys"], request=rows["request"],
                   custodian=[(1, f"c{place}") for place in range(custodians)])


def a_file_of_version_1(folder: pathlib.Path, name: str) -> None:
    """The need is what a Destroy asks for."""
    file = folder / "version_1"
    first_version(file)
    expect_replies(file, [(ticked(cells()[name][0])[0], ticked(cells()[name][1])[0])])
    look_at_facts(name, file, worked_rows()["defaults"].facts)
    expect(table_rows(file)["meta"] == [(1, VERSION, 100, 1)], f"*{name}*: {table_rows(file)['meta']}")
    expect_replies(file, [("200 bob 1 revoke 1 5 -", "ok 1 Deactivated 200"),
                          ("200 bob 2 destroy 1", "refused 18 ApprovalsMissing have=0 need=2")])


def nine_custodians(folder: pathlib.Path, name: str) -> None:
    first_version(folder / "nine", 9)
    is_left(name, folder / "nine", words_for("run", folder / "nine"), STRANGER)


def bad_values(folder: pathlib.Path, name: str) -> None:
    command, count = "", 0
    for tick in ticked(cells()[name][0]):
        if option := re.fullmatch(r"--(\w+) (.*)", tick):
            value = {option[1]: option[2].strip("'")}
            look(name, words_for(command, folder / "missing", **value), BAD_VALUE, given=HEADER)
            count += 1
        else:
            command = tick
    expect(count >= 10 and not (folder / "missing").exists(), f"*{name}*: {count} values, or a file was made")


def put_files(folder: pathlib.Path) -> set[str]:
    rows = {"made twice": made_twice, "three hundred lines": three_hundred_lines, "wrong files": wrong_files,
            "a file of version 1": a_file_of_version_1, "nine custodians in version 1": nine_custodians,
            "bad values": bad_values}
    for name, row in rows.items():
        row(folder, name)
    return {*rows}


PARTS = {part.__name__.removeprefix("put_"): part for part in (put_lines, put_tables, put_files)}


def main() -> None:
    names, put = options(__doc__, tuple(PARTS)).parts, set[str]()
    for name in names:
        with fresh_folder(2**24) as folder:
            put |= PARTS[name](folder)
    left = {*cells()} - put if len(names) == len(PARTS) else set()
    verdict(f"{len(put)} worked rows of docs/WORKED.md are as the page has them: {len(left)} were not put",
            [f"*{name}* has a form that is not known" for name in sorted(left)])


main()
