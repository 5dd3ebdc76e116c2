#!/usr/bin/env python3
"""The documents name what is there, and their commands print what stands there.

    checks/sources/documents.py [PART..]

The parts, all but the last where none is named:

    promises   each name in docs/PROMISES.md is one of the code; each function that it or a table of README.md names
               with clauses has these; each law stands there with each of its clauses; no cell has more than 25 words
    paths      each path and link of a document leads to a file, and an anchor to a heading; what it has installed of
               office/ comes with what that imports from beside it
    calls      each call in the example of a crate's src/lib.rt is that of a function of ours with as many arguments
    commands   the commands of README.md, docs/OPERATING.md and docs/AUDIT.md, one after the other in one folder, print
               what stands after them
    stale      no document has another number of tables or commands, another bound on steps, a table, an index, a
               refusal or an end of another name, or another program logic than the kit's
    pictures   README's picture of the states has the transitions of SPECIFICATION, docs/costs.svg the figures of COSTS,
               and the graph of ARCHITECTURE the arrows of crates.txt; what its pictures name is a function or a crate
    theorem    THEOREM and DEFINITIONS are as the sources have them; each document that says how many definitions there
               are has that figure; none on which a public contract stands is without words of its own
    reached    a public contract stands on each definition of a crate's specs/, and on none of its Within
    look       README's first look, which `rt try` answers without a proof, in a copy of the sources, in minutes

The program is the one that ./keyreg builds, or that KEYREG names.
"""
import functools
import itertools
import os
import pathlib
import re
import shutil
import subprocess
import sys
from typing import Iterator

sys.path.insert(1, str(pathlib.Path(__file__).resolve().parents[1] / "shared"))
from places import DOCS, TOP, listed, read, use
import contracts
import definitions
import theorem
from contracts import Function, functions, stands_on
from document_commands import anchor_of, first_look, wrong_outputs
from script import not_none, options, verdict
use("bench")
import costs_svg

QUOTED = re.compile(r"`([^`\n]+)`")
NAME = re.compile(r"`(\w+(?:::\w+)*)`")
# A field or a variant of a type, and a ghost of a trait.
MEMBER = re.compile(r"(?m)^ {4}(?:(?:pub(?:\([\w ]+\))? )?(\w+): |ghost (\w+)|([A-Z]\w*)(?:\(|,| \{))")
# Brackets, and those within them.
ASIDE = re.compile(r"\((?:[^()]|\([^()]*\))*\)")
NUMBERS = {word: str(number) for number, word in enumerate(
    "no one two three four five six seven eight nine ten eleven twelve thirteen fourteen fifteen sixteen".split())}
# Calls in examples that are none of ours: of std, and of the kit.
OTHER_CALLS = {"write_all", "as_bytes", "map", "assert_eq", "open_files"}
FILE = re.compile(r"[\w.<>/-]*\w\.(?:rt|antt|py|md|sql|sh|csv|txt|yaml|edit|svg|service|timer|cron|conf)\b")
FOLDER = re.compile(r"(crates|checks|bench|docs|office|samples|\.ci)/")
# The most words in a cell of PROMISES.
MOST_WORDS = 25
# The faults of a part, and what it looked at, or how much.
Faults = tuple[list[str], object]


def documents() -> list[str]:
    return listed("*.md") + listed("docs/*.md")


def numbered(path: str) -> Iterator[tuple[int, str]]:
    """The lines of a document outside its fenced blocks, with their numbers."""
    inside = False
    for number, line in enumerate(read(path).split("\n"), 1):
        if line.lstrip().startswith("```"):
            inside = not inside
        elif not inside:
            yield number, line


def cells(line: str) -> list[str]:
    return [cell.strip() for cell in line.strip().strip("|").split("|")] if line.startswith("|") else []


# ---- promises


def functions_named(text: str, owner: str = "") -> list[Function]:
    """The functions that `Desk::apply`, `run` or a type names; without a type it may be of this one."""
    *path, name = text.split("::")
    named = [function for function in functions() if function.name == name]
    if path[-1:] == ["laws"]:
        return [law for law in named if law.path.endswith("laws.rt") and path[0] in ("laws", law.crate)]
    of_owner = [function for function in named if function.owner == (path[-1] if path else owner)]
    return of_owner if path else of_owner or named or [each for each in functions() if each.owner == text]


@functools.lru_cache
def defined_names() -> set[str]:
    """Each name that specs/ or the code define, or the code brings in by `use`, and those of modules and crates."""
    names = {key.name for key in definitions.spec_keys()}.union(stands_on(), *stands_on().values())
    names.update(*(re.findall(r"(?m)^ +pub (\w+) :", read(path)) for path in listed("crates/*/specs/**/*.antt")))
    for function in functions():
        names |= {function.name, *function.clauses}
    for file in definitions.rust_files():
        members = (MEMBER.findall("\n".join(file.item(at))) for at in file.items.values())
        names.update(file.items, file.used, [pathlib.Path(file.place).stem], *itertools.chain.from_iterable(members))
    return names


def clause_lists(segment: str) -> Iterator[tuple[list[str], list[str]]]:
    """The functions and the clauses of each list in one part of a cell, where it names clauses."""
    segment = re.sub(r",? (?:their |its )?parts? .*? of (?:its|their) clauses?", "", segment)
    before, *lists = re.split(r",? clause(s?) ", re.sub(r" of (?:their|its|`\w+`)", "", segment))
    names = NAME.findall(before)
    for is_many, listed_names in zip(lists[::2], map(NAME.findall, lists[1::2])):
        count = len(listed_names) if is_many else 1
        yield names, listed_names[:count]
        names = listed_names[count:]


def has_clause(name: str, clause: str, owner: str, names: list[str]) -> bool:
    """Whether the function has the clause, or another of the list does, whose name it bears."""
    bearers = [other for other in names if other.split("::")[-1].startswith(clause.removesuffix("s"))]
    return bool(bearers) and name not in bearers or any(
        clause in function.clauses for function in functions_named(name, owner))


def clause_faults(cell: str) -> Iterator[str]:
    """The functions of a cell that are not there, and their clauses that they have not."""
    owner = ""
    for segment in ASIDE.sub("", cell).split(";"):
        for names, clauses in clause_lists(segment):
            for name in names:
                owner = name.split("::")[0] if "::" in name else owner
                if not functions_named(name, owner):
                    yield f"no function `{name}`"
                    continue
                yield from (f"`{name}` has no clause `{clause}`" for clause in clauses
                            if not has_clause(name, clause, owner, names))


def unknown_names(line: str) -> Iterator[str]:
    for name in NAME.findall(line):
        last = name.split("::")[-1]
        is_call = "::" in name and last[0].islower() and last != "laws"
        if not (functions_named(name) if is_call else last in defined_names()):
            yield f"nothing is named `{name}`"


def law_faults() -> Iterator[str]:
    """The laws that PROMISES does not name, with each of their clauses."""
    rows = [cells(line)[-1] for _, line in numbered("docs/PROMISES.md") if cells(line)]
    for law in functions():
        if law.path.endswith("/laws.rt") and law.is_public:
            naming = [row for row in rows if re.search(rf"`(?:\w+::)*{law.name}`", row)]
            if not naming:
                yield f"docs/PROMISES.md: no law `{law.name}` ({law.crate})"
            yield from (f"docs/PROMISES.md: `{law.name}` without its clause `{clause}`"
                        for clause in sorted(law.clauses) if naming and not any(f"`{clause}`" in row for row in naming))


def promise_faults() -> Faults:
    faults, lists = list(law_faults()), 0
    for document in ("README.md", "docs/PROMISES.md"):
        for number, line in numbered(document):
            cell = (cells(line) or [""])[-1]
            lists += cell.count(" clause")
            is_promise = document == "docs/PROMISES.md"
            of_line = [*clause_faults(cell), *(unknown_names(line) if is_promise or " clause" in cell else [])]
            if is_promise:
                of_line += [f"a cell of more than {MOST_WORDS} words: {text}" for text in cells(line)
                            if len(text.split()) > MOST_WORDS]
            faults += [f"{document}:{number}: {fault}" for fault in of_line]
    return faults, f"{lists} lists of clauses in README and PROMISES"


# ---- paths


def headings(path: str) -> set[str]:
    """The anchors of a document's headings."""
    return {anchor_of(line) for _, line in numbered(path) if line.startswith("#")}


def link_faults(document: str, target: str) -> Iterator[str]:
    path, _, anchor = target.partition("#")
    whole = os.path.normpath(os.path.join(os.path.dirname(document), path)) if path else document
    if not (TOP / whole).exists():
        yield f"the link {target} leads nowhere"
    elif anchor and whole.endswith(".md") and anchor not in headings(whole):
        yield f"{whole} has no heading {anchor}"


def is_there(path: str) -> bool:
    """Whether a file ends in these parts of a path, or a folder of the top is named so."""
    return (TOP / path).exists() or any(file.endswith("/" + path) for file in contracts.all_files())


def install_faults() -> Iterator[str]:
    """Programs of office/ that are to be installed without what they import from beside them."""
    for path in [*documents(), *listed("office/units/*.service")]:
        for command in re.findall(r"\binstall (?:[^\n\\]|\\\n)*office/(?:[^\n\\]|\\\n)*", read(path)):
            given = set(re.findall(r"office/(\w+)\.py", command))
            yield from (f"{path}: {name}.py is installed without {module}.py" for name in sorted(given)
                        for module in re.findall(r"(?m)^(?:from|import) (\w+)", read(f"office/{name}.py"))
                        if module not in given and (TOP / f"office/{module}.py").exists())


def path_faults() -> Faults:
    faults, count = list(install_faults()), 0
    for document in documents():
        for number, line in numbered(document):
            links = [link or reference for link, reference in re.findall(r"\]\(([^)\s]+)\)|^\[[^\]]+\]: (\S+)", line)]
            targets = [link for link in links if not link.startswith("http")]
            plain = re.sub(r"\[[^]]*\]\([^)]*\)|^\[.*\]: .*", "", line)
            paths = FILE.findall(plain) + [text.split()[0] for text in QUOTED.findall(line) if FOLDER.match(text)]
            # A whole path is the machine's.
            paths = [path for path in paths if not re.search("[<>]|^/", path)]
            count += len(targets) + len(paths)
            of_line = [fault for target in targets for fault in link_faults(document, target)]
            of_line += [f"no file {path}" for path in dict.fromkeys(paths)
                        if not is_there(path.strip("/").removeprefix("../").removeprefix("./"))]
            faults += [f"{document}:{number}: {fault}" for fault in of_line]
    return faults, f"{count} paths and links"


# ---- calls


def call_faults() -> Faults:
    faults, count = list[str](), 0
    owners = {function.owner for function in functions()}
    for path in listed("crates/*/src/lib.rt"):
        words = "\n".join(re.findall(r"(?m)^//! ?(.*)$", read(path)))
        text = re.sub(r"/\*.*?\*/|//[^\n]*", "", "".join(re.findall(r"(?ms)^```[^\n]*\n(.*?)^```$", words)))
        for call in re.finditer(r"(?:(\w+)::|(\.))?\b([a-z_]\w*)\(", text):
            owner, dot, name = call.groups()
            # A type whose functions are none of ours is the kit's.
            if name in OTHER_CALLS or owner and owner[0].isupper() and owner not in owners:
                continue
            count += 1
            given = len(contracts.arguments(text[call.end() - 1:]))
            takes = {function.parameters + (function.takes_self and not dot) for function in functions()
                     if function.name == name and function.is_public
                     and (not owner or owner in (function.owner, *stands_on()))}
            if given not in takes:
                faults.append(f"{path}: its example calls `{name}` with {given} arguments: ours take {takes or 'none'}")
    return faults, f"{count} calls in examples"


# ---- stale


def kit_faults() -> list[str]:
    """That README names the program logic of the kit that is here, where one is. The name of the kit itself is not
    compared: what is proved rests on its logic."""
    if not shutil.which("rt"):
        return []
    version = subprocess.run(["rt", "version"], capture_output=True, text=True, check=False).stdout
    logic = re.search(r"\blogic \w+", version)
    return [] if logic and logic[0] in read("README.md") else [f"README.md: the kit here is {version.strip()}"]


def stale_faults() -> Faults:
    table, reply = read("crates/register_tables/src/table.rt"), read("crates/register_core/src/reply.rt")
    kinds = not_none(re.search(r"ALL: &'static \[CommandKind\] = &\[(.*?)\];",
                      read("crates/register_requests/src/command_fields.rt"), re.S))[1].count("CommandKind::")
    applying = read("crates/register_desk/src/desk/applying.rt")
    steps = not_none(re.search(r"KeepsToSteps S\.Store (\d+) self", applying))[1]
    tables = not_none(re.search(r"TABLES: \[TableName; (\d+)\]", table))[1]
    counted = ((r"\b(\w+) tables of a (?:database|register)", tables), (r"\b(?:the|all) (\w+) tables\b", tables),
               (r"\b(\w+) commands\b", str(kinds)),
               (r"takes at most (\w+) steps", steps), (r"bound on steps is (\w+)", steps))
    names_of = "".join(map(read, listed("crates/register_tables/s*/**/*.*")))
    ends = read("crates/register_desk/src/end.rt") + read("crates/register_desk/src/opening.rt")
    # What a document names so, and what there is of it.
    named = ((r"keys_by_\w+", set(re.findall(r"keys_by_\w+", names_of))),
             (r"`keyreg: (\w+)`", {*re.findall(r'"([A-Z]\w+)"', ends), "BadValue"}),
             (r"refused (\d+ [A-Z]\w+)", {f"{number} {name}" for name, number in re.findall(
                 r"Refusal::(\w+)(?: \{ \.\. \})? => Title \{ number: (\d+)", reply)}))
    table_names, faults = re.findall(r"CREATE TABLE (\w+)", table), kit_faults()
    for document in documents():
        for number, line in enumerate(read(document).split("\n"), 1):
            of_line = [f"{text} where the code has {wanted}: {rule}" for rule, wanted in counted
                       for text in re.findall(rule, line)
                       if (text if text.isdigit() else NUMBERS.get(text.lower(), wanted)) not in (wanted, "1", "2")]
            of_line += [f"none is there of `{name}`" for rule, there in named
                        for name in re.findall(rule, line) if name not in there]
            of_line += [f"no table `{name}`" for tables in re.findall(r"\btables? ((?:`\w+`(?:, | and | or )?)+)", line)
                        for name in QUOTED.findall(tables) if name not in table_names]
            faults += [f"{document}:{number}: {fault}" for fault in of_line]
    return faults, f"{len(documents())} documents"


# ---- pictures


def compared(what: str, drawn: set[tuple[str, ...]], wanted: set[tuple[str, ...]]) -> list[str]:
    return [f"{what} lacks {' '.join(each)}" for each in sorted(wanted - drawn)] + \
           [f"{what} has {' '.join(each)}, which is none" for each in sorted(drawn - wanted)]


def picture_faults() -> Faults:
    readme, path = read("README.md"), "docs/ARCHITECTURE.md"
    states = not_none(re.search(r"The states are ([^.(]*)", read("docs/SPECIFICATION.md")))[1]
    names = re.findall(r"[\w-]+", states.replace(" and ", " "))
    rows = [cells(line) for _, line in numbered("docs/SPECIFICATION.md")]
    transitions = {tuple(row[:3]) for row in rows if len(row) == 4 and row[1] in (*names, "none") and row[2] in names}
    short = {"[*]": "none", **{short: name for name, short in re.findall(r'state "([\w-]+)" as (\w+)', readme)}}
    faults = compared("README.md: its picture of the states", {
        (number, short.get(before, before), short.get(after, after))
        for before, after, number in re.findall(r"(\S+) --> (\w+): (\d+)", readme)}, transitions)
    # Each of our crates with each of ours that it stands on, and not by way of another.
    uses = {crate: {other for other in others if other in stands_on()} for crate, others in stands_on().items()}
    arrows = {(crate, other) for crate, others in uses.items() for other in others
              if not any(other in contracts.below(between) for between in others)}
    text = "\n".join(re.findall(r"```mermaid\n(.*?)```", read(path), re.S))
    faults += compared(f"{path}: its graph", {
        pair for pair in re.findall(r"(?m)^ *(\w+) --> (\w+)$", text) if {*pair} & {*uses}}, {*arrows})
    faults += [f"{path}: nothing is named {name}"
               for name in dict.fromkeys(re.findall(r"\b(?:[A-Z]\w*::)?[a-z]+_\w+|\b[A-Z]\w*::\w+", text))
               if name not in uses and not functions_named(name)]
    if (DOCS / "costs.svg").read_text(encoding="utf-8") != costs_svg.picture():
        faults.append("docs/costs.svg: not that of docs/COSTS.md: bench/costs_svg.py draws it")
    return faults, f"{len(transitions)} transitions, {len(arrows)} arrows between crates, a picture of costs"


# ---- what other modules look at


def reached_faults() -> Faults:
    """Of specs/ what no public contract reaches, and of its Within what one does."""
    every, reached = definitions.spec_keys(), definitions.reached(definitions.contract_names())
    within = {key for key in every if key.place.split(".")[0] == "Within"}
    return [f"{key.crate}: {'a' if key in within else 'no'} public contract stands on `{key.name}` ({key.place})"
            for key in every if (key in reached) == (key in within)
            ], f"{len(every)} definitions, {len(within)} of them within"


PARTS = {"promises": promise_faults, "paths": path_faults, "calls": call_faults,
         "commands": lambda: wrong_outputs(["README.md", "docs/OPERATING.md", "docs/AUDIT.md"]),
         "stale": stale_faults, "pictures": picture_faults, "theorem": theorem.faults, "reached": reached_faults,
         "look": first_look}


def main() -> None:
    all_faults: list[str] = []
    for name in options(__doc__, tuple(PARTS), usual=[part for part in PARTS if part != "look"]).parts:
        faults, looked_at = PARTS[name]()
        all_faults += faults
        print(f"{name}: {looked_at}, {len(faults)} faults", flush=True)
    verdict(f"documents: {len(all_faults)} faults" if all_faults else "documents: all as they say", all_faults)


main()
