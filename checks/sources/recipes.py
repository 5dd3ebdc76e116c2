#!/usr/bin/env python3
"""The recipes of docs/RECIPES.md name what is there, and all that has to change.

    checks/sources/recipes.py

A recipe is a section that begins with "Add". Each file, folder and item that it names is there. A path that does not
begin at the top is one of the crates that the section named, the last of them first. An item is looked for by its last
part in the files that its step names, then in those crates, or in all where none is named.

The other way: KINDS has for each recipe one thing that was added so. Each file that mentions it is named by the recipe,
or by one that it sends on to, or it stands there with the reason why it is left. Proofs are left: a red one leads
there.
"""
import fnmatch
import pathlib
import re
import sys
from typing import Iterator, NamedTuple

sys.path.insert(1, str(pathlib.Path(__file__).resolve().parents[1] / "shared"))
from places import TOP, read
from contracts import all_files
from script import options, verdict

CRATES = {path.name: path for path in (TOP / "crates").iterdir()}
QUOTED = re.compile(r"`([^`]+)`")
PATH = re.compile(r"[\w./-]+\.(rt|antt|md|py|sh|txt|tsv|sql|js|conf|bash|zsh|fish)|\./\w+")
FOLDER = re.compile(r"\w+(/\w+)*/|\w+(/\w+)+")
ITEM = re.compile(r"[A-Za-z_][\w:]*(\(\))?")
DOCUMENT = re.compile(r"\bdocs/[\w.]*\w|\bREADME\b")
LINK = re.compile(r"\(#([\w-]+)\)")
SUFFIXES = (".rt", ".antt", ".edit")
INNER = ("", "src", "src/tests", "proofs", "specs", "must-fail")


class Kind(NamedTuple):
    """A thing that was added: words by which files mention it, the files that are left, where its recipe sends on."""
    recipe: str
    words: str
    left: dict[str, str]
    others: tuple[str, ...] = ()


# Whatever is added.
ALWAYS = {
    "the recipes": "docs/RECIPES.md checks/sources/recipes.py",
    "the page that checks/sources/theorem.py makes": "docs/DEFINITIONS.md",
    "proofs, of which a red one leads there": "crates/*/proofs/*",
    "wrong bodies, of which rt and wrong_bodies.py name those whose lines changed":
        "crates/*/must-fail/* crates/*/more-must-fail.edits",
}
KINDS = (
    Kind("Add a command", r"\b[Ww]ithdraw\b", {
        "its refusal NoApproval": "*/CustodyRefusal.antt crates/register_core/src/decision.rt",
        "a day or a year of an office": "docs/AUDIT.md samples/year.txt checks/sqlite/version_1.sql",
        "what they look at beside the day": "checks/program/power_cuts.py checks/program/large_office.py "
                                            "checks/program/exchanges_by_curl.py",
    }),
    Kind("Add a command", r"\b(Activate|Assign|AddCustodian|Approve)\b", {
        "they stand for their shapes": "*/Within/Fields.antt",
        "their refusals": "*/CustodyRefusal.antt crates/register_core/src/decision.rt",
        "any command would do": "docs/COSTS.md",
    }),
    Kind("Add a shape of fields", r"\bTypeAndPeriod\b|type_and_period|\bDateEdits\b", {
        "the kinds that have it": "*/command_fields.rt",
    }),
    Kind("Add a refusal", r"\bNoApproval\b|Refusal::ApprovalsMissing|\(ApprovalsMissing ", {}),
    Kind("Add a route", r"ShowUsage|Route(Pattern)?::Usage|Show, Usage|/usage\b|\busage_(text|reply|data|value|row)", {
        "one look-up stands for others": "crates/test_fault_trials/src/lent.rt",
    }),
    Kind("Add a table", r"TableName::Quorum|TheVariants\.\{[^}]*\bQuorum\}|"
                        r"\b(FROM|INTO|TABLE|UPDATE) (\w+\.)?quorum\b|\"quorum\"", {
        "a key's JSON has the need": "bench/python_server.py",
        "one name stands for others": "checks/program/words.py",
    }, ("Add a version of the tables",)),
    Kind("Add a column", r"\boccurrence (INTEGER|= \?)|compromised\W+occurrence\b|\bcompromise_occurrence\b", {
        "the date, which commands set": "crates/*_core/*",
        "rows of an export": "desk/csv.js desk/tests/rows.test.js",
        "tables of version 1": "*/contents.rt",
    }, ("Add a column to the export",)),
    Kind("Add a column to the export",
         r"compromised\W+occurrence\W+purpose|\"occurrence\"(, \"\"\)|: (date|moment)_text|\) \(λ d)", {}),
    Kind("Add a command about no key", r"\bSetPeriod\b|set-period|\bset_period\b|\bPeriodSet\b", {
        "a day or a year of an office": "samples/office.txt samples/year.txt",
        "what a period means for keys": "*/register_core/src/laws.rt */test_desk_trials/src/desks.rt bench/tables.py "
                                        "checks/program/rules_tried.py checks/program/tables.py",
        "who the office is": "checks/office/behind_nginx.py",
        "what they look at beside the day": "checks/program/large_office.py checks/program/exchanges_by_curl.py "
                                            "checks/desk/lists.py checks/desk/histories.py desk/tests/history.test.js "
                                            "checks/office/due_tried.py checks/office/metrics_tried.py",
        "the words of Help": "desk/help.js",
        "it stands for its shape": "*/Within/Fields.antt crates/http_messages/src/command_value.rt",
        "what comes of one that is left out": "docs/OPERATING.md",
        "what version 1 has not": "checks/office/rebuild_tried.py",
        "it came with version 2": "checks/sqlite/by_sqlite3.py",
    }, ("Add a command", "Add a shape of fields", "Add a table")),
    Kind("Add a command of the program", r"Task::Report|\breport_file\b|keyreg report|\[\"report\"|\"report\":|"
                                         r"\n +report\)|from report'", {
        "they ask for a report": "checks/office/audit_views.py checks/office/due_tried.py "
                                 "checks/office/metrics_tried.py office/due.py "
                                 "office/metrics.py checks/sqlite/copied_while_served.py "
                                 "checks/package/in_systemd.sh checks/program/full_register.py "
                                 "checks/office/replay_tried.py docs/CHECKS.md office/units/keyreg.service "
                                 "bench/tables.py",
    }),
    Kind("Add a crate", r"\bregister_report\b", {
        "its own": "crates/register_report/*",
        "what names it": "crates/*_trials/* crates/register_program/*",
        "a law with its crate": "docs/PROMISES.md",
    }),
    Kind("Add a version of the tables",
         r"Version::Second|Version\.TheVariants\.\{[^}]*Second|first_version|\bmigrate\b|\bversion_1\b",
         {"it copies the file": "checks/shared/document_commands.py packaging/pages.py",
          "it says where things stand": "checks/shared/places.py"}),
    Kind("Add a test", r"\bworked_exchange_at_fault\b", {}),
)


class Step(NamedTuple):
    """What a step names: crates, files and folders with the place where each is, and items."""
    crates: list[pathlib.Path]
    paths: dict[str, pathlib.Path | None]
    items: list[str]


class Recipe(NamedTuple):
    """Its steps, and the anchors that it links to."""
    steps: list[Step]
    links: list[str]


def place_of(path: str, crates: list[pathlib.Path]) -> pathlib.Path | None:
    """Where a path leads, from the top or from one of the crates."""
    under = [TOP] + [crate / inner for crate in crates for inner in INNER]
    return next((place / path for place in under if (place / path).exists()), None)


def steps(body: str) -> Iterator[Step]:
    crates: list[pathlib.Path] = []
    for text in re.split(r"\n(?=\d+\. |\n)", re.sub(r"```.*?```", "", body, flags=re.S)):
        quoted = QUOTED.findall(text)
        for name in quoted:
            crate = CRATES.get(name.removeprefix("crates/").split("/")[0])
            if crate and (name in CRATES or name.startswith("crates/")):
                crates = [crate] + [other for other in crates if other != crate]
        documents = [name.replace("README", "README.md") for name in DOCUMENT.findall(text)]
        paths = [name for name in quoted if PATH.fullmatch(name) or FOLDER.fullmatch(name)] + documents
        items = [name for name in quoted if ITEM.fullmatch(name) and name not in CRATES]
        yield Step(crates, {path: place_of(path, crates) for path in paths}, items)


def holds(word: str, step: Step) -> bool:
    """Whether the item stands in a file of the step, or in one of its crates, also as the name of a file of theirs."""
    last = re.compile(rf"\b{word.removesuffix('()').split('::')[-1]}\b")
    named = [place for path, place in step.paths.items() if place and place.is_file() and not DOCUMENT.match(path)]
    inner = (path for crate in step.crates or CRATES.values() for path in crate.rglob("*")
             if path.suffix in SUFFIXES and "out" not in path.parts)
    return (any(last.search(place.read_text()) for place in named)
            or any(last.search(path.name) or last.search(path.read_text()) for path in inner))


def names(step: Step, path: str) -> bool:
    """Whether the step names this file of the repository, or a folder that it lies in."""
    file = TOP / path
    return any(place in (file, *file.parents) for place in step.paths.values() if place not in CRATES.values())


def kind_faults(kind: Kind, recipes: dict[str, Recipe], mention: list[str]) -> Iterator[str]:
    """Which of the files that mention what was added are not named, and which are left and do not mention it."""
    own = recipes.get(kind.recipe, Recipe([], []))
    sent = [recipes[title] for title in kind.others if title.lower().replace(" ", "-") in own.links]
    all_steps = [step for recipe in (own, *sent) for step in recipe.steps]
    left = " ".join(kind.left.values()).split()
    reasons = left + " ".join(ALWAYS.values()).split()
    yield from (f"{kind.recipe}: {path} is not named" for path in mention
                if not any(fnmatch.fnmatch(path, glob) for glob in reasons)
                and not any(names(step, path) for step in all_steps))
    yield from (f"{kind.recipe}: {glob} does not mention it" for glob in left if not fnmatch.filter(mention, glob))


def main() -> None:
    options(__doc__)
    sections = (section.split("\n", 1) for section in re.split(r"(?m)^## ", read("docs/RECIPES.md"))[1:])
    recipes = {title: Recipe([*steps(body)], LINK.findall(body)) for title, body in sections
               if title.startswith("Add ")}
    named = [(title, step) for title, recipe in recipes.items() for step in recipe.steps]
    faults = [f"{title}: no file {path}" for title, step in named for path, place in step.paths.items() if not place]
    faults += [f"{title}: no {word}" for title, step in named for word in step.items if not holds(word, step)]
    texts, count = {path: read(path) for path in all_files() if not re.search(r"\.keyreg|\.png$", path)}, 0
    for kind in KINDS:
        mention = [path for path, text in texts.items() if re.search(kind.words, text)]
        faults += kind_faults(kind, recipes, mention)
        count += len(mention)
    paths, items = (sum(len(step[at]) for _, step in named) for at in (1, 2))
    verdict(f"{paths} files and {items} items named; {count} mentions of {len(KINDS)} things, {len(faults)} faults",
            faults)


main()
