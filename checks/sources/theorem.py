#!/usr/bin/env python3
"""One theorem, and every definition that it stands on, as two pages: docs/THEOREM.md and docs/DEFINITIONS.md.

    checks/sources/theorem.py [--count]

Writes the pages, or with --count only counts what they have. The theorem is the contract of ROOT. What a definition
says in plain words is the comment above it in the source; the pages' own words are in heads.md beside this file.
documents.py holds the pages to the sources.
"""
import difflib
import functools
import pathlib
import re
import sys
import textwrap
from typing import Iterable, Iterator

sys.path.insert(1, str(pathlib.Path(__file__).resolve().parents[1] / "shared"))
from places import TOP, listed, read
import definitions
from definitions import Definition, Key
from script import not_none, options, verdict

# The function whose contract is the theorem: its file, and its name.
ROOT = ("crates/register_program/src/world.rt", "run_again_and_again")
# The contracts that tie it to an opening, which THEOREM shows as they stand.
OPENING = (("crates/register_program/src/register_file.rt", "open_file"),
           ("crates/register_program/src/laws.rt", "openings_find_lives"))
# What it presumes of the outside.
WORLD = Key("register_program", "src/world.rt", "World")
# What the theorem states.
STATEMENT = Key("register_program", "Sentence", "FindsAgain")
# Of what these name, what DEFINITIONS has too: what leads on, what an opening finds, and what the machine's files are.
TIES = (Key("register_program", "Sentence", "LeadsFrom"), Key("register_program", "Opening", "FindsHistory"),
        Key("disk_files", "src/disk_files.rt", "DiskFilesFiles"))
# How words begin that go on from others, and so say nothing alone.
GOES_ON = re.compile(r"(?:and|or|nor|then|such|the same(?! day)|that of|two (?:that|of)|at the (?:least|most)|any of"
                     r"|so (?:is|that)|in (?:a|this program's)|one (?:was|more)|none of the later|by the rowid"
                     r"|these are the first of|to (?:a request|the question)|with another|in the|for this number"
                     r"|of (?:request lines|the rows of|so many exchanges))\b", re.I)
FIGURE = re.compile(r"\b(\d[\d,]*)\s+(lines|definitions)\b")
# How far behind a mention of DEFINITIONS a figure is its own, within a paragraph or a row.
NEAR = 300


def words_of(page: str) -> str:
    """A page's own words."""
    words = re.split(r"(?m)^<!-- (\w+) -->\n", read("checks/sources/heads.md"))[1:]
    return dict(zip(words[::2], words[1::2]))[page].rstrip("\n") + "\n"


@functools.lru_cache
def theorem() -> tuple[Definition, list[Definition], list[Key]]:
    """The law, the definitions in order, and the kit's words."""
    root = definitions.law(*ROOT)
    return (root, *definitions.in_order((*root.names, *TIES)))


def wordless() -> list[Key]:
    """The definitions on which a public contract stands that have no words of their own, or such as go on from others.
    A type's words stand in the code."""
    all_words = {key: definitions.definition(key).words for key in definitions.reached(definitions.contract_names())}
    return sorted(key for key, words in all_words.items()
                  if not words or GOES_ON.match(words) and not key.place.startswith("src/"))


def count(of: Iterable[Definition]) -> tuple[int, int, int]:
    """Definitions, their lines without comments, and how many of these are of types and traits of the code."""
    lines = [(sum(not line.strip().startswith(("--", "//")) for line in definition.text),
              definition.key.place.startswith("src/")) for definition in of]
    return len(lines), sum(number for number, _ in lines), sum(number for number, of_code in lines if of_code)


# ---- the pages


def sentence(text: str) -> str:
    return text[:1].upper() + text[1:] + ("" if text.endswith(".") else ".")


def filled(text: str) -> str:
    return textwrap.fill(text, 120, break_long_words=False, break_on_hyphens=False)


def by_crate() -> dict[str, list[Definition]]:
    crates = dict.fromkeys(definition.key.crate for definition in theorem()[1])
    return {crate: [one for one in theorem()[1] if one.key.crate == crate] for crate in crates}


def count_table() -> str:
    """The crates with what the page has of each."""
    rows = [*((f"[{crate}](#{crate})", count(of)) for crate, of in by_crate().items()), ("all", count(theorem()[1]))]
    heads = "| Crate | Definitions | Their lines, without comments | Of these of types and traits of the code |"
    return "\n".join([heads, "|---|---|---|---|", *(
        f"| {name} | {number:,} | {lines:,} | {of_code:,} |" for name, (number, lines, of_code) in rows)])


def entry(definition: Definition, shared: dict[tuple, str]) -> str:
    """A definition with its words above it; of the parameters that it shares it names the first that has them."""
    words, key, first = sentence(definition.words), definition.key, definition.text[0]
    if definition.parameters:
        having = shared.setdefault((key.crate, key.place, definition.parameters), key.name)
        shown = f"`{definition.parameters}`" if having == key.name else f"of `{having}`"
        words += f" It shares the parameters {shown}."
    # What a type has of a trait is named by both.
    title = first.removeprefix("impl ").removesuffix(" {") if first.startswith("impl ") else key.name
    return "\n".join([filled(f"**`{title}`** ({key.place}): {words}"), "", "```", *definition.text, "```", ""])


def kit_place(path: str) -> str:
    """The file of the kit's specs/ in which a word stands, or the module of a type of its code."""
    parts = path.removeprefix("declared.").split(".")
    is_module = path.startswith("declared.") and parts[-1] != "TheVariants"
    return ".".join(parts[:-1] if is_module else [part for part in parts if part != "TheVariants"])


def other_names(of_page: Iterable[Definition]) -> dict[Key, str]:
    """The words that the page's definitions call by another name than their own, with that."""
    of_specs = [(definition.key, " ".join(definition.text)) for definition in of_page
                if not definition.key.place.startswith("src/")]
    return {definitions.key_of(*meant): word for key, text in of_specs
            for word, meant in definitions.spec_file(key.crate, key.place).imports.words.items()
            if word != meant[2] and re.search(rf"\b{word}\b", text)}


def kit_table() -> str:
    """The kit's words, by crate and file, in order of their names; behind one the name that the page has for it."""
    others, crates = other_names(theorem()[1]), dict[str, dict[str, set[str]]]()
    for key in theorem()[2]:
        name = "`" + key.name.replace("|", "\\|") + "`" + (f" (here `{others[key]}`)" if key in others else "")
        crates.setdefault(key.crate, {}).setdefault(kit_place(key.place), set()).add(name)
    cells = {crate: [f"{place}: " * bool(place) + ", ".join(sorted(names)) for place, names in sorted(files.items())]
             for crate, files in sorted(crates.items())}
    return words_of("kit") + "".join(f"| `{crate}` | {'; '.join(files)} |\n" for crate, files in cells.items())


def theorem_page() -> str:
    """The sentence of README, what the theorem presumes, the contracts that tie it to an opening, and the theorem."""
    opening = "\n\n".join("\n".join(definitions.law(*place).text) for place in OPENING)
    number, lines, _ = count(theorem()[1])
    return words_of("theorem").format(
        says=not_none(re.search(r"(?:^> .*\n)+", read("README.md"), re.M))[0].rstrip(), opening=opening,
        world="\n".join(definitions.definition(WORLD).text),
        law="\n".join(theorem()[0].text), number=f"{number:,}", lines=f"{lines:,}",
        statement="\n".join(definitions.definition(STATEMENT).text))


def definitions_page() -> str:
    """The theorem, each definition on which it stands, crate by crate with what ARCHITECTURE says that it does, and the
    kit's words."""
    does = dict(re.findall(r"(?m)^\| `(\w+)` \| ([^|]*) \|[^|]*\|$", read("docs/ARCHITECTURE.md")))
    shared: dict[tuple, str] = {}
    parts = [words_of("definitions").format(counts=count_table()), "## The theorem\n", entry(theorem()[0], shared)]
    for crate, of in by_crate().items():
        parts += [f"## {crate}\n", filled(sentence(does[crate])) + "\n", *(entry(one, shared) for one in of)]
    return "\n".join(parts + [kit_table()])


PAGES = {"docs/THEOREM.md": theorem_page, "docs/DEFINITIONS.md": definitions_page}


# ---- what documents.py holds


def figure_faults() -> Iterator[str]:
    """The figures behind a mention of DEFINITIONS in a document that are not its own."""
    number, lines, _ = count(theorem()[1])
    wanted = {"lines": f"{lines:,}", "definitions": f"{number:,}"}
    for document in {"README.md", "CONTRIBUTING.md", *listed("docs/*.md")} - PAGES.keys():
        near = (re.split(r"\n\n|\n\|", text)[0][:NEAR] for text in read(document).split("DEFINITIONS.md")[1:])
        yield from (f"{document}: DEFINITIONS.md has {wanted[what]} {what}, and not {figure}"
                    for text in near for figure, what in FIGURE.findall(text) if figure != wanted[what])


def faults() -> tuple[list[str], str]:
    """What the pages and what is said of them have that is not so, and what was looked at."""
    found = [f"{line}: the checks do not read it" for line in definitions.unread()]
    for page, make in PAGES.items():
        lines = difflib.unified_diff(read(page).split("\n"), make().split("\n"), lineterm="", n=0)
        found += [f"{page}: {line}: checks/sources/theorem.py makes it" for line in [*lines][2:6]]
    found += [f"crates/{key.crate}: no words of its own above `{key.name}` ({key.place})" for key in wordless()]
    return found + [*figure_faults()], f"{len(theorem()[1]):,} definitions"


def main() -> None:
    if not options(__doc__, count=False).count:
        for page, make in PAGES.items():
            (TOP / page).write_text(make(), encoding="utf-8")
    number, lines, of_code = count(theorem()[1])
    verdict(f"theorem: {ROOT[1]} stands on {number:,} definitions of {lines:,} lines, {of_code:,} of them of code;"
            f" {len(wordless())} on which a public contract stands have no words of their own")


if __name__ == "__main__":
    main()
