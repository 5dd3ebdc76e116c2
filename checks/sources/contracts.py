"""What the checks of sources read of the code: crates, functions with their clauses and bodies, and of each file the
items and the terms of its contracts."""
import functools
import os
import re
from typing import Iterator, NamedTuple

from places import TOP, listed, read
from script import not_none

FUNCTION = re.compile(r"( *)(pub(?:\([\w ]+\))? )?(?:const )?fn (\w+)")
CLAUSE = re.compile(r"\s*(?:requires|ensures)(?: (\w+))? \{")
OWNER = re.compile(r"(?:impl|(?:pub(?:\(crate\))? )?trait)\b(?:<[^{]*?>)? (?:.* for )?([\w:]*).*\{")
ITEM = re.compile(r"(?:pub(?:\([\w ]+\))? )?(?:struct|enum|trait|const|static|type) (\w+)")
IMPL = re.compile(r"impl\b(?:<.*?>)? (\w+)(?:<.*>)? for (\w+)")
OF_TRAIT = re.compile(r"(?:(?:pub(?:\([\w ]+\))? )?trait|impl\b(?:<.*?>)?(?= \S+ for\b)) (\w+)")
TERM = re.compile(r"^ *(?:(?:requires|ensures)\*?(?: \w+)?|ghost \w+(?::| =)) \{", re.M)
RUST_USE = re.compile(r"^ *(?:pub(?:\([\w ]+\))? )?use ((?!Rattle\.)[^;]*);", re.M)
# What counts in a text of code where brackets are paired: those, and texts and comments, in which none counts.
MARK = re.compile(r"\"(?:[^\"\\]|\\.)*\"|//[^\n]*|'.'|[()\[\]{};]")


class Function(NamedTuple):
    """A function; `self` is none of its parameters, and its body is the lines between its braces, without comments."""
    crate: str
    path: str
    owner: str
    name: str
    is_public: bool
    takes_self: bool
    parameters: int
    clauses: set[str]
    body: list[str]


def bare(line: str) -> str:
    """A line of code without its comment."""
    return line.split("//")[0].rstrip()


@functools.lru_cache
def all_files() -> list[str]:
    """The files of the repository, by their paths from the top, without what a build, a package or Python makes."""
    paths = list[str]()
    for folder, inner, files in os.walk(TOP):
        inner[:] = [name for name in inner if name not in ("out", "packages", "__pycache__") and name[0] != "."]
        paths += (os.path.relpath(os.path.join(folder, name), TOP) for name in files)
    return paths


@functools.lru_cache
def stands_on() -> dict[str, list[str]]:
    """Each crate of crates.txt with those that it stands on."""
    return {name: uses.split() for name, uses in re.findall(r"(?m)^(\w+):(.*)$", read("crates.txt"))}


def reached(left: list[str]) -> set[str]:
    """These of our crates, and those that they stand on."""
    crates = set[str]()
    while left:
        name = left.pop()
        if name in stands_on() and name not in crates:
            crates.add(name)
            left += stands_on()[name]
    return crates


def below(crate: str) -> set[str]:
    """The crates of ours that one stands on, by way of others too."""
    return reached([*stands_on()[crate]])


# ---- functions


def arguments(text: str) -> list[str]:
    """The arguments, or parameters, in the round brackets with which a text begins, without their inner brackets."""
    text = text.replace("->", "").replace("=>", "")
    while (flat := re.sub(r"(?<!^)(?:\([^()]*\)|\[[^][]*\]|\{[^{}]*\}|<[^<>]*>)", "", text)) != text:
        text = flat
    return [part.strip() for part in text[1:text.index(")")].split(",") if part.strip()]


def function_at(path: str, lines: list[str], at: int, owner: str) -> Function:
    """The function whose head begins at this line, and goes to the one that opens its body or ends by a semicolon."""
    indent, public, name = not_none(FUNCTION.match(lines[at])).groups()
    end = next(place for place in range(at, len(lines)) if lines[place].rstrip().endswith((";", "{ }", "{}"))
               or lines[place].rstrip().endswith("{") and not CLAUSE.match(lines[place]))
    text = "\n".join(line for line in lines[at:end + 1] if not line.lstrip().startswith("//"))
    taken = arguments(text[text.index("(", text.index(f"fn {name}")):])
    takes_self = bool(taken) and re.fullmatch(r"&?(mut )?self(:.*)?", taken[0]) is not None
    has_body = lines[end].rstrip().endswith("{")
    body = lines[end + 1:lines.index(f"{indent}}}", end)] if has_body else []
    return Function(path.split("/")[1], path, owner, name, public == "pub ", takes_self, len(taken) - takes_self,
                    {clause for clause in CLAUSE.findall(text) if clause}, [*map(bare, body)])


def functions_of(path: str) -> list[Function]:
    lines, owner, functions_here = read(path).split("\n"), "", []
    for at, line in enumerate(lines):
        if begun := OWNER.match(line):
            owner = begun[1].split("::")[-1]
        elif line.startswith("}"):
            owner = ""
        if FUNCTION.match(line):
            functions_here.append(function_at(path, lines, at, owner))
    return functions_here


@functools.lru_cache
def functions() -> list[Function]:
    return [function for path in listed("crates/*/src/**/*.rt") for function in functions_of(path)]


# ---- items, and the terms of contracts


def end_of(text: str, begin: int) -> int:
    """The place behind the first semicolon or brace from here on that stands in no bracket."""
    depth = 0
    for mark in MARK.finditer(text, begin):
        depth += (mark[0] in "([{") - (mark[0] in ")]}")
        if depth == 0 and mark[0] in ";}":
            return mark.end()
    return len(text)


def leaves(text: str) -> Iterator[tuple[str, str]]:
    """What a `use` brings in: pairs of the name that it has here and its path."""
    text = " ".join(text.split())
    while braces := re.search(r"([\w:]*)\{([^{}]*)\}", text):
        inner = ", ".join(braces[1] + part.strip() for part in braces[2].split(",") if part.strip())
        text = text[:braces.start()] + inner + text[braces.end():]
    for path, alias in re.findall(r"([\w:]+)(?: as (\w+))?", text):
        yield alias or path.split("::")[-1], path


@functools.lru_cache
def traits_within(crate: str) -> set[str]:
    """The traits of a crate that those above it do not see."""
    return {name for path in listed(f"crates/{crate}/src/**/*.rt")
            for name in re.findall(r"(?m)^(?:pub\([\w ]+\) )?trait (\w+)", read(path))}


class RustFile:
    """One file of src/: the lines of its items by their names, its impls of traits, and what its names stand for."""

    def __init__(self, crate: str, place: str) -> None:
        self.crate, self.place, self.text = crate, place, read(f"crates/{crate}/{place}")
        self.lines = self.text.split("\n")
        items, impls = [*map(ITEM.match, self.lines)], [*map(IMPL.match, self.lines)]
        self.items = {item[1]: at for at, item in reversed([*enumerate(items)]) if item}
        self.impls = {(impl[2], impl[1]): at for at, impl in enumerate(impls) if impl}
        self.used = {name: path for text in RUST_USE.findall(self.text) for name, path in leaves(text)}

    def words_of(self, at: int) -> list[str]:
        """The lines of comment above an item, over its attributes."""
        begun = at
        while begun > 0 and self.lines[begun - 1].startswith(("///", "#[", ")]", " ")):
            begun -= 1
        return [line for line in self.lines[begun:at] if line.startswith("///")]

    def item(self, at: int) -> list[str]:
        text = "\n".join(self.lines[at:])
        return text[:end_of(text, 0)].split("\n")

    def terms(self, begun: int, end: int) -> Iterator[tuple[int, str, str]]:
        """The terms in these lines: the line of each, what begins it, and what stands in its braces."""
        text = "\n".join(self.lines[begun:end])
        for match in TERM.finditer(text):
            inner = text[match.end():end_of(text, match.end() - 1) - 1]
            yield begun + text.count("\n", 0, match.start()), match[0], inner

    def block_of(self, at: int) -> int:
        """The first line of the item at the margin in which a line stands."""
        return next(place for place in range(at, -1, -1) if self.lines[place][:1] not in ("", " ", ")"))

    def uses_at(self, at: int) -> list[str]:
        """The `ghost use` lines that hold at a line: those at the margin, and those of its block."""
        inner = self.item(self.block_of(at)) if self.lines[at].startswith(" ") else []
        return [line for line in self.lines if line.startswith("ghost use")] + \
               [line for line in inner if line.strip().startswith("ghost use")]

    def is_public(self, at: int) -> bool:
        """Whether a term at this line is a public contract: of a public function, or of a trait, or a ghost."""
        trait = OF_TRAIT.match(self.lines[self.block_of(at)])
        if trait and trait[1] in traits_within(self.crate):
            return False
        if self.lines[at].strip().startswith("ghost"):
            return True
        head = next(place for place in range(at, -1, -1) if FUNCTION.match(self.lines[place]))
        indent, public, _ = not_none(FUNCTION.match(self.lines[head])).groups()
        return public == "pub " or bool(indent and OF_TRAIT.match(self.lines[self.block_of(head)]))
