"""The definitions that a contract stands on, for checks/sources/theorem.py.

A definition is one of a crate's specs/, or a type, a trait or a constant of its src/ that definitions or contracts
name. Each has its text as the source has it, the words above it, and what it names, in order: each word of it that the
file defines or brings in, but for the parameters of an equation. Names of crates that crates.txt has no line for are
the kit's: the walk ends there.
"""
import functools
import re
from typing import Iterable, Iterator, NamedTuple, Optional

from places import listed, read
from contracts import RustFile, stands_on

USE = re.compile(r"\s*(?:ghost )?use Rattle\.(\w+)\.(?:specs|(?=proofs))\.?([\w.-]*?)"
                 r"(?:\.?\{(.*)\}| as ([\w-]+));?\s*$")
HEAD = re.compile(r"( *)(?:(?:(?:abbrev|unfoldable)(?: pub)?|pub) (\S+) :|(?:pub )?(?:record|data) ([A-Z]\w*)\b)")
# Of a text or a comment nothing is a word; nor is a field behind a dot.
WORD = re.compile(r"\"(?:[^\"\\]|\\.)*\"|--[^\n]*|//[^\n]*|\.\w+|([^\W\d][\w']*(?:\.\w+)*|\[\s*\]|[^\w\s()\[\]{}\"]+)")
VARIABLE = re.compile(r"(?<!\S)\(?([a-z][\w']*)")


class Key(NamedTuple):
    """Where a definition stands: its crate, its file of specs/ (or its path from the crate, of code), its name."""
    crate: str
    place: str
    name: str


class Definition(NamedTuple):
    key: Key
    words: str
    text: tuple[str, ...]
    parameters: str
    names: tuple[Key, ...]


def is_ours(key: Key) -> bool:
    return key.crate in stands_on()


def paragraph(lines: Iterable[str], mark: str) -> str:
    """The words of lines of comment, without the links of code."""
    text = " ".join(" ".join(line.strip().removeprefix(mark) for line in lines).split())
    return re.sub(r"\[(`[^`]*`)\](?:\([^)]*\))?", r"\1", text)


def words_in(text: str) -> list[str]:
    return [re.sub(r"\s", "", word) for word in WORD.findall(text) if word]


class Imports:
    """What the words of a file stand for by its `use` lines: the crate, the path and the name of each."""

    def __init__(self, lines: list[str]) -> None:
        self.words: dict[str, tuple[str, str, str]] = {}
        self.files: dict[str, tuple[str, str]] = {}
        for crate, path, names, alias in (match.groups() for match in map(USE.match, lines) if match):
            if alias:
                self.files[alias] = crate, path
            for name in (names or "").split(","):
                place, _, other = name.strip().partition(" as ")
                file, _, meant = place.rpartition(".")
                if meant:
                    self.words[other or meant] = crate, ".".join(filter(None, (path, file))), meant
        self.signs = {part: word for word in self.words if "◌" in word for part in word.split("◌") if part}

    def key(self, word: str) -> Optional[Key]:
        first, _, rest = word.partition(".")
        if first in self.files and rest:
            return key_of(*self.files[first], rest.split(".")[0])
        meant = self.words.get(first) or self.words.get(self.signs.get(first, ""))
        return key_of(*meant) if meant else None


def key_of(crate: str, path: str, name: str) -> Key:
    """The definition that an import names."""
    parts = path.split(".")
    if crate not in stands_on():
        return Key(crate, path, name)
    if parts[0] not in ("declared", "contracts", "proofs"):
        return Key(crate, path, spec_file(crate, path).made.get(name, name))
    is_of_type = parts[-1] in ("TheVariants", "TheImpl")
    owner = name if parts[-1] == "TheConstants" else parts[-2 if is_of_type else -1]
    modules = parts[1:-2 if is_of_type else -1]
    return Key(crate, f"src/{'/'.join(modules) or 'lib'}.rt", owner)


# ---- specs/


class SpecFile:
    """The definitions of one file of specs/: of each the lines of comment above it, its lines, and the parameters of
    the block that it stands in; and which of them makes each constructor."""

    def __init__(self, crate: str, place: str) -> None:
        self.crate, self.place = crate, place
        lines = read(f"crates/{crate}/specs/{place.replace('.', '/')}.antt").split("\n")
        self.imports = Imports(lines)
        self.parts: dict[str, tuple[list[str], list[str], str]] = {}
        above, block, text, indent = list[str](), list[str](), list[str](), 0
        for line in lines:
            head = HEAD.match(line)
            if line[:1].strip() and not line.startswith("--"):
                block = [line] if line.startswith("module _ ") else []
            elif block and not block[-1].endswith(" where"):
                block.append(line)
            if head and len(head[1]) in (0, 2 * bool(block)):
                parameters = " ".join(map(str.strip, block)).removeprefix("module _ ").removesuffix(" where")
                indent, text = len(head[1]), [line.strip()]
                self.parts[head[2] or head[3]] = above, text, parameters
                above = []
            elif not line.strip() or "-- ----" in line or line in block:
                above = []
            elif line.strip().startswith("--"):
                above.append(line[indent:])
            else:
                text += [*above, line[indent:]]
                above = []
        self.made = {constructor: name for name, (_, text, _) in self.parts.items()
                     if text[0].startswith(("data ", "pub data "))
                     for constructor in re.findall(r"(?m)^  (\w+) :", "\n".join(text))}

    def resolve(self, word: str) -> Optional[Key]:
        first = word.split(".")[0]
        name = next((name for name in (self.made.get(first), first, f"◌{first}◌") if name in self.parts), None)
        return Key(self.crate, self.place, name) if name else self.imports.key(word)

    def names(self, name: str) -> Iterator[Optional[Key]]:
        """What a definition names: of a lemma what it says is taken, and not its proof."""
        _, text, parameters = self.parts[name]
        kind = text[0].removeprefix("pub ").split()[0]
        pieces = re.split(r"\n(?=[^\s)\]}])", "\n".join(line for line in text if not line.strip().startswith("--")))
        yield from map(self.resolve, words_in(f"{parameters}\n{pieces[0]}"))
        for equation in pieces[1:] if kind in ("record", "data", "abbrev", "unfoldable") else []:
            variables = set(VARIABLE.findall(equation.partition(" =")[0]))
            found = map(self.resolve, words_in(equation))
            yield from (key for key in found if key and not (is_ours(key) and key.name in variables))

    def definition(self, name: str) -> Definition:
        (above, text, parameters), own = self.parts[name], Key(self.crate, self.place, name)
        names = tuple(key for key in dict.fromkeys(self.names(name)) if key and key != own)
        return Definition(own, paragraph(above, "--"), tuple(text), parameters, names)


spec_file = functools.lru_cache(maxsize=None)(SpecFile)


@functools.lru_cache(maxsize=None)
def spec_keys() -> list[Key]:
    """Each definition of the crates' specs/."""
    places = (path.removesuffix(".antt").split("/", 3)[1:] for path in listed("crates/*/specs/**/*.antt"))
    return [Key(crate, place.replace("/", "."), name) for crate, _, place in places if place != "Lib"
            for name in spec_file(crate, place.replace("/", ".")).parts]


# ---- types, traits and constants of code


rust_file = functools.lru_cache(maxsize=None)(RustFile)


@functools.lru_cache(maxsize=None)
def rust_files() -> list[RustFile]:
    return [rust_file(*path.split("/", 2)[1:]) for path in listed("crates/*/src/**/*.rt")]


def rust_key(file: RustFile, word: str) -> Optional[Key]:
    """The item of code that a word of a file stands for: none where it is of the language itself."""
    if word in file.items or word not in file.used:
        return Key(file.crate, file.place, word) if word in file.items else None
    first, *modules, name = file.used[word].split("::")
    crate = file.crate if first in ("crate", "self", "super") else first
    if crate not in stands_on():
        return Key(crate, ".".join(modules), name)
    having = [other.place for other in rust_files() if other.crate == crate and name in other.items]
    of_module = [place for place in having if modules and place.endswith(f"{modules[-1]}.rt")]
    if having:
        return Key(crate, min(of_module or having), name)
    return rust_key(rust_file(crate, "src/lib.rt"), name)


def names_of_terms(file: RustFile, begun: int, end: int, has_private: bool = True) -> list[Optional[Key]]:
    """What the terms in these lines of code name, or those of public contracts alone."""
    terms = [(Imports(file.uses_at(at)), term) for at, _, term in file.terms(begun, end)
             if has_private or file.is_public(at)]
    return [imports.key(word) or rust_key(file, word.split(".")[0])
            for imports, term in terms for word in words_in(term)]


def type_words(text: str) -> list[str]:
    """The types that a declaration names outside its terms, and behind the names of an enum's variants."""
    text = re.sub(r"//.*|(?m:^ *(?:ghost|requires|ensures)\b.*)", "", text)
    return re.findall(r"\b[A-Z]\w*", re.sub(r"(?m)^    \w+", "", text) if " enum " in f" {text}" else text)


def on_one_line(text: str) -> str:
    """A type, with each variant of an enum on one line where that has the room and no comment stands within."""
    for variant in re.findall(r"^    \w+ \{\n(?:        \w+: [^\n]*,\n)+    \},$", text, re.M):
        joined = re.sub(r"\n\s*", " ", variant).replace(", },", " },")
        text = text.replace(variant, joined) if len(joined) <= 110 else text
    return text


def of_code(key: Key, words: list[str], text: Iterable[str], named: Iterable[Optional[Key]]) -> Definition:
    names = tuple(name for name in dict.fromkeys(named) if name and name != key)
    return Definition(key, paragraph(words, "///"), tuple("\n".join(text).split("\n")), "", names)


def rust_definition(key: Key) -> Definition:
    """An item of code; of a type that contracts see as a value, also what that value is, but for the way back from it,
    of which no contract speaks; or what a type has of a trait, which contracts name by both."""
    file = rust_file(key.crate, key.place)
    at, text, named = file.items.get(key.name), list[str](), list[Optional[Key]]()
    if at is None:
        of_type, at = next((name, place) for (name, trait), place in file.impls.items() if name + trait == key.name)
        end = at + len(file.item(at))
        ghosts = [f"{head}{inner}}};" for _, head, inner in file.terms(at, end) if "ghost" in head]
        words = file.words_of(at) or file.words_of(file.items.get(of_type, at))
        return of_code(key, words, [file.lines[at], *ghosts, "}"], names_of_terms(file, at, end))
    model = file.impls.get((key.name, "Model"))
    for begun in (at,) if model is None else (at, model):
        item = file.item(begun)
        named += names_of_terms(file, begun, begun + len(item))
        text += [line for line in item if line.strip() and not line.strip().startswith(("#[", "ghost use"))
                 and not line.startswith("    ghost inverse ")]
    if model is None:
        named += [rust_key(file, word) for word in type_words("\n".join(text))]
    return of_code(key, file.words_of(at), [on_one_line("\n".join(text))], named)


def law(path: str, name: str) -> Definition:
    """A public function, of which the contract is what is said."""
    _, crate, place = path.split("/", 2)
    file = rust_file(crate, place)
    at = next(place for place, line in enumerate(file.lines) if re.match(rf"pub fn {name}\b", line))
    end = next(place for place in range(at, len(file.lines)) if file.lines[place].startswith("{"))
    bounds = " ".join(re.findall(r"<.*>", file.lines[at]))
    named = names_of_terms(file, at, end) + [rust_key(file, word) for word in type_words(bounds)]
    return of_code(Key(crate, place, name), file.words_of(at), file.lines[at:end], named)


@functools.lru_cache(maxsize=None)
def definition(key: Key) -> Definition:
    is_of_code = key.place.startswith("src/")
    return rust_definition(key) if is_of_code else spec_file(key.crate, key.place).definition(key.name)


# ---- the walk


def in_order(names: Iterable[Key]) -> tuple[list[Definition], list[Key]]:
    """These definitions and those that they stand on, crate by crate from the top, each with those of its crate that it
    names first right below it; and the kit's."""
    defined, left = dict[Key, Definition](), dict.fromkeys(names)

    def stand(key: Key) -> None:
        if key not in defined:
            defined[key] = definition(key)
            for name in defined[key].names:
                stand(name) if name.crate == key.crate else left.setdefault(name)

    for crate in reversed(stands_on()):
        for key in [key for key in left if key.crate == crate]:
            stand(key)
    if any(is_ours(key) and key not in defined for key in left):
        raise ValueError("a definition names one of a crate above its own")
    return list(defined.values()), [key for key in left if not is_ours(key)]


def contract_names() -> Iterator[Key]:
    """What each public contract of all crates names: clauses of public functions and of traits, and ghosts."""
    for file in rust_files():
        yield from filter(None, names_of_terms(file, 0, -1, has_private=False))


def reached(names: Iterable[Key]) -> set[Key]:
    """These definitions of ours, and those on which they stand."""
    left, seen = [*filter(is_ours, names)], set[Key]()
    while left:
        key = left.pop()
        if key not in seen:
            seen.add(key)
            left += filter(is_ours, definition(key).names)
    return seen


def unread() -> list[str]:
    """The `use` lines of specs/ and src/ that are not read here: behind one there may be a definition."""
    paths = listed("crates/*/specs/**/*.antt") + listed("crates/*/src/**/*.rt")
    return [f"{path}: {line}" for path in paths for line in read(path).split("\n")
            if re.match(r"\s*(ghost )?use Rattle\b", line) and not USE.match(line)]
