#!/usr/bin/env python3
"""The man page has the commands and options that `--help` shows, and no other: of each command its options with the
names of their values, in the same order, in the synopsis and in its own section. The lines of standard error that it
quotes are those of the names that docs/SPECIFICATION.md has. mandoc and groff have nothing to say of the page.
office/units/keyreg.service starts the program with the options of `serve`, and the files of completion under packaging/
have the commands and options of the help, and no other.

    checks/package/man_page.py

It needs Debian's mandoc and groff-base.
"""
import pathlib
import re
import sys
from typing import Iterator, Optional

sys.path.insert(1, str(pathlib.Path(__file__).resolve().parents[1] / "shared"))
from places import TOP, UNITS, read
from registers import run_program
from roots import call
from script import expect, not_none, verdict

PAGE = TOP / "docs/keyreg.1"
# The options that clap itself answers, by their short names.
OWN = {"h": ("h, -help", None), "V": ("V, -version", None)}
OPTION = re.compile(r"^\s+(?:-(\w), )?--([\w-]+)(?: <(\w+)>)?", re.M)
COMMAND = re.compile(r"^  (\w+)  ", re.M)
FLAG = re.compile(r"Fl ([hV] [|,] -\w+|-[\w-]+)(?: Ar (\w+))?")
# The lines that the page quotes, and the names that the specification has for them.
QUOTED = re.compile(r'^\.It Li "keyreg: (\w+)"', re.M)
NAMED = re.compile(r"^\| 3\d \| `(\w+)` \||`keyreg: (\w+)`", re.M)
LINTERS = (["mandoc", "-T", "lint", "-W", "style"], ["groff", "-mdoc", "-ww", "-Tutf8", "-z"])
# How the files of completion have an option, and a command.
COMPLETIONS = {"bash": r"--([a-z]+)", "zsh": r"--([a-z]+)", "fish": r"complete .* -l ([a-z]+)"}
COMMANDS = {"bash": r'commands="([a-z ]+)"', "zsh": r"(?m)^ +'([a-z]+):", "fish": r"set -l commands ([a-z ]+)"}

# Each with the name of its value, by the commands; the program itself has no name.
Options = dict[str, list[tuple[str, Optional[str]]]]


def helped(*words: str) -> str:
    """What the help of a command says, which ends with status 1."""
    done = run_program([*words, "--help"])
    expect(done.returncode == 1 and not done.stdout, f"{words} --help: status {done.returncode}, {done.stdout!r}")
    return done.stderr.decode()


def options_of_help() -> Options:
    """The options that each help shows; `-h` of the program alone."""
    text, options = helped(), {}
    for word in ["", *COMMAND.findall(text.split("Commands:\n")[1].split("\n\n")[0])]:
        found = OPTION.findall(helped(word) if word else text)
        options[word] = [OWN[short] if short else (f"-{name}", value or None) for short, name, value in found
                         if not word or short != "h"]
    return options


def parts_of(text: str, mark: str, name: str, item: str) -> Options:
    """The options that the items of each part of a text show; a part begins behind the mark, with its name."""
    options: Options = {}
    for part in text.split(mark)[1:]:
        word = re.match(name, part)
        flags = FLAG.findall("\n".join(re.findall(item, part, re.M)))
        options.setdefault(word[1] if word else "", []).extend(
            OWN.get(flag[0], (flag, value or None)) for flag, value in flags)
    return options


def page_faults(page: str, wanted: Options) -> Iterator[str]:
    """What the page has otherwise than the program's help and the specification, and what the linters say."""
    synopsis, text = page.split(".Sh SYNOPSIS\n")[1].split(".Sh FILES\n")[0].split(".Sh DESCRIPTION\n")
    parts = {"synopsis": parts_of(synopsis, ".Nm\n", r"\.Cm (\w+)\n", ".+"),
             "sections": parts_of(f"\n.Ss \n{text}", "\n.Ss ", r"(.*)\n", r"^\.It (Fl .*)")}
    for part, options in parts.items():
        for word in {**wanted, **options}:
            if options.get(word) != wanted.get(word):
                yield f"{part}: {word or 'the program'} has {options.get(word)}, and --help {wanted.get(word)}"
    names = {row or line for row, line in NAMED.findall(read("docs/SPECIFICATION.md"))}
    yield from (f"keyreg: {name} is quoted or named alone" for name in sorted(names ^ set(QUOTED.findall(page))))
    for words in LINTERS:
        done = call(*words, PAGE)
        yield from (done.stdout + done.stderr).splitlines()


def other_faults(wanted: Options) -> Iterator[str]:
    """What the unit and the files of completion have otherwise than the program's help."""
    started = not_none(re.search(r"^ExecStart=\S+ serve (.*)", (UNITS / "keyreg.service").read_text(), re.M))
    if re.findall(r"-(-\w+) \S+", started[1]) != [name for name, _ in wanted["serve"]]:
        yield f"office/units/keyreg.service has {started[1]}"
    names = {name.split("-")[-1] for options in wanted.values() for name, _ in options}
    for shell, pattern in COMPLETIONS.items():
        text = read(f"packaging/keyreg.{shell}")
        yield from (f"packaging/keyreg.{shell}: no --{name} in both"
                    for name in sorted(names ^ set(re.findall(pattern, text))))
        words = " ".join(re.findall(COMMANDS[shell], text)).split()
        yield from (f"packaging/keyreg.{shell}: no command {word} in both"
                    for word in sorted((wanted.keys() - {""}) ^ set(words)))


def main() -> None:
    wanted = options_of_help()
    faults = [*page_faults(PAGE.read_text("utf-8"), wanted), *other_faults(wanted)]
    verdict(f"docs/keyreg.1, a unit and the files of completion: {len(faults)} differences", faults)


main()
