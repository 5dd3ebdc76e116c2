#!/usr/bin/env python3
"""A person who types `keyreg`, some letters and Tab gets the rest: in bash, zsh and fish, each in a terminal of its
own, which shows the line, the choices and nothing else. A word that the program does not know is never completed.

    checks/package/completion.py [SHELL..]

It needs Debian's tmux and the shells (`apt-get install tmux zsh fish`), and reads the files under packaging/.
checks/package/installed.py asks the same of the files that a package put in a root, by the shells of that root.
"""
import contextlib
import os
import pathlib
import shlex
import shutil
import subprocess
import sys
import time
from typing import Callable, Iterator, Sequence

sys.path.insert(1, str(pathlib.Path(__file__).resolve().parents[1] / "shared"))
from places import TOP
from script import fresh_folder, options, verdict

PACKAGING = TOP / "packaging"
PROMPT, PATIENCE = "now> ", 8
# What is typed, each before one Tab, and the line that is to stand there.
COMPLETED = (
    ("keyreg im", "keyreg import "), ("keyreg rep", "keyreg report "), ("keyreg run --fi", "keyreg run --file"),
    ("keyreg import --file x --fir", "keyreg import --file x --first"), ("keyreg report --da", "keyreg report --days"),
    ("keyreg serve --file x --po", "keyreg serve --file x --port"),
    ("keyreg run --file off", "keyreg run --file office.keyreg"),
    ("keyreg run --file=off", "keyreg run --file=office.keyreg"),
    ("keyreg report --days 3 --file=off", "keyreg report --days 3 --file=office.keyreg"),
    ("keyreg run --file fol", "keyreg run --file folder/"),
    ("keyreg run --file=~/ho", "keyreg run --file=~/home.keyreg"),
    ("keyreg run --file=folder/ye", "keyreg run --file=folder/year.keyreg"),
    ("keyreg run --file=two", "keyreg run --file=two\\ words.keyreg"),
)
# What is typed before one Tab, and stays as it is: what the program knows no word for.
LEFT = ("keyreg h", "keyreg help")
# What is typed before two Tabs, and the choices that are to stand on the screen.
CHOICES = (("keyreg ", "init run import export report serve"),
           ("keyreg import --", "--file --moment --caller --first --help"),
           ("keyreg serve --", "--file --port --exchanges --help"))
# How a shell begins without anybody's files, what it is told first, and how it is told of the files of completion,
# where they do not lie in the places of a package.
SHELLS = {
    "bash": ("bash --noprofile --norc -i", f"PS1='{PROMPT}'; bind 'set page-completions off'; {{}}; clear",
             ". {}/keyreg.bash"),
    "zsh": ("zsh -f -i", f"PS1='{PROMPT}'; {{}}; autoload -Uz compinit; compinit -u -D; clear", "fpath=({} $fpath)"),
    "fish": ("fish --private -i", f"function fish_prompt; echo -n '{PROMPT}'; end; function fish_right_prompt; end; "
             "{}; clear", "source {}/keyreg.fish"),
}


class Terminal:
    """A shell in a terminal of tmux."""

    def __init__(self, folder: pathlib.Path) -> None:
        others = {name: value for name, value in os.environ.items() if name not in ("TMUX", "TMUX_PANE")}
        self.socket, self.environment = folder / "tmux", {**others, "LC_ALL": "C.UTF-8", "TERM": "screen"}

    def tmux(self, *words: object) -> str:
        return subprocess.run(["tmux", "-S", self.socket, *map(str, words)], env=self.environment, capture_output=True,
                              text=True, check=False).stdout

    def until(self, holds: Callable[[list[str]], bool]) -> list[str]:
        """The lines on the screen, without those below the last one, as soon as they are so, or when patience ends."""
        late = time.monotonic() + PATIENCE
        while not holds(lines := self.tmux("capture-pane", "-p").rstrip("\n").split("\n")) and time.monotonic() < late:
            time.sleep(0.05)
        return lines

    def typed(self, text: str, *keys: str) -> None:
        self.tmux("send-keys", "-l", text)
        for key in keys:
            self.tmux("send-keys", key)

    def clear(self) -> None:
        self.typed("", "C-u", "C-l")
        self.until(lambda lines: lines == [PROMPT.rstrip()])


@contextlib.contextmanager
def begun(words: Sequence[str], first: str, folder: pathlib.Path) -> Iterator[Terminal]:
    """A shell that waits at its prompt, after it was told something first."""
    with fresh_folder() as held:
        terminal = Terminal(held)
        terminal.tmux("-f", "/dev/null", "new-session", "-d", "-x", 120, "-y", 40, "-c", folder, shlex.join(words))
        terminal.until(lambda lines: any(line.strip() for line in lines))
        terminal.typed(first, "Enter")
        terminal.until(lambda lines: lines == [PROMPT.rstrip()])
        yield terminal
        terminal.tmux("kill-server")


def furnish(folder: pathlib.Path) -> None:
    """The files that are there to be completed, in a folder and its home."""
    for name in ("office.keyreg", "two words.keyreg", "folder/year.keyreg", "home/home.keyreg", "home/.config/there"):
        (folder / name).parent.mkdir(parents=True, exist_ok=True)
        (folder / name).write_text("")


def line_of(lines: Sequence[str]) -> str:
    """The line that is typed at, without what a shell proposes behind it."""
    return next((line[len(PROMPT):].rstrip() for line in reversed(lines) if line.startswith(PROMPT)), "")


def missing_in(lines: Sequence[str], choices: str) -> set[str]:
    """The choices that do not stand on the screen."""
    shown = " ".join(line for line in lines if not line.startswith(PROMPT))
    return set(choices.split()) - set(shown.replace(",", " ").split())


def faults_of(shell: str, words: Sequence[str], folder: pathlib.Path, files: str) -> Iterator[str]:
    """What a shell, begun behind these words in the folder, and told of the files by others, does not complete."""
    begin, first, _ = SHELLS[shell]
    with begun([*words, *begin.split()], first.format(files), folder) as terminal:
        for text, wanted in COMPLETED:
            terminal.typed(text)
            terminal.until(lambda lines: line_of(lines).startswith(text))
            terminal.typed("", "Tab")
            # zsh writes the `=` that an option takes.
            right = {wanted.rstrip(), wanted.rstrip() + "=" * wanted.split()[-1].startswith("--")}
            lines = terminal.until(lambda lines: line_of(lines) in right and len(lines) == 1)
            if line_of(lines) not in right or len(lines) != 1:
                yield f"{shell}: `{text}` and Tab: {lines}, not {wanted!r}"
            terminal.clear()
        for text in LEFT:
            # What is typed after the Tab stands there once the shell is done with it.
            terminal.typed(text, "Tab")
            terminal.typed("+")
            lines = terminal.until(lambda lines: line_of(lines).endswith("+"))
            if line_of(lines) != f"{text}+":
                yield f"{shell}: `{text}`, Tab and `+`: {lines}"
            terminal.clear()
        for text, choices in CHOICES:
            terminal.typed(text, "Tab", "Tab")
            lines = terminal.until(lambda lines: not missing_in(lines, choices))
            if missing := missing_in(lines, choices):
                yield f"{shell}: `{text}` and two Tabs do not show {missing}: {lines}"
            terminal.clear()


def main() -> None:
    shells, faults = options(__doc__, list(SHELLS)).parts, list[str]()
    with fresh_folder() as folder:
        shutil.copytree(PACKAGING, folder / "files")
        (folder / "files/keyreg.zsh").rename(folder / "files/_keyreg")
        furnish(folder)
        clean = ["env", "-i", f"HOME={folder}/home", "PATH=/usr/bin:/bin", "TERM=screen", "LC_ALL=C.UTF-8"]
        for shell in shells:
            faults += faults_of(shell, clean, folder, SHELLS[shell][2].format(folder / "files"))
    count = len(COMPLETED) + len(LEFT) + len(CHOICES)
    verdict(f"{', '.join(shells)}: {count} completions each, {len(faults)} faults", faults)


if __name__ == "__main__":
    main()
