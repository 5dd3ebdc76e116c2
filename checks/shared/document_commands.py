"""What documents.py and a package's check run: the commands of documents, each with its output.

A fenced block `sh` is commands, and the next fenced block, where it has no language, their output; where it has one
they print nothing. The blocks of the documents are run one after the other, from the first document's to the last
one's, in one folder, as by a reader who goes on from page to page. It has a copy of office/, of samples/ and of
checks/sqlite/version_1.sql, and the program as ./keyreg. The port 8420 is replaced by a free one. A moment of the
clock, within the time of the run, stands in a document as 1795541234. Spaces at the ends of lines do not count.
"""
import difflib
import os
import re
import shutil
import subprocess
import time
from typing import NamedTuple, Sequence

from places import PROGRAM, TOP, VERSION_1, read
from script import fresh_folder
from serving import free_port

CLOCK, PORT, SECONDS = "1795541234", "8420", 120
# A first look may take so long.
LOOK_SECONDS = 180
# Lines that differ, and how many there are of all.
Faults = tuple[list[str], int]


class Fence(NamedTuple):
    """A fenced block of a document: the number of its first line, its language and its text."""
    number: int
    language: str
    text: str


def anchor_of(heading: str) -> str:
    """How a link names a heading, whose own links are their texts."""
    text = re.sub(r"\[([^\]]*)\]\([^)]*\)", r"\1", heading.lstrip("# ")).strip().lower()
    return re.sub(r"[^\w\- ]", "", text).replace(" ", "-")


def fences_of(text: str) -> list[Fence]:
    return [Fence(text.count("\n", 0, fence.start()) + 2, fence[1].strip(), fence[2])
            for fence in re.finditer(r"(?ms)^```([^\n]*)\n(.*?)^```[^\n]*$", text)]


def printed(commands: str, folder: str, shell: Sequence[str] = ("bash", "-c")) -> str:
    """What the commands print on both outputs, moments of the clock as documents have them."""
    begun, port = int(time.time()), str(free_port())
    environment = {**os.environ, "no_proxy": "*", "TZ": "UTC", "TMPDIR": folder}
    try:
        text = subprocess.run([*shell, commands.replace(PORT, port)], cwd=folder, env=environment, timeout=SECONDS,
                              stdin=subprocess.DEVNULL, stdout=subprocess.PIPE, stderr=subprocess.STDOUT,
                              text=True, check=False).stdout
    except subprocess.TimeoutExpired as late:
        text = f"{(late.stdout or b'').decode()}no end in {SECONDS} seconds"
    moments = range(begun, int(time.time()) + 1)
    return re.sub(r"\b\d{10}\b", lambda number: CLOCK if int(number[0]) in moments else number[0],
                  text.replace(port, PORT))


def first_look() -> Faults:
    """What is wrong with README's first commands, which alone are `bash`: in a copy of the sources, where nothing was
    proved, they print the first output that stands there, within so many seconds, which are given too."""
    fences = fences_of(read("README.md"))
    commands = next(fence for fence in fences if fence.language == "bash")
    wanted = next(fence.text for fence in fences if not fence.language)
    with fresh_folder() as folder:
        shutil.copytree(TOP, folder / "copy", ignore=shutil.ignore_patterns("out", ".git", "__pycache__"))
        begun = time.monotonic()
        done = subprocess.run(["bash", "-c", commands.text], cwd=folder / "copy", capture_output=True,
                              stdin=subprocess.DEVNULL, text=True, check=False)
        seconds = round(time.monotonic() - begun)
    is_well = done.returncode == 0 and done.stdout.startswith(wanted) and seconds <= LOOK_SECONDS
    fault = f"README.md:{commands.number}: after {seconds} seconds status {done.returncode}: {done.stdout[-300:]}"
    return [fault] * (not is_well), seconds


def wrong_outputs(documents: Sequence[str]) -> Faults:
    """A line for each block of commands whose output is another one, and how many there are."""
    if not os.access(PROGRAM, os.X_OK):
        return [f"{documents[0]}: no program at {PROGRAM}: ./keyreg </dev/null builds it"], 0
    with fresh_folder() as folder:
        for name in ("office", "samples"):
            shutil.copytree(TOP / name, folder / name)
        (folder / "checks/sqlite").mkdir(parents=True)
        shutil.copy(VERSION_1, folder / "checks/sqlite")
        (folder / "keyreg").symlink_to(os.path.abspath(PROGRAM))
        return compared({document: read(document) for document in documents}, str(folder))


def compared(texts: dict[str, str], folder: str, shell: Sequence[str] = ("bash", "-c")) -> Faults:
    """The same of texts by their names, run by a shell in a folder that has what they use."""
    faults, count = [], 0
    for document, text in texts.items():
        fences = fences_of(text)
        for fence, output in zip(fences, [*fences[1:], Fence(0, "none", "")]):
            if fence.language == "sh":
                outputs = ("" if output.language else output.text, printed(fence.text, folder, shell))
                wanted, told = ([line.rstrip() for line in text.rstrip("\n").split("\n")] for text in outputs)
                differences = list(difflib.unified_diff(wanted, told, lineterm="", n=0))[3:7]
                faults += [f"{document}:{fence.number}: another output: {' / '.join(differences)}"] * bool(differences)
                count += 1
    return faults, count
