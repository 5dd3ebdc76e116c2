#!/usr/bin/env python3
"""Writes the pages of a package: those that who uses the program reads, each true where it lies.

    packaging/pages.py FOLDER PLACE

The pages go to FOLDER as they stand in the sources, but

- a paragraph, an item of a list or a row of a table that speaks of what only the sources have (`checks/`, `crates/`,
  `./package`, `rt`, a build) is left out, so such a sentence has a paragraph of its own there; so are commands in
  `bash`;
- the program is `keyreg`, in the path, and office/ and samples/ are told to be copied from PLACE, where the package has
  them;
- a link to what the package has not is its text.
"""
import pathlib
import re
import shutil
import sys

TOP = pathlib.Path(__file__).resolve().parent.parent
PAGES = ("README.md", "CHANGES.md", "docs/OPERATING.md", "docs/AUDIT.md", "docs/SPECIFICATION.md", "docs/WORKED.md")
# What lies beside the pages as it is. openapi.yaml has what speaks of the sources in the comment at its head.
BESIDE = ("docs/openapi.yaml", "docs/costs.svg")
PICTURES = ("docs/desk.png",)
# A file of checks/ that a page uses.
MOVED = {"checks/sqlite/version_1.sql": "samples/version_1.sql"}
# What the package has whole, beside its pages.
FOLDERS = ("office", "office/units", "samples")
SOURCES = re.compile(r"checks/|crates/|bench/|\./package\b|\.ci/run|`rt[ `]|CONTRIBUTING|proves and builds")
NOTE = """What is named here without a link is with the sources of keyreg. Commands are typed in a folder of your own,
beside copies of office/ and samples/:

```sh
cp -r {place}/office {place}/samples .
```
"""


def parts(text):
    """The text in the pieces that are left out or stay whole, each with whether it is of a fenced block."""
    piece, inside = [], False
    for line in text.split("\n"):
        fence = line.startswith("```")
        begins = line.startswith(("- ", "|")) or re.match(r"\d+\. |\[[^\]]+\]: ", line) or not line.strip() or fence
        if not inside and begins and piece:
            yield "\n".join(piece), False
            piece = []
        piece.append(line)
        if inside and fence:
            yield "\n".join(piece), True
            piece = []
        inside = inside != fence
    yield "\n".join(piece), inside


def is_there(target, page, given):
    """Whether a link of a page leads to what the package has."""
    if re.match(r"[a-z]+:", target) or target.startswith("#"):
        return True
    path = (pathlib.PurePosixPath("/") / page).parent / target.split("#")[0]
    names = [part for part in path.parts[1:] if part != "."]
    while ".." in names:
        place = names.index("..")
        del names[place - 1:place + 1]
    return "/".join(names) in given


def linked(text, page, given):
    """The text with the links that lead somewhere."""
    gone = [name for name, target in re.findall(r"(?m)^\[([^\]]+)\]: (\S+)", text) if not is_there(target, page, given)]
    for name in gone:
        text = re.sub(rf"(?m)^\[{re.escape(name)}\]: .*\n", "", text).replace(f"[{name}][]", name)
    return re.sub(r"(?<!!)\[([^\]]+)\]\(([^)\s]+)\)",
                  lambda link: link[0] if is_there(link[2], page, given) else link[1], text)


def page_of(page, text, place, given):
    for name, moved in MOVED.items():
        text = text.replace(name, moved)
    kept = [piece for piece, fenced in parts(text)
            if (not piece.startswith("```bash") if fenced else not SOURCES.search(piece))]
    text = linked("\n".join(kept).replace("./keyreg", "keyreg"), page, given)
    if "```sh" in text:
        title, rest = text.split("\n", 1)
        text = f"{title}\n\n{NOTE.format(place=place)}{rest}"
    return re.sub(r"\n{3,}", "\n\n", text)


def plain_head(text):
    """A YAML text without the paragraphs of its head that tell what holds it."""
    head, rest = re.split(r"(?m)^(?=[^#])", text, maxsplit=1)
    left_out = re.compile("checks/|commands hold|The first says")
    return "#\n".join(piece for piece in head.split("#\n") if not left_out.search(piece)) + rest


def main():
    folder, place = pathlib.Path(sys.argv[1]), sys.argv[2]
    given = {*PAGES, *BESIDE, *PICTURES, *FOLDERS, *MOVED.values()}
    given |= {f"{name}/{path.name}" for name in FOLDERS for path in (TOP / name).iterdir() if path.is_file()}
    texts = {page: page_of(page, (TOP / page).read_text("utf-8"), place, given) for page in PAGES}
    texts |= {name: (TOP / name).read_text("utf-8") for name in BESIDE}
    texts["docs/openapi.yaml"] = plain_head(texts["docs/openapi.yaml"])
    texts |= {moved: (TOP / name).read_text("utf-8") for name, moved in MOVED.items()}
    for name, text in texts.items():
        (folder / name).parent.mkdir(parents=True, exist_ok=True)
        (folder / name).write_text(text, "utf-8")
    for name in PICTURES:
        shutil.copyfile(TOP / name, folder / name)


if __name__ == "__main__":
    main()
