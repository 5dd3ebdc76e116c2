"""Where things stand: the top of the repository, the program (the one that KEYREG names, if set), and the folders whose
modules a check imports. Importing this puts office/ on the path, which alone has the rules of a register."""
import glob
import os
import pathlib
import sys

TOP = pathlib.Path(__file__).resolve().parents[2]
OFFICE, SAMPLES, DESK, DOCS = TOP / "office", TOP / "samples", TOP / "desk", TOP / "docs"
UNITS = OFFICE / "units"
VERSION_1 = TOP / "checks" / "sqlite" / "version_1.sql"
BUILT = TOP / "crates" / "keyreg" / "out" / "keyreg"
PROGRAM = os.environ.get("KEYREG") or str(BUILT)


def use(folder: str) -> None:
    """Puts a folder of the repository on the path of modules, behind the script's own."""
    if str(TOP / folder) not in sys.path:
        sys.path.insert(1, str(TOP / folder))


def read(path: str) -> str:
    """The text of a file, by its path from the top."""
    return (TOP / path).read_text(encoding="utf-8")


def listed(pattern: str) -> list[str]:
    """The files of this form, by their paths from the top."""
    return sorted(os.path.relpath(path, TOP) for path in glob.glob(str(TOP / pattern), recursive=True))


use("office")
