"""What each script is made of: its options, a folder of its own, how far it is, and its line of verdict."""
import argparse
import contextlib
import itertools
import os
import pathlib
import shutil
import subprocess
import sys
import tempfile
from typing import Any, Iterable, Iterator, NoReturn, Optional, Sequence, TypeVar, Union

# Where files in memory may stand: the folder that whoever runs the checks clears away, or the system's.
MEMORY_FOLDER = os.environ.get("KEYREG_IN_MEMORY") or "/dev/shm"
Value = TypeVar("Value")


def options(text: Optional[str], parts: Sequence[str] = (), usual: Sequence[str] = (),
            **defaults: Any) -> argparse.Namespace:
    """The options of a script, whose docstring has them. Each takes a value of its default's type, an integer where
    that is None, and none where that is False. Behind them may stand names of parts; without a name the usual ones are
    meant, or all."""
    parser = argparse.ArgumentParser(description=text, formatter_class=argparse.RawDescriptionHelpFormatter)
    for name, default in defaults.items():
        if default is False:
            parser.add_argument(f"--{name}", action="store_true")
        else:
            parser.add_argument(f"--{name}", type=int if default is None else type(default), default=default)
    if parts:
        parser.add_argument("parts", nargs="*", metavar="PART")
    given = parser.parse_args()
    if parts:
        if unknown := [name for name in given.parts if name not in parts]:
            parser.error(f"no part {', '.join(unknown)}; there are {', '.join(parts)}")
        given.parts = given.parts or list(usual or parts)
    return given


def in_memory(least: int) -> Optional[str]:
    """A folder in memory with so many bytes of room, where a sync costs nothing; None, which is the usual one, where
    there is none."""
    has_room = os.access(MEMORY_FOLDER, os.W_OK) and shutil.disk_usage(MEMORY_FOLDER).free >= least
    return MEMORY_FOLDER if has_room else None


@contextlib.contextmanager
def fresh_folder(memory: Optional[int] = None) -> Iterator[pathlib.Path]:
    """A folder of its own, which goes in the end: in memory, where that has so many bytes of room."""
    with tempfile.TemporaryDirectory(dir=in_memory(memory) if memory else None) as folder:
        yield pathlib.Path(folder)


def fail(fault: str) -> NoReturn:
    """Ends the script by a fault."""
    sys.exit(f"FAILED: {fault}")


def expect(holds: object, fault: str) -> None:
    """Ends the script by a fault, where something does not hold."""
    if not holds:
        fail(fault)


def not_none(value: Optional[Value]) -> Value:
    """A value that has to be there, as of a match, or a pipe of a process."""
    if value is None:
        raise LookupError("it is not there")
    return value


def in_order(rows: Iterable[Any], wanted: Iterable[Any], name: str) -> None:
    """Ends the script by a fault where these rows, or lines, differ from those that are wanted: by the first."""
    for place, (row, other) in enumerate(itertools.zip_longest(rows, wanted), 1):
        if row != other:
            fail(f"{name}, row {place} is {row!r}, and should be {other!r}")


def output_of(words: Sequence[Any], **how: Any) -> str:
    """What another program writes that has to end with status 0."""
    done = subprocess.run([*map(str, words)], capture_output=True, text=True, check=False, **how)
    expect(done.returncode == 0,
           f"{' '.join(done.args[:3])}: status {done.returncode}, {done.stdout[-2000:]}{done.stderr[-2000:]}")
    return done.stdout


def show(progress: str = "") -> None:
    """Shows how far a script is where a terminal is at standard error, in place of what was shown before."""
    if sys.stderr.isatty():
        print(f"\r\033[K{progress}", end="", file=sys.stderr, flush=True)


def verdict(line: str, faults: Union[int, Iterable[str]] = ()) -> NoReturn:
    """Ends the script by its line of verdict. The status is 1 where there are faults, which are printed before it, or a
    count of such as were printed already."""
    show()
    lines = [] if isinstance(faults, int) else list(faults)
    print(*lines, line, sep="\n", flush=True)
    sys.exit(1 if lines or isinstance(faults, int) and faults else 0)
