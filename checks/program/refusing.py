"""Refuses an allocation of the program, by refusing.c before the C library.

A run is forked at each allocation that is to be refused: the child is refused it and goes on to its end, while the run
waits. What the child left is looked at, then the files are put back, and the run goes on as if nothing had been. So
each refused allocation has a process of its own, and what comes before it is done once."""
import contextlib
import hashlib
import mmap
import os
import pathlib
import struct
import subprocess
from typing import Any, Iterator, NamedTuple

# So long, in seconds, a run may take that has no more children.
PATIENCE = 60


def built(source: str, folder: str) -> str:
    """The library that is made of a C file beside this one, in the folder."""
    library = os.path.join(folder, f"{source}.so")
    subprocess.run(["gcc", "-shared", "-fPIC", "-o", library, pathlib.Path(__file__).with_name(source)], check=True)
    return library


class End(NamedTuple):
    """How the program ended, with what it wrote."""
    status: int
    output: bytes
    error: bytes


class Refusing:
    """The library with a folder of its own: the file that has the count of a run, and those that a run reads and
    writes. What was left byte for byte as at an earlier end of the same kind is not looked at again: it would be found
    as it was."""

    def __init__(self, library: str, folder: str) -> None:
        self.folder, self.seen = folder, set[Any]()
        self.counted, *self.streams = (pathlib.Path(folder, name) for name in ("counted", "input", "output", "error"))
        self.counted.write_bytes(bytes(mmap.PAGESIZE))
        self.variables = {**os.environ, "LD_PRELOAD": library, "COUNTED": str(self.counted)}

    def path(self, name: str) -> str:
        return os.path.join(self.folder, name)

    def is_new(self, file: str, *kind: Any) -> bool:
        """Whether no end of this kind has left these bytes in the file and its log."""
        paths = (pathlib.Path(file + end) for end in ("", "-wal"))
        mark = (*kind, *(path.exists() and hashlib.sha1(path.read_bytes()).digest() for path in paths))
        is_new = mark not in self.seen
        self.seen.add(mark)
        return is_new

    def environment(self, refused: int, on_signal: bool = False) -> dict[str, str]:
        """The program's environment, where the allocation of this number is to be refused; none is where it is 0."""
        with open(self.counted, "r+b") as target:
            target.write(bytes(8))
        return {**self.variables, "REFUSED": str(refused), **({"ON_SIGNAL": "1"} if on_signal else {})}

    def count(self) -> int:
        return int.from_bytes(self.counted.read_bytes()[:8], "little")

    def ends(self, words: list[str], given: bytes, file: str, numbers: range) -> Iterator[tuple[int, End]]:
        """Refuses each of these allocations, with its number: how the program then ended, and last, under 0, how it
        ended where none was refused. What was left of the file and its log stands until the next is asked for."""
        self.streams[0].write_bytes(given)
        (ended, ending), (waiting, going_on) = os.pipe(), os.pipe()
        forked = (numbers.start, numbers[-1], numbers.step, ending, waiting, file, f"{file}-wal")
        environment = {**self.environment(0), "FORKED": " ".join(map(str, forked))}
        with contextlib.ExitStack() as stack:
            source, output, error = (stack.enter_context(open(path, mode))
                                     for path, mode in zip(self.streams, ("rb", "w+b", "w+b")))
            process = stack.enter_context(subprocess.Popen(
                words, stdin=source, stdout=output, stderr=error, env=environment, pass_fds=(ending, waiting)))
            # A run that waits ends where these are closed, which they are first where a fault is found.
            ends, go_on = (stack.enter_context(open(end, mode, 0)) for end, mode in ((ended, "rb"), (going_on, "wb")))
            os.close(ending)
            os.close(waiting)
            while message := ends.read(8):
                number, status = struct.unpack("ii", message)
                yield number, self.end(os.waitstatus_to_exitcode(status))
                go_on.write(b"+")
            yield 0, self.end(process.wait(PATIENCE))

    def end(self, status: int) -> End:
        return End(status, *(path.read_bytes() for path in self.streams[1:]))
