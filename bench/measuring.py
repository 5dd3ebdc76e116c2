"""What the benchmarks share: bare programs over the kit's `sqlite`, what a run of a program uses, and tables. Importing
this puts the folder that the checks share on the path of modules. It needs Linux, for the clock of another process, and
the register's own program: ./keyreg </dev/null builds it."""
import contextlib
import os
import pathlib
import shutil
import signal
import subprocess
import sys
import tempfile
import time
from typing import Any, Iterable, Iterator, NamedTuple, Sequence

sys.path.insert(1, str(pathlib.Path(__file__).resolve().parents[1] / "checks" / "shared"))
from registers import File  # noqa: E402
from script import expect  # noqa: E402

# So often a program's first byte is looked for, and so late it may be seen, in seconds.
LOOK, TOO_LATE = 0.0002, 0.001
# Places are taken out of their order in steps of this prime.
STEP = 7919
# Where a bare program has the constants that its script gives it.
CONSTANTS = "// What the measuring script counts with stands here.\n"


class Used(NamedTuple):
    """Processor (user and system) and wall seconds of a run, and its greatest resident memory in MB."""
    processor: float
    wall: float
    memory: float


def built(name: str, constants: str = "") -> str:
    """The bare program of the source beside this file, with these constants. It is proved and built in a folder for
    temporary files, in some minutes, where it is not there so."""
    source = pathlib.Path(__file__).with_name(f"{name}.rt.txt").read_text(encoding="utf-8")
    source = source.replace(CONSTANTS, constants)
    top = pathlib.Path(tempfile.gettempdir(), f"keyreg_bench_{name}")
    crate = top / "crates" / name
    program, text = crate / "out" / name, crate / "src" / "main.rt"
    if not (program.exists() and text.exists() and text.read_text(encoding="utf-8") == source):
        print(f"{name}: proving and building", file=sys.stderr)
        shutil.rmtree(top, ignore_errors=True)
        text.parent.mkdir(parents=True)
        (top / "crates.txt").write_text(f"{name}: sqlite\n", encoding="utf-8")
        text.write_text(source, encoding="utf-8")
        subprocess.run(["rt", "run"], cwd=crate, stdin=subprocess.DEVNULL, capture_output=True, check=False)
        expect(program.exists(), f"{name} was not built")
    return str(program)


def clock_of(process: int) -> int:
    """The processor clock of another process, as clock_getcpuclockid gives it."""
    return (~process << 3) | 2


@contextlib.contextmanager
def started(words: Sequence[Any], given: File, written: File) -> Iterator[tuple[subprocess.Popen, list[Used]]]:
    """A program that reads one file and writes another. It is waited for at the end, is to end with status 0, and what
    it used is put into the list."""
    used, begun = list[Used](), time.monotonic()
    with open(given, "rb") as source, open(written, "wb") as target:
        child = subprocess.Popen(words, stdin=source, stdout=target)
    yield child, used
    _, status, usage = os.wait4(child.pid, 0)
    used.append(Used(usage.ru_utime + usage.ru_stime, time.monotonic() - begun, usage.ru_maxrss / 1024))
    child.returncode = os.waitstatus_to_exitcode(status)
    expect(child.returncode == 0, f"{child.args}: status {child.returncode}")


def measured(words: Sequence[Any], given: File = os.devnull, written: File = os.devnull) -> Used:
    with started(words, given, written) as (_, used):
        pass
    return used[0]


def measured_behind(words: Sequence[Any], written: File) -> tuple[Used, float]:
    """What a program used on no input, and the processor seconds of it after its first byte. It is stopped where that
    byte is there: its clock is exact only while it does not run."""
    for _ in range(20):
        with started(words, os.devnull, written) as (child, used):
            empty = looked = time.monotonic()
            while not os.path.getsize(written) and not os.waitid(
                    os.P_PID, child.pid, os.WEXITED | os.WNOHANG | os.WNOWAIT):
                empty = looked
                time.sleep(LOOK)
                looked = time.monotonic()
            os.kill(child.pid, signal.SIGSTOP)
            os.waitid(os.P_PID, child.pid, os.WSTOPPED | os.WEXITED | os.WNOWAIT)
            late, processor = time.monotonic() - empty, time.clock_gettime(clock_of(child.pid))
            os.kill(child.pid, signal.SIGCONT)
        if late <= TOO_LATE:
            return used[0], used[0].processor - processor
    sys.exit(f"FAILED: {words}: the machine is too busy to see the first byte in time")


def least(figures: Iterable[Sequence[float]]) -> list[float]:
    """The least of each figure of some rounds."""
    return [min(each) for each in zip(*figures)]


def table(columns: Sequence[str], lines: Iterable[Sequence[Any]]) -> None:
    for cells in (columns, ["---"] * len(columns)):
        print("| " + " | ".join(cells) + " |", flush=True)
    for line in lines:
        print("| " + " | ".join(map(str, line)) + " |", flush=True)
