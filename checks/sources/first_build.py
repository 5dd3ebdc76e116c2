#!/usr/bin/env python3
"""What ./keyreg says while it builds, what makes it build, and what a failure, an interrupt and a second call leave: in
a copy of the sources, with an `rt` that proves nothing.

    checks/sources/first_build.py

That `rt` is this file under another name. It prints what the kit's prints, waits, fails where it is asked to, and puts
a shell script in the place of the program. So no proof is run, and no built program is needed.
"""
import contextlib
import fcntl
import os
import pathlib
import re
import shutil
import signal
import subprocess
import sys
import time
from typing import Callable, Iterator, NamedTuple, Optional, Sequence

sys.path.insert(1, str(pathlib.Path(__file__).resolve().parents[1] / "shared"))
from places import TOP
from contracts import below, reached, stands_on
from script import fresh_folder, not_none, options, verdict

# Gives back its words and its input, or lives on as `serve` does; and what a linker leaves that was stopped.
PROGRAM = '#!/bin/sh\necho "words: $*"\n[ "$1" = linger ] && exec sleep 60\nexec cat\n'
HALF = "#!/bin/sh\necho half\n"
WORDS, GIVEN, WANTED = ("run", "--file", "x"), "a line\n", "words: run --file x\na line\n"
# A source of the program's.
SOURCE = "crates/moment_core/src/lib.rt"
ENDED = re.compile(r"^keyreg: (\w+) is proved \((\d+) of (\d+), after \d+ min \d+ s\)$", re.M)


# ---- the `rt` that proves nothing


def write_program(text: str) -> None:
    program = pathlib.Path("out/keyreg")
    program.parent.mkdir(exist_ok=True)
    program.write_text(text, encoding="utf-8")
    program.chmod(0o755)


def rt() -> None:
    """Is `rt version`, or `rt lib --jobs N` and `rt run --jobs N --backend B` in the folder of a crate. It shuts others
    out of the folders of the crate and of all below it, as the kit's does, but waits for none."""
    if sys.argv[1:] == ["version"]:
        print(f"another-kit logic {os.environ['LOGIC']}")
        # Without a logic it is as where there is no `rt`.
        sys.exit(0 if os.environ["LOGIC"] else 127)
    crate, orders = os.path.basename(os.getcwd()), pathlib.Path(os.environ["ORDERS"])
    if crate == "keyreg":
        write_program(HALF)
    with open(orders / "journal", "a", encoding="utf-8") as journal:
        print("begun", crate, os.getpid(), *sys.argv[1:], file=journal, flush=True)
        for name in sorted(reached([crate])):
            # Of a folder that another proof has it is an error.
            fcntl.flock(os.open(f"../{name}", os.O_RDONLY), fcntl.LOCK_EX | fcntl.LOCK_NB)
        with contextlib.suppress(FileNotFoundError):
            time.sleep(float((orders / f"wait-{crate}").read_text(encoding="utf-8")))
        if (orders / f"fail-{crate}").exists():
            sys.exit(f"fn {crate}::module::planted: no proof")
        print(f"fn {crate}::module::function: proved")
        # What a proof leaves: it needs its folder still.
        pathlib.Path("out", "proof").mkdir(parents=True, exist_ok=True)
        if crate == "keyreg":
            write_program(PROGRAM)
            subprocess.run(["out/keyreg"], check=True)
        print("ended", crate, file=journal)


# ---- the copy in which ./keyreg is called

CRATES = reached(["keyreg"])
LOGIC = not_none(re.search(r"logic ([0-9a-f]{16})", (TOP / "crates/register_words/src/words.rt").read_text("utf-8")))[1]


class Called(NamedTuple):
    status: int
    wrote: str
    said: str


def until(holds: Callable[[], object], seconds: float = 30) -> bool:
    """Waits until something holds, and gives whether it came to."""
    end = time.monotonic() + seconds
    while not holds() and time.monotonic() < end:
        time.sleep(0.01)
    return bool(holds())


def lives(process: str) -> bool:
    """Whether a process goes on: of one that has ended the words are gone before its number is."""
    with contextlib.suppress(OSError):
        return pathlib.Path(f"/proc/{process}/cmdline").read_bytes() != b""
    return False


class Copy:
    def __init__(self, folder: pathlib.Path) -> None:
        self.top, self.orders, self.rest = folder / "top", folder / "orders", folder / "rest"
        for made in (self.top, self.orders, self.rest, folder / "bin"):
            made.mkdir()
        (folder / "bin" / "rt").symlink_to(pathlib.Path(__file__).resolve())
        for name in ("keyreg", "crates.txt", "HANDLES", "README.md"):
            shutil.copy2(TOP / name, self.top)
        for name in ("crates", "docs", "checks"):
            # Proofs are most of the files, and each tree of a proof has what it stands on.
            leaving = shutil.ignore_patterns("out", "__pycache__", "proofs")
            shutil.copytree(TOP / name, self.top / name, ignore=leaving)
        self.environ = {**os.environ, "PATH": f"{folder / 'bin'}:{os.environ['PATH']}", "ORDERS": str(self.orders),
                        "TMPDIR": str(self.rest), "LOGIC": LOGIC}

    def start(self, words: Sequence[str] = WORDS, before: Sequence[str] = (), **environ: str) -> subprocess.Popen:
        """A call at the head of a group of processes."""
        return subprocess.Popen([*before, self.top / "keyreg", *words], env={**self.environ, **environ}, text=True,
                                stdin=subprocess.PIPE, stdout=subprocess.PIPE, stderr=subprocess.PIPE,
                                start_new_session=True)

    def ended(self, begun: subprocess.Popen) -> Called:
        wrote, said = begun.communicate(GIVEN, timeout=120)
        return Called(begun.returncode, wrote, said)

    def call(self, *before: str, **environ: str) -> Called:
        return self.ended(self.start(before=before, **environ))

    def entries(self) -> list[list[str]]:
        """The journal of the calls of `rt`, in order: of each line the kind, the crate and the rest."""
        return [*map(str.split, (self.orders / "journal").read_text(encoding="utf-8").splitlines())]

    def begun(self) -> list[str]:
        return [crate for kind, crate, *_ in self.entries() if kind == "begun"]

    def goes_on(self) -> list[str]:
        """The crates whose proofs go on."""
        return [crate for kind, crate, *rest in self.entries() if kind == "begun" and lives(rest[0])]

    def left(self) -> list[pathlib.Path]:
        """What is left of a build but the program: temporary folders, and the trees of its proofs."""
        return [*self.rest.iterdir(), *(self.top / "out").glob("*")]

    def order(self, *orders: str, renewed: Optional[str] = SOURCE) -> None:
        """Has the calls of `rt` do this from here on, with a journal anew, and gives a source the time of now."""
        for old in self.orders.iterdir():
            old.unlink()
        for name, _, text in (order.partition("=") for order in ("journal", *orders)):
            (self.orders / name).write_text(text, encoding="utf-8")
        if renewed:
            os.utime(self.top / renewed)

    def built(self, what: str, called: Called, cores: int = len(os.sched_getaffinity(0)),
              backend: str = "rattle") -> Iterator[str]:
        """Faults of a call that was to build all crates once, on so many cores, those over a database by one job each,
        the program by this compiler, and to run it."""
        if called[:2] != (0, WANTED) or self.left() or sorted(self.begun()) != sorted(CRATES):
            yield f"{what}: {called}, begun {self.begun()}, left {self.left()}"
        proved, jobs = set[str](), dict[str, int]()
        for kind, crate, *rest in self.entries():
            if kind == "ended":
                proved.add(crate)
                jobs.pop(crate, None)
                continue
            jobs[crate] = int(rest[3])
            wanted = ["run", "--backend", backend] if crate == "keyreg" else ["lib"]
            is_rt = [rest[1], *rest[4:]] == wanted and (jobs[crate] == 1 or "sqlite" not in stands_on()[crate])
            if not is_rt or not below(crate) <= proved or sum(jobs.values()) > cores:
                yield f"{what}: rt {rest[1:]} for {crate}: before it {below(crate) - proved}, {jobs} on {cores} cores"

    def built_again(self, what: str) -> Iterator[str]:
        self.order(renewed=None)
        yield from self.built(what, self.call())


# ---- what is looked at


def told(copy: Copy) -> Iterator[str]:
    """A line for each crate as it ends, and the cores that there are, also where there is one."""
    copy.order("wait-moment_core=1.5", renewed=None)
    called = copy.call()
    yield from copy.built("a first build", called)
    ended = ENDED.findall(called.said)
    names = [name for name, _, _ in ended]
    if (sorted(names) != sorted(CRATES) or names.index("moment_core") < names.index("streams")
            or [row[1:] for row in ended] != [(str(at), str(len(names))) for at in range(1, len(names) + 1)]):
        yield f"no line for each crate as it ends: {called.said}"
    copy.order()
    yield from copy.built("on one core", copy.call("taskset", "-c", str(min(os.sched_getaffinity(0)))), 1)


def without_the_kit(copy: Copy) -> Iterator[str]:
    """Where `rt` is not there, or has another program logic, one line says so, and nothing is begun."""
    for said, logic in (("there is no rt", ""), (f"another program logic than {LOGIC}", "0" * 16)):
        copy.order()
        called = copy.call(LOGIC=logic)
        is_said = called.said.count("\n") == 1 and said in called.said and "README.md" in called.said
        if called[:2] != (69, "") or not is_said or copy.begun():
            yield f"{said}: {called}"
    yield from copy.built_again("with the kit again")


def what_makes_it_build(copy: Copy) -> Iterator[str]:
    """A source of the program's, also one that changed during the build before, and nothing else."""
    for path in ("README.md", "checks/sources/first_build.py", "keyreg", "crates/test_program/src/lib.rt",
                 str(next((copy.top / "crates/register_tables/must-fail").iterdir()))):
        copy.order(renewed=path)
        if (called := copy.call()) != (0, WANTED, "") or copy.begun():
            yield f"{path} changed: {called}"
    for path in ("crates/keyreg/src/main.rt", "crates.txt", "crates/register_tables/specs/Held.antt"):
        copy.order(renewed=path)
        yield from copy.built(f"{path} changed", copy.call())
    for backend in ("llvm", "rattle"):
        copy.order(renewed=None)
        yield from copy.built(f"by {backend}", copy.call(KEYREG_BACKEND=backend), backend=backend)
        for other in (backend, ""):
            copy.order(renewed=None)
            if (called := copy.call(KEYREG_BACKEND=other)) != (0, WANTED, "") or copy.begun():
                yield f"by {backend}, and then by {other or 'any'}: {called}"
    copy.order("wait-keyreg=1")
    begun = copy.start()
    until(lambda: "keyreg" in copy.begun())
    os.utime(copy.top / SOURCE)
    copy.ended(begun)
    yield from copy.built_again("a source that changed during a build")


def failed(copy: Copy) -> Iterator[str]:
    """A failed proof: its log, status 70, and nothing that goes on or was begun after it."""
    copy.order("fail-register_tables", "wait-key_rows=20")
    start, called = time.monotonic(), copy.call()
    is_told = ("keyreg: register_tables is not proved\n" in called.said
               and re.findall(r"^fn (\w+)::.*", called.said, re.M) == ["register_tables"])
    is_over = time.monotonic() - start < 15 and not copy.goes_on() and not copy.left()
    if called[:2] != (70, "") or not is_told or "register_rows" in copy.begun() or not is_over:
        yield f"a failed proof: {called}, begun {copy.begun()}, left {copy.left()}, going on {copy.goes_on()}"
    yield from copy.built_again("after a failed proof")


def stopped(copy: Copy) -> Iterator[str]:
    """A signal, as Ctrl-C to all processes or to the shell alone, ends all that was begun, and the next call builds."""
    for number, crate, end in ((signal.SIGINT, "streams", os.killpg), (signal.SIGINT, "keyreg", os.killpg),
                               (signal.SIGTERM, "streams", os.kill), (signal.SIGTERM, "keyreg", os.kill),
                               (signal.SIGKILL, "keyreg", os.killpg)):
        what = f"{number.name} at {crate}, by {end.__name__}"
        copy.order(f"wait-{crate}=20")
        begun = copy.start()
        until(lambda: crate in copy.begun())
        start = time.monotonic()
        end(begun.pid, number)
        called = copy.ended(begun)
        is_over = until(lambda: not copy.goes_on(), 2) and time.monotonic() - start < 10
        if number == signal.SIGKILL:
            for left in copy.rest.iterdir():
                shutil.rmtree(left)
            is_right = called[:2] == (-number, "")
        else:
            is_right = called[:2] == (130, "") and not copy.left()
        if not is_right or not is_over:
            yield f"{what}: {called}, left {copy.left()}, going on {copy.goes_on()}"
        yield from copy.built_again(f"after {what}")


def together(copy: Copy) -> Iterator[str]:
    """Two calls at once build once, also where a third that waits is ended; and a program that goes on keeps no build
    from beginning."""
    copy.order("wait-streams=2")
    calls = copy.start(), copy.start()
    until(lambda: "streams" in copy.begun())
    waits = copy.start()
    not_none(waits.stderr).readline()
    waits.terminate()
    ends = [copy.ended(begun) for begun in calls]
    for called in ends:
        yield from copy.built("two calls at once", called)
    if sorted("another call is building" in called.said for called in ends) != [False, True]:
        yield f"two calls at once: not one of them says that it waits: {ends}"
    os.utime(copy.top / SOURCE)
    lasting = copy.start(["linger"])
    not_none(lasting.stdout).readline()
    copy.order()
    yield from copy.built("beside a program", copy.call("timeout", "60"))
    lasting.kill()
    lasting.communicate()


def main() -> None:
    options(__doc__)
    # A shell that was begun where an interrupt is ignored cannot heed it.
    signal.signal(signal.SIGINT, signal.default_int_handler)
    with fresh_folder() as folder:
        copy = Copy(folder)
        faults = [fault for look in (told, without_the_kit, what_makes_it_build, failed, stopped, together)
                  for fault in look(copy)]
    verdict(f"./keyreg: {len(faults)} faults", faults)


if __name__ == "__main__":
    rt() if os.path.basename(sys.argv[0]) == "rt" else main()
