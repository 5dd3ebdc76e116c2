"""A disk that loses its power, for power_cuts.py: the calls that a program made of its two files, as strace records
them, and what a disk may hold of these files between any two calls.

What a sync of a file was answered for stands. Of each later write each sector is as it was, as written, or noise, each
by itself, and each later truncation is done or not; bytes beside those of a write are as they were. A file that was
made is there once it or its folder was synced, and may be there before. A disk that forgets takes every second sync for
done that it does not do.
"""
import os
import pathlib
import random
import re
from typing import NamedTuple, Optional

from script import expect

SECTOR = 512
CALLS = ("open,openat,creat,close,dup,dup2,dup3,write,writev,pwrite64,pwritev,pwritev2,sendto,sendmsg,ftruncate,"
         "truncate,fallocate,fsync,fdatasync,sync_file_range,msync,unlink,unlinkat,rename,renameat,renameat2,mmap")
LINE = re.compile(r"(?:\d+ +)?(\w+)\((.*)\)\s+= (\d+)(?: .*)?$")
STRING = re.compile(r'"((?:\\x[0-9a-f]{2})*)"')
# The parts of a register in files, by the ends of their names.
PARTS = ("", "-wal")
FOLDER = "folder"
Files = dict[str, Optional[bytes]]


class Event(NamedTuple):
    """A call that a disk or a client sees: made, written, cut, synced, or answered."""
    kind: str
    file: str = ""
    place: int = 0
    data: bytes = b""


def traced(trace: str) -> list[str]:
    """The words before those of a program that strace records."""
    return ["strace", "-f", "-xx", "-s", str(2**24), "-e", f"trace={CALLS}", "-e", "signal=none", "-o", trace]


def events_of(trace: str, file: str) -> list[Event]:
    """What strace recorded of the files and the answers. A call of the files that is not known here is a fault, since
    no cut would see it. What is written in no file of the register is an answer, but on standard error."""
    paths = {os.path.abspath(file + part): part for part in PARTS} | {os.path.dirname(os.path.abspath(file)): FOLDER}
    opened, events = dict[int, str](), list[Event]()
    for call in filter(None, map(LINE.match, pathlib.Path(trace).read_text("ascii").splitlines())):
        name, arguments, result = call[1], call[2].split(", "), int(call[3])
        texts = [bytes.fromhex(text.replace("\\x", "")) for text in STRING.findall(call[2])]
        named = paths.get(os.path.abspath(os.fsdecode(texts[0]))) if texts and b"\0" not in texts[0] else None
        number = int(arguments[0]) if arguments[0].isdigit() else -1
        part = opened.get(number)
        if name in ("open", "openat") and "O_TRUNC" not in call[2]:
            if named is not None:
                opened[result] = named
                events += [Event("made", named)] * ("O_EXCL" in call[2])
        elif name == "close":
            opened.pop(number, None)
        elif name in ("write", "sendto") and part is None:
            events += [Event("answered", data=texts[0][:result])] * (number != 2 and bool(texts))
        elif name == "pwrite64" and part is not None:
            events.append(Event("written", part, int(arguments[-1]), texts[0][:result]))
        elif name == "ftruncate" and part is not None:
            events.append(Event("cut", part, int(arguments[1])))
        elif name in ("fsync", "fdatasync"):
            events += [Event("synced", part)] if part is not None else []
        elif name == "mmap":
            is_of_file = arguments[4].isdigit() and int(arguments[4]) in opened
            expect(not (is_of_file and "PROT_WRITE" in arguments[2] and "MAP_SHARED" in arguments[3]), call[0][:200])
        else:
            is_of_file = part is not None or any(os.fsencode(path) in texts for path in paths)
            expect(not is_of_file, f"strace: no cut is known for {call[0][:200]}")
    return events


# ---- the disk


class Choice:
    """What a disk keeps: of each piece that was written since the last sync, one of the ways."""

    def __init__(self, ways: dict[str, str], seed: str) -> None:
        self.ways, self.chance = ways, random.Random(seed)

    def of(self, part: str, is_last: bool) -> str:
        """Old, new or noise. For `any` each piece has its own, for `torn` one in six is not as written."""
        way = self.ways[part]
        if way.startswith("last "):
            return "new" if is_last else way.removeprefix("last ")
        if way == "any":
            return self.chance.choice(("old", "new", "noise"))
        return self.chance.choice(("old", "noise", *["new"] * 10)) if way == "torn" else way


# Each file old, new or noise, or its last write kept and all before it not; then at random.
EXTREMES = [{"": way, "-wal": other} for way in ("old", "new", "noise") for other in ("old", "new", "noise")]
EXTREMES += [{"": way, "-wal": way} for way in ("last old", "last noise")]
AT_RANDOM = [{"": way, "-wal": way} for way in ("any", "torn")]


class Disk:
    """The files as they stand, and what was done to each since its last sync."""

    def __init__(self, files: Files, forgets: bool) -> None:
        self.stands, self.forgets, self.syncs = dict(files), forgets, 0
        self.since: dict[str, list[Event]] = {part: [] for part in PARTS}

    def take(self, event: Event) -> None:
        """What was done to a file stands once that is synced. A folder holds the names of the files made in it."""
        if event.kind not in ("synced", "answered"):
            self.since[event.file].append(event)
        self.syncs += event.kind == "synced"
        if event.kind != "synced" or (self.forgets and self.syncs % 2 == 0):
            return
        if event.file != FOLDER:
            self.stands[event.file] = self.kept(event.file, Choice({event.file: "new"}, ""))
            self.since[event.file] = []
            return
        for part in PARTS:
            if self.stands[part] is None and self.since[part]:
                self.stands[part] = b""

    def kept(self, part: str, choice: Choice) -> Optional[bytes]:
        """What a disk that chooses so has of a file."""
        stands, since = self.stands[part], self.since[part]
        if stands is None and (not since or choice.of(part, False) == "old"):
            return None
        content = bytearray(stands or b"")
        for event in since:
            is_last = event is since[-1]
            if event.kind == "written":
                keep(content, event, [choice.of(part, is_last) for _ in sectors(event)], choice.chance)
            elif event.kind == "cut" and choice.of(part, is_last) != "old":
                del content[event.place:]
                content.extend(bytes(event.place - len(content)))
        return bytes(content)


def sectors(event: Event) -> list[tuple[int, int]]:
    """The begin and the end of each piece of a write that lies in one sector."""
    end = event.place + len(event.data)
    cuts = [event.place, *range((event.place // SECTOR + 1) * SECTOR, end, SECTOR), end]
    return list(zip(cuts, cuts[1:]))


def keep(content: bytearray, event: Event, ways: list[str], chance: random.Random) -> None:
    """Keeps of a write each piece of a sector, or not, or noise in its place."""
    for (begin, end), way in zip(sectors(event), ways):
        if way != "old":
            content.extend(bytes(max(begin - len(content), 0)))
            content[begin:end] = (chance.randbytes(end - begin) if way == "noise"
                                  else event.data[begin - event.place:end - event.place])


def put(files: Files, file: str) -> None:
    """Puts the files of a disk in the place of a register's."""
    for part, content in files.items():
        if content is None:
            pathlib.Path(file + part).unlink(missing_ok=True)
        else:
            pathlib.Path(file + part).write_bytes(content)
