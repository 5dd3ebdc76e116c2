"""Tells how much of a register's log counts, for replay.py, which stands beside this file.

The log is a write-ahead log of SQLite's: a header, and frames of a page each. A frame has the salts of the header, and
a sum over all before it. Those count that are whole, up to the last that ends a transaction; what follows does not,
for SQLite, keyreg and replay.py alike. That may be well: a log that began anew is written over an older one, and a
stop cuts off what was not answered. But of one damaged byte in the middle all that stood behind it is lost too, and
nothing else tells it. A frame behind a damaged one is known by its own sum, which goes on from the one that its
neighbour bears. Room that was never written is no frame.
"""
import collections
import os
import struct
from typing import BinaryIO, Iterator

MAGIC = {0x377F0682: "<", 0x377F0683: ">"}
SIZES = [2 ** power for power in range(9, 17)]
# What a frame is that does not count.
EARLIER, WAITING, DAMAGED, BEHIND = KINDS = (
    "of an earlier log", "of a transaction that was not ended", "damaged or cut off", "whole ones behind those")
HEADER, FRAME = struct.Struct(">8I"), struct.Struct(">6I")


def summed(sums: tuple[int, int], data: bytes, order: str) -> tuple[int, int]:
    """The sum of the data after this one."""
    one, other = sums
    words = struct.unpack(f"{order}{len(data) // 4}I", data)
    for even, odd in zip(words[::2], words[1::2]):
        one = (one + even + other) & 0xFFFFFFFF
        other = (other + odd + one) & 0xFFFFFFFF
    return one, other


def frames_of(file: BinaryIO, order: str, size: int, salts: tuple[int, ...],
              sums: tuple[int, int]) -> Iterator[tuple[bool, bool, bool]]:
    """Of each frame, which has a page of so many bytes: whether it is of this log, whether its sum goes on from the
    one before it, and whether it ends a transaction. Room between frames was written once, and is of this log."""
    room = 0
    while len(head := file.read(FRAME.size)) == FRAME.size and len(page := file.read(size)) == size:
        _, ends, *its_salts, one, other = FRAME.unpack(head)
        if not any(head):
            room += 1
            continue
        yield from [(True, False, False)] * room
        room = 0
        is_whole = summed(summed(sums, head[:8], order), page, order) == (one, other)
        yield tuple(its_salts) == salts, is_whole, bool(ends)
        sums = one, other


def counted(path: str) -> tuple[int, collections.Counter[str]]:
    """How many frames count, and of those that follow how many are of each kind."""
    counts, others = 0, collections.Counter[str]()
    with open(path, "rb") as file:
        head = file.read(HEADER.size)
        if len(head) < HEADER.size:
            return counts, others
        magic, _, size, _, *salts, one, other = HEADER.unpack(head)
        order, size = MAGIC.get(magic, ""), size if size in SIZES else 0
        if not (order and size) or summed((0, 0), head[:24], order) != (one, other):
            others[DAMAGED] = max((os.path.getsize(path) - HEADER.size) // (FRAME.size + (size or 4096)), 0)
            return counts, others
        for is_of_log, is_whole, is_end in frames_of(file, order, size, tuple(salts), (one, other)):
            is_behind = others[DAMAGED] or others[EARLIER]
            others[EARLIER if not is_of_log else DAMAGED if not is_whole else BEHIND if is_behind else WAITING] += 1
            if is_end and not (others[DAMAGED] or others[EARLIER]):
                counts += others.pop(WAITING)
    return counts, others


def lines_of_log(path: str) -> list[str]:
    """A line of a log that has frames, and a second where damage took some away."""
    counts, others = counted(path)
    if not counts + others.total():
        return []
    parts = [f"{others[kind]} {kind}" for kind in KINDS if others[kind]]
    lines = [f"log: {counts} of its frames count, and {others.total()} that follow do not"
             + f": {', '.join(parts)}" * bool(parts)]
    if others[BEHIND]:
        lines.append(f"log: frame {counts + others[WAITING] + 1} is damaged in the middle of the log, and what stood "
                     "behind it is lost")
    return lines
