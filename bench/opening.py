#!/usr/bin/env python3
"""How long a register takes to open, and its greatest resident memory, beside the bare opening of the same file, and
beside the opening of the same register in a file of version 1, which is taken to version 2.

    bench/opening.py [--keys N,..]

Each register has so many keys, each with the request that made it. The bare opening is bare_open.rt.txt. Each number is
the least of three rounds.
"""
from measuring import built, least, measured, table
from places import PROGRAM
from registers import UNSET, VERSION, copy_files, write_register
from script import fresh_folder, options

# A master key's usage period is twelve months, of both parties.
YEAR = 365 * 86400


def row(keys: int, bare_open: str) -> list[str]:
    numbers = range(1, keys + 1)
    with fresh_folder() as folder:
        file, first, copy = (folder / f"{name}.keyreg" for name in ("office", "first", "copy"))
        for written, version in ((file, VERSION), (first, 1)):
            write_register(written, 100, keys, version, request=(
                ("ann", k, f"register master office 0 - - backup volume {k}", k, 2, 100) for k in numbers), keys=(
                (k, 7, "office", f"backup volume {k}", 2, 100, 0, YEAR, YEAR, UNSET, UNSET, UNSET) for k in numbers))
        size = file.stat().st_size / 1e6
        bare, ours, of_first = map(least, zip(*(
            (measured([bare_open, file]), measured([PROGRAM, "run", "--file", file]),
             measured([PROGRAM, "run", "--file", copy_files(first, copy)])) for _ in range(3))))
    cells = [*bare, *ours, ours[0] / bare[0], *of_first, of_first[0] / ours[0]]
    return [f"{keys}", f"{size:.1f}", *(f"{cell:.2f}" for cell in cells)]


def main() -> None:
    given, bare_open = options(__doc__, keys="1000,100000,1000000"), built("bare_open")
    bare, ours, of_first = ([f"{who}: {column}" for column in ("processor s", "wall s", "MB")]
                            for who in ("bare", "keyreg", "version 1"))
    table(["keys", "file, MB", *bare, *ours, "keyreg / bare, processor", *of_first, "version 1 / keyreg, processor"],
          (row(keys, bare_open) for keys in map(int, given.keys.split(","))))


main()
