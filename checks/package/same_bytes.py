#!/usr/bin/env python3
"""The package is made bit for bit the same anywhere: twice, in copies of the checkout in two folders, with other times
of the files, another umask, zone, language, disk and number of cores, each of its files has the same bytes.

    checks/package/same_bytes.py [--other PROGRAM]

Both are of the program that is built, or of KEYREG; with --other the second is of another build of the same sources,
which is compared too. It needs what ./package needs (`apt-get install dpkg binutils`).

What another version of a tool (strip, xz, gzip, tar) would make is not seen here.
"""
import os
import pathlib
import shutil
import sys
from typing import Iterator, NamedTuple, Optional

sys.path.insert(1, str(pathlib.Path(__file__).resolve().parents[1] / "shared"))
from places import PROGRAM, TOP
from script import fresh_folder, options, output_of, verdict


class Place(NamedTuple):
    """What differs between the two: the folder, the umask, by how many seconds its files are younger, what tools are
    told from outside, the cores."""
    folder: str
    umask: int
    shift: int
    environment: dict[str, str]
    cores: Optional[set[int]] = None


PLACES = (Place("one", 0o022, 0, {"TZ": "UTC", "LC_ALL": "C"}),
          Place("another/folder of a longer name", 0o077, -400_000_000,
                {"TZ": "Asia/Tokyo", "LC_ALL": "en_US.UTF-8", "TAR_OPTIONS": "--mode=0700",
                 "DPKG_DEB_COMPRESSOR_LEVEL": "1", "TMPDIR": "/dev/shm"}, {0}))
# The second of the sources. It is ahead of the clock, so a time that the clock gave is another one.
MOMENT = 4_102_444_800


def difference(first: pathlib.Path, second: pathlib.Path) -> Iterator[str]:
    """Where two files differ first, or which of them is alone."""
    if not first.is_file() or not second.is_file():
        yield f"{first.name} is in one of the two alone"
    elif (one := first.read_bytes()) != (other := second.read_bytes()):
        yield (f"{first.name}: {len(one)} and {len(other)} bytes, other from byte "
               f"{len(os.path.commonprefix([one, other]))} on")


def packaged(base: pathlib.Path, place: Place, program: pathlib.Path) -> pathlib.Path:
    """The folder of packages that a copy of the checkout, as git would take it, makes in a place of its own."""
    folder = base / place.folder
    names = output_of(["git", "ls-files", "-z", "--cached", "--others", "--exclude-standard"], cwd=TOP)
    before = os.umask(place.umask)
    for name in filter(lambda name: (TOP / name).is_file(), names.split("\0")):
        (folder / name).parent.mkdir(parents=True, exist_ok=True)
        shutil.copyfile(TOP / name, folder / name)
        (folder / name).chmod((0o777 if os.access(TOP / name, os.X_OK) else 0o666) & ~place.umask)
        os.utime(folder / name, (MOMENT + place.shift, MOMENT + place.shift))
    environment = {**os.environ, "SOURCE_DATE_EPOCH": str(MOMENT), "KEYREG": os.path.abspath(program),
                   **place.environment}

    def keep_to_cores() -> None:
        if place.cores:
            os.sched_setaffinity(0, place.cores)

    output_of(["./package"], cwd=folder, env=environment, preexec_fn=keep_to_cores)
    os.umask(before)
    return folder / "packages"


def main() -> None:
    programs = pathlib.Path(PROGRAM), pathlib.Path(options(__doc__, other=PROGRAM).other)
    faults = [*difference(*programs)]
    with fresh_folder() as base:
        first, second = (packaged(base, place, program) for place, program in zip(PLACES, programs))
        names = {path.name for folder in (first, second) for path in folder.iterdir()}
        faults += [fault for name in sorted(names) for fault in difference(first / name, second / name)]
        summed = {line.split()[1] for line in (first / "SHA256SUMS").read_text().splitlines()}
        if summed != names - {"SHA256SUMS"}:
            faults.append(f"SHA256SUMS names {sorted(summed)} of {sorted(names)}")
    verdict(f"{len(names)} files made twice: {len(faults)} faults", faults)


main()
