#!/usr/bin/env python3
"""The units in a real systemd: a root with the package boots by systemd-nspawn, and checks/package/in_systemd.sh does
there what OPERATING and the heads of the units have a person do.

    checks/package/in_systemd.py [--base FOLDER] [--mirror URL] [PART..]

           First an office is set up, by the blocks of the pages as they stand, in a Debian that has nothing of what
           they name: each unit is active once, and the desk serves.
units      The service, its timers and its instances start, come back and go.
accidents  An office gets up again after each accident of OPERATING, by the very blocks of the installed page, with the
           path of the service in the place of theirs.

As root, with debootstrap and systemd-container of Debian. The root is one that debootstrap fetches, or a copy of FOLDER
with the packages of BASE (roots.py). What the pages install is fetched before, as no network is there. `./package` is
called first. Not two at a time on a machine that no systemd manages: both
would have its groups of processes.
"""
import pathlib
import shutil
import subprocess
import sys
from typing import Sequence

sys.path.insert(1, str(pathlib.Path(__file__).resolve().parents[1] / "shared"))
from places import TOP
from roots import MIRROR, blocks_of, call, made_package, make_base, row_words
from script import fresh_folder, options, output_of, verdict

PAGE = "usr/share/doc/keyreg/docs/OPERATING.md"
UNIT = """[Unit]
Description=What is tried
[Service]
Type=oneshot
TimeoutStartSec=infinity
ExecStart=/bin/bash -c '/bin/bash /tried.sh @PARTS@ > /tried.log 2>&1; echo end >> /tried.log'
ExecStart=/bin/systemctl poweroff --force
"""
SECONDS = 900


def furnish(root: pathlib.Path, parts: Sequence[str]) -> None:
    """The package in a root, whose systemd runs what is tried and then ends."""
    shutil.copy(made_package(), root / "keyreg.deb")
    output_of(["chroot", root, "dpkg", "--install", "/keyreg.deb"])
    shutil.copy(TOP / "checks" / "package" / "in_systemd.sh", root / "tried.sh")
    (root / "tried.log").touch()
    for heading, blocks in blocks_of(root / PAGE).items():
        (root / "blocks" / heading).mkdir(parents=True)
        for place, lines in enumerate(blocks, 1):
            (root / "blocks" / heading / f"{place}.sh").write_text("\n".join([*lines, ""]))
            for line in lines:
                if line.startswith("apt-get install"):
                    output_of(["chroot", root, *line.split(), "--download-only"])
    (root / "blocks/packages/remove.sh").write_text(row_words(root / PAGE, "remove") + "\n")
    units = root / "etc/systemd/system"
    (units / "tried.service").write_text(UNIT.replace("@PARTS@", " ".join(parts)))
    (units / "multi-user.target.wants").mkdir(parents=True, exist_ok=True)
    (units / "multi-user.target.wants/tried.service").symlink_to("../tried.service")


def main() -> None:
    given = options(__doc__, ("units", "accidents"), base="", mirror=MIRROR)
    with fresh_folder() as folder:
        root = folder / "root"
        make_base(root, given.base, given.mirror)
        furnish(root, given.parts)
        booted = call("timeout", SECONDS, "systemd-nspawn", f"--directory={root}", "--boot", "--private-network",
                      "--register=no", "--keep-unit", "--quiet", stdin=subprocess.DEVNULL, errors="replace")
        log = (root / "tried.log").read_text()
    lines = [line for line in log.splitlines() if line.startswith(("ok ", "FAILED "))]
    faults = sum(line.startswith("FAILED ") for line in lines)
    print(log, end="")
    if not log.endswith("end\n"):
        print(f"systemd ended early: {(booted.stdout + booted.stderr)[-1500:]}")
        faults += 1
    # What failed stands in the log.
    verdict(f"{len(lines)} things tried in a systemd that booted: {faults} failed", faults)


main()
