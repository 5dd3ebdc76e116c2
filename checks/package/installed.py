#!/usr/bin/env python3
"""The package of Debian installs in an empty root, runs there, and goes without a trace; so does the tar file.

    checks/package/installed.py [--base FOLDER] [--mirror URL]

As root, with debootstrap, lintian, systemd, tmux, binutils and a browser of Debian (`apt-get install debootstrap
lintian systemd tmux binutils zsh fish chromium chromium-driver python3-selenium nginx-light`). The root is Debian's
base, which debootstrap fetches, or a copy of FOLDER with the packages of BASE (roots.py). `./package` is called first,
of the program that is built or of KEYREG.

lintian has no error, and the newest version is the highest. apt brings what the package recommends, which is what the
page has a person install, and the units are let do little. The program runs, has its man page, completes in three
shells (completion.py), and needs the libraries that the package names. The pages name no file that is not there, and
their commands print there what stands there. The desk is set up, used in a browser and removed by the words of the
installed OPERATING; and after the removal no file is there that was not before. in_systemd.py has the units.

From the base on all is in a network of its own, in which the ports of the units and of nginx are free.
"""
import contextlib
import ctypes
import fcntl
import os
import pathlib
import pty
import re
import shutil
import socket
import struct
import subprocess
import sys
import termios
import time
import types
from typing import Any, Iterator

sys.path.insert(1, str(pathlib.Path(__file__).resolve().parents[1] / "shared"))
from places import TOP, read, use
import completion
from document_commands import anchor_of, compared
from roots import ALONE, MIRROR, NAMED, PACKAGES, blocks_of, call, made_package, make_base, present, row_words
from script import expect, fresh_folder, not_none, options, verdict
from serving import begins_to_listen

# What shows the man page, and the shells, of which fish needs Python: they come behind what the pages bring.
MORE = ("man-db", "bash-completion", "zsh", "fish")
# What dpkg, apt, man, nginx and the users' programs keep of their own, which no package can take away.
OWN = re.compile(r"/var/(lib/(dpkg|apt|nginx)/|log/|cache/(man|apt|debconf|ldconfig)/)|/etc/ld\.so\.cache$"
                 r"|/etc/g?(passwd|group|shadow)-$|/(proc|sys|dev|tmp|run)/")
# What a unit is let do besides its work, at most, by the measure of systemd-analyze in tenths.
EXPOSURE = 12
# A sendmail, which this unit calls, takes rights of its own.
SENDS = "keyreg-mail.service"
# The packages of the libraries that a program may load.
LIBRARIES = {"libc.so.6": "libc6", "libm.so.6": "libc6", "ld-linux-x86-64.so.2": "libc6",
             "ld-linux-aarch64.so.1": "libc6", "libgcc_s.so.1": "libgcc-s1"}
PAGES = ("README.md", "docs/OPERATING.md", "docs/AUDIT.md")
# What stands in a checkout alone.
NOT_THERE = ("./keyreg", "checks/", "crates/", "./package", "CONTRIBUTING")
# Where nginx listens, by its file, and the user whom the page adds, with a password.
DESK_PORT, USER, PASSWORD = 8421, "alice.meyer", "wonder-land"
faults: list[str] = []


def fault(holds: bool, text: str) -> None:
    if not holds:
        faults.append(text)
        print(text, flush=True)


def call_well(*words: Any, wanted: str = "", **more: Any) -> None:
    """Calls a program, whose status has to be 0, and whose output has to have this text."""
    done = call(*words, **more)
    fault(done.returncode == 0 and wanted in done.stdout,
          f"{' '.join(map(str, words[-3:]))}: {done.returncode}, not {wanted!r}: {done.stdout}{done.stderr}")


def inside(root: pathlib.Path, folder: str, *more: Any) -> list[str]:
    """A command that is to run in a folder of the root, with a /proc that is gone with it and with nothing of this
    environment."""
    return ["unshare", "--mount", "sh", "-c", 'mount -t proc proc "$0/proc" && exec chroot "$0" "$@"', str(root),
            "env", "-i", "-C", folder, "PATH=/usr/local/sbin:/usr/local/bin:/usr/sbin:/usr/bin:/sbin:/bin",
            "TERM=screen", "LC_ALL=C.UTF-8", "TZ=UTC", *map(str, more)]


def as_root(root: pathlib.Path, words: str) -> list[str]:
    """The words of a page, typed by root in the root; the first that fails ends them. No systemd runs there: units are
    enabled, and none is started."""
    return inside(root, "/root", "HOME=/root", "SYSTEMD_OFFLINE=1", "bash", "-e", "-c", words.replace(" --now", ""))


def files_of(root: pathlib.Path) -> set[str]:
    """The paths in a root, but for what dpkg and man keep of their own."""
    paths = call("find", root, "-xdev", "-printf", "/%P\n").stdout.splitlines()
    return {path for path in paths if not OWN.match(path + "/") and not OWN.match(path)}


def go_alone() -> None:
    """A network of its own for this process and what it starts: 127.0.0.1, where each port is free."""
    new_network, set_flags, up_and_running = 0x40000000, 0x8914, 0x41
    expect(ctypes.CDLL(None).unshare(new_network) == 0, "no network of its own")
    with socket.socket() as link:
        fcntl.ioctl(link, set_flags, struct.pack("16sh", b"lo", up_and_running))


def completes(root: pathlib.Path) -> None:
    """The shells of the root complete what they are to, by a Tab."""
    folder = root / "tmp/tabs"
    completion.furnish(folder)
    for shell in completion.SHELLS:
        # The others look for the files by themselves.
        files = ". /usr/share/bash-completion/bash_completion" if shell == "bash" else ":"
        # fish looks below /usr/local where this says so, as a desktop's session does.
        words = inside(root, "/tmp/tabs", "HOME=/tmp/tabs/home", "XDG_DATA_DIRS=/usr/local/share:/usr/share")
        for text in completion.faults_of(shell, words, folder, files):
            fault(False, text)
    shutil.rmtree(folder)


def depends(package: pathlib.Path, program: pathlib.Path) -> None:
    """The package depends on the libraries that its program loads, and on nothing else."""
    field = call("dpkg-deb", "--field", package, "Depends").stdout
    names = {word.split()[0] for word in field.split(",")}
    loaded = re.findall(r"\(NEEDED\).*\[(.+)\]", call("readelf", "--dynamic", program).stdout)
    needed = {LIBRARIES.get(name, name) for name in loaded}
    fault(names == needed, f"the package depends on {sorted(names)}, and its program loads {sorted(needed)}")
    versions = re.findall(r"GLIBC_(\d+)\.(\d+)", call("readelf", "--version-info", program).stdout)
    newest = "{}.{}".format(*max(tuple(map(int, version)) for version in versions))
    fault(f"libc6 (>= {newest})" in field, f"the program wants glibc {newest}, and the package {field.strip()}")


def page_faults(docs: pathlib.Path, page: pathlib.Path) -> Iterator[str]:
    """What a page names that is not there."""
    text = page.read_text("utf-8")
    yield from (f"it has {word}" for word in NOT_THERE if word in text)
    plain = re.sub(r"(?ms)^```.*?^```$", "", text) if page.suffix == ".md" else ""
    for target in re.findall(r"\]\(([^)\s]+)\)|^\[[^\]]+\]: (\S+)", plain, re.M):
        path, _, anchor = "".join(target).partition("#")
        if re.match(r"[a-z]+:", path):
            continue
        aim = (page.parent / path).resolve() if path else page
        if not aim.exists() or docs not in [aim, *aim.parents]:
            yield f"its link leads to no {path}"
        elif anchor and anchor not in map(anchor_of, re.findall(r"(?m)^#.*", aim.read_text("utf-8"))):
            yield f"{path} has no {anchor}"


def read_there(root: pathlib.Path, docs: pathlib.Path) -> None:
    """The pages are true where they lie: what they name is there, and their commands print there what stands there."""
    for page in sorted([*docs.rglob("*.md"), *docs.rglob("*.yaml")]):
        for text in page_faults(docs, page):
            fault(False, f"{page.relative_to(root)}: {text}")
    (root / "tmp/reader").mkdir()
    texts = {f"/{(docs / name).relative_to(root)}": (docs / name).read_text("utf-8") for name in PAGES}
    shell = inside(root, "/tmp/reader", "HOME=/tmp/reader", "no_proxy=*", "bash", "-c")
    wrong, count = compared(texts, str(root), shell)
    fault(not wrong and count > 0, f"of {count} blocks of commands: {wrong}")
    shutil.rmtree(root / "tmp/reader")


# ---- the desk, by the words of the page


def unit_words(root: pathlib.Path, unit: pathlib.Path) -> list[str]:
    """What a unit starts, as its user does, in the root."""
    user, line = (not_none(re.search(rf"(?m)^{name}=(.*)", unit.read_text()))[1] for name in ("User", "ExecStart"))
    return inside(root, "/", "setpriv", f"--reuid={user}", f"--regid={user}", "--clear-groups", "sh", "-c",
                  f"umask 077; exec {line}")


def in_terminal(words: list[str]) -> None:
    """Calls a command in a terminal, and types the password as often as it is asked for: it is shown nowhere."""
    process, terminal = pty.fork()
    if not process:
        os.execvp(words[0], words)
    shown, typed = "", 0
    with contextlib.suppress(OSError):
        while piece := os.read(terminal, 4096):
            shown += piece.decode(errors="replace")
            while shown.lower().count("password:") > typed:
                # What is typed before the terminal hides it is shown.
                late = time.monotonic() + 5
                while termios.tcgetattr(terminal)[3] & termios.ECHO and time.monotonic() < late:
                    time.sleep(0.01)
                os.write(terminal, f"{PASSWORD}\n".encode())
                typed += 1
    os.close(terminal)
    status = os.waitstatus_to_exitcode(os.waitpid(process, 0)[1])
    fault(status == 0 and typed > 0 and PASSWORD not in shown, f"in a terminal: {status}, asked {typed} times: {shown}")


@contextlib.contextmanager
def running(words: list[str], number: int) -> Iterator[bool]:
    """A program that runs meanwhile, once it listens; whether it does."""
    with subprocess.Popen(words, stdin=subprocess.DEVNULL) as process:
        try:
            does_listen = begins_to_listen(process, number)
            fault(does_listen, f"nothing listens at {number}: {words[-1]}")
            yield does_listen
        finally:
            process.terminate()


def browsed(list_words: list[str]) -> None:
    """The user whom the page added registers a key in a browser, and finds it by the list that these words make."""
    use("checks/desk")
    import day
    from parts import PASSWORDS, Reader, WebDriverException
    PASSWORDS[USER] = PASSWORD
    with contextlib.ExitStack() as stack:
        try:
            here: Any = types.SimpleNamespace(line=types.SimpleNamespace(server_port=DESK_PORT))
            reader = Reader(here, USER)
            stack.callback(reader.driver.quit)
            number = day.register(reader, "master", USER, "root of vault 2")
            call_well(*list_words)
            reader.open("find").reload(forgets=True)
            reader.says(f"{number} of {number} key")
            reader.says(USER, "body")
        except (SystemExit, OSError, WebDriverException) as ended:
            fault(False, f"the desk in a browser: {ended}")


def desk(root: pathlib.Path, docs: pathlib.Path, units: pathlib.Path) -> None:
    """The desk stands by the words of the installed pages, serves a browser, and goes by them."""
    list_words = unit_words(root, units / "keyreg-list.service")
    head = not_none(re.search(r"(?:^#     .*\n)+", (units / "keyreg.service").read_text(), re.M))[0]
    call_well(*as_root(root, re.sub(r"(?m)^#     ", "", head)))
    in_terminal(as_root(root, "\n".join(blocks_of(docs / "docs/OPERATING.md")["the-desk"][0])))
    nginx = as_root(root, "exec nginx -g 'daemon off;'")
    call_well(*list_words)
    with running(unit_words(root, units / "keyreg.service"), 8420), running(nginx, DESK_PORT) as is_there:
        if is_there:
            browsed(list_words)
    call_well(*inside(root, "/", "stat", "-c", "%U:%G %a", "/var/lib/keyreg-list/list.json"),
              wanted="keyreg:www-data 640")
    for name in ("remove what was set up of the desk", "remove registers for good"):
        # Folders that are not there are none to remove.
        call_well(*as_root(root, row_words(docs / "docs/OPERATING.md", name).replace("rm -r ", "rm -rf ")))


# ---- the package and the tar file


def versions_rise(package: pathlib.Path) -> None:
    """The versions of CHANGES, the newest of which the package has, each above the one before it by Debian's order."""
    versions = re.findall(r"(?m)^## ([0-9.]+(?:-[0-9]+)?)$", read("CHANGES.md"))
    told = call("dpkg-deb", "--field", package, "Version").stdout.strip()
    fault(told == versions[0], f"the package has version {told}, and CHANGES {versions[0]}")
    for newer, older in zip(versions, versions[1:]):
        call_well("dpkg", "--compare-versions", newer, "gt", older)


def installs(root: pathlib.Path, package: pathlib.Path) -> None:
    """The package installs by the words of OPERATING, with what it recommends, and that is all that the block of the
    desk installs. What the commands of the page need besides comes by its own words."""
    shutil.copy(package, root / "tmp")
    page = root / "usr/share/doc/keyreg/docs/OPERATING.md"
    words = row_words(pathlib.Path(TOP / "docs/OPERATING.md"), "install").split("\n")[0]
    call_well(*inside(root, "/tmp", *ALONE, "sh", "-c", words))
    fault(present(root) == [name for name in NAMED if name != "sqlite3"], f"apt has brought {present(root)}")
    blocks = blocks_of(page)
    desk_line, page_line = blocks["the-desk"][0][0], blocks["a-days-work"][1][0]
    wanted = call("dpkg-deb", "--field", package, "Recommends").stdout.strip().split(", ")
    fault(desk_line.split()[3:] == wanted, f"the desk's block has {desk_line}, and the package recommends {wanted}")
    call_well(*inside(root, "/tmp", *ALONE, "sh", "-c", page_line))
    fault(present(root) == list(NAMED), f"the page's line has brought {present(root)}")
    call_well(*inside(root, "/", "dpkg", "--purge", "keyreg"))
    call_well(*inside(root, "/", *ALONE, "apt-get", "install", "--yes", "--no-install-recommends", *MORE))


def packaged(root: pathlib.Path, package: pathlib.Path) -> None:
    """The package: all goes by the words of the installed OPERATING."""
    docs, before = root / "usr/share/doc/keyreg", files_of(root)
    call_well(*inside(root, "/", "dpkg", "--install", f"/tmp/{package.name}"))
    call_well(*inside(root, "/", "keyreg"), input="100 ann 1 advance\n", wanted="ok 0 - 100\n")
    call_well(*inside(root, "/", "MANPAGER=cat", "man", "keyreg"), wanted="register of cryptographic keys")
    completes(root)
    depends(package, root / "usr/bin/keyreg")
    read_there(root, docs)
    for unit in sorted((root / "usr/lib/systemd/system").glob("keyreg*[!@].service")):
        if unit.name == SENDS:
            continue
        call_well("systemd-analyze", "security", "--offline=true", f"--root={root}", f"--threshold={EXPOSURE}", unit)
    desk(root, docs, root / "usr/lib/systemd/system")
    call_well(*as_root(root, row_words(docs / "docs/OPERATING.md", "remove")))
    fault(files_of(root) <= before, f"left behind: {sorted(files_of(root) - before)}")
    fault("keyreg" not in call(*inside(root, "/", "dpkg", "-l")).stdout, "dpkg knows keyreg still")


def unpacked(root: pathlib.Path) -> None:
    """The tar file below /usr/local: folders stay as they are, the program runs, and all goes by OPERATING's words."""
    def folders() -> set[str]:
        return set(call("find", root / "usr/local", "-type", "d", "-printf", "%p %u:%g %m\n").stdout.splitlines())

    plain = next(PACKAGES.glob("*.tar.gz"))
    texts = [not_none(re.search(rf"`(tar -{word} [^`]*)`", read("docs/OPERATING.md")))[1].replace("\\|", "|")
             for word in ("xzf", "tzf")]
    install, remove = (re.sub(r"keyreg-\S+\.tar\.gz", plain.name, text) for text in texts)
    # Debian's are of the group staff, and written by it.
    call_well(*inside(root, "/usr/local", "sh", "-c", "chown root:staff bin share && chmod 2775 bin share"))
    before, modes = files_of(root), folders()
    shutil.copy(plain, root / "tmp")
    call_well(*inside(root, "/tmp", "sh", "-c", install))
    fault(modes <= folders(), f"the tar file changed folders: {sorted(modes - folders())}")
    call_well(*inside(root, "/tmp", "sh", "-c", "command -v keyreg"), wanted="/usr/local/bin/keyreg\n")
    completes(root)
    read_there(root, root / "usr/local/share/doc/keyreg")
    desk(root, root / "usr/local/share/doc/keyreg", root / "usr/local/lib/systemd/system")
    call(*as_root(root, row_words(root / "usr/local/share/doc/keyreg/docs/OPERATING.md", "remove").split("\n")[0]))
    call_well(*inside(root, "/tmp", "sh", "-c", remove))
    left = sorted(path for path in files_of(root) - before if not (root / path.lstrip("/")).is_dir())
    fault(not left, f"left behind of the tar file: {left}")


def main() -> None:
    given = options(__doc__, base="", mirror=MIRROR)
    package = made_package()
    call_well("sha256sum", "--check", "SHA256SUMS", cwd=PACKAGES)
    call_well("lintian", "--allow-root", "--fail-on", "error", package)
    with fresh_folder() as folder:
        root = folder / "root"
        make_base(root, given.base, given.mirror)
        (root / "etc/hostname").write_text("packaged\n")
        versions_rise(package)
        installs(root, package)
        go_alone()
        packaged(root, package)
        unpacked(root)
    # Each fault was printed as it was found.
    verdict(f"{package.name}: {len(faults)} faults", len(faults))


main()
