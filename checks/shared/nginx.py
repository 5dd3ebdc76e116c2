"""nginx before a served register, with the office's own file: what the checks over nginx share."""
import contextlib
import os
import pathlib
import re
import shutil
import socket
import ssl
import subprocess
import tempfile
from typing import Mapping, Optional, Union

from places import DESK, UNITS
from script import expect, not_none, output_of
from serving import PATIENCE, begins_to_listen, free_ports

CONF = UNITS / "nginx-keyreg.conf"
HOST, USERS = "keyreg.example", {"alice.meyer": "wonder", "office": "desk"}
MAIN = """daemon off; pid {folder}/pid; error_log {folder}/error.log; {user}
events {{ worker_connections 512; }}
http {{ access_log off; client_body_temp_path {folder}/body; proxy_temp_path {folder}/proxy;
fastcgi_temp_path {folder}/f; uwsgi_temp_path {folder}/u; scgi_temp_path {folder}/s; include {folder}/keyreg.conf; }}
"""


def has_ipv6() -> bool:
    """Whether this machine has the address ::1."""
    with contextlib.suppress(OSError), socket.socket(socket.AF_INET6) as tried:
        tried.bind(("::1", 0))
        return True
    return False


def by_tls(text: str, folder: pathlib.Path) -> str:
    """The file after the edit that its head names, with a certificate for the host and its key in the folder."""
    output_of(["openssl", "req", "-x509", "-newkey", "rsa:2048", "-nodes", "-days", "2", "-subj", f"/CN={HOST}",
               "-addext", f"subjectAltName=DNS:{HOST}", "-keyout", folder / "key.pem", "-out",
               folder / "certificate.pem"])
    edit = re.search(r"(?m)^# +(sed) -i (.*) /etc/nginx/conf\.d/keyreg\.conf$", text)
    expect(edit, f"{CONF.name} names no edit for TLS")
    return output_of(["sh", "-c", " ".join(not_none(edit).groups())], input=text)


class Guard:
    """nginx with the example's file, on ports of its own, that of what is asked without TLS too. The desk's list is
    handed out of the folder's `list`. Wrong passwords are answered at this rate, which is not the file's. The register
    has this name."""

    def __init__(self, register_port: int, words: Optional[Mapping[str, str]] = None, tls: bool = False,
                 rate: str = "1000r/s", name: str = "") -> None:
        self.port, self.plain_port, refused_port = free_ports(3)
        self.held, self.tls = tempfile.TemporaryDirectory(), tls
        self.folder = folder = pathlib.Path(self.held.name)
        # nginx reads the list and the desk as another user.
        folder.chmod(0o755)
        self.list_folder = os.path.join(folder, "list")
        os.mkdir(self.list_folder)
        text, changes = CONF.read_text(encoding="ascii"), {
            "127.0.0.1:8420": f"127.0.0.1:{register_port}", "127.0.0.1:8422": f"127.0.0.1:{refused_port}",
            "/etc/nginx/keyreg.users": f"{folder}/users", "rate=1r/s": f"rate={rate}",
            'set $register_name "";': f'set $register_name "{name}";',
            "/usr/local/share/keyreg/desk": str(DESK), "/var/lib/keyreg-list": self.list_folder}
        if tls:
            text = by_tls(text, folder)
            changes |= {"/etc/ssl/certs/keyreg.pem": f"{folder}/certificate.pem",
                        "/etc/ssl/private/keyreg.pem": f"{folder}/key.pem"}
            if not has_ipv6():
                # By the head of the file.
                text = re.sub(r"(?m)^.*listen \[::\].*\n", "", text)
            for there, here in (("", "127.0.0.1:"), ("[::]:", "[::1]:"))[:1 + has_ipv6()]:
                changes |= {f"listen {there}443": f"listen {here}{self.port}",
                            f"listen {there}80;": f"listen {here}{self.plain_port};"}
        else:
            changes["127.0.0.1:8421"] = f"127.0.0.1:{self.port}"
        for old, new in changes.items():
            expect(old in text, f"no {old} in {CONF.name}")
            text = text.replace(old, new)
        users = "".join(f"{name}:{{PLAIN}}{word}\n" for name, word in (words or USERS).items())
        main = MAIN.format(folder=folder, user="user root;" if os.geteuid() == 0 else "")
        for name, given in (("keyreg.conf", text), ("users", users), ("nginx.conf", main)):
            (folder / name).write_text(given, encoding="utf-8")
        # It stands where not everybody's PATH leads.
        program = shutil.which("nginx", path=f"{os.environ['PATH']}:/usr/sbin")
        expect(program, "nginx is not installed: apt-get install nginx-light")
        self.process = subprocess.Popen([not_none(program), "-p", folder, "-c", folder / "nginx.conf"],
                                        stderr=subprocess.PIPE)
        if not begins_to_listen(self.process, self.port):
            self.process.terminate()
            expect(False, f"nginx does not listen: {not_none(self.process.stderr).read()!r}")

    def connected(self, name: Optional[str] = HOST, source: str = "127.0.0.1") -> Union[socket.socket, ssl.SSLSocket]:
        """A connection to it from an address of this machine, by TLS with this name in its first message."""
        there = "::1" if ":" in source else "127.0.0.1"
        connection = socket.create_connection((there, self.port), PATIENCE, (source, 0))
        if not self.tls:
            return connection
        context = ssl.create_default_context(cafile=self.folder / "certificate.pem")
        context.check_hostname = name == HOST
        return context.wrap_socket(connection, server_hostname=name)

    def __enter__(self) -> "Guard":
        return self

    def __exit__(self, *_: object) -> None:
        self.process.terminate()
        self.process.wait()
        not_none(self.process.stderr).close()
        self.held.cleanup()
