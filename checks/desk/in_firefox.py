#!/usr/bin/env python3
"""The desk in Firefox: its first page comes, half a date is said to be none, and a key is registered by its form, which
the register has then, and the console has no error. Firefox is led by its own Marionette protocol.

    checks/desk/in_firefox.py

It needs Debian's firefox-esr and nginx-light.
"""
import contextlib
import json
import os
import pathlib
import socket
import subprocess
import sys
import time
from typing import Any

sys.path.insert(1, str(pathlib.Path(__file__).resolve().parents[1] / "shared"))
from nginx import HOST
from parts import Desk, PASSWORDS
from script import expect, fail, fresh_folder, verdict
from serving import PATIENCE, begins_to_listen, free_port

USER, PURPOSE = "ann", "a key of another browser"
# The name of the desk leads to this machine, and a password may stand in an address.
PREFERENCES: dict[str, Any] = {"network.dns.localDomains": HOST, "network.http.phishy-userpass-length": 255}


class Firefox:
    """A Firefox without a screen. Each call is one of the WebDriver standard, by the Marionette protocol."""

    def __init__(self, folder: pathlib.Path, stack: contextlib.ExitStack) -> None:
        port, self.calls = free_port(), 0
        profile = folder / "profile"
        profile.mkdir()
        lines = [f"user_pref({json.dumps(name)}, {json.dumps(value)});\n"
                 for name, value in {**PREFERENCES, "marionette.port": port}.items()]
        (profile / "user.js").write_text("".join(lines), "ascii")
        process = subprocess.Popen(["firefox-esr", "--marionette", "--no-remote", "--profile", profile],
                                   env={**os.environ, "HOME": str(folder), "MOZ_HEADLESS": "1", "TZ": "UTC"},
                                   stdout=subprocess.DEVNULL, stderr=subprocess.DEVNULL)
        stack.callback(process.wait, PATIENCE)
        stack.callback(process.terminate)
        expect(begins_to_listen(process, port), "Firefox does not listen")
        self.line = stack.enter_context(socket.create_connection(("127.0.0.1", port), timeout=PATIENCE))
        self.messages = stack.enter_context(self.line.makefile("rb"))
        self.read()
        self.call("NewSession", capabilities={"alwaysMatch": {"timeouts": {"implicit": 5000}}})

    def read(self) -> Any:
        """A message: its length in bytes, a colon, and so many bytes of JSON."""
        size = b""
        while not size.endswith(b":"):
            size += self.messages.read(1) or fail("Firefox ended")
        return json.loads(self.messages.read(int(size[:-1])))

    def call(self, name: str, **parameters: Any) -> Any:
        self.calls += 1
        text = json.dumps([0, self.calls, f"WebDriver:{name}", parameters]).encode()
        self.line.sendall(b"%d:%b" % (len(text), text))
        _, number, fault, value = self.read()
        expect(number == self.calls and fault is None, f"{name} {parameters}: {fault}")
        return value.get("value", value) if isinstance(value, dict) else value

    def seen(self, selector: str) -> str:
        [element] = self.call("FindElement", using="css selector", value=selector).values()
        return element

    def execute(self, script: str) -> Any:
        return self.call("ExecuteScript", script=script, args=[])

    def wait(self, words: str, selector: str = "body") -> None:
        """Waits until an element has these words."""
        late, text = time.monotonic() + PATIENCE, ""
        while words not in text:
            expect(time.monotonic() < late, f"{words!r} does not come: {text[:2000]}")
            text = self.execute(f"return document.querySelector({json.dumps(selector)})?.innerText ?? ''")
            time.sleep(0.05)


def registered(firefox: Firefox) -> None:
    """A key is registered by the form of the desk."""
    firefox.execute("window.faults = []; for (const name of ['error', 'unhandledrejection'])"
                    "addEventListener(name, (event) => faults.push(event.message ?? String(event.reason)))")
    firefox.wait("0 of 0 keys")
    firefox.wait(f"You: {USER}")
    firefox.call("ElementClick", id=firefox.seen("a[href='#register']"))
    firefox.wait("Register a key", "h1")
    for member, text in (("owner", USER), ("purpose", PURPOSE), ("activation", "02012027")):
        firefox.call("ElementSendKeys", id=firefox.seen(f"form.register [name={member}]"), text=text)
    firefox.wait("the time is lacking", "form.register .foretold")
    firefox.execute("const field = document.querySelector('form.register [name=activation]');"
                    "field.value = '2027-02-01T08:30:00'; field.dispatchEvent(new Event('input', {bubbles: true}))")
    firefox.wait("Would be accepted", "form.register .foretold")
    firefox.call("ElementClick", id=firefox.seen("form.register button.send"))
    firefox.wait("Accepted.", "#said")
    firefox.wait("Key 1", "h1")
    faults = firefox.execute("return window.faults")
    expect(not faults, f"the page had errors: {faults}")


def main() -> None:
    with fresh_folder(2**28) as folder, contextlib.ExitStack() as stack:
        folder.chmod(0o755)
        desk = Desk(folder)
        stack.callback(desk.close)
        firefox = Firefox(folder, stack)
        firefox.call("Navigate", url=f"http://{USER}:{PASSWORDS[USER]}@{HOST}:{desk.line.server_port}/")
        registered(firefox)
        rows = [(caller, command) for caller, _, command, _ in desk.requests()]
        wanted = [(USER, f"register data-encryption {USER} 1801470600 - - {PURPOSE}")]
        expect(rows == wanted, f"the register has {rows}")
    verdict("in Firefox the first page comes, and a key is registered")


main()
