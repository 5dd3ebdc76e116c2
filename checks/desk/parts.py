"""What the checks of the desk share: keyreg and nginx behind a line that can be cut, and readers of the desk, each a
Chromium of its own that is led as a person leads it.

The browsers stand in another time zone than UTC, half hours from it, so that a date that is taken in local time is
seen.
"""
import contextlib
import http.server
import json
import os
import re
import socket
import struct
import sys
import threading
import time
import urllib.parse
from typing import Any, Callable, Optional, Sequence

from places import OFFICE
from browser import chromium
from nginx import HOST, Guard
from registers import File, copy_files, database, new_register
from script import expect, not_none, output_of
from selenium.common.exceptions import StaleElementReferenceException, WebDriverException
from selenium.webdriver.common.by import By
from selenium.webdriver.common.keys import Keys
from selenium.webdriver.support.select import Select
from serving import Served, free_port, head, received

ZONE = "America/St_Johns"
# A name that stands in no request line, which somebody may give a user of nginx all the same.
NO_CALLER = "jörg müller"
PASSWORDS = {"ann": "word-a", "bob": "word-b", "cat": "word-c", "dan": "word-d", "eve": "word-e", "office": "word-o",
             NO_CALLER: "word-j"}
# What comes in the place of an answer.
ANSWERS = {"409": b'{"name":"Full","refused":20}', "500": b'{"end":31,"name":"Store"}',
           "503": b'{"end":30,"name":"Memory"}', "502": b"<html>busy</html>"}


class Relay(http.server.BaseHTTPRequestHandler):
    """Passes a request of a browser on to nginx, and the answer back, over a connection that stays."""
    protocol_version = "HTTP/1.1"
    server: "Line"

    def do_GET(self) -> None:
        line, what = self.server, ""
        while any(map(self.path.startswith, line.held)):
            time.sleep(0.05)
        body = self.rfile.read(int(self.headers["Content-Length"] or 0))
        if self.command == "POST":
            time.sleep(line.delay)
            line.posts.append(self.headers["Request-Number"])
            what = line.todo.pop(0) if line.todo else ""
        line.keys_asked += self.path.startswith("/keys/")
        answer = b"" if what == "lose" else self.answer(body)
        if what in ANSWERS:
            answer = head(f"HTTP/1.1 {what} -", f"Content-Length: {len(ANSWERS[what])}") + ANSWERS[what]
        elif what:
            answer = answer[:-9] if what == "cut" else b""
        self.wfile.write(answer)
        if what and what not in ANSWERS:
            # So that the head is read before a reset, as of a network that breaks, takes it away.
            time.sleep(0.1)
            self.connection.setsockopt(socket.SOL_SOCKET, socket.SO_LINGER, struct.pack("ii", 1, 0))
            self.connection.close()
            self.close_connection = True

    do_POST = do_GET

    def answer(self, body: bytes) -> bytes:
        """What nginx answers, on a connection that ends with it."""
        del self.headers["Connection"]
        fields = [f"{name}: {value}" for name, value in self.headers.items()]
        with socket.create_connection(("127.0.0.1", self.server.to)) as nginx:
            nginx.sendall(head(self.requestline, *fields, "Connection: close") + body)
            answer = received(nginx).replace(b"\r\nConnection: close", b"", 1)
        # A browser without a screen would wait for ever for the password that this asks for, where a person cancels.
        return answer.replace(b"WWW-Authenticate", b"Not-Asked", 1) if self.command == "POST" else answer

    def log_message(self, *_: object) -> None:
        pass


class Line(http.server.ThreadingHTTPServer):
    """The line between the browsers and nginx. It passes all on, until `todo` says what to do with the next POSTs:

        cut     the request goes on, and the browser's connection is broken within the answer
        reset   the request goes on, and the connection is broken before the first byte of the answer: on a connection
                that it used before a browser may send such a request again by itself
        lose    the connection is broken before the request goes on
        a status of ANSWERS  the request goes on, and the browser gets this in the place of the answer

    `delay` is how many seconds it keeps each POST, `held` the beginnings of paths that get no answer while they stand
    there, `posts` the numbers of the requests that came, and `keys_asked` how often a key or its usage was asked for.
    """
    request_queue_size = 64

    def __init__(self, port: int) -> None:
        super().__init__(("127.0.0.1", 0), Relay)
        self.to, self.delay, self.keys_asked = port, 0.0, 0
        self.todo: list[str] = []
        self.held: list[str] = []
        self.posts: list[str] = []
        threading.Thread(target=self.serve_forever, daemon=True).start()

    def handle_error(self, *_: object) -> None:
        """Browsers leave when they like."""


class Desk:
    """keyreg over a file, nginx with the office's file before it, and the list of the desk."""

    def __init__(self, folder: File) -> None:
        self.file, self.port = os.path.join(folder, "office.keyreg"), free_port()
        new_register(self.file)
        self.start()
        self.guard = Guard(self.port, PASSWORDS)
        self.line = Line(self.guard.port)
        self.make_list()

    def start(self) -> None:
        self.served = Served(file=self.file, port=self.port)

    def make_list(self, file: Optional[File] = None, rows: int = 7) -> None:
        """The list of the register, or of another one in its place, with a history in files of so many rows."""
        place = os.path.join(self.guard.list_folder, "list.json")
        output_of([sys.executable, "-B", OFFICE / "list.py", file or self.file, place, "--rows", str(rows)])

    def copy(self) -> str:
        """A copy of the register and its log, while nothing is sent."""
        return str(copy_files(self.file, f"{self.file}-copy-{time.monotonic_ns()}"))

    def requests(self) -> list[tuple[str, int, str, int]]:
        """The caller, the number, the command and the moment of each accepted request, in their order."""
        with database(self.copy()) as connection:
            return connection.execute("SELECT caller, number, command, moment FROM request ORDER BY rowid").fetchall()

    def close(self) -> None:
        self.served.close()
        self.line.held = []
        self.line.shutdown()
        self.line.server_close()
        self.guard.__exit__()


class Reader:
    """A browser of a user of the desk. What the page says of accepted requests is written down in `said`: the user, the
    number if it was shown, and the command."""

    def __init__(self, desk: Desk, user: str) -> None:
        self.desk, self.user, self.is_gone = desk, user, False
        self.said: list[tuple[str, Optional[int], str]] = []
        self.place = f"http://{HOST}:{desk.line.server_port}/"
        os.environ["TZ"] = ZONE
        self.driver = chromium(f"--host-resolver-rules=MAP {HOST} 127.0.0.1, MAP * ~NOTFOUND")
        # The password is given once, as a person types it; then the page is opened by its own address.
        self.log_in(user)
        self.logs()
        self.open("find")

    def log_in(self, user: str, path: str = "me") -> None:
        """Gives a user's password, and opens a page of nginx's own."""
        words = f"{urllib.parse.quote(user)}:{PASSWORDS[user]}"
        self.driver.get(f"{self.place.replace('//', f'//{words}@')}{path}")

    # ---- looking

    def find(self, selector: str) -> list[Any]:
        return self.driver.find_elements(By.CSS_SELECTOR, selector)

    def seen(self, selector: str, holds: Callable[[Any], bool] = lambda element: True) -> Any:
        """The first element that is seen there and suits, as soon as one is."""
        return self.wait(lambda: next((element for element in self.find(selector)
                                       if element.is_displayed() and holds(element)), None), f"{selector} is not seen")

    def wait(self, is_so: Callable[[], Any], fault: str, patience: float = 20) -> Any:
        late = time.monotonic() + patience
        while True:
            with contextlib.suppress(StaleElementReferenceException):
                if value := is_so():
                    return value
            # The page's text is read where it fails alone: that takes the page longer than much that is waited for.
            if time.monotonic() >= late:
                expect(False, f"{self.user}: {fault}; the page says\n{self.text('body')[:3000]}")
            time.sleep(0.03)

    def text(self, selector: str = "main") -> str:
        with contextlib.suppress(StaleElementReferenceException, WebDriverException, IndexError):
            return self.find(selector)[0].text
        return ""

    def says(self, words: str, selector: str = "main", patience: float = 20) -> str:
        """The text of a part of the page, as soon as it has these words."""
        self.wait(lambda: words in self.text(selector), f"{selector} does not say {words!r}", patience)
        return self.text(selector)

    def execute(self, script: str, *given: Any) -> Any:
        return self.driver.execute_script(script, *given)

    # ---- going

    def open(self, page: str) -> "Reader":
        """A page of the desk by its address."""
        if self.driver.current_url.split("#")[0] == self.place:
            self.execute("location.hash = arguments[0]", page)
        else:
            self.driver.get(f"{self.place}#{page}")
        self.wait(lambda: self.find(f"main[data-page='{page.split('?')[0]}']"), f"{page} does not open")
        return self

    def anew(self, page: str) -> "Reader":
        """The same, from another page."""
        return self.open("register" if page.startswith("find") else "find").open(page)

    def key(self, number: int) -> "Reader":
        """The page of a key, as the register gives it."""
        self.anew(f"key/{number}").says("As the register told it")
        return self

    def reload(self, forgets: bool = False) -> None:
        """The page anew, where it forgets as in a new window."""
        if forgets:
            self.execute("sessionStorage.clear()")
        self.driver.refresh()
        self.wait(lambda: self.find("main[data-page]"), "the page does not come again")

    def renew(self) -> None:
        """A newer list comes to the page as it stands."""
        # nginx tells two lists apart by the second in which they were made.
        time.sleep(1.1)
        self.desk.make_list()
        self.execute("dispatchEvent(new Event('visibilitychange'))")

    def with_list(self, page: str = "find") -> "Reader":
        """A page that has the newest list."""
        self.desk.make_list()
        self.reload()
        return self.open(page)

    # ---- doing

    def press(self, words: str, selector: str = "button") -> None:
        """Presses the button, or another part, that is seen with these words, also where the page puts another one in
        its place meanwhile."""
        self.wait(lambda: not self.seen(selector, lambda button: button.text == words).click(), f"no {words!r}")

    def fill(self, form: Any, label: str, value: str) -> None:
        """Writes into the field with this label. A date is its text in UTC, as a calendar gives it."""
        entry: Any = next((field.find_element(By.CSS_SELECTOR, "input, select")
                           for field in form.find_elements(By.CSS_SELECTOR, ".field")
                           if field.find_element(By.TAG_NAME, "label").text == label), None)
        expect(entry, f"{self.user}: no field {label!r}")
        if entry.tag_name == "select":
            Select(entry).select_by_value(value)
        else:
            self.put(entry, value)

    def put(self, entry: Any, value: str) -> None:
        """A value as a calendar gives it."""
        self.execute("arguments[0].value = arguments[1];"
                     "arguments[0].dispatchEvent(new Event('input', {bubbles: true}))", entry, value)

    def form(self, kind: str) -> Any:
        """The form of a command, opened where it is folded."""
        if kind not in ("register", "set-period"):
            summary = self.seen(f"details[data-kind='{kind}'] > summary")
            if not self.find(f"details[data-kind='{kind}'][open]"):
                summary.click()
        return self.seen(f"form.command.{kind}")

    def submit(self, kind: str, fields: Sequence[tuple[str, str]] = (), edits: Sequence[tuple[str, str]] = ()) -> str:
        """Fills a form in and sends it; what the page foretells."""
        form = self.form(kind)
        for label, value in fields:
            self.fill(form, label, value)
        for (how, value), row in zip(edits, form.find_elements(By.CSS_SELECTOR, ".edit")):
            Select(row.find_element(By.TAG_NAME, "select")).select_by_value(how)
            if how == "set":
                self.put(row.find_element(By.TAG_NAME, "input"), value)
        for sure in form.find_elements(By.CSS_SELECTOR, ".sure input:not(:checked)"):
            sure.click()
        json.loads(form.find_element(By.CSS_SELECTOR, ".sentence").text)
        foretold = form.find_element(By.CSS_SELECTOR, ".foretold").text
        self.forget()
        form.find_element(By.CSS_SELECTOR, "button.send").click()
        return foretold

    def forget(self) -> None:
        """Takes the last answer away, so that the next one is seen to be new."""
        self.execute("document.getElementById('said').replaceChildren()")

    def answer(self, is_wanted: bool, *wanted: str) -> str:
        """What the page says of the request that was sent has to be that it is accepted, or not, with these words."""
        self.wait(lambda: self.find("#said .answer"), "there is no answer", 40)
        words = self.text("#said .answer")
        kinds = [kind for kind in ("accepted", "refused") if self.find(f"#said .answer .{kind}")]
        begin = ("Accepted.",) if is_wanted else ("Refused", "Not sent", "Given up")
        expect(kinds == ["accepted" if is_wanted else "refused"] and words.startswith(begin)
               and all(word in words for word in wanted), f"{self.user}: not {begin} with {wanted}: {kinds} {words}")
        expect(self.execute("return document.activeElement.className") == "answer",
               f"{self.user}: the focus is not at the answer")
        return words

    def accepted(self, command: str, *wanted: str) -> str:
        """The answer has to be that this request, as the register keeps it, is accepted. It is written down."""
        words = self.answer(True, *wanted)
        self.said.append((self.user, int(not_none(re.search(r"request number was (\d+)", words))[1]), command))
        return words

    def refused(self, name: str, *wanted: str) -> None:
        self.answer(False, name, *wanted)

    def does(self, command: str, fields: Sequence[tuple[str, str]] = (), edits: Sequence[tuple[str, str]] = ()) -> str:
        """A request that has to be accepted, and that the page foretells so."""
        foretold = self.submit(command.split(" ")[0], fields, edits)
        expect("Would be accepted" in foretold, f"{self.user}, {command}: the page foretells {foretold}")
        return self.accepted(command)

    def adds(self, key: int, *names: str) -> None:
        """Adds custodians to the key whose page this is."""
        for name in names:
            self.does(f"add-custodian {key} {name}", [("Custodian", name)])

    def logs(self) -> tuple[list[str], list[str]]:
        """What the console says, and each address that was asked for."""
        console = [entry["message"] for entry in self.driver.get_log("browser")]
        messages = [json.loads(entry["message"])["message"] for entry in self.driver.get_log("performance")]
        return console, [message["params"]["request"]["url"] for message in messages
                         if message["method"] == "Network.requestWillBeSent"]


__all__ = ["By", "Desk", "Keys", "NO_CALLER", "PASSWORDS", "Reader", "WebDriverException"]
