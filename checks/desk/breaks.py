"""What breaks between the desk and the register: connections, answers, pages, keyreg itself, and who sends. Each
request acts once, for its own user, and the page says what is so. Beside it two pages at one key, texts that are meant
to disturb, and a list that is not what it was."""
import base64
import json
import os
import pathlib
import re
import socket
import time
from typing import Optional

from day import day, register
from nginx import HOST
from parts import PASSWORDS, Reader
from script import expect
from serving import head, received

HOSTILE = [
    '<img src=x onerror="document.title=1">', "\"'><script>alert(1)</script>", "</td></table><b>bold</b>",
    "&lt;i&gt;&amp;", "\u202egpj.exe", "a\u0085b\u2028c\u2029d", "\u2066isolate\u2069 \u200bzero", "x" * 200,
    "\u00fc" * 100, "${1+1} {{2}} `3`", "\U000e0041tag \ufeffmark", "ب" * 60, "' style='position:fixed",
]
# What no text of anybody may become.
NO_SUCH = "img, iframe, object, embed, style, b, i, form[action], script:not([src='desk.js'], [src='begin.js'])"
# What may come between a request and its answer, and several of them after one another.
TURNS = (["cut"], ["500"], ["503"], ["502"], ["cut", "503", "cut", "lose"], ["reset"], ["lose"])


def waits(reader: Reader, *words: str) -> str:
    """The page says that a request waits, and how it is sent. Gives its number."""
    def number() -> Optional[re.Match]:
        text = reader.text("#kept")
        is_told = all(word in text for word in ("Not answered yet", *words))
        return re.search(r"number (\d+)", text) if is_told else None

    return reader.wait(number, f"a request does not wait with {words}")[1]


def sent_again(reader: Reader, key: int) -> None:
    """Each thing that may come between them."""
    line = reader.desk.line
    for place, todo in enumerate(TURNS):
        name, before, line.todo = f"after-{place}", len(line.posts), list(todo)
        reader.key(key).submit("add-custodian", [("Custodian", name)])
        # After a reset the browser may have sent it again before the page knows of it.
        if todo[0] not in ("reset", "lose"):
            why = "connection broke" if todo[0] == "cut" else "does not tell whether it acted"
            waits(reader, why, "sent again under its number")
        reader.accepted(f"add-custodian {key} {name}")
        sent, number = line.posts[before:], str(reader.said[-1][1])
        expect(not line.todo and len(sent) > len(todo) and set(sent) == {number},
               f"{todo}: sent under {sent}, and the page says {number}")
        expect(not reader.text("#kept"), f"{todo}: the page says that it waits still")
        expect(name in reader.text("dl.facts"), f"{todo}: the key is not shown with {name}")
        reader.does(f"remove-custodian {key} {name}", [("Custodian", name)])


def over_reload(reader: Reader, key: int) -> None:
    """A request waits, and the page is loaded anew: it is sent again under its number. Another user's is not sent."""
    line = reader.desk.line
    for what in ("cut", "reset", "lose", "503"):
        line.todo, before = [what] * 50, len(line.posts)
        reader.key(key).submit("add-custodian", [("Custodian", "reload")])
        number = waits(reader)
        reader.forget()
        # Nothing else is sent meanwhile.
        reader.seen("button.advance").click()
        reader.refused("Not sent")
        reader.driver.refresh()
        waits(reader)
        line.todo = []
        reader.accepted(f"add-custodian {key} reload", number)
        expect(set(line.posts[before:]) == {number}, f"{what}: sent under {set(line.posts[before:])}, not {number}")
        reader.key(key).does(f"remove-custodian {key} reload", [("Custodian", "reload")])
    line.todo = ["503"] * 9
    keep(reader, 7, reader.user, {"kind": "destroy", "key": key})
    reader.press("Give it up")
    reader.refused("Given up")
    line.todo, before = [], len(line.posts)
    keep(reader, 7, "zed", {"kind": "advance"})
    reader.says("is of the user zed", "#kept")
    time.sleep(0.5)
    expect(len(line.posts) == before, "another user's request is sent")
    expect(not reader.find("#kept button"), "another user's request may be given up")


def keep(reader: Reader, number: int, caller: str, command: dict) -> None:
    """Puts a request that is not answered into the window's store, and loads the page anew."""
    entry = json.dumps([{"number": number, "caller": caller, "body": json.dumps(command)}])
    reader.execute("sessionStorage.setItem('keyreg.kept', arguments[0])", entry)
    reader.reload()


def killed(reader: Reader, key: int) -> None:
    """keyreg is killed before a request comes, and right after one acted; it is started again meanwhile."""
    desk = reader.desk
    for need, words in (("4", "status 502"), ("5", "connection broke")):
        reader.key(key)
        if need == "4":
            desk.served.close()
        else:
            desk.line.todo = ["cut"]
        reader.submit("set-quorum", [("Approvals needed", need)])
        reader.wait(lambda: not desk.line.todo, "it is not sent")
        desk.served.close()
        number = waits(reader, words)
        desk.start()
        reader.accepted(f"set-quorum {key} {need}", number)
    expect("5 that its destruction needs" in reader.text(), reader.text())


def refused_after_a_cut(reader: Reader, key: int) -> None:
    """A refusal whose answer is lost is shown as a refusal, and one of a number that was used as what it is."""
    reader.desk.line.todo = ["cut"]
    reader.key(key).submit("add-custodian", [("Custodian", reader.user)])
    waits(reader)
    reader.refused("OwnerCustodian", "none of its custodians")
    used = max(number for _, number, _ in reader.said if number)
    keep(reader, used, reader.user, {"kind": "destroy", "key": key})
    reader.refused("RequestReused", "This one did nothing")


def two_pages(reader: Reader, other: Reader, key: int) -> None:
    """Two pages at one key: the second gets the refusal in words, and the key as it stands now."""
    form = other.key(key).form("set")
    reader.key(key).does(f"assign {key} bob", [("New owner", "bob")])
    expect(form.is_displayed(), "the other page is not as it was")
    foretold = other.submit("set", edits=[("set", day(9)), ("keep", ""), ("keep", "")])
    expect("Would be accepted" in foretold, foretold)
    other.refused("NotOwner", "Only the owner", f"key {key} stands as it is in the register")
    expect("bob" in other.text("dl.facts"), f"the key is not shown as it stands: {other.text('dl.facts')}")
    expect(not other.find("details[data-kind='set']"), "dates may still be set")


# ---- texts and lists


def is_text(reader: Reader, text: str) -> None:
    """The text stands in the page as a text, with a code for each character that is not seen, and became nothing
    else."""
    texts = reader.execute("return [...document.querySelectorAll('#main .text')].map((place) => place.textContent)")
    wanted = re.sub("[\u0080-\u009f\u200b-\u200f\u2028-\u202e\u2066-\u2069\ufeff\U000e0000-\U000e007f]",
                    lambda mark: f"U+{ord(mark[0]):04X}", text)
    expect(wanted in texts, f"{wanted!r} is not among {texts[:20]}")
    elements = [element.tag_name for element in reader.find(NO_SUCH)]
    expect(not elements, f"elements came of a text: {elements}")
    wide = reader.execute("return document.scrollingElement.scrollWidth - window.innerWidth")
    expect(wide <= 0, f"{text!r} makes the page wider by {wide}")


def hostile_texts(reader: Reader) -> None:
    """Purposes that are markup, quotes, marks of direction or long words."""
    for text in HOSTILE:
        register(reader, "data-encryption", reader.user, text)
        is_text(reader, text)
    reader.open(f"find?owner={reader.user}")
    for text in HOSTILE:
        is_text(reader, text)
    expect(reader.driver.title.startswith("Find"), f"the title is {reader.driver.title}")


def other_lists(reader: Reader, key: int) -> None:
    """A list that no register gives, with markup for names, is shown as texts all the same. Where the list is of too
    many keys, or gone, keys are asked for by their numbers, and the page says so."""
    reader.desk.make_list()
    place = pathlib.Path(reader.desk.guard.list_folder, "list.json")
    given = json.loads(place.read_text("utf-8"))
    markup = '<img src=x onerror="document.title=2"><script>alert(2)</script>'
    given["names"] = [markup] * len(given["names"])
    for text, words in ((json.dumps(given), markup), (json.dumps({**given, "keys": None, "count": 1000000}),
                        "1000000 keys, too many for the list"), ("", "The list of keys is not there")):
        if text:
            place.write_text(text, encoding="utf-8")
            os.utime(place, (time.time() + 5, time.time() + 5))
        else:
            place.unlink()
        reader.reload(forgets=True)
        reader.open("find").says(words)
        if words == markup:
            is_text(reader, markup)
    reader.key(key)
    reader.desk.make_list()
    reader.reload(forgets=True)


# ---- who sends: a browser has one password for all its pages


def logs_in_beside(reader: Reader, user: str, is_seen: bool = False) -> None:
    """Another page of the same browser is given another user's password. `is_seen` is whether the first page knows that
    it was left meanwhile; else it does not ask by itself who sends."""
    first = reader.driver.current_window_handle
    if not is_seen:
        reader.execute("const stop = (event) => event.stopImmediatePropagation();"
                       "document.addEventListener('visibilitychange', stop, true);"
                       "for (let timer = setTimeout(() => {}); timer > 0; timer--) clearTimeout(timer);")
    reader.driver.switch_to.new_window("tab")
    reader.log_in(user)
    expect(reader.text("body") == user, f"the other page is of {reader.text('body')!r}")
    reader.driver.close()
    reader.driver.switch_to.window(first)


def goes_on_as(reader: Reader, user: str) -> None:
    """The page, which says for whom it sends no more, is loaded anew, as whoever sends now."""
    reader.says("sends as another user", "#other")
    reader.seen("#other button").click()
    reader.wait(lambda: f"You: {user}" in reader.text("#who") and reader.find("main[data-page]"),
                f"the page is not {user}'s: {reader.text('#who')}")


def other_beside(reader: Reader, key: int) -> None:
    """A request acts, and its answer is lost, or it is not sent yet, when the other user logs in beside: it acts once,
    for its own user. No further page is shown meanwhile."""
    for todo, name in ((list[str](), "beside"), (["cut", "503", "503"], "between")):
        reader.key(key)
        command, before = f"add-custodian {key} {name}", reader.desk.requests()
        if not todo:
            logs_in_beside(reader, "office")
        reader.desk.line.todo = [*todo]
        reader.submit("add-custodian", [("Custodian", name)])
        if todo:
            waits(reader)
            logs_in_beside(reader, "office")
            reader.seen("#kept button").click()
        expect(f"not as {reader.user}" in reader.says("sends as another user", "#other"), reader.text("#other"))
        expect("Not answered yet" in reader.text("#kept"), "the request is not kept")
        sent = [(caller, text) for caller, _, text, _ in reader.desk.requests()[len(before):]]
        expect(sent == [(reader.user, command)] * bool(todo), f"in the other's time accepted was {sent}")
        reader.desk.line.todo = []
        goes_on_as(reader, "office")
        expect(f"It is of the user {reader.user}" in reader.text("#kept"), "whose request waits is not said")
        logs_in_beside(reader, reader.user, is_seen=True)
        goes_on_as(reader, reader.user)
        reader.accepted(command)
    reader.open("find")
    logs_in_beside(reader, "office")
    reader.execute("location.hash = 'waits'")
    goes_on_as(reader, "office")
    logs_in_beside(reader, reader.user, is_seen=True)
    goes_on_as(reader, reader.user)


def signs_out(reader: Reader) -> None:
    """The browser forgets the password, and another user's leads on to the desk."""
    token = base64.b64encode(f"{reader.user}:{PASSWORDS[reader.user]}".encode()).decode()
    with socket.create_connection(("127.0.0.1", reader.desk.line.server_port)) as connection:
        connection.sendall(head(f"GET /sign-out?user={reader.user} HTTP/1.1", f"Host: {HOST}",
                                f"Authorization: Basic {token}", "Connection: close"))
        answer = received(connection).decode()
    expect(answer.startswith("HTTP/1.1 401 ") and "You are signed out" in answer, f"signing out is answered {answer}")
    reader.open("find").press("Sign out", "#who a")
    # The browser asks for another password over an empty page, which is left unanswered here.
    reader.wait(lambda: "You:" not in reader.text("body"), "the page stands as it was")
    reader.driver.get(f"{reader.place}me")
    expect(reader.user not in reader.text("body"), "the browser still knows the password")
    reader.log_in("office", f"sign-out?user={reader.user}")
    reader.says("You: office", "#who")
    reader.log_in(reader.user)
    reader.open("find")


def all_breaks(ann: Reader, bob: Reader, second: Reader) -> None:
    """All of it, over the register of a day; the second is another page of ann."""
    key = register(ann, "master", "ann", "a key of breaks")
    sent_again(ann, key)
    over_reload(ann, key)
    refused_after_a_cut(ann, key)
    killed(ann, key)
    other_beside(ann, key)
    two_pages(ann, second, key)
    hostile_texts(bob)
    other_lists(bob, key)
    signs_out(ann)
