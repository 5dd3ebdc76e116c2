"""What the desk knows of keys, and says where it does not: without a list, with one that hangs, with a register that
was set right or is ahead of its clock; how an open page follows a newer list, a half-filled form comes back, and a form
begins with what stands; and how soon the first page comes over a slow line."""
import os
import pathlib
import re
import time
from typing import Any

from day import day, register
from looks import large_list
from parts import Keys, Reader
from registers import run_program
from script import expect
from tables import chosen, judged, put_away
from typed import has_values, is_not_sent
from windows import is_answered, one_each, rows_of, sends

# The line over which the first page has to come: milliseconds, bytes a second; and in how many milliseconds.
LATENCY, RATE, FIRST = 800, 30_000, 4000
LATER = 4070908800


def without_list(reader: Reader, folder: pathlib.Path) -> None:
    """Without a list rows are not compared, and the page says so and asks before the first one is sent; it knows of no
    name whether anybody has it, nor whether anything waits, nor that it found all."""
    key = register(reader, "master", reader.user, "a key of no list")
    pathlib.Path(reader.desk.guard.list_folder, "list.json").unlink()
    reader.open("find").reload(forgets=True)
    reader.says("are not looked through")
    said = reader.open("waits").says("Not known: there is no list.")
    expect(said.count("Not known") == 3 and "None." not in said, said)
    form = reader.open("register").form("register")
    owner = form.find_element("name", "owner")
    owner.send_keys("zoe.unknown")
    reader.wait(lambda: "Whether anybody has the name zoe.unknown is not known" in form.text, f"it says {form.text}")
    expect("No key, custodian or request has" not in form.text, form.text)
    rows = rows_of("volume of no list", 3)
    chosen(reader, folder, f"master,{reader.user},,,,a key of no list", *rows, words="not compared with the register")
    expect("there already" not in reader.text(), reader.text())
    before = len(reader.desk.line.posts)
    sends(reader)
    time.sleep(0.5)
    box = reader.seen(".sure input")
    expect(len(reader.desk.line.posts) == before, "rows are sent without asking, though nothing compared them")
    expect(reader.execute("return document.activeElement === arguments[0]", box), "the focus is not at what is asked")
    box.click()
    reader.seen("input[aria-label='send row 1']").click()
    sends(reader)
    is_answered(reader, 3, "3 accepted, 0 refused")
    one_each(reader, rows, {reader.user})
    put_away(reader)
    reader.key(key)
    reader.desk.make_list()


def list_hangs(reader: Reader, key: int) -> None:
    """A list that does not come keeps nobody from keys by their numbers. It stands there as soon as it comes."""
    line = reader.desk.line
    line.held = ["/list.json"]
    reader.reload(forgets=True)
    reader.open("find").says("is on its way")
    reader.key(key)
    reader.open("find")
    line.held = []
    reader.wait(lambda: re.fullmatch(r"(\d+) of \1 keys", reader.text(".count")), "the list does not come")
    line.held = ["/keys/"]
    reader.open(f"find?owner={reader.user}")
    reader.execute("location.hash = arguments[0]", f"key/{key}")
    reader.says("has not answered yet")
    line.held = []
    reader.says("As the register told it")


def put_back(reader: Reader, copy: str) -> None:
    """The register is the copy's from now on, as after it was set right."""
    desk = reader.desk
    desk.served.close()
    for end in ("", "-wal"):
        if os.path.exists(copy + end):
            pathlib.Path(desk.file + end).write_bytes(pathlib.Path(copy + end).read_bytes())
        else:
            pathlib.Path(desk.file + end).unlink(missing_ok=True)
    desk.start()


def moved_to(reader: Reader, moment: int) -> None:
    """The register is at another moment than its machine's clock."""
    desk = reader.desk
    desk.served.close()
    done = run_program(["run", "--file", desk.file], f"{moment} clock.job {moment} advance\n".encode())
    expect(done.stdout.startswith(b"ok "), f"an advance to {moment} is answered {done}")
    desk.start()


def set_right(reader: Reader, folder: pathlib.Path) -> None:
    """A register at 2099 refuses, and the page foretells it; after it was set right the same page goes by the newer
    list, in a form and in a table."""
    copy, fields = reader.desk.copy(), [("Owner", reader.user), ("Purpose", "a key of 2099")]
    moved_to(reader, LATER)
    reader.anew("register").submit("register", fields)
    reader.refused("MomentBehind", "2099")
    reader.says("Would be refused", "form.register .foretold")
    chosen(reader, folder, *rows_of("volume of 2099", 2))
    judged(reader, 0, 2, 0, 0, 0, 0)
    put_back(reader, copy)
    reader.renew()
    reader.says("A newer list is there", "#newer")
    reader.press("Show it", "#newer button")
    judged(reader, 2, 0, 0, 0, 0, 0)
    put_away(reader)
    moved_to(reader, LATER)
    reader.open("register").submit("register", fields)
    reader.refused("MomentBehind", "2099")
    put_back(reader, copy)
    reader.renew()
    reader.says("Would be accepted", "form.register .foretold")
    reader.forget()
    reader.press("Register a key", "button.send")
    reader.accepted(f"register data-encryption {reader.user} - - - a key of 2099")


def ahead(reader: Reader, folder: pathlib.Path) -> None:
    """A register that is seconds ahead of its clock is waited for, in the midst of a table: no row is refused."""
    rows = rows_of("volume of a register ahead", 4)
    chosen(reader, folder, *rows)
    moved_to(reader, int(time.time()) + 8)
    sends(reader)
    reader.says("ahead of its machine's clock", "#kept")
    is_answered(reader, len(rows), f"{len(rows)} accepted, 0 refused")
    expect(not reader.text("#kept"), reader.text("#kept"))
    one_each(reader, rows, {reader.user})
    reader.said.append(("clock.job", None, "advance"))
    put_away(reader)


def follows(reader: Reader, other: Reader, key: int) -> None:
    """A key's page that is open follows a newer list. What is being typed stays, and the focus in it."""
    reader.key(key)
    form = reader.form("add-custodian")
    form.find_element("name", "name").send_keys("zo")
    other.key(key).adds(key, "eve")
    reader.renew()
    reader.wait(lambda: "eve" in reader.text("dl.facts"), "the page does not follow")
    at = reader.driver.switch_to.active_element
    values = [at.get_attribute(name) for name in ("name", "value")]
    expect(values == ["name", "zo"], f"what was typed is gone, or the focus: {values}")
    at.send_keys("e")
    reader.renew()
    time.sleep(1)
    expect(reader.execute("return document.activeElement === arguments[0]", at), "the focus goes where nothing changed")


def comes_back(reader: Reader) -> None:
    """A half-filled form is there again after Back, and a new one is empty. A number that no key has is said so."""
    reader.open("find").press("Register a key", "nav a")
    reader.put(reader.seen("form.register [name='purpose']"), "a half-filled form")
    reader.press("Find keys", "nav a")
    reader.wait(lambda: reader.find("main[data-page='find']"), "Find keys does not come")
    reader.driver.back()
    reader.wait(lambda: reader.find("main[data-page='register']"), "Back does not lead back")
    has_values(reader, "register", purpose="a half-filled form")
    reader.press("Find keys", "nav a")
    reader.seen("input[type='search']").send_keys("99999999999", Keys.ENTER)
    reader.says("The numbers of keys go from 1 to 4294967295")
    reader.press("Register a key", "nav a")
    reader.wait(lambda: reader.find("main[data-page='register']"), "the page does not come")
    has_values(reader, "register", purpose="")


def as_it_stands(reader: Reader, office: Reader, key: int) -> None:
    """A form begins with what stands, and says what it changes. Where it changes nothing, nothing is sent."""
    reader.key(key).does(f"set-quorum {key} 4", [("Approvals needed", "4")])
    posts = len(reader.desk.line.posts)
    nothing: list[tuple[str, str]] = []
    for kind, fields in (("set-quorum", nothing), ("set", nothing), ("assign", [("New owner", reader.user)])):
        foretold = reader.key(key).submit(kind, fields)
        expect("Nothing would change" in foretold, f"{kind}: foretold is {foretold}")
        is_not_sent(reader, reader.form(kind), f"{kind} is sent, though it changes nothing")
    form = office.with_list("periods").form("set-period")
    for kind, months in (("private-transport", ["24", "0"]), ("private-signature", ["36", "0"]),
                         ("key-wrapping", ["24", "36"])):
        office.fill(form, "Type", kind)
        begun = [form.find_element("name", name).get_attribute("value") for name in ("originator", "recipient")]
        expect(begun == months, f"{kind} begins with {begun}, not {months}")
    is_not_sent(office, form, "periods that stand are sent")
    expect(len(reader.desk.line.posts) == posts, "something was sent")
    foretold = reader.key(key).submit("set-quorum", [("Approvals needed", "3")])
    expect("Approvals needed: 3 (it was 4)" in foretold, f"foretold is {foretold}")
    reader.accepted(f"set-quorum {key} 3")
    for kind, fields, words in (("assign", [("New owner", "bob")], f"Owner: bob (it was {reader.user})"),
                                ("add-custodian", [("Custodian", "cat")], "Custodians: cat, eve (it was eve)")):
        form = reader.form(kind)
        for label, value in fields:
            reader.fill(form, label, value)
        reader.wait(lambda: words in form.text, f"{kind} does not say {words!r}: {form.text}")


def first_page(reader: Reader) -> float:
    """How many milliseconds pass until the first page and its list of 50 keys stand, in a browser that kept nothing."""
    reader.driver.execute_cdp_cmd("Network.clearBrowserCache", {})
    reader.driver.get("about:blank")
    reader.driver.get(f"{reader.place}#find")
    reader.says("50 of 50 keys", patience=60)
    reader.wait(lambda: reader.execute("return performance.getEntriesByName('shown').length"), "it is not shown")
    return reader.execute("return performance.getEntriesByName('shown')[0].startTime")


def over_a_slow_line(reader: Reader, folder: pathlib.Path) -> float:
    """How many milliseconds pass over a slow line until the first page stands, with a list of a few keys. The better of
    two counts: other work of the machine takes its time too."""
    large_list(reader.desk, folder / "few.keyreg", 50)
    reader.execute("sessionStorage.clear()")
    call = reader.driver.execute_cdp_cmd
    call("Network.enable", {})
    call("Network.emulateNetworkConditions",
         {"offline": False, "latency": LATENCY, "downloadThroughput": RATE, "uploadThroughput": RATE})
    shown = min(first_page(reader) for _ in range(2))
    expect(shown <= FIRST, f"the first page stands after {shown:.0f} ms")
    call("Network.emulateNetworkConditions",
         {"offline": False, "latency": 0, "downloadThroughput": -1, "uploadThroughput": -1})
    reader.with_list()
    return shown


def all_lists(here: Any, folder: pathlib.Path) -> str:
    """All of it."""
    ann, second, office = (here.reader(user) for user in ("ann", "ann", "office"))
    key = register(ann, "master", "ann", "a key of lists", day(-9))
    without_list(ann, folder)
    list_hangs(ann, key)
    set_right(ann, folder)
    ahead(ann, folder)
    follows(ann.with_list(), second, key)
    comes_back(ann)
    as_it_stands(ann, office, key)
    milliseconds = over_a_slow_line(second, folder)
    here.closes(ann, second, office)
    return (f"over a line of {LATENCY} ms and {RATE // 1000} kB/s the first page stands after {milliseconds:.0f} ms")
