"""What was typed stays and is helped: a refusal leaves a form as it was, half a date is no date, a wrong value says
what is wrong in it, names are offered and a new one is confirmed, and the focus is where the next key is typed. What
is seen of keys stands whole, in its order, and says what is overdue."""
import itertools
import re
import time
from typing import Any

from browser import as_seen, as_usual
from day import day, register, second
from parts import By, Keys, Reader
from script import expect
from selenium.webdriver.common.action_chains import ActionChains

# As long as a purpose was in which numbers and names broke.
LONG = "signing of the firmware images of the metering gateways, field trial of the northern sites 2026"


def has_values(reader: Reader, kind: str, **wanted: str) -> None:
    """The form's fields have these values; a browser leaves seconds out that are none."""
    form = reader.seen(f"form.command.{kind}")
    for name, value in wanted.items():
        given = reader.execute("return arguments[0].elements[arguments[1]].value", form, name.replace("__", "-"))
        expect(given in (value, re.sub(r":00$", "", value)), f"{name} of {kind} is {given!r}, not {value!r}")


def is_not_sent(reader: Reader, form: Any, why: str) -> None:
    reader.forget()
    form.find_element(By.CSS_SELECTOR, "button.send").click()
    time.sleep(0.3)
    expect(not reader.find("#said .answer"), why)


def stays(reader: Reader) -> int:
    """A refusal leaves the form of a registration, and one on a key's page, as they were; an answer that comes to
    another page leaves its form. Gives a key's number."""
    fields = [("Type", "master"), ("Owner", reader.user), ("Purpose", LONG), ("Activation (UTC)", day(1)),
              ("Protect Stop (UTC)", day(9000))]
    # keyreg refuses both, and the second answer is that of a full register.
    for answers, words in ((list[str](), ["PeriodTooLong"]),
                           (["409"], ["Full", "has 1,000,000 keys, and takes no more"])):
        reader.desk.line.todo = answers
        reader.anew("register").submit("register", fields)
        reader.refused(*words)
        has_values(reader, "register", type="master", owner=reader.user, purpose=LONG, activation=day(1),
                   protect_stop=day(9000))
    key = register(reader, "master", reader.user, LONG)
    reader.submit("set", edits=[("set", day(9)), ("set", day(5)), ("keep", "")])
    reader.refused("DateOrder")
    has_values(reader, "set", activation__edit="set", activation=day(9), protect_stop__edit="set", protect_stop=day(5),
               deactivation__edit="keep")
    reader.key(key).desk.line.todo = ["503"]
    reader.submit("set-quorum", [("Approvals needed", "5")])
    reader.says("Not answered yet", "#kept")
    reader.open("register").put(reader.seen("form.command.register").find_element(By.NAME, "purpose"), LONG)
    reader.accepted(f"set-quorum {key} 5")
    has_values(reader, "register", purpose=LONG)
    return key


def by_keys(reader: Reader) -> None:
    """A registration by the keyboard alone. A wrong value says what is wrong, and stays. A day whose time is not typed
    yet is said to be none, and nothing is foretold by it."""
    def press(*keys: str) -> None:
        ActionChains(reader.driver).send_keys(*keys).perform()

    reader.open("find").driver.execute_script("document.querySelector('nav a[href=\"#register\"]').focus()")
    press(Keys.ENTER)
    form = reader.form("register")
    reader.wait(lambda: reader.execute("return document.activeElement.id") == "main", "the focus is left behind")
    press(Keys.TAB, Keys.ARROW_DOWN, Keys.ARROW_DOWN, Keys.TAB, "Müller")
    expect("ü is none of the ASCII letters" in form.text and "Still lacking: Purpose" in form.text, form.text)
    has_values(reader, "register", type="key-wrapping", owner="Müller")
    press(Keys.BACKSPACE * 6, reader.user, Keys.TAB, "keys by the keyboard", Keys.TAB, "02012027")
    reader.wait(lambda: "time is lacking" in form.text, "half a date is a date, or none")
    expect("Would be accepted" not in form.text, form.text)
    is_not_sent(reader, form, "half a date is sent")
    reader.execute("arguments[0].focus()", form.find_element(By.NAME, "purpose"))
    press(Keys.TAB, "02012027", "083000AM")
    reader.wait(lambda: "Would be accepted" in form.text, "a whole date is not taken")
    for _ in range(20):
        press(Keys.TAB)
        if reader.execute("return document.activeElement.matches('form.register button.send')"):
            break
    press(Keys.ENTER)
    reader.accepted(f"register key-wrapping {reader.user} {second('2027-02-01T08:30:00')} - - keys by the keyboard")


def names_offered(reader: Reader, key: int) -> None:
    """Names that are known are offered. An unknown one is said, and not sent until it is confirmed."""
    register(reader, "master", "bob", "a key of another owner")
    form = reader.with_list().key(key).form("assign")
    field = form.find_element(By.NAME, "owner")
    offered = reader.execute("return [...document.getElementById(arguments[0].getAttribute('list')).options]"
                             ".map((one) => one.value)", field)
    expect({"ann", "bob"} <= set(offered) and "zoe.unknown" not in offered, f"offered are {offered}")
    field.send_keys("zoe.unknown")
    reader.wait(lambda: "No key, custodian or request has the name zoe.unknown" in form.text, "a new name is not said")
    is_not_sent(reader, form, "a key is given to an unknown name without asking")
    box = form.find_element(By.CSS_SELECTOR, ".sure input")
    expect(reader.execute("return document.activeElement === arguments[0]", box), "the focus is not at what is asked")
    field.clear()
    field.send_keys("bob")
    reader.wait(lambda: not form.find_elements(By.CSS_SELECTOR, ".sure input"), "a known name is asked about")


def closed(reader: Reader, key: int) -> None:
    """An answer that is closed gives the focus back to the page."""
    reader.key(key).does(f"set-quorum {key} 3", [("Approvals needed", "3")])
    reader.seen("#said button.close").send_keys(Keys.ENTER)
    expect(reader.execute("return document.activeElement.id") == "main", "the focus is lost after an answer is closed")


def searched(reader: Reader) -> None:
    """The fields of a search: a part of an owner's name, a number of days that is none, and the focus after more."""
    reader.anew("find")
    reader.wait(lambda: len(set(reader.text(".count").split(" ")[:3:2])) == 1, "with nothing asked not all are found")
    rows = len(reader.find("table.cards tbody tr"))
    owner = reader.seen("input[list='owners']")
    owner.send_keys("AN")
    reader.wait(lambda: {row.text for row in reader.find("td[data-head='Owner']")} == {"ann"}, "not ann's are found")
    owner.clear()
    days = reader.seen("input[type='number']")
    for text in ("99999", "-3", "1.5"):
        reader.put(days, text)
        expect("0 to 36500 days" in reader.text("form.find") and days.get_attribute("aria-invalid") == "true",
               f"{text!r} days are passed over in silence")
    reader.put(days, "")
    expect(len(reader.find("table.cards tbody tr")) == rows, "the rows do not come again")
    for more in reader.find("button.more"):
        more.send_keys(Keys.ENTER)
        place = reader.execute("return [...document.querySelectorAll('tbody a')].indexOf(document.activeElement)")
        expect(place == rows, f"after more the focus is at {place}, and the first new row is {rows}")


# The parts of cells that stand on more than one line, but for purposes.
BROKEN = """return [...document.querySelectorAll(".cards td")].filter((cell) => cell.dataset.head !== "Purpose")
  .flatMap((cell) => [...cell.querySelectorAll("a, .state, .overdue, .name, time, .away"),
    ...(cell.children.length ? [] : [cell])])
  .filter((part) => {
    const range = document.createRange();
    range.selectNodeContents(part);
    const tops = [...range.getClientRects()].filter((box) => box.width > 0).map((box) => box.bottom);
    return tops.length > 1 && Math.max(...tops) - Math.min(...tops) > 12;
  })
  .map((part) => part.textContent)"""


def overdue_seen(reader: Reader) -> int:
    """A key whose Protect Stop Date is reached is seen to be overdue: on its page and in what is found. Numbers, types,
    states, moments and names stand whole there beside long purposes."""
    key = register(reader, "data-encryption", reader.user, LONG, day(-40), day(-3), day(300))
    expect("overdue" in reader.text("h1"), f"its page says {reader.text('h1')}")
    kinds = [part.get_attribute("class") for part in reader.find(".line rect")]
    expect(kinds == ["protect", "process"], f"its line has {kinds}")
    reader.with_list(f"find?text={LONG.split(',', maxsplit=1)[0].replace(' ', '+')}")
    rows = {row.find_element(By.TAG_NAME, "a").text: row.text for row in reader.find("table.cards tbody tr")}
    overdue = [number for number, text in rows.items() if "overdue" in text]
    expect(overdue == [str(key)], f"overdue is {overdue}, not {key}, of {rows}")
    for width in (900, 1200):
        as_seen(reader.driver, width)
        broken = reader.execute(BROKEN)
        expect(not broken, f"at {width} wide {broken[:5]} break across lines")
    as_usual(reader.driver)
    return key


BOXES = """return ['text', '.tick'].map((name) => [...document.querySelectorAll(`.line ${name}`)].map((part) => {
  const box = part.getBoundingClientRect(); return [part.textContent, box.left, box.right, box.top, box.bottom]; }))"""
# Letters as a font has them that is higher and wider than the usual ones.
LARGER = """const sheet = document.styleSheets[0];
sheet.insertRule(".line text { font-size: 14px; }", sheet.cssRules.length);"""


def stand_apart(reader: Reader, what: str) -> None:
    """No letters of a line stand on one another, and no tick runs through letters."""
    letters, ticks = reader.execute(BOXES)
    for (text, left, right, top, bottom), (beside, *box) in itertools.combinations(letters, 2):
        apart = right <= box[0] or box[1] <= left or bottom - 3 <= box[2] or box[3] - 3 <= top
        expect(apart, f"{what}: {text} and {beside} stand on one another")
    for (text, left, right, top, bottom), (_, at, _, *ends) in itertools.product(letters, ticks):
        apart = at + 1 <= left or right - 1 <= at or bottom - 3 <= ends[0] or ends[1] <= top + 3
        expect(apart, f"{what}: a tick runs through {text}")


def no_letters_meet(reader: Reader, key: int) -> None:
    """Letters and ticks of a line stand apart, also where dates coincide, whatever the font; and the bar of a
    compromised key does not protect."""
    other = register(reader, "private-signature", reader.user, LONG, day(-2))
    since = day(-3)
    reader.does(f"revoke {other} 2 {second(since)}", [("Reason", "2"), ("Compromised since (UTC)", since)])
    for number, width in itertools.product((key, other), (380, 1200)):
        reader.key(number)
        as_seen(reader.driver, width)
        stand_apart(reader, f"key {number} at {width}")
    reader.execute(LARGER)
    for number, width in itertools.product((key, other), (320, 380)):
        reader.key(number)
        as_seen(reader.driver, width)
        stand_apart(reader, f"key {number} at {width} in larger letters")
    reader.reload()
    reader.key(other)
    ends = reader.execute("return ['.line rect.protect', '.line text.now'].map((name) =>"
                          "[...document.querySelectorAll(name)].map((part) => part.getBoundingClientRect().right))")
    expect(all(right <= ends[1][0] + 2 for right in ends[0]), f"it protects beyond now: {ends}")
    as_usual(reader.driver)


def order_kept(reader: Reader, other: Reader) -> None:
    """What waits keeps its order while a newer list comes, and a key is opened before it is approved."""
    def waiting() -> list[str]:
        return [link.text for link in reader.find("section.guarded tbody a")]

    keys = [register(other, "key-wrapping", other.user, f"keys that wait {place}") for place in range(3)]
    for key in keys:
        other.key(key).adds(key, reader.user)
    reader.with_list("waits")
    numbers, third = waiting(), reader.find("section.guarded tbody a")[2]
    reader.execute("arguments[0].focus()", third)
    other.key(keys[2]).adds(keys[2], "cat")
    reader.renew()
    reader.says("A newer list is there", "#newer")
    expect(waiting() == numbers, f"what waits moved from {numbers} to {waiting()}")
    expect(reader.execute("return document.activeElement === arguments[0]", third), "the focus went")
    expect(not reader.find("main button.send"), "a press in the list approves")
    reader.seen("#newer button").click()
    reader.wait(lambda: not reader.find("#newer button"), "the newer list is not shown")


def all_typed(ann: Reader, bob: Reader) -> None:
    """All of it."""
    key = stays(ann)
    by_keys(ann)
    names_offered(ann, key)
    closed(ann, key)
    overdue = overdue_seen(ann)
    no_letters_meet(ann, overdue)
    searched(ann)
    order_kept(bob, ann)
