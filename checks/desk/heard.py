"""What is heard of the desk by whoever does not see it: the name, the description and the state of each field of each
form, wrong and right, by Chromium's accessibility tree; and what live regions say, in order, while a form is filled in
and sent, and a table."""
import pathlib
import time
from typing import Any

from day import day, register
from looks import axe_finds_nothing
from parts import By, Reader
from script import expect
from tables import chosen, put_away
from windows import is_answered, one_each, rows_of, sends

FIELDS = ("textbox", "combobox", "spinbutton", "checkbox", "Date", "DateTime", "InputTime")
# Half a date, as it is typed: the day without its time.
HALF = "02012027"
# Of each form a field by its label, what is wrong in it, what is said of that, and what is right. The fields of numbers
# and of names are typed letter by letter.
CASES = [
    ("register", "Owner", "Müller", "ü is none of the ASCII letters", "ann"),
    ("register", "Purpose", " x", "a space at its beginning", "a purpose"),
    ("register", "Activation (UTC)", HALF, "the time is lacking", ""),
    ("assign", "New owner", "b b", "a space is none of", "bob"),
    ("add-custodian", "Custodian", "x" * 65, "65 of 64 letters", "cat"),
    ("revoke", "Compromised since (UTC)", HALF, "the time is lacking", ""),
    ("set", "Deactivation (UTC)", HALF, "the time is lacking", day(999)),
    ("set-period", "Months of protecting (originator use)", "0", "not 1 to 1200 months", "6"),
    ("set-period", "Months of processing after (recipient use)", "1201", "not 0 to 1200 months", "0"),
]
# The fields in which something has to stand.
REQUIRED = {"Owner", "Purpose", "New owner", "Custodian", "Months of protecting (originator use)",
            "Months of processing after (recipient use)"}
# Writes down what each live region says from now on.
LISTENS = """for (const one of window.listeners ?? []) one.disconnect();
window.heard = [];
window.listeners = ["heard", "said", "kept", "other", "old"].map((id) => {
  const place = document.getElementById(id);
  const one = new MutationObserver(() => { if (place.textContent) window.heard.push([id, place.textContent]); });
  one.observe(place, {childList: true, subtree: true, characterData: true});
  return one;
});"""


def told(reader: Reader, label: str) -> dict[str, Any]:
    """What Chromium tells of the field with this label that is seen: its description, and how it stands."""
    tree = reader.driver.execute_cdp_cmd("Accessibility.getFullAXTree", {})["nodes"]
    nodes = [node for node in tree if not node.get("ignored") and node.get("role", {}).get("value") in FIELDS
             and node.get("name", {}).get("value") == label]
    expect(len(nodes) == 1, f"{len(nodes)} fields are named {label!r}")
    properties = {one["name"]: one["value"].get("value") for one in nodes[0].get("properties", [])}
    return {"description": nodes[0].get("description", {}).get("value", ""), **properties}


def typed(reader: Reader, form: Any, label: str, text: str) -> Any:
    """Types a text into the field with this label, in the place of what is there."""
    field = next(one for one in form.find_elements(By.CSS_SELECTOR, ".field")
                 if one.find_element(By.TAG_NAME, "label").text == label)
    entry = field.find_element(By.TAG_NAME, "input")
    if not text:
        # A date that is typed in part has no value, and is put away as by its own button.
        field.find_element(By.CSS_SELECTOR, "button[aria-label^='No date']").click()
    elif "T" in text:
        reader.put(entry, text)
    else:
        reader.put(entry, "")
        entry.send_keys(text)
    return entry


def forms_told(reader: Reader, office: Reader, key: int) -> int:
    """A wrong field says what is wrong with it, and a right one does not; after a press the focus is at the first that
    is wrong or lacking, which says so."""
    for kind, label, wrong, fault, right in CASES:
        who = office.anew("periods") if kind == "set-period" else \
            reader.anew("register") if kind == "register" else reader.key(key)
        form = who.form(kind)
        if kind == "revoke":
            who.fill(form, "Reason", "2")
        entry = typed(who, form, label, wrong)
        before = told(who, label)
        expect(fault in before["description"] and before.get("invalid") == "true",
               f"{kind}, {label}: {wrong!r} is told as {before}")
        # Chromium tells no date as required, whatever it is.
        expect(bool(before.get("required")) == (label in REQUIRED), f"{kind}, {label}: {before}")
        if kind != "revoke":
            is_at(who, form, entry, f"{kind}, {label}")
        typed(who, form, label, right)
        after = told(who, label)
        expect(fault not in after["description"] and after.get("invalid") in (None, "false"),
               f"{kind}, {label}: {right!r} is told as {after}")
    form = reader.anew("register").form("register")
    form.find_element(By.CSS_SELECTOR, "button.send").click()
    for label in ("Owner", "Purpose"):
        empty = told(reader, label)
        expect("lacking" in empty["description"] and empty.get("invalid") == "true", f"{label} is told as {empty}")
    return len(CASES)


def is_at(reader: Reader, form: Any, entry: Any, what: str) -> None:
    """After a press the focus is at this field, or at one before it that is lacking."""
    form.find_element(By.CSS_SELECTOR, "button.send").click()
    at = reader.driver.switch_to.active_element
    expect(at == entry or at.get_attribute("aria-invalid") == "true", f"{what}: the focus is not at a wrong field")


def said_in_order(reader: Reader) -> None:
    """What is foretold is said once whoever types pauses, not at each letter, and before the answer; a button that does
    nothing now says so."""
    form, line = reader.anew("register").form("register"), reader.desk.line
    reader.execute(LISTENS)
    # Each part of the name is a new one, which the page asks about.
    for letter in "ann":
        form.find_element(By.NAME, "owner").send_keys(letter)
        time.sleep(0.2)
    typed(reader, form, "Purpose", "a key that is heard of")
    reader.wait(lambda: any("Would be accepted" in text for _, text in reader.execute("return window.heard")),
                "what is foretold is not said", 5)
    line.delay = 1.5
    button = form.find_element(By.CSS_SELECTOR, "button.send")
    button.click()
    reader.wait(lambda: button.get_attribute("aria-disabled") == "true", "a shut button does not say so", 1)
    reader.accepted("register data-encryption ann - - - a key that is heard of")
    line.delay = 0.0
    said = reader.execute("return window.heard")
    foretold = [text for place, text in said if place == "heard"]
    expect(len(foretold) <= 3 and "Would be accepted" in foretold[-1] and "the name" not in "".join(foretold),
           f"while it is filled in was said {foretold}")
    expect(said[-1][0] == "said" and "Accepted." in said[-1][1], f"at last was said {said[-1]}")
    expect(not reader.find("button[aria-disabled]"), "a button is shut still")


def sending_said(reader: Reader, folder: pathlib.Path) -> None:
    """How far a table is, is said now and then, and in the end."""
    rows = rows_of("volume that is heard of", 30)
    chosen(reader, folder, *rows)
    reader.execute(LISTENS)
    reader.desk.line.delay = 0.1
    begun = time.monotonic()
    sends(reader)
    is_answered(reader, len(rows), "0 refused")
    reader.desk.line.delay = 0.0
    reader.wait(lambda: any("30 of 30" in text for _, text in reader.execute("return window.heard")), "no end is said")
    said = [text for place, text in reader.execute("return window.heard") if place == "heard"]
    expect(len(said) <= 2 + (time.monotonic() - begun) / 10, f"of {len(rows)} rows was said {said}")
    live = reader.execute("return [...document.querySelectorAll('main :is([role=status], [role=alert], [aria-live])')]"
                          ".map((part) => part.className || part.id)")
    expect(live == ["newer"], f"on the page speak {live}")
    one_each(reader, rows, {reader.user})
    put_away(reader)


def search_told(reader: Reader) -> None:
    """A number of days that is none is told at its field."""
    days = reader.anew("find").seen("input[type='number']")
    for text, is_wrong in (("99999", True), ("60", False)):
        reader.put(days, text)
        there = told(reader, "Due within days")
        is_told = "0 to 36500 days" in there["description"], there.get("invalid") == "true"
        expect(is_told == (is_wrong, is_wrong), f"{text} days are told as {there}")


def all_heard(here: Any, folder: pathlib.Path) -> str:
    """All of it."""
    ann, office = here.reader("ann"), here.reader("office")
    key = register(ann, "key-wrapping", "ann", "a key that is told", day(-9))
    count = forms_told(ann, office, key)
    axe_finds_nothing(ann, "a form that is wrong")
    axe_finds_nothing(office, "periods")
    search_told(ann)
    said_in_order(ann)
    sending_said(ann, folder)
    here.closes(ann, office)
    return f"{count} faults of fields are told, and what changes is said once"
