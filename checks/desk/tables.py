"""A table is taken once: its rows are judged, sent, stopped and gone on with; rows that are keys already are known; all
rows and reasons are reached; and a long table is sent as fast at its end as at its beginning."""
import csv
import pathlib
import re
import time
from typing import Callable

from day import day, second
from parts import By, Reader
from registers import IMPORT_COLUMNS
from script import expect

HEAD = ",".join(IMPORT_COLUMNS)
SORTS = ("would be accepted", "refused", "of another form", "there already", "repeated", "changed by a spreadsheet")


def chosen(reader: Reader, folder: pathlib.Path, *rows: str, words: str = "judged before", head: str = HEAD) -> None:
    """A table's file is chosen on its page, which then has these words."""
    (folder / "keys.csv").write_text("\n".join([head, *rows, ""]), encoding="utf-8")
    reader.anew("table").seen("input[type='file']").send_keys(str(folder / "keys.csv"))
    reader.says(words, patience=60)


def judged(reader: Reader, *counts: int) -> None:
    """So many rows of each sort are shown."""
    rows, sorts = sum(counts), ", ".join(f"{count} {sort}" for count, sort in zip(counts, SORTS))
    reader.says(f"{rows} row{'s' * (rows != 1)}, judged before they are sent: {sorts}", patience=60)


def put_away(reader: Reader) -> None:
    reader.press("Put the table away")
    reader.seen("input[type='file']")

# Rows that the page does not send by itself, the last but one of them for its dates alone.
BAD = ["master,ann,2026-02-01,,,a day without its time", "Master,ann,,,,no such type", "master,a b,,,,no name",
       'master,<img src=x onerror="document.title=1">,,,,markup in an owner', "master,ann,,,," + "x" * 1000,
       "master,ann,,,,#NAME?", "master,ann,2027-01-01T00:00:00Z,2026-01-01T00:00:00Z,,in another order",
       "master,ann,,,"]
REASONS = ["it is row 1 again", "changed by a spreadsheet", "refused", *["of another form"] * 6]
# Whether the page asks before it is left.
LEAVES = """const event = new Event("beforeunload", {cancelable: true});
dispatchEvent(event);
return event.defaultPrevented;"""


def taken_in(reader: Reader, folder: pathlib.Path, good: int = 40) -> None:
    """A table is judged row by row, sent, stopped, gone on with after a reload, and its other rows are given back. The
    page asks before it is left where the table is half sent. The same file is known then."""
    chosen(reader, folder, head="a,b", words="header row is a,b")
    rows = [f'authentication,ann,2026-01-31T23:30:00Z,,,"row {place}, ""quoted"""' for place in range(good)]
    rows = [*rows[:3], *BAD[:4], "", *rows[3:], *BAD[4:], rows[0]]
    chosen(reader, folder, *rows)
    judged(reader, good, 1, 6, 0, 1, 1)
    # A row that the page would not send is sent all the same where the reader wants it.
    order = next(row for row in reader.find("table.rows tbody tr") if "another order" in row.text)
    order.find_element(By.TAG_NAME, "input").click()
    expect(not reader.execute(LEAVES), "the page asks before a row is sent")
    reader.desk.line.delay = 0.2
    reader.press(f"Send {good + 1} rows")
    reader.wait(lambda: not reader.text(".progress .count").startswith("0 "), "no row is answered")
    reader.press("Stop")
    reader.says("Go on", ".buttons")
    reader.desk.line.delay = 0.0
    count = len(reader.find("table.rows tr.accepted"))
    expect(0 < count < good and reader.execute(LEAVES), f"{count} rows are sent, or the page does not ask")
    reader.reload()
    reader.press("Go on")
    reader.says(f"{good + 1} of {good + 1} rows answered: {good} accepted, 1 refused", patience=60)
    expect(not reader.execute(LEAVES), "the page asks when all is sent")
    accepted = len(reader.find("table.rows tr.accepted"))
    expect(accepted == good, f"{accepted} rows are shown as accepted, and {good} should be")
    activation = second("2026-01-31T23:30:00")
    reader.said += [(reader.user, None, f'register authentication ann {activation} - - row {place}, "quoted"')
                    for place in range(good)]
    back = folder / "not-registered-keys.csv"
    reader.driver.execute_cdp_cmd("Browser.setDownloadBehavior", {"behavior": "allow", "downloadPath": str(folder)})
    reader.seen("a.button").click()
    reader.wait(lambda: back.exists() and back.stat().st_size, "nothing is given back")
    time.sleep(0.3)
    head, *given = csv.reader(back.read_text("utf-8").splitlines())
    wanted = [row + [""] * (6 - len(row)) for row in csv.reader([*BAD, rows[0]])]
    expect(",".join(head) == f"{HEAD},reason" and sorted(row[:6] for row in given) == sorted(wanted),
           f"given back were {head}, {given}")
    reasons = [re.split("[:,]", row[6])[0] for row in given]
    expect(sorted(reasons) == sorted(REASONS), f"the reasons are {reasons}")
    put_away(reader)
    begins: tuple[Callable[[], object], ...] = (lambda: None, reader.reload, reader.with_list)
    for begin in begins:
        begin()
        chosen(reader, folder, *rows)
        judged(reader, 0, 1, 6, good + 1, 0, 1)
        expect(not reader.find(".rows input:checked"), "a row that is a key is marked to be sent")
        put_away(reader)


def rows_shown(reader: Reader, which: str, holds: Callable[[list[str]], bool]) -> None:
    """Shows the rows of one sort alone, whose numbers are as they should be."""
    reader.fill(reader.seen("main"), "Rows shown", which)
    reader.wait(lambda: holds([row.text for row in reader.find("table.rows tbody th")]), f"not the rows {which}")


def all_reached(reader: Reader, folder: pathlib.Path) -> None:
    """Of 300 rows the 250th, which is refused, and the 260th, which is mistyped, come first; all others by more; and
    those of one sort are sent, or not, together."""
    rows = [f"master,ann,,,,row {place}" for place in range(1, 301)]
    rows[249] = f"master,ann,{day(9)}Z,{day(5)}Z,,row 250"
    rows[259] = "Master,ann,,,,row 260"
    chosen(reader, folder, *rows)
    judged(reader, 298, 1, 1, 0, 0, 0)
    first = [row.text for row in reader.find("table.rows tbody th")]
    expect(first[:2] == ["250", "260"] and len(first) == 200, f"the first rows are {first[:5]} of {len(first)}")
    reader.seen("button.more").click()
    expect(len(reader.find("table.rows tbody tr")) == 300, "not all rows are reached")
    place = reader.execute("return document.activeElement.closest('tr')?.querySelector('th')?.textContent")
    expect(place == "199", f"the focus is at row {place}, and the first that came is 199")
    rows_shown(reader, "wrong", lambda rows: rows == ["260"])
    expect("Master, which is none of the seven" in reader.text("table.rows"), reader.text("table.rows"))
    rows_shown(reader, "refused", lambda rows: rows == ["250"])
    reader.press("Send these 1")
    rows_shown(reader, "good", lambda rows: len(rows) == 200)
    reader.press("Leave these out")
    reader.press("Send 1 row")
    reader.says("1 of 1 rows answered", ".progress", 60)
    put_away(reader)


FILLS = """let text = "x".repeat(1 << 20);
for (let place = 0; text.length; place++) {
  try { sessionStorage.setItem(`full.${place}`, text); } catch { text = text.slice(0, text.length / 2 | 0); }
}"""


def full_store(reader: Reader, folder: pathlib.Path) -> None:
    """A full store of the window is said, of a table and of a form, and nothing is sent."""
    before = len(reader.desk.line.posts)
    chosen(reader, folder, "master,ann,,,,into a full store")
    reader.execute(FILLS)
    reader.forget()
    reader.seen(".buttons button.send").click()
    reader.says("store for this window is full", "#said")
    fields = [("Type", "master"), ("Owner", "ann"), ("Purpose", "into a full store")]
    reader.open("register").submit("register", fields)
    reader.says("store for this window is full", "#said")
    expect(len(reader.desk.line.posts) == before, "a request was sent without its number being kept")
    reader.reload(forgets=True)


def long_table(reader: Reader, folder: pathlib.Path, count: int) -> str:
    """Rows a second at the beginning and at the end of a long table. Each row is one exchange."""
    purposes = [f"disks of the long table {place} in hall {place % 97}" for place in range(count)]
    chosen(reader, folder, *(f"data-encryption,ann,{day(-5)}Z,,,{purpose}" for purpose in purposes))
    judged(reader, count, 0, 0, 0, 0, 0)
    line, rates = reader.desk.line, []
    before, keys_asked = len(line.posts), line.keys_asked
    reader.seen(".buttons button.send").click()
    for part in range(1, 5):
        begun, first = time.monotonic(), len(line.posts)
        reader.wait(lambda: len(line.posts) - before >= count * part // 4, "the rows are not sent", count)
        rates.append((len(line.posts) - first) / (time.monotonic() - begun))
    reader.says(f"{count} of {count} rows answered: {count} accepted", ".progress", 60)
    exchanges = len(line.posts) - before + line.keys_asked - keys_asked
    # One asks beforehand for a key behind the last that is known, and pages of others ask now and then.
    expect(count < exchanges <= count + 20, f"{count} rows took {exchanges} exchanges")
    expect(rates[-1] >= rates[0] / 2, f"rows a second by quarters: {rates}")
    reader.said += [(reader.user, None, f"register data-encryption ann {second(day(-5))} - - {purpose}")
                    for purpose in purposes]
    put_away(reader)
    plain, packed = reader.with_list().execute(
        "const given = performance.getEntriesByType('resource').find((one) => one.name.endsWith('list.json'));"
        "return [given.decodedBodySize, given.encodedBodySize];")
    expect(plain <= 400 * count and packed <= 80 * count, f"a list of {count} keys: {plain} bytes, {packed} packed")
    return f"{count} rows were sent at {rates[0]:.0f} a second at first and {rates[-1]:.0f} at the end"


def all_taken(reader: Reader, folder: pathlib.Path, count: int) -> str:
    """All of it; what is said of the long table."""
    taken_in(reader, folder)
    all_reached(reader, folder)
    full_store(reader, folder)
    return long_table(reader, folder, count)
