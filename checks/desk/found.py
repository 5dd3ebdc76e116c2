"""What is found: sorted by each column, by a custodian, as one's own; given away as a file whose rows are those of an
export; and printed whole."""
import pathlib
import re
from typing import Any, Callable

from browser import print_page
from day import day, register
from parts import Reader
from register_rules import Key, Register, request_of
from registers import run_program
from script import expect, in_order, output_of
from tables import chosen, put_away
from windows import is_answered, one_each, rows_of, sends

# What a spreadsheet would take for a formula, what CSV quotes, and letters of two cases.
PURPOSES = ["=1+1", "@SUM(A1)", 'disks, "hall 3"', "Zebra", "apple", "+49", "-1", "Apple"]
# By each column the value that a key has there; none comes last.
Value = Callable[[int, Key, int], Any]
COLUMNS: dict[str, Value] = {
    "Key": lambda number, key, now: number,
    "State": lambda number, key, now: key.state(now),
    "Owner": lambda number, key, now: key.owner.lower(),
    "Type": lambda number, key, now: key.kind,
    "Protect Stop": lambda number, key, now: key.stop,
    "Approvals": lambda number, key, now: len(key.approvals) if key.custodians else None,
    "Purpose": lambda number, key, now: key.purpose.lower(),
}


def rules_of(reader: Reader) -> Register:
    """The register by the rules; its latest moment is now, since it was just brought there."""
    rules = Register()
    for caller, number, command, moment in reader.desk.requests():
        rules.answer(request_of(f"{moment} {caller} {number} {command}"))
    return rules


def in_turn(rules: Register, column: str, is_down: bool) -> list[int]:
    """The numbers of the keys in the order of a column."""
    values = {number: COLUMNS[column](number, key, rules.latest) for number, key in rules.keys.items()}
    there = sorted(number for number, value in values.items() if value is not None)
    # Those that are alike stay by their numbers.
    there.sort(key=lambda number: values[number], reverse=is_down)
    return there + sorted(number for number, value in values.items() if value is None)


def rows(reader: Reader) -> list[int]:
    return [int(cell) for cell in reader.execute(
        "return [...document.querySelectorAll('.sorted tbody td:first-child')].map((cell) => cell.innerText)")]


def is_sorted(reader: Reader, rules: Register) -> None:
    """By a press at a column's head, and by the field, either way round."""
    reader.anew("find")
    for column in COLUMNS:
        for is_down in (False, True):
            if column == "Owner":
                form = reader.seen("form.find")
                reader.fill(form, "Sorted by", "owner")
                box = form.find_element("xpath", ".//label[.='The last first']/../input")
                if box.is_selected() != is_down:
                    box.click()
            else:
                reader.seen(".sorted th", lambda head: head.text == column).click()
            wanted, order = in_turn(rules, column, is_down)[:50], "descending" if is_down else "ascending"
            reader.wait(lambda: rows(reader) == wanted, f"by {column}, {order}, they are not {wanted}", 3)
            heads = {head.text: head.get_attribute("aria-sort") for head in reader.find(".sorted th[aria-sort]")}
            expect(heads == {column: order}, f"sorted are {heads}")


def lines_of(file: bytes) -> list[str]:
    return file.decode().removesuffix("\n").split("\n")


def taken_away(reader: Reader, folder: pathlib.Path, words: str) -> list[str]:
    """The lines of the file of what these words of an address find."""
    reader.driver.execute_cdp_cmd("Browser.setDownloadBehavior", {"behavior": "allow", "downloadPath": str(folder)})
    place = folder / "keys.csv"
    place.unlink(missing_ok=True)
    reader.anew(f"find?{words}")
    reader.seen("p.buttons button", lambda button: "as CSV" in button.text).click()
    reader.wait(place.exists, f"no file comes of {words}")
    return lines_of(place.read_bytes())


def files(reader: Reader, folder: pathlib.Path, rules: Register) -> int:
    """Files of what is found have the rows of `keyreg export`, and the page says what a spreadsheet would run."""
    head, *exported = lines_of(run_program(["export", "--file", reader.desk.copy()]).stdout)
    by_number = {int(line.split(",")[0]): line for line in exported}
    asked: dict[str, list[int]] = {
        "": [*by_number],
        "mine=1": [number for number, key in rules.keys.items() if key.owner == reader.user],
        "custodian=CA": [number for number, key in rules.keys.items() if any("ca" in one for one in key.custodians)],
        "sort=purpose&down=1": in_turn(rules, "Purpose", True),
    }
    for words, numbers in asked.items():
        expect(0 < len(numbers), f"{words} finds nothing")
        lines = taken_away(reader, folder, words)
        in_order(lines, [head, *(by_number[number] for number in numbers)], f"the file of {words}")
        run = sum(rules.keys[number].purpose[0] in "=+-@" for number in numbers)
        reader.says(f"The purpose of {run} key" if run else "as CSV")
    return len(by_number)


def printed(reader: Reader, folder: pathlib.Path, count: int) -> None:
    """Of more keys than a page shows the sheets have all, and the page is as it was after it."""
    reader.anew("find")
    before = rows(reader)
    expect(len(before) == 50 < count, f"of {count} keys {len(before)} are shown")
    print_page(reader.driver, folder / "found.pdf", paperWidth=8.27, paperHeight=11.69)
    text, boxes = (output_of(["pdftotext", way, folder / "found.pdf", "-"]) for way in ("-layout", "-bbox"))
    # A sheet of A4 is 595 points wide.
    right = max(map(float, re.findall(r'xMax="([\d.]+)"', boxes)))
    expect(500 < right < 575, f"what is printed reaches to {right} of 595 points")
    sheets = text.count("\f")
    expect(sheets <= 2 + count // 15, f"{count} keys take {sheets} sheets")
    numbers = [int(number) for number in re.findall(r"(?m)^[ \f]*(?:Key: )?(\d+)\b", text)]
    missing = set(range(1, count + 1)) - set(numbers)
    expect(not missing, f"of {count} keys the sheets lack {sorted(missing)[:9]}")
    reader.wait(lambda: rows(reader) == before, "after the print the page has other rows", 3)


def all_found(ann: Reader, bob: Reader, folder: pathlib.Path) -> str:
    """All of it, over keys of two owners, more than a page shows."""
    for place, purpose in enumerate(PURPOSES):
        # Of a type of their own: a row of a table may have been a formula.
        register(ann, "private-transport", ("bob", "ann")[place % 3 % 2], purpose, *[day(place)] * (place % 2))
    key = register(bob, "key-wrapping", "bob", "wrapping keys")
    bob.adds(key, "cat", "ann")
    ann.key(key).does(f"approve {key}")
    table = rows_of("volume that is found", 50)
    chosen(ann, folder, *table)
    sends(ann)
    is_answered(ann, len(table), "0 refused")
    one_each(ann, table, {"ann"})
    put_away(ann)
    rules = rules_of(ann)
    is_sorted(ann.with_list(), rules)
    count = files(ann, folder, rules)
    printed(ann, folder, count)
    return f"{count} keys are sorted by {len(COLUMNS)} columns either way, given away as rows of an export, and printed"

