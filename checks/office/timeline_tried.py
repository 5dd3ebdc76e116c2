#!/usr/bin/env python3
"""Looks at what office/timeline.py draws of an export, in chromium. Each key is drawn once, with the state that
office/register_rules.py gives, and its line by the cases that the desk draws by. Every text of a key stays a text, and
nothing is loaded. At 380, 800 and 1600 wide, light and dark, nothing runs over its neighbour or past the edge, and each
row's button gives all texts and dates of its key, and the key that it replaces or that replaces it; axe finds nothing.
Printed, each row stands whole on one sheet. Ten thousand keys are sorted, filtered, and turned over by pages, and are
shown in at most TIMES the time that a thousand take.

    checks/office/timeline_tried.py

It needs chromium, chromium-driver, nodejs, python3-selenium and poppler-utils of Debian.
"""
import csv
import io
import json
import pathlib
import random
import re
import sys
from typing import Any, Iterator, Mapping

sys.path.insert(1, str(pathlib.Path(__file__).resolve().parents[1] / "shared"))
from places import TOP
from axe import violations
from browser import as_seen, as_usual, chromium, print_page
from registers import EXPORT_COLUMNS, EXPORT_DATES, export_row, new_register
from register_rules import STATES, moment_of, predecessor, state_at, text_of
from script import expect, fresh_folder, in_order, not_none, output_of, verdict
from timeline import NEVER, spans_of
from tools import exported, run_tool

SPANS, REPLACES = (TOP / "desk" / "tests" / f"{name}.json" for name in ("spans", "replaces"))
# What the rows of two keys have besides, by the last purpose.
NEXT = {"2": "key 22", "22": "key 2"}
NOW, DAY, DAYS = 1_800_000_000, 86400, 60
TEXTS = ["<script>alert(1)</script>", '"><img src=x onerror=alert(1)>', "</title></svg><b>bold", "&amp; &lt;",
         "'; //", "a\u202eb", "</script><script src=http://evil.example/x>", "url(http://evil.example)"]
# Days from now, who, under which number, and what, in which a date is a number of days behind a plus or a minus.
REQUESTS = [
    "-900 ann 1 register data-encryption bob -900 -500 -300 old", "-900 ann 2 register master eve -340 +20 +20 soon",
    "-900 ann 3 register data-encryption bob -700 -10 - overdue", "-900 ann 4 register data-encryption bob -10 - - far",
    "-900 ann 5 register master eve - - - no date", "-900 ann 6 register master eve +100 - - later",
    "-900 ann 7 register master bob -800 - - gone", "-900 ann 8 register private-transport bob -800 - - lost",
    "-900 ann 9 register master bob - - - both", "-900 ann 10 register master bob +100 - - destroyed before its dates",
    "-900 ann 11 register data-encryption bob -120 - - destroyed within its dates",
    *(f"-899 bob {key * 10 + place} add-custodian {key} {name}" for key in (7, 9, 10, 11)
      for place, name in ((1, "cat"), (2, "dan"))),
    *(f"-300 {name} {key} approve {key}" for key in (7, 9, 10) for name in ("cat", "dan")),
    *(f"-200 bob {key} destroy {key}" for key in (7, 9, 10)),
    "-100 zed 1 revoke 8 2 -150", "-100 zed 2 revoke 9 3 -", "-100 zed 3 revoke 11 2 -",
    *(f"-95 {name} 11 approve 11" for name in ("cat", "dan")), "-92 bob 11 destroy 11",
    *(f"-90 ann {20 + place} register master eve - - - {text}" for place, text in enumerate(TEXTS)),
    f"-80 ann 30 register data-encryption {'W' * 17} -70 - - {'many words, ' * 14}last",
    f"-80 ann 31 register private-authentication {'w' * 64} +90 - - {'x' * 120}",
    "-80 ann 32 register master eve +20 - - the one that is next (replaces key 2)",
]
LINES = [re.sub(r"(?<![^ ])[+-]\d+(?![^ ])", lambda days: str(NOW + int(days[0]) * DAY), text) for text in REQUESTS]
WIDTHS = (380, 800, 1600)
# How much longer ten thousand keys may take than a thousand.
TIMES = 3
TAGS = ("html head meta title style body main h1 p div span svg rect path line text defs pattern circle form label "
        "select option input button script noscript table colgroup col thead tbody tr th td")
PROBE = pathlib.Path(__file__).with_name("page_seen.js")

# A row of an export with its dates in seconds, and its state.
Row = dict[str, Any]


def drawn(export: str) -> str:
    done = run_tool("timeline", "--at", str(NOW), "--days", str(DAYS), input=export.encode())
    expect(done.returncode == 0 and not done.stderr, f"timeline: {done.stderr.decode()}")
    return done.stdout.decode()


def many(count: int) -> str:
    """An export of so many keys."""
    chance = random.Random(count)
    rows = [",".join(EXPORT_COLUMNS)]
    for place in range(1, count + 1):
        begin = NOW + chance.randrange(-1200, 300) * DAY
        activation, stop, end = (text_of(begin + DAY * more) for more in (0, 700, 1700))
        rows.append(",".join(export_row(
            number=place, type=chance.choice(["master", "data-encryption"]), owner=f"team-{place % 7}",
            activation=activation, protect_stop=stop, deactivation=end, initial="2020-01-01T00:00:00Z",
            purpose=f"key {place}")))
    return "\n".join(rows) + "\n"


def keys_of(export: str) -> Iterator[Row]:
    """The rows of an export, with the state that the rules give each at the moment, and whether it is due."""
    for row in csv.DictReader(io.StringIO(export)):
        dates = {name: moment_of(row[name]) if row[name] else None for name in EXPORT_DATES}
        moments = (dates[name] for name in ("activation", "deactivation", "destroyed", "compromised"))
        state, due = STATES[state_at(NOW, *moments)], ""
        stop = dates["protect_stop"]
        if state == "Active" and stop is not None and stop <= NOW + DAYS * DAY:
            due = "overdue" if stop <= NOW else "due"
        yield {**row, **dates, "state": state, "due": due}


def plain(text: str) -> str:
    return text.replace("\u202e", "\\u202e")


# ---- what the page has


class Browser:
    """Chromium, with a folder that has the pages."""

    def __init__(self, folder: pathlib.Path, texts: Mapping[str, str]) -> None:
        self.folder, self.driver = folder, chromium("--hide-scrollbars")
        for name, text in texts.items():
            (folder / f"{name}.html").write_text(text, encoding="utf-8")

    def open(self, name: str, fragment: str = "") -> None:
        """The page as it comes anew."""
        self.driver.get("about:blank")
        self.driver.get(f"file://{self.folder}/{name}.html{fragment}")
        console = self.driver.get_log("browser")
        expect(not console, f"chromium: {console[:3]}")

    def asked(self, question: str) -> Any:
        """What a call of the probe gives."""
        return self.driver.execute_script(f"{PROBE.read_text(encoding='utf-8')}\nreturn {question};")

    def elements(self, name: str, fragment: str = "") -> tuple[list[Any], list[Any]]:
        """The elements of the page after its script, and its rows of keys."""
        self.open(name, fragment)
        return self.asked("elements()")

    def seen(self, name: str, width: int, is_dark: bool = False, most: int = 0) -> dict[str, Any]:
        """What the probe found of the page at a width."""
        as_seen(self.driver, width, 900, is_dark)
        self.open(name)
        view = self.asked(f"view({most})")
        as_usual(self.driver)
        return view

    def printed(self, name: str) -> tuple[list[str], list[float]]:
        """The text of each sheet, and how much of each sheet, from above, has text."""
        sheets = self.folder / "printed.pdf"
        self.open(name)
        print_page(self.driver, sheets, printBackground=True, preferCSSPageSize=True)
        text, boxes = (output_of(["pdftotext", way, sheets, "-"]) for way in ("-layout", "-bbox"))
        filled = []
        for sheet in boxes.split("<page ")[1:]:
            height = float(not_none(re.search(r'height="([\d.]+)"', sheet))[1])
            filled.append(max(map(float, re.findall(r'yMax="([\d.]+)"', sheet)), default=0) / height)
        return text.split("\f")[:-1], filled


def drawn_spans(parts: list[Any]) -> Iterator[tuple[str, float, float]]:
    """The spans of a row's line, from and to so many hundredths of its width."""
    for part in parts:
        kind, number = part.get("class", ""), {name: float(text.rstrip("%")) for name, text in part.items()
                                               if name in ("x", "x1", "x2", "width") and text.endswith("%")}
        if kind == "wait":
            yield kind, number["x1"], number["x2"]
        elif kind.startswith("bar "):
            yield kind[4:], number["x"], round(number["x"] + number["width"], 3)


def looked_at(browser: Browser, name: str, export: str, page: int = 1) -> list[Row]:
    """Compares what a page of up to a thousand keys draws with the keys, and gives these."""
    elements, drawn_rows = browser.elements(name, f"#page={page}")
    rows = list(keys_of(export))[1000 * (page - 1):1000 * page]
    table = next(element for element in elements if element["tag"] == "table")
    first, last = int(table["data-first"]), int(table["data-last"])

    def x(moment: float) -> float:
        return 100 * min(max((moment - first) / (last - first), 0), 1)

    in_order([row["number"] for row in drawn_rows], [row["number"] for row in rows], name)
    for row, shown in zip(rows, drawn_rows):
        texts = {part["class"].split()[0]: part["text"] for part in shown["parts"] if part["tag"] == "td"}
        shapes = {part.get("class", "") for part in shown["parts"]}
        fill = STATES.index(row["state"]) - 1
        spans = [(kind, x(begin), x(until)) for kind, begin, until in spans_of(row)]
        # A bar is seen, however short its span is.
        is_line = all(kind == other and abs(begin - x) < .01 and abs(end - until) < .06 for
                      (kind, begin, end), (other, x, until) in zip(spans, drawn_spans(shown["parts"]), strict=True))
        for what, is_so, wanted in (
                ("is", [shown[part] for part in ("owner", "type", "state", "due")],
                 [row["owner"], row["type"], row["state"], row["due"]]),
                ("says", [texts[part] for part in ("owner", "type", "state", "purpose")],
                 [row["owner"], row["type"], row["due"] or row["state"], plain(row["purpose"])]),
                ("has marks", [part in shapes for part in ("mark compromised", "solid destroyed", "solid rotation")],
                 [row["compromised"] is not None, row["destroyed"] is not None, bool(row["due"])]),
                ("is filled as", {(part["fill"], part["stroke"]) for part in shown["parts"] if part["tag"] == "rect"},
                 {(f"url(#s{fill})", f"var(--s{fill})") for kind, *_ in spans if kind != "wait"}),
                (f"has the line {list(drawn_spans(shown['parts']))} of {spans}:", is_line, True)):
            expect(is_so == wanted, f"key {row['number']} {what} {is_so}, not {wanted}")
    return rows


def loads_nothing(elements: list[Any]) -> None:
    """No text of a key became an element, and the page's policy lets its own style and script alone act: of what it
    refuses Chromium's console would tell."""
    tags = {element["tag"] for element in elements}
    expect(tags <= set(TAGS.split()), f"the page has {tags - set(TAGS.split())}")
    policy = next(element["content"] for element in elements if element.get("http-equiv"))
    expect(re.fullmatch(r"default-src 'none'; style-src 'sha256-[^' ]+'; script-src 'sha256-[^' ]+'", policy),
           f"the policy is {policy}")


def turned_over(browser: Browser, small: list[Row]) -> None:
    """The page filters, sorts and turns over."""
    cases = [("thousand", "", "1 to 1000 of 1000 keys", [1, 2]),
             ("ten", "#page=10", "9001 to 10000 of 10000 keys", [9001]),
             ("ten", "#owner=team-3", "1 to 1000 of 1429 keys", [3, 10]),
             ("ten", "#owner=team-3&sort=owner&page=2", "1001 to 1429 of 1429 keys", [7003]),
             ("small", "#due=1&sort=stop", "1 to 2 of 2 keys", [3, 2])]
    for state in STATES[1:]:
        numbers = [int(row["number"]) for row in small if row["state"] == state]
        expect(numbers, f"no key is {state}")
        cases.append(("small", f"#state={state}", f"1 to {len(numbers)} of {len(numbers)} keys", numbers))
    for name, fragment, wanted, first in cases:
        elements, rows = browser.elements(name, fragment)
        count = next(element["text"] for element in elements if element.get("id") == "count")
        numbers = [int(row["number"]) for row in rows][:len(first)]
        expect((count, numbers) == (wanted, first), f"{name}{fragment}: {count}, {numbers}, not {wanted}, {first}")


# ---- what is seen


def layout_faults(view: Mapping[str, Any], rows: list[Row], width: int, is_dark: bool) -> Iterator[str]:
    """What a person would not see or reach at a width, of what the probe found."""
    names = ["key", "owner", "type", "state", "purpose", "years"]
    heads = [name for name in names if not (name == "purpose" and width <= 1150 or name == "type" and width <= 640)]
    paper = [int(part) for part in re.findall(r"\d+", view["paper"])][:3]
    for name, value, wanted in (
            ("wider", view["wider"], 0), ("over", view["over"], []), ("heads", view["heads"], heads),
            ("lines of the page links", view["lines"], 1), ("the count", view["live"], "status"),
            ("page links", [view["pages"][0], view["pages"][2]], ["previous", "next"]),
            ("columns below their heads", view["below"], view["above"]), ("width", view["width"], width),
            ("rows", len(view["reached"]), len(rows)), (f"dark paper {paper}", sum(paper) < 200, is_dark)):
        if value != wanted:
            yield f"{width} wide: {name}: {value}, not {wanted}"
    for row, (is_reached, texts) in zip(rows, view["reached"]):
        state = ", ".join(filter(None, (row["state"], row["due"])))
        dates = [text_of(row[name]) for name in EXPORT_DATES if row[name] is not None]
        wanted = [row["number"], plain(row["owner"]), row["type"], state, plain(row["purpose"]), *dates]
        wanted += filter(None, [NEXT.get(row["number"])])
        if not is_reached or sorted(texts) != sorted(wanted):
            yield f"{width} wide: key {row['number']}: its button gives {texts}"


def light(colour: str) -> float:
    """The relative luminance of WCAG 2.1."""
    parts = [int(part, 16) / 255 for part in re.findall("..", colour.lstrip("#").ljust(6, colour[-1]))]
    return sum(share * (part / 12.92 if part <= 0.03928 else ((part + 0.055) / 1.055) ** 2.4)
               for share, part in zip((0.2126, 0.7152, 0.0722), parts))


def contrast_faults(text: str) -> Iterator[str]:
    """Colours that do not stand out from the paper: 3 to 1 for what is drawn, 7 to 1 for texts."""
    for name, block in zip(("light", "dark"), re.findall(r":root\{([^}]*--paper[^}]*)\}", text), strict=True):
        colours = dict(re.findall(r"--(\w+):(#\w+)", block))
        for which, colour in colours.items():
            least = 7 if which == "ink" else 3 if re.match(r"s\d|edge", which) else 1
            low, high = sorted((light(colour), light(colours["paper"])))
            if (high + 0.05) / (low + 0.05) < least:
                yield f"{name}: {which} {colour} has {(high + 0.05) / (low + 0.05):.2f}, not {least}, to 1"


# What one acts on that is smaller than WCAG 2.2 (2.5.8) wants it, though nothing else may be near.
SMALL = """return [...document.querySelectorAll("button, select, input")].filter((one) => {
  const {width, height} = one.getBoundingClientRect(); return width > 0 && Math.min(width, height) < 24; })
  .map((one) => one.outerHTML.slice(0, 80));"""


def axe_faults(browser: Browser, name: str) -> Iterator[str]:
    """What axe finds in the page with a row opened, light, dark and narrow, and small targets."""
    for width, is_dark in ((1200, False), (1200, True), (320, False)):
        as_seen(browser.driver, width, 900, is_dark)
        browser.open(name)
        browser.driver.execute_script("document.querySelector('td.number button').click()")
        yield from (f"{width} wide{', dark' * is_dark}: axe: {found}" for found in violations(browser.driver))
        yield from (f"{width} wide: small is {one}" for one in browser.driver.execute_script(SMALL))
    as_usual(browser.driver)


def print_faults(sheets: list[str], filled: list[float], count: int) -> Iterator[str]:
    """What is missing or cut on the sheets of a printed page of so many keys `key N`."""
    rows = [int(row) for sheet in sheets for row in re.findall(r"(?m)^\s*(\d+) .*\bkey \1\b", sheet)]
    if rows != list(range(1, count + 1)):
        yield f"printed: {len(rows)} whole rows, the first {rows[:2]}"
    for place, (sheet, part) in enumerate(zip(sheets, filled), 1):
        axis = next((line for line in sheet.split("\n") if "owner" in line and "purpose" in line), "")
        if len(re.findall(r"\b20\d\d\b", axis)) < 3:
            yield f"printed: sheet {place} has the axis {axis.split()}"
        if part > 0.955:
            yield f"printed: a row of sheet {place} reaches to {part:.3f} of its height"


def main() -> None:
    for case in json.loads(SPANS.read_text(encoding="utf-8")):
        spans = [[kind, first, None if until == NEVER else until] for kind, first, until in spans_of(case["key"])]
        expect(spans == case["spans"], f"{case['case']}: {spans}, not {case['spans']}")
    for case in json.loads(REPLACES.read_text(encoding="utf-8")):
        named = predecessor(case["number"], case["purpose"])
        expect(named == case["replaces"], f"{case} replaces {named}")
    with fresh_folder() as folder:
        replies = new_register(folder / "office.keyreg", LINES)
        expect(all(reply.startswith("ok ") for reply in replies), f"{replies}")
        small, large = exported(folder / "office.keyreg"), many(10_000)
        texts = {"small": drawn(small), "thousand": drawn(many(1000)), "ten": drawn(large)}
        browser = Browser(folder, texts)
        rows = looked_at(browser, "small", small)
        loads_nothing(browser.elements("small")[0])
        looked_at(browser, "ten", large, page=2)
        turned_over(browser, rows)
        faults = list(contrast_faults(texts["small"]))
        for width in WIDTHS:
            for is_dark in (False, True):
                faults += layout_faults(browser.seen("small", width, is_dark), rows, width, is_dark)
        faults += axe_faults(browser, "small")
        sheets, filled = browser.printed("thousand")
        faults += print_faults(sheets, filled, 1000)
        expect(not faults, "\n".join(faults[:12]))
        few, laid = (min(browser.seen(name, 1600, most=1)["laid"] for _ in range(3)) / 1000
                     for name in ("thousand", "ten"))
        expect(laid <= TIMES * few, f"10000 keys are shown after {laid:.2f} seconds, 1000 after {few:.2f}")
        browser.driver.quit()
    verdict(f"{len(rows)} keys of all states at {len(WIDTHS)} widths, and 1000 keys on {len(sheets)} sheets; 10000 "
            f"keys are shown after {laid:.2f} seconds, 1000 after {few:.2f}")


main()
