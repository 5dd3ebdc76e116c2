#!/usr/bin/env python3
"""Draws the keys of an export as one page of HTML: a row for each key, with its line over time.

    keyreg export --file copy.keyreg | office/timeline.py [--at SECONDS] [--days N] > keys.html

The page stands alone: it loads nothing, and its own script draws the rows, sorts and filters them by owner, type and
state, and turns the pages of 1000 keys. A key's bar is high from its Activation to its Protect Stop Date, where it may
protect data, and low from there to its Deactivation Date. A compromise ends the high part, a destruction the line. A
state has a colour and a pattern, so that it is seen in grey too. Marked are the moments of a compromise and a
destruction, and what is due within so many days. A row that is clicked, touched, or opened by its button from the
keyboard, has all texts and dates of its key, and which key it replaces by the end of its purpose. Printed, the axis
stands on each sheet, and no row is cut.

--at    the moment of the states and of the line of today, in seconds since 1970; else the clock's. The states of the
        export itself are those of the latest accepted moment.
--days  so many days ahead a Protect Stop Date is due; else 60

Years more than ten before or after the moment are cut off: a bar that goes on there has an arrow. register_rules.py,
timeline.css and timeline.js have to stand beside it.
"""
import argparse
import base64
import csv
import hashlib
import io
import json
import pathlib
import sys
import time
from datetime import datetime, timedelta
from html import escape
from typing import Any, Iterable, Iterator, Sequence

from register_rules import EPOCH, STATES as NAMES, moment_of, predecessor, shown, state_at, text_of

# The columns that are drawn: the dates, and all.
DATES = ("initial", "activation", "protect_stop", "deactivation", "occurrence", "compromised", "destroyed")
COLUMNS = ("number", "type", "owner", *DATES, "purpose")
DAY, YEARS_SHOWN, PAGE = 86400, 10, 1000
# The states with the lines of their patterns; timeline.css has their colours.
STATES = {
    "Pre-Active": '<circle cx="4" cy="4" r="1.3" fill="{0}"/>',
    "Active": '<rect width="8" height="8" fill="{0}"/>',
    "Deactivated": '<path d="M-1 1l2-2M0 8l8-8M7 9l2-2" stroke="{0}" stroke-width="2.4"/>',
    "Compromised": '<path d="M0 0l8 8M0 8l8-8" stroke="{0}" stroke-width="1.8"/>',
    "Destroyed": '<path d="M2 0v8M6 0v8" stroke="{0}" stroke-width="1.4"/>',
    "Destroyed-Compromised": '<path d="M0 2h8M0 6h8M4 0v8" stroke="{0}" stroke-width="1.4"/>',
}
STYLE, SCRIPT = (pathlib.Path(__file__).with_suffix(end).read_text(encoding="utf-8") for end in (".css", ".js"))


def keys_of(text: str) -> Iterator[dict[str, Any]]:
    table = csv.DictReader(io.StringIO(text, newline=""))
    missing = [name for name in COLUMNS if name not in (table.fieldnames or [])]
    if missing:
        sys.exit(f"timeline: the input is no export of keyreg: it has no column {', '.join(missing)}")
    for row in table:
        yield {**row, **{name: moment_of(row[name]) if row[name] else None for name in DATES}}


class Scale:
    """Where a moment stands in the picture, in hundredths of its width."""

    def __init__(self, keys: Sequence[dict[str, Any]], moment: int) -> None:
        dates = [key[name] for key in keys for name in DATES if key[name] is not None] + [moment]
        far = YEARS_SHOWN * 366 * DAY
        years = [(EPOCH + timedelta(seconds=date)).year
                 for date in (max(min(dates), moment - far, 0), min(max(dates), moment + far, 253370764800))]
        self.years = range(years[0], years[1] + 2)
        self.first, self.last = (self.begin(year) for year in (self.years[0], self.years[-1]))

    @staticmethod
    def begin(year: int) -> int:
        return round((datetime(min(year, 9999), 1, 1) - EPOCH).total_seconds())

    def x(self, moment: float) -> float:
        part = (moment - self.first) / (self.last - self.first)
        return round(100 * min(max(part, 0), 1), 3)

    def places(self) -> list[tuple[int, float]]:
        """The years that have a line, each with its place."""
        return [(year, self.x(self.begin(year))) for year in self.years[:-1][::1 + len(self.years) // 14]]

    def years_drawn(self) -> Iterator[str]:
        """The axis: of narrow pages each second or fourth year alone."""
        for place, (year, x) in enumerate(self.places()):
            fewer = " odd" if place % 2 else " half" if place % 4 else ""
            # At the edge there is no room for one.
            yield f'<text class="year{fewer}" x="{x}%" dx="3" y="16">{year}</text>' if x < 94 else ""


NEVER = float("inf")


def spans_of(key: dict[str, Any]) -> list[tuple[str, float, float]]:
    """The spans of a key's line: where it waits for its Activation, where it may protect data, and where it may only
    process what is protected. A compromise ends the second, a destruction the line. One that ends with no date ends at
    NEVER. The desk (desk/rules.js) draws by the same rule."""
    begin, stop, end, destroyed, compromised = (NEVER if key[name] is None else key[name] for name in (
        "activation", "protect_stop", "deactivation", "destroyed", "compromised"))
    last = min(end, destroyed)
    turn = min(max(begin, min(stop, compromised)), last)
    spans = [("wait", key["initial"], min(begin, destroyed, compromised))]
    if begin < NEVER:
        spans += [("protect", begin, turn), ("process", turn, last)]
    return [(kind, first, until) for kind, first, until in spans if first < until]


def marks_of(key: dict[str, Any], spans: Sequence[tuple[str, float, float]], due: str,
             scale: Scale) -> Iterator[tuple[Any, ...]]:
    """What happened to a key, and what is due: shapes that differ without a colour. A line that goes on beyond the
    picture has an arrow."""
    bars = [(first, until) for kind, first, until in spans if kind != "wait"]
    if bars and scale.last < bars[-1][1]:
        yield ">", 100
    if bars and bars[0][0] < scale.first < bars[-1][1]:
        yield "<", 0
    if key["compromised"] is not None:
        yield "c", scale.x(key["compromised"]), scale.x(key["occurrence"])
    if key["destroyed"] is not None:
        yield "d", scale.x(key["destroyed"])
    if due:
        yield "r", scale.x(key["protect_stop"])


def row_of(key: dict[str, Any], moment: int, days: int, scale: Scale) -> list[Any]:
    """What the script draws of a key."""
    stop, due, spans = key["protect_stop"], "", spans_of(key)
    state = NAMES[state_at(moment, *(key[name] for name in ("activation", "deactivation", "destroyed", "compromised")))]
    if state == "Active" and stop is not None and stop <= moment + days * DAY:
        due = "overdue" if stop <= moment else "due"
    return [int(key["number"]), shown(key["owner"]), key["type"], list(STATES).index(state), due, shown(key["purpose"]),
            [key[name] for name in DATES],
            [(kind, scale.x(first), scale.x(min(until, scale.last))) for kind, first, until in spans],
            list(marks_of(key, spans, due, scale)), predecessor(int(key["number"]), key["purpose"])]


def choice(name: str, label: str, values: Iterable[tuple[str, str]]) -> str:
    options = "".join(f'<option value="{escape(value)}">{escape(text)}</option>' for value, text in values)
    return f'<label>{label} <select name="{name}">{options}</select></label>'


def legend() -> Iterator[str]:
    for place, state in enumerate(STATES):
        yield (f'<span><svg viewBox="0 0 34 14"><rect x="1" y="1" width="32" height="12" fill="url(#s{place})" '
               f'stroke="var(--s{place})"/></svg> {state}</span>')
    for drawn, name in (('<path class="mark" d="M12 2l10 10M12 12l10-10"/>', "compromise, from its occurrence on"),
                        ('<rect class="solid" x="12" y="2" width="10" height="10"/>', "destruction"),
                        ('<path class="solid" d="M11 2h12l-6 9z"/>', "due or overdue"),
                        ('<path class="today" d="M17 0v14"/>', "the moment"),
                        ('<path class="wait" d="M0 7h34"/>', "not yet Active")):
        yield f'<span><svg viewBox="0 0 34 14">{drawn}</svg> {name}</span>'


def form_of(keys: Sequence[dict[str, Any]]) -> str:
    owners = sorted({shown(key["owner"]) for key in keys})
    types = sorted({key["type"] for key in keys})
    pairs = [[("", "all"), *((value, value) for value in values)] for values in (owners, types, STATES)]
    sorts = [*((name, name) for name in ("number", "owner", "type", "state")), ("stop", "Protect Stop Date")]
    return f"""<form>{"".join(choice(name, name, values) for name, values in zip(("owner", "type", "state"), pairs))}
<label><input type="checkbox" name="due"> due alone</label>{choice("sort", "sort by", sorts)}
<span class="pages"><button type="button" name="previous">previous</button> <span id="count" role="status"></span>
<button type="button" name="next">next</button></span></form>"""


def page_of(keys: Sequence[dict[str, Any]], moment: int, days: int) -> Iterator[str]:
    scale = Scale(keys, moment)
    patterns = "".join(f'<pattern id="s{place}" width="8" height="8" patternUnits="userSpaceOnUse">'
                       f'<rect width="8" height="8" fill="var(--paper)"/>{drawn.format(f"var(--s{place})")}</pattern>'
                       for place, drawn in enumerate(STATES.values()))
    hashes = [base64.b64encode(hashlib.sha256(text.encode()).digest()).decode() for text in (STYLE, SCRIPT)]
    columns = ("number", "owner", "type", "state", "purpose", "time")
    heads = "".join(f'<th scope="col" class="{name}">{"key" if name == "number" else name}</th>'
                    for name in columns[:-1])
    data = {"states": list(STATES), "dates": DATES, "today": scale.x(moment), "years": [x for _, x in scale.places()],
            "keys": {"columns": ["number", "owner", "type", "state", "due", "purpose", "dates", "lines", "marks",
                                 "replaces"],
                     "rows": [row_of(key, moment, days, scale) for key in keys]}}
    # In a script's element only `<` could end the text.
    text = json.dumps(data, ensure_ascii=False, separators=(",", ":")).replace("<", "\\u003c")
    yield f"""<!DOCTYPE html>
<html lang="en"><head><meta charset="utf-8"><title>Keys at {text_of(moment)}</title>
<meta http-equiv="Content-Security-Policy"
 content="default-src 'none'; style-src 'sha256-{hashes[0]}'; script-src 'sha256-{hashes[1]}'">
<meta name="viewport" content="width=device-width"><style>{STYLE}</style></head><body><main>
<h1>Keys at {text_of(moment)}</h1>
<p>{len(keys)} keys. States are those of this moment by the dates of the export. Due: Active, and its Protect Stop
Date is within {days} days. A bar is high while the key may protect data, and low while it may only process what is
protected. A key's number opens all of its texts and dates.</p>
<noscript><p>The rows are drawn by this page's own script, which this browser does not run.</p></noscript>
<div class="legend">{"".join(legend())}</div>
{form_of(keys)}
<svg class="defs" aria-hidden="true"><defs>{patterns}</defs></svg>
<table data-page="{PAGE}" data-first="{scale.first}" data-last="{scale.last}">
<colgroup>{"".join(f'<col class="{name}">' for name in columns)}</colgroup>
<thead><tr>{heads}<th scope="col" class="time" aria-label="years"><span class="unseen">years</span>
<svg aria-hidden="true">{"".join(scale.years_drawn())}</svg></th></tr></thead><tbody></tbody></table></main>
<script type="application/json" id="data">{text}</script><script>{SCRIPT}</script></body></html>
"""


def main() -> None:
    parser = argparse.ArgumentParser(description="Draws the keys of an export as one page of HTML.")
    parser.add_argument("--at", type=int, default=int(time.time()), metavar="SECONDS")
    parser.add_argument("--days", type=int, default=60)
    words = parser.parse_args()
    keys = list(keys_of(sys.stdin.buffer.read().decode("utf-8")))
    for piece in page_of(keys, words.at, words.days):
        sys.stdout.buffer.write(piece.encode())


if __name__ == "__main__":
    main()
