#!/usr/bin/env python3
"""The picture of the costs, docs/costs.svg, drawn from the tables of docs/COSTS.md.

    bench/costs_svg.py

Panels of bars: requests, whole commands and exchanges, by `keyreg`, the bare engine and Python side by side, as far as
each was measured. checks/sources/documents.py tells where the picture is not the one of these tables.
"""
import itertools
import pathlib
from xml.sax.saxutils import escape

DOCS = pathlib.Path(__file__).resolve().parents[1] / "docs"
COLOURS = {"keyreg": "#1f5fa8", "bare engine": "#9aa7b4", "Python": "#d9822b", "Python, tested": "#a85a12"}
# The bars of requests: which rows of the first table, by the text of the second column.
REQUESTS = ["repeat", "assign, one key, rising", "register, rising", "register, Active, rising",
            "advance, one due, rising"]
PANEL, LABEL, BAR, STEP, GROUP, TOP = 430, 150, 11, 14, 12, 26

# A row of a table by the names of its columns; a panel's title, and its groups of bars with their texts.
Row = dict[str, str]
Panel = tuple[str, list[tuple[str, dict[str, str]]]]


def table_with(name: str) -> list[Row]:
    """The rows of the page's first table that has a column of this name."""
    lines = (DOCS / "COSTS.md").read_text(encoding="utf-8").split("\n")
    for is_table, group in itertools.groupby(lines, lambda line: line.startswith("|")):
        names, *rows = ([cell.strip().replace("`", "") for cell in line.strip("|").split("|")] for line in group)
        if is_table and name in names:
            return [dict(zip(names, row)) for row in rows[1:]]
    raise ValueError(f"no table of docs/COSTS.md has a column {name}")


def request_panel(keys: int) -> Panel:
    """What some requests cost over a file of so many keys."""
    rows = {row["Request"]: row for row in table_with("Request") if row["Keys"] == str(keys)}
    groups = [(kind, dict(zip(COLOURS, (rows[kind][column] for column in ("keyreg", "Bare", "Python")))))
              for kind in REQUESTS]
    return f"A request over a file of {keys:,} keys: processor time, µs", groups


def table_panel() -> Panel:
    """An export and a report, as whole commands, and an opening."""
    groups = [(command, {row["Program"].replace("bare", "bare engine"): row["Whole"]
                         for row in table_with("Program") if row["Command"] == command})
              for command in ("export", "report")]
    row = next(row for row in table_with("File, MB") if row["Keys"] == "100000")
    opening = ("opening", {"keyreg": row["Processor s"], "bare engine": row["Bare: processor s"]})
    return "A command over 100,000 keys: processor time, s", [*groups, opening]


def exchange_panel() -> Panel:
    """What an exchange costs its server, over /dev/shm with 16 connections."""
    rows = [row for row in table_with("Exchange") if row["Over"] == "/dev/shm, 16"]
    return "An HTTP exchange: processor time of the server, µs", [
        (row["Exchange"], {"keyreg": row["keyreg: time"], "Python": row["Log: time"]}) for row in rows]


# ---- drawing


def text_at(x: float, y: float, words: str, more: str = "") -> str:
    return f'<text x="{x:g}" y="{y:g}" {more}>{escape(words)}</text>'


def drawn(panel: Panel, left: int, top: int) -> list[str]:
    """One panel with its upper left corner here."""
    title, groups = panel
    most = max(float(text.replace(",", "")) for _, bars in groups for text in bars.values())
    lines, y = [text_at(left, top + 14, title, 'font-weight="bold"')], top + TOP
    for name, bars in groups:
        lines.append(text_at(left + LABEL - 8, y + STEP * len(bars) / 2 + 3, name, 'text-anchor="end"'))
        for bar, text in bars.items():
            wide = max(1, (PANEL - LABEL - 70) * float(text.replace(",", "")) / most)
            lines.append(f'<rect x="{left + LABEL}" y="{y}" width="{wide:.1f}" height="{BAR}" fill="{COLOURS[bar]}"/>')
            lines.append(text_at(left + LABEL + wide + 5, y + BAR - 1, text, 'font-size="10"'))
            y += STEP
        y += GROUP
    return lines


def picture() -> str:
    lines, x, y = list[str](), 20, 44
    for name, colour in COLOURS.items():
        lines.append(f'<rect x="{x}" y="16" width="{BAR}" height="{BAR}" fill="{colour}"/>')
        lines.append(text_at(x + BAR + 6, 15 + BAR, name))
        x += 60 + 7 * len(name)
    lines.append(text_at(x - 30, 15 + BAR, "(tested: it tests each row that it opens)"))
    for row in ((request_panel(1000), request_panel(100000)), (table_panel(), exchange_panel())):
        for place, panel in enumerate(row):
            lines += drawn(panel, 20 + place * (PANEL + 20), y)
        y += max(TOP + 10 + sum(GROUP + STEP * len(bars) for _, bars in groups) for _, groups in row)
    wide = 2 * PANEL + 60
    head = (f'<svg xmlns="http://www.w3.org/2000/svg" viewBox="0 0 {wide} {y}" width="{wide}" '
            f'height="{y}" font-family="DejaVu Sans, Verdana, sans-serif" font-size="11">')
    return "\n".join([head, f'<rect width="{wide}" height="{y}" fill="white"/>', *lines, "</svg>", ""])


if __name__ == "__main__":
    (DOCS / "costs.svg").write_text(picture(), encoding="utf-8")
