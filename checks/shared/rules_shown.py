"""What the register of office/register_rules.py is in the tables of a file, in an export and in a report, by
docs/SPECIFICATION.md."""
from typing import Iterable, Optional

from registers import EXPORT_COLUMNS, IMPORT_COLUMNS, STATES
from register_rules import ACTIVE, LAST, Register, command_text, is_long, key_rows, other_rows, text_of
from script import not_none

DAY = 86400
Rows = dict[str, list[tuple]]


def moment_text(moment: Optional[int]) -> str:
    """The text of a moment; that of a date which is not set is empty."""
    return "" if moment is None else text_of(moment)


def tables(register: Register) -> Rows:
    """The rows of each table, in order."""
    rows: Rows = {"keys": [], "custodian": [], "approval": [], "quorum": [], **other_rows(register)}
    for number, key in register.keys.items():
        for name, of_key in key_rows(number, key, register.latest).items():
            rows[name] += of_key
    rows["request"] = [(kept.caller, kept.number, command_text(kept.command), kept.key_no, kept.state, kept.moment)
                       for kept in register.kept.values()]
    return {name: sorted(of_table) for name, of_table in rows.items()}


# ---- texts


def field(text: str) -> str:
    return '"' + text.replace('"', '""') + '"' if "," in text or '"' in text else text


def export_text(register: Register) -> str:
    lines = [",".join(EXPORT_COLUMNS)]
    for number, key in register.keys.items():
        dates = map(moment_text, (key.initial, key.destroyed, key.compromised, key.occurrence))
        lines.append(",".join([str(number), key.kind, key.owner, *map(moment_text, (key.activation, key.stop, key.end)),
                               STATES[key.state(register.latest)], *dates, field(key.purpose)]))
    return "".join(f"{line}\n" for line in lines)


def report_text(register: Register, days: int) -> str:
    latest, horizon = register.latest, min(register.latest + days * DAY, LAST)
    lines = []
    for number, key in register.keys.items():
        if key.state(latest) != ACTIVE:
            continue
        stop = not_none(key.stop)
        if stop <= horizon or is_long((key.activation, stop, key.end), register.period(key.kind)):
            mark = "overdue" if stop <= latest else "due" if stop <= horizon else "long"
            line = f"{number:7}  {moment_text(stop)}  {mark:7}  {key.kind:22}  {key.owner}  {key.purpose}"
            lines.append((stop, number, line))
    due = "".join(f"{line}\n" for _, _, line in sorted(lines))
    return f"Keys due for rotation by {moment_text(horizon)}\n{due}total {len(lines)}\n"


def import_table(rows: Iterable[tuple]) -> str:
    """The table of an import: of each row its type, owner, the three dates and the purpose."""
    lines = [",".join([kind, owner, *map(moment_text, dates), field(purpose)]) for kind, owner, *dates, purpose in rows]
    return "".join(f"{line}\n" for line in [",".join(IMPORT_COLUMNS), *lines])
