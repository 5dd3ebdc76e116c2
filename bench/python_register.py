"""A register in Python, over `sqlite3`, as far as the requests of the benchmarks go: it judges a request by
office/register_rules.py, runs the statements of an accepted one, and gives its reply. As a program it answers the lines
that it reads, each before the next, over the file that is its word."""
import sqlite3
import sys
from typing import Any, Sequence

import measuring  # noqa: F401 - it has the path of modules
from register_rules import MOST_KEYS, PERIODS, Refused, date_of, fitted, refuse, state_at
from registers import STATES, TYPES, UNSET, columns_of

# The columns of keys past its number, and those that an accepted request may change, with their parameters.
CELLS = columns_of("keys")[1:]
GIVEN = [f"{name} = ?{at}" for at, name in
         enumerate((name for name in CELLS if name not in ("kind", "purpose", "initial")), 2)]

# The statements of an accepted request, between BEGIN and COMMIT but for the searches.
STATEMENTS = {
    "FIND_REQUEST": "SELECT command, key_no, state, moment FROM request WHERE caller = ?1 AND number = ?2",
    "FIND_KEY": f"SELECT {', '.join(CELLS)} FROM keys WHERE number = ?1",
    "FIND_PERIOD": "SELECT originator, recipient FROM period WHERE kind = ?1",
    "FIND_CUSTODIANS": "SELECT name FROM custodian WHERE key_no = ?1",
    "FIND_APPROVALS": "SELECT name FROM approval WHERE key_no = ?1",
    "ACTIVATE_DUE": "UPDATE keys SET state = 2 WHERE state = 1 AND activation <= ?1",
    "DEACTIVATE_DUE": "UPDATE keys SET state = 3 WHERE state = 2 AND deactivation <= ?1",
    "ADD_KEY": f"INSERT INTO keys (number, {', '.join(CELLS)}) VALUES (?{', ?' * len(CELLS)})",
    "UPDATE_KEY": f"UPDATE keys SET {', '.join(GIVEN)} WHERE number = ?1 AND NOT ({' AND '.join(GIVEN)})",
    "ADD_REQUEST": f"INSERT INTO request ({', '.join(columns_of('request'))}) VALUES (?, ?, ?, ?, ?, ?)",
    "SET_COUNTS": "UPDATE meta SET latest = ?1, key_count = ?2 WHERE id = 1",
}
CODES = {text: code for code, text in TYPES.items()}

# The key, the state and the moment of a reply; the key, its state, and the statement that writes it, with its cells.
Reply = tuple[int, int, int]
Judged = tuple[int, int, str, Sequence[Any]]


class PythonRegister:
    """A register over a file, whose lock it holds as long as it runs."""

    def __init__(self, file: str, journal: str = "wal") -> None:
        self.connection = sqlite3.connect(file, isolation_level=None)
        self.run = self.connection.execute
        # The journal comes after the lock, so that a log has its index in memory of its own.
        for pragma in ("locking_mode = EXCLUSIVE", "synchronous = FULL", "wal_autocheckpoint = 1000",
                       "cache_size = 2000", "foreign_keys = ON", f"journal_mode = {journal}"):
            self.run(f"PRAGMA {pragma}").fetchall()
        self.latest, self.count = self.run("SELECT latest, key_count FROM meta").fetchone()
        self.judges = {"register": self.registration, "assign": self.assignment, "advance": lambda *_: (0, 0, "", ())}

    def answer(self, moment: int, caller: str, number: int, command: str) -> Reply:
        """The reply to a request that is accepted or comes again; a Refused is raised for any other."""
        kept = self.run(STATEMENTS["FIND_REQUEST"], (caller, number)).fetchone()
        if kept is not None:
            refuse(kept[0] != command, "RequestReused")
            return kept[1:]
        refuse(moment < self.latest, "MomentBehind", latest=self.latest)
        word, *fields = command.split(" ", 6)
        key, state, statement, cells = self.judges[word](moment, caller, *fields)
        self.run("BEGIN")
        if moment > self.latest:
            self.run(STATEMENTS["ACTIVATE_DUE"], (moment,))
            self.run(STATEMENTS["DEACTIVATE_DUE"], (moment,))
        if statement:
            self.run(STATEMENTS[statement], cells)
        count = self.count + (statement == "ADD_KEY")
        self.run(STATEMENTS["ADD_REQUEST"], (caller, number, command, key, state, moment))
        self.run(STATEMENTS["SET_COUNTS"], (moment, count))
        self.run("COMMIT")
        self.latest, self.count = moment, count
        return key, state, moment

    def registration(self, moment: int, _: str, kind: str, owner: str, *fields: str) -> Judged:
        *dates, text = fields
        code = CODES[kind]
        period = self.run(STATEMENTS["FIND_PERIOD"], (code,)).fetchone() or PERIODS[kind]
        activation, stop, end = fitted([None if date == "-" else int(date) for date in dates], period, False).values()
        refuse(self.count >= MOST_KEYS, "Full")
        key, state = self.count + 1, state_at(moment, activation, end, None, None)
        cells = (UNSET if date is None else date for date in (activation, stop, end))
        return key, state, "ADD_KEY", (key, code, owner, text, state, moment, *cells, UNSET, UNSET, UNSET)

    def assignment(self, moment: int, caller: str, key: str, owner: str) -> Judged:
        number = int(key)
        row = self.run(STATEMENTS["FIND_KEY"], (number,)).fetchone()
        custodians, _ = ([name for name, in self.run(STATEMENTS[names], (number,))]
                         for names in ("FIND_CUSTODIANS", "FIND_APPROVALS"))
        refuse(row is None, "UnknownKey")
        refuse(row[1] != caller, "NotOwner")
        refuse(owner in custodians, "OwnerCustodian")
        activation, _, end, destroyed, compromised, _ = map(date_of, row[5:])
        state = state_at(moment, activation, end, destroyed, compromised)
        return number, state, "UPDATE_KEY", (number, owner, state, *row[5:])


def main() -> None:
    register = PythonRegister(sys.argv[1])
    for line in sys.stdin.buffer:
        moment, caller, number, command = line.decode().rstrip("\n").split(" ", 3)
        try:
            key, state, moment = register.answer(int(moment), caller, int(number), command)
            reply = f"ok {key} {STATES[state]} {moment}"
        except Refused as refused:
            reply = refused.line
        sys.stdout.buffer.write(f"{reply}\n".encode())
        sys.stdout.buffer.flush()
    register.connection.close()


if __name__ == "__main__":
    main()
