"""The rules of a register, which docs/SPECIFICATION.md states, in plain Python: what it answers to a request, and what
it is after those that it accepted. Nothing of keyreg is needed or asked.

replay.py, which stands beside this file, holds a register's tables to these rules, and rebuild.py foresees by them what
a request will be answered. A moment is in seconds, and a date that is not set is None.
"""
import calendar
import re
import time
import unicodedata
from datetime import date, datetime, timedelta
from typing import Any, Iterable, MutableMapping, NamedTuple, Optional, Sequence, TypedDict

# A row of a table.
Row = tuple[Any, ...]

# ---- moments and usage periods

LAST = 253402300799
# What stands in a table for a date that is not set.
UNSET = LAST + 1
EPOCH = datetime(1970, 1, 1)
EPOCH_DAY = EPOCH.toordinal()
MOMENT_FORM = "%Y-%m-%dT%H:%M:%SZ"
MOMENT_TEXT = re.compile(r"[0-9]{4}-[0-9]{2}-[0-9]{2}T[0-9]{2}:[0-9]{2}:[0-9]{2}Z")
# Key types in the order of their codes, from 1, with their months where the office has set none.
PERIODS = {
    "data-encryption": (24, 36), "authentication": (24, 36), "key-wrapping": (24, 36), "private-signature": (36, 0),
    "private-authentication": (24, 0), "private-transport": (24, 0), "master": (12, 0),
}
TYPES = list(PERIODS)
# Refusals in the order of their numbers, from 1.
REFUSALS = (
    "BadLine", "RequestReused", "MomentBehind", "UnknownKey", "NotOwner", "NotCustodian", "WrongState", "DateFrozen",
    "DateOrder", "PeriodTooLong", "DateRange", "AlreadyCustodian", "NoSuchCustodian", "TooManyCustodians",
    "OwnerCustodian", "AlreadyApproved", "NoApproval", "ApprovalsMissing", "OccurrenceLater", "Full", "NotOffice",
)


class Refused(Exception):
    """A request that the rules do not accept, with the name of its refusal and the details of its reply."""

    def __init__(self, name: str, **details: Any) -> None:
        super().__init__(name)
        self.name, self.number, self.details = name, REFUSALS.index(name) + 1, details

    @property
    def line(self) -> str:
        """The line of the reply."""
        return " ".join([f"refused {self.number} {self.name}", *(f"{name}={of}" for name, of in self.details.items())])


def refuse(holds: bool, name: str, **details: Any) -> None:
    if holds:
        raise Refused(name, **details)


def text_of(moment: float) -> str:
    return time.strftime(MOMENT_FORM, time.gmtime(moment))


def moment_of(text: str) -> int:
    """The moment of such a text; ValueError where it is of another form, or has no such day, second or moment."""
    moment = (datetime.strptime(text, MOMENT_FORM) - EPOCH) // timedelta(seconds=1)
    if not MOMENT_TEXT.fullmatch(text) or not 0 <= moment <= LAST:
        raise ValueError(text)
    return moment


def plus_months(moment: Optional[int], months: int) -> Optional[int]:
    """The same day so many months later, or that month's last; None past the range of moments, and of no moment."""
    if moment is None:
        return None
    day = date.fromordinal(EPOCH_DAY + moment // 86400)
    year, month = divmod(day.year * 12 + day.month - 1 + months, 12)
    if year > 9999:
        return None
    last = calendar.monthrange(year, month + 1)[1]
    return moment + 86400 * (date(year, month + 1, min(day.day, last)) - day).days


class Dates(TypedDict):
    """The three dates of a usage period."""
    activation: Optional[int]
    stop: Optional[int]
    end: Optional[int]


def fitted(dates: Sequence[Optional[int]], period: tuple[int, int], trims: bool) -> Dates:
    """The three dates after Fill, or after Trim, by a usage period."""
    activation, stop, end = dates
    limit, is_past = plus_months(activation, period[0]), False
    if activation is not None and stop is None:
        is_end_first = end is not None and (limit is None or end < limit)
        stop, is_past = (end, False) if is_end_first else (limit, limit is None)
    if trims and limit is not None and stop is not None:
        stop = min(stop, limit)
    last = plus_months(stop, period[1])
    if activation is not None and end is None and stop is not None:
        end, is_past = last, is_past or last is None
    if trims and last is not None and end is not None:
        end = min(end, last)
    given = [date for date in (activation, stop, end) if date is not None]
    refuse(given != sorted(given), "DateOrder")
    if not trims:
        refuse(limit is not None and stop is not None and stop > limit, "PeriodTooLong", limit=limit)
        refuse(last is not None and end is not None and end > last, "PeriodTooLong", limit=last)
    refuse(is_past, "DateRange")
    return {"activation": activation, "stop": stop, "end": end}


def is_long(dates: Iterable[Optional[int]], period: tuple[int, int]) -> bool:
    """Whether the three dates go past a limit of a usage period. One that is past the range limits nothing."""
    activation, stop, end = dates
    limits = plus_months(activation, period[0]), plus_months(stop, period[1])
    return any(last is not None and limit is not None and last > limit
               for last, limit in zip((stop, end), limits))


# ---- keys

# States by their codes; 0 stands where a reply names none.
STATES = ("-", "Pre-Active", "Active", "Deactivated", "Compromised", "Destroyed", "Destroyed-Compromised")
PRE_ACTIVE, ACTIVE, DEACTIVATED, COMPROMISED, DESTROYED, DESTROYED_COMPROMISED = ALL = range(1, 7)
NOT_DESTROYED, STILL = ALL[:4], (PRE_ACTIVE, DEACTIVATED, COMPROMISED)
MOST_KEYS, MOST_CUSTODIANS = 1_000_000, {1: 8, 2: 16}


def state_at(moment: int, activation: Optional[int], end: Optional[int], destroyed: Optional[int],
             compromised: Optional[int]) -> int:
    if destroyed is not None:
        return DESTROYED if compromised is None else DESTROYED_COMPROMISED
    if compromised is not None:
        return COMPROMISED
    if activation is None or activation > moment:
        return PRE_ACTIVE
    return DEACTIVATED if end is not None and end <= moment else ACTIVE


class Key(NamedTuple):
    """A key with its custody."""
    kind: str
    owner: str
    purpose: str
    initial: int
    activation: Optional[int]
    stop: Optional[int]
    end: Optional[int]
    destroyed: Optional[int] = None
    compromised: Optional[int] = None
    occurrence: Optional[int] = None
    custodians: frozenset[str] = frozenset()
    approvals: frozenset[str] = frozenset()
    need: int = 2
    has_set_need: bool = False

    def state(self, moment: int) -> int:
        return state_at(moment, self.activation, self.end, self.destroyed, self.compromised)

    def protects(self, moment: int) -> bool:
        return self.state(moment) == ACTIVE and self.stop is not None and self.stop > moment

    def processes(self, moment: int) -> str:
        return {ACTIVE: "yes", DEACTIVATED: "special", COMPROMISED: "special"}.get(self.state(moment), "no")


# The end of a purpose that names the key which its key replaces: a rule of an office, not of a register.
REPLACES = re.compile(r" \(replaces key ([1-9][0-9]{0,6})\)\Z")


def predecessor(number: int, purpose: str) -> Optional[int]:
    """The number of the key that a key replaces, which came before it; None where its purpose names none."""
    named = REPLACES.search(purpose)
    return int(named[1]) if named and int(named[1]) < number else None


# ---- commands, and what a request does to a key

class Command(NamedTuple):
    """What its fields are, who may give it and in which states of the key that it names, and its first version."""
    fields: tuple[str, ...]
    who: str
    states: Sequence[int] = ()
    since: int = 1


OFFICE, COMPROMISES = "office", (2, 3)
COMMANDS = {
    "register": Command(("type", "name", "date", "date", "date", "purpose"), "anybody"),
    "activate": Command(("key",), "owner", (PRE_ACTIVE,)),
    "set": Command(("key", "edit", "edit", "edit"), "owner", (PRE_ACTIVE, ACTIVE)),
    "revoke": Command(("key", "reason", "date"), "owner", (ACTIVE,)),
    "assign": Command(("key", "name"), "owner", ALL),
    "add-custodian": Command(("key", "name"), "owner", ALL),
    "remove-custodian": Command(("key", "name"), "owner", NOT_DESTROYED),
    "approve": Command(("key",), "custodian", STILL),
    "withdraw": Command(("key",), "custodian", NOT_DESTROYED),
    "destroy": Command(("key",), "owner", STILL),
    "set-quorum": Command(("key", "need"), "owner", ALL, since=2),
    "set-period": Command(("type", "originator", "recipient"), "office", since=2),
    "advance": Command((), "anybody"),
}
# The row of a revocation for a compromise.
FOR_COMPROMISE = COMMANDS["revoke"]._replace(who="anybody", states=(PRE_ACTIVE, ACTIVE, DEACTIVATED, DESTROYED))


def look_at(key: Key, request: "Request") -> None:
    """Refuses a caller who may not give the command, and a state that it is not for."""
    is_compromise = request.word == "revoke" and request.values[0] in COMPROMISES
    _, who, states, _ = FOR_COMPROMISE if is_compromise else COMMANDS[request.word]
    refuse(who == "owner" and request.caller != key.owner, "NotOwner")
    refuse(who == "custodian" and request.caller not in key.custodians, "NotCustodian")
    state = key.state(request.moment)
    refuse(state not in states, "WrongState", state=STATES[state])


def revoked(key: Key, moment: int, reason: int, occurrence: Optional[int]) -> Key:
    if reason not in COMPROMISES:
        return key._replace(end=moment, stop=moment if key.stop is None else min(key.stop, moment))
    refuse(occurrence is not None and occurrence > moment, "OccurrenceLater")
    return key._replace(compromised=moment, occurrence=key.initial if occurrence is None else occurrence,
                        approvals=frozenset() if key.destroyed is None else key.approvals)


def dated(key: Key, request: "Request", period: tuple[int, int]) -> Key:
    """After `activate` or `set`."""
    dates, edits, moment = (key.activation, key.stop, key.end), request.values, request.moment
    if request.word == "activate":
        return key._replace(**fitted((moment, *dates[1:]), period, True))
    refuse(edits[0] != "=" and key.state(moment) != PRE_ACTIVE, "DateFrozen")
    refuse(edits[1] != "=" and key.stop is not None and key.stop <= moment, "DateFrozen")
    return key._replace(**fitted([date if edit == "=" else edit for date, edit in zip(dates, edits)], period, False))


def after(key: Optional[Key], request: "Request", period: tuple[int, int], version: int) -> Key:
    """The key after a request that names it, by its type's period. A `register` has no key before."""
    word, caller = request.word, request.caller
    if key is None:
        kind, owner, *dates, purpose = request.values
        return Key(kind, owner, purpose, request.moment, **fitted(dates, period, False))
    look_at(key, request)
    if word in ("activate", "set"):
        return dated(key, request, period)
    if word == "revoke":
        return revoked(key, request.moment, *request.values)
    if word == "destroy":
        refuse(len(key.approvals) < key.need, "ApprovalsMissing", have=len(key.approvals), need=key.need)
        return key._replace(destroyed=request.moment)
    if word == "approve":
        refuse(caller in key.approvals, "AlreadyApproved")
        return key._replace(approvals=key.approvals | {caller})
    if word == "withdraw":
        refuse(caller not in key.approvals, "NoApproval")
        return key._replace(approvals=key.approvals - {caller})
    value = request.values[0]
    if word == "set-quorum":
        return key._replace(need=value, has_set_need=True)
    if word == "assign":
        refuse(value in key.custodians, "OwnerCustodian")
        return key._replace(owner=value)
    if word == "add-custodian":
        refuse(value in key.custodians, "AlreadyCustodian")
        refuse(len(key.custodians) >= MOST_CUSTODIANS[version], "TooManyCustodians")
        refuse(value == key.owner, "OwnerCustodian")
        return key._replace(custodians=key.custodians | {value})
    refuse(value not in key.custodians, "NoSuchCustodian")
    return key._replace(custodians=key.custodians - {value}, approvals=key.approvals - {value})


# ---- requests and their texts

NUMBER, NAME = re.compile("0|[1-9][0-9]{0,15}"), re.compile("[A-Za-z0-9._@-]{1,64}")
NO_PURPOSE = re.compile("[\0-\x1f\x7f\ud800-\udfff]")
GREATEST_NUMBER, LONGEST_LINE = 9007199254740991, 1024
RANGES = {"key": (1, 4294967295), "date": (0, LAST), "edit": (0, LAST), "need": (2, 5), "reason": (1, 7),
          "originator": (1, 1200), "recipient": (0, 1200), "number": (1, GREATEST_NUMBER)}


class Request(NamedTuple):
    """What a caller asks at a moment under a number of its own. The command is its word with the values of its fields,
    of which an edit that keeps a date is "=". One that was accepted has the key and the state of its reply."""
    moment: int
    caller: str
    number: int
    command: tuple[Any, ...]
    key_no: int = 0
    state: int = 0

    def __str__(self) -> str:
        return f"request {(self.caller, self.number)} {command_text(self.command)!r}"

    @property
    def word(self) -> str:
        word: str = self.command[0]
        return word

    @property
    def named(self) -> Optional[int]:
        """The number of the key that it names, or None."""
        return self.command[1] if COMMANDS[self.command[0]].fields[:1] == ("key",) else None

    @property
    def values(self) -> tuple[Any, ...]:
        """The values of its other fields."""
        return self.command[1 if self.named is None else 2:]


def field_of(form: str, text: str) -> Any:
    """The value of a field's text; ValueError where it is none."""
    if form in RANGES:
        if text == "-" and form in ("date", "edit"):
            return None
        if text == "=" and form == "edit":
            return text
        least, most = RANGES[form]
        if NUMBER.fullmatch(text) and least <= (number := int(text)) <= most:
            return number
    elif form == "purpose":
        size = len(text.encode(errors="surrogateescape"))
        if 1 <= size <= 200 and text == text.strip(" ") and not NO_PURPOSE.search(text):
            return text
    elif text in PERIODS if form == "type" else NAME.fullmatch(text):
        return text
    raise ValueError(text)


def command_of(text: str, version: int = 2) -> tuple[Any, ...]:
    """The command of its text; ValueError where it is none."""
    word, *rest = text.split(" ", 1)
    if word not in COMMANDS or version < COMMANDS[word].since:
        raise ValueError(text)
    forms = COMMANDS[word].fields
    fields = rest[0].split(" ", max(len(forms) - 1, 0)) if rest else []
    if len(fields) != len(forms):
        raise ValueError(text)
    values = tuple(map(field_of, forms, fields))
    if word == "revoke" and values[1] not in COMPROMISES and values[2] is not None:
        raise ValueError(text)
    return (word, *values)


def command_text(command: Sequence[Any]) -> str:
    return " ".join("-" if value is None else str(value) for value in command)


def line(moment: int, caller: str, number: int, command: Sequence[Any], *_: Any) -> str:
    """The line of a request."""
    return f"{moment} {caller} {number} {command_text(command)}"


def request_of(text: str) -> Request:
    """The request of a line; ValueError where it is none."""
    moment, caller, number, command = text.split(" ", 3)
    if len(text.encode()) > LONGEST_LINE or moment == "-":
        raise ValueError(text)
    return Request(field_of("date", moment), field_of("name", caller), field_of("number", number), command_of(command))


# ---- texts

def shown(text: str) -> str:
    """A text of a key for people: what would not be seen, would move other text or is no character stands by its
    number."""
    if text.isascii() and text.isprintable():
        return text
    return "".join(f"\\u{ord(mark):04x}" if unicodedata.category(mark) in ("Cc", "Cf", "Cs", "Zl", "Zp") else mark
                   for mark in text)


# ---- the register

class Register:
    """What requests make that are put to it one after the other, by the rules of a version."""

    def __init__(self, version: int = 2) -> None:
        self.version, self.latest = version, 0
        self.set_periods: dict[str, tuple[int, int]] = {}
        # Keys by their numbers, and the accepted requests by caller and number.
        self.keys: MutableMapping[int, Key] = {}
        self.kept: dict[tuple[str, int], Request] = {}

    def answer(self, request: Request) -> Request:
        """The request with its reply; where it comes again, that which was accepted. A refused one changes nothing."""
        place = request.caller, request.number
        if place in self.kept:
            refuse(self.kept[place].command != request.command, "RequestReused")
            return self.kept[place]
        refuse(request.moment < self.latest, "MomentBehind", latest=self.latest)
        key_no, state = self.accept(request)
        self.latest, self.kept[place] = request.moment, request._replace(key_no=key_no, state=state)
        return self.kept[place]

    def accept(self, request: Request) -> tuple[int, int]:
        """Does what a request says that is no repeat and not behind; the key and the state of its reply."""
        refuse(COMMANDS[request.word].who == "office" and request.caller != OFFICE, "NotOffice")
        if request.word == "advance":
            return 0, 0
        if request.word == "set-period":
            kind, originator, recipient = request.values
            self.set_periods[kind] = originator, recipient
            return 0, 0
        number, before = request.named, None
        if number is None:
            number, kind = self.next_number(request), request.values[0]
        elif before := self.keys.get(number):
            kind = before.kind
        else:
            raise Refused("UnknownKey")
        key = after(before, request, self.period(kind), self.version)
        refuse(before is None and len(self.keys) >= MOST_KEYS, "Full")
        self.keys[number] = key
        return number, key.state(request.moment)

    def next_number(self, _: Request) -> int:
        """The number of a key that this request registers."""
        return len(self.keys) + 1

    def period(self, kind: str) -> tuple[int, int]:
        return self.set_periods.get(kind, PERIODS[kind])

    def copy(self) -> "Register":
        other = type(self)(self.version)
        other.latest, other.set_periods = self.latest, dict(self.set_periods)
        other.keys, other.kept = dict(self.keys), dict(self.kept)
        return other


# ---- its rows

def date_of(cell: int) -> Optional[int]:
    """The date that a cell has; None where none is set."""
    return None if cell == UNSET else cell


def key_rows(number: int, key: Key, latest: int) -> dict[str, list[Row]]:
    """The rows of a key, by table."""
    dates = (key.activation, key.stop, key.end, key.destroyed, key.compromised, key.occurrence)
    row = (number, TYPES.index(key.kind) + 1, key.owner, key.purpose, key.state(latest), key.initial,
           *(UNSET if date is None else date for date in dates))
    return {"keys": [row], "custodian": [(number, name) for name in key.custodians],
            "approval": [(number, name) for name in key.approvals], "quorum": [(number, key.need)] * key.has_set_need}


def other_rows(register: Register) -> dict[str, list[Row]]:
    """The rows that are about no key."""
    return {"meta": [(1, register.version, register.latest, len(register.keys))],
            "period": [(TYPES.index(kind) + 1, *months) for kind, months in register.set_periods.items()]}
