"""Looks for another order of a register's requests at one moment, for replay.py, which stands beside this file.

It only proposes: replay.py takes the order that comes of it one request after the other, and gives its verdict of
that. Of each key the orders of its requests at one moment are tried, the rows' order first, for one in which each is
accepted with the state that is kept and which ends in the key's rows. New keys go by their numbers. At most 20000
steps are tried for a key and 2000000 for all, and 24 orders of the periods of a type. Of a key with more than 64
requests at one moment, and of a type with more than four periods at one, the rows' order alone is. Where the bound was
met, which is reported, no order that is found says little.
"""
import bisect
import collections
import graphlib
import itertools
from typing import Iterable, Iterator, Optional, Sequence

from register_rules import PERIODS, TYPES, Key, Refused, Request, Row, after, key_rows
from replay import File, by_moment

KEY_STEPS, ALL_STEPS, MOST_AT_ONCE, MOST_PERIODS, MOST_ORDERS = 20_000, 2_000_000, 64, 4, 24
OF_DATES = ("register", "set", "activate")
# Requests in an order, each with how many periods of its type were set before it: the last one, and what is before it.
Path = Optional[tuple[Request, int, "Path"]]


class Search:
    """Looks for an order in which each key ends in its rows. It only proposes: the replay decides."""

    def __init__(self, file: File, requests: Sequence[Request]) -> None:
        self.version, self.all, self.latest = file.version, requests, requests[-1].moment
        self.steps, self.met_bound = 0, False
        self.of_key = collections.defaultdict[int, list[Request]](list)
        self.periods = collections.defaultdict[str, list[Request]](list)
        for request in requests:
            if request.word == "set-period":
                self.periods[request.values[0]].append(request)
            elif request.word != "advance":
                self.of_key[request.named or request.key_no].append(request)
        self.found = {name: collections.defaultdict[int, set[Row]](set)
                      for name in ("keys", "custodian", "approval", "quorum")}
        for name, rows in self.found.items():
            for row in file.rows(name) if name in file.kept else ():
                rows[row[0]].add(row)
        periods = file.rows("period") if "period" in file.kept else ()
        self.kept_periods = {TYPES[row[0] - 1]: row[1:] for row in periods if row[0] in range(1, 8)}

    def is_end(self, number: int, key: Key) -> bool:
        rows = key_rows(number, key, self.latest)
        return all(self.found[name][number] == set(rows[name]) for name in rows)

    def path_of(self, number: int, lowest: int) -> list[tuple[Request, int]]:
        """The key's requests in an order, each with how many periods of its type were set before it; or none."""
        groups, seen, found = by_moment(self.of_key[number]), set[tuple[object, ...]](), list[tuple[Request, int]]()
        limit = min(self.steps + KEY_STEPS + len(self.of_key[number]), ALL_STEPS)
        stack: list[tuple[int, int, Optional[Key], int, Path]] = [(0, 0, None, lowest, None)]
        while stack and self.steps <= limit:
            *step, path = place, done, key, slot, _ = stack.pop()
            if place == len(groups) and key and self.is_end(number, key):
                while path:
                    request, slot, path = path
                    found.insert(0, (request, slot))
                return found
            if place == len(groups) or tuple(step) in seen:
                continue
            seen.add(tuple(step))
            more = list(self.following(groups[place], done, key, slot))
            self.steps += 1 + len(more)
            for request, now_done, other, at in reversed(more):
                is_whole = now_done == (1 << len(groups[place])) - 1
                there = (place + 1, 0) if is_whole else (place, now_done)
                stack.append((*there, other, at, (request, at, path)))
        self.met_bound |= bool(stack)
        return found

    def following(self, group: Sequence[Request], done: int, key: Optional[Key],
                  slot: int) -> Iterator[tuple[Request, int, Key, int]]:
        """What may come next of a group: each request that is accepted with the state that is kept."""
        waiting = [place for place in range(len(group)) if not done >> place & 1]
        if len(group) > MOST_AT_ONCE:
            self.met_bound, waiting = True, waiting[:1]
        for place in waiting:
            request = group[place]
            if (key is None) != (request.word == "register"):
                continue
            kind = key.kind if key else request.values[0]
            given, slots = self.periods[kind], range(slot, slot + 1)
            if request.word in OF_DATES and given:
                moments = [period.moment for period in given]
                first = max(slot, bisect.bisect_left(moments, request.moment))
                slots = range(first, bisect.bisect_right(moments, request.moment) + 1)
            for at in slots:
                try:
                    other = after(key, request, self.period(kind, at), self.version)
                except Refused:
                    continue
                if other.state(request.moment) == request.state:
                    yield request, done | 1 << place, other, at

    def period(self, kind: str, at: int) -> tuple[int, int]:
        """The period of a type after so many of its requests that set one."""
        if not at:
            return PERIODS[kind]
        _, originator, recipient = self.periods[kind][at - 1].values
        return originator, recipient

    def paths_of(self, kind: str, numbers: Sequence[int]) -> dict[int, list[tuple[Request, int]]]:
        """A path for each key of a type, by the first order of its periods in which each has one, or most have."""
        kept = self.kept_periods.get(kind)
        best: tuple[int, list[Request], dict[int, list[tuple[Request, int]]]] = (-1, [], {})
        groups = by_moment(self.periods[kind])
        orders = itertools.product(*([group] if len(group) > MOST_PERIODS else itertools.permutations(group)
                                     for group in groups))
        for order in itertools.islice(orders, MOST_ORDERS):
            self.periods[kind] = given = list(itertools.chain(*order))
            slot, paths = 0, dict[int, list[tuple[Request, int]]]()
            for number in numbers:
                paths[number] = path = self.path_of(number, slot)
                # The next key of the type is made later.
                slot = next((at for request, at in path if request.word == "register"), slot)
            is_last = kept == (given[-1].values[1:] if given else None)
            count = sum(map(bool, paths.values())) + is_last
            best = (count, given, paths) if count > best[0] else best
            if best[0] > len(numbers):
                break
        else:
            self.met_bound |= any(len(group) > 1 for group in groups)
        self.periods[kind] = best[1]
        return best[2]

    def order(self) -> list[Request]:
        """All requests in an order that has those of the keys, or the rows' where these have none."""
        before = collections.defaultdict[Request, set[Request]](set)
        made = sorted((request for request in self.all if request.word == "register"), key=lambda made: made.key_no)
        all_paths, chains = dict[int, list[tuple[Request, int]]](), [made]
        for kind in PERIODS:
            paths = self.paths_of(kind, [request.key_no for request in made if request.values[0] == kind])
            given = self.periods[kind]
            all_paths.update(paths)
            chains.append(given)
            for request, at in itertools.chain(*paths.values()):
                if request.word in OF_DATES:
                    before[request].update(given[max(at - 1, 0):at])
                    for later in given[at:at + 1]:
                        before[later].add(request)
        for number, requests in self.of_key.items():
            chains.append([request for request, _ in all_paths.get(number, ())] or requests)
        for chain in chains:
            for one, other in itertools.pairwise(chain):
                before[other].add(one)
        ordered = list[Request]()
        for group in by_moment(self.all):
            within = set(group)
            try:
                ordered += graphlib.TopologicalSorter({one: before[one] & within for one in group}).static_order()
            except graphlib.CycleError:
                ordered += group
        return ordered
