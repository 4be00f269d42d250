"""Which sources call for which, which cannot come with any others, and why.

A source is blocked if it has a sure fault that no source mends, or that blocked sources alone would mend: so there is no set of
sources with which it could come. The roots are the blocked sources with a fault that no source mends.
"""

from __future__ import annotations

import collections
import dataclasses
from collections.abc import Callable, Collection, Iterable, Sequence

from .plan_faults import Fault

Edges = Callable[[str], Sequence[str]]


@dataclasses.dataclass(frozen=True)
class Found:
    """A fault, and on which architecture it was found."""

    architecture: str
    fault: Fault


@dataclasses.dataclass(frozen=True)
class Link:
    """A blocked source, and the fault that blocks it."""

    source: str
    found: Found


class Calls:
    """The faults of each source that comes alone, and what follows from them."""

    def __init__(self, sources: Sequence[str], found: dict[str, dict[str, list[Fault]]]) -> None:
        self.sources = sources
        self.faults: dict[str, list[Found]] = {source: [] for source in sources}
        for architecture, answer in found.items():
            for source, faults in answer.items():
                self.faults[source] += [Found(architecture, fault) for fault in faults]
        self.blocked = self.block()
        self.order = {source: place for place, source in enumerate(self.blocked)}
        self.edges_of: dict[str, list[str]] = {}
        self.waiting_of: dict[str, list[str]] = {}

    # What is blocked

    def block(self) -> dict[str, Found]:
        """The blocked sources, each with a fault that says so, in an order in which what would mend it stands before it."""
        blocked: dict[str, Found] = {}
        waits = collections.defaultdict[str, list[tuple[str, Found]]](list)
        for source in self.sources:
            for found in self.sure(source):
                for other in found.fault.mends:
                    waits[other].append((source, found))
                if not found.fault.mends:
                    blocked.setdefault(source, found)
        todo = collections.deque(blocked)
        while todo:
            for source, found in waits[todo.popleft()]:
                if source not in blocked and blocked.keys() >= found.fault.mends:
                    blocked[source] = found
                    todo.append(source)
        return blocked

    def sure(self, source: str) -> list[Found]:
        return [found for found in self.faults[source] if found.fault.sure]

    def root_faults(self, source: str) -> list[Found]:
        return [found for found in self.sure(source) if not found.fault.mends]

    def chain(self, source: str) -> list[Link]:
        """From a blocked source to a root: each fault would be mended by the source of the next, or by others that are blocked."""
        links = [Link(source, self.blocked[source])]
        while mends := links[-1].found.fault.mends:
            first = min(mends, key=lambda s: self.order[s])
            links.append(Link(first, self.blocked[first]))
        return links

    def waiting(self, source: str) -> list[str]:
        """What a source calls for, blocked or not: of several that would mend a fault the first by a rule of thumb."""
        if source not in self.waiting_of:
            chosen: set[str] = set()
            for found in self.sure(source):
                fault = found.fault
                if fault.mends and not fault.mends & chosen and source not in fault.mends:
                    chosen.add(min(fault.mends, key=lambda s: (s in self.blocked, s != fault.source, len(self.faults.get(s, ())), s)))
            self.waiting_of[source] = sorted(chosen)
        return self.waiting_of[source]

    def roots_of(self) -> dict[str, frozenset[str]]:
        """For each blocked source the roots that it calls for, to the end."""
        roots = [source for source in self.blocked if self.root_faults(source)]
        bit = {source: 1 << place for place, source in enumerate(roots)}
        masks: dict[str, int] = {}
        for group in groups_of(sorted(self.blocked), self.waiting):
            mask = 0
            for source in group:
                mask |= bit.get(source, 0)
                for other in self.waiting(source):
                    mask |= masks.get(other, 0)
            masks.update((source, mask) for source in group)
        sets = {mask: frozenset(root for root in roots if mask & bit[root]) for mask in set(masks.values())}
        return {source: sets[masks[source]] for source in self.blocked}

    # What is tried together

    def edges(self, source: str) -> list[str]:
        """What is tried together with a source that is not blocked: where one source alone mends a fault that one, else a choice."""
        if source not in self.edges_of:
            able = [(found.fault, found.fault.mends - self.blocked.keys()) for found in self.faults[source]]
            chosen = {next(iter(mends)) for _, mends in able if len(mends) == 1}
            for fault, mends in able:
                if mends and not mends & chosen and source not in mends:
                    chosen.add(self.choice(fault, mends))
            self.edges_of[source] = sorted(chosen - {source})
        return self.edges_of[source]

    def choice(self, fault: Fault, mends: Iterable[str]) -> str:
        """Of several sources that would mend a fault the one to try: its own, or one with few faults."""
        return min(mends, key=lambda s: (s != fault.source, len(self.faults.get(s, ())), s))

    def closure(self, sources: Iterable[str]) -> set[str]:
        inside = set(sources)
        todo = list(inside)
        while todo:
            fresh = set(self.edges(todo.pop())) - inside
            inside |= fresh
            todo += fresh
        return inside

    def groups(self, sources: Collection[str]) -> list[list[str]]:
        """Sources that call for each other, as groups, each after those that it calls for."""
        return groups_of(sorted(sources), self.edges)


def groups_of(sources: Iterable[str], edges: Edges) -> list[list[str]]:
    """The strong components of a graph, each after those that it leads to (Tarjan)."""
    search = Components(edges)
    for source in sources:
        search.walk(source)
    return search.found


class Components:
    """Tarjan's search, with a stack of its own in place of calls."""

    def __init__(self, edges: Edges) -> None:
        self.edges, self.found = edges, list[list[str]]()
        self.number: dict[str, int] = {}
        self.low: dict[str, int] = {}
        self.stack: dict[str, None] = {}

    def enter(self, node: str) -> tuple[str, list[str]]:
        self.number[node] = self.low[node] = len(self.number)
        self.stack[node] = None
        return node, list(reversed(self.edges(node)))

    def walk(self, root: str) -> None:
        work = [self.enter(root)] if root not in self.number else []
        while work:
            node, rest = work[-1]
            if not rest:
                work.pop()
                self.leave(node, work[-1][0] if work else None)
                continue
            other = rest.pop()
            if other not in self.number:
                work.append(self.enter(other))
            elif other in self.stack:
                self.low[node] = min(self.low[node], self.number[other])

    def leave(self, node: str, above: str | None) -> None:
        if above is not None:
            self.low[above] = min(self.low[above], self.low[node])
        if self.low[node] == self.number[node]:
            group = [self.stack.popitem()[0]]
            while group[-1] != node:
                group.append(self.stack.popitem()[0])
            self.found.append(sorted(group))
