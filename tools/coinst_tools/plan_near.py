"""The packages that groups of sources bear on, in an index with switches: it can do without the others.

A package **reaches** what may meet one of its needs, and all that this reaches, and itself. It is **touched** if some group brings it or takes
it away. A **rival** of some packages conflicts with one of them, or has the name of another of them. What is kept is

- the names of which some package reaches a touched one;
- the names of which some package reaches a rival of what the former reach;
- all that these reach.

Of no other name can the groups change what can be installed, alone or beside another. docs/PLANS.md has the proof.
"""

from __future__ import annotations

from collections.abc import Callable, Iterable, Set

from .plan_always import Always
from .plan_mixes import Member


class Near:
    """The packages of an index, and which of them the others reach by the needs that what is always there does not meet."""

    def __init__(self, always: Always, packages: Set[Member]) -> None:
        self.suites, self.count, self.packages = always.suites, always.count, packages

    def kept(self, touched: Iterable[Member]) -> set[Member]:
        affected = self.namesakes(self.reaching(touched))
        beside = self.namesakes(self.reaching(self.rivals(self.reach(affected))))
        return self.reach(affected | beside)

    def reaching(self, packages: Iterable[Member]) -> set[Member]:
        """What reaches some packages."""
        return self.closure(packages, lambda p: self.suites.users.get(p, ()), self.suites.owners.__getitem__)

    def reach(self, packages: Iterable[Member]) -> set[Member]:
        """What some packages reach."""
        return self.closure(packages, lambda p: p.needs, self.suites.meeting)

    def closure(self, packages: Iterable[Member], of: Callable[[Member], Iterable[str]], to: Callable[[str], Iterable[Member]]) -> set[Member]:
        """Some packages and all that they lead to, each by elements that lead to others."""
        inside, asked = set(packages), set[str]()
        todo = list(inside)
        while todo:
            for element in of(todo.pop()):
                if element not in asked and not self.count[element]:
                    asked.add(element)
                    fresh = [p for p in to(element) if p in self.packages and p not in inside]
                    inside.update(fresh)
                    todo += fresh
        return inside

    def namesakes(self, packages: Iterable[Member]) -> set[Member]:
        """All packages of the names of some."""
        return {p for name in {p.name for p in packages} for p in self.suites.named(name) if p in self.packages}

    def rivals(self, packages: Iterable[Member]) -> set[Member]:
        """What conflicts with one of some packages, or has the name of another of them."""
        found: set[Member] = set()
        for package in packages:
            found.update(self.suites.clashes.get(package, ()))
            found.update(other for other in self.suites.named(package.name) if other is not package)
        return found & self.packages
