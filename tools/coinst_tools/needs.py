"""What a package cannot do without, conflicts left aside, and the chains of needs that lead there.

A package is dead where it has an element that no living package meets: the dead are the least such set. The packages that lead
to a goal are the least set that holds the goal and each package with an element whose living packages are all in the set. So a
set that is closed under needs holds no package that leads to a goal without holding the goal.
"""

from __future__ import annotations

import collections
import functools
from collections.abc import Collection, Iterable, Mapping
from typing import NamedTuple

from .debian_index import NEED, PLACE, Index, Package

Chain = list[tuple[Package, str | None, int]]  # (package, element, how many packages meet it); the last element is None at a goal
Strike = Mapping[Package, Collection[tuple[str, str]]]  # elements of packages, by their kinds, that count for nothing


class Held(NamedTuple):
    """That a package is in a set: its place there, and the element that says so; a goal has none."""

    place: int
    element: str | None


Why = dict[Package, Held]


class Needs:
    """The dead packages, and who leads to whom, among those that some names reach."""

    def __init__(self, index: Index, names: Iterable[str], strike: Strike | None = None) -> None:
        self.index, self.strike = index, strike or {}
        self.owners: dict[str, list[Package]] = collections.defaultdict(list)
        self.met_with: dict[Package, list[str]] = collections.defaultdict(list)
        for package in sorted(index.reach(tuple(names)), key=PLACE):
            for element in dict.fromkeys(self.elements(package)):
                self.owners[element].append(package)
        self.living: dict[str, int] = {}
        for element in self.owners:
            meeting = index.meeting(element)
            self.living[element] = len(meeting)
            for package in meeting:
                self.met_with[package].append(element)
        self.unmet = [element for element, count in self.living.items() if not count]
        self.dead: Why = {}
        self.dead = self.spread((), self.unmet)
        for package in self.dead:
            for element in self.met_with[package]:
                self.living[element] -= 1
        self.leading_to = functools.lru_cache(None)(self.leading_to)  # type: ignore
        self.names_leading_to = functools.lru_cache(None)(self.names_leading_to)  # type: ignore
        self.forced = functools.lru_cache(None)(self.forced)  # type: ignore

    def elements(self, package: Package) -> list[str]:
        if package not in self.strike:
            return package.needs
        struck = self.strike[package]
        return [e for kind in NEED for e in package.relations.get(kind, ()) if (kind, e) not in struck]

    def spread(self, goals: Iterable[Package], elements: Iterable[str]) -> Why:
        """Which packages cannot be had without a goal, the nearest first, and which without one that meets an element."""
        why: Why = {goal: Held(place, None) for place, goal in enumerate(goals)}
        counts: collections.Counter[str] = collections.Counter()
        queue = list(why)

        def hold_owners(element: str) -> None:
            for owner in self.owners[element]:
                if owner not in why and owner not in self.dead:
                    why[owner] = Held(len(why), element)
                    queue.append(owner)

        for element in elements:
            hold_owners(element)
        for package in queue:
            for element in self.met_with[package]:
                counts[element] += 1
                if counts[element] == self.living[element]:
                    hold_owners(element)
        return why

    def leading_to(self, goals: tuple[Package, ...]) -> Why:
        """The packages that lead to a goal."""
        return self.spread(goals, ())

    def is_dead(self, name: str) -> bool:
        return all(package in self.dead for package in self.index.named[name])

    def names_leading_to(self, goals: tuple[Package, ...]) -> set[str]:
        """The names of which each package leads to a goal."""
        why = self.leading_to(goals)
        return {p.name for p in why if all(q in why for q in self.index.named[p.name])}

    def forced(self, name: str) -> frozenset[str]:
        """A name, and those that it cannot do without as one living package alone meets an element; there may be others."""
        packages = self.index.named[name]
        inside, todo = {name}, packages if len(packages) == 1 else []
        while todo:
            meeting = (self.index.meeting(element) for package in todo for element in self.elements(package))
            living = ([package for package in some if package not in self.dead] for some in meeting)
            todo = list({some[0].name: some[0] for some in living if len(some) == 1 and some[0].name not in inside}.values())
            inside.update(package.name for package in todo)
        return frozenset(inside)

    def chain_from(self, package: Package, why: Why) -> Chain:
        """The steps from a package to a goal, or to an element that nobody meets."""
        steps: Chain = []
        while True:
            element = why[package].element
            meeting = [p for p in self.index.meeting(element) if p in why] if element else []
            steps.append((package, element, len(meeting)))
            if not meeting:
                return steps
            package = min(meeting, key=lambda p: why[p].place)

    def chain(self, name: str, why: Why) -> Chain:
        return self.chain_from(min(self.index.named[name], key=lambda p: why[p].place), why)


def ways(starts: Iterable[Package], ends: Collection[Package], needs: Needs) -> list[Chain]:
    """A shortest way to each of these packages, forced or not, in the form of `Needs.chain`; none to what is not reached."""
    came: dict[Package, tuple[Package, str, int] | None] = dict.fromkeys(starts)
    left = set(ends)
    queue = list(came)
    for package in queue:
        left.discard(package)
        if not left:
            break
        for element in needs.elements(package):
            meeting = needs.index.meeting(element)
            for met in meeting:
                if met not in came:
                    came[met] = package, element, len(meeting)
                    queue.append(met)
    return [way_back(came, end) for end in ends if end in came]


def way_back(came: Mapping[Package, tuple[Package, str, int] | None], end: Package) -> Chain:
    steps: Chain = [(end, None, 0)]
    while step := came[steps[-1][0]]:
        steps.append(step)
    return steps[::-1]
