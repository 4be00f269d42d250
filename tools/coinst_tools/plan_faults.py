"""What a mix lacks once some sources have come, read off the relations: faults, and which further sources would mend them.

A fault is sure if it stays in every mix of these and further sources that has none of the sources that mend it. The rules of a plan:

- A name of OLD that OLD can install has a package whose needs are met, each by some package of the mix.
- A name of OLD that NEW has is in every mix.
- A new package comes with its needs, each met by some package of the mix, unless NEW itself cannot install its name.
- A source does not come while an architecture still has not built its newest version.

The first follows from what `compare` asks. Conflicts make no sure fault: they are the program's to judge.
"""

from __future__ import annotations

import dataclasses
from collections.abc import Iterable, Iterator

from .plan_mixes import NEW, OLD, Member, Mix, Suites

NEEDS, LOSES, MOVES, CLASHES, UNBUILT = "depends", "loses", "moves", "conflicts", "unbuilt"
WORDS = {
    NEEDS: "{owner} depends on {what}", LOSES: "{owner} depends on {what}, which goes", MOVES: "{owner} goes, and another source brings its name",
    CLASHES: "{owner} conflicts with {what}", UNBUILT: "the newest version of {owner} is not built yet",
}


@dataclasses.dataclass(frozen=True)
class Fault:
    """A package, its source, what it lacks or conflicts with, and the sources that would mend it."""

    kind: str
    owner: str
    source: str
    what: str
    mends: frozenset[str]
    sure: bool
    in_old: bool  # whether OLD can install the name of the package

    def text(self) -> str:
        return WORDS[self.kind].format(owner=self.owner, what=self.what)


@dataclasses.dataclass(frozen=True)
class Installable:
    """The names that OLD, and that NEW, can install, as the program says."""

    old: frozenset[str]
    new: frozenset[str]


class Faults:
    """Finds the faults of mixes of two suites."""

    def __init__(self, suites: Suites, can: Installable) -> None:
        self.suites, self.can = suites, can

    def of(self, group: Iterable[str], come: Mix = frozenset()) -> list[Fault]:
        """What a mix lacks with this group, and did not without it."""
        group = list(group)
        after = set(come) | set(group)
        found = list(self.unbuilt(group))
        born = [p for s in group for p in self.suites.brought.get(s, ())]
        dying = [p for p in dict.fromkeys(p for s in group for p in self.suites.taken.get(s, ())) if p.is_in(come)]
        found += self.of_names(dying, after)
        for package in born:
            found += self.of_needs(package, after)
            found += self.of_clashes(package, after)
        return found + list(self.of_lost(dying, set(born), after))

    def unbuilt(self, group: list[str]) -> Iterator[Fault]:
        for source in group:
            if source in self.suites.everywhere.unbuilt:
                yield Fault(UNBUILT, source, source, source, frozenset(), True, False)

    def of_names(self, dying: list[Member], after: Mix) -> Iterator[Fault]:
        """The names that go and that NEW has."""
        for package in dying:
            if package.name in self.suites.names[NEW] and not self.suites.has_name(package.name, after):
                mends = frozenset(p.source for p in self.suites.named(package.name) if p.state == NEW)
                yield Fault(MOVES, str(package), package.source, package.name, mends, True, package.name in self.can.old)

    def of_lost(self, dying: list[Member], born: set[Member], after: Mix) -> Iterator[Fault]:
        """What was there and lacks what goes."""
        for element in dict.fromkeys(element for package in dying for element in self.suites.users.get(package, ())):
            if not any(p.is_in(after) for p in self.suites.meeting(element)):
                for owner in self.suites.owners[element]:
                    if owner.is_in(after) and owner not in born:
                        yield from self.of_need(owner, element, after)

    def of_needs(self, package: Member, after: Mix) -> Iterator[Fault]:
        for element in dict.fromkeys(package.needs):
            if not any(p.is_in(after) for p in self.suites.meeting(element)):
                yield from self.of_need(package, element, after)

    def of_need(self, package: Member, element: str, after: Mix) -> Iterator[Fault]:
        """The fault of a package in a mix that does not meet its element, if anybody judges it."""
        if package.name in self.suites.may_break:
            return
        mends = {p.source for p in self.suites.meeting(element) if p.state == NEW and p.source not in after}
        kind = NEEDS if package.state == NEW else LOSES
        if package.name not in self.suites.names[OLD]:
            if package.name in self.can.new:
                yield Fault(kind, str(package), package.source, element, frozenset(mends), True, False)
        elif package.name in self.can.old:
            others = [p for p in self.suites.named(package.name) if p is not package]
            coming = {p.source for p in others if p.state == NEW and p.source not in after}
            sure = not any(p.is_in(after) for p in others)
            yield Fault(kind, str(package), package.source, element, frozenset(mends | coming | package.takers), sure, True)

    def of_clashes(self, package: Member, after: Mix) -> Iterator[Fault]:
        """The new conflicts of a package that comes with names of OLD; what NEW has in place of the other may mend them."""
        for other in self.suites.clashes.get(package, ()):
            if other.is_in(after) and self.is_new_conflict(package, other):
                peaceful = {p.source for p in self.suites.named(other.name) if p.state == NEW and p not in self.suites.clashes[package]}
                gone = {other.source} if other.takers and other.name not in self.suites.names[NEW] else set()
                mends = frozenset(peaceful - after | gone if other.state == OLD else ())
                yield Fault(CLASHES, str(package), package.source, str(other), mends, False, True)

    def is_new_conflict(self, one: Member, other: Member) -> bool:
        """Whether OLD has both names, without a conflict between them."""
        names = {one.name, other.name}
        if not names <= self.suites.names[OLD] or names & self.suites.may_break:
            return False
        were = [[p for p in self.suites.named(name) if p.state != NEW] for name in (one.name, other.name)]
        return not any(b in self.suites.clashes.get(a, ()) for a in were[0] for b in were[1])
