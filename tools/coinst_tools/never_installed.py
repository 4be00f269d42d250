"""Which packages of an index can never be installed, and what is at the root of that.

The program makes the kernel. A class with a clause of nothing can never be installed. For the others installations are looked for here, whose
clauses and conflicts are then all looked at; the program is asked of each class that none was found for. So a no is the program's word.
"""

from __future__ import annotations

import collections
import dataclasses
import typing

from .debian_index import Index, Package
from .refutation import Conflict, Goal, Held, Nogood, Refutation

MOST_CHOICES = 3_000  # of one search for an installation; more is left to the program


@dataclasses.dataclass
class KernelClass:
    """A class of a printed kernel."""

    members: list[tuple[str, str]] = dataclasses.field(default_factory=list)
    needs: list[tuple[int, ...]] = dataclasses.field(default_factory=list)
    against: set[int] = dataclasses.field(default_factory=set)


def read_kernel(lines: typing.Iterable[str]) -> list[KernelClass]:
    """The classes of a kernel by its text."""
    classes: list[KernelClass] = []
    for line in lines:
        words = line.split()
        if words[0] == "class":
            classes.append(KernelClass())
        elif words[0] == "member":
            classes[-1].members.append((words[1], words[2]))
        elif words[0] == "needs":
            classes[-1].needs.append(tuple(map(int, words[1:])))
        elif words[0] == "against":
            classes[-1].against.add(int(words[1]))
    for number, one in enumerate(classes):
        for other in one.against:
            classes[other].against.add(number)
    return classes


class Installations:
    """Installations of a kernel, by a search with a limit."""

    def __init__(self, classes: list[KernelClass]) -> None:
        self.classes = classes
        self.can: set[int] = set()  # classes of an installation that was found
        self.choices = 0

    def find(self, number: int) -> bool:
        """Whether an installation with a class was found; all of its classes are kept."""
        self.choices = 0
        found = self.search({number}, set(self.classes[number].against), list(self.classes[number].needs))
        if found is not None and self.is_installation(found):
            self.can |= found
        return number in self.can

    def is_installation(self, some: set[int]) -> bool:
        """Whether each clause has a member, and no two members conflict."""
        met = all(any(n in some for n in clause) for number in some for clause in self.classes[number].needs)
        return met and not any(self.classes[number].against & some for number in some)

    def search(self, some: set[int], banned: set[int], open_: list[tuple[int, ...]]) -> set[int] | None:
        """An installation of some classes and more without those that are banned; None if none was found."""
        while True:
            left = [[n for n in clause if n not in banned] for clause in open_ if not any(n in some for n in clause)]
            if not left:
                return some
            clause = min(left, key=len)
            if len(clause) != 1:
                break
            some, banned, open_ = self.with_class(clause[0], some, banned, open_)
        for number in sorted(clause, key=lambda n: (n not in self.can, len(self.classes[n].against))):
            self.choices += 1
            if self.choices > MOST_CHOICES:
                return None
            found = self.search(*self.with_class(number, some, banned, open_))
            if found is not None:
                return found
        return None

    def with_class(
        self, number: int, some: set[int], banned: set[int], open_: list[tuple[int, ...]]
    ) -> tuple[set[int], set[int], list[tuple[int, ...]]]:
        mine = self.classes[number]
        still = [clause for clause in open_ if not any(n in some for n in clause)]
        return some | {number}, banned | mine.against, still + mine.needs


class Gap(typing.NamedTuple):
    """A dependency that nothing in the index satisfies."""

    owner: Package
    element: str


Root = typing.Union[Gap, Conflict]
Chain = typing.List[typing.Tuple[Package, str]]


class Reason(typing.NamedTuple):
    """Something at the root, with a chain of dependencies to its package, or to both of its packages."""

    root: Root
    chains: list[Chain]


def leaves(found: Refutation) -> list[Reason]:
    """The ends of a refutation, each with the chains that lead there."""
    reasons: list[Reason] = []
    seen: set[Nogood] = set()

    def chain(p: Held, came: dict[Package, tuple[Held, str]]) -> Chain:
        steps: Chain = []
        while not isinstance(p, Goal) and p in came:
            owner, element = came[p]
            if isinstance(owner, Goal):
                break
            steps.insert(0, (owner, element))
            p = owner
        return steps

    def walk(nogood: Nogood, came: dict[Package, tuple[Held, str]]) -> None:
        if nogood in seen:
            return
        seen.add(nogood)
        reason = found.why[nogood]
        if isinstance(reason, Conflict):
            reasons.append(Reason(reason, [chain(reason.one, came), chain(reason.other, came)]))
            return
        if not reason.ways and not isinstance(reason.owner, Goal):
            reasons.append(Reason(Gap(reason.owner, reason.element), [chain(reason.owner, came)]))
        for way in reason.ways:
            walk(way.nogood, {**came, way.package: (reason.owner, reason.element)})

    walk(found.root, {})
    return reasons


class Roots:
    """What is at the root of each package that can never be installed.

    Such a package has a dependency that only such packages satisfy, or none: then nothing satisfies it at all, or conflicts are at the root, and
    a refutation of the package has them.
    """

    def __init__(self, index: Index, never: typing.Collection[Package], refute: typing.Callable[[Package], Refutation | None]) -> None:
        self.index, self.never, self.refute = index, set(never), refute
        self.why: dict[Package, str] = {}
        self.of_conflicts: dict[Package, list[Reason]] = {}
        self.users: dict[Package, list[tuple[Package, str]]] = collections.defaultdict(list)
        self.count: dict[tuple[Package, str], int] = {}
        todo = [(p, e) for p in never for e in dict.fromkeys(p.needs) if all(q in self.never for q in index.meeting(e))]
        for p, e in todo:
            ways = self.index.meeting(e)
            self.count[p, e] = len(ways)
            for q in ways:
                self.users[q].append((p, e))
        self.spread([(p, e) for p, e in todo if not index.meeting(e)])
        owners = {p for p, _ in todo}
        for p in sorted(self.never, key=lambda p: (p in owners, p.place)):
            if p not in self.why and p not in self.of_conflicts:
                self.by_conflicts(p)

    def spread(self, reasons: list[tuple[Package, str]]) -> None:
        """Gives each package the first of its dependencies all of whose packages have a reason, the nearest first."""
        queue = []
        for p, e in reasons:
            if p not in self.why:
                self.why[p] = e
                queue.append(p)
        for p in queue:
            queue += self.give(p)

    def give(self, p: Package) -> list[Package]:
        """Those that have a reason now, since a package has one."""
        fresh = []
        for owner, element in self.users[p]:
            self.count[owner, element] -= 1
            if not self.count[owner, element] and owner not in self.why and owner not in self.of_conflicts:
                self.why[owner] = element
                fresh.append(owner)
        return fresh

    def by_conflicts(self, p: Package) -> None:
        found = self.refute(p)
        self.of_conflicts[p] = leaves(found) if found else []
        queue = self.give(p)
        for q in queue:
            queue += self.give(q)

    def reasons(self, package: Package) -> list[Reason]:
        """All that is at the root of a package."""
        out: list[Reason] = []
        seen: set[Package] = set()

        def walk(p: Package, chain: Chain) -> None:
            if p in seen:
                return
            seen.add(p)
            if p in self.of_conflicts:
                out.extend(Reason(reason.root, [chain + way for way in reason.chains]) for reason in self.of_conflicts[p])
                return
            ways = self.index.meeting(self.why[p])
            if not ways:
                out.append(Reason(Gap(p, self.why[p]), [chain]))
            for q in ways:
                walk(q, chain + [(p, self.why[p])])

        walk(package, [])
        return out
