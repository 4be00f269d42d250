"""Refutations of indexes with several versions of many names: versions of a name as one, as long as that is enough.

A group is some versions of a name, at first all of them. It depends on what each of its members depends on: on the groups of all packages that
satisfy some dependency of each. Two groups conflict if all of their members do. A refutation by groups is one of packages: whichever members are
held, each step has its dependency and its packages. If there is none by groups, what the search ended with shows which names have to be
split into their versions, and it is tried again.
"""

from __future__ import annotations

import collections
import typing

from .debian_index import Package
from .refutation import Conflict, Goal, Held, Need, Nogood, Reasons, Refutation, Way, packages_in
from .refutation_search import Element, Limit, Problem, Search, TooLarge, polished, shortened

ORDERS = 4  # of the search from the goals
ROUNDS = 12  # of splitting names
LOOK = 8  # steps that a round takes for each package before it searches
MOST_REASONS = 20_000  # of a refutation of packages that is made from one by groups


class Group(Package):
    """Some versions of a name, in the place of a package."""

    def __init__(self, members: list[Package]) -> None:
        super().__init__(b"", 0, 0, members[0].place, members[0].name, "")
        self.members = members


class GroupProblem(Problem):
    """A problem of groups; the names of `split` have one for each version."""

    def __init__(self, packages: Problem, split: typing.Collection[str], last: GroupProblem | None = None) -> None:
        """`last`: a problem with fewer names split, whose groups and needs are taken over where they are the same."""
        self.packages, self.index, self.goals = packages, packages.index, packages.goals
        named: dict[str, list[Package]] = collections.defaultdict(list)
        for p in packages.order:
            if not isinstance(p, Goal):
                named[p.name].append(p)
        parts = [[p] for name, mine in named.items() for p in mine if name in split] + [mine for name, mine in named.items() if name not in split]
        there = {tuple(group.members): group for group in last.groups} if last else {}
        self.groups: list[Group] = [there.get(tuple(members)) or Group(members) for members in sorted(parts, key=lambda members: members[0].place)]
        self.of: dict[Package, Package] = {p: group for group in self.groups for p in group.members}
        self.element: dict[tuple[Held, str], dict[Held, str]] = {}
        self.met_by: dict[str, list[Package]] = {}
        self.hard = {goal: [(element[0], list(dict.fromkeys(self.of[q] for q in element[1]))) for element in packages.hard[goal]] for goal in self.goals}
        self.hard.update({group: self.needs_again(group, last) for group in self.groups})
        self.against = {group: self.foes(group) for group in self.groups}
        self.far = self.distances()
        self.order = sorted(self.far, key=lambda p: p.place)

    def groups_of(self, element: Element) -> list[Package]:
        """The groups that satisfy an element."""
        text, ways = element
        if text not in self.met_by:
            self.met_by[text] = list(dict.fromkeys(self.of[q] for q in ways))
        return self.met_by[text]

    def needs_again(self, group: Group, last: GroupProblem | None) -> list[Element]:
        """The needs of a group, as they were if none of the groups that they may mean was split since then."""
        if last and group in last.hard and all(self.of[q] is last.of[q] for p in group.members for _, ways in self.packages.hard[p] for q in ways):
            self.element.update({(group, text): last.element[group, text] for text, _ in last.hard[group]})
            return last.hard[group]
        return self.needs(group)

    def needs(self, group: Group) -> list[Element]:
        """The dependencies that all members have, as sets of groups."""
        first, *others = group.members
        found: list[Element] = []
        texts = [{element[0]: element for element in self.packages.hard[other]} for other in others]
        for element in self.packages.hard[first]:
            text, groups = element[0], self.groups_of(element)
            chosen: dict[Held, str] = {first: text}
            for other, his in zip(others, texts):
                fit = his.get(text) or self.fitting(other, groups)
                if fit is None:
                    break
                chosen[other] = fit[0]
                groups = list(dict.fromkeys([*groups, *self.groups_of(fit)]))
            else:
                self.element[group, text] = chosen
                found.append((text, groups))
        return found

    def fitting(self, member: Package, groups: list[Package]) -> Element | None:
        """The dependency of a member that adds the fewest groups to those of another member's, which it does not have itself."""
        best: tuple[int, Element] | None = None
        for element in self.packages.hard[member]:
            mine = self.groups_of(element)
            added = sum(group not in groups for group in mine)
            if (added < len(mine) or not mine) and (best is None or added < best[0]):
                best = added, element
        return best and best[1]

    def foes(self, group: Group) -> set[Package]:
        """The groups all of whose members conflict with all of this one's."""
        against = self.packages.against
        others = {self.of[q] for q in against.get(group.members[0], ()) if q in self.of} - {group}
        return {other for other in others if all(q in against.get(p, ()) for p in group.members for q in members_of(other))}

    # From groups to packages

    def in_packages(self, why: Reasons, root: Nogood) -> tuple[Reasons, Nogood]:
        """A refutation by groups as one of packages."""
        made: Reasons = {}
        known: dict[tuple[Nogood, Nogood], Nogood] = {}

        def walk(nogood: Nogood, held: dict[Held, Held]) -> Nogood:
            choice = frozenset(held[group] for group in nogood)
            if (nogood, choice) not in known:
                known[nogood, choice] = step(nogood, held)
                if len(known) > MOST_REASONS:
                    raise TooLarge
            return known[nogood, choice]

        def step(nogood: Nogood, held: dict[Held, Held]) -> Nogood:
            reason = why[nogood]
            if isinstance(reason, Conflict):
                one, other = packages_in(frozenset((held[reason.one], held[reason.other])))
                pair: Nogood = frozenset((one, other))
                made[pair] = Conflict(one, other)
                return pair
            owner = held[reason.owner]
            text = reason.element if isinstance(owner, Goal) else self.element[reason.owner, reason.element][owner]
            below = {way.package: way.nogood for way in reason.ways}
            ways: list[Way] = []
            for q in next(ways for element, ways in self.packages.hard[owner] if element == text):
                group = self.of[q]
                end = walk(below[group], {**{g: held[g] for g in below[group] if g is not group}, group: q})
                if q not in end:
                    return end
                ways.append(Way(q, end))
            need = Need(owner, text, tuple(ways))
            made[need.nogood()] = need
            return need.nogood()

        end = walk(root, {goal: goal for goal in root})
        return made, end

    # Which names to split

    def inexact(self, held: typing.Collection[Held]) -> set[str]:
        """Names whose versions differ in what matters among groups that were held together without a refutation."""
        groups = [group for group in packages_in(frozenset(held)) if len(members_of(group)) > 1]
        against = self.packages.against
        partly: set[str] = set()
        for group in groups:
            for other in {self.of[q] for p in members_of(group) for q in against.get(p, ()) if q in self.of and self.of[q] in held}:
                partly |= {group.name, other.name} if other is not group else set()
        return partly or self.partly_satisfied(held) or {group.name for group in groups}

    def partly_satisfied(self, held: typing.Collection[Held]) -> set[str]:
        """Names of which a dependency of what is held admits some versions alone."""
        found: set[str] = set()
        for group in packages_in(frozenset(held)):
            for p in members_of(group):
                for _, ways in self.packages.hard[p]:
                    found |= {q.name for q in ways if self.of[q] in held and not all(m in ways for m in members_of(self.of[q]))}
        return found


def members_of(group: Package) -> list[Package]:
    """The members of a group."""
    assert isinstance(group, Group)
    return group.members


def has_versions(problem: Problem) -> bool:
    """Whether some name has several versions among what matters."""
    names = [p.name for p in problem.far if not isinstance(p, Goal)]
    return len(set(names)) < len(names)


def of_groups(problem: GroupProblem, limit: Limit, steps: int) -> Refutation | set[str]:
    """The shortest refutation by groups that is found, or the names to be split."""
    best: Refutation | None = None
    for seed in range(ORDERS):
        try:
            search = Search(problem, seed, limit)
            root = search.refute(problem.goals)
        except TooLarge:
            if best is None:
                raise
            break
        if root is None:
            return problem.inexact(search.model)
        one = Refutation(search.why, root, False)
        best = one if best is None or one.size < best.size else best
    found = shortened(problem, best, steps)
    assert found
    return found


def by_groups(packages: Problem, steps: int) -> Refutation | None:
    """A refutation that tells versions apart as little as need be; None if none was found."""
    split: set[str] = set()
    problem: GroupProblem | None = None
    limit = Limit(steps)
    try:
        for _ in range(ROUNDS):
            limit.spend(LOOK * len(packages.order))
            problem = GroupProblem(packages, split, problem)
            found = of_groups(problem, limit, steps)
            if isinstance(found, Refutation):
                why, root = problem.in_packages(found.why, found.root)
                return polished(Refutation(why, root, False))
            if found <= split:
                return None
            split |= found
    except TooLarge:
        pass
    return None
