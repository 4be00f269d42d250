"""A refutation: why goals cannot be installed together, as steps that each follow from those before.

A nogood is a set of packages that cannot be together. There are two kinds of reason for one:

    conflict    a and b conflict                                             gives {a, b}
    need        p depends on e, which a1 .. an satisfy, and for each ai
                there is a nogood Ni with ai                                 gives {p} and all Ni without their ai

A relation that nothing satisfies is a need with n = 0. A unit step is a need all but one of whose Ni are conflicts with what is held, and a
split is any other. A goal is held, and depends on the packages that it names. The refutation is the reason of a nogood of goals alone. Each ai
is in its Ni, so no step and no branch stands there that the end does not need. tools/check_refutation.py has the form as JSON.
"""

from __future__ import annotations

import collections
import dataclasses
import sys
import typing

from .debian_index import Package

sys.setrecursionlimit(20_000)


@dataclasses.dataclass(frozen=True, eq=False)
class Goal:
    """A goal as a package that depends on those it names; `place` is below that of each package."""

    word: str
    place: int

    def __str__(self) -> str:
        return self.word


Held = typing.Union[Package, Goal]
Nogood = typing.FrozenSet[Held]


class Way(typing.NamedTuple):
    """A package that satisfies a relation, and a nogood that holds it."""

    package: Package
    nogood: Nogood


@dataclasses.dataclass(frozen=True)
class Conflict:
    """Two packages conflict."""

    one: Package
    other: Package

    @property
    def ways(self) -> tuple[Way, ...]:
        return ()

    @property
    def lines(self) -> int:
        return 1


@dataclasses.dataclass(frozen=True)
class Need:
    """A package or goal depends on an element, and each way to satisfy it fails."""

    owner: Held
    element: str
    ways: tuple[Way, ...]

    @property
    def lines(self) -> int:
        """A goal that names one package is no line."""
        return int(not (isinstance(self.owner, Goal) and len(self.ways) == 1))

    def nogood(self) -> Nogood:
        """What cannot be together by this reason."""
        return frozenset({self.owner}.union(*(way.nogood - {way.package} for way in self.ways)))


Reason = typing.Union[Conflict, Need]
Reasons = typing.Dict[Nogood, Reason]


def lines_of(why: Reasons, root: Nogood) -> int:
    """How many reasons a nogood rests on, each counted once."""
    seen: set[Nogood] = set()
    todo, lines = [root], 0
    while todo:
        nogood = todo.pop()
        if nogood not in seen:
            seen.add(nogood)
            lines += why[nogood].lines
            todo += [way.nogood for way in why[nogood].ways]
    return lines


def tree_lines(why: Reasons, nogood: Nogood, known: dict[Nogood, int] | None = None) -> int:
    """How many reasons a nogood rests on, each counted as often as it is used."""
    known = {} if known is None else known
    if nogood not in known:
        known[nogood] = why[nogood].lines + sum(tree_lines(why, way.nogood, known) for way in why[nogood].ways)
    return known[nogood]


def without_repeats(why: Reasons, root: Nogood) -> tuple[Reasons, Nogood]:
    """The same end without a step that brings in what is held already, as one has that was learnt when less was held."""
    new: Reasons = {}

    def walk(nogood: Nogood, held: Nogood) -> Nogood:
        reason = why[nogood]
        if isinstance(reason, Conflict):
            new[nogood] = reason
            return nogood
        for way in reason.ways:
            if way.package in held:
                return walk(way.nogood, held)
        ways: list[Way] = []
        for package, below in reason.ways:
            end = walk(below, held | {package})
            if package not in end:
                return end
            ways.append(Way(package, end))
        made = Need(reason.owner, reason.element, tuple(ways))
        new[made.nogood()] = made
        return made.nogood()

    end = walk(root, root)
    return new, end


class Refutation:
    """The reasons of a nogood of goals; `least` says that no tree has fewer lines."""

    def __init__(self, why: Reasons, root: Nogood, least: bool) -> None:
        self.root, self.least = root, least
        self.lines = lines_of(why, root)
        self.lemmas = find_lemmas(why, root)
        self.why = in_reading_order(why, root, self.lemmas)

    @property
    def goals(self) -> list[str]:
        return sorted(goal.word for goal in self.root if isinstance(goal, Goal))

    @property
    def size(self) -> tuple[int, int]:
        """Its lines with lemmas, and without."""
        return self.lines, tree_lines(self.why, self.root)

    def steps(self) -> typing.Iterator[Reason]:
        """All reasons, each once."""
        return iter(self.why[nogood] for nogood in below(self.why, self.root))

    def json(self) -> dict[str, typing.Any]:
        """The form that tools/check_refutation.py reads."""
        number = {nogood: place for place, nogood in enumerate(self.lemmas)}

        def node(nogood: Nogood, top: bool = False) -> dict[str, typing.Any]:
            reason = self.why[nogood]
            if nogood in number and not top:
                return {"lemma": number[nogood]}
            if isinstance(reason, Conflict):
                return {"conflict": [key(reason.one), key(reason.other)]}
            either = [[key(way.package), node(way.nogood)] for way in reason.ways]
            if isinstance(reason.owner, Goal):
                return {"goal": reason.owner.word, "either": either}
            return {"package": key(reason.owner), "relation": reason.element, "either": either}

        lemmas = [{"together": sorted(key(p) for p in packages_in(n)), "fails": node(n, True)} for n in self.lemmas]
        return {"goals": self.goals, "lemmas": lemmas, "fails": node(self.root)}


def key(package: Package) -> list[str]:
    return [package.name, package.version]


def packages_in(nogood: Nogood) -> list[Package]:
    """The packages of a nogood, goals left out, in the order of the index."""
    return sorted((p for p in nogood if not isinstance(p, Goal)), key=lambda p: p.place)


def below(why: Reasons, root: Nogood) -> list[Nogood]:
    """A nogood after all that it rests on, each once."""
    order: list[Nogood] = []
    seen: set[Nogood] = set()

    def walk(nogood: Nogood) -> None:
        if nogood not in seen:
            seen.add(nogood)
            for way in why[nogood].ways:
                walk(way.nogood)
            order.append(nogood)

    walk(root)
    return order


def find_lemmas(why: Reasons, root: Nogood) -> list[Nogood]:
    """The nogoods of packages that are used more than once and take more than two lines, the lowest first."""
    order = below(why, root)
    uses = collections.Counter(way.nogood for nogood in order for way in why[nogood].ways)
    plain = [n for n in order if uses[n] > 1 and not any(isinstance(p, Goal) for p in n)]
    return [n for n in plain if lines_of(why, n) > 2]


def is_short(why: Reasons, way: Way, lemmas: typing.Container[Nogood] = ()) -> bool:
    """Whether the failure of a way fits into one clause: a conflict, a lemma, or one need of its package that fails at once."""
    reason = why[way.nogood]
    if way.nogood in lemmas or isinstance(reason, Conflict):
        return True
    if reason.owner is not way.package or len(reason.ways) > 1:
        return False
    return all(isinstance(why[under.nogood], Conflict) or under.nogood in lemmas for under in reason.ways)


class _Step(typing.NamedTuple):
    """A unit step: the need, and its only way that goes on."""

    need: Need
    way: Way

    def can_come(self, later: typing.Container[Held]) -> bool:
        """Whether all is there that the step speaks of."""
        sides = (p for side in self.need.ways if side is not self.way for p in side.nogood if p is not side.package)
        return self.need.owner not in later and all(p not in later for p in sides)


def in_reading_order(why: Reasons, root: Nogood, lemmas: typing.Sequence[Nogood]) -> Reasons:
    """The same reasons with unit steps in an order that reads well: a step goes on with the package of the last one if it can."""
    new: Reasons = {}

    def main_way(nogood: Nogood) -> Way | None:
        """The only way whose failure is long, if there is one."""
        long = [way for way in why[nogood].ways if not is_short(why, way, lemmas)]
        return long[0] if len(long) == 1 else None

    def unit_steps(top: Nogood) -> tuple[list[_Step], Nogood]:
        steps: list[_Step] = []
        nogood = top
        while (way := main_way(nogood)) and (nogood is top or nogood not in lemmas):
            need = why[nogood]
            assert isinstance(need, Need)
            steps.append(_Step(need, way))
            nogood = way.nogood
        return steps, nogood

    def walk(top: Nogood) -> None:
        if top in new:
            return
        steps, end = unit_steps(top)
        if end is not top and end in lemmas:
            walk(end)
        new.setdefault(end, why[end])
        for way in why[end].ways:
            walk(way.nogood)
        nogood = end
        for step in reversed(reordered(steps)):
            for way in step.need.ways:
                if way is not step.way:
                    walk(way.nogood)
            ways = tuple(Way(way.package, nogood) if way is step.way else way for way in step.need.ways)
            made = Need(step.need.owner, step.need.element, ways)
            nogood = made.nogood()
            new[nogood] = made
        assert nogood == top

    for lemma in lemmas:
        walk(lemma)
    walk(root)
    return new


def reordered(steps: list[_Step]) -> list[_Step]:
    """Unit steps, each after what it speaks of, and after the one that brings its package if that can be."""
    later: set[Held] = {step.way.package for step in steps}
    order: list[_Step] = []
    left = list(steps)
    while left:
        can = [step for step in left if step.can_come(later)]
        step = next((s for s in can if order and s.need.owner is order[-1].way.package), can[0])
        left.remove(step)
        order.append(step)
        later.discard(step.way.package)
    return order
