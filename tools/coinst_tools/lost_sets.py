"""All minimal sets of names that NEW has lost, of any size: from the two kernels that the program prints.

A set is lost if OLD can install it and NEW cannot; it is minimal if NEW can install each smaller one.

How it is found, and why it is all of them. In a kernel every need is of classes, and a class may have: features, the classes that it
cannot do without (its needs of one class, followed to the end, and itself); and choices, its needs of several classes, and those of
its features. Both are called parts here. A problem is a set of parts that cannot be together.

    start   two features that conflict are a problem; so is a choice of nothing
    rule    let c be a choice of d1 .. dn, and for each di let Pi be a problem with a part of di. Then c, and what is left
            of all Pi without the parts of their di, is a problem

Sound: an installation with all these parts has some di, and with it all of Pi. Complete: if the parts of a set S cannot be
together, some problem lies within them. By induction on the choices that are not met: if none is open, the features are an
installation unless two conflict. Else take an open choice c. With each di the parts of S and of di cannot be together either, and less is
open; so there is a problem Pi within them. Either it is within those of S, or the rule gives one that is. So the closure of the rule
has every minimal problem, whatever its size; nothing is cut off, and it ends since there are finitely many sets of parts. A problem is left
out if another holds wherever it does: each of the other's parts is one of its own, or is implied by one. A feature implies what it cannot
do without and the choices of these, and a class that has the feature has all that too, also a choice that is met already.

A lost minimal set S has parts that hold a problem P, and each of its members gives a part of P that no other does. So S is found by
giving each part of P to a kind of names that has it, and what comes out is tried: OLD's problems say whether OLD could, NEW's whether less
than S is lost already. A kind is the names with the same classes in both kernels, which are alike in every question.
"""

from __future__ import annotations

import collections
import itertools
from collections.abc import Iterable, Iterator, Sequence

MOST_STEPS = 1_000_000  # of the rule on one kernel; Debian's sid takes 101,219
MOST_CHOICES = 2_000  # of one kernel; Debian's sid has 220, Debian 12 with its security archive 31,550
MOST_PROBLEMS = 10_000  # of one kernel at a time; Debian's sid has 2,047

MOST_OPEN = 30  # groups that a set is tried with

Bits = int  # a set of parts, or of kinds, by their numbers
Classes = frozenset[int]
Kinds = tuple[int, ...]


class TooMany(Exception):
    """The rule was used too often: the kernel has too many choices that bear on each other."""


def bits_of(number: Bits) -> Iterator[int]:
    while number:
        low = number & -number
        yield low.bit_length() - 1
        number ^= low


def minimal(sets: Iterable[Bits]) -> set[Bits]:
    """Those of the sets that no smaller one lies within."""
    kept: list[Bits] = []
    for one in sorted(sets, key=int.bit_count):
        if not any(other & ~one == 0 for other in kept):
            kept.append(one)
    return set(kept)


class Kernel:
    """What `coinst kernel` printed, line by line in words."""

    def __init__(self, lines: Iterable[Sequence[str]]):
        self.classes: list[list[tuple[str, str]]] = []
        self.needs: list[list[Classes]] = []
        self.against: list[set[int]] = []
        self.named: dict[str, list[int]] = collections.defaultdict(list)
        for word, *rest in lines:
            if word == "class":
                self.add_class()
            elif word == "member":
                self.classes[-1].append((rest[0], rest[1]))
                self.named[rest[0]].append(len(self.classes) - 1)
            elif word == "needs":
                self.needs[-1].append(frozenset(map(int, rest)))
            elif word == "against":
                self.against[-1].update(map(int, rest))
        for one, others in enumerate([set(others) for others in self.against]):
            for other in others:
                self.against[other].add(one)

    def add_class(self) -> int:
        self.classes.append([])
        self.needs.append([])
        self.against.append(set())
        return len(self.classes) - 1

    def goal_class(self, classes: Classes) -> int:
        """The class of a name: its only one, or one more that needs any of them."""
        if len(classes) == 1:
            return min(classes)
        goal = self.add_class()
        self.needs[goal].append(classes)
        return goal

    def features(self, start: int) -> Classes:
        """The classes that a class cannot do without."""
        inside, todo = {start}, [start]
        while todo:
            for need in self.needs[todo.pop()]:
                if len(need) == 1 and not need <= inside:
                    inside |= need
                    todo += need
        return frozenset(inside)


class Problems:
    """Sets of parts that cannot be together, none within another; `implied` says which parts come with one."""

    def __init__(self, implied: dict[int, Bits]):
        self.implied = implied
        self.above: dict[Bits, Bits] = {}
        self.having: dict[int, set[Bits]] = collections.defaultdict(set)

    def up(self, problem: Bits) -> Bits:
        """All parts that the parts of a problem imply."""
        found = 0
        for part in bits_of(problem):
            found |= self.implied[part]
        return found

    def least(self, problem: Bits) -> Bits:
        """Without the parts that other parts of it imply."""
        for part in bits_of(problem):
            rest = problem & ~(1 << part)
            if rest and self.up(rest) >> part & 1:
                problem = rest
        return problem

    def keep(self, problem: Bits) -> bool:
        """Puts a problem in unless one that is there says more, and takes out those that say less; whether it was put in."""
        problem = self.least(problem)
        above = self.up(problem)
        if problem in self.above or any(other & ~above == 0 for part in bits_of(above) for other in self.having[part]):
            return False
        for other in self.weaker(problem):
            self.drop(other)
        self.above[problem] = above
        if len(self.above) > MOST_PROBLEMS:
            raise TooMany("more than %d problems" % MOST_PROBLEMS)
        for part in bits_of(problem):
            self.having[part].add(problem)
        return True

    def weaker(self, problem: Bits) -> list[Bits]:
        """The problems that hold wherever this one does."""
        return [other for other, above in self.above.items() if problem & ~above == 0]

    def drop(self, problem: Bits) -> None:
        del self.above[problem]
        for part in bits_of(problem):
            self.having[part].discard(problem)

    def rests(self, parts: Bits) -> set[Bits]:
        """What is left of each problem with one of these parts, without all of them."""
        return minimal({problem & ~parts for part in bits_of(parts) for problem in self.having[part]})


class Parts:
    """The parts of all classes as bits, and the problems of parts."""

    def __init__(self, kernel: Kernel):
        self.kernel = kernel
        self.number: dict[int | Classes, int] = {}
        self.what: list[int | Classes] = []
        self.of = [self.bits(c) for c in range(len(kernel.classes))]
        implied = {part: self.of[what] if isinstance(what, int) else 1 << part for part, what in enumerate(self.what)}
        self.found, self.steps = Problems(implied), 0
        self.saturate()
        self.problems = sorted(self.found.above, key=lambda problem: (problem.bit_count(), problem))

    def part(self, what: int | Classes) -> Bits:
        if what not in self.number:
            self.number[what] = len(self.what)
            self.what.append(what)
        return 1 << self.number[what]

    def bits(self, start: int) -> Bits:
        """The parts of a class; a feature without conflicts bears on nothing. A choice that a feature meets is a part too."""
        found = 0
        for c in self.kernel.features(start):
            if self.kernel.against[c]:
                found |= self.part(c)
            for need in self.kernel.needs[c]:
                if len(need) != 1:
                    found |= self.part(need)
        return found

    def starts(self) -> Iterator[Bits]:
        for what, part in self.number.items():
            if isinstance(what, int):
                yield from (1 << part | 1 << self.number[other] for other in self.kernel.against[what] if what < other)
            elif not what:
                yield 1 << part

    def saturate(self) -> None:
        """The closure of the rule under subsumption."""
        choices = [what for what in self.what if not isinstance(what, int) and what]
        if len(choices) > MOST_CHOICES:
            raise TooMany("%d choices in a kernel, more than %d" % (len(choices), MOST_CHOICES))
        for problem in self.starts():
            self.found.keep(problem)
        while any([self.resolve(choice) for choice in choices]):
            pass

    def resolve(self, choice: Classes) -> bool:
        """The rule for one choice; whether anything came out that was not there."""
        out = {1 << self.number[choice]}
        for d in choice:
            rests = self.found.rests(self.of[d])
            self.steps += len(out) * len(rests)
            if self.steps > MOST_STEPS or len(out) * len(rests) > MOST_PROBLEMS:
                raise TooMany("more than %d steps of the rule, or %d in one" % (MOST_STEPS, MOST_PROBLEMS))
            out = minimal({one | rest for one in out for rest in rests})
            if not out:
                return False
        return any([self.found.keep(problem) for problem in out])


class Side:
    """One suite, seen by the kinds of names: the parts of each kind, who has a part, and which kinds cannot be together."""

    def __init__(self, kernel: Kernel, goals: Sequence[Classes]):
        classes = [kernel.goal_class(goal) for goal in goals]
        self.parts = Parts(kernel)
        self.has = [self.parts.of[c] for c in classes]
        self.owners: dict[int, Bits] = collections.defaultdict(int)
        for kind, has in enumerate(self.has):
            for part in bits_of(has):
                self.owners[part] |= 1 << kind
        self.dead, self.foes = 0, [0] * len(goals)
        self.wide = [problem for problem in self.parts.problems if problem.bit_count() > 2]
        self.filed: dict[int, list[Bits]] = collections.defaultdict(list)  # the wide ones by the part that fewest kinds have
        for problem in self.wide:
            self.filed[min(bits_of(problem), key=lambda part: self.owners[part].bit_count())].append(problem)
        self.rarest = sum(1 << part for part in self.filed)
        for problem in self.parts.problems:
            self.add_foes(problem)

    def all_of(self, parts: Bits) -> Bits:
        """The kinds that have all these parts."""
        found = -1
        for part in bits_of(parts):
            found &= self.owners[part]
        return found

    def any_of(self, parts: Bits) -> Bits:
        """The kinds that have some of these parts."""
        found = 0
        for part in bits_of(parts):
            found |= self.owners[part]
        return found

    def add_foes(self, problem: Bits) -> None:
        for kind in bits_of(self.any_of(problem)):
            rest = problem & ~self.has[kind]
            if rest:
                self.foes[kind] |= self.all_of(rest)
            else:
                self.dead |= 1 << kind

    def grouped(self, sets: Iterable[Kinds]) -> list[tuple[Kinds, list[Kinds]]]:
        """The sets in groups, each with all kinds of it, which can be together: each set goes to the first of some groups that takes it."""
        groups: list[Group] = []
        for kinds in sets:
            if not (group := next((group for group in groups[-MOST_OPEN:] if group.fits(kinds)), None)):
                groups.append(group := Group(self))
            group.put(kinds)
        return [(tuple(bits_of(group.kinds)), group.sets) for group in groups]

    def can(self, kinds: Iterable[int]) -> bool:
        """Whether these kinds, of which each two can be together, can all be."""
        have = self.parts_of(kinds)
        return all(problem & ~have for part in bits_of(have & self.rarest) for problem in self.filed[part])

    def parts_of(self, kinds: Iterable[int]) -> Bits:
        found = 0
        for kind in kinds:
            found |= self.has[kind]
        return found


class Group:
    """Sets of kinds that can all be together."""

    def __init__(self, side: Side):
        self.side = side
        self.sets: list[Kinds] = []
        self.kinds = self.has = self.foes = 0

    def fits(self, kinds: Kinds) -> bool:
        """Whether a set can be with all that are there; a problem that comes about has a part that they had not."""
        if any(self.foes >> kind & 1 for kind in kinds):
            return False
        has = self.side.parts_of(kinds) | self.has
        having = self.side.parts.found.having
        return all(problem & ~has for part in bits_of(has & ~self.has) for problem in having.get(part, ()))

    def put(self, kinds: Kinds) -> None:
        self.sets.append(kinds)
        self.has |= self.side.parts_of(kinds)
        for kind in kinds:
            self.kinds |= 1 << kind
            self.foes |= self.side.foes[kind]


class Lost:
    """The kinds of the names of both suites, and the minimal sets of them that NEW has lost."""

    def __init__(self, old: Kernel, new: Kernel):
        names: dict[tuple[Classes, Classes], list[str]] = collections.defaultdict(list)
        for name in sorted(old.named.keys() & new.named.keys()):
            names[frozenset(old.named[name]), frozenset(new.named[name])].append(name)
        self.members = list(names.values())
        self.old = Side(old, [before for before, _ in names])
        self.new = Side(new, [after for _, after in names])
        self.alive = (1 << len(names)) - 1 & ~self.old.dead & ~self.new.dead

    def singles(self) -> list[int]:
        return list(bits_of(self.new.dead & ~self.old.dead))

    def pairs(self) -> Iterator[Kinds]:
        """The pairs of kinds that are lost."""
        for kind in bits_of(self.alive):
            for other in bits_of(self.new.foes[kind] & ~self.old.foes[kind] & self.alive):
                if kind < other:
                    yield kind, other

    def sets(self) -> dict[Kinds, Bits]:
        """All minimal lost sets of three kinds and more, each once, with a problem of NEW that it meets."""
        seen: dict[Kinds, Bits] = {}
        for problem in self.new.wide:
            parts = sorted(bits_of(problem), key=lambda part: self.new.owners[part].bit_count())
            for found in self.covers(problem, parts, (), self.alive):
                if len(found) > 2 and found not in seen and self.old.can(found) and self.is_least(found):
                    seen[found] = problem
        return seen

    def covers(self, left: Bits, parts: Sequence[int], chosen: Kinds, friends: Bits) -> Iterator[Kinds]:
        """Sets of kinds, each two of them together in both suites, that have all parts that are left."""
        if not left:
            yield tuple(sorted(chosen))
            return
        part = next(part for part in parts if left >> part & 1)
        for kind in bits_of(self.new.owners[part] & friends):
            with_it = friends & ~self.new.foes[kind] & ~self.old.foes[kind]
            rest = left & ~self.new.has[kind]
            if all(self.new.owners[part] & with_it for part in bits_of(rest)):
                yield from self.covers(rest, parts, (*chosen, kind), with_it)

    def is_least(self, found: Kinds) -> bool:
        return len(found) == 3 or all(self.new.can(smaller) for smaller in itertools.combinations(found, len(found) - 1))
