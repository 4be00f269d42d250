"""Finds a short refutation of goals, from the index and conflicts that are enough, or from all that the goals reach.

1. `Search.descend` searches from the goals: all unit steps, then the need with the fewest open ways; what a failed way teaches is kept. It
   is tried in several orders. If the end of a way does not need its choice, the split is left out.
2. `Upwards` makes nogoods from the conflicts upwards, the cheapest first (Knuth's generalisation of Dijkstra's rule), and leaves
   out all that cannot come below the length which 1 has reached. If it ends within its limit, no tree has fewer lines.

All limits are numbers of steps, so that one question has one answer.
"""

from __future__ import annotations

import bisect
import collections
import functools
import heapq
import itertools
import random
import typing

from .debian_index import AGAINST, Index, Package
from .refutation import Conflict, Goal, Held, Need, Nogood, Reason, Reasons, Refutation, Way, packages_in, tree_lines, without_repeats

ORDERS = 12  # of the search from the goals
STEPS = 300_000  # of one search; a step takes some microseconds
MOST_UNFOLDED = 2_000  # lines of a tree without lemmas that is gone through for repeated steps
LONGEST = 60  # lines that are looked for from the conflicts upwards if nothing was found from the goals

Element = typing.Tuple[str, typing.Sequence[Package]]
Pair = typing.Tuple[Package, Package]


class Without(typing.NamedTuple):
    """A nogood of a package, and what that package cannot be together with by it."""

    rest: Nogood
    nogood: Nogood


class TooLarge(Exception):
    """The search for a refutation passed its limit."""


class Limit:
    """Steps that are left to a search."""

    def __init__(self, steps: int) -> None:
        self.left = steps

    def spend(self, steps: int = 1) -> None:
        self.left -= steps
        if self.left < 0:
            raise TooLarge


def all_conflicts(index: Index, inside: typing.Collection[Package]) -> typing.Iterator[Pair]:
    """The conflicts among some packages."""
    for one in inside:
        declared = (other for kind in AGAINST for text in one.relations.get(kind, ()) for other in index.meeting(text))
        for other in itertools.chain(declared, index.named[one.name]):
            if other is not one and other in inside:
                yield one, other


class Problem:
    """The needs that count and the conflicts, among what the goals reach.

    A package is at ease if it has no conflict and each of its needs is satisfied by one that is at ease: the greatest such set. A need that
    one at ease satisfies can never fail, so it is left out; the others are hard.
    """

    def __init__(self, index: Index, words: typing.Iterable[str], pairs: typing.Iterable[Pair] | None) -> None:
        """`pairs`: the conflicts that count; without them, all."""
        self.index, self.goals = index, [Goal(word, -1 - place) for place, word in enumerate(words)]
        inside = index.reach(tuple(sorted({p.name for goal in self.goals for p in index.goal(goal.word)})))
        self.against: dict[Held, set[Package]] = collections.defaultdict(set)
        for one, other in all_conflicts(index, inside) if pairs is None else pairs:
            if one in inside and other in inside:
                self.against[one].add(other)
                self.against[other].add(one)
        elements: dict[Package, list[Element]] = {p: [(e, index.meeting(e)) for e in dict.fromkeys(p.needs)] for p in inside}
        self.hard = self.hard_needs(elements)
        self.far = self.distances()
        self.order = sorted(self.far, key=lambda p: p.place)

    @functools.cached_property
    def owners(self) -> dict[Package, list[tuple[Held, Element]]]:
        """The hard needs that each package satisfies, with their owners."""
        owners: dict[Package, list[tuple[Held, Element]]] = collections.defaultdict(list)
        for p in self.far:
            for element in self.hard[p]:
                for q in element[1]:
                    owners[q].append((p, element))
        return owners

    def hard_needs(self, elements: dict[Package, list[Element]]) -> dict[Held, list[Element]]:
        """The needs of packages and goals that may fail."""
        ease = self.at_ease(elements)

        def is_hard(element: Element) -> bool:
            return not any(q in ease for q in element[1])

        hard: dict[Held, list[Element]] = {p: list(filter(is_hard, mine)) for p, mine in elements.items()}
        for goal in self.goals:
            hard[goal] = list(filter(is_hard, [(goal.word, self.index.goal(goal.word))]))
        return hard

    def at_ease(self, elements: dict[Package, list[Element]]) -> set[Package]:
        """The packages without a conflict whose needs are all satisfied by such packages."""
        ease = {p for p in elements if p not in self.against}
        users: dict[Package, list[tuple[Package, str]]] = collections.defaultdict(list)
        count: dict[tuple[Package, str], int] = {}
        todo: list[Package] = []
        for p, mine in elements.items():
            for text, ways in mine:
                count[p, text] = sum(q in ease for q in ways)
                for q in ways:
                    users[q].append((p, text))
                if p in ease and not count[p, text]:
                    todo.append(p)
        while todo:
            p = todo.pop()
            if p not in ease:
                continue
            ease.discard(p)
            for owner, text in users[p]:
                count[owner, text] -= 1
                if not count[owner, text] and owner in ease:
                    todo.append(owner)
        return ease

    def distances(self) -> dict[Held, int]:
        """The number of steps from the goals to each package that a hard need leads to."""
        far: dict[Held, int] = {goal: 0 for goal in self.goals}
        queue: list[Held] = list(self.goals)
        for p in queue:
            for _, ways in self.hard[p]:
                for q in ways:
                    if q not in far:
                        far[q] = far[p] + (not isinstance(p, Goal))
                        queue.append(q)
        return far

    @functools.cached_property
    def known(self) -> Reasons:
        """What is a nogood at first: two packages in conflict."""
        return {frozenset((conflict.one, conflict.other)): conflict for conflict in self.conflicts()}

    @functools.cached_property
    def of_known(self) -> dict[Held, list[Without]]:
        """The first nogoods by their packages."""
        of: dict[Held, list[Without]] = collections.defaultdict(list)
        for nogood in self.known:
            for p in nogood:
                of[p].append(Without(nogood - {p}, nogood))
        return of

    def conflicts(self) -> typing.Iterator[Conflict]:
        """The conflicts among what hard needs lead to, each once."""
        for one in self.order:
            for other in sorted(self.against.get(one, ()), key=lambda p: p.place):
                if one.place < other.place and other in self.far and not isinstance(one, Goal):
                    yield Conflict(one, other)


class _Open(typing.NamedTuple):
    """A need of a package that is held, as long as nothing that is held satisfies it; `place` is that among the needs of the package.

    `free` is the number of its ways that no nogood shut when it was looked at, at the time `at`.
    """

    rank: float
    place: int
    owner: Held
    element: Element
    at: int = -1
    free: int = 0


class _Forced(typing.NamedTuple):
    """A unit step, with why its other ways are shut."""

    package: Package
    owner: Held
    text: str
    shut: list[tuple[Package, Nogood | None]]


class Search:
    """A search from the goals in one order of needs, and the nogoods that it learns."""

    def __init__(self, problem: Problem, seed: int, limit: Limit) -> None:
        self.problem, self.limit, self.why = problem, limit, dict(problem.known)
        self.of: dict[Held, list[Without]] = collections.defaultdict(list, {p: mine[:] for p, mine in problem.of_known.items()})  # short ones first
        self.model: frozenset[Held] = frozenset()  # what was held together at last without a nogood
        self.now, self.touched = 0, typing.cast(typing.Dict[Held, int], {})  # when what can shut a package was held or learnt at last
        luck = random.Random(seed)
        self.rank: dict[Held, float] = {p: (place if seed == 0 else luck.random()) for place, p in enumerate(problem.far)}
        limit.spend(len(self.why) // 4)

    def learn(self, nogood: Nogood, reason: Reason) -> Nogood:
        if nogood not in self.why:
            self.why[nogood] = reason
            self.now += 1
            for p in nogood:
                bisect.insort(self.of[p], Without(nogood - {p}, nogood), key=lambda one: len(one.rest))
                self.touched[p] = self.now
        return nogood

    def need(self, owner: Held, text: str, ways: typing.Iterable[Way]) -> Nogood:
        made = Need(owner, text, tuple(ways))
        return self.learn(made.nogood(), made)

    def hold(self, q: Package, held: set[Held]) -> list[_Open]:
        """Holds one more, whose needs are open then."""
        held.add(q)
        self.now += 1
        self.limit.spend(1 + len(self.of[q]) // 4)
        for one in self.of[q]:
            for p in one.rest:
                self.touched[p] = self.now
        return self.needs_of(q)

    def shut(self, q: Package, held: typing.Set[Held]) -> Nogood | None:
        """A nogood of q and what is held, the smallest."""
        mine = self.of[q]
        self.limit.spend(1 + len(mine) // 4)
        return next((nogood for rest, nogood in mine if rest <= held), None)

    def is_as_it_was(self, need: _Open) -> bool:
        """Whether no way of a need can have been shut since it was looked at: then less was held."""
        return need.at >= 0 and all(self.touched.get(q, 0) <= need.at for q in need.element[1])

    def back(self, trail: list[_Forced], nogood: Nogood) -> Nogood:
        """What a failure teaches of what was held before the unit steps."""
        for step in reversed(trail):
            if step.package in nogood:
                nogood = self.need(step.owner, step.text, [Way(q, n or nogood) for q, n in step.shut])
        return nogood

    def needs_of(self, p: Held) -> list[_Open]:
        return [_Open(self.rank[p], place, p, element) for place, element in enumerate(self.problem.hard[p])]

    def steps(self, held: set[Held], open_: list[_Open], trail: list[_Forced]) -> tuple[Nogood | None, list[_Open]]:
        """Takes all unit steps; what fails, if something does, and the needs that are open of those that were."""
        while True:
            known = len(held)
            waiting: list[_Open] = []
            for need in open_:
                text, ways = need.element
                if not held.isdisjoint(ways):
                    continue
                if self.is_as_it_was(need):
                    waiting.append(need)
                    continue
                shut = [(q, self.shut(q, held)) for q in ways]
                free = [q for q, nogood in shut if nogood is None]
                if not free:
                    return self.need(need.owner, text, [Way(q, n) for q, n in shut if n is not None]), []
                if len(free) > 1:
                    waiting.append(need._replace(at=self.now, free=len(free)))
                    continue
                trail.append(_Forced(free[0], need.owner, text, shut))
                open_ += self.hold(free[0], held)
            self.limit.spend(1 + len(open_) // 4)
            if len(held) == known:
                return None, waiting
            open_ = waiting

    def refute(self, goals: typing.Iterable[Held]) -> Nogood | None:
        """A nogood of goals; None if they can be together by these conflicts."""
        return self.descend(set(goals), [need for goal in goals for need in self.needs_of(goal)])

    def descend(self, held: set[Held], open_: list[_Open]) -> Nogood | None:
        """A nogood of what is held, whose needs are satisfied but for the open ones; None if it can be together by these conflicts."""
        trail: list[_Forced] = []
        nogood, waiting = self.steps(held, sorted(open_, key=lambda need: need[:2]), trail)
        if nogood is None and waiting:
            nogood = self.split(held, min(waiting, key=lambda need: (need.free, need.rank, need.place)), waiting)
        elif nogood is None:
            self.model = frozenset(held)
        return nogood and self.back(trail, nogood)

    def split(self, held: set[Held], need: _Open, open_: list[_Open]) -> Nogood | None:
        """The nogood of a need each of whose ways fails; that of one way, if its end does not need its choice."""
        text, packages = need.element
        ways: list[Way] = []
        for q in packages:
            nogood = self.shut(q, held)
            if nogood is None:
                more = set(held)
                nogood = self.descend(more, open_ + self.hold(q, more))
            if nogood is None or q not in nogood:
                return nogood
            ways.append(Way(q, nogood))
        return self.need(need.owner, text, ways)


class Upwards:
    """Nogoods from the conflicts upwards, the cheapest first, all below a bound."""

    def __init__(self, problem: Problem, bound: int, limit: Limit) -> None:
        self.problem, self.bound, self.limit = problem, bound, limit
        self.cost: dict[Nogood, int] = {}
        self.why: Reasons = {}
        self.of: dict[Held, list[Nogood]] = collections.defaultdict(list)
        self.queue: list[tuple[int, int, int, Nogood, Reason]] = []
        self.tie = itertools.count()

    def least(self, nogood: Nogood) -> int:
        """How many lines are wanted at least from a nogood to the goals."""
        rest = [self.problem.far[p] for p in nogood if not isinstance(p, Goal)]
        return max(max(rest, default=0), sum(distance > 0 for distance in rest))

    def offer(self, cost: int, nogood: Nogood, reason: Reason) -> None:
        if cost + self.least(nogood) < self.bound and nogood not in self.cost:
            heapq.heappush(self.queue, (cost, len(nogood), next(self.tie), nogood, reason))

    def search(self) -> Nogood | None:
        """The cheapest nogood of goals alone; None if there is none below the bound."""
        for conflict in self.problem.conflicts():
            self.offer(1, frozenset((conflict.one, conflict.other)), conflict)
        for p in self.problem.order:
            for text, ways in self.problem.hard[p]:
                if not ways:
                    self.offer(1, frozenset((p,)), Need(p, text, ()))
        while self.queue:
            cost, _, _, nogood, reason = heapq.heappop(self.queue)
            self.limit.spend(1 + sum(len(self.of[p]) for p in nogood) // 4)
            if nogood in self.cost or any(other <= nogood for p in nogood for other in self.of[p]):
                continue
            self.cost[nogood], self.why[nogood] = cost, reason
            for p in nogood:
                self.of[p].append(nogood)
            if all(isinstance(p, Goal) for p in nogood):
                return nogood
            self.go_on(cost, nogood)
        return None

    def go_on(self, cost: int, nogood: Nogood) -> None:
        """Offers what follows from a nogood and those that were found before."""
        for q in packages_in(nogood):
            self.limit.spend(len(self.problem.owners[q]) // 2)
            for owner, (text, ways) in self.problem.owners[q]:
                others = [w for w in ways if w is not q]
                if all(self.of[w] for w in others):
                    self.join(cost, nogood, Need(owner, text, tuple(Way(w, nogood) for w in ways)), others)

    def join(self, cost: int, nogood: Nogood, need: Need, others: list[Package]) -> None:
        """Offers a need with each choice of nogoods of its other ways."""
        base = cost + need.lines
        self.limit.spend(sum(len(self.of[w]) for w in others) // 8)
        choices = [[n for n in self.of[w] if self.cost[n] + base + len(others) - 1 < self.bound] for w in others]
        for chosen in itertools.product(*choices):
            self.limit.spend(1 + len(need.ways))
            total = base + sum(map(self.cost.__getitem__, chosen))
            if total < self.bound:
                of = dict(zip(others, chosen))
                made = Need(need.owner, need.element, tuple([Way(w.package, of.get(w.package, nogood)) for w in need.ways]))
                self.offer(total, made.nogood(), made)


def from_goals(problem: Problem, steps: int) -> Refutation | None:
    """The shortest refutation of some orders; None if these conflicts do not refute the goals."""
    best: Refutation | None = None
    limit = Limit(steps)
    for seed in range(ORDERS):
        try:
            search = Search(problem, seed, limit)
            root = search.refute(problem.goals)
        except TooLarge:
            break
        if root is None:
            return None
        found = Refutation(search.why, root, False)
        best = found if best is None or found.size < best.size else best
    if best is None:
        raise TooLarge
    return best


def shortened(problem: Problem, best: Refutation | None, steps: int) -> Refutation | None:
    """A refutation that is as short as one can be, or the one that is known."""
    bound = tree_lines(best.why, best.root) if best else LONGEST
    upwards = Upwards(problem, bound, Limit(steps))
    try:
        root = upwards.search()
    except TooLarge:
        return best
    if root is not None:
        found = Refutation(upwards.why, root, True)
        return found if best is None or found.lines <= best.lines else best
    if best:
        best.least = True
    return best


def polished(found: Refutation) -> Refutation:
    """The same refutation without steps that bring in what is held already."""
    if tree_lines(found.why, found.root) <= MOST_UNFOLDED:
        for _ in range(3):
            found = Refutation(*without_repeats(found.why, found.root), found.least)
    return found


def by_conflicts(problem: Problem, best: Refutation | None, steps: int) -> Refutation | None:
    """The shorter one of the best that is known and of what these conflicts give."""
    try:
        found = from_goals(problem, steps)
        if found is None:
            return best
    except TooLarge:
        found = None
    shorter = min((r for r in (best, found) if r), key=lambda r: r.size, default=None)
    ended = shortened(problem, shorter, steps)
    return ended and polished(ended)
