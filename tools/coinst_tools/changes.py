"""What has to give way so that goals can come: smallest sets of wishes that cannot all be kept beside them.

A wish is a goal that may be given up: an installed package at its version, or a name in any version. A search from the goals and the wishes that
are kept ends with an installation, or with a set of them that cannot be together: a core. Each set of wishes that is given up has one of
each core; the smallest that does is tried next, until one leads to an installation.
"""

from __future__ import annotations

import dataclasses
import typing

from .debian_index import Index
from .hitting import smallest
from .refutation import Goal
from .refutation_search import Limit, Problem, Search, TooLarge

STEPS = 600_000  # of all searches together; a step takes some microseconds
MOST_CORES = 600


@dataclasses.dataclass
class Answers:
    """Sets of wishes to give up, smallest first; the first core, if one was found; `is_open` if a limit was passed, and then no fewer than `least` are enough."""

    sets: list[set[str]]
    core: list[str]
    is_open: bool = False
    least: int = 0
    is_exact: bool = True

    @property
    def never(self) -> bool:
        """Whether the goals cannot come whatever is given up."""
        return not self.sets and not self.is_open


class Giving:
    """Finds what to give up."""

    def __init__(self, index: Index, goals: list[str], wishes: list[str], steps: int = STEPS) -> None:
        self.goals, self.wishes, self.place = goals, wishes, {word: place for place, word in enumerate(wishes)}
        self.problem = Problem(index, [*goals, *wishes], None)
        self.search = Search(self.problem, 0, Limit(steps))
        self.cores: list[frozenset[str]] = []
        self.least = 0  # as many wishes have to be given up at least

    def core(self, given: typing.Container[str]) -> list[str] | None:
        """Goals and wishes that cannot be together, of those that are not given up; None if all of these can."""
        left = self.problem.goals[: len(self.goals)] + [goal for goal in self.problem.goals[len(self.goals) :] if goal.word not in given]
        root = self.search.refute(left)
        return None if root is None else sorted((goal.word for goal in root if isinstance(goal, Goal)), key=lambda word: self.place.get(word, -1))

    def learn(self, core: list[str]) -> frozenset[str]:
        """The wishes of a core, which is kept."""
        wishes = frozenset(core[:]) & frozenset(self.place)
        self.cores.append(wishes)
        return wishes

    def apart(self, first: list[str]) -> bool:
        """Finds cores without common wishes; whether the goals can come if enough is given up."""
        given: set[str] = set()
        core: list[str] | None = first
        while core is not None:
            wishes = self.learn(core)
            if not wishes:
                return False
            self.least += 1
            given |= wishes
            core = self.core(given)
        return True

    def answers(self, most: int, slack: int) -> Answers:
        """Up to so many sets to give up, none of them larger than the first by more than the slack."""
        found = Answers([], [])
        try:
            first = self.core(())
            if first is None:
                return Answers([set()], [])
            found.core = first
            if self.apart(first):
                self.fill(found, most, slack)
        except TooLarge:
            found.is_open = not found.sets
        found.least = self.least
        return found

    def fill(self, found: Answers, most: int, slack: int) -> None:
        while len(found.sets) < most and len(self.cores) < MOST_CORES:
            given, is_exact = smallest(self.cores, lambda word: self.place[word], found.sets)
            found.is_exact = found.is_exact and is_exact
            self.least = max(self.least, len(given or ()) if found.is_exact and not found.sets else 0)
            if given is None or found.sets and len(given) > len(found.sets[0]) + slack:
                return
            core = self.core(given)
            if core is None:
                found.sets.append(given)
            else:
                self.learn(core)
        found.is_open = not found.sets
