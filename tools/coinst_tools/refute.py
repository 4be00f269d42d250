"""The shortest refutation that is found for goals of an index."""

from __future__ import annotations

import typing

from .debian_index import Index
from .refutation import Refutation
from .refutation_groups import by_groups, has_versions
from .refutation_search import STEPS, Pair, Problem, by_conflicts


FEW = 20  # of so many steps one is for a search that tells all versions apart, if one by groups has found something


def not_longer(found: Refutation, other: Refutation | None) -> Refutation:
    """The first, but a second one that is shorter; the first is known as the shortest if the second is, and no shorter."""
    if other and other.lines < found.lines:
        return other
    found.least = bool(other and other.least)
    return found


def refutation(index: Index, words: typing.Sequence[str], pairs: typing.Sequence[Pair] | None, steps: int = STEPS) -> Refutation | None:
    """None if the search passed its limit, or if the goals can be together.

    `pairs`: conflicts that are enough, which give a first one and its length as a bound; None if no such are known. Then all conflicts that
    the goals reach are taken. If names have several versions, these are told apart as little as need be.
    """
    problem = Problem(index, words, None)
    if has_versions(problem):
        found = by_groups(problem, steps)
        if found:
            return not_longer(found, by_conflicts(problem, None, steps // FEW))
    first = by_conflicts(Problem(index, words, pairs), None, steps) if pairs is not None else None
    return by_conflicts(problem, first, steps)
