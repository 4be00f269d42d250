"""Smallest sets that have a member of each of some sets."""

from __future__ import annotations

import typing

T = typing.TypeVar("T")
MOST_NODES = 20_000  # of one search


def hits(some: typing.Collection[T], sets: typing.Iterable[typing.FrozenSet[T]]) -> bool:
    """Whether some have a member of each set."""
    return all(any(member in some for member in one) for one in sets)


def greedy(sets: typing.Sequence[typing.FrozenSet[T]], order: typing.Callable[[T], int]) -> set[T]:
    """A set that hits all, by the member that hits most."""
    found: set[T] = set()
    left = list(sets)
    while left:
        members = sorted({member for one in left for member in one}, key=order)
        best = max(members, key=lambda member: sum(member in one for one in left))
        found.add(best)
        left = [one for one in left if best not in one]
    return found


def smallest(
    sets: typing.Sequence[typing.FrozenSet[T]], order: typing.Callable[[T], int], barred: typing.Sequence[typing.Set[T]] = ()
) -> tuple[set[T] | None, bool]:
    """A smallest set that hits all and has none of the barred ones within, and whether it is known that no smaller one does.

    None if there is no such set, or if none was found within the limit.
    """
    best: set[T] | None = greedy(sets, order)
    if any(one <= (best or set()) for one in barred):
        best = None
    nodes = 0

    def search(found: set[T], left: list[typing.FrozenSet[T]]) -> None:
        nonlocal best, nodes
        nodes += 1
        if nodes > MOST_NODES or any(one <= found for one in barred):
            return
        if not left:
            best = found if best is None or len(found) < len(best) else best
            return
        if best is not None and len(found) + apart(left) >= len(best):
            return
        _, place = min((len(one), place) for place, one in enumerate(left))
        for member in sorted(left[place], key=order):
            search(found | {member}, [one for one in left if member not in one])

    search(set(), list(sets))
    return best, nodes <= MOST_NODES


def apart(sets: typing.Sequence[typing.FrozenSet[T]]) -> int:
    """The number of some sets without a common member: so many members are wanted at least."""
    seen: set[T] = set()
    count = 0
    for one in sorted(sets, key=len):
        if not one & seen:
            seen |= one
            count += 1
    return count
