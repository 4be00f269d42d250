"""Puts lines together that are broken on the same architectures."""

from __future__ import annotations

import collections
import heapq
from collections.abc import Iterable, Mapping

from .broken_records import Group, Line, Names


def sides(pairs: Iterable[Line]) -> list[tuple[str, list[str]]]:
    """Pairs as (name, the names it stands against), each pair once, the name with the most first."""
    against: dict[str, set[str]] = collections.defaultdict(set)
    for one, other in pairs:
        against[one].add(other)
        against[other].add(one)
    heap, found = [(-len(others), name) for name, others in against.items()], []
    heapq.heapify(heap)
    while heap:
        count, name = heapq.heappop(heap)
        if -count != len(against[name]):  # some of its pairs have been taken since
            heapq.heappush(heap, (-len(against[name]), name))
        elif count:
            found.append((name, sorted(against[name])))
            for other in against[name]:
                against[other].discard(name)
            against[name] = set()
    return found


def groups_of(on_lines: Mapping[str, set[Line]]) -> list[Group]:
    """Groups of {architecture: lines}: each with the architectures that have just these, the widest first."""
    where: dict[Line, list[str]] = collections.defaultdict(list)
    for place, lines in on_lines.items():
        for line in lines:
            where[line].append(place)
    groups: dict[tuple[str, ...], list[Line]] = collections.defaultdict(list)
    for line, places in where.items():
        groups[tuple(places)].append(line)
    return [group(places, lines) for places, lines in sorted(groups.items(), key=lambda item: (-len(item[1]) * len(item[0]), item[0]))]


def group(places: Iterable[str], lines: Iterable[Line]) -> Group:
    names, pairs = ([line for line in lines if len(line) == size] for size in (1, 2))
    return Group(list(places), sorted(name for name, in names), len(pairs), sides(pairs))


def groups_of_names(found: Mapping[str, Iterable[str]]) -> list[Names]:
    """Names by the architectures that have just these."""
    groups = groups_of({place: {(name,) for name in names} for place, names in found.items()})
    return [Names(group.on, group.names) for group in groups]


def on_names(groups: Iterable[Names]) -> dict[str, set[str]]:
    """The names of each architecture."""
    found: dict[str, set[str]] = collections.defaultdict(set)
    for group in groups:
        for place in group.on:
            found[place].update(group.names)
    return found
