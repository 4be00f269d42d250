"""The part of an index that some goals reach: their packages, whatever has or provides a name that these need, and so on.

The program says of the goals in the part what is true of them in the index: an installation of the goals stays one without what lies beyond
the part, and no conflict with that can matter. Versions do not count here, so the part may have more than is reached.
"""

from __future__ import annotations

import re
import typing

from .debian_index import NEED, Index, Package

NAME = re.compile(r"(?:^|[,|])\s*([^\s:(,|]+)")


def bearers(index: Index, name: str) -> list[Package]:
    """The packages that have a name or provide it."""
    return [*index.named.get(name, ()), *(package for package, _ in index.provided.get(name, ()))]


def needs(package: Package) -> set[str]:
    """The names in the dependencies of a package."""
    return {name for kind in NEED for name in NAME.findall(", ".join(package.relations.get(kind, ())))}


def reached(index: Index, goals: typing.Iterable[str]) -> list[Package]:
    """The packages that goals of the index reach, with one of the home."""
    todo = [goal.partition("=")[0] for goal in goals]
    names = set(todo)
    inside: set[Package] = set()
    while todo:
        fresh = set(bearers(index, todo.pop())) - inside
        inside |= fresh
        wanted = {name for package in fresh for name in needs(package)} - names
        names |= wanted
        todo += wanted
    if inside and all(package.architecture == "all" for package in inside):
        inside |= {next((p for p in index.packages if p.architecture != "all"), min(inside, key=lambda p: p.place))}
    return sorted(inside, key=lambda package: package.place)
