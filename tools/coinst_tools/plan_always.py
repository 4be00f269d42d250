"""Packages that can be added to every installation, whatever comes: an index with switches can do without them.

Let U be the sources that may come. A package is **always there for the asking** if

- it is in each mix of sources of U;
- no other package of these mixes has its name, or a conflict with it;
- each of its needs is met by such a package.

All of them can be added to any installation of any of these mixes at once. So a need that one of them meets is no burden to anybody, and none
of them stands in a line of a comparison: they are left out, and such needs are struck. If U grows, there are fewer of them.
"""

from __future__ import annotations

import collections
import copy
from collections.abc import Iterable

from .debian_index import NEED, no_collection
from .plan_mixes import NEW, Member, Mix, Suites


class Always:
    """The packages that can be added to every installation of a mix of some sources; at first of none."""

    def __init__(self, suites: Suites) -> None:
        self.suites = suites
        self.sources: set[str] = set()
        here = [p for p in suites.packages if p.state != NEW]
        named = collections.Counter(p.name for p in here)
        clashing = suites.clashes
        self.packages = {p for p in here if named[p.name] == 1 and all(other.state == NEW for other in clashing.get(p, ()))}
        self.texts: dict[Member, tuple[tuple[bool, ...], str]] = {}
        with no_collection():
            self.count = {element: sum(p in self.packages for p in suites.meeting(element)) for element in suites.owners}
        self.drop([p for element, count in self.count.items() if not count for p in suites.owners[element]])

    def grow(self, sources: Mix) -> None:
        """Lets more sources come."""
        fresh = sources - self.sources
        if fresh:
            self.sources |= fresh
            for source in fresh:
                self.drop(self.suites.taken.get(source, ()))
                for package in self.suites.brought.get(source, ()):
                    self.drop(self.suites.named(package.name))
                    self.drop(self.suites.clashes.get(package, ()))

    def grown(self, sources: Mix) -> Always:
        """The same, where these sources may come too."""
        other = copy.copy(self)
        other.sources, other.packages, other.count = set(self.sources), set(self.packages), dict(self.count)
        other.grow(sources)
        return other

    def drop(self, packages: Iterable[Member]) -> None:
        """Takes packages out, and those with a need that no other meets."""
        todo = [p for p in packages if p in self.packages]
        while todo:
            package = todo.pop()
            if package in self.packages:
                self.packages.discard(package)
                for element in self.suites.users.get(package, ()):
                    self.count[element] -= 1
                    if not self.count[element]:
                        todo += [p for p in self.suites.owners[element] if p in self.packages]

    def relations_of(self, package: Member) -> dict[str, list[str]]:
        """The relations of a package, without the needs that are no burden."""
        count = self.count
        return {
            kind: [element for element in elements if kind not in NEED or not count[element]]
            for kind, elements in package.relations.items()
        }

    def text(self, package: Member) -> str:
        """Its stanza, without these needs; made anew only where other needs are struck."""
        struck = tuple([bool(self.count[element]) for element in package.needs])
        was, text = self.texts.get(package, (None, ""))
        if was != struck:
            more = (package.version, package.architecture)
            text = stanza_of(package.name, *more, self.relations_of(package)) if any(struck) else package.text
            self.texts[package] = struck, text
        return text


def stanza_of(name: str, version: str, architecture: str, relations: dict[str, list[str]]) -> str:
    lines = ["Package: " + name, "Version: " + version, "Architecture: " + architecture]
    return "\n".join(lines + [kind.title() + ": " + ", ".join(elements) for kind, elements in relations.items() if elements]) + "\n"
