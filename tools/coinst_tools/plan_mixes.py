"""Two suites of one architecture as one set of packages, and the mixes of them that sources make.

A package is of both suites (the same name, version, architecture and relations), or of OLD alone, or of NEW alone. Binaries that NEW
still has of an older version of their source are no part of NEW. A source that comes brings its packages of NEW and takes away those
of OLD that it built, or whose name it brings. The mix of some sources is what both suites have, what these
bring, and of OLD what none of them takes away.
"""

from __future__ import annotations

import collections
import dataclasses
import functools
import hashlib
import re
from collections.abc import Iterable, Set
from typing import cast

from .debian_index import AGAINST, PLACE, TEXT, Index, Offers, Package, no_collection, packages_of, version_key

BOTH, OLD, NEW = "both", "old", "new"
LIBRARY = re.compile(rb"\nSection:[ \t]*(?:\S+/)?(?:libs|oldlibs)[ \t]*(?=\n|$)", re.I)
Mix = Set[str]


class Member(Package):
    """A package, the suite that it is of, and the sources that take it away."""

    __slots__ = ("state", "takers")
    state: str
    takers: frozenset[str]

    def is_in(self, come: Mix) -> bool:
        """Whether the mix of the sources has it."""
        return self.state == BOTH or (self.source in come if self.state == NEW else self.takers.isdisjoint(come))

    def is_library(self) -> bool:
        return LIBRARY.search(self.data, self.start - 1, self.end) is not None


class Pool(Index):
    """Packages of several files as one index."""

    def __init__(self, path: str, packages: list[Member]) -> None:
        self.path, self.packages = path, list[Package](packages)
        self.named, self.provided = collections.defaultdict(list), collections.defaultdict(list)
        for place, package in enumerate(packages):
            package.place = place
        self.home = next((p.architecture for p in packages if p.architecture != "all"), None)
        self.fill_tables()
        self.offers = Offers(self.named, self.provided)


@dataclasses.dataclass(frozen=True)
class Built:
    """What the new suite has of a source on one architecture: its newest version, and that of what is not of `all`."""

    newest: str
    of_home: str | None


@dataclasses.dataclass(frozen=True)
class Everywhere:
    """What is known of all architectures: the sources that the new suite has on any, and those not built yet on this one."""

    sources: Set[str]
    unbuilt: Set[str]


@dataclasses.dataclass(frozen=True)
class Rules:
    """What a plan may do: names that may break, old libraries that stay, sources of OLD that may go for themselves."""

    may_break: frozenset[str] = frozenset()
    smooth: bool = False
    remove: bool = False


def newest(versions: Iterable[str]) -> str | None:
    return max(versions, key=version_key, default=None)


class Files:
    """The packages of two files as they stand there; what NEW has of older versions of its sources is left out."""

    def __init__(self, old_path: str, new_path: str) -> None:
        self.paths = {OLD: old_path, NEW: new_path}
        with no_collection():
            self.old, every = (cast("list[Member]", packages_of(path, Member)) for path in (old_path, new_path))
            self.built = self.built_in(every)
            self.new = [p for p in every if p.source_version == self.built[p.source].newest]

    @staticmethod
    def built_in(packages: list[Member]) -> dict[str, Built]:
        versions: dict[str, set[str]] = collections.defaultdict(set)
        of_home: dict[str, set[str]] = collections.defaultdict(set)
        for package in packages:
            versions[package.source].add(package.source_version)
            if package.architecture != "all":
                of_home[package.source].add(package.source_version)
        return {s: Built(newest(mine) or "", newest(of_home[s]) if s in of_home else None) for s, mine in versions.items()}

    def all_packages(self) -> list[Member]:
        """Each package once, with the suite that it is of."""
        there = {(p.name, p.version): p for p in self.old}
        packages = list(self.old)
        for package in self.old:
            package.state = OLD
        for package in self.new:
            same = there.get((package.name, package.version))
            if same and (same.raw() == package.raw() or same.text == package.text):
                same.state = BOTH
            else:
                package.state = NEW
                packages.append(package)
        return packages


class Suites:
    """OLD and NEW of one architecture, linked by what each source brings and takes away."""

    def __init__(self, files: Files, everywhere: Everywhere, rules: Rules) -> None:
        self.files, self.rules, self.everywhere = files, rules, everywhere
        with no_collection():
            self.packages = files.all_packages()
            self.pool = Pool(files.paths[NEW], self.packages)
            self.names = {OLD: {p.name for p in files.old}, NEW: {p.name for p in files.new}}
            self.link_sources()
        self.met: dict[str, list[Member]] = {}
        self.may_break = rules.may_break | {p.name for p in self.packages if self.stays(p)}

    def link_sources(self) -> None:
        self.brought: dict[str, list[Member]] = collections.defaultdict(list)
        self.taken: dict[str, list[Member]] = collections.defaultdict(list)
        builders: dict[str, list[str]] = collections.defaultdict(list)
        for package in self.packages:
            if package.state == NEW:
                self.brought[package.source].append(package)
                builders[package.name].append(package.source)
        for package in self.packages:
            package.takers = self.takers_of(package, builders.get(package.name, ()))
            for source in package.takers:
                self.taken[source].append(package)
        self.sources = self.brought.keys() | self.taken.keys()

    def takers_of(self, package: Member, builders: Iterable[str]) -> frozenset[str]:
        if package.state != OLD or self.stays(package):
            return frozenset()
        may_go = self.rules.remove or package.source in self.everywhere.sources
        return frozenset([package.source, *builders] if may_go else builders)

    def stays(self, package: Member) -> bool:
        """Whether an old library stays in all mixes; nobody judges it then."""
        return (
            self.rules.smooth and package.state == OLD and package.name not in self.names[NEW]
            and package.source in self.files.built and package.is_library()
        )

    def named(self, name: str) -> list[Member]:
        return cast("list[Member]", self.pool.named.get(name, []))

    def meeting(self, element: str) -> list[Member]:
        """The packages of both suites that meet an element."""
        if element not in self.met:
            self.met[element] = cast("list[Member]", self.pool.meeting(element))
        return self.met[element]

    def has_name(self, name: str, come: Mix) -> bool:
        return any(p.is_in(come) for p in self.named(name))

    def reach(self, names: Iterable[str], come: Mix) -> list[Member]:
        """What the packages of some names in a mix may need there, to the end: whether these names can be installed is decided by it alone."""
        todo = [p for name in names for p in self.named(name) if p.is_in(come)]
        inside = set(todo)
        while todo:
            fresh = {p for element in todo.pop().needs for p in self.meeting(element) if p.is_in(come)} - inside
            inside |= fresh
            todo += fresh
        return sorted(inside, key=PLACE)

    @functools.cached_property
    def users(self) -> dict[Member, list[str]]:
        """For each package the needed elements that it meets."""
        found: dict[Member, list[str]] = collections.defaultdict(list)
        with no_collection():
            for element in self.owners:
                for package in self.meeting(element):
                    found[package].append(element)
        return found

    @functools.cached_property
    def owners(self) -> dict[str, list[Member]]:
        """For each element the packages that need it."""
        found: dict[str, list[Member]] = collections.defaultdict(list)
        for package in self.packages:
            for element in dict.fromkeys(package.needs):
                found[element].append(package)
        return found

    @functools.cached_property
    def clashes(self) -> dict[Member, set[Member]]:
        """The packages of other names that a package conflicts with."""
        declared: dict[str, list[Member]] = collections.defaultdict(list)
        for package in self.packages:
            for kind in AGAINST:
                for element in package.relations.get(kind, ()):
                    declared[element].append(package)
        found: dict[Member, set[Member]] = collections.defaultdict(set)
        for element, mine in declared.items():
            for other in self.meeting(element):
                for package in mine:
                    if package.name != other.name:
                        found[package].add(other)
                        found[other].add(package)
        return found

    def look_up(self) -> None:
        """Makes the tables now that are made else once they are asked for."""
        self.users, self.clashes

    # What a question rests on

    @functools.cached_property
    def old_digest(self) -> str:
        """What is in OLD, and which of it may go."""
        every = hashlib.sha256(repr(sorted(self.may_break)).encode(**TEXT))
        for package in self.packages:
            if package.state != NEW:
                every.update((package.text + repr(sorted(package.takers))).encode(**TEXT))
        return every.hexdigest()

    @functools.lru_cache(None)
    def source_digest(self, source: str) -> str:
        """What a source brings."""
        return hashlib.sha256("\n".join(p.text for p in self.brought.get(source, ())).encode(**TEXT)).hexdigest()
