"""One architecture of a plan: what is asked of the program about its two suites, and what the relations say of them."""

from __future__ import annotations

import dataclasses
import functools
import hashlib
import os
import sys
from collections.abc import Callable, Collection, Iterator, Sequence
from concurrent.futures import ThreadPoolExecutor

from .built import HERE
from .debian_index import TEXT, Package, atoms_of
from .lost_sets import Kernel, Lost, TooMany
from .plan_always import Always
from .plan_faults import Fault, Faults, Installable
from .plan_mixes import BOTH, NEW, OLD, Built, Everywhere, Files, Mix, Rules, Suites, newest
from .plan_program import Coinst, Line, Refused
from .plan_switches import HOME, RENAMED, RESERVED, SWITCH, Group, encoded, place_of, stanza

NOBODY = SWITCH + "nobody"
Outcome = Line | None  # of a group: a line that refuses it, () where it is taken, None where it has nothing here
Memory = dict[str, list[Outcome]]


class BadSuite(Exception):
    """Two suites that no plan can be made of."""


@dataclasses.dataclass(frozen=True)
class Facts:
    """What a source is on one architecture: its versions, and the names that it drops and brings."""

    old: str | None
    new: str | None
    drops: tuple[str, ...]
    brings: tuple[str, ...]


@dataclasses.dataclass(frozen=True)
class End:
    """The last comparison, of the files as they are: its lines, what came and is dead, and the larger sets that are lost."""

    lines: list[Line]
    dead: list[str]
    sets: list[Line]
    unknown: str | None

    @property
    def broken(self) -> list[Line]:
        """The lines that say that something is lost; the others are open."""
        return [line for line in self.lines if line[0] == "broken"]


def in_order(line: Sequence[str]) -> Line:
    """A line with its names in the order of their bytes, whatever they were called when it was asked for."""
    return line[0], *sorted(line[1:])


def reserved_in(packages: Sequence[Package]) -> Iterator[str]:
    """The names of packages, and those in their relations, that begin as the names of a plan do."""
    texts = {id(package.data): package.data for package in packages}
    if any(word.encode() in text for text in texts.values() for word in RESERVED):
        for package in packages:
            atoms = (atom for elements in package.relations.values() for element in elements for atom in atoms_of(element))
            yield from (name for name in [package.name, *(atom.name for atom in atoms)] if name.startswith(RESERVED))


def digest_of(value: object) -> str:
    return hashlib.sha256(repr(value).encode(**TEXT)).hexdigest()


class Asking:
    """The program, asked about the suites of one architecture; what can be asked at once, is, up to a number."""

    def __init__(self, program: Coinst, rules: Rules, paths: tuple[str, str], memory: Memory, at_once: int = 1) -> None:
        self.program, self.rules, self.memory, self.at_once = program, rules, memory, at_once
        self.files = Files(*paths)
        self.paths = self.files.paths

    def built(self) -> dict[str, Built]:
        return self.files.built

    def link(self, everywhere: Everywhere) -> set[str]:
        """The sources that differ."""
        self.suites = Suites(self.files, everywhere, self.rules)
        self.home = self.suites.pool.home or "all"
        self.check()
        with ThreadPoolExecutor(self.at_once) as pool:
            lost = pool.submit(self.kept, "lost", [OLD, NEW], lambda: self.compare(self.paths[OLD], self.paths[NEW]))
            can = [pool.submit(self.installable_in, suite) for suite in (OLD, NEW)]
            try:
                self.suites.look_up()
            finally:
                self.lost = frozenset(lost.result())  # what the program refuses is told first
        self.faults = Faults(self.suites, Installable(*(names.result() for names in can)))
        return set(self.suites.sources)

    def kept(self, what: str, suites: Sequence[str], ask: Callable[[], list[Line]]) -> list[Line]:
        """What was said of whole files: asked, or remembered of the same files."""
        digests = [self.program.digest_of(self.paths[suite]) for suite in suites]
        key = "%s %s" % (what, digest_of((self.program.digest, self.program.options, sorted(self.suites.may_break), digests)))
        if key not in self.memory:
            self.memory[key] = list(ask())
        return [line for line in self.memory[key] if line is not None]

    def installable_in(self, suite: str) -> frozenset[str]:
        """The names that a suite can install; those that it cannot are remembered, which are few."""
        names = self.suites.names[suite]
        cannot = self.kept("cannot", [suite], lambda: [(name,) for name in sorted(names - self.installable(suite, self.paths[suite], names))])
        return frozenset(names.difference(line[0] for line in cannot))

    def check(self) -> None:
        """That the index with switches can stand for the mixes: its names are free, and all of them have one architecture."""
        if name := next(reserved_in(self.suites.packages), None):
            raise BadSuite("%s: names that begin so are for plans" % name)
        if not any(p.state == BOTH and p.architecture == self.home for p in self.suites.packages):
            if any(":%s" % self.home in element for p in self.suites.packages for kind in p.relations.values() for element in kind):
                raise BadSuite("%s: no package of it is in both suites, and relations are restricted to it" % self.home)

    def compare(self, old_path: str, new_path: str) -> list[Line]:
        """The lines of a comparison that are not of names that may break."""
        lines = self.program.ask("compare", [old_path, new_path])[:-1]
        return [in_order(line) for line in lines if self.suites.may_break.isdisjoint(line[1:])]

    def installable(self, label: str, path: str, names: Collection[str]) -> frozenset[str]:
        """The names that an index can install: those that break against an index in which each of these is dead."""
        if not names:
            return frozenset()
        dead = "".join("Package: %s\nVersion: 0\nArchitecture: %s\nDepends: %s\n\n" % (name, self.home, NOBODY) for name in sorted(names))
        lines = self.program.ask("compare", [path, self.program.write("dead-" + label, dead)])
        return frozenset(line[1] for line in lines if line[0] == "broken")

    @functools.cached_property
    def always(self) -> Always:
        """What the indexes with switches do without."""
        return Always(self.suites)

    # Questions of a plan

    def faults_alone(self, sources: Sequence[str]) -> dict[str, list[Fault]]:
        return {source: found for source in sources if (found := self.faults.of([source]))}

    def faults_of(self, group: Sequence[str], come: Mix) -> list[Fault]:
        return self.faults.of(group, come)

    def first_faults(self, groups: Sequence[Group], come: Mix) -> dict[int, Fault]:
        """For each group that may not come by the rules its first fault, if those before it come that have none."""
        here, found = set(come), {}
        for place, group in enumerate(groups):
            if fault := next((f for f in self.faults.of(group, here) if f.sure), None):
                found[place] = fault
            else:
                here.update(group)
        return found

    def migrate(self, groups: Sequence[Group], come: Mix) -> list[Outcome]:
        """What becomes of groups that are tried in their order, on top of what has come and of those that are taken."""
        key = self.question(groups, come)
        if key not in self.memory:
            self.memory[key] = self.ask_migrate(groups, come)
        return self.memory[key]

    def question(self, groups: Sequence[Group], come: Mix) -> str:
        """A digest of all that the answer depends on."""
        digest = self.suites.source_digest
        of_groups = [[(source, digest(source)) for source in group] for group in groups]
        everything = (self.program.digest, self.program.options, self.suites.old_digest, of_groups, [(s, digest(s)) for s in sorted(come)])
        return digest_of(everything)

    def ask_migrate(self, groups: Sequence[Group], come: Mix) -> list[Outcome]:
        index = encoded(self.always, groups, come)
        if not index.live:
            return [None] * len(groups)
        paths = [self.program.write("groups-%d" % version, index.file(version)) for version in (0, 1)]
        outcomes = self.read_plan(self.migrated(paths), len(groups))
        for path in paths:
            os.remove(path)
        return outcomes

    def migrated(self, paths: list[str]) -> list[Line]:
        """The plan; made anew with --hold where the clause limit was passed."""
        try:
            lines = self.program.ask("migrate", paths)
        except Refused as fault:
            if fault.status != 4 or "--hold" in self.program.options:
                raise
            lines = []
        if not lines or any(line[0] == "left" and line[2:] == ("limit",) for line in lines) and "--hold" not in self.program.options:
            lines = self.program.ask("migrate", paths, more=["--hold"])
        return lines

    @staticmethod
    def read_plan(lines: list[Line], count: int) -> list[Outcome]:
        outcomes: list[Outcome] = [None] * count
        for word, *rest in lines[:-1]:
            outcomes[place_of(rest[0])] = () if word == "take" else in_order([name.removeprefix(RENAMED) for name in rest[1:]])
        return outcomes

    def lost_lines(self) -> frozenset[Line]:
        return self.lost

    def remembered(self) -> Memory:
        return self.memory

    # What is told

    def known(self, sources: Collection[str], names: Collection[str]) -> tuple[set[str], set[str]]:
        """Which of some sources, and which of some names, stand in one of the two indexes."""
        there = self.files.built.keys() | {p.source for p in self.files.old}
        return set(sources) & there, set(names) & (self.suites.names[OLD] | self.suites.names[NEW])

    def facts(self) -> dict[str, Facts]:
        old: dict[str, set[str]] = {}
        for package in self.files.old:
            old.setdefault(package.source, set()).add(package.source_version)
        return {source: self.facts_of(source, old.get(source, set())) for source in sorted(self.suites.sources)}

    def facts_of(self, source: str, old: set[str]) -> Facts:
        has, suites = self.files.built.get(source), self.suites
        drops = {p.name for p in suites.taken.get(source, ())} - suites.names[NEW]
        brings = {p.name for p in suites.brought.get(source, ())} - suites.names[OLD]
        return Facts(newest(old), has.newest if has else None, tuple(sorted(drops)), tuple(sorted(brings)))

    def clashing(self, names: Sequence[str], come: Mix) -> set[str]:
        """The sources that would change a package of the conflicts that keep names apart in a mix."""
        found: set[str] = set()
        texts = [stanza(HOME, 0, architecture=self.home), *(p.text for p in self.suites.reach(names, come))]
        for line in self.program.ask("explain", [self.program.write("why", "\n".join(texts))], names):
            if line[0].startswith("clash") and len(line) == 5:
                for name, version in (line[1:3], line[3:5]):
                    found |= self.changing(name, version)
        return found - come

    def changing(self, name: str, version: str) -> set[str]:
        takers = {source for p in self.suites.named(name) if p.version == version for source in p.takers}
        return takers | {p.source for p in self.suites.named(name) if p.state == NEW and p.version != version}

    # The end

    def mix_of_files(self, name: str, come: Collection[str]) -> str:
        """The file that tools/take_names makes of the two files: other code, and the stanzas as they are."""
        sources, _ = self.known(come, ())
        if not sources:
            return self.paths[OLD]
        words = [sys.executable, os.path.join(HERE, "take_names"), "--source", *["--smooth"] * self.rules.smooth]
        return self.program.keep(name, [*words, "--", *self.paths.values(), *sorted(sources)])

    def end(self, come: Mix) -> End:
        mix = self.mix_of_files("end", come)
        if mix == self.paths[OLD]:
            return End([], [], [], None)
        brings = {p.name for source in come for p in self.suites.brought.get(source, ())} - self.suites.names[OLD]
        with ThreadPoolExecutor(self.at_once) as pool:
            lines = pool.submit(self.compare, self.paths[OLD], mix)
            can = pool.submit(self.installable, "end", mix, brings)
            kernels = [pool.submit(self.program.ask, "kernel", [path]) for path in (self.paths[OLD], mix)]
            sets, unknown = self.lost_sets(*(kernel.result() for kernel in kernels))
        return End(lines.result(), sorted((brings & self.faults.can.new) - can.result()), sets, unknown)

    def lost_sets(self, old: list[Line], new: list[Line]) -> tuple[list[Line], str | None]:
        """An example for each kind of set of three names and more that is lost between two kernels, or why that is not known."""
        try:
            lost = Lost(Kernel(old), Kernel(new))
            judged = [[name for name in names if name not in self.suites.may_break] for names in lost.members]
            sets = [[judged[kind] for kind in kinds] for kinds in lost.sets()]
        except TooMany as fault:
            return [], str(fault)
        return sorted(tuple(sorted(names[0] for names in one)) for one in sets if all(one)), None

    def can_together(self, names: Sequence[str], come: Mix) -> bool:
        """Whether the mix of some sources can install these names together."""
        mix = self.mix_of_files("part", come)
        return self.program.ask("query", [mix], names)[0] == ("yes",)
