"""Finds the sets of three names and more that NEW has lost, has the program confirm each, and sorts them under causes.

They are found on the two kernels that the program prints, by the rule of lost_sets.py. What is printed, the program alone says: a name
that depends on all names of a set is put into a slice of both indexes, one for each set, and `compare` lists those that NEW has lost. That
no smaller set is lost, the pair lines say for sets of three; larger ones are tried in the same way, without one name at a time. The
names and pairs that the rule finds have to be the lines of `compare`. That there are no other sets is the word of this script. A set
with a name that no element can name alone, as another package provides it in the same version, is left open.

A cause is looked for on one set for each problem of NEW that has no cause yet. Under it stand the sets that are well without the
change, by the program's word, and that no cause of fewer changes, or a wider one, of the same round mends.
"""

from __future__ import annotations

import collections
import functools
import itertools
import math
import re
import typing
from collections.abc import Iterable, Sequence

from .broken_causes import Asking, Cause, Search, names_of
from .broken_changes import Strike
from .broken_records import Found, Line, Problem, Sets, SetsOf, Side
from .command import Program, progress
from .debian_index import AGAINST, Index, Package
from .lost_sets import Bits, Kernel, Kinds, Lost, TooMany, bits_of

MOST_ROUNDS, MOST_IN_VAIN = 40, 3  # of looking for causes, and of these one after the other that find none
AT_ONCE = 200  # sets that conflict in one run, each with each
SHOWN = 4  # names of a side that are written out


class SetAsking(Asking):
    """Asks about lines of any number of names: a name that depends on all of them stands for more than two."""

    def __init__(self, program: Program, folder: str, indexes: Sequence[Index]):
        super().__init__(program, folder)
        self.stem = "zz-set"
        while any(name.startswith(self.stem) for index in indexes for name in index.offers):
            self.stem += "-x"

    @staticmethod
    @functools.lru_cache(None)
    def exactly(index: Index, name: str) -> str | None:
        """An element that the packages of the name satisfy, and no other; or None."""
        packages = index.named[name]
        if index.meeting(name) == packages:
            return name
        element = " | ".join(dict.fromkeys("%s (= %s)" % (name, p.version) for p in packages))
        return element if set(index.meeting(element)) == set(packages) else None

    def element(self, index: Index, name: str) -> str:
        """That element of a name that has one: others are open, and nothing is asked of them."""
        element = self.exactly(index, name)
        if element is None:
            raise AssertionError("no element names this alone: %s" % name)
        return element

    def standing(self, lines: Sequence[Line], index: Index | None, more: str = "") -> str:
        """Stanzas of names that stand for the lines of three names and more; without an index they depend on nothing."""
        text = []
        for number, line in enumerate(lines):
            if len(line) > 2 or more:
                needs = "Depends: " + ", ".join(self.element(index, name) for name in line) + "\n" if index else ""
                text.append("Package: %s-%d\nVersion: 1\n%s%s" % (self.stem, number, needs, more))
        return "\n" + "\n".join(text)

    def lost(self, lines: Sequence[Line], old: str, new: str) -> tuple[set[Line], set[Line]]:
        """Which lines `compare` prints of these two texts, and which it leaves open."""
        stands = {"%s-%d" % (self.stem, number): line for number, line in enumerate(lines)}
        _, broken, left = self.compare(self.keep("before", old), self.keep("after", new))
        lost, still = ({stands.get(line[0], line) if len(line) == 1 else line for line in some} for some in (broken, left))
        return lost, still

    def are_lost(self, lines: Sequence[Line], old: Index, new: Index) -> tuple[set[Line], set[Line]]:
        """Which of the lines NEW has lost, and which are open."""
        names = names_of(lines)
        before, after = (index.slice(names) + self.standing(lines, index) for index in (old, new))
        lost, left = self.lost(lines, before, after)
        return lost.intersection(lines), left.intersection(lines)

    def well(self, lines: Iterable[Line], index: Index, strike: Strike) -> set[Line]:
        """All lines have three names and more, and it is confirmed that they are broken: then so are those that stand for them in NEW."""
        lines = list(lines)
        dead = self.standing(lines, None, "Depends: %s-none\n" % self.stem)
        return self.lost(lines, index.slice(names_of(lines), strike) + self.standing(lines, index), dead)[0].intersection(lines)

    def confirmed(self, lines: Sequence[Line], index: Index) -> set[Line]:
        """All of them: each set is confirmed before its cause is looked for."""
        return set(lines)

    def dead(self, lines: Sequence[Line], index: Index) -> tuple[set[Line], set[Line]]:
        """Which of the lines the index cannot install, and which are open; the names that stand for them conflict, so no pairs are tried."""
        found, left = set(), set()
        apart = "Provides: %s\nConflicts: %s\n" % (self.stem, self.stem)
        for some in (lines[start : start + AT_ONCE] for start in range(0, len(lines), AT_ONCE)):
            bare, new = self.standing(some, None, apart), index.slice(names_of(some)) + self.standing(some, index)
            broken, still = self.lost(some, bare, new)
            found |= broken.intersection(some)
            left |= still.intersection(some)
        return found, left


T = typing.TypeVar("T")


def smaller(line: tuple[T, ...]) -> Iterable[tuple[T, ...]]:
    return itertools.combinations(line, len(line) - 1)


def has_all(old: Index, new: Index) -> bool:
    """Whether NEW has each package of OLD, of the same version and with the same relations: then nothing can be lost."""
    if old.home != new.home or not all(any(p.version == q.version for q in new.named.get(p.name, ())) for p in old.packages):
        return False
    return all(p.relations == q.relations for p in old.packages for q in new.named[p.name] if p.version == q.version)


class Naming:
    """A class of NEW's kernel by the package that has its conflicts, and not just by its first member."""

    def __init__(self, kernel: Kernel, index: Index):
        self.kernel, self.index = kernel, index
        self.name = functools.lru_cache(None)(self.most_wanted)

    def named_against(self, mine: int, others: Iterable[int]) -> set[str]:
        """The names of a class with a relation against another, and those of it that these are against."""
        found, those = set(), {member for other in others for member in self.kernel.classes[other]}
        for declarer in [*self.kernel.classes[mine], *those]:
            relations = self.index.package(*declarer).relations
            for met in {met for kind in AGAINST for e in relations.get(kind, ()) for met in self.index.meeting(e)}:
                ends = {declarer, (met.name, met.version)}
                found |= {name for name, version in ends if (name, version) not in those and ends & those}
        return found & {name for name, _ in self.kernel.classes[mine]}

    def most_wanted(self, mine: int) -> str:
        """The most wanted name of those with a conflict, or of all members."""
        names = self.named_against(mine, self.kernel.against[mine]) or {name for name, _ in self.kernel.classes[mine]}
        return min(names, key=lambda name: (-self.index.asked[name], name))


class SetSearch:
    """The lost sets of two indexes, as the program has confirmed them, and their causes."""

    def __init__(self, program: Program, folder: str, old: Index, new: Index):
        self.old, self.new = old, new
        kernels = [Kernel(program.ask("kernel", index.path)[1]) for index in (old, new)]
        self.found, self.naming = Lost(*kernels), Naming(kernels[1], new)
        self.asking = SetAsking(program, folder, (old, new))
        self.name_of = functools.lru_cache(None)(self.most_asked)
        self.sets = self.found.sets()
        self.lines = {kinds: self.line_of(kinds) for kinds in self.sets}
        self.open: list[Kinds] = []

    def line_of(self, kinds: Kinds) -> Line:
        return tuple(sorted(map(self.name_of, kinds)))

    def most_asked(self, kind: int) -> str:
        """The name of a kind that most dependencies of NEW name, among those that an element can name alone."""
        names = self.found.members[kind]
        return max(list(filter(self.fits, names)) or names, key=lambda name: self.new.asked[name])

    def fits(self, name: str) -> bool:
        return all(self.asking.exactly(index, name) for index in (self.old, self.new))

    def size(self, kinds: Kinds) -> int:
        return math.prod(len(self.found.members[kind]) for kind in kinds)

    def check_small(self, broken: set[Line], left: set[Line]) -> None:
        """The names and pairs that the rule finds have to be the lines of `compare`, but for what it leaves open."""
        members = self.found.members
        mine: set[Line] = {(name,) for kind in self.found.singles() for name in members[kind]}
        for kind, other in self.found.pairs():
            mine |= {tuple(sorted(pair)) for pair in itertools.product(members[kind], members[other])}
        if wrong := sorted((mine ^ broken) - left):
            raise AssertionError("names or pairs that are not those of compare: %s" % wrong[:3])

    def confirm(self) -> None:
        """Has the program say that each set is lost and no smaller one; those that it leaves open go to `open`."""
        self.open = [kinds for kinds, line in self.lines.items() if not all(map(self.fits, line))]
        lines = [line for kinds, line in self.lines.items() if kinds not in self.open]
        broken, left = self.asking.are_lost(lines, self.old, self.new) if lines else (set(), set())
        dead, unsure = self.dead_among({small for kinds in self.sets if len(kinds) > 3 and kinds not in self.open for small in smaller(kinds)})
        for kinds, line in self.lines.items():
            if kinds in self.open:
                continue
            if line in left or unsure.intersection(smaller(line)):
                self.open.append(kinds)
            elif line not in broken or dead.intersection(smaller(line)):
                raise AssertionError("the program does not confirm: %s" % " ".join(line))
        for kinds in self.open:
            del self.sets[kinds]

    def dead_among(self, sets: Iterable[Kinds]) -> tuple[set[Line], set[Line]]:
        """Which of the sets NEW cannot install, and which are open: tried in groups, since with a group all in it can be installed."""
        groups: dict[Line, list[Kinds]] = collections.defaultdict(list)
        for kinds, some in self.found.new.grouped(sorted(sets)):
            groups[self.line_of(kinds)] += some
        dead, unsure = self.asking.dead(sorted(groups), self.new)
        return self.asking.dead(sorted({self.line_of(kinds) for group in dead | unsure for kinds in groups[group]}), self.new)

    # Causes

    def causes(self) -> tuple[list[Found], set[Kinds]]:
        """The changes with the sets that they mend, and the sets without one."""
        rest, in_vain = set(self.sets), 0
        found: dict[str, tuple[Cause, set[Kinds], Search]] = {}
        for _ in range(MOST_ROUNDS):
            shown = self.shown(rest)
            if not shown or in_vain == MOST_IN_VAIN:
                break
            search = Search(self.old, self.new, sorted(shown), self.asking)
            tried = [(cause, self.mended(cause, rest)) for cause in search.run()]
            for cause, mended in sorted(tried, key=self.rank):
                if mine := mended & rest:
                    self.put(found, cause, mine, search)
                    rest -= mine
            is_in_vain = not any(mended for _, mended in tried)
            in_vain = in_vain + 1 if is_in_vain else 0
            if is_in_vain:
                rest -= set(shown.values())
        causes = [self.record(cause, sets, search) for cause, sets, search in found.values()]
        return causes, set(self.sets).difference(*(sets for _, sets, _ in found.values()))

    def rank(self, tried: tuple[Cause, set[Kinds]]) -> tuple[int, int]:
        """Causes of fewer changes first, and of these the wider ones."""
        cause, mended = tried
        return len(re.findall(r"[+&]", cause.key())), -sum(map(self.size, mended))

    @staticmethod
    def put(found: dict[str, tuple[Cause, set[Kinds], Search]], cause: Cause, sets: set[Kinds], search: Search) -> None:
        """A cause with its sets, or if one of its key is there, the changes and sets of both: what mends a set still does with more."""
        had, mine, searched = found.get(cause.key(), (cause, set(), search))
        if had is not cause:
            for change, more in zip(had.changes, cause.changes):
                change.things.update(more.things)
                change.sources.update(more.sources)
        found[cause.key()] = had, mine | sets, searched

    def shown(self, rest: set[Kinds]) -> dict[Line, Kinds]:
        """For each problem of NEW one of the sets, by its line: that with the names that are most asked for."""
        under = {}
        for kinds in sorted(rest, key=self.weight):
            under[self.sets[kinds]] = kinds
        return {self.lines[kinds]: kinds for kinds in under.values()}

    def mended(self, cause: Cause, rest: set[Kinds]) -> set[Kinds]:
        """All of the sets that are well without the cause, by the program."""
        led = self.reaching(cause.strike())
        lines = {self.lines[kinds]: kinds for kinds in rest if not led.isdisjoint(self.lines[kinds])}
        progress("trying a cause on %d sets: %s" % (len(lines), cause.key()))
        mended = self.asking.well(sorted(lines), self.new, cause.strike()) if lines else set()
        return {lines[line] for line in mended}

    @functools.cached_property
    def users(self) -> dict[Package, list[Package]]:
        """Who has an element that a package meets, among all that the sets reach in NEW."""
        users: dict[Package, list[Package]] = collections.defaultdict(list)
        for package in self.new.reach(names_of(self.lines.values())):
            for met in self.new.next(package):
                users[met].append(package)
        return users

    def reaching(self, goals: Iterable[Package]) -> set[str]:
        """The names that reach one of these packages: without one, what is struck there cannot mend a set."""
        inside, todo = set(goals), list(goals)
        while todo:
            fresh = [package for package in self.users.get(todo.pop(), ()) if package not in inside]
            inside.update(fresh)
            todo += fresh
        return {package.name for package in inside}

    def weight(self, kinds: Kinds) -> tuple[list[int], Line]:
        """How much the names of a set are asked for, the least of them first, so that no set is shown for one name alone."""
        return sorted(self.new.asked[name] for name in self.lines[kinds]), self.lines[kinds]

    # As records

    def record(self, cause: Cause, sets: set[Kinds], search: Search) -> Found:
        under: dict[Bits, list[Kinds]] = collections.defaultdict(list)
        for kinds in sorted(sets):
            under[self.sets[kinds]].append(kinds)
        problems = sorted((self.problem(problem, some) for problem, some in under.items()), key=lambda p: (-p.name_sets, p.example))
        found = cause.found(search.changes)
        found.lines, found.mended, found.confirmed = [], set(), True
        found.sets = SetsOf(len(sets), sum(map(self.size, sets)), problems)
        return found

    def problem(self, problem: Bits, sets: list[Kinds]) -> Problem:
        example = self.lines[max(sets, key=self.weight)]
        sides = [self.side(part, {kind for kinds in sets for kind in kinds}) for part in bits_of(problem)]
        return Problem(list(example), sides, [list(kinds) for kinds in sets], sum(map(self.size, sets)))

    def side(self, part: int, kinds: set[int]) -> Side:
        """One part of a problem: what it is, and the names of these kinds that need it."""
        mine = sorted(kind for kind in kinds if self.found.new.has[kind] >> part & 1)
        names = sorted((n for kind in mine for n in self.found.members[kind]), key=lambda n: (-self.new.asked[n], n))
        what = self.found.new.parts.what[part]
        needs = [self.naming.name(c) for c in ([what] if isinstance(what, int) else sorted(what))]
        return Side(needs, mine, len(names), names[:SHOWN])

    def summary(self, no_cause: set[Kinds]) -> Sets:
        used = sorted({kind for some in (self.sets, self.open) for kinds in some for kind in kinds})
        sizes = collections.Counter(str(len(kinds)) for kinds in self.sets)
        return Sets(
            status=1 if self.sets else 8 if self.open else 0, told="looked for, of any size", kind_sets=len(self.sets),
            name_sets=sum(map(self.size, self.sets)), sizes=dict(sorted(sizes.items())), open=sorted(list(self.lines[kinds]) for kinds in self.open),
            no_cause=sorted(list(self.lines[kinds]) for kinds in no_cause), kinds={str(kind): self.found.members[kind] for kind in used},
        )


def sets_of(program: Program, folder: str, indexes: tuple[Index, Index], broken: Iterable[Line], left: Iterable[Line]) -> tuple[Sets, list[Found]]:
    """The lost sets of OLD and NEW with their causes; `broken` and `left` are the broken and open lines of their comparison."""
    if has_all(*indexes):
        return Sets(0, "the newer suite has each package of the older one as it is"), []
    progress("looking for sets of three names and more")
    try:
        search = SetSearch(program, folder, *indexes)
    except TooMany as fault:
        return Sets(8, "not known: %s" % fault), []
    search.check_small(set(broken), set(left))
    search.confirm()
    causes, no_cause = search.causes()
    return search.summary(no_cause), causes
