"""Says what a report has that an earlier one has not, and the other way: by lines and never by keys.

A key may be of what came yesterday and of what comes today, and a line with two causes may change its key.
"""

from __future__ import annotations

import collections
import itertools
from collections.abc import Iterable, Iterator, Mapping

from .broken_groups import groups_of, groups_of_names, on_names
from .broken_records import Change, Ended, Line, LineChange, MovedLines, Names, Report, Since

OnLines = dict[str, set[Line]]
KindNames = tuple[tuple[str, ...], ...]  # a set of kinds, by their names


def keys_by_line(report: Report) -> dict[str, dict[Line, str]]:
    """{architecture: {line: key}} of a report."""
    found: dict[str, dict[Line, str]] = {place: {} for place in report.places()}
    for cause in report.causes:
        for place, lines in cause.on_lines().items():
            found[place].update(dict.fromkeys(lines, cause.key))
    return found


def sets_by_key(report: Report, place: str) -> dict[str, set[KindNames]]:
    """The sets of each cause on an architecture, as the names of their kinds."""
    one = next(one for one in report.architectures if one.architecture == place)
    kinds = {kind: tuple(names) for kind, names in one.sets.kinds.items()} if one.sets else {}
    return {
        cause.key: {tuple(sorted(kinds[str(kind)] for kind in some)) for problem in cause.sets[place].problems for some in problem.sets}
        for cause in report.causes if place in cause.sets
    }


def spread(sets: Iterable[KindNames]) -> set[Line]:
    """All sets of names of these."""
    return {tuple(sorted(line)) for kinds in sets for line in itertools.product(*kinds)}


class Comparing:
    """What a report has that an earlier one has not; `both` has the names of both suites by architecture."""

    def __init__(self, report: Report, earlier: Report, both: Mapping[str, set[str]]):
        self.report, self.earlier, self.both = report, earlier, both
        self.now, self.then = keys_by_line(report), keys_by_line(earlier)
        self.common = [place for place in self.now if place in self.then]
        self.allowed = {one.architecture: {tuple(line) for line in one.allowed_lines} for one in report.architectures}
        self.open = {one.architecture: {tuple(line) for line in one.open} for one in report.architectures}
        self.new: dict[str, OnLines] = collections.defaultdict(dict)
        self.gone: dict[str, OnLines] = collections.defaultdict(dict)
        self.new_sets: dict[str, dict[str, int]] = collections.defaultdict(dict)
        self.gone_sets: dict[str, dict[str, int]] = collections.defaultdict(dict)
        self.why_gone: dict[str, collections.Counter[str]] = collections.defaultdict(collections.Counter)
        self.moved: collections.Counter[tuple[str, str]] = collections.Counter()
        for place in self.common:
            self.compare(place, self.now[place], self.then[place])
            self.compare_sets(place)

    def compare(self, place: str, now: dict[Line, str], then: dict[Line, str]) -> None:
        for line, key in now.items():
            if line not in then:
                self.new[key].setdefault(place, set()).add(line)
            elif then[line] != key:
                self.moved[then[line], key] += 1
        for line, key in then.items():
            if line not in now:
                self.gone[key].setdefault(place, set()).add(line)
                self.why_gone[key][self.fate(place, line, now)] += 1

    def compare_sets(self, place: str) -> None:
        """Sets of three and more, by their names; kinds that both reports have are not looked at."""
        now, then = sets_by_key(self.report, place), sets_by_key(self.earlier, place)
        if not self.knows_sets(self.report, place) or not self.knows_sets(self.earlier, place):
            return
        every_now, every_then = set().union(*now.values()), set().union(*then.values())
        lines_now, lines_then = spread(every_now - every_then), spread(every_then - every_now)
        for into, by_key, lines in ((self.new_sets, now, lines_now - lines_then), (self.gone_sets, then, lines_then - lines_now)):
            for key, count in self.count_sets(by_key, lines):
                into[key][place] = count

    @staticmethod
    def knows_sets(report: Report, place: str) -> bool:
        one = next(one for one in report.architectures if one.architecture == place)
        return one.sets is not None and one.sets.status != 8

    @staticmethod
    def count_sets(by_key: dict[str, set[KindNames]], lines: set[Line]) -> Iterator[tuple[str, int]]:
        """Under each key how many of the sets of names stand there."""
        for key, sets in by_key.items() if lines else ():
            if count := len(lines & spread(sets)):
                yield key, count

    def fate(self, place: str, line: Line, now: Mapping[Line, str]) -> str:
        """What became of a line that is gone."""
        if line in self.allowed[place]:
            return "allowed"
        if not self.both[place].issuperset(line):
            return "left"
        if len(line) == 2 and any((one,) in now for one in line):
            return "broken_alone"
        return "mended" if self.open[place].isdisjoint([line, *((one,) for one in line)]) else "undecided"

    def state(self, key: str, known: set[str]) -> str:
        if key in self.new or key in self.new_sets:
            return "grown" if key in known else "new"
        return "shrunk" if key in self.gone or key in self.gone_sets else "same"

    def change(self, key: str, known: set[str]) -> Change:
        new, gone = self.new.get(key, {}), self.gone.get(key, {})
        return Change(
            state=self.state(key, known), new={place: len(lines) for place, lines in new.items()},
            gone={place: len(lines) for place, lines in gone.items()}, why_gone=dict(sorted(self.why_gone[key].items())) if gone else {},
            new_lines=groups_of(new), gone_lines=groups_of(gone), new_sets=self.new_sets.get(key, {}), gone_sets=self.gone_sets.get(key, {}),
        )

    def line_change(self, place: str) -> LineChange:
        new, gone = (sum(len(on.get(place, ())) for on in some.values()) for some in (self.new, self.gone))
        return LineChange(new, gone, *(sum(on.get(place, 0) for on in some.values()) for some in (self.new_sets, self.gone_sets)))

    def dropped(self) -> list[Names]:
        """Names that the newer suite has dropped and had not dropped then."""
        now, then = (on_names(report.dropped) for report in (self.report, self.earlier))
        return groups_of_names({place: now.get(place, set()) - then.get(place, set()) for place in self.common})

    def run(self) -> None:
        known, now = {cause.key for cause in self.earlier.causes}, {cause.key for cause in self.report.causes}
        for cause in self.report.causes:
            cause.since = self.change(cause.key, known)
        ended = [cause for cause in self.earlier.causes if cause.key not in now and (cause.key in self.gone or cause.key in self.gone_sets)]
        self.report.since = Since(
            made=self.earlier.made, old=self.earlier.old, new=self.earlier.new,
            first_time=[place for place in self.now if place not in self.then], not_this_time=[place for place in self.then if place not in self.now],
            lines={place: self.line_change(place) for place in self.common}, dropped=self.dropped(),
            ended=[Ended(c.key, c.id, c.kind, c.title, c.sources, c.bugs, self.change(c.key, known)) for c in ended],
            moved=[MovedLines(was, new, lines) for (was, new), lines in sorted(self.moved.items(), key=lambda item: (-item[1], item[0]))],
        )


def set_since(report: Report, earlier: Report, both: Mapping[str, set[str]]) -> None:
    """Puts into the report what is new in it since an earlier one."""
    Comparing(report, earlier, both).run()
