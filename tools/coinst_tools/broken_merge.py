"""Makes one report of the studies of many architectures: each cause once, by its key."""

from __future__ import annotations

import collections
import hashlib
import os
import re
import time
from collections.abc import Iterable, Mapping, Sequence

from .broken_allowed import Allowed
from .broken_causes import way_lines
from .broken_groups import groups_of, groups_of_names
from .broken_records import (
    FORMAT, LINKS, Architecture, Cause, Found, Line, Off, On, Otherwise, Problem, Proof, Refused, Report, Sets, SetsOf, Source, Study, Why, own_file,
)
from .broken_use import Use
from .debian_index import TEXT


def made() -> str:
    """The time, or that of SOURCE_DATE_EPOCH, so that the same run can make the same bytes."""
    return time.strftime("%Y-%m-%dT%H:%M:%SZ", time.gmtime(int(os.environ.get("SOURCE_DATE_EPOCH", time.time()))))


def version() -> str:
    """The version of these sources."""
    with open(own_file("VERSION"), encoding="utf-8") as file:
        return file.read().strip()


def id_of(key: str) -> str:
    """A short name of a cause that stays as long as its key does: for links and for trackers."""
    return "c" + hashlib.sha256(key.encode(**TEXT)).hexdigest()[:8]


def suite_name(label: str, architecture: str) -> str:
    """The name of an index without its architecture."""
    return re.sub(r"[-_./]?(binary-)?%s\b" % re.escape(architecture), "", label) or label


def named_suites(found: Found, study: Study) -> Found:
    """The cause with the suites' names in place of the files' ones, so that all architectures say the same."""
    def told(text: str) -> str:
        for file in (study.old, study.new):
            text = text.replace(file.name, suite_name(file.name, study.architecture))
        return text
    found.title, found.notes = told(found.title), [(told(text), number) for text, number in found.notes]
    if found.why.proof:
        found.why.proof = Proof([told(text) for text in found.why.proof.text], told(found.why.proof.picture))
    return found


def otherwise(here: Iterable[Source], there: Iterable[Source]) -> Otherwise:
    """Which sources a cause has on another architecture and not here, and the other way."""
    mine, other = ([source.source for source in sources] for sources in (here, there))
    return Otherwise([source for source in other if source not in mine], [source for source in mine if source not in other])


def chains_of(why: Why) -> list[list[str]]:
    """Why as text: the proof if there is one, or else the first ways."""
    return [why.proof.text] if why.proof else [way_lines(way) for way in why.ways[:4]]


class Merge:
    """The causes of all studies by their keys, and what of them may break."""

    def __init__(self, studies: Sequence[Study], allowed: Allowed, all_on: Sequence[str], use: Use):
        self.studies, self.allowed, self.all_on, self.use = {s.architecture: s for s in studies}, allowed, all_on, use
        self.lines: dict[str, dict[str, set[Line]]] = collections.defaultdict(dict)
        self.parts: dict[str, dict[str, Found]] = collections.defaultdict(dict)
        self.sets: dict[str, dict[str, SetsOf]] = collections.defaultdict(dict)
        self.free: dict[str, set[Line]] = collections.defaultdict(set)
        for study in studies:
            for found in study.causes:
                self.add(study.architecture, named_suites(found, study))
        self.allowed_keys = {key for key in self.parts if all(self.may_be(key, place) for place in self.parts[key])}
        for key in list(self.parts):
            self.leave_out(key)
        self.all_lines = {
            place: set().union(*(on[place] for on in self.lines.values() if place in on)) for place in self.studies
        }

    def add(self, place: str, found: Found) -> None:
        mine = set(found.lines)
        free = {line for line in mine if self.allowed.has_line(line, place) or self.is_elsewhere(place, line)}
        sets = self.kept_sets(place, found.sets) if found.sets else None
        self.free[place] |= free
        if mine - free or sets:
            self.parts[found.key][place] = found
            self.lines[found.key][place] = mine - free
            if sets:
                self.sets[found.key][place] = sets

    def is_elsewhere(self, place: str, line: Line) -> bool:
        """Whether a line is of a package for all architectures, and of an architecture on which these do not count."""
        return bool(self.all_on) and place not in self.all_on and len(line) == 1 and line[0] in self.studies[place].for_all

    def kept_sets(self, place: str, sets: SetsOf) -> SetsOf | None:
        """The sets less those of which each set of names may break."""
        every = self.studies[place].sets
        if not every or not any(size > 2 for size in self.allowed.sizes()):
            return sets
        problems = [left for problem in sets.problems if (left := self.kept_problem(place, problem, every))]
        kept = SetsOf(sum(len(problem.sets) for problem in problems), sum(problem.name_sets for problem in problems), problems)
        every.allowed += sets.name_sets - kept.name_sets
        return kept if problems else None

    def kept_problem(self, place: str, problem: Problem, every: Sets) -> Problem | None:
        """A problem less the sets that may break; its example is one that is left."""
        left = [[line for line in every.lines(kinds) if not self.allowed.has_line(line, place)] for kinds in problem.sets]
        sets = [kinds for kinds, lines in zip(problem.sets, left) if lines]
        lines = [line for lines in left for line in lines]
        example = tuple(sorted(problem.example))
        return Problem(list(example if example in lines else lines[0]), problem.sides, sets, len(lines)) if lines else None

    # What may be

    def may_be(self, key: str, place: str) -> bool:
        sets = self.sets[key].get(place)
        return self.allowed.has_cause(key, place, len(self.lines[key][place]) + (sets.name_sets if sets else 0))

    def leave_out(self, key: str) -> None:
        """A cause that may be on some of its architectures alone is left out there."""
        for place in [place for place in self.parts[key] if key not in self.allowed_keys and self.may_be(key, place)]:
            self.free[place] |= self.lines[key].pop(place)
            sets, every = self.sets[key].pop(place, None), self.studies[place].sets
            if sets and every:
                every.allowed += sets.name_sets
            del self.parts[key][place]

    # The causes

    def all_of(self, place: str, lines: Iterable[Line]) -> int:
        return sum(len(line) == 1 and line[0] in self.studies[place].for_all for line in lines)

    def causes(self) -> list[Cause]:
        """Causes by use or by size, those that may be last; one of several changes stands under the widest cause of one of them."""
        found = {key: self.cause(key) for key in self.parts if self.parts[key]}
        for cause in found.values():
            mine = [found[part] for part in cause.changes if part in found] if len(cause.changes) > 1 else []
            cause.under = max(mine, key=weight).key if mine else None
        return sorted(found.values(), key=lambda cause: (cause.allowed, *(-number for number in weight(cause)), cause.key))

    def cause(self, key: str) -> Cause:
        on, parts, sets = self.lines[key], self.parts[key], self.sets[key]
        lead = max(parts, key=lambda place: (len(on[place]), sets[place].name_sets if place in sets else 0, place == "amd64"))
        every, told = set().union(*on.values()), parts[lead]
        return Cause(
            key=key, id=id_of(key), changes=key.split(" & "), under=None, kind=told.kind, title=told.title, sources=told.sources,
            why=told.why, chains=chains_of(told.why), notes=told.notes, in_need=told.in_need, told_of=lead,
            otherwise={place: other for place in parts if (other := otherwise(told.sources, parts[place].sources)).more or other.fewer},
            allowed=key in self.allowed_keys, bugs=self.allowed.bugs([key, *key.split(" & ")]), use=self.use.of_cause(every, sets),
            on={place: self.on(place, on[place], parts[place], sets.get(place)) for place in parts},
            off={place: self.off(place, every) for place in self.studies if place not in parts},
            lines=groups_of(on), sets=dict(sets),
        )

    def on(self, place: str, lines: set[Line], part: Found, sets: SetsOf | None) -> On:
        names = sum(len(line) == 1 for line in lines)
        return On(
            names=names, all=self.all_of(place, lines), pairs=len(lines) - names, lines=len(lines), mended=len(lines & part.mended),
            confirmed=part.confirmed, name_sets=sets.name_sets if sets else 0, kind_sets=sets.kind_sets if sets else 0,
        )

    def off(self, place: str, lines: Iterable[Line]) -> Off:
        """Why an architecture does not have a cause: what becomes of its lines there."""
        told = Off()
        for line in lines:
            if not self.studies[place].both.issuperset(line):
                told.absent += 1
            elif line in self.all_lines[place]:
                told.other_cause += 1
            elif line in self.free[place]:
                told.left_out += 1
            else:
                told.not_broken += 1
        return told


def weight(cause: Cause) -> tuple[int, int, int, int]:
    return cause.use or 0, cause.total("names"), cause.total("pairs"), cause.total("sets")


def architecture(study: Study, free: set[Line]) -> Architecture:
    return Architecture(
        architecture=study.architecture, old=study.old, new=study.new, status=study.status, broken=study.broken,
        open=[list(line) for line in study.open], common_names=len(study.both), dropped=len(study.dropped),
        allowed_lines=sorted(list(line) for line in free), sets=study.sets, seconds=study.seconds,
    )


def merge(
    studies: Sequence[Study], refused: Sequence[Refused], alone: Mapping[str, str], allowed: Allowed,
    options: Sequence[str], program: str, all_on: Sequence[str], use: Use,
) -> Report:
    """The report of all studies."""
    found = Merge(studies, allowed, all_on, use)
    causes = found.causes()
    first = studies[0] if studies else None
    return Report(
        format=FORMAT, made=made(), coinst=version(), program=program, options=list(options), all_on=sorted(all_on), popcon=use.name,
        old=suite_name(first.old.name, first.architecture) if first else None,
        new=suite_name(first.new.name, first.architecture) if first else None,
        architectures=[architecture(study, found.free[study.architecture]) for study in studies], refused=list(refused), alone=dict(alone),
        links=LINKS, dropped=groups_of_names({study.architecture: study.dropped for study in studies}), causes=causes,
    )
