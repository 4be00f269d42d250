"""What changed between two indexes, as far as it breaks something: found by reading, to be tried by the program.

A change is written with both versions, and knows what a mending would take out of which package of NEW.
"""

from __future__ import annotations

import collections
import dataclasses
import functools
import itertools
import os
import typing
from collections.abc import Iterable, Iterator

from .broken_proof import proof_of
from .broken_records import Conflict, Line, Moved, Relation, Source, Step, Why
from .debian_index import AGAINST, NEED, Index, Package, atoms_of, parse_atom, version_key
from .needs import Chain, Needs, ways

Clash = tuple[Package, Package]
Strike = dict[Package, set[tuple[str, str]]]
Link = tuple[Package, str, Package]

MOST_SHOWN = 6  # packages that satisfy an element beside the one on the way
VERBS = {"conflicts": "conflicts with", "breaks": "breaks"}


class Asks(typing.Protocol):
    """What a change asks of the program."""

    def well(self, lines: Iterable[Line], index: Index, strike: Strike) -> set[Line]: ...

    def keep(self, name: str, text: str) -> str: ...


class Change:
    """One thing that NEW does otherwise than OLD; `strike` is what a mending takes out of which package."""

    def __init__(self, key: str, kind: str, lead: str = "", sources: Iterable[str] = (), note: str | None = None):
        self.key, self.kind, self.lead = key, kind, lead
        self.things: dict[str, bool] = {}
        self.sources, self.notes = dict.fromkeys(sources, True), {note: True} if note else {}
        self.strike: Strike = collections.defaultdict(set)
        self.struck: set[Clash | Package] = set()

    def strike_need(self, package: Package, element: str) -> None:
        self.strike[package].update((kind, element) for kind in NEED)

    def title(self) -> str:
        return self.lead + shorten(self.things, 3)


class NewNeed(Change):
    """A change by which packages depend on others since OLD: its title begins with these."""

    def title(self) -> str:
        verb = "now depends on" if len(self.things) == 1 else "now depend on"
        return "%s %s %s" % (shorten(self.things, 3), verb, self.lead)


class NewConflict(Change):
    """A change that brought conflicts: its title groups those of one package."""

    def title(self) -> str:
        grouped: dict[str, list[str]] = {}
        for head, cut, tail in (thing.rpartition("\t") for thing in self.things):
            grouped.setdefault(head + " " * bool(cut), []).append(tail)
        return "; ".join(head + shorten(tails, 3) for head, tails in grouped.items())


@dataclasses.dataclass
class Reason:
    """Why a line is broken: a change, the chains to it, what depends on it, notes of this line, and the conflicts."""

    change: Change
    chains: list[Chain] = dataclasses.field(default_factory=list)
    in_need: list[str] = dataclasses.field(default_factory=list)
    notes: list[str] = dataclasses.field(default_factory=list)
    clashes: list[Clash] = dataclasses.field(default_factory=list)


def shorten(texts: Iterable[str], limit: int) -> str:
    texts = list(texts)
    return ", ".join(texts[:limit]) + (" and %d more" % (len(texts) - limit) if len(texts) > limit else "")


def names_in(element: str) -> set[str]:
    return {atom.name for atom in atoms_of(element)}


def links_of(chain: Chain) -> list[Link]:
    """The steps of a chain as dependencies, each with the package of the next step."""
    steps = itertools.pairwise(chain)
    return [(package, element, target) for (package, element, _), (target, _, _) in steps if element is not None]


def gap_of(chain: Chain) -> tuple[Package, str]:
    """The package at the end of a chain, and its element that nothing satisfies."""
    package, element, _ = chain[-1]
    if element is None:
        raise AssertionError("a chain to a package, and to no gap: %s" % package)
    return package, element


def pair_text(clash: Clash) -> str:
    return "%s with %s" % clash


def merged(strikes: Iterable[Strike]) -> Strike:
    """Several strikes as one."""
    together: Strike = collections.defaultdict(set)
    for strike in strikes:
        for package, elements in strike.items():
            together[package] |= elements
    return together


class Changes:
    """All changes that were found between two indexes, by their keys."""

    def __init__(self, old: Index, new: Index, needs: Needs, names: Iterable[str], asking: Asks):
        self.old, self.new, self.needs, self.names, self.asking = old, new, needs, names, asking
        self.found: dict[str, Change] = {}
        self.unmet_of: dict[str, list[tuple[Package, str]]] = collections.defaultdict(list)
        for element in needs.unmet:
            for owner in needs.owners[element]:
                self.unmet_of[self.fate(owner, element)[0].key].append((owner, element))

    @functools.cached_property
    def old_needs(self) -> Needs:
        """What could not be done without in OLD, by the names that are reached in NEW."""
        return Needs(self.old, self.names)

    def keep(self, change: Change) -> Change:
        """The change of this key that is there already, or else this one."""
        return self.found.setdefault(change.key, change)

    # How things moved

    def move(self, name: str) -> str:
        """How the versions of a name went; of a new name, which name of its source it may follow."""
        was, now = ("/".join(p.version for p in index.named.get(name, ())) for index in (self.old, self.new))
        if was:
            return name + " " + (was + " -> " + now if now and was != now else was)
        built = self.old.built_from.get(self.new.named[name][0].source, ())
        gone = {p.name for p in built if p.name not in self.new.named}
        near = [n for n in sorted(gone) if len(os.path.commonprefix([n, name])) >= max(4, 0.7 * len(name))]
        return "%s %s (new%s)" % (name, now, ", perhaps for " + near[0] if near else "")

    def asked_before(self, package: Package, element: str) -> bool:
        names = names_in(element)
        return any(names == names_in(e) for p in self.old.named.get(package.name, ()) for e in p.needs)

    def against_before(self, name: str) -> set[str]:
        return {atom for p in self.old.named.get(name, ()) for kind in AGAINST for atom in p.relations.get(kind, ())}

    def was_there(self, clash: Clash) -> bool:
        """Whether packages of these two names conflicted in OLD."""
        pairs = itertools.product(*(self.old.named.get(package.name, ()) for package in clash))
        return any(one.name == other.name or self.old.declared(one, other) for one, other in pairs)

    # Dependencies that nothing satisfies

    def fate(self, owner: Package, element: str) -> tuple[Change, str]:
        """Why nothing satisfies the element: the change, if it is the first of its key, and the thing that is missing."""
        if version_key(owner.source_version) < version_key(self.new.newest(owner.source)):
            return self.left_over(owner)
        had, text = self.had(element)
        if had and had.name in self.new.named:
            return self.other_version(had, text)
        if had:
            return self.no_longer_built(had)
        return self.never_met(owner, text)

    def had(self, element: str) -> tuple[Package | None, str]:
        """A package of OLD that satisfied the element and the alternative that it satisfied, or one that had its name at least."""
        texts = [text.strip() for text in element.split("|")]
        text = next(filter(self.old.meeting, texts), texts[0])
        if met := self.old.meeting(text):
            return met[0], text
        name = parse_atom(text).name
        offers = () if name in self.new.offers else self.old.offers.get(name, ())
        return (offers[0][0], name) if offers else (None, text)

    def left_over(self, owner: Package) -> tuple[Change, str]:
        source = owner.source
        lead = "source %s is at %s, left over from %s: " % (source, self.new.newest(source), owner.source_version)
        return Change("left:" + source, "left over", lead, [source]), owner.name

    def other_version(self, had: Package, text: str) -> tuple[Change, str]:
        verb = "satisfies" if had.name == parse_atom(text).name else "provides"
        lead = "%s no longer %s " % (self.move(had.name), verb)
        return Change("version:" + had.name, "other version", lead, [self.new.named[had.name][0].source]), text

    def no_longer_built(self, had: Package) -> tuple[Change, str]:
        newest = self.new.newest(had.source)
        if not newest:
            lead = "source %s %s is gone, and with it " % (had.source, had.source_version)
            return Change("gone:" + had.source, "source gone", lead, [had.source]), had.name
        lead = "source %s %s -> %s no longer builds " % (had.source, had.source_version, newest)
        fresh = sorted({p.name for p in self.new.built_from[had.source] if p.name not in self.old.named})
        note = "new from that source: " + shorten(fresh, 5) if fresh else None
        return Change("gone:" + had.source, "no longer built", lead, [had.source], note), had.name

    def never_met(self, owner: Package, text: str) -> tuple[Change, str]:
        name = parse_atom(text).name
        if name in self.new.offers:
            at = "/".join(sorted({version or "no version" for _, version in self.new.offers[name]}))
            lead = "%s is at %s, and in neither suite anything satisfies " % (name, at)
            return Change("unmet:" + name, "never satisfied", lead, [owner.source]), text
        return self.never_offered(owner, name)

    def never_offered(self, owner: Package, name: str) -> tuple[Change, str]:
        near, names = self.new.alike(name)
        key, note = "unoffered:" + (near.source if near else name), "close in name: " + ", ".join(names) if near else None
        if near and self.old.newest(near.source) != self.new.newest(near.source):
            lead = "%s does not offer, nor does %s, " % (self.move(near.name), self.old.label)
            return Change(key, "never offered", lead, [near.source], note), name
        return Change(key, "never offered", "neither suite offers ", [owner.source], note), name

    def missing(self, name: str, needs: Needs) -> Reason:
        """The reason of a name that dependencies leave dead: that of its newest version."""
        newest = max(self.new.named[name], key=lambda package: version_key(package.version))
        chain = needs.chain_from(newest, needs.dead)
        owner, element = gap_of(chain)
        change, thing = self.fate(owner, element)
        change = self.keep(change)
        change.things[thing] = True
        for other, lacking in () if change.strike else self.unmet_of[change.key]:  # once for all names of the change
            change.strike_need(other, lacking)
        return Reason(change, [chain], ["%s (source %s) depends on %s" % (owner, owner.source, element)])

    # Conflicts

    def brought_by(self, clash: Clash) -> Iterator[tuple[Package, str, str, Package]]:
        """Who brought a conflict, as (declarer, kind, atom, changed): if the declarer had the atom before, it's the other's change."""
        for mine, kind, atom in self.new.declared(*clash):
            other = clash[clash[0] is mine]
            yield mine, kind, atom, other if atom in self.against_before(mine.name) else mine

    def new_conflicts(self, clashes: list[Clash]) -> Change:
        """The change of conflicts that OLD did not have; with it goes all that a declarer has against others since OLD."""
        changed = {other.name for clash in clashes for *_, other in self.brought_by(clash)} or {p.name for p in clashes[0]}
        change = self.keep(NewConflict("conflict:" + "+".join(sorted(changed)), "new conflict"))
        for clash in clashes:
            if clash not in change.struck:
                change.struck.add(clash)
                self.add_conflict(change, clash)
        return change

    def add_conflict(self, change: Change, clash: Clash) -> None:
        for mine, kind, atom, changed in self.brought_by(clash):
            change.things[self.conflict_text(mine, kind, atom, changed)] = True
            change.sources[changed.source] = True
            change.strike[mine].add((kind, atom))
            if changed is mine:
                before = self.against_before(mine.name)
                change.strike[mine].update((k, a) for k in AGAINST for a in mine.relations.get(k, ()) if a not in before)
        if clash[0].name == clash[1].name:
            change.things["%s and %s are two versions of one name" % clash] = True
            change.sources[clash[0].source] = True

    def conflict_text(self, mine: Package, kind: str, atom: str, changed: Package) -> str:
        """A conflict in words; a tab stands before what may be listed with others of the same package."""
        head = "%s %s" % (self.move(mine.name), VERBS[kind] if changed is not mine else "now " + VERBS[kind])
        return "%s\t%s" % (head, atom) if changed is mine else "%s %s, as before, and so now\t%s" % (head, atom, self.move(changed.name))

    # Dependencies that lead to a conflict

    def new_links(self, line: Line, clash: Clash, needs: Needs) -> list[Link]:
        """Dependencies (package, element, target) by which a line leads to a conflict in NEW and did not in OLD."""
        links: list[Link] = []
        for end in clash:
            led = self.old_needs.names_leading_to(tuple(self.old.named.get(end.name, ())))
            why = needs.leading_to((end,))
            for name in [name for name in line if name in needs.names_leading_to((end,))][:1]:
                links += [link for link in links_of(needs.chain(name, why)) if link[0].name not in led][-1:]
        return links

    @staticmethod
    def needs_change(links: list[Link]) -> Change:
        targets = dict.fromkeys(target.name for _, _, target in links)
        word = " or " if len({element for _, element, _ in links}) == 1 else " and "
        return NewNeed("need:" + "+".join(sorted(targets)), "new dependency", word.join(targets))

    def new_needs(self, links: list[Link]) -> tuple[Change, list[str]]:
        """The change of dependencies that lead to their targets since OLD, and who depends; all new ones on a target go."""
        change = self.keep(self.needs_change(links))
        return change, [self.add_link(change, *link) for link in links]

    def add_link(self, change: Change, package: Package, element: str, target: Package) -> str:
        asked = self.asked_before(package, element)
        moved = self.move(package.name)
        change.things[moved] = change.sources[package.source] = True
        change.strike_need(package, element)
        for lost in self.lost(element) if asked else ():
            now = "now " + self.move(lost.name) if lost.name in self.new.named else "it is gone"
            change.notes["in %s %s satisfied %s too; %s" % (self.old.label, lost, element, now)] = True
        for dead in [p for p in self.new.meeting(element) if p in self.needs.dead][:3]:
            change.notes["%s satisfies %s too, and can never be installed" % (dead, element)] = True
        if target not in change.struck:
            change.struck.add(target)
            self.strike_new_needs_of(change, target)
        return "%s (source %s) %s %s" % (moved, package.source, "depends on" if asked else "now depends on", element)

    def lost(self, element: str) -> list[Package]:
        """Up to three packages that satisfied an element in OLD, and whose name does no more."""
        still = {p.name for p in self.new.meeting(element)}
        return [p for p in self.old.meeting(element) if p.name not in still][:3]

    def strike_new_needs_of(self, change: Change, target: Package) -> None:
        for element in self.needs.met_with[target]:
            for owner in self.needs.owners[element]:
                if not self.asked_before(owner, element):
                    change.strike_need(owner, element)

    # From conflicts to a reason

    def conflict(self, line: Line, clashes: list[Clash], needs: Needs, strike: Strike | None = None) -> Reason | None:
        """The reason of a line that these conflicts keep apart, or None if no change is seen."""
        fresh = [clash for clash in clashes if not self.was_there(clash)]
        if fresh:
            return Reason(self.new_conflicts(fresh), self.chains(line, clashes, needs), [], self.conflict_notes(clashes), clashes)
        links = self.new_links(line, clashes[0], needs) if len(clashes) == 1 else []
        if links:
            change, in_need = self.new_needs(links)
            return Reason(change, self.chains(line, clashes, needs), in_need, self.conflict_notes(clashes), clashes)
        return self.first_new_need(line, clashes, needs, strike) if clashes else None

    def first_new_need(self, line: Line, clashes: list[Clash], needs: Needs, strike: Strike | None) -> Reason | None:
        """The first dependency on the ways to the conflicts that is new, or satisfied by fewer, and without which the line is mended.

        With a strike, if none mends the line, it is the first that is new: others may mend it together with that.
        """
        ways = self.chains(line, clashes, needs)
        links: dict[tuple[Package, str], list[Link]] = collections.defaultdict(list)
        for way in ways:
            for link in links_of(way):
                links[link[:2]].append(link)
        changed = sorted(filter(self.has_changed, links), key=lambda asked: self.asked_before(*asked))
        fresh = [asked for asked in changed if not self.asked_before(*asked)] if strike is not None else []
        mending = (asked for asked in changed if self.is_mended_without(line, links[asked], strike or {}))
        if not (asked := next(mending, next(iter(fresh), None))):
            return None
        change, in_need = self.new_needs(links[asked])
        return Reason(change, ways, in_need[:1], self.conflict_notes(clashes), clashes)

    def is_mended_without(self, line: Line, links: list[Link], strike: Strike) -> bool:
        """Whether the line is mended without a dependency, and without what is struck already."""
        tried = self.needs_change(links)
        self.add_link(tried, *links[0])
        return bool(self.asking.well([line], self.new, merged([strike, tried.strike])))

    def has_changed(self, asked: tuple[Package, str]) -> bool:
        """Whether a dependency (package, element) is new, or satisfied by fewer than in OLD."""
        package, element = asked
        is_old = any(element in p.needs for p in self.old.named.get(package.name, ()))
        return not is_old or bool(self.lost(element)) or any(p in self.needs.dead for p in self.new.meeting(element))

    def conflict_notes(self, clashes: list[Clash]) -> list[str]:
        if len(clashes) == 1:
            return ["%s and %s conflict%s" % (*clashes[0], ", as before" if self.was_there(clashes[0]) else "")]
        return [" and ".join(map(pair_text, clashes)) + ", together"]

    def chains(self, line: Line, clashes: list[Clash], needs: Needs) -> list[Chain]:
        """The chains from the names of the line to the packages of the conflicts: what can't be done without, else a way."""
        if len(clashes) == 1:
            leading = [[name for name in line if name in needs.names_leading_to((end,))] for end in clashes[0]]
            if all(leading):
                return [needs.chain(names[0], needs.leading_to((end,))) for names, end in zip(leading, clashes[0])]
        ends = [end for clash in clashes for end in clash]
        return [way for name in line for way in ways(self.new.named[name], ends, needs)]

    # As records

    def source(self, source: str) -> Source:
        return Source(source, self.old.newest(source), self.new.newest(source))

    def moved(self, package: Package) -> Moved:
        was = [p.version for p in self.old.named.get(package.name, ())]
        return Moved(package.name, package.version, was[-1] if was else None, package.source)

    def step(self, package: Package, element: str | None, after: Package | None, end: Package) -> Step:
        """One step of a way: who depends on what, who satisfies it and who did, and whether it is new."""
        moved = self.moved(package)
        if element is None:
            return Step(**vars(moved), needs=None, new=False, others=0, too=[], dead=[], other=[], lost=[])
        same = self.needs.leading_to((end,)) if after else {}
        others = [p for p in self.new.meeting(element) if p is not after]
        dead = [str(p) for p in others if p in self.needs.dead]
        too = [str(p) for p in others if p in same]
        other = [str(p) for p in others if p not in same and p not in self.needs.dead]
        lost = [str(p) for p in self.lost(element) or self.offered_before(element)]
        return Step(
            **vars(moved), needs=element, new=not self.asked_before(package, element), others=len(others),
            too=too[:MOST_SHOWN], dead=dead[:MOST_SHOWN], other=other[:MOST_SHOWN], lost=lost,
        )

    def offered_before(self, element: str) -> list[Package]:
        """If nothing satisfies an element, up to three packages of OLD that had its names in whatever version."""
        if self.new.meeting(element):
            return []
        return list(dict.fromkeys(p for name in sorted(names_in(element)) for p, _ in self.old.offers.get(name, ())))[:3]

    def way(self, chain: Chain) -> list[Step]:
        after = [package for package, _, _ in chain[1:]] + [None]
        return [self.step(package, element, other, chain[-1][0]) for (package, element, _), other in zip(chain, after)]

    def conflict_of(self, clash: Clash) -> Conflict:
        by = [
            Relation(mine.name, kind.title(), atom, atom not in self.against_before(mine.name)) for mine, kind, atom in self.new.declared(*clash)
        ]
        return Conflict([self.moved(end) for end in clash], self.was_there(clash), by)

    def why(self, line: Line, chains: list[Chain], clashes: list[Clash], is_one: bool) -> Why:
        """One line, its chains and conflicts, with all that a picture needs; if several conflicts are of one change, a proof too."""
        part = self.asking.keep("slice", self.new.slice(line)) if is_one and len(clashes) > 1 else None
        proof = proof_of(self.old, self.new, line, clashes, part) if part else None
        return Why(list(line), [self.way(chain) for chain in chains], [self.conflict_of(clash) for clash in clashes], proof)
