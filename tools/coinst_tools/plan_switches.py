"""An index in which groups of sources are names, so that `coinst migrate` plans groups. docs/PLANS.md has the law and its proof.

The name of group number I is a switch, of version 0 where the group has not come and of version 1 where it has. All packages that may be
in a mix are in the index. What a group brings needs version 1 of its switch, and what groups take away needs version 0 of each of theirs.

A name that may be absent from a mix must not be judged there. So all its packages bear another name and provide this one in their
versions, and beside them stands a package that can be installed exactly if the name is absent. The same is done for a name
that nobody judges, beside a package without needs, and for packages of one name and of equal versions.

What can be added to every installation (plan_always) is left out, and the needs that it meets are struck. So is what the groups do not bear on
(plan_near).
"""

from __future__ import annotations

import dataclasses
from collections.abc import Iterable, Iterator, Sequence

from .debian_index import version_key
from .plan_always import Always, stanza_of
from .plan_mixes import NEW, Member, Mix
from .plan_near import Near

SWITCH, RENAMED = "zz-plan-", "zz-was-"
RESERVED = (SWITCH, RENAMED)
HOME = SWITCH + "home"
GROUPS_AT_ONCE = 256  # names that may differ in one call of `migrate`
Group = Sequence[str]


def switch(place: int) -> str:
    return "%s%04d" % (SWITCH, place)


def place_of(name: str) -> int:
    return int(name[len(SWITCH) :])


def stanza(name: str, version: object, depends: Iterable[str] = (), architecture: str = "all") -> str:
    needs = ", ".join(depends)
    return "Package: %s\nVersion: %s\nArchitecture: %s\n%s" % (name, version, architecture, "Depends: %s\n" % needs if needs else "")


@dataclasses.dataclass(frozen=True)
class Switched:
    """A package that may be in a mix: the groups that take it away, and the one that brings it."""

    package: Member
    takers: frozenset[int] = frozenset()
    bringer: int | None = None

    @property
    def switches(self) -> frozenset[int]:
        return self.takers if self.bringer is None else frozenset([self.bringer])

    def needs(self) -> list[str]:
        value = 0 if self.bringer is None else 1
        return ["%s (= %d)" % (switch(place), value) for place in sorted(self.switches)]

    def text(self, place: int | None, relations: dict[str, list[str]]) -> str:
        """The stanza with these relations and its switches; under another name, with a version of its own, where it has a place there."""
        package = self.package
        relations.setdefault("depends", []).extend(self.needs())
        if place is None:
            return stanza_of(package.name, package.version, package.architecture, relations)
        relations.setdefault("provides", []).append("%s (= %s)" % (package.name, package.version))
        return stanza_of(RENAMED + package.name, "1.%d" % place, package.architecture, relations)


def absence(members: list[Switched]) -> list[str] | None:
    """What is needed so that the name of these packages is absent, or None where it never is."""
    bringers = {m.bringer for m in members if m.bringer is not None}
    goes = [sorted(m.takers - bringers) for m in members if m.bringer is None]
    if not goes or not all(goes):
        return None
    gone = [" | ".join("%s (= 1)" % switch(place) for place in places) for places in goes]
    return list(dict.fromkeys(gone)) + ["%s (= 0)" % switch(place) for place in sorted(bringers)]


def has_equal_versions(members: list[Switched]) -> bool:
    return len(members) > 1 and len({repr(version_key(m.package.version)) for m in members}) < len(members)


def texts_of_name(name: str, members: list[Switched], always: Always) -> list[str]:
    """The stanzas of all packages of a name, under another name if it may be absent, is not judged, or has equal versions."""
    needs = [] if name in always.suites.may_break else absence(members)
    renamed = needs is not None or has_equal_versions(members)
    texts = [member.text(place if renamed else None, always.relations_of(member.package)) for place, member in enumerate(members)]
    return texts if needs is None else texts + [stanza(RENAMED + name, "0~", needs)]


@dataclasses.dataclass(frozen=True)
class Encoded:
    """The stanzas that both files share, and the groups that have packages here."""

    texts: list[str]
    live: list[int]

    def file(self, version: int) -> str:
        """The file in which no group has come (0) or all have (1)."""
        return "\n".join(self.texts + [stanza(switch(place), version) for place in self.live])


def encoded(always: Always, groups: Sequence[Group], come: Mix) -> Encoded:
    """The index of groups that may come after the sources that have come; `always` grows with these."""
    group_of = {source: place for place, group in enumerate(groups) for source in group}
    always.grow(come)
    always = always.grown(group_of.keys())
    members = list(members_of(always, group_of, come))
    near = Near(always, {member.package for member in members})
    kept = near.kept(member.package for member in members if member.switches)
    return put_together(always, [member for member in members if member.package in kept])


def members_of(always: Always, group_of: dict[str, int], come: Mix) -> Iterator[Switched]:
    """The packages that may be in the mixes, but for those that are always there."""
    for package in always.suites.packages:
        if package.state == NEW and package.source in group_of:
            yield Switched(package, bringer=group_of[package.source])
        elif package not in always.packages and package.is_in(come):
            yield Switched(package, frozenset(group_of[s] for s in package.takers if s in group_of))


def put_together(always: Always, members: list[Switched]) -> Encoded:
    home = always.suites.pool.home  # by which relations are read
    texts = [stanza(HOME, 0, architecture=home)] if home else []
    switched: dict[str, list[Switched]] = {m.package.name: [] for m in members if m.switches or m.package.name in always.suites.may_break}
    for member in members:
        if member.package.name in switched:
            switched[member.package.name].append(member)
        else:
            texts.append(always.text(member.package))
    live = {place for member in members for place in member.switches}
    for name, mine in switched.items():
        texts += texts_of_name(name, mine, always)
    return Encoded(texts, sorted(live))
