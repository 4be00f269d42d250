"""Sorts the lines of a comparison under their causes, and has the program try each cause.

A cause is one change, or several that mend only together. Each line stands under exactly one.
"""

from __future__ import annotations

import collections
import contextlib
import itertools
import os
from collections.abc import Callable, Iterable, Sequence

from .broken_changes import Change, Changes, Clash, Reason, Strike, merged, pair_text
from .broken_records import Found, Line, Step
from .built import NOT_BUILT, leave
from .command import Program, progress
from .debian_index import TEXT, Index
from .needs import Chain, Needs

MOST_CHANGES = 12  # of one cause
MOST_TRIES = 40  # for the lines that a cause does not mend
MOST_BYTES = 60_000_000  # of slices that are tried for all such lines; trixie to sid takes a third of it


def names_of(lines: Iterable[Line]) -> tuple[str, ...]:
    return tuple(sorted({name for line in lines for name in line}))


def all_broken(lines: Iterable[Line], names: Sequence[str]) -> str:
    """The text of an index in which just these lines, of one name or two, are broken."""
    against: dict[str, list[str]] = collections.defaultdict(list)
    for one, *other in lines:
        against[one] += other
    nothing = names[-1] + "-none"  # it comes after the last of the names, so it is none of them
    relations = {name: "Conflicts: %s\n" % ", ".join(others) for name, others in against.items() if others}
    relations.update({line[0]: "Depends: %s\n" % nothing for line in lines if len(line) == 1})
    return "\n".join("Package: %s\nVersion: 1\n%s" % (name, relations.get(name, "")) for name in names)


class Asking:
    """The program, asked about slices of an index."""

    def __init__(self, program: Program, folder: str):
        self.program, self.folder, self.written = program, folder, 0

    def keep(self, name: str, text: str) -> str:
        path = os.path.join(self.folder, name)
        with contextlib.suppress(FileNotFoundError):
            os.unlink(path)  # to write over a file waits until what it had is on the disk
        with open(path, "w", **TEXT) as file:
            self.written += file.write(text)
        return path

    def compare(self, old_path: str, new_path: str) -> tuple[int, list[Line], list[Line]]:
        """The status, the broken lines and the open ones; the last line of an answer says how many these are."""
        status, answer = self.program.ask("compare", old_path, new_path)
        broken, left = ([tuple(words[1:]) for words in answer if words[:1] == [word]] for word in ("broken", "open"))
        if answer[-1:] != [["end", str(len(broken)), str(len(left))]]:
            leave(NOT_BUILT, "the program ends `compare` with status %d and no whole answer" % status)
        return status, broken, left

    def explain(self, index: Index, names: Line, strike: Strike | None = None) -> list[Clash]:
        """The conflicts that keep the names apart; none if there are none or the program leaves it open."""
        answer = self.program.ask("explain", self.keep("slice", index.slice(names, strike)), *names)[1]
        clashes = [words[1:] for words in answer if words[0] in ("clash", "clash-open")]
        return [(index.package(*words[:2]), index.package(*words[2:])) for words in clashes]

    def well(self, lines: Iterable[Line], index: Index, strike: Strike) -> set[Line]:
        """Which of the lines are well in the slice once this is taken out, if it is known that they are broken before."""
        lines = set(lines)
        names = names_of(lines)
        old, new = self.keep("mended", index.slice(names, strike)), self.keep("slice", all_broken(lines, names))
        return set(self.compare(old, new)[1]).intersection(lines)

    def confirmed(self, lines: Sequence[Line], index: Index) -> set[Line]:
        """Which of the lines are broken in the slice, judged against an index in which each name is bare."""
        names = names_of(lines)
        bare = "\n".join("Package: %s\nVersion: 1\n" % name for name in names)
        return set(self.compare(self.keep("mended", bare), self.keep("slice", index.slice(names)))[1]).intersection(lines)


class Cause:
    """Changes that brought lines together, most often one; each line has its reasons."""

    def __init__(self, changes: list[Change]):
        self.changes = changes
        self.lines: dict[Line, list[Reason]] = {}
        self.held: dict[str, int] = {}
        self.mended: set[Line] = set()
        self.confirmed = False

    def strike(self) -> Strike:
        return merged(change.strike for change in self.changes)

    def key(self) -> str:
        return " & ".join(change.key for change in self.changes)

    def counted(self, texts: Callable[[Reason], Iterable[str]]) -> list[tuple[str, int]]:
        """Texts of reasons and of how many lines each is, the most first; several reasons of a line may say the same."""
        counts: collections.Counter[str] = collections.Counter()
        for reasons in self.lines.values():
            counts.update(list(dict.fromkeys(text for reason in reasons for text in texts(reason))))
        return counts.most_common()

    def example(self) -> tuple[Line, list[Chain]]:
        """The first line, but of names with one chain the one that says most, which is of three steps; and its chains."""
        shown = [(line, [chain for reason in reasons for chain in reason.chains]) for line, reasons in self.lines.items()]
        single = [(line, chains) for line, chains in shown if len(chains) == 1]
        first = next((pair for pair in shown if pair[1]), shown[0])
        return min(single, key=lambda pair: abs(len(pair[1][0]) - 3)) if single else first

    def notes(self) -> list[tuple[str, int]]:
        """Notes and of how many lines they are: first those of the changes, then what still holds a line, then by number."""
        kept = {note: 0 for change in self.changes for note in change.notes}
        return [*kept.items(), *self.held.items(), *self.counted(lambda reason: reason.notes)]

    def found(self, changes: Changes) -> Found:
        """The cause as a record."""
        line, chains = self.example()
        clashes = [clash for reason in self.lines[line] for clash in reason.clashes]
        sources = dict.fromkeys(source for change in self.changes for source in change.sources)
        return Found(
            key=self.key(), kind=" and ".join(dict.fromkeys(change.kind for change in self.changes)),
            title="; and ".join(change.title() for change in self.changes), sources=[changes.source(source) for source in sources],
            lines=sorted(self.lines), mended=self.mended, confirmed=self.confirmed, why=changes.why(line, chains, clashes, len(self.changes) == 1),
            notes=self.notes(), in_need=self.counted(lambda reason: reason.in_need),
        )


def way_lines(way: Sequence[Step]) -> list[str]:
    """A way as lines: the first package, and below it each element with what satisfies it."""
    lines = ["%s %s" % (way[0].package, way[0].version)]
    for step, after in itertools.zip_longest(way, way[1:]):
        if step.needs and after:
            others = " or %d more" % step.others if step.others else ""
            lines.append("  depends on %s: %s %s%s" % (step.needs, after.package, after.version, others))
        elif step.needs:
            lines.append("  depends on %s: nothing satisfies it" % step.needs)
    return lines


class Below:
    """Which of the lines others hold: if the names of one cannot do without those of another, what holds that one holds both."""

    def __init__(self, lines: Iterable[Line], needs: Needs):
        self.needs = needs
        self.having: dict[str, list[Line]] = collections.defaultdict(list)
        for line in lines:
            for name in line:
                self.having[name].append(line)

    def forced(self, line: Line) -> frozenset[str]:
        return frozenset().union(*map(self.needs.forced, line))

    def lowest(self, line: Line) -> Line:
        """A line that the names of this one cannot do without, and that none is below; it is this one if there is none."""
        inside = self.forced(line)
        for name in sorted(inside & self.having.keys()):
            for other in self.having[name]:
                if other != line and inside.issuperset(other):
                    under = self.forced(other)
                    if (len(under), other) < (len(inside), line):
                        return self.lowest(other)
        return line


class Search:
    """Looks for the causes of the broken lines of two indexes."""

    def __init__(self, old: Index, new: Index, lines: Sequence[Line], asking: Asking):
        self.new, self.lines, self.asking = new, lines, asking
        names = names_of(lines)
        self.needs = Needs(new, names)
        reached = {package.name for package in new.reach(names)}
        self.changes = Changes(old, new, self.needs, sorted(reached.union(names)), asking)
        self.causes: dict[tuple[str, ...], Cause] = {}

    def put(self, line: Line, reasons: list[Reason]) -> Cause:
        """The line under the cause of these reasons' changes."""
        changes = {reason.change.key: reason.change for reason in reasons}
        key = tuple(sorted(changes))
        cause = self.causes.setdefault(key, Cause([changes[part] for part in key]))
        cause.lines[line] = reasons
        return cause

    def run(self) -> list[Cause]:
        dead = {line for line in self.lines if len(line) == 1 and self.needs.is_dead(line[0])}
        for line in self.lines:
            if line in dead:
                self.put(line, [self.changes.missing(line[0], self.needs)])
        self.sort_conflicts([line for line in self.lines if line not in dead])
        self.refine()
        return [cause for cause in self.causes.values() if cause.lines]

    # Lines that conflicts hold

    def covered(self, clash: Clash, below: Below) -> set[Line]:
        """The lines whose names cannot do without both packages."""
        ends = sorted((self.needs.names_leading_to((end,)) for end in clash), key=len)
        return {line for name in ends[0] & below.having.keys() for line in below.having[name] if not ends[1].isdisjoint(line)}

    def explain_all(self, lines: Sequence[Line]) -> tuple[dict[Clash, set[Line]], dict[Line, list[Clash]]]:
        """Conflicts, each with the lines that it covers; and the lines that no single conflict holds, with theirs."""
        under: dict[Clash, set[Line]] = {}
        several: dict[Line, list[Clash]] = {}
        seen: set[Line] = set()
        below, told = Below(lines, self.needs), {}
        for place, line in enumerate(lines):
            if line in seen:
                continue
            progress("explaining, line %d of %d: %s" % (place + 1, len(lines), " ".join(line)))
            lowest = below.lowest(line)
            if lowest not in told:
                told[lowest] = self.asking.explain(self.new, lowest)
            clashes = told[lowest]
            covered = self.covered(clashes[0], below) if len(clashes) == 1 else set()
            if line in covered:
                under[clashes[0]] = covered
                seen |= covered
            else:
                several[line] = clashes
        return under, {line: clashes for line, clashes in several.items() if line not in seen}

    def sort_conflicts(self, lines: Sequence[Line]) -> None:
        under, several = self.explain_all(lines)
        rest: set[Line] = set().union(*under.values())
        while rest:
            clash = max(under, key=lambda clash: len(under[clash] & rest))
            for line in sorted(under[clash] & rest):
                self.put(line, [self.reason(line, [clash])])
            rest -= under[clash]
        for line, clashes in several.items():
            self.put(line, [self.reason(line, clashes)])

    def reason(self, line: Line, clashes: list[Clash]) -> Reason:
        """The reason of a line that conflicts hold, or of one for which no change was seen or that the program left open."""
        if found := self.changes.conflict(line, clashes, self.needs):
            return found
        key = "held:" + "+".join(sorted({package.name for clash in clashes for package in clash}))
        lead = "no change was found that brought " if clashes else "the program leaves the conflicts open within its budget"
        change = self.changes.keep(Change(key, "no change found", lead))
        change.things.setdefault(" and ".join(map(pair_text, clashes)), True)
        return Reason(change, self.changes.chains(line, clashes, self.needs) if clashes else [], clashes=clashes)

    # Trying

    def refine(self) -> None:
        """Has each cause tried; lines that it does not mend go to a cause of all the changes that they need."""
        todo = sorted(self.causes.values(), key=lambda cause: (-len(cause.lines), cause.key()))
        rests = []
        for place, cause in enumerate(todo, 1):
            progress("trying cause %d of %d" % (place, len(todo)))
            rests.append(self.try_cause(cause))
        self.limit = self.asking.written + MOST_BYTES
        for cause, rest in zip(todo, rests):
            self.sort_rest(cause, rest)
        self.confirm()

    def try_cause(self, cause: Cause) -> set[Line]:
        """The lines that the cause does not mend."""
        cause.mended |= self.asking.well(cause.lines, self.new, cause.strike()) if cause.strike() else set()
        return set(cause.lines) - cause.mended

    def confirm(self) -> None:
        """Has all lines confirmed: names in one run and pairs in another, since no pairs are tried of names that are dead."""
        sure: set[Line] = set()
        for size in sorted({len(line) for line in self.lines}):
            sure |= self.asking.confirmed([line for line in self.lines if len(line) == size], self.new)
        for cause in self.causes.values():
            cause.confirmed = sure.issuperset(cause.lines)

    def sort_rest(self, cause: Cause, rest: set[Line]) -> None:
        for _ in range(MOST_TRIES):
            if rest and self.asking.written < self.limit:
                progress("sorting lines that one change does not mend, %d of %s" % (len(rest), cause.key()))
                rest -= self.move_on(cause, min(rest), rest)
        if rest:
            cause.held["what else holds them was not looked for"] = len(rest)

    def move_on(self, cause: Cause, line: Line, rest: set[Line]) -> set[Line]:
        """Finds what else holds a line that the cause does not mend; the lines that all of it mends go to a cause of their own."""
        further = self.further(cause, line)
        if not further:
            return {line}
        reasons = self.trimmed(line, cause.lines[line] + further)
        mended = self.asking.well(rest, self.new, merged(reason.change.strike for reason in reasons))
        for moved in sorted(mended):
            own = {reason.change.key: reason for reason in cause.lines.pop(moved)}
            together = self.put(moved, [own.get(reason.change.key, reason) for reason in reasons])
            together.mended.add(moved)
        return mended | {line}

    def further(self, cause: Cause, line: Line) -> list[Reason]:
        """The changes that mend the line together with those of the cause; if no such are seen, a note says so."""
        strike = cause.strike()
        reasons: list[Reason] = []
        while len(reasons) < MOST_CHANGES:
            reason, held = self.next_reason(line, strike)
            if not reason or all(elements <= strike.get(p, set()) for p, elements in reason.change.strike.items()):
                if cause.strike():
                    cause.held["%s: still held, by %s" % (" with ".join(line), held)] = 0
                return []
            reasons.append(reason)
            strike = merged([strike, reason.change.strike])
            if self.asking.well([line], self.new, strike):
                return reasons
        return []

    def next_reason(self, line: Line, strike: Strike) -> tuple[Reason | None, str]:
        """What holds the line once this is taken out, and how to name it."""
        needs = Needs(self.new, line, strike)
        for name in line:
            if needs.is_dead(name):
                return self.changes.missing(name, needs), "a dependency that nothing satisfies"
        clashes = self.asking.explain(self.new, line, strike)
        held = " and ".join(map(pair_text, clashes)) or "what the program leaves open"
        return self.changes.conflict(line, clashes, needs, strike), held

    def trimmed(self, line: Line, reasons: list[Reason]) -> list[Reason]:
        """The reasons, less those without which the line is mended too."""
        for reason in list(reasons):
            others = [other for other in reasons if other is not reason]
            if others and self.asking.well([line], self.new, merged(other.change.strike for other in others)):
                reasons = others
        return reasons


def causes_of(old: Index, new: Index, lines: Sequence[Line], asking: Asking) -> list[Found]:
    """The causes of the lines, as records."""
    if not lines:
        return []
    search = Search(old, new, lines, asking)
    return [cause.found(search.changes) for cause in search.run()]
