"""What a plan says: for people, as hints for britney, and as JSON (docs/PLAN-FORMAT.md)."""

from __future__ import annotations

import collections
import dataclasses
import functools
from collections.abc import Iterable, Iterator, Sequence
from typing import Any

from .plan_asking import End, Facts, Memory
from .plan_calls import Calls, Found, Link
from .plan_faults import UNBUILT
from .plan_making import Plan, Refusal, Step
from .plan_mixes import newest
from .plan_program import Line

FORMAT = "coinst-plan 1"
MOST_ROOT_SETS = 12  # that the text tells
MOST_LINKS = 5


def some(words: Iterable[str], limit: int, of_what: str) -> str:
    """The first of some words, and how many there are."""
    words = list(words)
    return " ".join(words[:limit]) + (" .. (%d %s)" % (len(words), of_what) if len(words) > limit else "")


def counted(number: int, word: str) -> str:
    return "%d %s%s" % (number, word, "" if number == 1 else "s")


class Items:
    """The sources as they are written: with the version that comes, or with a minus and the version that goes."""

    def __init__(self, facts: dict[str, dict[str, Facts]]) -> None:
        self.facts: dict[str, list[Facts]] = collections.defaultdict(list)
        for answer in facts.values():
            for source, of_source in answer.items():
                self.facts[source].append(of_source)

    def is_removal(self, source: str) -> bool:
        return all(facts.new is None for facts in self.facts[source])

    def text(self, source: str) -> str:
        versions = [facts.old if self.is_removal(source) else facts.new for facts in self.facts[source]]
        return "%s%s/%s" % ("-" * self.is_removal(source), source, newest(version for version in versions if version))

    def drops(self, step: Step) -> list[str]:
        return sorted({name for source in step.sources for facts in self.facts[source] for name in facts.drops})


@dataclasses.dataclass
class Report:
    """All that a plan says."""

    indexes: dict[str, tuple[str, str]]
    wanted: Sequence[str]
    items: Items
    calls: Calls
    plan: Plan
    ends: dict[str, End]

    @functools.cached_property
    def refused(self) -> dict[str, Refusal]:
        return self.plan.refused()

    @functools.cached_property
    def stays(self) -> list[str]:
        return [source for source in self.wanted if source not in self.plan.come]

    def status(self) -> int:
        return 1 if self.stays else 8 if any(end.unknown or end.lines for end in self.ends.values()) else 0

    def text(self) -> str:
        came = len(self.wanted) - len(self.stays)
        places = " ".join(self.indexes)
        lines = ["%d of %s can come, in %s, on %s" % (came, counted(len(self.wanted), "source"), counted(len(self.plan.steps), "step"), places)]
        parts = [lines, list(map(self.step_text, self.plan.steps))]
        if self.stays:
            stay = counted(len(self.stays), "source") + (" stays" if len(self.stays) == 1 else " stay")
            parts += [[stay], [line for source in self.stays for line in self.reason(source)], roots_text(self.calls, MOST_ROOT_SETS)]
        parts.append([line for name in self.ends for line in self.end_text(name)])
        return "\n\n".join("\n".join(part) for part in parts if part) + "\n"

    def step_text(self, step: Step) -> str:
        drops = self.items.drops(step)
        return "  " + " ".join(map(self.items.text, step.sources)) + ("   drops " + some(drops, 4, "names") if drops else "")

    # What stays

    def reason(self, source: str) -> list[str]:
        refusal = self.refused.get(source)
        if source in self.calls.blocked:
            return self.blocked_text(source)
        if refusal is None or not refusal.is_alone():
            return ["  %s: not tried alone: the time was over" % self.items.text(source)]
        if self.plan.is_lost(refusal):
            return ["  %s: NEW itself has lost it" % self.items.text(source), *self.refusing(refusal)]
        partners = [s for s in refusal.tried if s != source]
        tried = "tried with " + some(partners, 6, "sources") if partners else "tried alone: it calls for no other"
        return ["  %s: %s" % (self.items.text(source), tried), *self.refusing(refusal)]

    def refusing(self, refusal: Refusal) -> Iterator[str]:
        """What refused a group."""
        for name, line in refusal.lines.items():
            yield "      %s: %s" % (name, " ".join(line))
        if refusal.fault:
            yield "      %s: %s" % (refusal.fault.architecture, fault_text(refusal.fault))
        if refusal.held:
            yield "      it conflicts with packages of %s, which cannot come" % some(refusal.held, 4, "sources")
        if refusal.loses:
            yield "      it loses %s, which OLD can install together" % " ".join(refusal.loses)

    def blocked_text(self, source: str) -> list[str]:
        """The chain to a root: each fault would be mended by the source of the next."""
        chain = self.calls.chain(source)
        links = [self.link_text(link, link is chain[0]) for link in chain]
        if len(links) > MOST_LINKS:
            links[MOST_LINKS - 1 : -1] = ["      .. and so on, %d more" % (len(links) - MOST_LINKS)]
        root = chain[-1].found.fault
        links += ["      OLD can install %s" % root.owner.split()[0]] if root.in_old else []
        return ["  %s: blocked, whatever comes with it" % self.items.text(source), *links]

    @staticmethod
    def link_text(link: Link, is_first: bool) -> str:
        waits = "" if is_first else "it waits for %s, on " % link.source
        return "      %s%s: %s" % (waits, link.found.architecture, fault_text(link.found))

    # The end

    def end_text(self, name: str) -> list[str]:
        end = self.ends[name]
        sets = "of larger sets it is not known: " + end.unknown if end.unknown else "no larger set is lost"
        open_lines = "not decided: " + some(map(line_text, end.lines), 4, "lines") if end.lines else "no line"
        lines = ["%s: compare OLD with the mix of all that comes: %s; %s" % (name, open_lines, sets)]
        return lines + ["  comes and cannot be installed: " + some(end.dead, 8, "names")] if end.dead else lines


def fault_text(found: Found) -> str:
    fault = found.fault
    return fault.text() + (", and no source satisfies it" if fault.sure and not fault.mends and fault.kind != UNBUILT else "")


def root_texts(calls: Calls, root: str) -> list[str]:
    """What no source mends: of each package one fault, and all architectures on which it has one."""
    of: dict[str, list[Found]] = {}
    for found in calls.root_faults(root):
        of.setdefault(found.fault.owner.split()[0], []).append(found)
    return ["           %s: %s" % (" ".join(sorted({f.architecture for f in mine})), fault_text(mine[0])) for mine in of.values()]


def roots_text(calls: Calls, limit: int | None = None) -> list[str]:
    """The work list: the roots, and how many blocked sources wait for each; then the sets of roots that they wait for."""
    of = calls.roots_of()
    waiting = collections.Counter(root for roots in of.values() for root in roots)
    if not of:
        return ["No source is blocked"]
    lines = ["Of all sources %d are blocked, and wait for these" % len(of), ""]
    for root, many in in_order(waiting)[:limit]:
        lines += ["  %5d: %s" % (many, root), *root_texts(calls, root)[:3]]
    if limit is not None and len(waiting) > limit:
        lines.append("         and %d more: tools/plan --roots prints them" % (len(waiting) - limit))
    lines += ["", "How many of them wait for all of these and no others", ""]
    sets = collections.Counter(tuple(sorted(roots)) for roots in of.values())
    return lines + ["  %5d: %s" % (many, some(roots, 8, "sources")) for roots, many in in_order(sets)[:limit]]


def in_order(counter: collections.Counter[Any]) -> list[tuple[Any, int]]:
    """The most frequent first, and then in their order."""
    return sorted(counter.items(), key=lambda item: (-item[1], item[0]))


def hints(report: Report) -> str:
    return "".join("easy %s\n" % " ".join(map(report.items.text, step.sources)) for step in report.plan.steps)


# JSON


def fault_json(found: Found) -> dict[str, Any]:
    fault = found.fault
    return {
        "architecture": found.architecture, "kind": fault.kind, "package": fault.owner, "source": fault.source, "what": fault.what,
        "mends": sorted(fault.mends), "sure": fault.sure, "in_old": fault.in_old,
    }


def refusal_json(report: Report, refusal: Refusal) -> dict[str, Any]:
    found: dict[str, Any] = {"tried": list(refusal.tried), "on": len(refusal.on), "lines": {n: list(line) for n, line in refusal.lines.items()}}
    found["within"] = {name: len(group) for name, group in refusal.within.items()}
    if refusal.fault:
        found["fault"] = fault_json(refusal.fault)
    if refusal.held:
        found["held"] = list(refusal.held)
    if refusal.loses:
        found["loses"] = list(refusal.loses)
    return found


def stay_json(report: Report, source: str) -> dict[str, Any]:
    refusal = report.refused.get(source)
    item = {"item": report.items.text(source)}
    if source in report.calls.blocked:
        return {**item, "why": "blocked", "chain": [{"of": link.source, "fault": fault_json(link.found)} for link in report.calls.chain(source)]}
    if refusal is None or not refusal.is_alone():
        return {**item, "why": "not tried"}
    return {**item, "why": "lost" if report.plan.is_lost(refusal) else "refused", "refusal": refusal_json(report, refusal)}


def step_json(report: Report, step: Step) -> dict[str, Any]:
    return {"items": [report.items.text(s) for s in step.sources], "sources": step.sources, "drops": report.items.drops(step)}


def end_json(end: End) -> dict[str, Any]:
    return {"lines": [list(line) for line in end.lines], "dead": end.dead, "sets": [list(line) for line in end.sets], "unknown": end.unknown}


def roots_json(calls: Calls) -> list[dict[str, Any]]:
    waiting = collections.Counter(root for roots in calls.roots_of().values() for root in roots)
    return [
        {"source": root, "waiting": many, "faults": [fault_json(found) for found in calls.root_faults(root)]}
        for root, many in in_order(waiting)
    ]


def report_json(report: Report, memory: dict[str, Memory]) -> dict[str, Any]:
    return {
        "format": FORMAT,
        "indexes": {name: list(pair) for name, pair in report.indexes.items()},
        "wanted": list(report.wanted),
        "steps": [step_json(report, step) for step in report.plan.steps],
        "stays": {source: stay_json(report, source) for source in report.stays},
        "roots": roots_json(report.calls),
        "ends": {name: end_json(end) for name, end in report.ends.items()},
        "asked": memory,
    }


def memory_of(plan: Any, path: str) -> dict[str, Memory]:
    """What a plan that was made before has asked."""
    if not isinstance(plan, dict) or plan.get("format") != FORMAT:
        raise ValueError(path)
    return {name: {key: [None if o is None else tuple(o) for o in found] for key, found in mine.items()} for name, mine in plan["asked"].items()}


def line_text(line: Line) -> str:
    return " ".join(line)
