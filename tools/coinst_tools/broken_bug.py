"""Writes one cause of a report as a bug report, to be pasted into a mail as it is."""

from __future__ import annotations

from collections.abc import Iterator, Sequence

from .broken_records import Cause, Conflict, File, Report, Step, Why
from .broken_text import counted, mended_text, problem_lines, source_text, wrapped
from .command import BadWords

MOST_NAMES = 60  # that are written out
MOST_WAYS = 4


def cause_of(report: Report, key: str) -> Cause:
    """The cause of this key or this id."""
    found = next((cause for cause in report.causes if key in (cause.key, cause.id)), None)
    if not found:
        near = [cause.key for cause in report.causes if key in cause.key][:5]
        raise BadWords("%s: no such cause%s" % (key, "; there are " + ", ".join(near) if near else ""))
    return found


def conflict_text(conflict: Conflict) -> str:
    one, other = ("%s %s" % (end.package, end.version) for end in conflict.between)
    by = "; ".join("%s has %s: %s" % (by.package, by.field, by.relation) for by in conflict.by) or "two versions of one name"
    return "%s and %s conflict: %s" % (one, other, by)


def way_text(way: Sequence[Step]) -> Iterator[str]:
    """A way in Debian's words, a line a step."""
    for step, after in zip(way, [*way[1:], None]):
        if step.needs:
            new = ", newly" if step.new else ""
            met = "which %s %s satisfies" % (after.package, after.version) if after else "which nothing satisfies"
            yield "%s %s depends on %s%s, %s" % (step.package, step.version, step.needs, new, met)


def why_lines(why: Why) -> list[str]:
    if why.proof:
        return why.proof.text
    steps = list(dict.fromkeys(text for way in why.ways[:MOST_WAYS] for text in way_text(way)))
    return steps + [conflict_text(conflict) for conflict in why.conflicts]


def affected(cause: Cause) -> list[str]:
    """The names of all lines, those of most lines first."""
    count: dict[str, int] = {}
    for group in cause.lines:
        for name in group.names:
            count[name] = count.get(name, 0) + 1
        for name, others in group.sides:
            count[name] = count.get(name, 0) + len(others)
            for other in others:
                count[other] = count.get(other, 0) + 1
    for part in cause.sets.values():
        for name in (name for problem in part.problems for name in problem.example):
            count.setdefault(name, 0)
    return sorted(count, key=lambda name: (-count[name], name))


def commands(report: Report, cause: Cause) -> list[str]:
    """What shows it: the older index says yes, and the newer one no."""
    one = next(one for one in report.architectures if one.architecture == cause.told_of)
    names = " ".join(cause.why.line)
    return ["coinst query %s %s | head -1" % (one.old.name, names), "coinst explain %s %s" % (one.new.name, names)]


def sums(files: Sequence[File]) -> list[str]:
    return ["%s sha256 %s" % (file.name, file.sha256) for file in files]


def bug_of(report: Report, cause: Cause) -> str:
    """The mail: subject, suites, why, what is affected, and how to see it."""
    out: list[str] = []

    def part(heading: str, lines: Sequence[str], cut: int | None = None) -> None:
        out.extend(["", heading])
        for line in lines:
            out.extend(wrapped(line, "    ", "  ", cut))

    numbers = {what: cause.total(what) for what in ("names", "pairs", "sets")}
    told = ", ".join(counted(number, what[:-1]) for what, number in numbers.items() if number)
    names = affected(cause)
    places = report.places()
    lead = source_text(cause.sources[0]) if cause.sources else cause.key
    out.append("Subject: %s: %s that %s can install and %s cannot" % (lead, told, report.old, report.new))
    out += wrapped("Suites: %s -> %s, %s, as of %s" % (report.old, report.new, " ".join(cause.on) if len(places) > 1 else places[0], report.made), "    ", "")
    out += [line for source in cause.sources[:8] for line in wrapped("Source: " + source_text(source), "    ", "")]
    part("What changed", [cause.title])
    on = " on " + cause.told_of if len(places) > 1 else ""
    part("Why %s can no longer be installed%s%s" % (" and ".join(cause.why.line), " together" * (len(cause.why.line) > 1), on), why_lines(cause.why))
    part("Checked", [mended_text(cause)] + ["not confirmed on " + name for name, on in cause.on.items() if not on.confirmed])
    more = ["and %s more" % format(len(names) - MOST_NAMES, ",")] if len(names) > MOST_NAMES else []
    part("Affected packages (%s)" % format(len(names), ","), [" ".join(names[:MOST_NAMES])] + more)
    for place, found in list(cause.sets.items())[:1]:
        part("Sets of three and more", [line for problem in found.problems[:3] for line in problem_lines(problem)])
    part("To see it", commands(report, cause))
    one = next(one for one in report.architectures if one.architecture == cause.told_of)
    part("Indexes", sums([one.old, one.new]))
    return "\n".join(out) + "\n"
