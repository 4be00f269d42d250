"""Writes a report on what is broken as text for a mail: what is new first, then a table of causes and architectures, then the causes."""

from __future__ import annotations

import textwrap
from collections.abc import Iterable, Iterator, Mapping, Sequence

from .broken_records import Architecture, Cause, Change, Group, Line, Off, Problem, Report, Side, Since, Source

WIDTH = 78
KINDS = (
    ("names", "can no longer be installed"), ("pairs", "can no longer be installed together"),
    ("sets", "of three names and more can no longer be installed together, though each smaller set can"),
)
FATES = {"left": "a name left", "broken_alone": "a name is broken alone now", "allowed": "allowed now", "undecided": "undecided now", "mended": "mended"}
FRESH = ("new", "grown")


# Words that text and page share


def counted(number: int, word: str) -> str:
    return "%s %s%s" % (format(number, ","), word, "" if number == 1 else "s")


def number_of(cause: Cause, place: str, what: str) -> int:
    """Of how many names, pairs or sets a cause is on an architecture."""
    on = cause.on.get(place)
    return 0 if not on else on.names if what == "names" else on.pairs if what == "pairs" else on.name_sets


def with_changes(causes: Iterable[Cause]) -> list[tuple[Cause, Change]]:
    """Causes, each with what changed in it since the earlier report."""
    return [(cause, cause.since) for cause in causes if cause.since]


def where(places: Iterable[str], every: Sequence[str]) -> str:
    """The architectures in the fewest words."""
    places = list(places)
    missing = [name for name in every if name not in places]
    if not missing:
        return "everywhere" if len(every) > 1 else ""
    return "all but " + " ".join(missing) if len(missing) < len(places) and len(missing) <= 3 else "only " + " ".join(places)


def in_order(causes: Iterable[Cause], what: str) -> list[tuple[Cause, list[Cause]]]:
    """The causes that have such lines, each with those that stand under it; of them the widest first, or as use has put them."""
    mine = {cause.key: cause for cause in causes if cause.total(what)}
    below: dict[str | None, list[Cause]] = {}
    for cause in mine.values():
        below.setdefault(cause.under if cause.under in mine else None, []).append(cause)
    size = {key: cause.total(what) for key, cause in mine.items()}
    weight = {key: size[key] + sum(size[under.key] for under in below.get(key, ())) for key in mine}
    heads = sorted(below.get(None, ()), key=lambda c: (-(c.use or 0), -weight[c.key], c.key))
    return [(head, sorted(below.get(head.key, ()), key=lambda c: (-size[c.key], c.key))) for head in heads]


def sign_of(off: Off) -> str:
    """What becomes of a cause's lines on an architecture that does not have it, in a sign."""
    return "ok" if off.not_broken else "=" if off.other_cause else "-" if off.left_out else "."


def told_change(numbers: Mapping[str, int], sign: str, why: Mapping[str, int], every: Sequence[str]) -> str:
    """`+3 everywhere`, or each number with its architectures; and of lines that are gone, why."""
    by_number: dict[int, list[str]] = {}
    for name, number in numbers.items():
        by_number.setdefault(number, []).append(name)
    told = ", ".join(("%s%d %s" % (sign, number, where(names, every))).rstrip() for number, names in sorted(by_number.items(), reverse=True))
    if len(by_number) > 2:
        told = "%s%d to %d %s" % (sign, min(by_number), max(by_number), where(numbers, every))
    return told + (" (%s)" % ", ".join("%s: %d" % (FATES[fate], number) for fate, number in why.items()) if why else "")


def all_changes(change: Change, sign: str, every: Sequence[str]) -> str:
    """What a cause has got, or lost, in lines and in sets."""
    lines, sets = (change.new, change.new_sets) if sign == "+" else (change.gone, change.gone_sets)
    told = [told_change(lines, sign, {} if sign == "+" else change.why_gone, every)] if lines else []
    return ", ".join(told + [told_change(sets, sign, {}, every) + " sets"] * bool(sets))


def source_text(source: Source) -> str:
    was, now = source.old or "(none)", source.new or "(none)"
    return "%s %s" % (source.source, was if was == now else "%s -> %s" % (was, now))


def mended_text(cause: Cause) -> str:
    """The program's word on the cause."""
    lines, mended = (sum(getattr(part, field) for part in cause.on.values()) for field in ("lines", "mended"))
    told = ["%s of %s can be installed without this" % (format(mended, ","), counted(lines, "line"))] if lines else []
    return "; ".join(told + ["all of its sets can be installed without this"] * bool(cause.sets))


def problem_lines(problem: Problem) -> list[str]:
    """A problem: the example that most dependencies name, and its sides."""
    lines = ["%s: %s" % (counted(problem.name_sets, "set"), " + ".join(problem.example))]
    return lines + [side_text(side) for side in problem.sides]


def side_text(side: Side) -> str:
    """One side of a problem: how many names it has, and those that most dependencies name."""
    if side.first == side.needs:
        return side.first[0]
    among = bool(set(side.needs) & set(side.first))
    verb = ("is or " * among + "depends on") if side.names == 1 else ("are or " * among + "depend on")
    more = ", .." if side.names > len(side.first) else ""
    return "%s %s %s: %s%s" % (counted(side.names, "name"), verb, " or ".join(side.needs), ", ".join(side.first), more)


def sets_cell(report: Report, one: Architecture) -> str:
    """The number of lost sets of an architecture; a question mark if it is not known, and a hyphen if none were looked for."""
    if not one.sets:
        return "-"
    left_out = sum(cause.on[one.architecture].name_sets for cause in report.causes if cause.allowed and one.architecture in cause.on)
    unknown = one.sets.status == 8 and not one.sets.kind_sets
    return "?" if unknown else format(one.sets.name_sets - one.sets.allowed - left_out, ",")


def sets_remarks(one: Architecture) -> list[str]:
    """What else is to be said of the larger sets of an architecture."""
    if not one.sets:
        return ["sets of three names and more were not looked for"]
    told = ["sets of three names and more: " + one.sets.told] if not one.sets.kind_sets and one.sets.status == 8 else []
    told += ["%s of three names and more may break" % counted(one.sets.allowed, "set")] if one.sets.allowed else []
    return told + ["no cause was found for the set %s" % " + ".join(line) for line in one.sets.no_cause]


def number_rows(report: Report, causes: Sequence[Cause]) -> Iterator[tuple[str, list[str]]]:
    """The sums of a report: what is counted, and a cell for each architecture."""
    ones = report.architectures
    parts = {one.architecture: [cause.on[one.architecture] for cause in causes if one.architecture in cause.on] for one in ones}

    def summed(field: str) -> list[str]:
        return [format(sum(getattr(part, field) for part in parts[one.architecture]), ",") for one in ones]

    yield "names dropped", [format(one.dropped, ",") for one in ones]
    yield "names broken", summed("names")
    if any(one.architecture != "all" for one in ones):
        yield "  of architecture all", summed("all")
    yield "pairs broken", summed("pairs")
    yield "larger sets broken", [sets_cell(report, one) for one in ones]
    yield "causes", [format(len(parts[one.architecture]), ",") for one in ones]
    if any(one.allowed_lines for one in ones):
        yield "lines left out", [format(len(one.allowed_lines), ",") for one in ones]
    if any(one.open or one.sets and one.sets.open for one in ones):
        yield "undecided", [format(len(one.open) + len(one.sets.open if one.sets else ()), ",") for one in ones]
    if report.since:
        lines = [report.since.lines.get(one.architecture) for one in ones]
        yield "new since then", ["+%s" % format(line.new, ",") if line else "first" for line in lines]
        yield "gone since then", ["-%s" % format(line.gone, ",") if line else "time" for line in lines]
    yield "names in both", [format(one.common_names, ",") for one in ones]


def more(names: Sequence[str], limit: int) -> str:
    return " ".join(names[:limit]) + (" and %s more" % format(len(names) - limit, ",") if len(names) > limit else "")


def group_lines(group: Group, examples: int) -> list[str]:
    """Examples of a group's lines."""
    told = [more(group.names, examples)] if group.names else []
    return told + ["%s with %s" % (name, more(others, examples)) for name, others in group.sides[:examples]]


def open_lines(report: Report) -> list[tuple[str, Line]]:
    """Lines and sets that are not decided, with their architectures."""
    found = [(one.architecture, tuple(line)) for one in report.architectures for line in one.open]
    return found + [(one.architecture, tuple(line)) for one in report.architectures if one.sets for line in one.sets.open]


def title_of(report: Report) -> str:
    return "What %s breaks of %s" % (report.new or "NEW", report.old or "OLD")


def made_text(report: Report) -> str:
    options = " with " + " ".join(report.options) if report.options else ""
    use = ", by use as %s has it" % report.popcon if report.popcon else ""
    return "made %s by coinst %s%s%s" % (report.made, report.coinst, options, use)


# The text


def wrapped(text: str, indent: str = "", first: str | None = None, lines: int | None = None) -> list[str]:
    wrapper = textwrap.TextWrapper(
        WIDTH, initial_indent=indent if first is None else first, subsequent_indent=indent,
        break_long_words=False, break_on_hyphens=False, max_lines=lines, placeholder=" ..",
    )
    return wrapper.wrap(text)


class Text:
    """The report as lines of text, with `shown` causes of each kind and `examples` of each."""

    def __init__(self, report: Report, shown: int, examples: int):
        self.report, self.shown, self.examples = report, shown, examples
        self.out: list[str] = []
        self.places = report.places()
        self.widths = [max(len(name), 7) for name in self.places]
        self.causes = [cause for cause in report.causes if not cause.allowed]
        self.allowed = [cause for cause in report.causes if cause.allowed]

    def say(self, *texts: str) -> None:
        self.out.extend(texts)

    def heading(self, text: str) -> None:
        lines = wrapped(text.upper())
        self.say("", *lines, "-" * max(map(len, lines)))

    def text(self) -> str:
        self.head()
        if self.report.since:
            self.since(self.report.since)
        shown: dict[str, Cause] = {}
        for what, words in KINDS:
            shown.update({cause.key: cause for cause in self.table(what, words)})
        if self.report.since:
            shown = {cause.key: cause for cause, change in with_changes(self.causes) if change.state in FRESH}
        self.tell_causes(list(shown.values()))
        self.undecided()
        return "\n".join(self.out) + "\n"

    # The head

    def head(self) -> None:
        report = self.report
        on = counted(len(self.places), "architecture") if len(self.places) > 1 else self.places[0]
        self.say(*wrapped(title_of(report) + (", on " + on if on != "all" else "")))
        for refused in report.refused:
            self.say(*wrapped("NOT REPORTED: %s%s" % (refused.architecture + ": " if refused.architecture else "", refused.message), "    ", ""))
        if report.alone:
            self.say(*wrapped("NOT COMPARED, one index alone: " + ", ".join("%s (%s)" % item for item in report.alone.items()), "    ", ""))
        self.say(*wrapped(made_text(report)))
        self.numbers()
        for one in report.architectures:
            for told in sets_remarks(one):
                self.say(*wrapped("%s: %s" % (one.architecture, told), "    ", "  "))
        if self.allowed:
            self.say("", "allowed and left out here: %s" % counted(len(self.allowed), "cause"))

    def numbers(self) -> None:
        """The sums, with a column for each architecture."""
        self.say("", " " * 26 + " ".join("%*s" % pair for pair in zip(self.widths, self.places)))
        for head, cells in number_rows(self.report, self.causes):
            self.say("  %-24s" % head + " ".join("%*s" % pair for pair in zip(self.widths, cells)))

    # What is new

    def since(self, since: Since) -> None:
        self.heading("Since %s" % since.made)
        for name in since.not_this_time:
            self.say("  %s was reported then and is not now" % name)
        before = len(self.out)
        for state in FRESH:
            for cause, change in with_changes(self.report.causes):
                if change.state == state:
                    self.changed(state + (" (allowed)" if cause.allowed else ""), cause.key, change, "+", cause.bugs)
        for cause, change in with_changes(self.report.causes):
            if change.gone or change.gone_sets:
                self.changed("shrunk", cause.key, change, "-", cause.bugs)
        for ended in since.ended:
            self.changed("ended", ended.key, ended.since, "-", ended.bugs)
        if len(self.out) == before:
            self.say("  nothing is new, and nothing is gone")
        if since.moved:
            self.say(*wrapped("%s stand under another cause than then" % counted(sum(moved.lines for moved in since.moved), "line"), "    ", "  "))
        for names in since.dropped:
            on = " " + where(names.on, self.places) if len(self.places) > 1 else ""
            told = "%s dropped%s: %s" % (counted(len(names.names), "name"), on, more(names.names, 2 * self.examples))
            self.say(*wrapped(told, "    ", "  "))

    def changed(self, word: str, key: str, change: Change, sign: str, bugs: Sequence[str]) -> None:
        told = all_changes(change, sign, self.places)
        self.say(*wrapped("%-7s %s  %s%s" % (word.upper(), key, told, self.bugs(bugs)), " " * 10, "  "))

    @staticmethod
    def bugs(bugs: Sequence[str]) -> str:
        return "  " + " ".join("#" + bug for bug in bugs) if bugs else ""

    # The table

    def table(self, what: str, words: str) -> list[Cause]:
        """The causes with such lines and the architectures; the causes that follow in full."""
        ordered = in_order(self.causes, what)
        if not ordered:
            return []
        every = [cause for head, below in ordered for cause in (head, *below)]
        self.heading("%s that %s" % (what, words) if what != "sets" else "sets " + words)
        total = "%s of %s" % (counted(sum(cause.total(what) for cause in every), what[:-1]), counted(len(every), "cause"))
        self.say(total + (", each counted once" if len(self.places) > 1 and what != "sets" else ""), "")
        self.say(" ".join("%*s" % pair for pair in zip(self.widths, self.places)))
        for head, below in ordered[: self.shown]:
            self.row(head, what)
            self.rest(below, what, "  with other changes")
        self.rest([cause for head, below in ordered[self.shown :] for cause in (head, *below)], what, "")
        self.legend(what, every)
        return [head for head, _ in ordered[: self.shown]]

    def legend(self, what: str, causes: Sequence[Cause]) -> None:
        told = [". such names are not there", "ok they are, and are not broken", "= other cause"] if len(self.places) > 1 else []
        if any(self.cell(cause, place, what) == "-" for cause in causes for place in cause.off):
            told.append("- left out")
        if what == "names" and len(self.places) > 1 and any(self.marks_all(cause, place) for cause in causes for place in cause.on):
            told.append("a all of them are packages for all architectures")
        if told:
            self.say("", *wrapped("; ".join(told), "  ", "  "))

    def row(self, cause: Cause, what: str) -> None:
        cells = " ".join("%*s" % (width, self.cell(cause, name, what)) for width, name in zip(self.widths, self.places))
        mark = "  " + cause.since.state.upper() if cause.since and cause.since.state in FRESH else ""
        use = "  (%s machines)" % format(cause.use, ",") if cause.use is not None else ""
        room = max(30, 96 - len(cells))
        key = cause.key if len(cause.key) <= room else cause.key[: room - 2] + ".."
        self.say("%s  %s%s%s%s" % (cells, key, use, mark, self.bugs(cause.bugs)))

    def rest(self, causes: Sequence[Cause], what: str, words: str) -> None:
        """Several causes in one row."""
        if causes:
            sums = [sum(number_of(cause, place, what) for cause in causes) for place in self.places]
            cells = " ".join("%*s" % (width, number or "") for width, number in zip(self.widths, sums))
            count = counted(len(causes), "cause")
            self.say("%s  %s" % (cells, "%s (%s)" % (words, count) if words else count + " more"))

    @staticmethod
    def marks_all(cause: Cause, place: str) -> bool:
        return 0 < cause.on[place].names == cause.on[place].all

    def cell(self, cause: Cause, place: str, what: str) -> str:
        if place in cause.on:
            mark = "a" if what == "names" and len(self.places) > 1 and self.marks_all(cause, place) else ""
            return str(number_of(cause, place, what) or "") + mark
        return sign_of(cause.off[place])

    # Causes

    def tell_causes(self, causes: Sequence[Cause]) -> None:
        if causes:
            self.heading("The causes" + (" that are new or have grown" if self.report.since else ""))
        for cause in causes[: 2 * self.shown]:
            self.cause(cause)
        rest = len(self.causes) - min(len(causes), 2 * self.shown)
        if rest > 0:
            self.say("", "%s more: the page and the JSON have all." % counted(rest, "cause"))

    def cause(self, cause: Cause) -> None:
        self.say("", *wrapped(("[%s] %s" % (cause.key, where(cause.on, self.places))).rstrip(), "    ", ""))
        self.say(*wrapped(cause.title, "    ", lines=4))
        unsure = [name for name, part in cause.on.items() if not part.confirmed]
        self.say(*wrapped(mended_text(cause) + ("; NOT CONFIRMED on " + " ".join(unsure) if unsure else ""), "      ", "    "))
        for source in cause.sources[:3]:
            self.say(*wrapped("changed by source " + source_text(source), "      ", "    "))
        for note, number in cause.notes[: self.examples]:
            self.say(*wrapped("note: %s%s" % (note, " (%d)" % number if number else ""), "      ", "    "))
        for chain in cause.chains[:2]:
            for line in chain:
                self.say(*wrapped(line.strip(), "        ", "      " + " " * (len(line) - len(line.lstrip()))))
        for group in cause.lines[:2]:
            for text in group_lines(group, self.examples):
                self.say(*wrapped("%s: %s" % (where(group.on, self.places) or "broken", text), "      ", "    ", 2))
        if cause.sets:
            self.sets(cause)

    def sets(self, cause: Cause) -> None:
        """The problems of the architecture with the most sets."""
        place = max(cause.sets, key=lambda name: cause.sets[name].name_sets)
        on = " on " + place if len(self.places) > 1 else ""
        self.say("    %s%s:" % (counted(cause.sets[place].name_sets, "lost set") + " of three names and more", on))
        for problem in cause.sets[place].problems[: self.examples]:
            first, *sides = problem_lines(problem)
            self.say(*wrapped(first, "        ", "      "), *(line for side in sides for line in wrapped(side, "          ", "        ", 2)))
        rest = cause.sets[place].problems[self.examples :]
        if rest:
            self.say("      %s in %s more" % (counted(sum(problem.name_sets for problem in rest), "set"), counted(len(rest), "problem")))

    def undecided(self) -> None:
        for place, line in open_lines(self.report):
            self.say("undecided on %s: %s" % (place, " ".join(line)))


def text_of(report: Report, shown: int, examples: int) -> str:
    return Text(report, shown, examples).text()
