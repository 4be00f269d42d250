"""Writes a report on what is broken as one page that needs no network and no script: a table of causes and architectures, each cause unfolding.

A script of the page only filters; all text is there without it, and in a text browser.
"""

from __future__ import annotations

import html
import math
import os
import urllib.parse
from collections.abc import Iterable, Sequence

from .broken_records import Cause, Change, Ended, Group, Report, SetsOf, Source
from .broken_text import (
    FRESH, KINDS, all_changes, counted, in_order, made_text, mended_text, number_of, number_rows, open_lines, problem_lines, sets_remarks,
    sign_of, title_of, where, with_changes,
)
from .built import PACKAGE
from .drawing import dot_of, svgs

FEW = 8  # names that stand without unfolding
HARD = "\u00a0"  # a space that a text browser keeps

esc = html.escape


def tag(name: str, text: str = "", kind: str = "", **attributes: str | None) -> str:
    told = "".join(' %s="%s"' % (key.rstrip("_").replace("_", "-"), esc(value, True)) for key, value in attributes.items() if value is not None)
    return "<%s%s%s>%s</%s>" % (name, ' class="%s"' % kind if kind else "", told, text, name)


def numbers(cells: Iterable[str], kind: str = "td") -> str:
    """Cells of a table, to the right in a text browser too."""
    return "".join(tag(kind, esc(cell), "n" + (" zero" if cell.strip("+-") in ("0", "") else ""), align="right") for cell in cells)


def place_of(names: Sequence[str], every: Sequence[str]) -> str:
    told = where(names, every)
    return "on %s only" % told[5:] if told.startswith("only ") else "on " + told if told.startswith("all") else told


def folded(summary: str, text: str, kind: str = "") -> str:
    return tag("details", tag("summary", summary) + text, kind)


def image(svg: str) -> str:
    """A picture as a file within the page, so that a text browser prints nothing of it: the text beside it says the same."""
    drawn = svg.replace("<svg ", '<svg font-family="system-ui, DejaVu Sans, sans-serif" ', 1).replace('"', "'")
    return '<img alt=" " loading="lazy" src="data:image/svg+xml,%s">' % urllib.parse.quote(drawn, safe=" !'()*,/:;<=>?@[]{}|")


def name_list(names: Sequence[str]) -> str:
    """Names, that unfold if they are many."""
    told = tag("div", esc(" ".join(names)), "names")
    return told if len(names) <= FEW else folded(counted(len(names), "name"), told)


class Page:
    """The parts of the page, in HTML."""

    def __init__(self, report: Report):
        self.report, self.places, self.causes = report, report.places(), report.causes
        self.open = [cause for cause in self.causes if not cause.allowed]
        drawn = [cause for cause in self.causes if cause.why.ways or cause.why.conflicts]
        self.pictures = dict(zip((cause.key for cause in drawn), svgs([dot_of(cause.why, report.old or "before") for cause in drawn])))
        self.width = max(map(len, self.places), default=5) + 1
        self.most = 1

    def fill(self) -> dict[str, str]:
        return {
            "TITLE": esc(title_of(self.report)), "ABOUT": self.about(), "SUITES": self.suites(), "SINCE": self.since(), "COLUMNS": str(len(self.places)),
            "WIDTH": "%.1f" % max(4.2, 0.9 + 0.5 * self.width), "SECTIONS": "".join(self.section(what, words) for what, words in KINDS) + self.allowed(),
            "KINDS": "".join(tag("option", esc(kind)) for kind in dict.fromkeys(cause.kind for cause in self.causes)),
            "PLACES": "".join(tag("option", esc(name)) for name in self.places), "SOURCES": self.sources(), "OPEN": self.undecided(),
            "DROPPED": self.dropped(), "INPUTS": self.inputs(), **self.filters(),
        }

    def filters(self) -> dict[str, str]:
        """Filters that all causes pass are hidden: of age without an earlier report, of places with one architecture."""
        return {name: "" if is_of_use else " hidden" for name, is_of_use in (("AGE", bool(self.report.since)), ("SEVERAL", len(self.places) > 1))}

    # The head

    def about(self) -> str:
        report = self.report
        told = [tag("p", esc("NOT REPORTED: %s" % refused.message), "warn") for refused in report.refused]
        if report.alone:
            told.append(tag("p", esc("Not compared, one index alone: " + ", ".join("%s (%s)" % item for item in report.alone.items()) + "."), "warn"))
        made = made_text(report)
        told.append(tag("p", esc("Names, pairs of names and larger sets that %s can install and %s cannot, by the change that brought it. %s." % (
            report.old, report.new, made[0].upper() + made[1:]))))
        return "".join(told)

    def suites(self) -> str:
        rows = [tag("tr", tag("th") + numbers(self.places, "th"))]
        for head, cells in number_rows(self.report, self.open):
            rows.append(tag("tr", tag("th", esc(head).replace("  ", 2 * HARD), align="left") + numbers(cells)))
        remarks = ["%s: %s." % (one.architecture, told) for one in self.report.architectures for told in sets_remarks(one)]
        return tag("table", "".join(rows), "suites") + "".join(tag("p", esc(told), "quiet") for told in remarks)

    # Since

    def since(self) -> str:
        since = self.report.since
        if not since:
            return ""
        causes = with_changes(self.causes)
        rows = [self.changed(state, cause, change, "+") for state in FRESH for cause, change in causes if change.state == state]
        rows += [self.changed("shrunk", cause, change, "-") for cause, change in causes if change.gone or change.gone_sets]
        rows += [self.changed("ended", ended, ended.since, "-", link=False) for ended in since.ended]
        told = [tag("p", esc("%s was reported then and is not now." % name), "warn") for name in since.not_this_time]
        told.append(tag("table", "".join(rows), "since") if rows else tag("p", "Nothing is new, and nothing is gone."))
        moved = sum(moved.lines for moved in since.moved)
        told += [tag("p", "%s stand under another cause than then." % counted(moved, "line"), "quiet")] if moved else []
        for names in since.dropped:
            told.append(tag("p", esc("%s dropped %s:" % (counted(len(names.names), "name"), place_of(names.on, self.places)))) + name_list(names.names))
        return tag("h2", esc("Since %s" % since.made), id="since") + "".join(told)

    def changed(self, word: str, cause: Cause | Ended, change: Change, sign: str, link: bool = True) -> str:
        key = tag("a", esc(cause.key), href="#" + cause.id) if link else esc(cause.key)
        told = tag("td", tag("span", word, "badge " + word)) + tag("td", key + self.bugs(cause.bugs))
        return tag("tr", told + tag("td", esc(all_changes(change, sign, self.places))))

    def link(self, text: str, kind: str, name: str = "", **what: str) -> str:
        return tag("a", esc(text), name, href=self.report.links[kind].format(**what))

    def bugs(self, bugs: Iterable[str]) -> str:
        return "".join(" " + self.link("#" + bug, "bug", "bug", bug=bug) for bug in bugs)

    # The table

    def section(self, what: str, words: str) -> str:
        ordered = in_order(self.open, what)
        if not ordered:
            return ""
        every = [cause for head, below in ordered for cause in (head, *below)]
        self.most = max(number_of(cause, place, what) for cause in every for place in cause.on)
        rows = "".join(self.row(head, what) + self.below(below, what) for head, below in ordered)
        number = counted(sum(cause.total(what) for cause in every), what[:-1])
        once = ", each counted once" if what != "sets" and len(self.places) > 1 else ""
        about = '%s of %s%s. <span class="hits"></span>' % (number, counted(len(every), "cause"), once)
        head = tag("div", " ".join([*(tag("span", esc(self.padded(name)), "n") for name in self.places), tag("span", "cause")]), "heads")
        title = "Sets %s" % words if what == "sets" else "%s that %s" % (what.capitalize(), words)
        return tag("section", tag("h2", title) + tag("p", about, "quiet") + head + rows, id=what)

    def allowed(self) -> str:
        mine = [cause for cause in self.causes if cause.allowed]
        rows = "".join(self.row(cause, "names" if cause.total("names") else "pairs" if cause.total("pairs") else "sets") for cause in mine)
        return tag("section", tag("h2", "Allowed") + rows, "allowed", id="allowed") if mine else ""

    def padded(self, text: str) -> str:
        return HARD * (self.width - len(text)) + text

    def below(self, causes: Sequence[Cause], what: str) -> str:
        """The causes of several changes that stand under one, folded."""
        if not causes:
            return ""
        cells = " ".join(self.number(sum(number_of(cause, place, what) for cause in causes), place) for place in self.places)
        told = tag("span", tag("span", "and %s of this with other changes" % counted(len(causes), "cause"), "quiet"), "told")
        return tag("details", tag("summary", tag("div", cells + " " + told)) + "".join(self.row(cause, what) for cause in causes), "more")

    def number(self, number: int, place: str) -> str:
        """A cell; the larger its number, the warmer. Its architecture stands in it if the page is too narrow for columns."""
        if not number:
            return tag("span", self.padded(""), "n")
        heat = min(0.65, 0.10 + 0.55 * math.log(number + 1) / math.log(self.most + 1)) if self.most > 1 else 0.3
        label = place if len(self.places) > 1 else None
        return tag("span", self.padded(format(number, ",")), "n on", style="--heat:%.2f" % heat, data_place=label)

    def cell(self, cause: Cause, place: str, what: str) -> str:
        if place in cause.on:
            return self.number(number_of(cause, place, what), place)
        off = cause.off[place]
        told = "; ".join("%s: %d" % (name.replace("_", " "), number) for name, number in vars(off).items() if number)
        sign = sign_of(off)
        return tag("span", self.padded(sign), "n ok" if sign == "ok" else "n off", title=told)

    def row(self, cause: Cause, what: str) -> str:
        spread, state = where(cause.on, self.places), cause.since.state if cause.since else "same"
        is_all = what == "names" and cause.is_for_all()
        told = tag("span", self.headline(cause) + " " + self.badges(cause, spread, state, is_all) + " " + tag("span", esc(cause.title), "title"), "told")
        cells = " ".join([*(self.cell(cause, place, what) for place in self.places), told])
        first = next(kind for kind, _ in KINDS if cause.total(kind) or kind == what)
        return tag(
            "details", tag("summary", tag("div", cells)) + self.body(cause), "cause under" if cause.under else "cause",
            id=cause.id if what == first else None, data_kind=cause.kind, data_on=" ".join(cause.on), data_state=state,
            data_all="yes" if is_all else None, data_spread="all" if spread in ("everywhere", "") else "some",
        )

    def badges(self, cause: Cause, spread: str, state: str, is_all: bool) -> str:
        told = [tag("span", state, "badge " + state)] if state in FRESH else []
        told += [tag("span", esc(spread), "badge spread")] if spread not in ("everywhere", "") else []
        told += [tag("span", "arch: all", "badge all", title="all these names are of packages for all architectures")] if is_all and len(self.places) > 1 else []
        told += [] if all(part.confirmed for part in cause.on.values()) else [tag("span", "not confirmed", "badge warn")]
        told += [tag("span", "%s machines" % format(cause.use, ","), "badge")] if cause.use is not None else []
        return " ".join(told) + self.bugs(cause.bugs)

    @staticmethod
    def headline(cause: Cause) -> str:
        """The key in words: what is new, gone or depended on; of several changes, those beside the one that it stands under."""
        names = dict.fromkeys(part.partition(":")[2].replace("+", " + ") for part in cause.changes if part != cause.under)
        if cause.under:
            return tag("span", "with ", "quiet") + esc(" and ".join(names))
        return tag("b", esc(" and ".join(names))) + " " + tag("span", esc(cause.kind), "kind")

    # A cause

    def body(self, cause: Cause) -> str:
        rows = [("what changed", esc(cause.title)), ("sources", "<br>".join(map(self.source, cause.sources[:FEW])) or "no single change was found")]
        rows += [("on " + esc(place), esc(self.otherwise(other.more, other.fewer))) for place, other in cause.otherwise.items()]
        rows.append(("checked", esc(mended_text(cause)) + self.unsure(cause)))
        rows += [("note", "<br>".join(esc(text) + (" (%d)" % n if n else "") for text, n in cause.notes[:6]))] if cause.notes else []
        rows += [("depends", "<br>".join(esc("%s (%d)" % (text, n)) for text, n in cause.in_need[:6]))] if cause.in_need else []
        rows.append(("why, of " + " and ".join(self.link(name, "package", package=name) for name in cause.why.line), self.why(cause)))
        rows += [("broken " + esc(place_of(group.on, self.places)), self.group(group)) for group in cause.lines]
        rows += [("sets on " + esc(place), self.sets(sets)) for place, sets in cause.sets.items()]
        rows.append(("key", tag("code", esc(cause.key)) + " " + tag("a", "#" + cause.id, href="#" + cause.id)))
        cells = ((tag("th", head) + tag("td", told)) for head, told in rows)
        return tag("div", tag("table", "".join(tag("tr", some, valign="top", align="left") for some in cells)), "body")  # for text browsers

    @staticmethod
    def otherwise(more: Sequence[str], fewer: Sequence[str]) -> str:
        return "; ".join(filter(None, ("also from " + ", ".join(more) if more else "", "not from " + ", ".join(fewer) if fewer else "")))

    def source(self, source: Source) -> str:
        was, now = source.old or "none", source.new or "none"
        links = self.link("tracker", "source", source=source.source), self.link("bugs", "bugs", source=source.source)
        return "%s %s (%s, %s)" % (tag("b", esc(source.source)), esc(was if was == now else was + " → " + now), *links)

    @staticmethod
    def unsure(cause: Cause) -> str:
        places = [place for place, part in cause.on.items() if not part.confirmed]
        return tag("span", "; not confirmed on " + esc(" ".join(places)), "warn") if places else ""

    def why(self, cause: Cause) -> str:
        text = "".join(tag("pre", esc("\n".join(chain))) for chain in cause.chains)
        if not self.pictures.get(cause.key):
            return text
        return folded("as text", text) + tag("div", image(self.pictures[cause.key]), "picture")

    def group(self, group: Group) -> str:
        told = tag("div", esc(" ".join(group.names)), "names") if group.names else ""
        return told + "".join(self.side(name, others) for name, others in group.sides)

    @staticmethod
    def side(name: str, others: Sequence[str]) -> str:
        if len(others) <= FEW:
            return tag("div", "%s <i>with</i> %s" % (esc(name), esc(" ".join(others))), "names")
        return folded("%s <i>with</i> %d names" % (esc(name), len(others)), tag("div", esc(" ".join(others)), "names"))

    def sets(self, sets: SetsOf) -> str:
        """The problems of a cause, those beyond the first folded."""
        told = [tag("div", "<br>".join(map(esc, problem_lines(problem))), "problem") for problem in sets.problems]
        rest = folded("%s more" % counted(len(told) - 3, "problem"), "".join(told[3:])) if len(told) > 3 else ""
        return tag("p", "%s of names, by %s of kinds of names" % (counted(sets.name_sets, "set"), format(sets.kind_sets, ","))) + "".join(told[:3]) + rest

    # The foot

    def sources(self) -> str:
        table: dict[str, list[int]] = {}
        named: dict[str, Source] = {}
        for cause in self.open:
            for source in cause.sources:
                row = table.setdefault(named.setdefault(source.source, source).source, [0, 0, 0, 0])
                for place, number in enumerate((1, cause.total("names"), cause.total("pairs"), cause.total("sets"))):
                    row[place] += number
        ranked = sorted(table, key=lambda name: (*(-number for number in table[name][1:]), name))
        return "".join(tag("tr", tag("td", self.source(named[name])) + numbers(format(n, ",") for n in table[name])) for name in ranked)

    def undecided(self) -> str:
        lines = ["%s: %s" % (place, " ".join(line)) for place, line in open_lines(self.report)]
        return tag("h2", "Undecided") + tag("p", "<br>".join(map(esc, lines))) if lines else ""

    def dropped(self) -> str:
        """Names that the newer suite does not have any more."""
        rows = (tag("p", esc("%s %s" % (counted(len(names.names), "name"), place_of(names.on, self.places)))) + name_list(names.names) for names in self.report.dropped)
        return "".join(rows) or tag("p", "None.")

    def inputs(self) -> str:
        files = [file for one in self.report.architectures for file in (one.old, one.new)]
        rows = (tag("tr", tag("td", esc(f.name)) + numbers([format(f.packages, ",")]) + tag("td", tag("code", f.sha256))) for f in files)
        program = tag("tr", tag("td", "the program") + tag("td") + tag("td", tag("code", esc(self.report.program))))
        return tag("table", tag("tr", tag("th", "index") + tag("th", "packages", "n") + tag("th", "SHA-256")) + "".join(rows) + program)


def write(path: str, report: Report) -> None:
    """The frame that stands beside this module, with the report in it."""
    with open(os.path.join(PACKAGE, "broken_page.html"), encoding="utf-8") as file:
        head, *parts = file.read().split("@@")
    filled = Page(report).fill()
    page = head + "".join(filled[part] if place % 2 == 0 else part for place, part in enumerate(parts))
    with open(path, "w", encoding="utf-8", errors="replace") as file:
        file.write(page)
