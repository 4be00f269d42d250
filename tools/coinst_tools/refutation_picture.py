"""A refutation as a picture for Graphviz: goals on top, alternatives beside each other, each with its end; red is what fails.

Branches that are the same but for versions are drawn once, and so is each lemma. Beside an older index orange is what is new, and green
what satisfied a relation there.
"""

from __future__ import annotations

import shutil
import subprocess
import typing

from .command import BadWords
from .debian_index import TEXT, Index, Package
from .older import Older
from .refutation import Conflict, Goal, Held, Need, Nogood, Refutation, Way, packages_in
from .refutation_text import Line, Phrases, Teller, is_same, plain_text

HEAD = """digraph why {
  rankdir=TB; bgcolor="transparent"; nodesep=0.35; ranksep=0.35; margin=0.05;
  node [shape=box, style="rounded,filled", fillcolor="#ffffff", color="#777777", fontname="Helvetica", fontsize=11, height=0.3, margin="0.12,0.05"];
  edge [color="#555555", fontname="Helvetica", fontsize=9, fontcolor="#555555", arrowsize=0.7];
"""
GOAL = 'fillcolor="#dbe9f6", color="#2b5d8c", penwidth=1.6'
FAILS = 'fillcolor="#fde7ea", color="#b00020", fontcolor="#b00020", fontsize=10'
CLASH = 'dir=none, color="#b00020", fontcolor="#b00020", penwidth=1.8, constraint=false'
SPLIT = 'shape=diamond, style="filled", height=0.4, margin="0.02,0.02"'
IDLE = 'style="rounded,dashed", color="#777777", fontcolor="#777777", fontsize=9'
BEFORE = 'style="rounded,dashed", color="#1b7f3b", fontcolor="#1b7f3b", fontsize=9'
NEW = 'color="#c25e00", fontcolor="#c25e00", penwidth=1.8'
Boxes = typing.Dict[Held, str]


def quoted(text: str) -> str:
    """A text as a label."""
    return '"%s"' % text.replace("\\", "\\\\").replace('"', '\\"').replace("\n", "\\n")


def folded(relation: str) -> str:
    """A relation with each of its alternatives on a line."""
    return "\n| ".join(text.strip() for text in relation.split("|"))


class Picture:
    """The lines of one picture."""

    def __init__(self, index: Index, found: Refutation, older: Older | None) -> None:
        self.index, self.found, self.why, self.older = index, found, found.why, older
        self.phrases = Phrases(index, older)
        self.teller = Teller(self.phrases, found, None, True)
        self.teller.tell_lemmas()
        self.lines: list[str] = []
        self.count = 0

    def box(self, label: str, style: str = "") -> str:
        self.count += 1
        name = "n%d" % self.count
        self.lines.append("  %s [label=%s%s];" % (name, quoted(label), ", " + style if style else ""))
        return name

    def edge(self, one: str, other: str, label: str = "", style: str = "") -> None:
        told = ["label=" + quoted(" " + label)] if label else []
        self.lines.append("  %s -> %s [%s];" % (one, other, ", ".join(told + [style] * bool(style))))

    def package(self, p: Package, versions: str, style: str = "") -> str:
        return self.box("%s\n%s" % (p.name, versions), style)

    # Nodes of the refutation

    def walk(self, nogood: Nogood, held: Boxes, top: bool = False) -> None:
        """Draws the steps from a nogood to its end; `held` has the boxes of packages."""
        reason = self.why[nogood]
        if nogood in self.teller.number and not top:
            fails = self.box("not together, by (%d)" % self.teller.number[nogood], FAILS)
            for p in packages_in(nogood):
                self.edge(held[p], fails, "", 'color="#b00020"')
        elif isinstance(reason, Conflict):
            self.clash(reason, held)
        elif not reason.ways:
            self.nothing(reason, held)
        else:
            self.need(reason, held)

    def clash(self, reason: Conflict, held: Boxes) -> None:
        told = self.index.declared(reason.one, reason.other)
        label = "\n".join("%s: %s" % (kind.title(), text) for _, kind, text in told[:2]) or "two versions"
        is_new = self.older and self.older.is_new_conflict(reason.one, reason.other)
        self.edge(held[reason.one], held[reason.other], label + ("\n(new)" if is_new else ""), CLASH)

    def nothing(self, need: Need, held: Boxes) -> None:
        had = "\n".join(plain_text(self.phrases.had(atom.name)) for atom in self.index.atoms(need.element))
        fails = self.box("nothing satisfies %s\nthe index has %s" % (folded(need.element), had), FAILS)
        self.edge(held[need.owner], fails, "", self.style(need))
        before = self.older and self.older.satisfied(need.owner, need.element) if not isinstance(need.owner, Goal) else ""
        if self.older and before:
            self.edge(held[need.owner], self.box("%s satisfied it in %s" % (before, self.older.label), BEFORE), "", 'style=dashed, color="#1b7f3b"')

    def style(self, need: Need) -> str:
        is_new = self.older and not isinstance(need.owner, Goal) and self.older.is_new(need.owner, need.element)
        return NEW if is_new else ""

    def groups(self, need: Need) -> list[list[Way]]:
        """The ways of a need, those together that are the same but for versions."""
        groups: list[tuple[list[Way], list[Line]]] = []
        for way in need.ways:
            block = self.teller.case(way, need, 0, None)
            same = (ways for ways, first in groups if ways[0].package.name == way.package.name and is_same([first, block]))
            ways = next(same, None)
            if ways is None:
                groups.append(([way], block))
            else:
                ways.append(way)
        return [ways for ways, _ in groups]

    def need(self, need: Need, held: Boxes) -> None:
        groups = self.groups(need)
        is_goal = isinstance(need.owner, Goal)
        absent = [] if is_goal else [text.partition(":")[0] for text in map(plain_text, self.phrases.absent(need.element))]
        start = held.get(need.owner)
        label = "" if is_goal else folded(need.element)
        if len(groups) + len(absent) > 1:
            split = self.box("one of" if is_goal else "or", SPLIT)
            if start:
                self.edge(start, split, label, self.style(need))
            start, label = split, ""
        for ways in groups:
            box = self.package(ways[0].package, self.versions(ways), GOAL if is_goal else "")
            if start:
                self.edge(start, box, label, self.style(need))
            self.walk(ways[0].nogood, {**held, ways[0].package: box})
        for text in absent:
            if start:
                self.edge(start, self.box("%s\nnothing satisfies it" % text, IDLE), "", "style=dashed")

    def versions(self, ways: list[Way]) -> str:
        if len(ways) == 1:
            return ways[0].package.version
        return self.teller.called(ways[0].package.name, [way.package.version for way in ways])

    def lemma(self, nogood: Nogood) -> None:
        """A lemma in a frame of its own."""
        self.lines.append("  subgraph cluster_%d { label=%s; color=\"#999999\"; fontname=\"Helvetica\"; fontsize=10;" % (
            self.teller.number[nogood], quoted("(%d) cannot be installed together" % self.teller.number[nogood])))  # fmt: skip
        self.walk(nogood, {p: self.package(p, p.version, GOAL) for p in packages_in(nogood)}, True)
        self.lines.append("  }")

    def dot(self) -> str:
        self.walk(self.found.root, {})
        drawn: set[int] = set()
        for nogood in self.found.lemmas:
            if self.teller.number[nogood] not in drawn:
                drawn.add(self.teller.number[nogood])
                self.lemma(nogood)
        return HEAD + "\n".join(self.lines) + "\n}\n"


def dot(index: Index, found: Refutation, older: Older | None = None) -> str:
    """The picture as Graphviz reads it."""
    return Picture(index, found, older).dot()


def svg(text: str) -> str:
    """The picture as SVG."""
    if not shutil.which("dot"):
        raise BadWords("dot is not there: --svg needs Graphviz; --dot prints what it draws")
    done = subprocess.run(["dot", "-Tsvg"], input=text, stdout=subprocess.PIPE, check=True, **TEXT)
    return str(done.stdout)
