"""Draws why a line is broken: the dependencies of its names down to a conflict, or to one that nothing satisfies, as a graph for Graphviz.

The names of the line stand on top. Orange is what is new since the older index, green is what satisfied a dependency there, red is the
conflict or the gap. Dashed is what could be taken too, and leads nowhere.
"""

from __future__ import annotations

import re
import shutil
import subprocess
from collections.abc import Iterable, Sequence

from .broken_records import Conflict, Moved, Step, Why

HEAD = """digraph why {
  rankdir=TB; bgcolor="transparent"; nodesep=0.35; ranksep=0.32; margin=0.05;
  node [shape=box, style="rounded,filled", fillcolor="#ffffff", color="#777777", fontname="Helvetica", fontsize=11, height=0.3, margin="0.12,0.05"];
  edge [color="#555555", fontname="Helvetica", fontsize=9, fontcolor="#555555", arrowsize=0.7];
"""
MOST_WAYS, MOST_GAPS, MOST_CONFLICTS = 8, 3, 6
PLAIN, NEW, OLD, GAP, QUIET = "#555555", "#c25e00", "#1b7f3b", "#b00020", "#777777"
GOAL = {"fillcolor": "#dbe9f6", "color": "#2b5d8c", "penwidth": "1.6"}
RED_BOX = {"shape": "box", "style": "filled", "fillcolor": "#fde7ea", "color": GAP, "fontcolor": GAP, "fontsize": "9"}


def quoted(text: object) -> str:
    return '"%s"' % str(text).replace("\\", "\\\\").replace('"', '\\"').replace("\n", "\\n")


def escaped(text: object) -> str:
    return str(text).replace("&", "&amp;").replace("<", "&lt;").replace(">", "&gt;")


def attributes(values: dict[str, str]) -> str:
    """Attributes of a node or an edge; a label that is HTML stands as it is."""
    return ", ".join("%s=%s" % (key, value if value.startswith("<<") else quoted(value)) for key, value in values.items())


def short(texts: Iterable[str], limit: int = 2) -> str:
    texts = list(texts)
    return "\n".join(texts[:limit]) + ("\nand %d more" % (len(texts) - limit) if len(texts) > limit else "")


def relation(element: str, name: str) -> str:
    """How an element is written, less the name if it stands at the arrow's end anyway."""
    alternatives = [text.strip() for text in element.split("|")]
    if len(alternatives) == 1:
        plain = re.match(r"(%s(?::\w+)?)\s*(.*)$" % re.escape(name), alternatives[0])
        return plain[2] if plain else alternatives[0]
    shown = [text if len(text) < 46 else text[:44] + ".." for text in alternatives[:4]]
    return "\n| ".join(shown) + ("\n| .." if len(alternatives) > 4 else "")


class Drawing:
    """One picture; nodes are by package and version, so ways that meet share them."""

    def __init__(self, why: Why, old: str):
        self.why, self.old = why, old
        self.lines: list[str] = []
        self.names: dict[tuple[str, str], str] = {}

    def node(self, package: Moved) -> str:
        """The node of a package, drawn once."""
        key = package.package, package.version
        if key not in self.names:
            self.names[key] = "n%d" % len(self.names)
            moved = package.version + (" (new)" if not package.was else "")
            moved = "%s → %s" % (package.was, package.version) if package.was and package.was != package.version else moved
            label = '<<b>%s</b><br/><font point-size="9" color="#555555">%s</font>>' % (escaped(package.package), escaped(moved))
            self.draw(self.names[key], {"label": label, **(GOAL if package.package in self.why.line else {})})
        return self.names[key]

    def draw(self, name: str, values: dict[str, str]) -> str:
        self.lines.append("  %s [%s];" % (name, attributes(values)))
        return name

    def arrow(self, start: str, end: str, values: dict[str, str]) -> None:
        self.lines.append("  %s -> %s [%s];" % (start, end, attributes(values)))

    def note(self, near: str, text: str, color: str, label: str) -> None:
        """What could be taken too, or could before."""
        values = {"label": text, "shape": "box", "style": "rounded,dashed", "color": color, "fontcolor": color, "fontsize": "9"}
        name = self.draw("x%d" % len(self.lines), values)
        self.arrow(near, name, {"style": "dashed", "color": color, "fontcolor": color, "label": label})

    def steps(self) -> list[tuple[Step, str, list[Step]]]:
        """Each dependency once, with its element and all that the ways take to satisfy it; of many ways that end in a gap only the first."""
        gaps = [way for way in self.why.ways if way[-1].needs][MOST_GAPS:]
        taken: dict[tuple[str, str, str], tuple[Step, dict[tuple[str, str], Step]]] = {}
        for way in [way for way in self.why.ways if way not in gaps][:MOST_WAYS]:
            for step, after in zip(way, [*way[1:], None]):
                if step.needs:
                    ends = taken.setdefault((step.package, step.version, step.needs), (step, {}))[1]
                    ends.update({(after.package, after.version): after} if after else {})
                else:
                    self.node(step)
        return [(step, element, list(ends.values())) for (_, _, element), (step, ends) in taken.items()]

    def need(self, step: Step, element: str, taken: Sequence[Step]) -> None:
        here, color = self.node(step), NEW if step.new else PLAIN
        for place, after in enumerate(taken):
            label = relation(element, after.package) if not place else "or"
            label = "new" + ("\n" + label if label else "") if step.new and not place else label
            width = {"penwidth": "1.8"} if step.new else {}
            self.arrow(here, self.node(after), {"label": " " + label.replace("\n", "\n "), "color": color, "fontcolor": color, **width})
        if not taken:
            self.gap(here, step, element, color)
        self.notes(here, step, {"%s %s" % (after.package, after.version) for after in taken})

    def notes(self, here: str, step: Step, drawn: set[str]) -> None:
        for texts, words in ((step.other, ""), (step.too, "\nleads there too"), (step.dead, "\ncan never be installed")):
            rest = [text for text in texts if text not in drawn]
            if rest and (drawn or texts is not step.dead):
                self.note(here, short(rest) + words, QUIET, "or")
        if step.lost:
            self.note(here, short(step.lost), OLD, "in " + self.old)

    def gap(self, here: str, step: Step, element: str, color: str) -> None:
        name = self.draw("g%d" % len(self.lines), {**RED_BOX, "label": "nothing satisfies\n%s" % element})
        self.arrow(here, name, {"color": color, **({"penwidth": "1.8", "label": " new", "fontcolor": color} if step.new else {})})

    def conflict(self, place: int, conflict: Conflict) -> None:
        one, other = (self.node(end) for end in conflict.between)
        several = len(self.why.conflicts) > 1
        by = ["%s%s: %s" % (by.package + " " if len(conflict.by) > 1 else "", by.field, by.relation) for by in conflict.by]
        state = "\n(new)" if any(by.new for by in conflict.by) else "\n(as before)" if conflict.was_there else ""
        label = short(by or ["two versions of one name"], 3) + state
        tee = 'arrowhead=tee, color="%s", penwidth=%s' % (GAP, 1.8 if several else 2.2)
        if several:
            self.draw("k%d" % place, {**RED_BOX, "label": label})
            self.lines.append("  {%s %s} -> k%d [%s];" % (one, other, place, tee))
        else:
            self.draw("k%d" % place, {"label": label, "shape": "plaintext", "style": "", "fontcolor": GAP, "fontsize": "9", "margin": "0.04,0.02"})
            back = tee.replace("arrowhead", "dir=back, arrowtail")
            self.lines.append("  {rank=same; %s -> k%d [%s]; k%d -> %s [%s];}" % (one, place, back, place, other, tee))

    def dot(self) -> str:
        for step, element, taken in self.steps():
            self.need(step, element, taken)
        for place, conflict in enumerate(self.why.conflicts[:MOST_CONFLICTS]):
            self.conflict(place, conflict)
        more = len([way for way in self.why.ways if way[-1].needs]) - MOST_GAPS
        if more > 0:
            text = "and %d more that nothing satisfies" % more
            self.draw("more", {"label": text, "shape": "plaintext", "style": "", "fontcolor": QUIET, "fontsize": "9"})
        return HEAD + "\n".join(self.lines) + "\n}\n"


def dot_of(why: Why, old: str) -> str:
    """The picture of a proof if there is one, or else of the ways."""
    return why.proof.picture if why.proof else Drawing(why, old).dot()


def svgs(dots: Sequence[str]) -> list[str]:
    """The graphs as SVG; of one that Graphviz does not draw there is no text, and so of all if it is not there."""
    if not dots or not shutil.which("dot"):
        return [""] * len(dots)
    done = subprocess.run(["dot", "-Tsvg"], input="".join(dots), capture_output=True, encoding="utf-8", errors="replace", check=False)
    found = re.findall(r"<svg.*?</svg>", done.stdout, re.S)
    if done.returncode == 0 and len(found) == len(dots):
        return [smaller(svg) for svg in found]
    half = len(dots) // 2  # it may break down over many graphs, and draw each of them
    return svgs(dots[:half]) + svgs(dots[half:]) if half else [""]


def smaller(svg: str) -> str:
    """Less of what a page does not need: comments, titles, and names of nodes that would stand twice."""
    svg = re.sub(r"<!--.*?-->\s*|<title>.*?</title>\s*", "", svg, flags=re.S)
    return re.sub(r'\s(?:id|class|font-family)="[^"]*"', "", re.sub(r"\n\s*", "\n", svg))
