"""A report of packages that can never be installed, in the form that `dose-debcheck --explain --failures` writes."""

from __future__ import annotations

import typing

from .debian_index import AGAINST, Atom, Index, Package
from .never_installed import Chain, Gap, Reason, Roots
from .refutation import Conflict

OPERATORS = {"<<": "<", ">>": ">", "<": "<=", ">": ">="}


def alternative(atom: Atom, home: str) -> str:
    """`name:architecture (< version)`."""
    bound = " (%s %s)" % (OPERATORS.get(atom.operator, atom.operator), atom.version) if atom.operator else ""
    return "%s:%s%s" % (atom.name, atom.qualifier or home, bound)


class DoseReport:
    """The lines of one report."""

    def __init__(self, index: Index, roots: Roots) -> None:
        self.index, self.roots, self.home = index, roots, index.home or "all"

    def relation(self, text: str) -> str:
        return " | ".join(alternative(atom, self.home) for atom in self.index.atoms(text))

    @staticmethod
    def package(p: Package, pad: str) -> list[str]:
        return ["%spackage: %s" % (pad, p.name), "%sversion: %s" % (pad, p.version), "%sarchitecture: %s" % (pad, p.architecture)]

    def chain(self, chain: Chain, pad: str) -> list[str]:
        """A chain of dependencies; an empty one has no line."""
        lines = ["%s-" % pad, "%s depchain:" % pad] if chain else []
        for p, element in chain:
            lines += ["%s  -" % pad, *self.package(p, pad + "   "), "%s   depends: %s" % (pad, self.relation(element))]
        return lines

    def chains(self, name: str, chain: Chain) -> list[str]:
        lines = self.chain(chain, "      ")
        return ["     %s:" % name, *lines] if lines else []

    def missing(self, gap: Gap, reason: Reason) -> list[str]:
        lines = ["    missing:", "     pkg:", *self.package(gap.owner, "      "), "      unsat-dependency: " + self.relation(gap.element)]
        return lines + self.chains("depchains", reason.chains[0])

    def conflict(self, found: Conflict, reason: Reason) -> list[str]:
        """The package that declares the conflict comes first."""
        ends = [(found.one, found.other, reason.chains), (found.other, found.one, reason.chains[::-1])]
        declares = [(mine, his, chains, text) for mine, his, chains in ends if (text := self.declared(mine, his))]
        mine, his, chains, text = declares[0] if declares else (found.one, found.other, reason.chains, found.one.name)
        lines = ["    conflict:", "     pkg1:", *self.package(mine, "      "), "      unsat-conflict: " + self.relation(text)]
        lines += ["     pkg2:", *self.package(his, "      ")]
        return lines + self.chains("depchain1", chains[0]) + self.chains("depchain2", chains[1])

    def declared(self, mine: Package, his: Package) -> str | None:
        texts = (text for kind in AGAINST for text in mine.relations.get(kind, ()))
        return next((text for text in texts if his in self.index.meeting(text)), None)

    def of(self, p: Package) -> list[str]:
        """All that is told of one package."""
        lines = [" -", *self.package(p, "  "), "  status: broken", "  reasons:"]
        for reason in self.roots.reasons(p):
            root = reason.root
            lines += ["   -", *(self.missing(root, reason) if isinstance(root, Gap) else self.conflict(root, reason))]
        return lines

    def lines(self, never: typing.Sequence[Package]) -> list[str]:
        lines = ["output-version: 1.2", "native-architecture: " + self.home, "report:"]
        for p in sorted(never, key=lambda p: p.name):
            lines += self.of(p)
        return lines + [" ", "total-packages: %d" % len(self.index.packages), "broken-packages: %d" % len(never)]
