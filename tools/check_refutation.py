#!/usr/bin/env python3
"""Checks a refutation against the index alone.

    tools/check_refutation.py INDEX TREE.json GOAL..

It shares no code with the program, with what made the tree, or with the reader of the other scripts. A tree is

    {"goals": [WORD..], "lemmas": [{"together": [PACKAGE..], "fails": NODE}..], "fails": NODE}
    NODE     = {"conflict": [PACKAGE, PACKAGE]}            both are held, and one declares against the other, or two versions of a name
             | {"lemma": N}                                 all of an earlier lemma are held
             | {"goal": WORD, "either": [[PACKAGE, NODE]..]}                          each package that the goal names
             | {"package": PACKAGE, "relation": TEXT, "either": [[PACKAGE, NODE]..]}  held, depends on TEXT; each package that satisfies it
    PACKAGE  = [NAME, VERSION]

Held are the packages of the lemma and those of the branches passed. Refused are: a branch too few or too many, a relation that is not in the
package's Depends or Pre-Depends, a conflict that is not declared, and a branch whose end does not need its package. It prints
`accepted`, or says in a line what it refuses, with status 1, or what it cannot read, with status 2.
"""

from __future__ import annotations

import functools
import gc
import itertools
import json
import re
import signal
import sys
from typing import Any

FIELDS = {"package", "version", "architecture", "depends", "pre-depends", "conflicts", "breaks", "provides"}
Key = tuple[str, str]
Node = dict[str, Any]


class Refused(Exception):
    """Why a tree shows nothing."""


def order(c: str) -> int:  # the rank of a character of a version that is no digit; "" is the end
    return -1 if c == "~" else 0 if c == "" else ord(c) if c.isalpha() else ord(c) + 256


def compare_part(a: str, b: str) -> int:
    """The algorithm of deb-version(7), by hand: text until a digit, then a number, and again."""
    while a or b:
        while (a and not a[0].isdigit()) or (b and not b[0].isdigit()):
            x, y = ("" if v[:1].isdigit() else v[:1] for v in (a, b))
            if order(x) != order(y):
                return order(x) - order(y)
            a, b = a[len(x) :], b[len(y) :]
        m, n = re.match("[0-9]*", a)[0], re.match("[0-9]*", b)[0]  # type: ignore[index]
        if int(m or 0) != int(n or 0):
            return int(m or 0) - int(n or 0)
        a, b = a[len(m) :], b[len(n) :]
    return 0


@functools.lru_cache(None)
def compare(a: str, b: str) -> int:  # below, at or above 0 as a is before, equal to or after b
    def split(v: str) -> tuple[str, str, str]:
        epoch, rest = v.split(":", 1) if ":" in v else ("0", v)
        upstream, revision = rest.rsplit("-", 1) if "-" in rest else (rest, "0")
        return epoch, upstream, revision

    return next((c for c in map(compare_part, split(a), split(b)) if c), 0)


def atom(text: str) -> tuple[str, str, str, str]:
    """Name, qualifier, operator and version of one alternative."""
    head, _, bound = " ".join(text.split()).partition("(")
    name, _, qualifier = head.strip().partition(":")
    operator = re.match("[<>=]*", bound)[0]  # type: ignore[index]
    return name, qualifier, operator, bound[len(operator) :].rstrip(") ").strip()


class Facts:
    """What an index says."""

    def __init__(self, path: str) -> None:
        self.packages: dict[Key, dict[str, str]] = {}
        self.offers: dict[str, list[tuple[Key, str]]] = {}
        self.known: dict[str, set[Key]] = {}
        self.home, last = "", ""
        fields: dict[str, str] = {}
        with open(path, encoding="utf-8", errors="surrogateescape", newline="\n") as file:
            for line in itertools.chain(file, ["\n"]):
                if line[0] not in " \t\n":
                    last = line.partition(":")[0].lower() if line[0] in "PpVvAaDdCcBb" else ""
                    if last in FIELDS:
                        fields[last] = line[len(last) + 1 :].strip()
                elif not line.strip(" \t\n"):
                    self.stanza(fields)
                    fields = {}
                elif last in FIELDS:
                    fields[last] += " " + line.strip()
        self.local = {"", "any", "native", "all", self.home}  # the qualifiers that mean the architecture of the index
        for key, fields in self.packages.items():
            self.offers.setdefault(key[0], []).append((key, key[1]))
            for text in self.field(key, "provides") if "provides" in fields else ():
                name, qualifier, _, version = atom(text)
                if qualifier in self.local:
                    self.offers.setdefault(name, []).append((key, version))

    def stanza(self, fields: dict[str, str]) -> None:  # keeps the fields of a stanza that count
        if "package" in fields:
            self.packages[fields["package"], fields["version"]] = fields
            self.home = fields["architecture"] if fields.get("architecture", "all") != "all" else self.home

    def satisfy(self, relation: str) -> set[Key]:  # the packages that satisfy a relation
        if relation not in self.known:
            found = self.known[relation] = set()
            for name, qualifier, operator, bound in map(atom, relation.split("|")):
                for key, version in self.offers.get(name, ()) if qualifier in self.local else ():
                    c = compare(version, bound) if operator else 0
                    fits = {"": True, "<<": c < 0, "<=": c <= 0, "<": c <= 0, "=": c == 0, ">=": c >= 0, ">": c >= 0, ">>": c > 0}[operator]
                    if fits and (version or not operator):
                        found.add(key)
        return self.known[relation]

    def field(self, key: Key, *names: str) -> list[str]:  # the elements of some fields of a package
        texts = ",".join(self.packages[key].get(name, "") for name in names).split(",")
        return [" ".join(text.split()) for text in texts if text.strip()]

    def conflict(self, a: Key, b: Key) -> bool:  # whether two packages have one name, or one declares against the other
        return a != b and (a[0] == b[0] or any(y in self.satisfy(e) for x, y in ((a, b), (b, a)) for e in self.field(x, "conflicts", "breaks")))

    def named(self, word: str) -> set[Key]:  # the packages that a goal names
        name, equals, version = word.partition("=")
        return {k for k, v in self.offers.get(name, ()) if k[0] == name and (not equals or compare(k[1], version) == 0)}


def demand(true: bool, text: str) -> None:  # refuses the tree if this is not so
    if not true:
        raise Refused(text)


def check(facts: Facts, tree: Node, asked: list[str]) -> None:
    """Raises Refused if the tree does not show that the goals asked cannot be together."""
    demand(set(tree["goals"]) <= set(asked), "other goals than those asked")
    lemmas: list[set[Key]] = []
    sys.setrecursionlimit(20000)

    def key_of(package: list[str]) -> Key:  # a PACKAGE of a tree
        return package[0], package[1]

    def walk(node: Node, held: set[Key], goals: list[str]) -> set[Key]:  # the held packages that the node's end needs
        needs: set[Key] = set()
        if "conflict" in node:
            a, b = map(key_of, node["conflict"])
            demand({a, b} <= held, "%s %s and %s %s: not both are held here" % (*a, *b))
            demand(facts.conflict(a, b), "%s %s and %s %s do not conflict" % (*a, *b))
            return {a, b}
        if "lemma" in node:
            demand(0 <= node["lemma"] < len(lemmas), "no such lemma before")
            demand(lemmas[node["lemma"]] <= held, "lemma %d: not all of it is held here" % node["lemma"])
            return lemmas[node["lemma"]]
        if "goal" in node:
            demand(node["goal"] in goals, "%s is no goal" % node["goal"])
            want = facts.named(node["goal"])
            demand(bool(want), "no package is named %s" % node["goal"])
        else:
            package, relation = key_of(node["package"]), " ".join(node["relation"].split())
            demand(package in held, "%s %s is not held here" % package)
            demand(relation in facts.field(package, "depends", "pre-depends"), "%s %s does not depend on %s" % (*package, relation))
            needs, want = {package}, facts.satisfy(relation)
        told = [key_of(package) for package, _ in node["either"]]
        demand(len(told) == len(set(told)) and set(told) == want, "the branches are not those that satisfy %s" % list(node.values())[:2])
        for package, (_, below) in zip(told, node["either"]):
            demand(package not in held, "%s %s is held already: the step is idle" % package)
            used = walk(below, held | {package}, goals)
            demand(package in used, "the end of the branch with %s %s does not need it" % package)
            needs |= used - {package}
        return needs

    for lemma in tree["lemmas"]:
        together = set(map(key_of, lemma["together"]))
        demand(together <= set(facts.packages), "a lemma of no package of the index")
        demand(walk(lemma["fails"], together, []) == together, "a lemma holds a package that its end does not need")
        lemmas.append(together)
    demand(not walk(tree["fails"], set(), tree["goals"]), "rests on what is not held")


if __name__ == "__main__":
    signal.signal(signal.SIGINT, signal.SIG_DFL)  # Ctrl-C ends it in silence
    gc.disable()  # of what is read, nothing goes before the end
    wrong = "INDEX, TREE.json and goals are wanted"
    try:
        path, tree, *goals = sys.argv[1:]
        wrong = "%s cannot be read as an index" % path
        facts = Facts(path)
        wrong = "%s cannot be read as a tree" % tree
        check(facts, json.load(open(tree, encoding="utf-8")), goals)
        print("accepted")
    except Refused as fault:
        sys.exit("refused: %s" % fault)
    except (AttributeError, LookupError, OSError, RecursionError, TypeError, ValueError) as fault:
        why = "it lacks %s" % fault if isinstance(fault, KeyError) else getattr(fault, "strerror", None) or fault
        print("%s: %s" % (wrong, why), file=sys.stderr)
        sys.exit(2)
