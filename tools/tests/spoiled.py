"""Ways to spoil a refutation: each of them must be refused by tools/check_refutation.py."""

from __future__ import annotations

import copy
import random
import typing

from check_refutation import Facts, Node

Changed = typing.Iterator[typing.Tuple[str, Node]]


def nodes(tree: Node) -> typing.Iterator[Node]:
    """All nodes of a tree."""
    todo = [tree["fails"]] + [lemma["fails"] for lemma in tree["lemmas"]]
    while todo:
        node = todo.pop()
        yield node
        todo += [below for _, below in node.get("either", ())]


def become(node: Node, other: Node) -> None:
    """Puts another node in the place of one."""
    other = copy.deepcopy(other)
    node.clear()
    node.update(other)


class Spoiler:
    """Spoils one tree in all ways that fit it."""

    def __init__(self, facts: Facts, tree: Node, luck: random.Random) -> None:
        self.facts, self.tree, self.luck = facts, tree, luck
        self.keys = sorted(facts.packages)

    def key(self) -> list[str]:
        return list(self.luck.choice(self.keys))

    def on(self, name: str, fits: typing.Callable[[Node], bool], change: typing.Callable[[Node], object]) -> Changed:
        """The tree with a change in one of the nodes that fit."""
        new = copy.deepcopy(self.tree)
        fit = [node for node in nodes(new) if fits(node)]
        if fit:
            change(self.luck.choice(fit))
            yield name, new

    def all(self) -> Changed:
        yield from self.branches()
        yield from self.relations()
        yield from self.ends()
        yield from self.goals()
        yield from self.lemmas()

    def branches(self) -> Changed:
        def either(node: Node) -> list[typing.Any]:
            return list(node.get("either", ()))

        def is_need(node: Node) -> bool:
            return "package" in node and bool(either(node))

        yield from self.on("a branch left out", lambda n: len(either(n)) > 1, lambda n: n["either"].pop(self.luck.randrange(len(n["either"]))))
        yield from self.on("all branches left out", is_need, lambda n: n.update(either=[]))
        yield from self.on("a step left out", is_need, lambda n: become(n, self.luck.choice(n["either"])[1]))
        yield from self.on("a branch twice", lambda n: bool(either(n)), lambda n: n["either"].append(n["either"][0]))
        yield from self.on("a branch too many", lambda n: bool(either(n)), lambda n: n["either"].append([self.key(), n["either"][0][1]]))
        yield from self.on("another version in a branch", lambda n: bool(either(n)), self.other_version)
        yield from self.on("another package in a branch", lambda n: bool(either(n)), lambda n: n["either"][0].__setitem__(0, self.key()))

    @staticmethod
    def other_version(node: Node) -> None:
        name, version = node["either"][0][0]
        node["either"][0][0] = [name, version + "+x"]

    def relations(self) -> Changed:
        def text(node: Node) -> str:
            return str(node.get("relation", ""))

        def is_bound(node: Node) -> bool:
            return "(" in text(node) and "|" not in text(node) and self.is_strange(node, self.cut(node))

        yield from self.on("a relation of no field", lambda n: "package" in n, lambda n: n.update(relation=text(n) + " | zz-none"))
        yield from self.on("a relation cut", lambda n: "|" in text(n) and self.is_strange(n, text(n).split("|")[0].strip()),
                           lambda n: n.update(relation=text(n).split("|")[0].strip()))  # fmt: skip
        yield from self.on("the bound of a relation cut", is_bound, lambda n: n.update(relation=self.cut(n)))
        yield from self.on("a package without the relation", lambda n: "package" in n, self.other_owner)

    def other_owner(self, node: Node) -> None:
        others = [key for key in self.keys if node["relation"] not in self.facts.field(key, "depends", "pre-depends")]
        node["package"] = list(self.luck.choice(others)) if others else ["zz-none", "1"]

    @staticmethod
    def cut(node: Node) -> str:
        return str(node["relation"]).split("(")[0].strip()

    def is_strange(self, node: Node, relation: str) -> bool:
        """Whether the package does not have a relation."""
        name, version = node["package"]
        return relation not in self.facts.field((name, version), "depends", "pre-depends")

    def ends(self) -> Changed:
        def is_end(node: Node) -> bool:
            return "conflict" in node

        goal = self.tree["goals"][0]
        yield from self.on("a conflict with another", is_end, self.other_conflict)
        yield from self.on("a conflict with itself", is_end, lambda n: n["conflict"].__setitem__(0, n["conflict"][1]))
        yield from self.on("an end of one package", is_end, lambda n: become(n, {"package": n["conflict"][0], "relation": "zz", "either": []}))
        yield from self.on("a lemma that is not there", is_end, lambda n: become(n, {"lemma": len(self.tree["lemmas"])}))
        yield from self.on("a lemma of minus one", is_end, lambda n: become(n, {"lemma": -1}))
        yield from self.on("an idle step put in", is_end, lambda n: become(
            n, {"goal": goal, "either": [[list(k), copy.deepcopy(n)] for k in sorted(self.facts.named(goal))]}))  # fmt: skip

    def other_conflict(self, node: Node) -> None:
        name, version = node["conflict"][1]
        node["conflict"][0] = list(self.luck.choice([key for key in self.keys if not self.facts.conflict(key, (name, version))]))

    def goals(self) -> Changed:
        yield from self.on("a goal that is none", lambda n: "goal" in n, lambda n: n.update(goal="zz-none"))
        yield "a goal that was not asked", {**copy.deepcopy(self.tree), "goals": self.tree["goals"] + ["zz-none"]}
        if len(self.tree["goals"]) > 1:
            yield "a goal left out", {**copy.deepcopy(self.tree), "goals": self.tree["goals"][1:]}

    def lemmas(self) -> Changed:
        if self.tree["lemmas"]:
            yield "a lemma left out", {**copy.deepcopy(self.tree), "lemmas": self.tree["lemmas"][1:]}
            new = copy.deepcopy(self.tree)
            self.luck.choice(new["lemmas"])["together"].pop()
            yield "a lemma with a package left out", new
