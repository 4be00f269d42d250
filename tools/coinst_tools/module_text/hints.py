"""The hints on inlining: what `#[inline(..)]` and `#[cold]` in the sources say to LLVM of each function of a module."""

from __future__ import annotations

import collections
import os
import re
from collections.abc import Callable, Iterator
from typing import NamedTuple

MEANT = {"inline(always)": "alwaysinline", "inline(never)": "noinline", "inline": "inlinehint", "cold": "cold"}
HINT = re.compile(r"#\[(inline(?:\(\w+\))?|cold)\]")
IMPL = re.compile(r"(?:unsafe )?impl\b")
TRAIT = re.compile(r"(?:pub(?:\([^)]*\))? )?(?:unsafe )?trait (\w+)")
FUNCTION = re.compile(r"\bfn\s+(\w+)")
# In how many lines the head of an impl stands at most.
LONGEST_HEAD = 8


class Place(NamedTuple):
    """Where a function stands in the sources: its module, and the type and the trait of its impl; and its hints for LLVM."""

    module: str
    kind: str
    trait: str
    hints: str


class Impl(NamedTuple):
    """An impl or a trait that is open at a line: how far it is indented, and of which type and trait it is."""

    indent: int
    kind: str
    trait: str


def outside_brackets(text: str) -> str:
    """A text without what stands in <>."""
    out, depth = [], 0
    for place, char in enumerate(text):
        is_arrow = text[place - 1 : place] in ("-", "=")
        if char == "<":
            depth += 1
        elif char == ">" and not is_arrow:
            depth -= 1
        elif depth == 0:
            out.append(char)
    return "".join(out)


def impl_of(lines: list[str], indent: int) -> Impl:
    """The impl whose head begins with these lines."""
    whole = " ".join(line.strip() for line in lines[:LONGEST_HEAD])
    head = outside_brackets(IMPL.sub("", whole, count=1).partition("{")[0]).partition(" where ")[0]
    first, is_of, second = head.partition(" for ")
    kind, trait = (second, first) if is_of else (first, "")
    return Impl(indent, kind.strip().rpartition("::")[2], trait.strip().rpartition("::")[2])


def functions_of(module: str, lines: list[str]) -> Iterator[tuple[str, Place]]:
    """The functions of a source file, each with its place."""
    impls: list[Impl] = []
    hints: set[str] = set()
    for number, whole in enumerate(lines):
        line, indent = whole.strip(), len(whole) - len(whole.lstrip())
        if not line or line.startswith("//"):
            continue
        while impls and indent <= impls[-1].indent and not line.startswith(("where", "{")):
            impls.pop()
        impls += opened(lines[number:], line, indent)
        hints.update(HINT.findall(line))
        function = FUNCTION.search(line)
        if function:
            kind, trait = impls[-1][1:] if impls else ("", "")
            yield function.group(1), Place(module, kind, trait, " ".join(sorted(MEANT[hint] for hint in hints)))
        if function or not line.startswith("#["):
            hints = set()


def opened(lines: list[str], line: str, indent: int) -> list[Impl]:
    """The impl or the trait that a line opens, if it opens one."""
    trait = TRAIT.match(line)
    if IMPL.match(line):
        return [impl_of(lines, indent)]
    return [Impl(indent, trait.group(1), "")] if trait else []


def module_of(crate: str, path: str) -> str:
    """The module of a file, by its path in src/."""
    parts = path.removesuffix(".rt").split("/")
    return "::".join([crate, *(parts[:-1] if parts[-1] in ("lib", "main", "mod") else parts)])


def functions_below(crate: str, top: str) -> dict[str, list[Place]]:
    """The functions of a crate, by name."""
    found: dict[str, list[Place]] = collections.defaultdict(list)
    for at, _, files in os.walk(top):
        for file in sorted(name for name in files if name.endswith(".rt")):
            path = os.path.join(at, file)
            with open(path, encoding="utf-8") as text:
                for name, place in functions_of(module_of(crate, os.path.relpath(path, top)), text.read().split("\n")):
                    found[name].append(place)
    return found


def spelled(kind: str) -> str:
    """A type as the names of its impls in a module spell it: `&mut T` is RefMut, a slice of any type Slice."""
    kind, out = re.sub(r"'\w+ ?", "", kind.strip()), ""
    while kind.startswith("&"):
        kind, out = kind[1:].strip(), out + "Ref"
        if kind.startswith("mut "):
            kind, out = kind[4:], out + "Mut"
    if kind.startswith("["):
        return out + "Slice"
    return out if re.fullmatch("[A-Z]", kind) else out + kind[:1].upper() + kind[1:]


class Symbol:
    """The name of a function in a module, such as `crate::module::Type::name`."""

    def __init__(self, text: str) -> None:
        self.parts = re.sub(r"::<.*$", "", text).split("::")
        self.place, self.inside = "::".join(self.parts[:-1]), "::".join(self.parts[:-2])

    def has_place(self) -> bool:
        """Whether it is of a crate, and of no impl that a macro wrote."""
        return len(self.parts) > 1 and "++" not in self.parts[-2]

    def may_be(self, place: Place) -> bool:
        module = place.module
        return self.place == module or self.place.startswith(module + "::") or module.startswith(self.inside)

    def has_owner(self, place: Place) -> bool:
        """Whether the part before its name is the trait, the type or the module."""
        owner = self.parts[-2]
        if place.trait:
            return owner.endswith(place.trait)
        return owner == place.kind if place.kind else self.place == place.module

    def is_in_module(self, place: Place) -> bool:
        return place.module in (self.place, self.inside)

    def has_type(self, place: Place) -> bool:
        return bool(place.kind) and self.parts[-2] in (place.kind, spelled(place.kind) + place.trait)


class Hints:
    """The hints on the functions of a module, by the sources of their crates."""

    def __init__(self, source_of: Callable[[str], str]) -> None:
        self.source_of = source_of
        self.crates: dict[str, dict[str, list[Place]]] = {}

    def functions(self, crate: str) -> dict[str, list[Place]]:
        if crate not in self.crates:
            self.crates[crate] = functions_below(crate, self.source_of(crate))
        return self.crates[crate]

    def of(self, name: str) -> str:
        """The hints on a function; a method that an impl takes over from its trait has none."""
        symbol = Symbol(name)
        if not symbol.has_place():
            return ""
        found = [place for place in self.functions(symbol.parts[0]).get(symbol.parts[-1], []) if symbol.may_be(place)]
        # (of several with other hints those stay that fit better, if any does)
        for fits in (symbol.has_owner, symbol.is_in_module, symbol.has_type):
            if len({place.hints for place in found}) > 1:
                found = [place for place in found if fits(place)] or found
        return found[0].hints if found else ""
