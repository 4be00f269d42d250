"""The records of a report on what a newer suite breaks: docs/REPORT-FORMAT.md says what each field means. They are written as JSON and read back."""

from __future__ import annotations

import dataclasses
import functools
import itertools
import json
import os
import types
import typing
from collections.abc import Iterable, Iterator

from .built import HERE, TOP
from .command import BadWords
from .debian_index import TEXT
from .json_schema import faults

FORMAT = "coinst-report 1"
LINKS = {
    "source": "https://tracker.debian.org/pkg/{source}", "bugs": "https://bugs.debian.org/src:{source}",
    "bug": "https://bugs.debian.org/{bug}", "package": "https://packages.debian.org/{package}",
}

Line = tuple[str, ...]  # one name, or two, or a set of more
Counted = list[tuple[str, int]]  # texts, and of how many lines each is


# Why a line is broken


@dataclasses.dataclass
class Source:
    """A source package, and its newest version in both suites."""

    source: str
    old: str | None
    new: str | None


@dataclasses.dataclass
class Moved:
    """A package of NEW, and the version that its name had in OLD."""

    package: str
    version: str
    was: str | None
    source: str


@dataclasses.dataclass
class Step(Moved):
    """A package on a way, and the element by which the way goes on; `needs` is None at the end."""

    needs: str | None
    new: bool
    others: int
    too: list[str]
    dead: list[str]
    other: list[str]
    lost: list[str]


@dataclasses.dataclass
class Relation:
    """A relation that stands against another package, as it is written."""

    package: str
    field: str
    relation: str
    new: bool


@dataclasses.dataclass
class Conflict:
    """Two packages that conflict."""

    between: list[Moved]
    was_there: bool
    by: list[Relation]


@dataclasses.dataclass
class Proof:
    """Why several conflicts hold a line together: in words, and as a picture for Graphviz."""

    text: list[str]
    picture: str


@dataclasses.dataclass
class Why:
    """One line, the ways that lead from its names, and the conflicts at their ends; of several conflicts of one change the proof."""

    line: list[str]
    ways: list[list[Step]]
    conflicts: list[Conflict]
    proof: Proof | None = None


# Sets of three names and more


@dataclasses.dataclass
class Side:
    """One part of a problem: what is needed there, and the kinds of names that need it."""

    needs: list[str]
    kinds: list[int]
    names: int
    first: list[str]


@dataclasses.dataclass
class Problem:
    """Sets that are lost by one problem of NEW: an example, its sides, and the sets as numbers of kinds."""

    example: list[str]
    sides: list[Side]
    sets: list[list[int]]
    name_sets: int


@dataclasses.dataclass
class SetsOf:
    """The sets of one cause on one architecture."""

    kind_sets: int
    name_sets: int
    problems: list[Problem]


@dataclasses.dataclass
class Sets:
    """The sets of one architecture, or why they are not known; under each kind its names."""

    status: int
    told: str
    kind_sets: int = 0
    name_sets: int = 0
    sizes: dict[str, int] = dataclasses.field(default_factory=dict)
    open: list[list[str]] = dataclasses.field(default_factory=list)
    no_cause: list[list[str]] = dataclasses.field(default_factory=list)
    kinds: dict[str, list[str]] = dataclasses.field(default_factory=dict)
    allowed: int = 0

    def lines(self, kinds: Iterable[int]) -> Iterator[Line]:
        """All sets of names with one of each of these kinds."""
        return (tuple(sorted(line)) for line in itertools.product(*(self.kinds[str(kind)] for kind in kinds)))


# What one architecture gives to the report


@dataclasses.dataclass
class Found:
    """A cause on one architecture: its lines, and what of them is well without the change."""

    key: str
    kind: str
    title: str
    sources: list[Source]
    lines: list[Line]
    mended: set[Line]
    confirmed: bool
    why: Why
    notes: Counted
    in_need: Counted
    sets: SetsOf | None = None


@dataclasses.dataclass
class File:
    """An index that was read: its name without the folder, the SHA-256 of its bytes, and what is in it."""

    name: str
    sha256: str
    packages: int
    names: int


@dataclasses.dataclass
class Study:
    """What NEW breaks of OLD on one architecture."""

    architecture: str
    old: File
    new: File
    status: int
    broken: int
    open: list[Line]
    causes: list[Found]
    both: set[str]
    for_all: set[str]
    dropped: set[str]
    sets: Sets | None
    seconds: float = 0.0


# The report


@dataclasses.dataclass
class Group:
    """Lines that are broken on the same architectures: names, and pairs as a name and those it is not with."""

    on: list[str]
    names: list[str]
    pairs: int
    sides: list[tuple[str, list[str]]]

    def lines(self) -> set[Line]:
        pairs = {tuple(sorted((name, other))) for name, others in self.sides for other in others}
        return pairs | {(name,) for name in self.names}


@dataclasses.dataclass
class Names:
    """Names that all of some architectures have lost."""

    on: list[str]
    names: list[str]


@dataclasses.dataclass
class On:
    """What a cause does on an architecture, in numbers of lines."""

    names: int
    all: int
    pairs: int
    lines: int
    mended: int
    confirmed: bool
    name_sets: int
    kind_sets: int


@dataclasses.dataclass
class Off:
    """What becomes of a cause's lines on an architecture that does not have it."""

    absent: int = 0
    other_cause: int = 0
    left_out: int = 0
    not_broken: int = 0


@dataclasses.dataclass
class Otherwise:
    """The sources that a cause has more or fewer on another architecture."""

    more: list[str]
    fewer: list[str]


@dataclasses.dataclass
class Change:
    """What a cause has that it did not have in the earlier report, and the other way."""

    state: str
    new: dict[str, int]
    gone: dict[str, int]
    why_gone: dict[str, int]
    new_lines: list[Group]
    gone_lines: list[Group]
    new_sets: dict[str, int]
    gone_sets: dict[str, int]


@dataclasses.dataclass
class Cause:
    """A change, or several that mend only together, and what stands under it on all architectures."""

    key: str
    id: str
    changes: list[str]
    under: str | None
    kind: str
    title: str
    sources: list[Source]
    why: Why
    chains: list[list[str]]
    notes: Counted
    in_need: Counted
    told_of: str
    otherwise: dict[str, Otherwise]
    allowed: bool
    bugs: list[str]
    use: int | None
    on: dict[str, On]
    off: dict[str, Off]
    lines: list[Group]
    sets: dict[str, SetsOf]
    since: Change | None = None

    def total(self, what: str) -> int:
        """Of how many names or pairs of all architectures it is, each once; of sets, on the architecture with the most."""
        if what == "sets":
            return max((part.name_sets for part in self.on.values()), default=0)
        return sum(len(group.names) if what == "names" else group.pairs for group in self.lines)

    def on_lines(self) -> dict[str, set[Line]]:
        """Its lines by architecture."""
        found: dict[str, set[Line]] = {}
        for group in self.lines:
            mine = group.lines()
            for name in group.on:
                found.setdefault(name, set()).update(mine)
        return found

    def is_for_all(self) -> bool:
        """Whether all its names are of packages for all architectures."""
        return all(part.all == part.names for part in self.on.values())


@dataclasses.dataclass
class Architecture:
    """What was compared on one architecture, and its sums."""

    architecture: str
    old: File
    new: File
    status: int
    broken: int
    open: list[list[str]]
    common_names: int
    dropped: int
    allowed_lines: list[list[str]]
    sets: Sets | None
    seconds: float


@dataclasses.dataclass
class Refused:
    """What could not be reported, with the line that says why and the status."""

    architecture: str | None
    message: str
    status: int


@dataclasses.dataclass
class Ended:
    """A cause of the earlier report that has nothing left."""

    key: str
    id: str
    kind: str
    title: str
    sources: list[Source]
    bugs: list[str]
    since: Change


@dataclasses.dataclass
class MovedLines:
    """How many lines stand under another cause than in the earlier report."""

    was: str
    now: str
    lines: int


@dataclasses.dataclass
class LineChange:
    """How many lines, and how many sets of three names and more, are new and gone."""

    new: int
    gone: int
    new_sets: int
    gone_sets: int


@dataclasses.dataclass
class Since:
    """What is new since an earlier report."""

    made: str
    old: str | None
    new: str | None
    first_time: list[str]
    not_this_time: list[str]
    lines: dict[str, LineChange]
    dropped: list[Names]
    ended: list[Ended]
    moved: list[MovedLines]


@dataclasses.dataclass
class Report:
    """The whole of it."""

    format: str
    made: str
    coinst: str
    program: str
    options: list[str]
    all_on: list[str]
    popcon: str | None
    old: str | None
    new: str | None
    architectures: list[Architecture]
    refused: list[Refused]
    alone: dict[str, str]
    links: dict[str, str]
    dropped: list[Names]
    causes: list[Cause]
    since: Since | None = None

    def places(self) -> list[str]:
        return [one.architecture for one in self.architectures]


# JSON


def own_file(name: str, folder: str = "") -> str:
    """A file of these sources, or the one that tools/install put beside the scripts."""
    path = os.path.join(TOP, folder, name)
    return path if os.path.exists(path) else os.path.join(HERE, name)


SCHEMA = own_file("report.schema.json", "docs")


@functools.lru_cache(None)
def hints_of(kind: type) -> dict[str, typing.Any]:
    return typing.get_type_hints(kind)


def record_of(kind: typing.Any, data: typing.Any) -> typing.Any:
    """The record that JSON data is of; what a record does not know is read over."""
    if dataclasses.is_dataclass(kind):
        hints = hints_of(kind)
        return kind(**{field: record_of(hints[field], data[field]) for field in hints if field in data})
    origin, inner = typing.get_origin(kind), typing.get_args(kind)
    if origin is types.UnionType:
        return None if data is None else record_of(inner[0], data)
    if origin is list:
        return data if inner[0] is str else [record_of(inner[0], one) for one in data]
    if origin is tuple:
        return tuple(record_of(what, one) for what, one in zip(inner, data))
    if origin is dict:
        return {key: record_of(inner[1], value) for key, value in data.items()}
    return data


def as_json(report: Report) -> str:
    """The report as JSON; bytes that are no UTF-8 become the sign for that."""
    return json.dumps(report, default=vars, ensure_ascii=False, separators=(",", ":")).encode(**TEXT).decode("utf-8", "replace")


def write_report(path: str, report: Report) -> None:
    with open(path, "w", encoding="utf-8") as file:
        file.write(as_json(report) + "\n")


def read_report(path: str) -> Report:
    """The report of a file, once it has the format."""
    try:
        with open(path, encoding="utf-8") as file:
            data = json.load(file)
    except ValueError as fault:
        raise BadWords("%s: no JSON: %s" % (path, fault)) from None
    if not isinstance(data, dict) or data.get("format") != FORMAT:
        raise BadWords("%s: no report of the format %s" % (path, FORMAT))
    with open(SCHEMA, encoding="utf-8") as file:
        wrong = next(faults(data, json.load(file)), None)
    if wrong:
        raise BadWords("%s: no report of the format %s: %s" % (path, FORMAT, wrong))
    report: Report = record_of(Report, data)
    return report
