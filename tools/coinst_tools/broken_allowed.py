"""What may break, by the file of --allow: lines, and causes by their keys, each with architectures, a bound and bugs."""

from __future__ import annotations

import collections
import dataclasses
import re
from collections.abc import Iterator, Sequence

from .broken_records import Line
from .command import BadWords
from .debian_index import TEXT

FORM = "neither `broken` with names, nor `cause` or `known` with a key"
BUGS = re.compile(r"\s#(\d+)\b")
NOTE = re.compile(r"(?:^|\s)#.*")
ON = re.compile(r"\s+on\s+([a-z0-9-]+(?:[\s,]+[a-z0-9-]+)*)$")
MOST = re.compile(r"\s+at\s+most\s+(\S+)$")


@dataclasses.dataclass
class Rule:
    """One line of the file: names or a key, the architectures that it is of, the most lines on one, and bugs."""

    what: str
    on: list[str]
    most: int | None
    bugs: list[str]

    def holds_on(self, place: str) -> bool:
        return not self.on or place in self.on


@dataclasses.dataclass
class Names:
    """Names that may break, of which some may stand for any."""

    size: int
    named: frozenset[str]
    rule: Rule

    def has(self, line: Line) -> bool:
        return len(line) == self.size and self.named <= set(line)


class Allowed:
    """All rules of a file."""

    def __init__(self, path: str | None = None):
        self.path = path
        self.names: dict[str, list[Names]] = collections.defaultdict(list)
        self.causes: dict[str, list[Rule]] = collections.defaultdict(list)
        self.known: dict[str, list[Rule]] = collections.defaultdict(list)
        for number, text in self.lines():
            self.add(number, text)

    def lines(self) -> Iterator[tuple[int, str]]:
        if self.path:
            with open(self.path, **TEXT) as file:
                yield from ((number, text.strip()) for number, text in enumerate(file, 1))

    def bad(self, number: int, why: str) -> BadWords:
        return BadWords("%s: line %d: %s" % (self.path, number, why))

    def rule(self, number: int, text: str) -> Rule:
        """The rule of a line: what follows its names or its key is cut off from the end."""
        bugs, text, places, most = BUGS.findall(text), NOTE.sub("", text).rstrip(), [], None
        if found := ON.search(text):
            text, places = text[: found.start()], re.split(r"[\s,]+", found[1])
        if found := MOST.search(text):
            text, most = text[: found.start()], found[1]
        if most is not None and not most.isdigit():
            raise self.bad(number, "`at most` without a number")
        return Rule(text.strip(), places, None if most is None else int(most), bugs)

    def add(self, number: int, text: str) -> None:
        if not text or text.startswith("#"):
            return
        word, _, rest = text.partition(" ")
        rule = self.rule(number, " " + rest)
        names = rule.what.split()
        if word in ("cause", "known") and names:
            key = " & ".join(re.split(r"\s+&\s+", rule.what))
            (self.causes if word == "cause" else self.known)[key].append(rule)
        elif word == "broken" and names and rule.most is None:
            named = frozenset(name for name in names if name != "*")
            self.names[min(named, default="*")].append(Names(len(names), named, rule))
        else:
            raise self.bad(number, FORM)

    def has_line(self, line: Line, place: str) -> bool:
        return any(names.rule.holds_on(place) and names.has(line) for name in ("*", *line) for names in self.names.get(name, ()))

    def sizes(self) -> set[int]:
        """Of how many names the lines are that may break."""
        return {names.size for some in self.names.values() for names in some}

    def has_cause(self, key: str, place: str, lines: int) -> bool:
        """Whether a cause with so many lines on an architecture may be: by its key, or by those of all its changes."""
        parts = [key] if key in self.causes else key.split(" & ")
        return all(any(rule.holds_on(place) and (rule.most is None or lines <= rule.most) for rule in self.causes.get(part, ())) for part in parts)

    def bugs(self, keys: Sequence[str]) -> list[str]:
        """The bugs that are written with any of these keys."""
        found = (bug for table in (self.causes, self.known) for key in keys for rule in table.get(key, ()) for bug in rule.bugs)
        return list(dict.fromkeys(found))
