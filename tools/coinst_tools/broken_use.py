"""How much names are used, by the counts of Debian's popularity contest: on how many machines they are installed."""

from __future__ import annotations

import os
import re
from collections.abc import Iterable, Mapping

from .broken_records import Line, SetsOf
from .command import BadWords
from .debian_index import TEXT

ROW = re.compile(r"\d+\s+(\S+)\s+(\d+)\s")


class Use:
    """On how many machines a name is installed; without a file nothing is known of that."""

    def __init__(self, path: str | None = None, name: str | None = None):
        self.name = name or path and os.path.basename(path)
        self.machines: dict[str, int] = {}
        if path:
            with open(path, **TEXT) as file:
                self.machines = {found[1]: int(found[2]) for found in map(ROW.match, file) if found}
            if not self.machines:
                raise BadWords("%s: no line of a number, a name and how many have it" % path)

    def of_line(self, line: Iterable[str]) -> int:
        """At most so many machines have all names of a line."""
        return min(self.machines.get(name, 0) for name in line)

    def of_cause(self, lines: Iterable[Line], sets: Mapping[str, SetsOf]) -> int | None:
        """The use of its most used line."""
        if not self.machines:
            return None
        examples = [problem.example for part in sets.values() for problem in part.problems]
        return max(map(self.of_line, [*lines, *examples]), default=0)
