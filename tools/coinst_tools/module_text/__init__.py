"""Makes of the text of the LLVM module that `rt try` compiles the text of the module that a proved build compiles.

Both lower the same sources, in the same order. `rt try` adds stops: calls that end the program if a proof would have failed, and what
computes their conditions. A proved build has none; it has the hints of the sources on inlining, and a `main` that refuses a processor that is too
old. Here the stops go, with all that only they used (stops.py), the addresses of elements are marked anew (addresses.py), and the hints
(hints.py) and `main` (start.py) come in.

Nothing rests on this being right: tools/compile compares the bytes of the program with those of the program that was proved, and says so if they
differ. If a later kit writes another module, dev/compare_programs names the first function that differs, and dev/compare_modules its lines.
"""

from __future__ import annotations

import re
from collections.abc import Callable, Iterator

from .addresses import mark_addresses
from .function import Function
from .hints import Hints
from .lines import STOPS_OWN
from .start import main_of
from .stops import SHUFFLE, without_stops

NAME = re.compile(r'@(?:"([^"]*)"|([\w.]+))\(')
GROUP = re.compile(r" #\d+ \{$")
ATTRIBUTES = 'nounwind "probe-stack"="inline-asm" "stack-probe-size"="3072" "target-cpu"="%s"'
OLD_CPU, CPU = "x86-64", "x86-64-v2"
# What the new `main`, and the one instruction that chooses bytes, call.
DECLARED = ["declare ptr @__x86_get_cpuid_feature_leaf(i32) #1", "declare i64 @__write(i32, ptr, i64) #1", "declare " + SHUFFLE % ("", "")]


class Groups:
    """The groups of attributes that functions name by number, the first of them 100."""

    def __init__(self) -> None:
        self.numbers: dict[str, int] = {}

    def of(self, words: str) -> str:
        return "#%d" % self.numbers.setdefault(words, 100 + len(self.numbers))

    def lines(self) -> Iterator[str]:
        return ("attributes #%d = { %s }" % (number, words) for words, number in self.numbers.items())


def name_of(head: str) -> str:
    """The name of a function, by its head."""
    found = NAME.search(head)
    return "".join(filter(None, found.groups())) if found else ""


def function_of(line: str, lines: Iterator[str]) -> list[str]:
    """The lines of a function that begins with this one."""
    function = [line]
    while function[-1] != "}":
        function.append(next(lines).rstrip("\n"))
    return function


def made_of(text: list[str], groups: Groups, hints: str) -> Iterator[str]:
    """A function as a proved build has it."""
    function = Function(text)
    without_stops(function)
    mark_addresses(function)
    words = " ".join(filter(None, [hints, ATTRIBUTES % CPU]))
    function.head = GROUP.sub(" %s {" % groups.of(words), function.head)
    return function.text()


def rewritten(lines: Iterator[str], crate: str, comment: str, source_of: Callable[[str], str]) -> Iterator[str]:
    """The lines of the module of a proved build of a program, from those of the module of `rt try`."""
    hints, groups = Hints(source_of), Groups()
    for line in (line.rstrip("\n") for line in lines):
        if line.startswith("define"):
            text, name = function_of(line, lines), name_of(line)
            if name == "main":
                yield from main_of(crate, groups.of(ATTRIBUTES % OLD_CPU))
            elif not name.startswith(STOPS_OWN):
                yield from made_of(text, groups, hints.of(name))
        elif line.startswith("declare i64 @__sysv_signal"):
            yield from [line, *DECLARED]
        elif line.startswith("!0 = "):
            yield '!0 = !{!"%s"}' % comment
        elif not line.startswith("; Function Attrs"):
            yield line
    yield from groups.lines()
