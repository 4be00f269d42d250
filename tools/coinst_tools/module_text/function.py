"""A function of an LLVM module, as blocks of lines."""

from __future__ import annotations

import collections
import re
from collections.abc import Iterator
from typing import NamedTuple

from .lines import Line

CHOICE = re.compile(r"  br i1 (%[-\w.]+|true|false), label (%[-\w.]+), label (%[-\w.]+)$")
JUMP = re.compile(r"  br label (%[-\w.]+)$")
LABEL = re.compile(r"label (%[-\w.]+)")


class Choice(NamedTuple):
    """The end of a block that goes on at one of two others."""

    asks: str
    one: str
    other: str


class Block:
    """A block: the label by which others name it, and its lines."""

    def __init__(self, label: str) -> None:
        self.label = label
        self.lines: list[Line] = []

    def choice(self) -> Choice | None:
        found = CHOICE.match(self.lines[-1].text) if self.lines else None
        return Choice(*found.groups()) if found else None

    def jump(self) -> str:
        """The label that it goes on at without a choice, or nothing."""
        found = JUMP.match(self.lines[-1].text) if self.lines else None
        return found.group(1) if found else ""

    def only_jump(self) -> str:
        """The same, if it does nothing else."""
        return self.jump() if len(self.lines) == 1 else ""


class Layout:
    """The blocks of a function by their labels, and how often each label is named."""

    def __init__(self, blocks: list[Block]) -> None:
        self.at = {block.label: block for block in blocks}
        self.ways = collections.Counter(label for block in blocks for line in block.lines for label in LABEL.findall(line.text))


class Function:
    """A function: its head, its blocks, and the locals that a stop had looked at."""

    def __init__(self, text: list[str]) -> None:
        self.head = text[0]
        self.blocks: list[Block] = []
        self.asked: set[str] = set()
        for line in text[1:-1]:
            if line and not line[0].isspace():
                self.blocks.append(Block("%" + line.partition(":")[0]))
            elif line:
                self.blocks[-1].lines.append(Line(line))

    def text(self) -> Iterator[str]:
        yield self.head
        for block in self.blocks:
            yield block.label[1:] + ":"
            yield from (line.text for line in block.lines)
        yield from ("}", "")

    def lines(self) -> Iterator[Line]:
        for block in self.blocks:
            yield from block.lines

    def uses(self) -> dict[str, list[Line]]:
        """The lines that use each register."""
        found: dict[str, list[Line]] = collections.defaultdict(list)
        for line in self.lines():
            for register in line.uses:
                found[register].append(line)
        return found

    def drop(self, gone: set[Line]) -> None:
        for block in self.blocks:
            block.lines = [line for line in block.lines if line not in gone]

    def join(self, block: Block, place: Block, gone: set[str]) -> None:
        """Lets a block go on as another does, without its last line; the blocks of the labels are gone."""
        block.lines[-1:] = place.lines
        self.blocks = [it for it in self.blocks if it.label not in gone]
