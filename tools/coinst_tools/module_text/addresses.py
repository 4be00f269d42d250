"""Which addresses of elements lie inside their list, as the module of a proved build says by `inbounds nuw`.

An address that is only read and written lies inside. One that is handed on may be the end of the list, and so may that of an element without a
size. `rt try` leaves the mark off if a stop has looked at the address, so it is decided anew here, on what is left without the stops.
"""

from __future__ import annotations

import re

from .function import Function
from .lines import Line

ADDRESS = re.compile(r"  (%[-\w.]+) = getelementptr (?:inbounds nuw )?i8, (ptr (%[-\w.]+), i64 %[-\w.]+)$")
FIELD = re.compile(r"  (%[-\w.]+) = getelementptr (?:inbounds nuw )?i8, (ptr (%[-\w.]+), i64 \d+)$")
MARKED = "  %s = getelementptr inbounds nuw i8, %s"
PLAIN = "  %s = getelementptr i8, %s"
SLICE = " = alloca [16 x i8], align 8"
COPIES = ("  call void @llvm.memmove", "  call void @llvm.memset")


def mark_addresses(function: Function) -> None:
    """Marks the addresses that lie inside, and no others; those at a number only in lists at which a stop had looked."""
    if not any(ADDRESS.match(line.text) or function.asked and FIELD.match(line.text) for line in function.lines()):
        return
    addresses = Addresses(function)
    for block in function.blocks:
        block.lines = [Line(addresses.marked(line.text)) for line in block.lines]


class Addresses:
    """How the addresses of a function are used."""

    def __init__(self, function: Function) -> None:
        self.uses, self.asked = function.uses(), function.asked
        self.is_of_slots = '@"core::slots::' in function.head
        slices = {line.register for line in function.lines() if line.text.endswith(SLICE)}
        self.of_slices = {line.register for line in function.lines() if line.loads_reference() and slices & set(line.uses)}

    def marked(self, text: str) -> str:
        """A line as a proved build has it."""
        address, field = ADDRESS.match(text), FIELD.match(text)
        if address:
            return (MARKED if self.is_inside(address.group(1)) else PLAIN) % address.group(1, 2)
        if field and self.was_asked(field.group(1), field.group(3)) and self.is_inside(field.group(1)):
            return MARKED % field.group(1, 2)
        return text

    def is_inside(self, address: str) -> bool:
        """Whether it is kept in locals alone, and only read and written by what is loaded from these."""
        return all(self.is_only_accessed(kept.stores(address), kept) for kept in self.uses[address])

    def is_only_accessed(self, local: str, kept: Line) -> bool:
        """Whether a local that a line has written is only loaded elsewhere, to read and write there."""
        loads = [line for line in self.uses[local] if line is not kept] if local else []
        return bool(loads) and all(line.word == "load" and self.are_accesses(line.register) for line in loads)

    def are_accesses(self, register: str) -> bool:
        """Whether it is used, and only to read and write there; a reference that is read there may be followed at once, as the place of what it refers
        to, but not that of a slot."""
        uses = self.uses[register]
        is_followed = not self.is_of_slots and all(line.loads_reference() for line in uses)
        return bool(uses) and not is_followed and all(self.is_access(line, register) for line in uses)

    def is_access(self, line: Line, register: str) -> bool:
        field = FIELD.match(line.text)
        if field and field.group(3) == register:
            return self.are_accesses(field.group(1))
        return line.word == "load" or line.stores_to(register) or line.text.startswith(COPIES)

    def was_asked(self, address: str, base: str) -> bool:
        """Whether it is of a list, and a stop had looked at the local in which it is kept."""
        return base in self.of_slices and any(line.stores(address) and self.asked & set(line.uses) for line in self.uses[address])
