"""Takes out of a function what `rt try` puts in, and all that only that used: one rule for each thing that it puts in."""

from __future__ import annotations

import re
from collections.abc import Callable

from .function import Block, Choice, Function, Layout
from .lines import Line

# A call that no run comes to, in a block of its own after a choice; it stands for a condition that is proved.
NEVER = '  call void @"core::assertions::unreachable"()'
TRAP = ["  call void @llvm.trap()", "  unreachable"]
# Locals that the code of the stops adds after all others.
ADDED = ("alloca i8, align 1", "alloca i64, align 8")
# A choice of bytes by a vector of places: one instruction for the processor of a proved build, sixteen loads for the older one of `rt try`.
PLACES = re.compile(r"  %[-\w.]+ = and <16 x i8> (%[-\w.]+), splat \(i8 15\)$")
CHOSEN = re.compile(r"  (%[-\w.]+) = select <16 x i1> %[-\w.]+, <16 x i8> %[-\w.]+, <16 x i8> zeroinitializer$")
ELEMENT = re.compile(r"getelementptr i8, ptr (%[-\w.]+),")
VECTOR = re.compile(r"  (%[-\w.]+) = load <16 x i8>, ptr (%[-\w.]+), align 1")
SHUFFLE = "<16 x i8> @llvm.x86.ssse3.pshuf.b.128(<16 x i8>%s, <16 x i8>%s)"
LONGEST = 120

# Whether a choice is none: the label at which it goes on in any case, and the labels of the blocks that go.
Rule = Callable[[Layout, Choice], "tuple[str, set[str]] | None"]


def without_stops(function: Function) -> None:
    """All the rules, one after the other."""
    shuffle_at_once(function)
    take_fillings(function)
    asked = take_stops(function) + [line.register for line in function.lines() if line.is_for_stops()]
    asked_never = undo_choices(function, of_never)
    asked += undo_choices(function, of_nothing)
    unused = Unused(function)
    unused.take(asked)
    unused.take(asked_never, with_locals=False)
    take_added_locals(function)


def take_fillings(function: Function) -> None:
    """Locals to which nothing was written are not filled."""
    function.drop({line for line in function.lines() if line.is_filling()})


def take_stops(function: Function) -> list[str]:
    """The calls that end the program if a proof would have failed; returns what they looked at."""
    stops = [line for line in function.lines() if line.is_stop()]
    function.drop(set(stops))
    return [register for line in stops for register in line.uses]


def shuffle_at_once(function: Function) -> None:
    """One instruction for the loads that choose bytes by places."""
    for block in function.blocks:
        for number, line in enumerate(block.lines):
            places = PLACES.match(line.text)
            if places:
                shuffle_from(block, number, places.group(1))


def shuffle_from(block: Block, start: int, places: str) -> None:
    texts = [line.text for line in block.lines]
    found = ((end, CHOSEN.match(texts[end])) for end in range(start, min(start + LONGEST, len(texts))))
    end, chosen = next(((end, chosen) for end, chosen in found if chosen), (start, None))
    vector = vector_of(texts[:start], texts[start:end])
    if chosen and vector:
        call = SHUFFLE % (" " + vector, " " + places)
        block.lines[start : end + 1] = [Line("  %s = call %s" % (chosen.group(1), call))]


def vector_of(before: list[str], loads: list[str]) -> str:
    """The vector of which the loads take bytes, by the address that it was read from, or nothing."""
    address = next((found.group(1) for found in map(ELEMENT.search, loads) if found), "")
    vectors = [found.group(1) for found in map(VECTOR.match, before) if found and found.group(2) == address]
    return vectors[-1] if vectors else ""


def undo_choices(function: Function, rule: Rule) -> list[str]:
    """Undoes each choice that is none by a rule; returns what the choices asked."""
    asked: list[str] = []
    while undo_first(function, rule, asked):
        pass
    return asked


def undo_first(function: Function, rule: Rule, asked: list[str]) -> bool:
    layout = Layout(function.blocks)
    for block in function.blocks:
        choice = block.choice()
        found = rule(layout, choice) if choice else None
        if choice and found:
            asked.append(choice.asks)
            function.join(block, layout.at[found[0]], found[1])
            return True
    return False


def of_nothing(layout: Layout, choice: Choice) -> tuple[str, set[str]] | None:
    """A choice between two blocks that are empty, and lead to one place to which nothing else leads."""
    place = layout.at[choice.one].only_jump()
    if not place or choice.one == choice.other or layout.at[choice.other].only_jump() != place:
        return None
    are_alone = layout.ways[choice.one] == layout.ways[choice.other] == 1 and layout.ways[place] == 2
    return (place, {choice.one, choice.other, place}) if are_alone else None


def of_never(layout: Layout, choice: Choice) -> tuple[str, set[str]] | None:
    """A choice between a call that no run comes to and an empty block."""
    place, trap = layout.at[choice.other].only_jump(), trap_of(layout, layout.at[choice.one])
    if not place or not trap or not layout.ways[place] == layout.ways[choice.other] == layout.ways[choice.one] == 1:
        return None
    gone = {choice.one, choice.other, place} | ({trap} if layout.ways[trap] == 1 else set())
    return place, gone


def trap_of(layout: Layout, block: Block) -> str:
    """The label of the trap to which the call that no run comes to leads, or nothing."""
    is_never = len(block.lines) == 2 and block.lines[0].text == NEVER
    trap = block.jump() if is_never else ""
    return trap if trap and [line.text for line in layout.at[trap].lines] == TRAP else ""


class Unused:
    """What computed registers that are not wanted any more, as far as nothing else uses it."""

    def __init__(self, function: Function) -> None:
        self.function, self.uses = function, function.uses()
        self.made = {line.register: line for line in function.lines() if line.register}
        self.gone: set[Line] = set()

    def take(self, unwanted: list[str], with_locals: bool = True) -> None:
        """Takes it out; with the locals also those that are only written."""
        self.unwanted = list(unwanted)
        while self.unwanted:
            line = self.made.get(self.unwanted.pop())
            if line and line not in self.gone:
                self.try_line(line, with_locals)
        self.function.drop(self.gone)

    def try_line(self, line: Line, with_locals: bool) -> None:
        uses = self.uses[line.register]
        if line.word == "alloca":
            if with_locals and all(use.writes(line.register) for use in uses):
                for use in list(uses):
                    self.take_line(use)
                self.gone.add(line)
        elif not uses and line.has_no_effect():
            self.take_line(line)

    def take_line(self, line: Line) -> None:
        self.gone.add(line)
        if line.loads_reference():
            self.function.asked.update(line.uses)
        for register in line.uses:
            self.uses[register] = [use for use in self.uses[register] if use is not line]
            self.unwanted.append(register)


def take_added_locals(function: Function) -> None:
    """The last locals, as far as nothing uses them any more."""
    uses, gone = function.uses(), set()
    for line in reversed([line for line in function.blocks[0].lines if line.word == "alloca"]):
        if uses[line.register] or line.text.partition(" = ")[2] not in ADDED:
            break
        gone.add(line)
    function.drop(gone)
