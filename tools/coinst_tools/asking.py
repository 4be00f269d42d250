"""How scripts ask the program about goals: meanwhile, of the part of an index that the goals reach, and with what users mistype."""

from __future__ import annotations

import dataclasses
import difflib
import os
import subprocess
import sys
import typing

from .built import NOT_BUILT, say
from .command import BadWords, Program
from .debian_index import TEXT, BadIndex, Index
from .index_part import reached
from .inputs import shown

FAULT, LIMIT, UNKNOWN = 3, 4, 9  # statuses of the program
HELD = ("--clause-limit", "400", "--hold")  # no dependency list of Debian is longer
SEVERAL = 10  # if one name in so many has several versions, the index is of several suites
LARGE = 20_000  # packages of an index that is looked at so
Lines = typing.List[typing.List[str]]


class Question:
    """A question that the program answers meanwhile; it ends with the block."""

    def __init__(
        self, program: Program, what: str, words: typing.Sequence[str], options: typing.Sequence[str] = (), out: typing.IO[bytes] | None = None
    ) -> None:
        command = [program.path, what, *program.options_of(what), *options, "--", *words]
        self.process = subprocess.Popen(command, stdin=subprocess.DEVNULL, stdout=out or subprocess.PIPE, stderr=subprocess.PIPE, **TEXT)

    def __enter__(self) -> Question:
        return self

    def __exit__(self, *fault: object) -> None:
        if self.process.poll() is None:
            self.process.kill()
            self.process.communicate()

    def answer(self, also: typing.Container[int] = ()) -> tuple[int, Lines]:
        """The status, 0, 1, 8 or one of `also`, and the lines in words; at any other status the script ends as the program did."""
        out, fault = self.process.communicate()
        status = self.process.returncode
        if status not in (0, 1, 8) and status not in also:
            sys.stderr.write(shown(fault))
            sys.exit(status if status > 0 else NOT_BUILT)
        return status, [line.split() for line in (out or "").splitlines()]


@dataclasses.dataclass
class Answer:
    """What the program said of goals; `path` is the file that was asked, and `options` those that it took for that."""

    index: Index
    status: int
    lines: Lines
    path: str
    options: tuple[str, ...] = ()


def near(name: str, names: typing.Collection[str]) -> list[str]:
    """Up to three names that are like one."""
    alike = [other for other in names if abs(len(other) - len(name)) <= 2]
    found = difflib.get_close_matches(name, alike, 3, 0.75)
    return found or sorted(other for other in names if len(name) > 2 and other.startswith(name))[:3]


def leave_unknown(goal: str, named: typing.Mapping[str, typing.Sequence[typing.Any]]) -> typing.NoReturn:
    """Ends the script at a goal that names no package."""
    name, equals, version = goal.partition("=")
    if equals and named.get(name):
        say("no package %s of version %s; there is %s" % (name, version, ", ".join(p.version for p in named[name])))
    else:
        found = near(name, named)
        say("no package %s" % name + ("; near: %s" % ", ".join(found) if found else ""))
    sys.exit(UNKNOWN)


def check_goals(index: Index, goals: typing.Iterable[str]) -> None:
    """Ends the script at the first goal that names no package."""
    for goal in goals:
        if not index.goal(goal):
            leave_unknown(goal, index.named)


def check_order(path: str, goals: typing.Iterable[str]) -> None:
    """Says so if a goal is put before the index."""
    if path != "-" and not os.path.exists(path):
        for goal in goals:
            if os.path.isfile(goal):
                raise BadWords("%s is no file, but %s is one: the index comes before the goals" % (path, goal))


def is_of_several_suites(index: Index) -> bool:
    """Whether many names have several versions; the kernel of such an index mostly passes the clause limit."""
    return len(index.packages) > LARGE and SEVERAL * sum(len(packages) > 1 for packages in index.named.values()) > len(index.named)


def write_part(index: Index, goals: typing.Sequence[str], folder: str) -> tuple[str, int]:
    """Writes what goals reach into a file of the folder, and says how many packages that are."""
    packages = reached(index, goals)
    path = os.path.join(folder, "part-" + os.path.basename(index.path))
    with open(path, "wb") as file:
        for package in packages:
            file.write(package.raw() + b"\n\n")
    return path, len(packages)


def read_beside(path: str, question: Question) -> Index:
    """The index, read while the program looks at it too; what is wrong with it is the program's to tell."""
    try:
        return Index(path)
    except BadIndex:
        question.answer()
        raise


def ask_goals(program: Program, what: str, path: str, goals: typing.Sequence[str], folder: str) -> Answer:
    """Asks the index, or the part that the goals reach if the index passes the clause limit."""
    with Question(program, what, [path, *goals]) as question:
        index = read_beside(path, question)
        is_large = is_of_several_suites(index) and not {"--hold", "--clause-limit"} & set(program.options)
        if not is_large:
            status, lines = question.answer((LIMIT, UNKNOWN))
            if status not in (LIMIT, UNKNOWN):
                return Answer(index, status, lines, path)
    check_goals(index, goals)
    why = "many of its names have several versions" if is_large else "it passes the clause limit"
    return ask_part(program, what, index, goals, folder, why)


def tell_fault(program: Program, path: str, goals: typing.Sequence[str]) -> None:
    """Ends the script with what the program says of an index whose part it refused: only so the line is that of the index."""
    with Question(program, "query", [path, *goals]) as question:
        question.answer((LIMIT,))


def ask_part(program: Program, what: str, index: Index, goals: typing.Sequence[str], folder: str, why: str) -> Answer:
    """Asks what the goals reach, and says so.

    A kernel of several versions of many names can take seconds before it passes the limit, so the part is asked with --hold and a low limit at once.
    """
    part, count = write_part(index, goals, folder)
    options = HELD if not {"--hold", "--clause-limit"} & set(program.options) else ()
    with_them = ", with %s" % " ".join(options) if options else ""
    say("%s: %s, so the %d packages that the goals reach are asked%s" % (shown(index.path), why, count, with_them))
    with Question(program, what, [part, *goals], options) as question:
        status, lines = question.answer((FAULT, LIMIT) if options else (FAULT,))
    if status == FAULT:
        tell_fault(program, index.path, goals)
    if status == LIMIT:
        options = HELD[-1:]
        say("these pass that limit, so they are asked with %s" % " ".join(options))
        with Question(program, what, [part, *goals], options) as question:
            status, lines = question.answer()
    return Answer(index, status, lines, part, options)
