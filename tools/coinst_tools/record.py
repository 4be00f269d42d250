"""The file PROVED: which program was proved, of which sources, with which kit. And which program was proved on this machine."""

from __future__ import annotations

import dataclasses
import hashlib
import os
from collections.abc import Iterator

from .built import TOP
from .kit import below, crates

ROOT = "coinst_cli"
RECORD = os.path.join(TOP, "PROVED")
# What `rt run` and `rt ci` build, after all proofs; and the sum of the one that ./prove has built here.
FROM_PROOFS = os.path.join(TOP, "crates", ROOT, "out", ROOT)
PROVED_HERE = os.path.join(TOP, "out", "proved-here")
CODE, ALL = ("src",), ("src", "specs", "proofs")
HEAD = "# What was proved. tools/proved writes this file, and .ci/run fails if what it has proved is anything else.\n"
WORDS = ("kit", "sources", "program")


def sum_of_file(path: str) -> str:
    with open(path, "rb") as file:
        return hashlib.sha256(file.read()).hexdigest()


def sum_of_files(paths: list[str]) -> str:
    """A sum of files by their names in the repository and their bytes."""
    mark = hashlib.sha256()
    for path in sorted(paths):
        mark.update(("%s  %s\n" % (sum_of_file(path), os.path.relpath(path, TOP))).encode())
    return mark.hexdigest()


def files_below(folder: str, endings: tuple[str, ...]) -> Iterator[str]:
    for at, _, files in os.walk(folder):
        yield from (os.path.join(at, file) for file in files if file.endswith(endings))


def sum_of_sources(parts: tuple[str, ...] = ALL) -> str:
    """A sum of all that the program and its proofs are made of, or of some parts of each crate."""
    paths = [os.path.join(TOP, name) for name in ("crates.txt", "HANDLES")]
    for name in below(ROOT, crates()):
        for part in parts:
            paths += files_below(os.path.join(TOP, "crates", name, part), (".rt", ".antt"))
    return sum_of_files(paths)


@dataclasses.dataclass
class Record:
    """What PROVED says; a word that it lacks is empty. `lines` is a sum of the others, so that a slip of the hand is seen before any program is there."""

    kit: str = ""
    sources: str = ""
    program: str = ""
    lines: str = ""

    def word(self, name: str) -> str:
        return str(getattr(self, name))

    def sum(self) -> str:
        """What `lines` has to be."""
        return hashlib.sha256("".join("%s %s\n" % (word, self.word(word)) for word in WORDS).encode()).hexdigest()


def recorded() -> Record:
    """What PROVED says; nothing if it is not there or no such file."""
    try:
        with open(RECORD, encoding="ascii") as file:
            return Record(**dict(line.strip().split(" ", 1) for line in file if not line.startswith("#")))
    except (OSError, ValueError, TypeError):
        return Record()


def write_whole(path: str, text: str) -> None:
    """Writes a file so that it is there as a whole, or as it was."""
    part = path + ".part"
    with open(part, "w", encoding="ascii") as file:
        file.write(text)
    os.replace(part, path)


def record(found: Record) -> None:
    """Writes PROVED."""
    lines = ["%s %s\n" % (word, found.word(word)) for word in WORDS] + ["lines %s\n" % found.sum()]
    write_whole(RECORD, HEAD + "".join(lines))


def is_proved(program: str) -> bool:
    """Whether the bytes of a program are those that PROVED names, or those that ./prove has built here."""
    try:
        with open(PROVED_HERE, encoding="ascii") as file:
            here = file.read().strip()
    except OSError:
        here = ""
    return sum_of_file(program) in (recorded().program, here)
