"""Reads a case: one text file with the words, the files and what is wanted. `conformance/run` tells its form."""

from __future__ import annotations

import dataclasses
import os
import shlex
import sys
import typing

sys.path.insert(0, os.path.join(os.path.dirname(os.path.realpath(__file__)), "..", "tools"))
from coinst_tools.built import chosen


@dataclasses.dataclass
class Case:
    """The words, the files that lie there, and what is wanted."""

    status: int | None = None
    stdout: str | None = None
    words: list[str] = dataclasses.field(default_factory=list)
    each: list[list[str]] = dataclasses.field(default_factory=list)
    files: dict[str, bytes] = dataclasses.field(default_factory=dict)
    programs: list[str] = dataclasses.field(default_factory=list)
    folders: list[str] = dataclasses.field(default_factory=list)
    made: dict[str, bytes] = dataclasses.field(default_factory=dict)
    out: bytes = b""
    err: bytes = b""


Got = typing.Tuple[int, bytes, bytes]  # status and outputs


def section_bytes(lines: list[str], how: str) -> bytes:
    text = "".join(lines)
    if how == "escaped":
        return "".join(line.rstrip("\n") for line in lines).encode("utf-8").decode("unicode_escape").encode("latin-1")
    data = text.encode("utf-8")
    return data[:-1] if how == "no last line feed" else data


def take_section(case: Case, path: str, header: str, lines: list[str]) -> None:
    """Puts the lines of a section where its header says."""
    what, _, how = header.partition(" | ")
    kind, _, name = what.partition(" ")
    if kind == "words":
        case.words = [line.rstrip("\n") for line in lines]
    elif kind == "each":
        case.each = [shlex.split(line) for line in lines]
    elif kind == "file":
        case.files[name] = section_bytes(lines, how)
        case.programs += [name] * (how == "program")
    elif kind == "folder":
        case.folders.append(name)
    elif kind == "made":
        case.made[name] = section_bytes(lines, how)
    elif kind == "out":
        case.out = section_bytes(lines, how)
    elif kind == "err":
        case.err = section_bytes(lines, how)
    else:
        raise SystemExit("%s: no section is called %s" % (path, what))


def take_setting(case: Case, path: str, line: str) -> None:
    """Takes a line that stands before the sections."""
    if line.startswith("status "):
        case.status = int(line.split()[1])
    elif line.startswith("stdout "):
        case.stdout = line.split()[1]
    elif line.strip() and not line.startswith("#"):
        raise SystemExit("%s: what is this line: %s" % (path, line))


def read_case(path: str) -> Case:
    case = Case()
    sections: list[tuple[str, list[str]]] = []
    with open(path, encoding="utf-8", newline="\n") as source:
        for line in source:
            if line.startswith("=== "):
                sections.append((line[4:].rstrip("\n"), []))
            elif sections:
                sections[-1][1].append(line)
            else:
                take_setting(case, path, line)
    for header, lines in sections:
        take_section(case, path, header, lines)
    return case


def place_files(case: Case, where: str) -> None:
    """Lays the files and folders of a case in a folder."""
    for name, data in case.files.items():
        with open(os.path.join(where, name), "wb") as file:
            file.write(data)
    for name in case.programs:
        os.chmod(os.path.join(where, name), 0o755)
    for name in case.folders:
        os.mkdir(os.path.join(where, name))


def names_of_cases(folder: str, names: list[str]) -> list[str]:
    """The names of the cases, or of all in the folder."""
    return chosen(names, sorted(os.path.splitext(name)[0] for name in os.listdir(folder) if name.endswith(".case")), "case")


def try_cases(folder: str, names: list[str], run_case: typing.Callable[[Case], Got]) -> int:
    """Runs cases and prints what differs, and a last line; the status."""
    names, failed = names_of_cases(folder, names), 0
    for name in names:
        case, differs = read_case(os.path.join(folder, name + ".case")), False
        wanted = (case.status, case.out, case.err)
        for words in case.each or [case.words]:
            got = run_case(dataclasses.replace(case, words=words))
            if got != wanted:
                differs = True
                print("%s: %s\n  wanted %r\n  got    %r" % (name, shlex.join(words), wanted, got))
        failed += differs
    print("%d passed, %d failed" % (len(names) - failed, failed))
    return 1 if failed or not names else 0
