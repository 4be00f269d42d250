#!/usr/bin/env python3
"""Writes what a refused query rests on in the form that solvers of propositional formulas read.

    tools/log_to_dimacs.py KERNEL REPORT FOLDER GOAL..

KERNEL is what `coinst kernel INDEX` printed, REPORT what `coinst query INDEX GOAL..` printed with status 1, and the goals are
those of the query. Class N of the kernel is variable N + 1. FOLDER, which is made, gets

    formula.cnf      the clauses of the kernel, its conflicts and the goals, in DIMACS
    proof.rup        the log, an entry a line: a proof by reverse unit propagation, as checkers of DRAT proofs read it
    step-0001.cnf    and so on, for each entry of the log: the formula, the entries before it, and the negated literals of the
                     entry. Each must be refuted by unit propagation alone: `cadical -q -n -d 0 step-0001.cnf` decides
                     nothing, and ends with status 20.

The status is 0, or 2 if the report is no refusal, or a file cannot be read.
"""

from __future__ import annotations

import sys

sys.dont_write_bytecode = True
from coinst_tools.quiet import until_run

until_run()
import argparse
import os
import typing

from coinst_tools.command import parser_of, run
from coinst_tools.debian_index import version_key


Clause = typing.List[int]  # literals, as DIMACS has them


class Member(typing.NamedTuple):
    """A package of a class."""

    at: int
    name: str
    version: str


class Kernel(typing.NamedTuple):
    """The classes of a kernel: how many, their members, and the clauses."""

    classes: int
    members: list[Member]
    clauses: list[Clause]


def read_kernel(path: str) -> Kernel:
    members: list[Member] = []
    clauses: list[Clause] = []
    conflicts: list[Clause] = []
    at = -1
    with open(path, encoding="utf-8", errors="surrogateescape") as kernel:
        for line in kernel:
            word, *rest = line.split()
            if word == "class":
                at = int(rest[0])
            elif word == "member":
                members.append(Member(at, rest[0], rest[1]))
            elif word == "needs":
                clauses.append([-(at + 1)] + [int(n) + 1 for n in rest])
            elif word == "against":
                conflicts.append([-(at + 1), -(int(rest[0]) + 1)])
    return Kernel(at + 1, members, clauses + conflicts)


def clause_of(goal: str, members: list[Member]) -> Clause:
    """The classes of the packages that the goal names."""
    name, equals, version = goal.partition("=")
    named = [member for member in members if member.name == name]
    return sorted({member.at + 1 for member in named if not equals or version_key(member.version) == version_key(version)})


def read_log(path: str) -> list[Clause] | None:
    """The entries of a log; None if the report is no refusal."""
    with open(path, encoding="utf-8") as report:
        lines = report.read().splitlines()
    if not lines or lines[0] != "no":
        return None
    entries: list[Clause] = []
    for line in lines[1:]:
        word, *literals = line.split()
        assert word == "log", line
        entries.append([int(literal[0] + "1") * (int(literal[1:]) + 1) for literal in literals])
    return entries


def write_formula(path: str, variables: int, clauses: list[Clause]) -> None:
    with open(path, "w", encoding="ascii") as out:
        out.write("p cnf %d %d\n" % (variables, len(clauses)))
        for clause in clauses:
            out.write(" ".join(map(str, clause + [0])) + "\n")


def words_of() -> argparse.Namespace:
    parser = parser_of(__doc__)
    for name in ("kernel", "report", "folder"):
        parser.add_argument(name)
    parser.add_argument("goals", metavar="GOAL", nargs="+")
    return parser.parse_args()


def main() -> int:
    words = words_of()
    folder, kernel = words.folder, read_kernel(words.kernel)
    formula = [clause_of(goal, kernel.members) for goal in words.goals] + kernel.clauses
    entries = read_log(words.report)
    if entries is None:
        print("%s is no refusal" % words.report, file=sys.stderr)
        return 2
    os.makedirs(folder, exist_ok=True)
    write_formula(os.path.join(folder, "formula.cnf"), kernel.classes, formula)
    with open(os.path.join(folder, "proof.rup"), "w", encoding="ascii") as out:
        for entry in entries:
            out.write(" ".join(map(str, entry + [0])) + "\n")
    for place, entry in enumerate(entries):
        negated = [[-literal] for literal in entry]
        write_formula(os.path.join(folder, "step-%04d.cnf" % (place + 1)), kernel.classes, formula + entries[:place] + negated)
    print("%d classes, %d clauses, %d entries" % (kernel.classes, len(formula), len(entries)))
    return 0


if __name__ == "__main__":
    run(main)
