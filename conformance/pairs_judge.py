"""What names of an index can never be installed, and which two never together, judged by Debian's coinst.

Debian's coinst drops the versions of Provides, so thousands of packages of a suite lack something in its eyes. Here it reads a plain index: each
package has a number for its name, and its needs and conflicts name the numbers that meet them, as stanza_judge.py reads the stanzas.
So what meets what is found there, and what can be together is found by Debian's coinst.
"""
import collections
import itertools
import json
import os
import re
import subprocess

SIGN, SECONDS = "-conflict-pairs-only", 600
NUMBER = re.compile(r"p(\d+) \(= 1\)")


def debian_coinst():
    """The path of Debian's coinst, or None; the program of this repository may be there by the same name."""
    for folder in os.get_exec_path():
        path = os.path.join(folder, "coinst")
        if os.access(path, os.X_OK) and os.path.isfile(path):
            told = subprocess.run([path, "-help"], stdin=subprocess.DEVNULL, capture_output=True, text=True, timeout=60)
            if SIGN in told.stdout + told.stderr:
                return path
    return None


def write_plain(judge, path):
    """The packages as p0, p1 and so on, without versions that count and without provides."""
    numbers = {package: "p%d" % number for number, package in enumerate(judge.packages)}
    against = collections.defaultdict(list)
    for one, other in judge.conflicts(numbers):
        against[one].append(numbers[other])
    with open(path, "w", encoding="ascii") as out:
        for package, number in numbers.items():
            needs = [" | ".join(numbers[other] for other in judge.meeting(element)) or "nobody" for element in package.needs]
            fields = ["Package: " + number, "Version: 1"] + ["Depends: " + ", ".join(needs)] * bool(needs)
            out.write("\n".join(fields + ["Conflicts: " + ", ".join(against[package])] * bool(against[package])) + "\n\n")


def dead_of(text):
    """The numbers of the packages that can never be installed: the report has one of each class, and all members of each above."""
    parts = re.split(r"^([A-Z][A-Z -]+)(?: \(\d+\))?\n=+\n", text, flags=re.M)
    sections = dict(zip(parts[1::2], parts[2::2]))
    classes = [list(map(int, NUMBER.findall(line))) for line in sections["EQUIVALENCE CLASSES"].splitlines() if line]
    members = {numbers[0]: set(numbers) for numbers in classes}
    return set().union(*(members[int(number)] for number in NUMBER.findall(sections.get("NON-INSTALLABLE PACKAGES", ""))))


def pairs_of(told):
    """The pairs of numbers that can never be installed together."""
    members = {first: [int(member[1:]) for member in rest] for first, rest in told["classes"]}
    found = set()
    for one, other in told["incompatibilities"]:
        found.update((min(pair), max(pair)) for pair in itertools.product(members[one], members[other]))
    return found


def broken_by_coinst(program, judge, where):
    """The names of which no package can be installed, and the pairs of others of which no two packages can be together: tuples of names.

    None if it takes too long: it has no limit on clauses, and a suite with its security archive has very many.
    """
    plain, pairs = os.path.join(where, "plain"), os.path.join(where, "pairs")
    write_plain(judge, plain)
    words = [program, SIGN, "-conflicts", pairs, "-o", os.devnull, plain]
    try:
        done = subprocess.run(words, stdin=subprocess.DEVNULL, stdout=subprocess.PIPE, stderr=subprocess.DEVNULL, text=True, check=True, timeout=SECONDS)
    except subprocess.TimeoutExpired:
        return None
    with open(pairs, encoding="ascii") as file:
        told = json.load(file)
    dead = dead_of(done.stdout)
    alive = collections.Counter(package.name for number, package in enumerate(judge.packages) if number not in dead)
    apart = collections.Counter()
    for one, other in pairs_of(told):
        apart[tuple(sorted((judge.packages[one].name, judge.packages[other].name)))] += 1
    lost = {names for names, count in apart.items() if names[0] != names[1] and count == alive[names[0]] * alive[names[1]]}
    return {(name,) for name in judge.named if not alive[name]} | lost
