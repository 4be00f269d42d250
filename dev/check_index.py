#!/usr/bin/env python3
"""Checks our order of versions against dpkg's, on every version of a Packages index.

    dev/check_index.py INDEX [PROGRAM]

PROGRAM is the built program `tool_versions` (run `rt run` in crates/tool_versions once). The versions are those of
the Version fields and those in relation fields. Each is compared with itself, with its two neighbours in the order of
plain text, which begin alike, and with two others drawn by a fixed seed. Ends with status 1 where an answer differs.
"""

import os
import random
import re
import subprocess
import sys

sys.dont_write_bytecode = True
sys.path.insert(1, os.path.join(os.path.dirname(os.path.realpath(__file__)), "..", "tools"))
import dpkg
from coinst_tools.built import HERE, require
from coinst_tools.command import parser_of, run
from coinst_tools.debian_index import FIELD, packages_of

RELATIONS = {"pre-depends", "depends", "conflicts", "breaks", "provides", "recommends", "suggests", "enhances", "replaces"}
RESTRICTION = re.compile(r"\(\s*(?:<<|<=|=|>=|>>|<|>)\s*([^\s)]+)\s*\)")


def versions_of(path):
    found = set()
    for package in packages_of(path):
        for field, value in package.fields(FIELD).items():
            found.update([value] if field == "version" else RESTRICTION.findall(value) if field in RELATIONS else ())
    return sorted(found)


def pairs_of(versions):
    draw = random.Random(1)
    for place, version in enumerate(versions):
        yield version, version
        for other in versions[place + 1 : place + 3] + draw.sample(versions, min(2, len(versions))):
            yield (version, other) if draw.random() < 0.5 else (other, version)


def main():
    parser = parser_of(__doc__)
    parser.add_argument("index")
    parser.add_argument("program", nargs="?", default=os.path.join(HERE, "..", "crates", "tool_versions", "out", "tool_versions"))
    words = parser.parse_args()
    require(words.program, "`rt run` in its crate's folder builds it")
    versions = versions_of(words.index)
    pairs = list(pairs_of(versions))
    lines = "".join(f"{left} {right}\n" for left, right in pairs)
    ours = subprocess.run([words.program], input=lines, capture_output=True, text=True, errors="surrogateescape", check=True).stdout.split()
    if len(ours) != len(pairs):
        sys.exit(f"{len(pairs)} pairs and {len(ours)} answers")
    differences = 0
    for (left, right), sign in zip(pairs, ours):
        try:
            theirs = dpkg.sign(left, right)
        except dpkg.Refused as refusal:
            theirs = str(refusal)
        if sign != theirs:
            differences += 1
            print(f"{left} {sign} {right}, and dpkg: {theirs}")
    print(f"{len(versions)} versions, {len(pairs)} pairs, {differences} differences")
    return 1 if differences else 0


if __name__ == "__main__":
    run(main)
