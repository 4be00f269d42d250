#!/usr/bin/env python3
"""Writes what `tool_versions` is run on by the gate, and what it has to answer, by asking dpkg.

    dev/version_pairs.py

Each two versions of a group are compared, in both orders. Where dpkg warns or refuses, the answers stand here. The gate needs no
dpkg.
"""

import itertools
import os
import sys

sys.dont_write_bytecode = True
sys.path.insert(1, os.path.join(os.path.dirname(os.path.realpath(__file__)), "..", "tools"))
import dpkg
from coinst_tools.command import parser_of, run

TARGET = os.path.join(os.path.dirname(os.path.abspath(__file__)), "../crates/tool_versions")

# Groups within which each two versions are compared.
GROUPS = {
    "one after another": "1.0~rc1 1.0 1.0-0 1.0+ 1.9 1.010 1:0.9",
    "what is missing, and what counts as nothing": "1 1.0 1. 1-0 0:1 00:1 01 1.00 1-00 1.0-0 1.0-0.0 0:1.0-0",
    "tildes": "1.0 1.0~ 1.0~~ 1.0~rc1 1.0~~a 1.0~rc1-1 1.0-1~bpo1 1.0-1~bpo10+1 1.0-1",
    "letters and other characters": "1a 1b 1Z 1+ 1. 1~a 1a~ 1a+ 1ab 1.a 1-a",
    "runs of digits": "1.9 1.10 1.010 1.0010 1.9a 1.99999999999999999999 1.100000000000000000000 1.0000000000000000000100000000000000000000",
    "epochs": "0:9 1:0 2:0 10:0 9:99 01:0-0 2147483647:1",
    "revisions and hyphens": "1-1 1-1-1 1-1.1 1-2 1--1 1-1-0 1-9 1-10 1-1+b1",
    "as archives write them": "2.36-9+deb12u4 2.36-9+deb12u10 2.36-9 1:2.36-9 2.36.1-1 20230311 20230311ubuntu0.22.04.1 3.11.2-1+b1 0~20171227.gitab4d "
    "5.10.0-3+deb11u1 9.4.0~1-1 9.4.0-1",
    "long runs and long parts": "1" + "0" * 60 + " 0" + "9" * 60 + " 1" + "0" * 59 + "1 1." + "a1" * 20 + " 1." + "a1" * 19 + "a2 1." + "a01" * 20,
}

# Where the grammar is wider than dpkg's, or dpkg warns: an upstream part that begins with no digit, an epoch of any length, and a colon
# in the upstream part after an epoch.
WIDER = """\
a < b
~1 < 1
+1 > 1
99999999999999999999:0 > 9:1
0099999999999999999999:1 = 99999999999999999999:1-0
1:2:3 < 1:2:4
1:2:3-1 > 1:2:3
"""

# Texts that are no versions; the first is empty.
REFUSED = ["", "1.0-", "-1", "1:", "a:1", ":1", "1:-1", "1:1-", "1-1:1", "1:1-1:1", "1_0", "1-1_", "1/2"]

TURNED = {"<": ">", "=": "=", ">": "<"}


def pairs():
    """Each LEFT, SIGN and RIGHT."""
    for group in GROUPS.values():
        for left, right in itertools.combinations(group.split(), 2):
            yield left, dpkg.sign(left, right), right
    for line in WIDER.splitlines():
        yield tuple(line.split())


def main():
    parser_of(__doc__).parse_args()
    asked, signs = [], []
    for left, sign, right in pairs():
        asked += [f"{left} {right}", f"{right} {left}"]
        signs += [sign, TURNED[sign]]
    for text in REFUSED:
        asked += [f"{text} 1", f"1 {text}"]
        signs += ["?", "?"]
    asked.append("1")
    signs.append("?")
    for name, lines in (("stdin", asked), ("stdout", signs)):
        with open(os.path.join(TARGET, name), "w", encoding="ascii") as out:
            out.writelines(line + "\n" for line in lines)
    print(f"{len(asked)} lines")
    return 0


if __name__ == "__main__":
    run(main)
