#!/usr/bin/env python3
"""Counts the packages of an index with a dependency that nothing satisfies, straight from its text.

    dev/count_unmet.py INDEX

It shares no code with the program, whose count `bench/suite INDEX` prints; it reads by tools/coinst_tools/debian_index.py, as other scripts do.
"""

import os
import sys

sys.dont_write_bytecode = True
sys.path.insert(1, os.path.join(os.path.dirname(os.path.realpath(__file__)), "..", "tools"))
from coinst_tools.command import parser_of, run
from coinst_tools.debian_index import Index


def main():
    parser = parser_of(__doc__)
    parser.add_argument("index")
    index = Index(parser.parse_args().index)
    unmet = sum(not all(map(index.meeting, package.needs)) for package in index.packages)
    print("%d packages, %d with a dependency that nothing satisfies" % (len(index.packages), unmet))
    return 0


if __name__ == "__main__":
    run(main)
