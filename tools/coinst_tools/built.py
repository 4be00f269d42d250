"""Where the program is, and how scripts of tools/, bench/ and conformance/ end if it, or a name, is not there."""

from __future__ import annotations

import difflib
import os
import sys
from collections.abc import Collection
from typing import NoReturn

# This package, the scripts that use it, and the repository.
PACKAGE = os.path.dirname(os.path.realpath(__file__))
HERE = os.path.dirname(PACKAGE)
TOP = os.path.dirname(HERE)
# The program that ./coinst compiles and runs, or the one beside which tools/install put the scripts.
INSTALLED = os.path.join(HERE, "program")
BUILT = INSTALLED if os.path.exists(INSTALLED) else os.path.join(TOP, "out", "coinst")
NOT_BUILT = 70


def say(text: object) -> None:
    print("%s: %s" % (os.path.basename(sys.argv[0]), text), file=sys.stderr, flush=True)


def leave(status: int, text: object) -> NoReturn:
    say(text)
    sys.exit(status)


def require(program: str = BUILT, how: str = "./coinst compiles it, in two minutes") -> None:
    """Ends the script if the program is not there; it never starts a build."""
    if not os.path.isfile(program) or not os.access(program, os.X_OK):
        leave(NOT_BUILT, "no program at %s: %s" % (os.path.relpath(program), how))


def chosen(names: list[str], there: Collection[str], what: str) -> list[str]:
    """The names, or all if none is given; ends the script with status 2 if one is not there."""
    for name in names:
        if name not in there:
            near = [] if len(there) <= 50 else difflib.get_close_matches(name, there, 9, 0.4)
            leave(2, "no %s is called %s; %s: %s" % (what, name, "near to it" if near else "there are", " ".join(near or there)))
    return names or list(there)
