"""Why several conflicts hold a line: a proof by cases, as tools/why_not prints it, and checked before it is printed."""

from __future__ import annotations

from collections.abc import Sequence

from check_refutation import Facts, check

from .broken_records import Line, Proof
from .debian_index import Index
from .older import Older
from .refutation_picture import dot
from .refutation_search import Pair
from .refutation_text import text
from .refute import refutation

STEPS = 60_000  # of the search for a short proof: a fifth of what tools/why_not takes, and a tenth of a second
WIDTH = 72


def proof_of(old: Index, new: Index, line: Line, clashes: Sequence[Pair], part: str) -> Proof | None:
    """The proof in words and as a picture, or None if none is found; `part` is a file with all that the line reaches.

    A proof that tools/check_refutation.py does not accept is a fault of the script.
    """
    found = refutation(new, line, clashes, STEPS)
    if found is None:
        return None
    check(Facts(part), found.json(), list(line))
    older = Older(old)
    return Proof(text(new, found, None, False, WIDTH, older).splitlines(), dot(new, found, older))
