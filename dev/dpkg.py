"""What dpkg says of versions."""

import subprocess


class Refused(Exception):
    """dpkg takes one of the two texts for no version, or warns of it."""


def _holds(left, relation, right):
    done = subprocess.run(
        ["dpkg", "--compare-versions", "--", left, relation, right],
        stdin=subprocess.DEVNULL,
        capture_output=True,
        text=True,
    )
    if done.returncode not in (0, 1) or done.stderr:
        raise Refused(done.stderr.strip())
    return done.returncode == 0


def sign(left, right):
    """The sign between two versions: `<`, `=` or `>`."""
    if _holds(left, "lt", right):
        return "<"
    return "=" if _holds(left, "eq", right) else ">"
