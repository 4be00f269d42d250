"""Refutations are told only after tools/check_refutation.py, which reads the index by itself meanwhile, has accepted them."""

from __future__ import annotations

import json
import os
import subprocess
import sys
import typing

from .built import HERE
from .debian_index import TEXT


class NotAccepted(Exception):
    """What the checker said of a refutation: a fault of the script that made it."""


class Checker:
    """The checker as a program of its own; it ends with the block."""

    def __init__(self, path: str, goals: typing.Sequence[str]) -> None:
        command = [sys.executable, os.path.join(HERE, "check_refutation.py"), path, "/dev/stdin", *goals]
        self.process = subprocess.Popen(command, stdin=subprocess.PIPE, stdout=subprocess.PIPE, stderr=subprocess.PIPE, **TEXT)

    def __enter__(self) -> Checker:
        return self

    def __exit__(self, *fault: object) -> None:
        if self.process.poll() is None:
            self.process.kill()
            self.process.communicate()

    def check(self, tree: dict[str, typing.Any]) -> None:
        """Raises NotAccepted if the checker does not accept the tree."""
        out, fault = self.process.communicate(json.dumps(tree))
        if self.process.returncode or out != "accepted\n":
            raise NotAccepted("a refutation was found and not accepted, which is a fault of this script: %s" % (fault.strip().splitlines() or [""])[-1])
