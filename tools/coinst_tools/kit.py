"""The crates of the repository, and the Rattle kit that they are built with."""

from __future__ import annotations

import os
import subprocess
import sys

from .built import BUILT, NOT_BUILT, TOP, leave


def crates() -> dict[str, list[str]]:
    """Each crate of the repository with those that it names."""
    with open(os.path.join(TOP, "crates.txt"), encoding="utf-8") as file:
        lines = [line.split("#")[0].partition(":") for line in file]
    return {name.strip(): below.split() for name, colon, below in lines if colon}


def below(name: str, own: dict[str, list[str]]) -> dict[str, bool]:
    """A crate after all crates of the repository that it stands on, each after those that it names."""
    found: dict[str, bool] = {}
    for other in own[name]:
        found.update(below(other, own) if other in own else {})
    return {**found, name: True}


def asked_of_kit(word: str) -> str:
    """What `rt` says to a word, in one line; nothing if `rt` is not there."""
    try:
        return subprocess.run(["rt", word], stdin=subprocess.DEVNULL, capture_output=True, text=True, check=True).stdout.strip()
    except (OSError, subprocess.CalledProcessError):
        return ""


def kit_name() -> str:
    """The name of the kit and the sum of its logic, or nothing if `rt` is not there."""
    return asked_of_kit("version")


def kit_folder() -> str:
    """Where the kit is; ends the script if `rt` is not on the path."""
    page = asked_of_kit("doc").partition("\n")[0]
    if not page:
        leave(NOT_BUILT, "no `rt` is on the path: the Rattle kit is needed, and `rt version` prints its name")
    return os.path.dirname(page)


def compiled() -> str:
    """The program of these sources, compiled if need be; if the script is ended meanwhile, it waits until tools/compile has taken its folder away."""
    with subprocess.Popen([os.path.join(TOP, "tools", "compile")]) as running:
        try:
            status = running.wait()
        except BaseException:
            running.terminate()
            running.wait()
            raise
    if status:
        sys.exit(status)
    return BUILT


def library_words(name: str, uses: list[str], folder: str) -> list[str]:
    """The words that hand the kit's programs a library as its source."""
    return ["--lib", "%s:%s=%s" % (name, ",".join(dict.fromkeys(["core", "std", *uses])), os.path.join(folder, name, "src", "lib.rt"))]
