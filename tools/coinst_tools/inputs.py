"""Files that users name: plain or compressed, pipes, and `-` for standard input, as plain files for the program."""

from __future__ import annotations

import os
import re
import stat
import tempfile

from .debian_index import PACKED, read_bytes

_shown: dict[str, str] = {}


def is_plain(path: str) -> bool:
    """Whether the program can read a path as it is, or will tell what is wrong with it."""
    if path == "-":
        return False
    try:
        if not stat.S_ISREG(os.stat(path).st_mode):
            return os.path.isdir(path)
        with open(path, "rb") as file:
            return not file.read(8).startswith(tuple(PACKED))
    except OSError:
        return True


def plain(path: str, folder: str) -> str:
    """The path of a plain file with the bytes of a path, decompressed; in the folder if there is none yet."""
    if is_plain(path):
        return path
    data = read_bytes(path)
    own = tempfile.mkdtemp(dir=folder)
    copy = os.path.join(own, re.sub(r"\.(gz|xz|bz2)$", "", os.path.basename(path)))
    with open(copy, "wb") as file:
        file.write(memoryview(data)[1:])
    show_as(copy, path)
    return copy


def show_as(copy: str, path: str) -> None:
    """Has messages about a copy name the path that the user named."""
    if copy != path:
        _shown[copy] = path


def shown(text: str) -> str:
    """A text with the paths that the user named in place of those of copies."""
    for copy, path in _shown.items():
        text = text.replace(copy, path)
    return text
