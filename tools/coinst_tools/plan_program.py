"""The program as a plan asks it, and the files that it is asked about."""

from __future__ import annotations

import functools
import hashlib
import os
import subprocess
from collections.abc import Sequence

from .command import Program

Line = tuple[str, ...]


class Refused(Exception):
    """That a program ended with another status than that of an answer, with what it said."""

    def __init__(self, status: int, text: str) -> None:
        super().__init__(status, text)
        self.status, self.text = status, text


class Coinst:
    """The program, asked with the same options; the files of one architecture stand in its folder."""

    def __init__(self, path: str, options: Sequence[str], folder: str) -> None:
        self.path, self.options, self.folder = path, tuple(options), folder

    @functools.cached_property
    def digest(self) -> str:
        return self.digest_of(self.path)

    @staticmethod
    def digest_of(path: str) -> str:
        with open(path, "rb") as file:
            return hashlib.file_digest(file, "sha256").hexdigest()

    def place(self, name: str) -> str:
        return os.path.join(self.folder, name)

    def write(self, name: str, text: str) -> str:
        """Puts a text into a file, and says where it is."""
        with open(self.place(name), "w", encoding="utf-8", errors="surrogateescape") as file:
            file.write(text)
        return self.place(name)

    def keep(self, name: str, words: Sequence[str]) -> str:
        """Puts what another program prints into a file, and says where it is."""
        with open(self.place(name), "wb") as file:
            done = subprocess.run(words, stdin=subprocess.DEVNULL, stdout=file, stderr=subprocess.PIPE)
        if done.returncode:
            raise Refused(70, done.stderr.decode("utf-8", "surrogateescape"))
        return self.place(name)

    def ask(self, command: str, paths: Sequence[str], goals: Sequence[str] = (), more: Sequence[str] = ()) -> list[Line]:
        """The lines of a report in words."""
        words = [self.path, command, *Program(self.path, self.options).options_of(command), *more, "--", *paths, *goals]
        done = subprocess.run(words, stdin=subprocess.DEVNULL, capture_output=True, encoding="utf-8", errors="surrogateescape")
        if done.returncode not in (0, 1, 8):
            raise Refused(done.returncode if done.returncode > 0 else 70, done.stderr)
        return [tuple(line.split()) for line in done.stdout.splitlines()]
