"""What the scripts share: how they ask the program, what they say, and how they end.

A script that ends by BadWords, BadIndex or a file that it cannot open says so in one line, with status 2; a pipe that is closed ends it
in silence; SIGTERM and Ctrl-C end it as an exit does, so that no folder stays; any other fault of a script ends it with status 70.
"""

from __future__ import annotations

import argparse
import io
import os
import re
import shutil
import signal
import subprocess
import sys
import time
import traceback
import typing

from .built import BUILT, NOT_BUILT, require, say
from .debian_index import TEXT, BadIndex, Package
from .quiet import from_now


class BadWords(Exception):
    """Words that a script cannot do anything with."""


MINUTE = 60
_told = time.monotonic()  # when the last line of progress was written


def progress(text: str) -> None:
    """How far a script is: one line that is written over on a terminal, and else a line a minute; without a text it is wiped.

    Where what a script says is caught, as a part of a report, it is not said.
    """
    global _told
    stream = sys.__stderr__
    if stream and stream.isatty():
        width = shutil.get_terminal_size().columns - 1
        stream.write("\r" + text[:width].ljust(width) + "\r" * (not text))
        stream.flush()
    elif text and sys.stderr is stream and time.monotonic() - _told >= MINUTE:
        _told = time.monotonic()
        say(text)


def parser_of(text: str | None) -> argparse.ArgumentParser:
    """A reader of words whose help is the head of the script."""
    return argparse.ArgumentParser(description=text, formatter_class=argparse.RawDescriptionHelpFormatter)


def add_number(parser: argparse.ArgumentParser, option: str, least: int, default: int | None, text: str) -> None:
    """An option with a number that must not be smaller."""

    def number(word: str) -> int:
        if not re.fullmatch("[0-9]{1,9}", word) or int(word) < least:
            raise BadWords("%s: a number from %d is wanted, not %s" % (option, least, word))
        return int(word)

    parser.add_argument(option, metavar="N", type=number, default=default, help=text)


def program_found() -> str:
    """The program that COINST names; else that of these sources; else the one that is installed under its own name."""
    return os.environ.get("COINST") or (BUILT if os.path.exists(BUILT) else shutil.which("coinst-proved") or BUILT)


def add_program(parser: argparse.ArgumentParser) -> None:
    parser.add_argument("--program", metavar="COINST", default=program_found(), help="the program (without this, $COINST, or the one that ./coinst runs)")


def add_limits(parser: argparse.ArgumentParser) -> None:
    """The options of the program that bear on its answers."""
    parser.add_argument("--budget", metavar="N", help="as the program takes it")
    parser.add_argument("--clause-limit", metavar="N", help="as the program takes it")
    parser.add_argument("--hold", action="store_true", help="as the program takes it")


def limits_of(words: argparse.Namespace) -> list[str]:
    named = [("--budget", words.budget), ("--clause-limit", words.clause_limit)]
    return [word for name, value in named if value is not None for word in (name, value)] + ["--hold"] * words.hold


class Program:
    """coinst, asked with the same options again and again."""

    def __init__(self, path: str, options: typing.Iterable[str] = ()) -> None:
        path = path if os.path.exists(path) or os.sep in path else shutil.which(path) or path
        require(path)
        self.path, self.options = os.path.abspath(path), list(options)

    def options_of(self, what: str) -> list[str]:
        """The options that a command takes; a kernel is made without a budget."""
        at = self.options.index("--budget") if what == "kernel" and "--budget" in self.options else len(self.options)
        return self.options[:at] + self.options[at + 2 :]

    def ask(self, what: str, *words: str) -> tuple[int, list[list[str]]]:
        """The status, 0, 1 or 8, and the lines of the report in words; at any other status the script ends as the program did."""
        done = subprocess.run([self.path, what, *self.options_of(what), "--", *words], stdin=subprocess.DEVNULL, capture_output=True, **TEXT)
        if done.returncode not in (0, 1, 8):
            sys.stderr.write(done.stderr)
            sys.exit(done.returncode if done.returncode > 0 else NOT_BUILT)
        return done.returncode, [line.split() for line in done.stdout.splitlines()]


def write_out(text: str) -> None:
    """Writes to standard output, bytes that are no UTF-8 as they came."""
    sys.stdout.buffer.write(text.encode(**TEXT))


def write_stanzas(packages: typing.Iterable[Package]) -> None:
    """Writes stanzas to standard output byte for byte, those that stand behind each other in one piece."""
    start = end = 0
    data: bytes | None = None
    for package in packages:
        if package.data is not data or package.start != end + 2:
            if data:
                sys.stdout.buffer.write(memoryview(data)[start:end])
                sys.stdout.buffer.write(b"\n\n")
            data, start = package.data, package.start
        end = package.end
    if data:
        sys.stdout.buffer.write(memoryview(data)[start:end])
        sys.stdout.buffer.write(b"\n\n")


def _end(number: int, _: object) -> typing.NoReturn:
    """Ends the script at a signal, so that nothing is left: neither folders nor programs."""
    sys.exit(128 + number)


def _end_by_pipe() -> None:
    """Ends as a program does whose reader has left."""
    signal.signal(signal.SIGPIPE, signal.SIG_DFL)
    os.kill(os.getpid(), signal.SIGPIPE)


def run(main: typing.Callable[[], int]) -> typing.NoReturn:
    """Runs a script's main, and ends with what it returns, or with the status of its fault."""
    for number in (signal.SIGTERM, signal.SIGHUP):
        signal.signal(number, _end)
    for stream in (sys.stdout, sys.stderr):
        typing.cast(io.TextIOWrapper, stream).reconfigure(errors="surrogateescape")
    try:
        from_now()
        status = main()
        sys.stdout.flush()
        sys.exit(status)
    except (BadWords, BadIndex) as fault:
        say(fault)
        sys.exit(2)
    except BrokenPipeError:
        _end_by_pipe()
    except OSError as fault:
        say("%s: %s" % (fault.filename, fault.strerror) if fault.filename else fault.strerror)
        sys.exit(2 if fault.filename else NOT_BUILT)
    except KeyboardInterrupt:
        sys.exit(130)
    except Exception:
        traceback.print_exc()
    sys.exit(NOT_BUILT)
