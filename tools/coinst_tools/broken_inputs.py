"""Reads the indexes of a report, pairs them by architecture, and studies the pairs side by side, each in a process of its own."""

from __future__ import annotations

import bz2
import contextlib
import dataclasses
import gc
import gzip
import hashlib
import io
import lzma
import multiprocessing
import multiprocessing.connection
import multiprocessing.process
import os
import pickle
import re
import signal
import sys
import time
import traceback
from collections.abc import Callable, Iterator, Sequence

from . import inputs
from .broken_causes import Asking, causes_of
from .broken_records import File, Found, Refused, Study
from .broken_sets import sets_of
from .built import NOT_BUILT
from .command import BadWords, Program, progress
from .debian_index import BadIndex, Index

OPENERS: dict[str, Callable[[str], io.BufferedIOBase]] = {".xz": lzma.LZMAFile, ".gz": gzip.GzipFile, ".bz2": bz2.BZ2File}
ARCHITECTURE = re.compile(rb"^Architecture:[ \t]*(\S+)", re.I | re.M)
PIECE = 1 << 20
BYTES_FOR_A_BYTE = 6  # of memory, for each byte of the two indexes of an architecture
ENDING = {signal.SIGTERM, signal.SIGHUP, signal.SIGINT}
UNREADABLE, EMPTY = 5, 2  # statuses: as the program has it for a file that it cannot read; of files that nothing can be done with


@dataclasses.dataclass
class Pair:
    """The two indexes of an architecture."""

    architecture: str
    old: str
    new: str
    folder: str  # for what is handed to the program, and for what is found

    def size(self) -> int:
        return os.path.getsize(self.old) + os.path.getsize(self.new)


@dataclasses.dataclass
class Job:
    """What each pair is studied with."""

    program: Program
    with_sets: bool


# Files


def plain(path: str, folder: str) -> str:
    """The path of an index that is not compressed: its own, or that of a copy of what is compressed, of a pipe or of standard input."""
    stem, ending = os.path.splitext(path)
    if ending not in OPENERS or not os.path.isfile(path):
        return inputs.plain(path, folder)
    inside = os.path.join(folder, "plain%d" % len(os.listdir(folder)))
    os.mkdir(inside)
    out = os.path.join(inside, os.path.basename(stem))
    with OPENERS[ending](path) as packed, open(out, "wb") as file:
        while piece := packed.read(PIECE):
            file.write(piece)
    return out


def architecture_of(path: str) -> str | None:
    """The first architecture in an index that is not `all`; None if there is no package in it."""
    with open(path, "rb") as file:
        text, rest = file.read(PIECE), b""
        if not text.strip():
            return None
        while text:
            cut = text.rfind(b"\n") + 1 or len(text)
            found: Iterator[str] = (value.decode("utf-8", "replace") for value in ARCHITECTURE.findall(rest + text[:cut]))
            if name := next((name for name in found if name != "all"), None):
                return name
            rest, text = text[cut:], file.read(PIECE)
    return "all"


class Inputs:
    """The indexes that were named: pairs, those without a partner, and those that cannot be read."""

    def __init__(self, paths: Sequence[str], folder: str):
        self.refused: list[Refused] = []
        self.places: dict[str, list[str]] = {}
        for path in paths:
            if place := self.place(path, folder):
                self.places.setdefault(place[0], []).append(place[1])
        self.join_two()
        for name, mine in self.places.items():
            if len(mine) > 2:
                raise BadWords("%s has more than two indexes: %s" % (name, " ".join(mine)))
        pairs = [(name, *mine) for name, mine in sorted(self.places.items()) if len(mine) == 2]
        self.pairs = [Pair(name, old, new, os.path.join(folder, "pair%d" % number)) for number, (name, old, new) in enumerate(pairs)]
        self.alone = {name: os.path.basename(mine[0]) for name, mine in sorted(self.places.items()) if len(mine) == 1}

    def join_two(self) -> None:
        """Of two indexes alone one may have nothing but packages for all architectures: they are a pair all the same."""
        names = [name for name in self.places if name != "all"]
        if len(self.places) == 2 and len(names) == 1 and all(len(mine) == 1 for mine in self.places.values()):
            self.places = {names[0]: [path for mine in self.places.values() for path in mine]}

    def place(self, path: str, folder: str) -> tuple[str, str] | None:
        """The architecture of an index and the path of its plain text."""
        try:
            text = plain(path, folder)
            inputs.show_as(text, path)
            name = architecture_of(text)
        except (OSError, EOFError, lzma.LZMAError) as fault:
            self.refused.append(Refused(None, "%s: %s" % (path, getattr(fault, "strerror", None) or "not decompressed: %s" % fault), UNREADABLE))
            return None
        except BadIndex as fault:
            self.refused.append(Refused(None, str(fault), UNREADABLE))
            return None
        if name is None:
            self.refused.append(Refused(None, "%s: no package is in it" % path, EMPTY))
            return None
        return name, text


# One architecture


def file_of(index: Index) -> File:
    data = memoryview(index.packages[0].data)[1:] if index.packages else b""
    return File(index.label, hashlib.sha256(data).hexdigest(), len(index.packages), len(index.named))


def joined(causes: list[Found], more: list[Found]) -> list[Found]:
    """The causes of lines, and with them, or after them, those of larger sets."""
    by_key = {cause.key: cause for cause in causes}
    for cause in more:
        if cause.key in by_key:
            by_key[cause.key].sets = cause.sets
        else:
            by_key[cause.key] = cause
    return list(by_key.values())


def study(pair: Pair, job: Job) -> Study:
    """What NEW breaks of OLD on one architecture."""
    asking = Asking(job.program, pair.folder)
    progress("%s: comparing" % pair.architecture)
    status, broken, left = asking.compare(pair.old, pair.new)
    old, new = Index(pair.old), Index(pair.new)
    if 2 * len(new.named) < len(old.named):
        raise BadWords("%s: names: %d, less than half of the %d in %s" % (pair.new, len(new.named), len(old.named), pair.old))
    causes = causes_of(old, new, broken, asking)
    sets, more = sets_of(job.program, pair.folder, (old, new), broken, left) if job.with_sets else (None, [])
    return Study(
        architecture=pair.architecture, old=file_of(old), new=file_of(new), status=status, broken=len(broken), open=left,
        causes=joined(causes, more), both=set(old.named) & set(new.named), dropped=set(old.named) - set(new.named), sets=sets,
        for_all={name for line in broken if len(line) == 1 for name in line if all(p.architecture == "all" for p in new.named[name])},
    )


def study_or_refusal(pair: Pair, job: Job) -> Study | Refused:
    """The study of a pair, or the line and the status with which the program, or this script, refused it."""
    start, said = time.monotonic(), io.StringIO()
    try:
        with contextlib.redirect_stderr(said):
            found = study(pair, job)
    except SystemExit as end:
        return Refused(pair.architecture, inputs.shown(said.getvalue().strip()), end.code if isinstance(end.code, int) else NOT_BUILT)
    except (BadWords, BadIndex) as fault:
        return Refused(pair.architecture, inputs.shown(str(fault)), EMPTY)
    found.seconds = round(time.monotonic() - start, 1)
    return found


# All of them


def free_memory() -> int:
    try:
        with open("/proc/meminfo", encoding="ascii") as file:
            return next(int(line.split()[1]) << 10 for line in file if line.startswith("MemAvailable"))
    except (OSError, StopIteration):
        return 1 << 40


def processes(pairs: Sequence[Pair], most: int | None) -> int:
    """How many architectures at once: no more than processors, and than what is free of memory can hold."""
    widest = max((pair.size() for pair in pairs), default=0) * BYTES_FOR_A_BYTE
    return max(1, min(len(os.sched_getaffinity(0)), len(pairs), free_memory() // max(1, widest), most or len(pairs)))


def work(pair: Pair, job: Job) -> None:
    """A process of its own, and a group of processes with the program: its result is a file."""
    os.setpgid(0, 0)
    signal.signal(signal.SIGTERM, signal.SIG_DFL)
    gc.disable()  # next to nothing that it makes is a circle, and the looking takes a tenth of its time
    signal.pthread_sigmask(signal.SIG_UNBLOCK, ENDING)
    try:
        found = study_or_refusal(pair, job)
    except Exception:
        traceback.print_exc()
        sys.exit(NOT_BUILT)
    with open(os.path.join(pair.folder, "study"), "wb") as file:
        pickle.dump(found, file)


def number_of(process: multiprocessing.process.BaseProcess) -> int:
    """The number that the system gave to a process that was started."""
    if process.pid is None:
        raise AssertionError("a process that was not started")
    return process.pid


class Crew:
    """The processes at work; those that are left when it ends are ended with what they started."""

    def __init__(self, job: Job):
        self.job = job
        self.at_work: dict[multiprocessing.process.BaseProcess, Pair] = {}

    def begin(self, pair: Pair) -> None:
        os.mkdir(pair.folder)
        process = multiprocessing.get_context("fork").Process(target=work, args=(pair, self.job))
        signal.pthread_sigmask(signal.SIG_BLOCK, ENDING)  # until it is known here, so that none is left
        process.start()
        with contextlib.suppress(OSError):  # the process does so too, whoever is first
            os.setpgid(number_of(process), number_of(process))
        self.at_work[process] = pair
        signal.pthread_sigmask(signal.SIG_UNBLOCK, ENDING)

    def wait(self) -> Iterator[Study | Refused]:
        """What the processes have found that end next."""
        ready: Sequence[object] = []
        while not ready:  # a signal that comes just before a wait is seen after it
            ready = multiprocessing.connection.wait([process.sentinel for process in self.at_work], 1)
        for process in [process for process in self.at_work if process.sentinel in ready]:
            process.join()
            pair = self.at_work.pop(process)
            if process.exitcode:
                sys.exit(NOT_BUILT)
            with open(os.path.join(pair.folder, "study"), "rb") as file:
                found: Study | Refused = pickle.load(file)
            yield found

    def end(self) -> None:
        for process in self.at_work:
            with contextlib.suppress(ProcessLookupError):
                os.killpg(number_of(process), signal.SIGKILL)
            process.join()


def study_all(pairs: Sequence[Pair], job: Job, at_once: int) -> Iterator[Study | Refused]:
    """What was found on each architecture, as it ends; the largest are begun first."""
    todo, crew, done = sorted(pairs, key=lambda pair: pair.size()), Crew(job), 0
    try:
        while todo or crew.at_work:
            while todo and len(crew.at_work) < at_once:
                crew.begin(todo.pop())
            for found in crew.wait():
                done += 1
                progress("%d of %d architectures done, the last %s" % (done, len(pairs), found.architecture))
                yield found
    finally:
        crew.end()
        progress("")
