"""All architectures of a plan: each is in a process of its own, and what is asked of several is asked at once."""

from __future__ import annotations

import collections
import contextlib
import functools
import multiprocessing.process
import os
import signal
import traceback
from collections.abc import Callable, Collection, Sequence
from multiprocessing.connection import Connection
from typing import Any, TypeVar

from .built import NOT_BUILT
from .command import BadWords
from .debian_index import BadIndex, version_key
from .plan_asking import Asking, BadSuite
from .plan_mixes import Built, Everywhere
from .plan_program import Refused

Pair = tuple[str, str]
Answer = TypeVar("Answer")
FORK = multiprocessing.get_context("fork")
EXPECTED = (Refused, BadSuite, BadIndex, OSError)


def architecture_of(path: str) -> str:
    """The architecture of an index, as its first package says that is not of `all`; no more of the file is read."""
    with open(path, "rb") as file:
        is_empty = True
        for line in file:
            field, _, value = line.partition(b":")
            is_empty = is_empty and field.lower() != b"package"
            if field.lower() == b"architecture" and value.strip() not in (b"all", b""):
                return str(value.strip().decode("utf-8", "surrogateescape"))
    if is_empty:
        raise BadWords("%s: it has no package" % path)
    return "all"


def pairs_of(paths: Sequence[str]) -> dict[str, Pair]:
    """The indexes of each architecture, OLD and NEW, in the order of the words."""
    found: dict[str, list[str]] = collections.defaultdict(list)
    for path in paths:
        found[architecture_of(path)].append(path)
    for name, mine in sorted(found.items()):
        if len(mine) != 2:
            count = "one index" if len(mine) == 1 else "%d indexes" % len(mine)
            raise BadWords("%s: %s of %s; OLD and NEW are wanted" % (", ".join(mine), count, name))
    return {name: (mine[0], mine[1]) for name, mine in sorted(found.items())}


def answers(pipe: Connection, others: Sequence[Connection], gate: Any, make: Callable[[], Asking]) -> None:
    """Answers what the pipe asks, an Asking's method and its words, until nobody asks; `others` are the ends that only the asking side has.

    It is a group of processes with the programs that it asks, so that all of them can be ended at once.
    """
    os.setpgid(0, 0)
    for end in others:
        end.close()
    signal.signal(signal.SIGTERM, signal.SIG_DFL)
    asking: Asking | None = None
    while True:
        try:
            method, words = pipe.recv()
        except EOFError:
            return
        with gate:
            try:
                asking = asking or make()
                answer = method(asking, *words)
            except Exception as fault:
                answer = fault
                if not isinstance(fault, EXPECTED):
                    traceback.print_exc()
        pipe.send(answer)


def received(pipe: Connection) -> Any:
    """What a pipe brings; a signal that comes just before a wait is seen after it."""
    while not pipe.poll(1):
        pass
    return pipe.recv()


class Archive:
    """The architectures, and the pipes to their processes."""

    def __init__(self, pairs: dict[str, Pair], make: Callable[[str, Pair], Asking], at_once: int) -> None:
        self.names = sorted(pairs)
        gate = FORK.BoundedSemaphore(at_once)
        self.pipes: dict[str, Connection] = {}
        self.processes: list[multiprocessing.process.BaseProcess] = []
        for name in self.names:
            self.pipes[name], his = FORK.Pipe()
            words = (his, list(self.pipes.values()), gate, functools.partial(make, name, pairs[name]))
            process = FORK.Process(target=answers, args=words, daemon=True)
            process.start()
            with contextlib.suppress(OSError):  # the process does so too, whoever is first
                os.setpgid(process.pid or 0, process.pid or 0)
            self.processes.append(process)
            his.close()

    def ask(self, method: Callable[..., Answer], *words: Any, only: Collection[str] | None = None) -> dict[str, Answer]:
        """What each architecture answers to a question, a method of Asking."""
        return self.ask_each(method, {name: words for name in (self.names if only is None else sorted(only))})

    def ask_each(self, method: Callable[..., Answer], words: dict[str, tuple[Any, ...]]) -> dict[str, Answer]:
        found: dict[str, Any] = {}
        for name in words:
            self.pipes[name].send((method, words[name]))
        for name in words:
            try:
                found[name] = received(self.pipes[name])
            except EOFError:
                raise Refused(NOT_BUILT, "plan: %s: the process that asks about it has ended\n" % name) from None
        for answer in found.values():
            if isinstance(answer, Exception):
                raise answer
        return found

    def link(self) -> list[str]:
        """Tells each architecture what NEW has on the others; the sources that differ on some architecture."""
        built = self.ask(Asking.built)
        self.new_sources = frozenset(source for mine in built.values() for source in mine)
        words: dict[str, tuple[Any, ...]] = {name: (Everywhere(self.new_sources, unbuilt(built, name)),) for name in self.names}
        return sorted(set().union(*self.ask_each(Asking.link, words).values()))

    def end(self) -> None:
        """Ends the processes, and what they have started."""
        for process in self.processes:
            with contextlib.suppress(ProcessLookupError):
                os.killpg(process.pid or 0, signal.SIGKILL)
            process.join()


def unbuilt(built: dict[str, dict[str, Built]], name: str) -> frozenset[str]:
    """The sources of which an architecture has packages of its own, but none of the newest version that another has."""
    found = set()
    for source, mine in built[name].items():
        if mine.of_home is not None:
            others = (his[source].of_home for his in built.values() if source in his)
            if any(other is not None and version_key(other) > version_key(mine.of_home) for other in others):
                found.add(source)
    return frozenset(found)
