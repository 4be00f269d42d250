"""Makes a plan: steps of sources that can come one after the other, on all architectures, and for those that stay what refused them."""

from __future__ import annotations

import dataclasses
import time
from collections.abc import Callable, Collection, Iterable, Sequence

from .plan_archive import Archive
from .plan_asking import Asking, End, Outcome
from .plan_calls import Calls, Found
from .plan_program import Line
from .plan_switches import GROUPS_AT_ONCE

SOURCES_AT_ONCE = 500  # in one index, which has the packages of both suites for each
FEW_GROUPS = 4 * GROUPS_AT_ONCE  # of more, several are first tried as one step
STEP_SIZES = (16, 4, 1)
MOST_PARTNERS = 400  # in a group that is tried
MOST_TO_LESSEN = 12  # in a group of which some may be left out again
Group = tuple[str, ...]


@dataclasses.dataclass(frozen=True)
class Step:
    """Groups that come at once, with nothing in between that was asked."""

    groups: tuple[Group, ...]

    @property
    def sources(self) -> list[str]:
        return sorted(source for group in self.groups for source in group)


@dataclasses.dataclass(frozen=True)
class Refusal:
    """A group that was tried, on top of which sources, and what refused it: lines of the program, a fault, or a set that it loses.

    `within` are the sources that an architecture had taken beyond these in the same call. Without anything that refused it, the group was
    tried as part of a larger step alone.
    """

    tried: Group
    on: frozenset[str]
    lines: dict[str, Line] = dataclasses.field(default_factory=dict)
    within: dict[str, Group] = dataclasses.field(default_factory=dict)
    fault: Found | None = None
    loses: Line | None = None
    held: Group = ()  # blocked sources whose packages it conflicts with

    def is_alone(self) -> bool:
        return bool(self.lines or self.fault or self.loses)


@dataclasses.dataclass
class Limits:
    """How long and how far is tried."""

    until: float
    tries: int

    def is_over(self) -> bool:
        return time.monotonic() > self.until


@dataclasses.dataclass
class Trial:
    """A group that was refused, with the partners that it is tried with, and what refused it last."""

    first: Group
    group: set[str]
    refusal: Refusal


def disjoint(trials: Iterable[Trial], come: Collection[str]) -> dict[Step, Trial]:
    """Of trials in their order those that share no source with one before them, as steps of what has not come."""
    found: dict[Step, Trial] = {}
    seen: set[str] = set()
    for trial in trials:
        group = trial.group.difference(come)
        if len(found) < GROUPS_AT_ONCE and seen.isdisjoint(group) and (not found or len(seen | group) <= SOURCES_AT_ONCE):
            found[Step((tuple(sorted(group)),))] = trial
            seen |= group
    return found


class Batch:
    """Steps that are tried in one call, until all architectures take the same ones in the same order."""

    def __init__(self, archive: Archive, come: frozenset[str], steps: Sequence[Step], suspects: Collection[str] = ()) -> None:
        self.archive, self.come, self.steps, self.suspects = archive, come, list(steps), suspects
        self.refusals: list[Refusal] = []
        self.took: dict[str, list[Step]] = {}
        self.has: dict[str, set[Step]] = {}

    def run(self) -> list[Step]:
        """The steps that all take. First the suspects are asked, which have refused some before, or else one architecture; then the others less."""
        while self.steps:
            self.leave_faults()
            left = [name for name in self.archive.names if not self.is_taken_by(name)]
            if not left or not self.steps:
                break
            asked = left if self.took else [name for name in left if name in self.suspects] or left[:1]
            refused = self.read(self.archive.ask(Asking.migrate, [step.sources for step in self.steps], self.come, only=asked))
            self.steps = [step for step in self.steps if step not in refused]
        return self.steps

    def is_taken_by(self, name: str) -> bool:
        """Whether an architecture has taken just these steps, as far as they have anything there, in this order."""
        return name in self.took and self.took[name] == [step for step in self.steps if step in self.has[name]]

    def read(self, answers: dict[str, list[Outcome]]) -> set[Step]:
        lines: dict[Step, dict[str, Line]] = {}
        within: dict[Step, dict[str, Group]] = {}
        for name, outcomes in answers.items():
            self.took[name] = []
            self.has.setdefault(name, set()).update(step for step, outcome in zip(self.steps, outcomes) if outcome is not None)
            for step, outcome in zip(self.steps, outcomes):
                if outcome:
                    lines.setdefault(step, {})[name] = outcome
                    within.setdefault(step, {})[name] = tuple(s for taken in self.took[name] for s in taken.sources)
                elif outcome is not None:
                    self.took[name].append(step)
        for step, refusing in lines.items():
            if len(step.groups) == 1:
                self.refusals.append(Refusal(step.groups[0], self.come, refusing, within[step]))
            else:
                self.refusals += [Refusal(group, self.come) for group in step.groups]
        return set(lines)

    def leave_faults(self) -> None:
        """Leaves out the groups that the rules refuse on some architecture, until none is left."""
        while groups := [group for step in self.steps for group in step.groups]:
            bad: dict[Group, Refusal] = {}
            for name, answer in self.archive.ask(Asking.first_faults, groups, self.come).items():
                for place, fault in answer.items():
                    before = tuple(s for i, group in enumerate(groups[:place]) if i not in answer for s in group)
                    bad.setdefault(groups[place], Refusal(groups[place], self.come, {}, {name: before}, Found(name, fault)))
            if not bad:
                return
            self.refusals += bad.values()
            kept = [tuple(group for group in step.groups if group not in bad) for step in self.steps]
            self.steps = [Step(groups) for groups in kept if groups]


class Plan:
    """The steps so far, and what refused the groups that have not come."""

    def __init__(self, archive: Archive, calls: Calls, limits: Limits, say: Callable[[str], None]) -> None:
        self.archive, self.calls, self.limits, self.say = archive, calls, limits, say
        self.lost = archive.ask(Asking.lost_lines)
        self.steps: list[Step] = []
        self.come: set[str] = set()
        self.refusals: dict[Group, Refusal] = {}
        self.banned: set[str] = set()

    def add(self, step: Step) -> None:
        self.steps.append(step)
        self.come.update(step.sources)

    def refused(self) -> dict[str, Refusal]:
        """What refused each source last."""
        return {source: refusal for group, refusal in self.refusals.items() for source in group}

    # Steps in order

    def take(self, groups: Iterable[Group]) -> None:
        """Tries groups in their order; of many, several at first as one step, those that are refused in smaller steps."""
        todo = [self.rest(group) for group in groups if not set(group) <= self.come and self.banned.isdisjoint(group)]
        for size in STEP_SIZES if len(todo) > FEW_GROUPS else (1,):
            steps = [Step(tuple(todo[first : first + size])) for first in range(0, len(todo), size)]
            todo = self.take_steps(steps)

    def suspects(self, steps: Iterable[Step]) -> set[str]:
        """The architectures that have refused some of these before."""
        refusals = [self.refusals[group] for step in steps for group in step.groups if group in self.refusals]
        return {name for refusal in refusals for name in refusal.lines}

    def rest(self, group: Group) -> Group:
        """What has not come of a group; its refusal is that of the rest."""
        rest = tuple(source for source in group if source not in self.come)
        if rest != group and group in self.refusals:
            self.refusals[rest] = self.refusals.pop(group)
        return rest

    def take_steps(self, steps: list[Step]) -> list[Group]:
        """The groups that are refused."""
        refused: list[Group] = []
        while steps and not self.limits.is_over():
            count = batch_size(steps)
            batch = Batch(self.archive, frozenset(self.come), steps[:count], self.suspects(steps[:count]))
            for step in batch.run():
                self.add(step)
            for refusal in batch.refusals:
                self.refusals[refusal.tried] = refusal
                refused.append(refusal.tried)
            steps = steps[count:]
            self.say("%d sources come in %d steps, %d groups are refused, %d steps to try" % (len(self.come), len(self.steps), len(refused), len(steps)))
        return refused + [group for step in steps for group in step.groups]

    def waiting(self) -> list[Group]:
        """The groups that were refused and have not come."""
        return [group for group in self.refusals if not set(group) <= self.come and self.banned.isdisjoint(group)]

    # Partners

    def passes(self, group: set[str]) -> bool:
        """Whether a group comes on top of all that has come."""
        return bool(Batch(self.archive, frozenset(self.come), [Step((tuple(sorted(group)),))]).run())

    def join(self, waiting: Iterable[Group]) -> None:
        """Tries the groups that were refused with partners, and with more of them as long as they are refused."""
        trials = [Trial(first, set(first), self.refusals[first]) for first in sorted(waiting, key=len)]
        for _ in range(self.limits.tries):
            trials = self.try_disjoint([trial for trial in trials if self.grow(trial)])

    def grow(self, trial: Trial) -> bool:
        """Takes partners into a group, if there are any to try."""
        if self.limits.is_over() or self.come.issuperset(trial.first) or self.is_lost(trial.refusal):
            return False
        more, self.refusals[trial.first] = self.partners(trial.group, trial.refusal)
        trial.group |= more
        return bool(more) and len(trial.group) <= MOST_PARTNERS

    def try_disjoint(self, trials: list[Trial]) -> list[Trial]:
        """Tries groups, at once those that share no source; those that are refused."""
        refused: list[Trial] = []
        while trials and not self.limits.is_over():
            trials = [trial for trial in trials if not self.come.issuperset(trial.first)]
            now = disjoint(trials, self.come)
            suspects = {name for trial in now.values() for name in trial.refusal.lines}
            batch = Batch(self.archive, frozenset(self.come), list(now), suspects)
            taken = self.add_lessened([(step, now[step]) for step in batch.run()])
            for refusal in batch.refusals:
                trial = now[Step((refusal.tried,))]
                trial.refusal = self.refusals[trial.first] = refusal
                refused.append(trial)
            done = [id(trial) for trial in taken + refused]
            trials = [trial for trial in trials if id(trial) not in done]
        return refused

    def add_lessened(self, taken: list[tuple[Step, Trial]]) -> list[Trial]:
        """Adds steps that were taken, up to one from which something may be left out again: those after it were not tried without that."""
        added = []
        for step, trial in taken:
            added.append(trial)
            group = self.lessen(set(step.sources), trial.first)
            self.add(Step((tuple(sorted(group)),)))
            if len(group) < len(step.sources):
                break
        return added

    def is_lost(self, refusal: Refusal) -> bool:
        """Whether NEW itself has lost what refuses a group."""
        return any(line in self.lost[name] for name, line in refusal.lines.items())

    def partners(self, group: set[str], refusal: Refusal) -> tuple[set[str], Refusal]:
        """What is tried together with a group: for what it lacks, or else for what it conflicts with; none if nothing can mend it."""
        more: set[str] = set()
        for name, faults in self.archive.ask(Asking.faults_of, sorted(group), frozenset(self.come)).items():
            for fault in faults:
                able = fault.mends - self.calls.blocked.keys() - self.come - self.banned
                if fault.sure and not able:
                    return set(), dataclasses.replace(refusal, fault=Found(name, fault))
                if able and not able & (group | more):
                    more.add(self.calls.choice(fault, able))
        if not more:
            more, refusal = self.rivals(group, refusal)
        return self.calls.closure(more) - self.come - group - self.banned if more else more, refusal

    def rivals(self, group: set[str], refusal: Refusal) -> tuple[set[str], Refusal]:
        """The sources that would change a package of the conflicts behind a line."""
        for name, line in refusal.lines.items():
            if line[0] in ("broken", "open"):
                words = (line[1:], frozenset(self.come | group))
                found = self.archive.ask(Asking.clashing, *words, only=[name])[name] - group - self.banned
                if able := found - self.calls.blocked.keys():
                    return able, refusal
                refusal = dataclasses.replace(refusal, held=tuple(sorted(found)))
        return set(), refusal

    def lessen(self, group: set[str], wanted: Iterable[str]) -> set[str]:
        """Leaves out what a group can do without: one source at a time, with all that call for it."""
        keep = set(wanted)
        if len(group - keep) > 1 and len(group) <= MOST_TO_LESSEN:  # the wanted ones alone were refused
            for source in sorted(group - keep):
                gone = {s for s in group if source in self.calls.closure([s])}
                if source in group and not gone & keep and not self.limits.is_over() and self.passes(group - gone):
                    group = group - gone
        return group

    # The whole

    def make(self, sources: Iterable[str]) -> None:
        """Groups by what they call for, then what was refused once more, then with partners, as long as more comes."""
        able = self.calls.closure(source for source in sources if source not in self.calls.blocked)
        self.take(tuple(group) for group in self.calls.groups(able))
        self.take(self.waiting())
        before = -1
        while before < len(self.come) and not self.limits.is_over():
            before = len(self.come)
            self.join(self.waiting())
            if before < len(self.come):
                self.take(self.waiting())

    def end(self) -> dict[str, End]:
        """The last comparison; a step after which a set of three names or more is lost is left out, until none is."""
        while True:
            ends = self.archive.ask(Asking.end, frozenset(self.come))
            lost = next(((name, end.sets[0]) for name, end in ends.items() if end.sets and not end.broken), None)
            if lost is None:
                return ends
            self.leave_out(*lost)

    def leave_out(self, name: str, names: Line) -> None:
        """Leaves out the step that loses a set of names, and asks for those after it again."""
        place = self.losing(name, names)
        step, later = self.steps[place], self.steps[place + 1 :]
        self.say("a step loses %s together on %s, and is left out" % (" ".join(names), name))
        self.steps = self.steps[:place]
        self.come = {source for kept in self.steps for source in kept.sources}
        self.limits.until = float("inf")
        if len(step.groups) == 1:
            self.banned.update(step.sources)
            self.refusals[step.groups[0]] = Refusal(step.groups[0], frozenset(self.come), loses=names)
        else:
            self.take_steps([Step((group,)) for group in step.groups])
        self.take_steps([Step((group,)) for group in self.take_steps(later)])

    def losing(self, name: str, names: Line) -> int:
        """The first step whose mix cannot install the names: those that a mix has lost a later one may have again, so by halves."""
        low, high = 0, len(self.steps)
        while high - low > 1:
            middle = (low + high) // 2
            come = frozenset(source for step in self.steps[:middle] for source in step.sources)
            if self.archive.ask(Asking.can_together, names, come, only=[name])[name]:
                low = middle
            else:
                high = middle
        return high - 1


def batch_size(steps: Sequence[Step]) -> int:
    """How many steps go into one call."""
    count = total = 0
    for step in steps[:GROUPS_AT_ONCE]:
        total += len(step.sources)
        if count and total > SOURCES_AT_ONCE:
            break
        count += 1
    return count
