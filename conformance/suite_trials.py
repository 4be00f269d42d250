"""Trials of whole indexes by strangers: an index by itself, and two beside each other."""
import os
import subprocess
import sys
import tempfile

sys.dont_write_bytecode = True
from pairs_judge import broken_by_coinst
from stanza_judge import Judge
from strangers import CHECKER, HERE, INSTALLER, PAIRER, SOLVER
from strangers import answer_of, ask, compare, installation_holds, installed_by, log_holds, never_by_dose, never_by_program, write_kernel

JOINER = os.path.join(HERE, "..", "tools", "join_indexes")
SUITES = ("bullseye", "bookworm", "trixie")


def try_pairs(tally, where, path, judge, pairer, what, says=False):
    """All that is broken in an index, by the program and by Debian's coinst. The older index has the names alone, so it can all."""
    with open(os.path.join(where, "names"), "w", encoding="latin-1") as out:
        out.writelines("Package: %s\nVersion: 1\n\n" % name for name in judge.named)
    wanted = broken_by_coinst(pairer, judge, where)
    if wanted is None:
        tally.skip("Debian's coinst takes too long for %s, so its pairs are taken unseen" % what)
        return
    lines, is_whole = compare(where, "names", path)
    ours = set(lines)
    several = "%d not by coinst, as %s, %d by coinst alone, as %s"
    shown = several % (len(ours - wanted), sorted(ours - wanted)[:9], len(wanted - ours), sorted(wanted - ours)[:9])
    tally.count(is_whole and ours == wanted, "%s: broken names and pairs: %s" % (what, shown))
    if says:
        print("%s: %d broken names and pairs, %d by Debian's coinst" % (what, len(ours), len(wanted)), flush=True)


class Comparison:
    """Two indexes, what the program says of them, and the judges of both."""

    def __init__(self, where, old, new, judges):
        self.old, self.new = judges
        self.lines, self.is_whole = compare(where, old, new)
        self.broken = set(self.lines)
        self.common = sorted(set(self.old.named) & set(self.new.named))
        self.known = {}

    def can(self, judge, names):
        """What a judge says, each name alone asked once."""
        key = (judge is self.new, names)
        if key not in self.known:
            self.known[key] = judge.can_install(*names)
        return self.known[key]

    def is_lost(self, names):
        """Whether the names are to be a line: all can be alone in the new index if they are two, and what the old one can it cannot."""
        if len(names) == 2 and not all(self.can(self.new, (name,)) for name in names):
            return False
        return not self.can(self.new, names) and self.can(self.old, names)

    def try_names(self, tally, names, what):
        lost = self.is_lost(names)
        tally.count(lost == (names in self.broken), "%s: %s is %sbroken by the solver" % (what, " ".join(names), "" if lost else "not "))


def suite_at(folder, name):
    paths = (os.path.join(folder, name + ending) for ending in ("", ".Packages"))
    return next((os.path.abspath(path) for path in paths if os.path.isfile(path)), None)


def write_peace(path, to):
    """A copy of the index without its conflicts."""
    keeps = True
    with open(path, "rb") as file, open(to, "wb") as out:
        for line in file:
            if line[:1] not in b" \t":
                keeps = not line.lower().startswith((b"conflicts:", b"breaks:"))
            if keeps:
                out.write(line)


def near_names(one):
    """The names that stand in lines of two."""
    return sorted({name for names in one.lines if len(names) == 2 for name in names}) or one.common


def draw_others(draw, one, count):
    """Names and pairs that are no line: some alone, some by lot, and some of names that stand in lines."""
    found = {(draw.choice(one.common),) for _ in range(count // 4)}
    for names, upto in ((one.common, count // 2), (near_names(one), count)):
        for _ in range(20 * count):
            pair = tuple(sorted((draw.choice(names), draw.choice(names))))
            if len(found) < upto and pair[0] != pair[1]:
                found.add(pair)
    return sorted(found - one.broken)


def draw_sets(draw, one, count):
    """Sets of three to eight names, by turns of those that stand in lines and of all."""
    sources = near_names(one), one.common
    return [sorted(set(draw.choices(sources[number % 2], k=draw.randint(3, 8)))) for number in range(count)]


def try_drawn(tally, draw, one, count, what):
    """Judges lines and what is no line; the lines that were drawn, and the others that the new index can install."""
    lines, others = draw.sample(one.lines, min(count, len(one.lines))), draw_others(draw, one, count)
    tally.count(one.is_whole, "%s: lines are open" % what)
    for names in lines + others:
        one.try_names(tally, names, what)
    lost = sum(not one.can(one.new, names) for names in others)
    print("%s: %d lines, %d drawn; %d that are no line, %d of them refused by the new index" % (what, len(one.lines), len(lines), len(others), lost), flush=True)
    return lines, [names for names in others if one.can(one.new, names)]


def try_logs(tally, where, lines, what):
    for names in lines:
        report = ask(where, ["query", "--kernel", "kernel", *names]).stdout
        holds = answer_of(report) == "no" and log_holds(where, "kernel", report, list(names))
        tally.count(holds, "%s: the log of %s" % (what, " ".join(names)))


def is_installation(where, path, judge, names, report, installer):
    """Whether a yes has an installation with one of each name, by the stanzas and by dose."""
    holds = answer_of(report) == "yes" and judge.holds(installed_by(report), names)
    return holds and (not installer or installation_holds(where, path, report))


def try_installations(tally, where, path, judge, pairs, installer, what):
    for names in pairs:
        report = ask(where, ["query", path, *names]).stdout
        tally.count(is_installation(where, path, judge, names, report, installer), "%s: the installation of %s" % (what, " ".join(names)))


def try_sets(tally, where, path, judge, sets, installer, what):
    """Judges questions of several names: the answer by the solver, and what comes with it."""
    refused, entries = 0, 0
    for names in sets:
        report, can = ask(where, ["query", path, *names]).stdout, judge.can_install(*names)
        refused, entries = refused + (not can), entries + report.count(b"\nlog")
        no = answer_of(report) == "no" and log_holds(where, "kernel", report, names)
        holds = is_installation(where, path, judge, names, report, installer) if can else no
        tally.count(holds, "%s: the question %s, which the solver %s" % (what, " ".join(names), "grants" if can else "refuses"))
    print("%s: %d questions of several names, %d refused, with %d entries of logs" % (what, len(sets), refused, entries), flush=True)


def try_comparison(tally, draw, where, paths, judges, count, has, what):
    """Lines and what is no line of a comparison, and the logs and installations that the new index gives for them; the comparison."""
    one = Comparison(where, *paths, judges)
    lines, kept = try_drawn(tally, draw, one, count, what)
    write_kernel(where, paths[1])
    try_logs(tally, where, lines, what)
    try_installations(tally, where, paths[1], judges[1], kept[: max(1, count // 10)], has[INSTALLER], what)
    return one


def try_never_of(tally, where, path, what):
    ours, dose = never_by_program(where, write_kernel(where, path)), never_by_dose(path)
    tally.count(ours == dose, "%s: never installable: not by dose %s, by dose alone %s" % (what, sorted(ours - dose), sorted(dose - ours)))
    print("%s: %d packages can never be installed, %d by dose" % (what, len(ours), len(dose)), flush=True)


def try_suite(tally, draw, name, path, count, has):
    """A suite by itself, and beside the copy of it without conflicts; its judge."""
    with tempfile.TemporaryDirectory(prefix="coinst-") as where:
        judge = Judge(path)
        if has[CHECKER]:
            try_never_of(tally, where, path, name)
        if has[PAIRER]:
            try_pairs(tally, where, path, judge, has[PAIRER], name, says=True)
        if has[SOLVER]:
            peace = os.path.join(where, "peace")
            write_peace(path, peace)
            one = try_comparison(tally, draw, where, (peace, path), (Judge(peace), judge), count, has, name)
            try_sets(tally, where, path, judge, draw_sets(draw, one, max(1, count // 5)), has[INSTALLER], name)
        return judge


def try_secured(tally, draw, name, path, judge, folder, count, has):
    """A suite with its security archive by itself, and beside the suite, both ways."""
    security = suite_at(folder, name + "-security")
    if not security:
        tally.skip("%s has no %s-security" % (folder, name))
        return
    with tempfile.TemporaryDirectory(prefix="coinst-") as where:
        both, what = os.path.join(where, "both"), name + " with security"
        with open(both, "wb") as out:
            subprocess.run([JOINER, path, security], stdin=subprocess.DEVNULL, stdout=out, stderr=subprocess.DEVNULL, check=True)
        secured = try_suite(tally, draw, what, both, count, has)
        if has[SOLVER]:
            try_comparison(tally, draw, where, (path, both), (judge, secured), count, has, "%s to %s" % (name, what))
            try_comparison(tally, draw, where, (both, path), (secured, judge), count, has, "%s to %s" % (what, name))


def try_suites(tally, draw, folder, count, has):
    paths = {name: suite_at(folder, name) for name in SUITES}
    before = None
    for name in SUITES:
        if not paths[name]:
            tally.skip("%s has no %s" % (folder, name))
            continue
        judge = try_suite(tally, draw, name, paths[name], count, has)
        if has[SOLVER] and before:
            with tempfile.TemporaryDirectory(prefix="coinst-") as where:
                try_comparison(tally, draw, where, (paths[before[0]], paths[name]), (before[1], judge), count, has, "%s to %s" % (before[0], name))
        try_secured(tally, draw, name, paths[name], judge, folder, count, has)
        before = name, judge
