"""How the program is asked, how its answers are handed to strangers, and how that is counted."""
import os
import re
import shutil
import subprocess
import sys
import tempfile

sys.dont_write_bytecode = True
HERE = os.path.dirname(os.path.realpath(__file__))
sys.path.insert(0, os.path.join(HERE, "..", "tools"))
from coinst_tools.built import BUILT
from pairs_judge import debian_coinst

WRITER = os.path.join(HERE, "..", "tools", "log_to_dimacs.py")
SOLVER, INSTALLER, CHECKER, PAIRER = "cadical", "dose-deb-coinstall", "dose-debcheck", "Debian's coinst"


class Tally:
    """How many answers passed, failed and were skipped."""

    def __init__(self):
        self.passed = self.failed = self.skipped = 0

    def count(self, holds, what):
        self.passed, self.failed = self.passed + holds, self.failed + (not holds)
        if not holds:
            print("wrong: %s" % what, flush=True)

    def has(self, program, what):
        """The path of the program, if it is there; else what it would judge is skipped."""
        path = debian_coinst() if program == PAIRER else shutil.which(program)
        if not path:
            self.skip("%s is missing, so %s is taken unseen" % (program, what))
        return path

    def skip(self, why):
        self.skipped += 1
        print("SKIPPED: %s" % why, file=sys.stderr)


def ask(where, words):
    return subprocess.run([BUILT] + words, cwd=where, stdin=subprocess.DEVNULL, capture_output=True, timeout=600)


def answer_of(report):
    return report.split(b"\n", 1)[0].decode()


def is_refuted(path):
    return subprocess.run([SOLVER, "-q", "-n", "-d", "0", path], stdin=subprocess.DEVNULL, capture_output=True, timeout=60).returncode == 20


def log_holds(where, kernel, report, goals):
    """Whether each step of the log is refuted by unit propagation, and the log is not idle."""
    with tempfile.TemporaryDirectory(dir=where) as folder:
        path = os.path.join(folder, "report")
        with open(path, "wb") as out:
            out.write(report)
        subprocess.run([WRITER, os.path.join(where, kernel), path, folder] + goals, check=True, stdout=subprocess.DEVNULL)
        steps = sorted(name for name in os.listdir(folder) if name.startswith("step-"))
        idle = len(steps) > 1 and is_refuted(os.path.join(folder, "formula.cnf"))
        return bool(steps) and not idle and all(is_refuted(os.path.join(folder, step)) for step in steps)


def cut_out(path, wanted, to):
    """Writes the stanzas of the wanted (name, version); how many there are."""
    with open(path, encoding="utf-8", errors="surrogateescape") as file:
        stanzas = re.split(r"\n\n+", file.read())
    field = {name: re.compile(r"^%s: *(\S+)" % name, re.M) for name in ("Package", "Version")}
    kept = [stanza for stanza in stanzas if stanza.strip() and tuple(field[name].search(stanza)[1] for name in ("Package", "Version")) in wanted]
    with open(to, "w", encoding="utf-8", errors="surrogateescape") as out:
        out.write("\n\n".join(stanza.rstrip("\n") for stanza in kept) + "\n")
    return len(kept)


def installed_by(report):
    lines = (line.split() for line in report.decode().splitlines()[1:])
    return {(words[1], words[2]) for words in lines if words[0] == "install"}


def installation_holds(where, path, report):
    """Whether dose finds that the printed packages can all be installed together, and no other is needed."""
    wanted, cut = installed_by(report), os.path.join(where, "installed")
    count = cut_out(path, wanted, cut)
    done = subprocess.run([INSTALLER, "--deb-native-arch=amd64", "-f", cut], stdin=subprocess.DEVNULL, capture_output=True, text=True, timeout=600)
    # What can be installed is printed in stanzas, and a name such as libroken19-heimdal may have the word in it.
    broken = re.search(r"^ *status: broken", done.stdout, re.M)
    return count == len(wanted) and done.returncode == 0 and not broken


def never_by_dose(path):
    """The (name, version) that dose finds broken."""
    words = [CHECKER, "--deb-native-arch=amd64", "-f", path]
    done = subprocess.run(words, stdin=subprocess.DEVNULL, capture_output=True, text=True, timeout=3600)
    found = set(re.findall(r"^ *package: (\S+)\n *version: (\S+)\n(?: *(?!package|status)\S+: .*\n)* *status: broken", done.stdout, re.M))
    told = re.search(r"^broken-packages: (\d+)$", done.stdout, re.M)
    if not told or int(told[1]) != len(found):
        raise RuntimeError("%s ended with %d, and not with the packages that it counts" % (CHECKER, done.returncode))
    return found


def never_by_program(where, text):
    """The members of the classes of a kernel of which no member can be installed: one of each class with a clause is asked for."""
    never, classes = set(), []
    for line in text.splitlines():
        word, *rest = line.split()
        if word == "class":
            classes.append(([], []))
        elif word in ("member", "needs"):
            classes[-1][word == "needs"].append(tuple(rest))
    for members, clauses in classes:
        dead = () in clauses
        if dead or (clauses and answer_of(ask(where, ["query", "--kernel", "kernel", "=".join(members[0])]).stdout) == "no"):
            never |= set(members)
    return never


def write_kernel(where, path):
    with open(os.path.join(where, "kernel"), "wb") as out:
        out.write(ask(where, ["kernel", path]).stdout)
    with open(os.path.join(where, "kernel"), encoding="utf-8") as file:
        return file.read()


def compare(where, old, new):
    """The broken lines, and whether they are all lines."""
    report = ask(where, ["compare", old, new]).stdout.decode().splitlines()
    lines = [tuple(line.split()[1:]) for line in report if line.startswith("broken ")]
    return lines, bool(report) and report[-1] == "end %d 0" % len(lines)
