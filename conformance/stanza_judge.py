"""What packages can be installed together, judged on the stanzas of an index by a SAT solver.

It shares no code with the program, and none with tools/: it has its own reading of stanzas, its own order of versions and its own
formula, which is of packages and knows neither kernels nor classes. It takes only what the program has accepted.
"""
import collections
import functools
import re
import subprocess

RELATIONS = ("pre-depends", "depends", "conflicts", "breaks", "provides")
WANTED = frozenset(("package", "version", "architecture") + RELATIONS)
ATOM = re.compile(r"([^ (:]+)(?::([^ (]+))? ?(?:\( ?([<>=]+) ?([^ )]+) ?\))?$")
SATISFIABLE, REFUTED = 10, 20


def rank(text, place):
    """Where a character stands in the order of versions; a digit and the end of the text stand between `~` and all others."""
    if place >= len(text) or text[place].isdigit():
        return 0
    return -1 if text[place] == "~" else ord(text[place]) + (0 if text[place].isalpha() else 256)


def compare_parts(one, other):
    """Compares upstream versions, or revisions, as dpkg does: by turns what has no digit, and numbers."""
    i = j = 0
    while i < len(one) or j < len(other):
        while (i < len(one) and not one[i].isdigit()) or (j < len(other) and not other[j].isdigit()):
            if rank(one, i) != rank(other, j):
                return rank(one, i) - rank(other, j)
            i, j = i + 1, j + 1
        first, second = i, j
        while i < len(one) and one[i].isdigit():
            i += 1
        while j < len(other) and other[j].isdigit():
            j += 1
        left, right = int(one[first:i] or "0"), int(other[second:j] or "0")
        if left != right:
            return left - right
    return 0


@functools.lru_cache(None)
def parts_of(version):
    """Epoch, upstream version and revision."""
    epoch, rest = version.split(":", 1) if ":" in version else ("0", version)
    upstream, revision = rest.rsplit("-", 1) if "-" in rest else (rest, "0")
    return epoch, upstream, revision


@functools.lru_cache(None)
def compare_versions(one, other):
    for mine, his in zip(parts_of(one), parts_of(other)):
        sign = compare_parts(mine, his)
        if sign:
            return sign
    return 0


def is_within(version, operator, bound):
    sign = compare_versions(version, bound)
    return {"<<": sign < 0, "<=": sign <= 0, "<": sign <= 0, "=": sign == 0, ">": sign >= 0, ">=": sign >= 0, ">>": sign > 0}[operator]


def elements_of(value):
    return [element for element in (" ".join(part.split()) for part in value.split(",")) if element]


class Package:
    """A stanza, as far as it decides what can be installed."""

    def __init__(self, fields):
        self.name, self.version = fields["package"].strip(), fields["version"].strip()
        self.architecture = fields.get("architecture", "all").strip()
        relations = [elements_of(fields.get(kind, "")) for kind in RELATIONS]
        self.needs, self.against, self.provides = relations[0] + relations[1], relations[2] + relations[3], relations[4]


def stanzas_of(path):
    """The wanted fields of each stanza, by their names in small letters."""
    fields, last = {}, None
    with open(path, encoding="latin-1", newline="\n") as file:
        for line in file:
            if line[0] in " \t" and line.strip():
                if last:
                    fields[last] += " " + line
            elif not line.strip():
                if fields:
                    yield fields
                fields, last = {}, None
            else:
                name, _, value = line.partition(":")
                last = name.lower() if name.lower() in WANTED else None
                if last:
                    fields[last] = value
    if fields:
        yield fields


class Judge:
    """The packages of an index, and what they say of each other."""

    def __init__(self, path):
        self.packages = [Package(fields) for fields in stanzas_of(path)]
        self.named = collections.defaultdict(list)
        self.offers = collections.defaultdict(list)
        self.home = next((package.architecture for package in self.packages if package.architecture != "all"), None)
        self.met = {}
        for package in self.packages:
            self.named[package.name].append(package)
            self.offers[package.name].append((package, package.version))
        for package in self.packages:
            for element in package.provides:
                name, qualifier, _, version = ATOM.match(element).groups()
                if self.is_ours(qualifier):
                    self.offers[name].append((package, version))

    def is_ours(self, qualifier):
        return qualifier in (None, "any", "native", "all", self.home)

    def meeting(self, element):
        """The packages that meet one of the alternatives of an element."""
        if element not in self.met:
            found = {}
            for alternative in element.split("|"):
                name, qualifier, operator, bound = ATOM.match(alternative.strip()).groups()
                for package, version in self.offers.get(name, ()) if self.is_ours(qualifier) else ():
                    if not operator or (version and is_within(version, operator, bound)):
                        found[package] = True
            self.met[element] = list(found)
        return self.met[element]

    def within_reach(self, packages):
        """The packages, and all that they lead to by needs, each with a number from 1."""
        numbers, todo = {}, list(packages)
        while todo:
            package = todo.pop()
            if package not in numbers:
                numbers[package] = len(numbers) + 1
                todo += [other for element in package.needs for other in self.meeting(element) if other not in numbers]
        return numbers

    def conflicts(self, packages):
        """The pairs among the packages that say so, or that have one name."""
        names = {}
        for package in packages:
            for other in names.setdefault(package.name, []):
                yield package, other
            names[package.name].append(package)
            for element in package.against:
                yield from ((package, other) for other in self.meeting(element) if other in packages and other is not package)

    def formula(self, names):
        """The clauses that hold together exactly if a package of each name can be installed, all in one installation."""
        numbers = self.within_reach(package for name in names for package in self.named[name])
        clauses = [[numbers[package] for package in self.named[name]] for name in names]
        for package, number in numbers.items():
            clauses += [[-number] + [numbers[other] for other in self.meeting(element)] for element in package.needs]
        clauses += [[-numbers[one], -numbers[other]] for one, other in self.conflicts(numbers)]
        return len(numbers), clauses

    def can_install(self, *names):
        """What the solver says of a package of each name, together."""
        variables, clauses = self.formula(names)
        text = "p cnf %d %d\n" % (variables, len(clauses)) + "".join(" ".join(map(str, clause)) + " 0\n" for clause in clauses)
        done = subprocess.run(["cadical", "-q", "-n"], input=text, encoding="ascii", stdout=subprocess.DEVNULL, timeout=600)
        if done.returncode not in (SATISFIABLE, REFUTED):
            raise RuntimeError("cadical ended with %d" % done.returncode)
        return done.returncode == SATISFIABLE

    def holds(self, chosen, names):
        """Whether the chosen (name, version) are packages of the index that are an installation with one of each name; no solver is asked."""
        inside = {package for package in self.packages if (package.name, package.version) in chosen}
        met = all(any(other in inside for other in self.meeting(element)) for package in inside for element in package.needs)
        wanted = set(names) <= {package.name for package in inside}
        return len(inside) == len(chosen) and wanted and met and not any(True for _ in self.conflicts(inside))
