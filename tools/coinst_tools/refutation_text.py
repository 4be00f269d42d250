"""A refutation in Debian's words.

Lines are made with marks around what is a version, so that branches which are the same but for versions can be found and told as one: the
mention of a package, `NAME (either version)`, and the bound of a relation, `(= ..)`.
"""

from __future__ import annotations

import dataclasses
import re
import textwrap
import typing

from .debian_index import Index, Package, atoms_of
from .older import Older
from .refutation import Conflict, Goal, Held, Need, Nogood, Refutation, Way, is_short, lines_of, packages_in

SCREEN = 40  # lines of a reason that are told without --depth
FOLDED = 4  # steps of one way each that are told as one
BOUND = re.compile(r"\(\s*(<<|<=|=|>=|>>|<|>)\s*([^\s)]+)\s*\)")
MENTION = re.compile("\x01([^\x00]*)\x00([^\x02]*)\x02")
MARKED = re.compile("\x03([^\x04]*)\x04")
VERBS = {"conflicts": "conflicts with", "breaks": "breaks"}


@dataclasses.dataclass(frozen=True)
class Line:
    """A line before it is wrapped: how deep it stands, its bullet, and its text with marks."""

    indent: int
    bullet: str
    text: str

    def plain(self) -> str:
        """The text without versions."""
        return MARKED.sub("\x03\x04", MENTION.sub(lambda m: "\x01%s\x00\x02" % m[1], self.text))

    def wrapped(self, width: int) -> list[str]:
        """The text as it is printed; a relation stays on one line."""
        text = MENTION.sub(lambda m: m[1] + ("\xa0" + m[2].replace(" ", "\xa0") if m[2] else ""), self.text)
        text = BOUND.sub(lambda m: "(%s\xa0%s)" % m.groups(), MARKED.sub(r"\1", text))
        pad = "  " * self.indent
        lines = textwrap.wrap(text, width, initial_indent=pad + self.bullet, subsequent_indent=pad + " " * len(self.bullet) + "  ",
                              break_long_words=False, break_on_hyphens=False)  # fmt: skip
        return [line.replace("\xa0", " ") for line in lines]


Block = typing.List[Line]


def marked(relation: str) -> str:
    """A relation with marks around its bounds."""
    return BOUND.sub("(\\1 \x03\\2\x04)", relation)


def plain_text(text: str) -> str:
    """A phrase without its marks, on one line."""
    return " ".join(Line(0, "", text).wrapped(1_000_000))


def is_same(blocks: typing.Sequence[Block]) -> bool:
    """Whether blocks are the same but for versions."""
    return len({tuple((line.indent, line.bullet, line.plain()) for line in block) for block in blocks}) == 1


def as_one(blocks: typing.Sequence[Block], note: dict[str, str]) -> Block:
    """Blocks that are the same but for versions as one; `note` says which versions of a name they are about, at its first mention."""
    left = dict(note)
    made: Block = []
    for lines in zip(*blocks):
        texts = [line.text for line in lines]
        mentions, bounds = (list(zip(*(found.findall(text) for text in texts))) for found in (MENTION, MARKED))

        def mention(match: re.Match[str], rows: typing.Iterator[typing.Any] = iter(mentions)) -> str:
            row = next(rows)
            return match[0] if len(set(row)) == 1 else "\x01%s\x00%s\x02" % (match[1], left.pop(match[1], ""))

        def bound(match: re.Match[str], rows: typing.Iterator[typing.Any] = iter(bounds)) -> str:
            return match[0] if len(set(next(rows))) == 1 else "\x03..\x04"

        made.append(dataclasses.replace(lines[0], text=MARKED.sub(bound, MENTION.sub(mention, texts[0]))))
    return made


class Phrases:
    """Parts of sentences about packages of an index."""

    def __init__(self, index: Index, older: Older | None = None) -> None:
        self.index, self.older = index, older

    def name(self, p: Held) -> str:
        """The mention of a package, with its version if the index has several."""
        if isinstance(p, Goal):
            return p.word
        return "\x01%s\x00%s\x02" % (p.name, p.version if len(self.index.named[p.name]) > 1 else "")

    def names(self, packages: typing.Iterable[Package]) -> str:
        return " and ".join(sorted(map(self.name, packages)))

    def relation(self, owner: Held, element: str) -> str:
        """A relation as it is written, and whether it is new."""
        is_new = self.older and not isinstance(owner, Goal) and self.older.is_new(owner, element)
        return marked(element) + (" (new)" if is_new else "")

    def offer(self, p: Package, element: str) -> str:
        """How a package satisfies an element: its name, and what it provides if its own name does not say it."""
        atoms = [a for a in atoms_of(element) if p in self.index.meeting_atom(a)]
        if any(a.name == p.name for a in atoms):
            return self.name(p)
        return "%s, which provides %s" % (self.name(p), self.provided(p, atoms[0].name, bool(atoms[0].operator)))

    def provided(self, p: Package, name: str, with_version: bool) -> str:
        version = next((v for q, v in self.index.offers[name] if q is p and v), None) if with_version else None
        return name + (" (= \x03%s\x04)" % version if version else "")

    def is_by_name(self, p: Package, element: str) -> bool:
        """Whether an element of one alternative is the name of the package."""
        return "|" not in element and self.offer(p, element) == self.name(p)

    def clash(self, one: Package, other: Package) -> str:
        """Why two packages conflict, with the first as the subject if it declares it."""
        if one.name == other.name:
            return "only one version of %s can be installed, and not %s with %s" % (one.name, one.version, other.version)
        mine, kind, text = min(self.index.declared(one, other), key=lambda told: self.rank(told, one, other))
        his = other if mine is one else one
        new = " (new)" if self.older and self.older.is_new_conflict(mine, his) else ""
        atom = atoms_of(text)[0]
        if atom.name != his.name:
            return "%s %s %s%s, which %s provides" % (self.name(mine), VERBS[kind], marked(text), new, self.name(his))
        here = " (here \x03%s\x04)" % his.version if atom.operator else ""
        return "%s %s %s%s%s" % (self.name(mine), VERBS[kind], marked(text) if atom.operator else self.name(his), here, new)

    def rank(self, told: tuple[Package, str, str], one: Package, other: Package) -> tuple[bool, ...]:
        """Which of the conflicts that two packages declare is told: the least, and at equal rank one by the other's own name."""
        mine, kind, text = told
        his = other if mine is one else one
        return not self.is_always(mine, one, other), mine is not one, kind != "conflicts", atoms_of(text)[0].name != his.name

    def is_always(self, mine: Package, one: Package, other: Package) -> bool:
        """Whether all versions of the name of a package declare against all of the other's."""
        his = other if mine is one else one
        mine_all, his_all = self.index.named[mine.name], self.index.named[his.name]
        return all(any(who is p for who, _, _ in self.index.declared(p, q)) for p in mine_all for q in his_all)

    def nothing(self, owner: Held, element: str) -> str:
        """What is there in place of what nothing satisfies."""
        had = [self.had(atom.name) for atom in atoms_of(element)]
        before = self.older and not isinstance(owner, Goal) and self.older.satisfied(owner, element)
        was = "; in %s %s satisfied it" % (self.older.label, before) if self.older and before else ""
        return "which nothing satisfies: the index has %s%s" % ("; ".join(dict.fromkeys(had)), was)

    def had(self, name: str) -> str:
        """What the index has of a name."""
        offers = self.index.offers.get(name, [])
        if not offers:
            near = self.index.other_versions(name) or self.index.other_hash(name)
            near[3:] = [".."] if len(near) > 3 else []
            return "no %s" % name + (", but %s" % ", ".join(near) if near else "")
        told = [self.by_itself(p, version) if p.name == name else self.by_another(p, name, version) for p, version in offers]
        return " and ".join(told[:3]) + (" and %d more" % (len(told) - 3) if len(told) > 3 else "")

    def by_itself(self, p: Package, version: str | None) -> str:
        return "%s \x03%s\x04" % (p.name, version)

    def by_another(self, p: Package, name: str, version: str | None) -> str:
        what = "%s (= \x03%s\x04)" % (name, version) if version else "%s without a version" % name
        return "%s \x03%s\x04, which provides %s" % (p.name, p.version, what)

    def absent(self, element: str) -> list[str]:
        """The alternatives that nothing in the index satisfies: no case of the proof, yet a reader looks for them."""
        texts = [text.strip() for text in element.split("|")]
        return ["%s: nothing satisfies it" % marked(text) for text in texts if not self.index.meeting(text)] if len(texts) > 1 else []


class Teller:
    """Tells one refutation; `depth` is how many levels of cases are told, and `left_out` how many cases were not."""

    def __init__(self, phrases: Phrases, found: Refutation, depth: int | None, whole: bool) -> None:
        self.phrases, self.why, self.found = phrases, found.why, found
        self.depth, self.fold, self.left_out = depth, not whole, 0
        self.number: dict[Nogood, int] = {}

    def lines(self) -> Block:
        goals = self.found.goals
        out = [Line(0, "", "cannot be installed%s: %s" % (" together" if len(goals) > 1 else "", ", ".join(goals)))]
        out += self.tell_lemmas()
        return out + self.tell(self.found.root, 1, self.depth)

    def tell_lemmas(self) -> Block:
        """The lemmas by their numbers; those that are the same but for versions have one."""
        groups: list[list[tuple[Nogood, Block]]] = []
        for nogood in self.found.lemmas:
            title = "%s cannot be installed%s:" % (self.phrases.names(packages_in(nogood)), " together" if len(nogood) > 1 else "")
            block = [Line(1, "", title), *self.tell(nogood, 2, self.depth, True)]
            group = next((g for g in groups if is_same([g[0][1], block])), None)
            if group is None:
                groups.append([])
                group = groups[-1]
            group.append((nogood, block))
            self.number[nogood] = groups.index(group) + 1
        out: Block = []
        for place, group in enumerate(groups):
            packages = [p for nogood, _ in group for p in packages_in(nogood)]
            block = as_one([block for _, block in group], self.note(packages))
            out += [dataclasses.replace(block[0], bullet="(%d) " % (place + 1)), *block[1:]]
        return out

    def note(self, packages: typing.Iterable[Package]) -> dict[str, str]:
        """How the versions of each name that is meant are called."""
        versions: dict[str, list[str]] = {}
        for p in packages:
            if p.version not in versions.setdefault(p.name, []):
                versions[p.name].append(p.version)
        return {name: self.called(name, mine) for name, mine in versions.items()}

    def called(self, name: str, versions: list[str]) -> str:
        if len(versions) < len(self.phrases.index.named[name]):
            return "(%s)" % " or ".join(versions)
        return "(either version)" if len(versions) == 2 else "(any version)"

    # Sentences

    def by_lemma(self, q: Package, nogood: Nogood) -> str:
        others = self.phrases.names(p for p in packages_in(nogood) if p is not q)
        return "%s cannot be installed%s, by (%d)" % (self.phrases.name(q), " with " + others if others else "", self.number[nogood])

    def short(self, way: Way) -> str:
        """The failure of a way in one clause that begins with its package if it can."""
        reason, q, say = self.why[way.nogood], way.package, self.phrases
        if way.nogood in self.number:
            return self.by_lemma(q, way.nogood)
        if isinstance(reason, Conflict):
            return say.clash(q, reason.other if reason.one is q else reason.one)
        depends = "%s depends on %s" % (say.name(q), say.relation(q, reason.element))
        if not reason.ways:
            return "%s, %s" % (depends, say.nothing(q, reason.element))
        (under,) = reason.ways
        how = say.offer(under.package, reason.element)
        if how != say.name(under.package) or "|" in reason.element:
            depends += ": only " + how
        return "%s; %s" % (depends, self.short(under))

    def short_by(self, way: Way, how: str) -> str:
        """The failure of a way, whose package is called as it satisfies the relation."""
        name, told = self.phrases.name(way.package), self.short(way)
        if not told.startswith(name):
            return "%s: %s" % (how, told)
        return how + ("," if how != name else "") + told[len(name) :]

    def is_short(self, way: Way) -> bool:
        return is_short(self.why, way, self.number)

    def tell(self, nogood: Nogood, indent: int, depth: int | None, top: bool = False) -> Block:
        """The steps from a nogood to its end."""
        return Telling(self, indent, depth).tell(nogood, top)

    def cases(self, head: str, need: Need, indent: int, depth: int | None) -> Block:
        """A relation each way to satisfy which fails; ways that are the same but for versions as one."""
        ways = sorted(need.ways, key=lambda way: not self.is_short(way))
        named: dict[str, list[tuple[Package, Block]]] = {}
        out = [Line(indent, "", head)]
        for way in ways:
            named.setdefault(way.package.name, []).append((way.package, self.case(way, need, indent + 1, depth)))
        for mine in named.values():
            out += self.grouped(mine)
        is_relation = not isinstance(need.owner, Goal)
        return out + [Line(indent + 1, "* ", text) for text in (self.phrases.absent(need.element) if is_relation else ())]

    def grouped(self, told: list[tuple[Package, Block]]) -> Block:
        """The blocks of some versions of a name, those that are the same but for versions as one."""
        groups: list[list[tuple[Package, Block]]] = []
        for package, block in told:
            group = next((g for g in groups if is_same([g[0][1], block])), None)
            if group is None:
                groups.append([(package, block)])
            else:
                group.append((package, block))
        return [line for group in groups for line in as_one([block for _, block in group], self.note(p for p, _ in group))]

    def case(self, way: Way, need: Need, indent: int, depth: int | None) -> Block:
        """One way to satisfy a relation, and how it fails."""
        how = self.phrases.name(way.package) if isinstance(need.owner, Goal) else self.phrases.offer(way.package, need.element)
        if self.is_short(way):
            return [Line(indent, "* ", self.short_by(way, how))]
        if depth == 0:
            self.left_out += 1
            return [Line(indent, "* ", "with %s: it fails, in %d steps" % (how, lines_of(self.why, way.nogood)))]
        below = self.tell(way.nogood, indent + 1, None if depth is None else depth - 1)
        return [Line(indent, "* ", "with %s:" % how), *below]


class Telling:
    """Steps one after another, as sentences: a step that goes on with the package of the last one is told in its sentence."""

    def __init__(self, teller: Teller, indent: int, depth: int | None) -> None:
        self.teller, self.why, self.say = teller, teller.why, teller.phrases
        self.indent, self.depth, self.out = indent, depth, typing.cast(Block, [])
        self.sentence, self.last = "", typing.cast(typing.Optional[Package], None)

    def flush(self) -> None:
        if self.sentence:
            self.out.append(Line(self.indent, "", self.sentence))
        self.sentence = ""

    def add(self, owner: Held, text: str) -> None:
        if self.sentence and owner is self.last:
            self.sentence += ", which " + text
        else:
            self.flush()
            self.sentence = "%s %s" % (self.say.name(owner), text)

    def end(self, text: str) -> Block:
        self.flush()
        self.out.append(Line(self.indent, "=> ", text))
        return self.out

    def tell(self, nogood: Nogood, top: bool) -> Block:
        while True:
            reason = self.why[nogood]
            if nogood in self.teller.number and not top:
                return self.end("%s: not together, by (%d)" % (self.say.names(packages_in(nogood)), self.teller.number[nogood]))
            top = False
            if isinstance(reason, Conflict):
                return self.end(self.say.clash(*sorted((reason.one, reason.other), key=lambda p: (p.name, p.place))))
            following = self.goal(reason) if isinstance(reason.owner, Goal) else self.step(nogood, reason)
            if following is None:
                self.flush()
                return self.out
            nogood = following

    def goal(self, need: Need) -> Nogood | None:
        """Goes on with the package of a goal; with several versions that are told alike, with all of them."""
        if len(need.ways) == 1:
            return need.ways[0].nogood
        self.flush()
        blocks = [Telling(self.teller, self.indent, self.depth).tell(way.nogood, False) for way in need.ways]
        if is_same(blocks):
            self.out += as_one(blocks, self.teller.note(way.package for way in need.ways))
        else:
            head = "%s is one of %s; each fails:" % (need.owner, ", ".join(str(way.package) for way in need.ways))
            self.out += self.teller.cases(head, need, self.indent, self.depth)
        return None

    def step(self, nogood: Nogood, need: Need) -> Nogood | None:
        """A need: what is left to be refuted after it, if something is."""
        depends = "depends on " + self.say.relation(need.owner, need.element)
        if not need.ways:
            self.add(need.owner, "%s, %s" % (depends, self.say.nothing(need.owner, need.element)))
            return None
        chain = self.chain(nogood) if self.teller.fold else []
        if len(chain) >= FOLDED:
            return self.folded(chain)
        long = [way for way in need.ways if not self.teller.is_short(way)]
        if len(long) == 1:
            return self.unit_step(need, long[0], depends)
        if len(need.ways) > 1 and self.versions(need, depends):
            return None
        if len(need.ways) == 1 and not self.say.absent(need.element):
            self.last_step(need, need.ways[0], depends)
            return None
        self.add(need.owner, depends + "; each way fails:")
        head, self.sentence = self.sentence, ""
        self.out += self.teller.cases(head, need, self.indent, self.depth)
        return None

    def versions(self, need: Need, depends: str) -> bool:
        """Tells a relation that versions of one name satisfy, and goes on with all of them, if they are the same from here."""
        names = {way.package.name for way in need.ways}
        if len(names) > 1 or self.say.absent(need.element) or self.depth == 0:
            return False
        blocks = [self.version(need, way, depends) for way in need.ways]
        if not is_same(blocks):
            return False
        self.sentence = ""
        self.out += as_one(blocks, self.teller.note(way.package for way in need.ways))
        return True

    def version(self, need: Need, way: Way, depends: str) -> Block:
        """A relation as if one version alone satisfied it, and all that follows."""
        one = Telling(self.teller, self.indent, self.depth)
        one.sentence, one.last = self.sentence, self.last
        plain = self.say.is_by_name(way.package, need.element)
        one.add(need.owner, depends if plain else "%s: only %s" % (depends, self.say.offer(way.package, need.element)))
        if not plain:
            one.flush()
        one.last = way.package
        return one.tell(way.nogood, False)

    def unit_step(self, need: Need, way: Way, depends: str) -> Nogood:
        """All ways but one fail at once."""
        sides = [line.text for line in self.sides(need, way)] + self.say.absent(need.element)
        plain = not sides and self.say.is_by_name(way.package, need.element)
        how = self.say.offer(way.package, need.element)
        self.add(need.owner, depends + ("" if plain else ": only " + how if not sides else ": %s; so %s" % ("; ".join(sides), how)))
        if not plain:
            self.flush()
        self.last = way.package
        return way.nogood

    def sides(self, need: Need, main: Way) -> Block:
        """How the other ways fail, those that are the same but for versions as one."""
        named: dict[str, list[tuple[Package, Block]]] = {}
        for way in need.ways:
            if way is not main:
                how = self.say.offer(way.package, need.element)
                told = self.teller.short(way) if how == self.say.name(way.package) else self.teller.short_by(way, how)
                named.setdefault(way.package.name, []).append((way.package, [Line(0, "", told)]))
        return [line for mine in named.values() for line in self.teller.grouped(mine)]

    def last_step(self, need: Need, way: Way, depends: str) -> None:
        """The only way fails at once."""
        plain = self.say.is_by_name(way.package, need.element)
        self.add(need.owner, depends if plain else "%s: only %s" % (depends, self.say.offer(way.package, need.element)))
        self.end(self.teller.short(way))

    def chain(self, nogood: Nogood) -> list[Need]:
        """The steps from here that have one way each, each with the package of the one before."""
        chain: list[Need] = []
        while nogood not in self.teller.number or not chain:
            need = self.why[nogood]
            if isinstance(need, Conflict) or len(need.ways) != 1 or self.teller.is_short(need.ways[0]) or self.say.absent(need.element):
                break
            if chain and need.owner is not chain[-1].ways[0].package:
                break
            chain.append(need)
            nogood = need.ways[0].nogood
        return chain

    def folded(self, chain: list[Need]) -> Nogood:
        """Steps of one way each as one; the relations are left to --whole."""
        self.flush()
        names = [self.say.name(chain[0].owner), *(self.say.name(need.ways[0].package) for need in chain)]
        news = [place for place, need in enumerate(chain) if self.say.relation(need.owner, need.element).endswith("(new)")]
        told = [name + " (new)" if place - 1 in news else name for place, name in enumerate(names)]
        self.out.append(Line(self.indent, "", "each depends on something that only the next one is or provides: " + ", ".join(told)))
        self.last = chain[-1].ways[0].package
        return chain[-1].ways[0].nogood


def told(index: Index, found: Refutation, depth: int | None, whole: bool, width: int, older: Older | None) -> tuple[list[str], int]:
    """The text at a depth, and how many cases are left out of it."""
    teller = Teller(Phrases(index, older), found, depth, whole)
    lines = teller.lines()
    return [text for line in lines for text in line.wrapped(width)], teller.left_out


def text(index: Index, found: Refutation, depth: int | None, whole: bool, width: int, older: Older | None = None) -> str:
    """A refutation in words: to a depth, whole, or as deep as a screen takes."""
    lines, left_out = told(index, found, None if whole else depth, whole, width, older)
    if depth is None and not whole and len(lines) > SCREEN:
        lines, left_out, depth = fitting(index, found, width, older)
    if left_out:
        lines.append("  (%d case%s not told: --depth %d goes deeper, --whole tells all)" % (left_out, " is" if left_out == 1 else "s are", (depth or 0) + 1))
    if not found.least:
        lines.append("  (a shorter one may exist)")
    return "".join(line + "\n" for line in lines)


def fitting(index: Index, found: Refutation, width: int, older: Older | None) -> tuple[list[str], int, int]:
    """The text at the greatest depth that a screen takes, and at least at depth 0."""
    best = (*told(index, found, 0, False, width, older), 0)
    for depth in range(1, 100):
        lines, left_out = told(index, found, depth, False, width, older)
        if len(lines) > SCREEN or not left_out:
            return best if len(lines) > SCREEN else (lines, left_out, depth)
        best = lines, left_out, depth
    return best
