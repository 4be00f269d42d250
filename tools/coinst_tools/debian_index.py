"""Reads Packages indexes: stanzas, atoms, versions, and which package meets what.

All scripts share it. It reads an index as coinst does once coinst has accepted it: faults of form are coinst's to
tell, and only what stops the reading here raises BadIndex. Bytes that are no UTF-8 are kept as they are. It shares no code
with the program.
"""

from __future__ import annotations

import bisect
import collections
import collections.abc
import contextlib
import functools
import gc
import importlib
import io
import itertools
import operator
import os
import re
import shutil
import sys
import typing

NEED, AGAINST = ("pre-depends", "depends"), ("conflicts", "breaks")
TEXT: dict[str, typing.Any] = {"encoding": "utf-8", "errors": "surrogateescape"}
FIELD = re.compile(rb"^([!-9;-~]+):[ \t]*([^\n]*(?:\n[ \t][^\n]*)*)", re.M)
VALUE = rb":[ \t]*([^\n]*(?:\n[ \t]+[^ \t\n][^\n]*)*)"
USED_FIELD = re.compile(rb"^(Package|Source|Version|Architecture|Pre-Depends|Depends|Conflicts|Breaks|Provides)" + VALUE, re.M | re.I)
HEAD = re.compile(rb"Package: ([!-~]+)\n(?![ \t])(?:[^V\n][^\n]*\n)*Version: ([!-~]+)\n(?![ \t])")
NAME, VERSION = (re.compile(rb"\n" + field + VALUE, re.I) for field in (b"Package", b"Version"))
ARCHITECTURE, PROVIDES = (re.compile(rb"\n" + field + VALUE, re.I) for field in (b"Architecture", b"Provides"))
RELATION = re.compile(rb"\n(Pre-Depends|Depends|Conflicts|Breaks|Provides)" + VALUE, re.I)
DEPENDS = re.compile(rb"\n(?:Pre-)?Depends" + VALUE, re.I)
ASKED = re.compile(rb"(?:^|[,|])\s*([^\s:(,|]+)")
SOURCE = re.compile(rb"\nSource" + VALUE, re.I)
BLANK_LINE = re.compile(rb"\n[ \t]*(?=\n)")
FIRST_LINE = re.compile(rb"(?:[ \t]*\n)*")
PROVIDED = re.compile(r"(?:^|,)\s*([^\s:(,|]+)(?::([^\s(,|]+))?\s*(?:\(\s*=\s*([^\s),|]+)\s*\))?\s*(?=,|$)")
KINDS = [(kind.encode(), kind) for kind in NEED + AGAINST + ("provides",)]
ATOM = re.compile(r"\s*([^\s:(]+)(?::([^\s(]+))?\s*(?:\(\s*(<<|<=|=|>=|>>|<|>)\s*([^\s)]+)\s*\))?\s*$")
DIGITS = re.compile(r"[0-9][0-9.]*")
PACKED = {b"\x1f\x8b": "gzip", b"\xfd7zXZ\x00": "xz", b"BZh": "bzip2", b"\x28\xb5\x2f\xfd": "zstd", b"\x04\x22\x4d\x18": "lz4"}
UNPACKERS = {"gzip": "gzip", "xz": "lzma", "bzip2": "bz2"}
PLACE = operator.attrgetter("place")
Key = typing.Any  # lists of numbers that compare as a version does
TESTS: dict[str, typing.Callable[[Key, Key], bool]] = {
    "<<": operator.lt, "<=": operator.le, "<": operator.le, "=": operator.eq, ">": operator.ge, ">=": operator.ge, ">>": operator.gt,
}


class BadIndex(Exception):
    """Why a file cannot be read as an index, with its path and, where there is one, its line."""


# Versions


def digits_key(digits: str) -> tuple[int, str]:
    """Runs of digits compare as numbers, however long they are."""
    plain = digits.lstrip("0")
    return len(plain), plain


def part_key(part: str) -> list[Key]:
    """Compares as the part of a version does: `~`, the end, letters, other characters; runs of digits as numbers."""
    key: list[Key] = []
    for plain, digits in re.findall(r"([^0-9]*)([0-9]*)", part):
        key += [[-1 if c == "~" else ord(c) if c.isalpha() else 256 + ord(c) for c in plain] + [0], digits_key(digits)]
    return key


@functools.lru_cache(None)
def version_key(text: str) -> tuple[Key, list[Key], list[Key]]:
    """What compares as the version does: epoch, upstream, revision."""
    epoch, _, rest = text.partition(":") if ":" in text else ("0", "", text)
    upstream, _, revision = rest.rpartition("-") if "-" in rest else (rest, "", "0")
    return digits_key(epoch), part_key(upstream), part_key(revision)


# Relations


class Atom(typing.NamedTuple):
    """`name:qualifier (operator version)`, of which all but the name may be None."""

    name: str
    qualifier: str | None
    operator: str | None
    version: str | None


@functools.lru_cache(None)
def parse_atom(text: str) -> Atom:
    found = ATOM.match(text)
    if not found:
        raise BadIndex("bad relation: %s" % text.strip())
    return Atom(*found.groups())


def atoms_of(element: str) -> list[Atom]:
    return [parse_atom(text) for text in element.split("|")]


def elements_of(value: str) -> list[str]:
    """The elements of a relation field, each as it is written but for the white space around it and its line ends."""
    elements = [stripped for element in value.split(",") if (stripped := element.strip())]
    return [re.sub(r"\n[ \t]+", " ", element) for element in elements] if "\n" in value else elements


# Stanzas


def unpacked(path: str, data: bytes) -> bytes:
    """The same bytes, decompressed if they are compressed."""
    packer = next((packer for magic, packer in PACKED.items() if data.startswith(magic)), None)
    if packer is None:
        return data
    if packer not in UNPACKERS:
        raise BadIndex("%s: compressed (%s): decompress it first" % (path, packer))
    try:
        return bytes(importlib.import_module(UNPACKERS[packer]).decompress(data))
    except (OSError, EOFError, ValueError, RuntimeError, importlib.import_module("lzma").LZMAError):
        raise BadIndex("%s: bad %s data" % (path, packer)) from None


def read_bytes(path: str) -> bytes:
    """A line feed and the bytes of a file, decompressed, so that each line begins after one; `-` is standard input."""
    try:
        with open(0 if path == "-" else path, "rb", closefd=path != "-") as file:
            whole = io.BytesIO(b"\n")
            whole.seek(1)
            shutil.copyfileobj(file, whole, 1 << 20)
            data = whole.getvalue()
    except OSError as fault:
        raise BadIndex("%s: %s" % (path, fault.strerror)) from None
    if data.startswith(tuple(PACKED), 1):
        return b"\n" + unpacked(path, data[1:])
    return data


@contextlib.contextmanager
def no_collection() -> typing.Iterator[None]:
    """Holds Python from looking for circles among objects while many are made, and from looking at these ever after."""
    was = gc.isenabled()
    gc.disable()
    try:
        yield
    finally:
        gc.freeze()
        if was:
            gc.enable()


def text_of(some: bytes) -> str:
    return some.decode(**TEXT)


@functools.lru_cache(None)
def elements_in(value: bytes) -> tuple[str, ...]:
    """The elements of a relation field by its bytes; many stanzas share them."""
    return tuple(elements_of(text_of(value).strip()))


@functools.lru_cache(None)
def source_in(value: bytes) -> str:
    """The source that a Source field names, by its bytes; many stanzas share them."""
    return sys.intern(re.split(r"[\s(]", text_of(value).strip(), 1)[0])


class Package:
    """What a stanza says of its package, as far as it bears on what can be installed; what `READ` names is read once it is asked for."""

    __slots__ = (
        "data", "start", "end", "place", "name", "version", "architecture", "relations", "needs", "source", "source_version", "text", "after",
    )

    data: bytes
    start: int
    end: int
    needs: list[str]
    after: frozenset[Package]

    def __init__(self, data: bytes, start: int, end: int, place: int, name: str, version: str) -> None:
        self.data, self.start, self.end, self.place, self.name, self.version = data, start, end, place, name, version

    def __getattr__(self, name: str) -> typing.Any:
        if name not in READ:
            raise AttributeError(name)
        value = READ[name](self)
        setattr(self, name, value)
        return value

    def __str__(self) -> str:
        return self.name + " " + self.version

    def fields(self, pattern: re.Pattern[bytes] = USED_FIELD) -> dict[str, str]:
        """The fields by their names in small letters: those that are used here, or all by the pattern FIELD."""
        return {text_of(name).lower(): text_of(value).strip() for name, value in pattern.findall(self.data, self.start, self.end)}

    def raw(self) -> bytes:
        """The stanza as it stands in the file, without the line feed at its end."""
        return self.data[self.start : self.end]

    def value(self, field: re.Pattern[bytes]) -> str | None:
        """The text of a field by its pattern; None where it is not there."""
        found = field.search(self.data, self.start - 1, self.end)
        return text_of(found[1]).strip() if found else None

    def read_architecture(self) -> str:
        value = self.value(ARCHITECTURE)
        return "all" if value is None else sys.intern(value)

    def read_relations(self) -> dict[str, tuple[str, ...]]:
        found = {name.lower(): value for name, value in RELATION.findall(self.data, self.start - 1, self.end)}
        return {kind: elements_in(found[key]) for key, kind in KINDS if key in found}

    def read_needs(self) -> list[str]:
        return [element for kind in NEED for element in self.relations.get(kind, ())]

    def read_source(self) -> str:
        found = SOURCE.search(self.data, self.start - 1, self.end)
        return (source_in(found[1]) if found else "") or self.name

    def read_source_version(self) -> str:
        named = re.match(r"[^\s(]*\s*\(\s*([^\s)]+)", self.value(SOURCE) or "")
        return named[1] if named else re.sub(r"\+b\d+$", "", self.version)

    def read_text(self) -> str:
        return self.stanza(NOTHING)

    def stanza(self, without: typing.Collection[tuple[str, str]] = ()) -> str:
        """What coinst uses of the stanza, less the (kind, element) of `without`."""
        if not without and without is not NOTHING:
            return str(self.text)
        lines = ["Package: " + self.name, "Version: " + self.version, "Architecture: " + self.architecture]
        for kind, elements in self.relations.items():
            kept = [element for element in elements if (kind, element) not in without] if without else elements
            lines += [kind.title() + ": " + ", ".join(kept)] if kept else []
        return "\n".join(lines) + "\n"


Offer = typing.Tuple[Package, typing.Optional[str]]
NOTHING: frozenset[tuple[str, str]] = frozenset()
READ: dict[str, typing.Callable[[Package], object]] = {
    "architecture": Package.read_architecture, "relations": Package.read_relations, "needs": Package.read_needs,
    "source": Package.read_source, "source_version": Package.read_source_version, "text": Package.read_text,
}


def read_packages(path: str, data: bytes, kind: type[Package] = Package, is_strict: bool = True) -> list[Package]:
    """The packages of a file in its order; of each its name and its version are read, which most often stand at its beginning.

    A stanza that lacks one of these is a fault, or is passed over.
    """
    packages: list[Package] = []
    start, match = 1, HEAD.match
    cuts = [blank.span() for blank in BLANK_LINE.finditer(data)]
    for end, after in [*cuts, (len(data), len(data))]:
        if found := match(data, start, end):  # as all stanzas of Debian begin
            name, version = map(bytes.decode, found.groups())
        else:
            first = FIRST_LINE.match(data, start, end)
            start = first.end() if first else start
            name, version = (text_of((field.findall(data, start - 1, end) or [b""])[-1]).strip() for field in (NAME, VERSION))
        if name and version:
            packages.append(kind(data, start, end, len(packages), name, version))
        elif is_strict and text_of(data[start:end]).strip():
            line = data.count(b"\n", 0, start)
            raise BadIndex("%s: line %d: no %s field" % (path, line, "Version" if name else "Package"))
        start = after + 1
    if packages:
        last = packages[-1]
        last.end = last.start + len(last.raw().rstrip(b"\n"))
    return packages


def packages_of(path: str, kind: type[Package] = Package) -> list[Package]:
    """The packages of a file; each has a name and a version."""
    with no_collection():
        return read_packages(path, read_bytes(path), kind)


def beside(packages: typing.Iterable[Package]) -> typing.Iterator[list[Package]]:
    """Runs of packages that stand one after the other in a file."""
    run: list[Package] = []
    for package in packages:
        if run and (package.data is not run[-1].data or package.start != run[-1].end + 2):
            yield run
            run = []
        run.append(package)
    if run:
        yield run


def sources_in(packages: typing.Iterable[Package]) -> typing.Iterator[tuple[str, Package]]:
    """Each package and its source; a search goes through a whole run, which takes a third of the time of one for each stanza."""
    for run in beside(packages):
        fields = SOURCE.finditer(run[0].data, run[0].start - 1, run[-1].end)
        place, value = next(((field.start(), field[1]) for field in fields), (run[-1].end, b""))
        for package in run:
            yield (source_in(value) if place < package.end else "") or package.name, package
            while place < package.end:  # the first field of a stanza counts
                place, value = next(((field.start(), field[1]) for field in fields), (run[-1].end, b""))


class Offers(typing.Mapping[str, typing.List[Offer]]):
    """Who offers a name, as (package, version or None), in file order: those that bear it, and those that provide it."""

    def __init__(self, named: dict[str, list[Package]], provided: dict[str, list[Offer]]) -> None:
        self.named, self.provided = named, provided

    def __getitem__(self, name: str) -> list[Offer]:
        found: list[Offer] | None = self.get(name)
        if found is None:
            raise KeyError(name)
        return found

    def get(self, name: str, default: typing.Any = None) -> typing.Any:
        packages, more = self.named.get(name), self.provided.get(name)
        if packages is None and more is None:
            return default
        own: list[Offer] = [(package, package.version) for package in packages or ()]
        return sorted(own + more, key=lambda offer: int(offer[0].place)) if more and own else own or more or []

    def __contains__(self, name: object) -> bool:
        return name in self.named or name in self.provided

    def __iter__(self) -> typing.Iterator[str]:
        return iter(self.named.keys() | self.provided.keys())

    def __len__(self) -> int:
        return len(self.named.keys() | self.provided.keys())


class Index:
    """The packages of an index in file order, who offers a name, and who meets an element."""

    def __init__(self, path: str) -> None:
        self.path, self.label = path, re.sub(r"\.Packages$", "", os.path.basename(path))
        self.named: dict[str, list[Package]] = collections.defaultdict(list)
        self.provided: dict[str, list[Offer]] = collections.defaultdict(list)
        with no_collection():
            self.packages = self.read(path)
            self.home = next((p.architecture for p in self.packages if p.architecture != "all"), None)
            self.fill_tables()
        self.offers = Offers(self.named, self.provided)
        self.meeting = functools.lru_cache(None)(self.meeting)  # type: ignore
        self.reach = functools.lru_cache(None)(self.reach)  # type: ignore

    def read(self, path: str) -> list[Package]:
        return read_packages(path, read_bytes(path))

    def fill_tables(self) -> None:
        provided, search, home = self.provided, PROVIDES.search, {None, "", "any", "native", "all", self.home}
        for package in self.packages:
            self.named[package.name].append(package)
        for package in self.packages:
            found = search(package.data, package.start - 1, package.end)
            for name, qualifier, version in self.elements_provided(text_of(found[1]).strip()) if found else ():
                if qualifier in home:
                    provided[name].append((package, version or None))

    def elements_provided(self, value: str) -> typing.Sequence[tuple[str, str | None, str | None]]:
        """(name, qualifier, version) of each element of a Provides field."""
        found = PROVIDED.findall(value)
        if len(found) == value.count(",") + 1:  # so that they are all of the field
            return found
        atoms = (self.atoms(element)[0] for element in elements_of(value))
        return [(atom.name, atom.qualifier, atom.version) for atom in atoms]

    @functools.cached_property
    def built_from(self) -> dict[str, list[Package]]:
        table: dict[str, list[Package]] = collections.defaultdict(list)
        with no_collection():
            for source, package in sources_in(self.packages):
                table[source].append(package)
        return table

    @functools.cached_property
    def sorted_offers(self) -> list[str]:
        return sorted(self.offers)

    @functools.cached_property
    def asked(self) -> collections.Counter[str]:
        """How many alternatives of dependencies name each name."""
        values = b",".join(DEPENDS.findall(self.packages[0].data)) if self.packages else b""
        counts: collections.Counter[bytes] = collections.Counter()
        for element, count in collections.Counter(values.split(b",")).items():  # many stanzas have the same
            for name in ASKED.findall(element):
                counts[name] += count
        return collections.Counter({text_of(name): count for name, count in counts.items()})

    def atoms(self, element: str) -> list[Atom]:
        try:
            return atoms_of(element)
        except BadIndex as fault:
            raise BadIndex("%s: %s" % (self.path, fault)) from None

    def is_of_home(self, atom: Atom) -> bool:
        return atom.qualifier is None or atom.qualifier in ("any", "native", "all", self.home)

    def meeting_atom(self, atom: Atom) -> list[Package]:
        offers = self.offers.get(atom.name, ()) if self.is_of_home(atom) else ()
        if not atom.operator:
            return [package for package, _ in offers]
        test, bound = TESTS[atom.operator], version_key(atom.version or "")
        return [package for package, offered in offers if offered and test(version_key(offered), bound)]

    def meeting(self, element: str) -> list[Package]:
        """The packages that meet an element, each once."""
        found = [package for atom in self.atoms(element) for package in self.meeting_atom(atom)]
        return list(dict.fromkeys(found)) if len(found) > 1 else found

    def goal(self, word: str) -> list[Package]:
        """The packages that a goal names, `name` or `name=version`."""
        name, equals, version = word.partition("=")
        return [p for p in self.named.get(name, ()) if not equals or version_key(p.version) == version_key(version)]

    def package(self, name: str, version: str) -> Package:
        return next(p for p in self.named[name] if p.version == version)

    def reach(self, names: tuple[str, ...]) -> set[Package]:
        """The packages of the names, and all that they reach through needs."""
        todo = [package for name in names for package in self.named.get(name, ())]
        inside = set(todo)
        while todo:
            fresh = self.next(todo.pop()) - inside
            inside |= fresh
            todo += fresh
        return inside

    def next(self, package: Package) -> frozenset[Package]:
        """The packages that meet some need of a package."""
        try:
            return package.after
        except AttributeError:
            package.after = frozenset(p for element in package.needs for p in self.meeting(element))
            return package.after

    def slice(self, names: tuple[str, ...], strike: dict[Package, set[tuple[str, str]]] | None = None) -> str:
        """The text of the reach, in file order, with some package of the home, since qualifiers are read by it."""
        inside, struck = sorted(self.reach(names), key=PLACE), strike or {}
        text = [package.stanza(struck[package]) if package in struck else package.text for package in inside]
        if self.home and all(package.architecture == "all" for package in inside):
            guest = next(p for p in self.packages if p.architecture == self.home)
            text.append("Package: %s\nVersion: %s\nArchitecture: %s\n" % (guest.name, guest.version, guest.architecture))
        return "\n".join(text)

    def declared(self, one: Package, other: Package) -> list[tuple[Package, str, str]]:
        """The `Conflicts` and `Breaks` between two packages, as (whose, kind, atom)."""
        return [
            (mine, kind, atom)
            for mine, his in ((one, other), (other, one))
            for kind in AGAINST for atom in mine.relations.get(kind, ()) if his in self.meeting(atom)
        ]

    def alike(self, name: str) -> tuple[Package | None, list[str]]:
        """Up to three offered names with the same beginning, up to a hyphen, and a package that offers the first."""
        stem = name
        while len(stem := stem.rpartition("-")[0]) > max(5, len(name) // 2):
            first = bisect.bisect(self.sorted_offers, stem + "-")
            if found := [other for other in self.sorted_offers[first : first + 3] if other.startswith(stem + "-")]:
                return self.offers[found[0]][0][0], found
        return None, []

    def other_versions(self, name: str) -> list[str]:
        """The offered names that differ from a name in digits and dots alone: first those with as many dots, and of these the newest."""
        start, shape = DIGITS.split(name)[0], DIGITS.sub("0", name)
        first = bisect.bisect_left(self.sorted_offers, start)
        near = itertools.takewhile(lambda other: other.startswith(start), self.sorted_offers[first:])
        found = sorted((other for other in near if DIGITS.sub("0", other) == shape), key=version_key, reverse=True)
        return sorted(found, key=lambda other: other.count(".") != name.count("."))

    def other_hash(self, name: str) -> list[str]:
        """The one offered name that has another hash at its end; none if several begin as the name does."""
        found = self.alike(name)[1]
        ends = [other.rpartition("-")[2] for other in (name, *found)]
        is_hash = len(found) == 1 and len(ends[0]) == len(ends[1]) and DIGITS.search(ends[0] + ends[1])
        return found if is_hash else []

    def newest(self, source: str) -> str | None:
        return max((p.source_version for p in self.built_from.get(source, ())), key=version_key, default=None)
