"""A machine: the packages that dpkg says are installed, and an index that has all of them."""

from __future__ import annotations

import re
import typing

from .command import BadWords
from .debian_index import VALUE, BadIndex, Index, Package, read_bytes, read_packages, version_key

STATUS = re.compile(rb"\nStatus" + VALUE, re.I)


class Machine(typing.NamedTuple):
    """The installed packages of the home, and how many of other architectures there are."""

    own: list[Package]
    foreign: int


def is_installed(package: Package) -> bool:
    """Whether the field Status has three words and the third is `installed`."""
    words = (package.value(STATUS) or "").split()
    return len(words) == 3 and words[2] == "installed"


def installed_by(path: str) -> list[Package]:
    """The packages that are installed by a file."""
    return [package for package in read_packages(path, read_bytes(path), is_strict=False) if is_installed(package)]


def is_status(path: str) -> bool:
    """Whether packages are installed by a file; by one that cannot be read there are none."""
    try:
        return bool(installed_by(path))
    except BadIndex:
        return False


def read_status(path: str, index: str) -> list[Package]:
    """The installed packages of a status file of dpkg; it is said if the index that is named behind it is one in its place."""
    found = installed_by(path)
    if not found and is_status(index):
        raise BadWords("%s is no status file of dpkg, but %s is one: the status file comes before the index" % (path, index))
    if not found:
        raise BadWords("%s: no package is installed by it; is it a status file of dpkg, such as /var/lib/dpkg/status?" % path)
    return found


def machine_of(installed: list[Package], home: str | None) -> Machine:
    """The packages of the home, and the number of the others."""
    own = [package for package in installed if package.architecture in ("all", home)]
    return Machine(own, len(installed) - len(own))


class World(Index):
    """An index with the installed packages that it lacks in an equal version behind its own; `held` are all that are installed."""

    def __init__(self, path: str, installed: list[Package]) -> None:
        self.installed, self.lacking = installed, typing.cast(typing.List[Package], [])
        super().__init__(path)
        self.machine = machine_of(installed, self.home)
        self.held = [self.same(package) for package in self.machine.own]

    def read(self, path: str) -> list[Package]:
        packages = super().read(path)
        home = next((p.architecture for p in packages if p.architecture != "all"), None)
        there: dict[str, list[Package]] = {}
        for p in packages:
            there.setdefault(p.name, []).append(p)
        for package in machine_of(self.installed, home).own:
            if not any(version_key(p.version) == version_key(package.version) for p in there.get(package.name, ())):
                package.place = len(packages)
                packages.append(package)
                self.lacking.append(package)
        return packages

    def same(self, package: Package) -> Package:
        """The package of the world that an installed one is."""
        return next(p for p in self.named[package.name] if version_key(p.version) == version_key(package.version))

    def write(self, path: str) -> None:
        """Writes the whole world as an index."""
        with open(path, "wb") as file:
            file.write(memoryview(self.packages[0].data)[1:] if self.packages else b"")
            file.write(b"\n\n")
            for package in self.lacking:
                file.write(package.stanza().encode("utf-8", "surrogateescape") + b"\n")

    def without_others(self, held: typing.Iterable[Package]) -> typing.Callable[[Package], bool]:
        """Whether a package may stand beside those that are held: it is no other version of one."""
        mine = {package.name: package for package in held}
        return lambda package: mine.get(package.name, package) is package
