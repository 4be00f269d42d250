"""What an older index said of a package, for those who ask what is new."""

from __future__ import annotations

from .debian_index import Index, Package, atoms_of


class Older:
    """An older index beside a newer one."""

    def __init__(self, old: Index) -> None:
        self.old, self.label = old, old.label

    def is_new(self, owner: Package, element: str) -> bool:
        """Whether no older version of a package has an element of the same names."""
        names = {atom.name for atom in atoms_of(element)}
        before = [text for p in self.old.named.get(owner.name, ()) for text in p.needs]
        return not any({atom.name for atom in atoms_of(text)} == names for text in before)

    def is_new_conflict(self, mine: Package, his: Package) -> bool:
        """Whether no older versions of two packages conflict."""
        pairs = [(one, other) for one in self.old.named.get(mine.name, ()) for other in self.old.named.get(his.name, ())]
        return not any(self.old.declared(one, other) for one, other in pairs)

    def satisfied(self, owner: Package, element: str) -> str:
        """What satisfied the names of an element in the older index, if it had the element."""
        if self.is_new(owner, element):
            return ""
        names = {atom.name for atom in atoms_of(element)}
        needs = [text for p in self.old.named.get(owner.name, ()) for text in p.needs]
        texts = [text for text in needs if {atom.name for atom in atoms_of(text)} == names]
        return " and ".join(dict.fromkeys(str(p) for text in texts for p in self.old.meeting(text)[:2]))
