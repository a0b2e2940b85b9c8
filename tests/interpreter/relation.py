"""The match relation: where a tree matches, said on trees, without any order among matches."""

from collections.abc import Collection, Sequence

from .haystack import Haystack
from .trees import Alternation, Concat, Group, Look, Read, Repeat, Tree


class Relation:
    """From which positions of a haystack to which trees match."""

    def __init__(self, haystack: Haystack) -> None:
        self.haystack = haystack
        self.known: dict[tuple[int, int], tuple[Tree, frozenset[int]]] = {}

    def ends(self, tree: Tree, i: int) -> frozenset[int]:
        """The positions at which a match of the tree from position i ends."""
        key = id(tree), i
        if key not in self.known:
            # The tree is kept, so that no other object gets its number.
            self.known[key] = tree, frozenset(self.found(tree, i))
        return self.known[key][1]

    def found(self, tree: Tree, i: int) -> Collection[int]:
        """The same, which is not known yet."""
        if isinstance(tree, Read):
            return {i + 1} if self.haystack.reads(tree.members, i) else ()
        if isinstance(tree, Look):
            return {i} if self.haystack.sees(tree.name, i) else ()
        if isinstance(tree, Group):
            return self.ends(tree.body, i)
        if isinstance(tree, Alternation):
            return {j for branch in tree.branches for j in self.ends(branch, i)}
        if isinstance(tree, Concat):
            return self.chained(tree.parts, {i})
        if isinstance(tree, Repeat):
            return self.repeated(tree, {i})
        return {i}

    def chained(self, parts: Sequence[Tree], positions: set[int]) -> set[int]:
        """Where matches of the parts in a row end that start at one of the positions."""
        for part in parts:
            positions = {j for i in positions for j in self.ends(part, i)}
        return positions

    def repeated(self, repeat: Repeat, positions: set[int]) -> set[int]:
        """The same of passes, at least the least number of them, and at most the greatest."""
        positions = self.chained([repeat.body] * repeat.least, positions)
        found, last, number = set(positions), positions, repeat.least
        while last and number != repeat.most:
            last = self.chained([repeat.body], last) - found
            found |= last
            number += 1
        return found
