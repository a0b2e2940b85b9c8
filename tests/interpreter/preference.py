"""The list of a tree's matches from a position in the order of preference, by cases on the tree,
without places. It is for trees in which each pass of a repetition without a limit reads."""

from collections.abc import Iterator, Sequence

from .haystack import Haystack
from .relation import Relation
from .trees import Alternation, Concat, Group, Read, Repeat, Tree
from .ways import Marks, TooLarge

Entry = tuple[int, Marks]  # where a match ends, and its marks

MOST_ENTRIES = 20_000


class Preference:
    """Makes the entries of lists: where a match ends, and its marks."""

    def __init__(self, haystack: Haystack, relation: Relation) -> None:
        self.haystack = haystack
        self.relation = relation
        self.made = 0

    def entries(self, tree: Tree, i: int, marks: Marks) -> Iterator[Entry]:
        """The entries of the tree from position i, with their marks over these."""
        self.made += 1
        if self.made > MOST_ENTRIES:
            raise TooLarge
        if not self.relation.ends(tree, i):
            return
        if isinstance(tree, Alternation):
            for branch in tree.branches:
                yield from self.entries(branch, i, marks)
        elif isinstance(tree, Concat):
            yield from self.chained(tree.parts, i, marks)
        elif isinstance(tree, Repeat):
            yield from self.passes(tree, tree.least, i, marks)
        elif isinstance(tree, Group):
            opened = {**marks, 2 * tree.number: i}
            for j, inside in self.entries(tree.body, i, opened):
                yield j, {**inside, 2 * tree.number + 1: j}
        else:
            yield i + isinstance(tree, Read), marks

    def chained(self, parts: Sequence[Tree], i: int, marks: Marks) -> Iterator[Entry]:
        """The entries of parts in a row."""
        if not parts:
            yield i, marks
        elif self.relation.chained(parts, {i}):
            for j, after in self.entries(parts[0], i, marks):
                yield from self.chained(parts[1:], j, after)

    def passes(self, tree: Repeat, number: int, i: int, marks: Marks) -> Iterator[Entry]:
        """The entries of this many passes, and then of those that the repetition may make."""
        if number == 0:
            most = len(self.haystack) - i if tree.most is None else tree.most - tree.least
            yield from self.further(tree, most, i, marks)
        else:
            for j, after in self.entries(tree.body, i, marks):
                yield from self.passes(tree, number - 1, j, after)

    def further(self, tree: Repeat, most: int, i: int, marks: Marks) -> Iterator[Entry]:
        """The entries of at most this many passes."""
        if not tree.is_greedy or most == 0:
            yield i, marks
        if most > 0:
            for j, after in self.entries(tree.body, i, marks):
                yield from self.further(tree, most - 1, j, after)
        if tree.is_greedy and most > 0:
            yield i, marks
