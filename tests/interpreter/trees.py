"""The trees of patterns, and what is said of them by cases: which groups there are, and what every
match has."""

from typing import NamedTuple, Optional, Union

from .characters import Members


class Empty(NamedTuple):
    """Matches the empty text."""


class Read(NamedTuple):
    """Reads one character, of those of whose numbers `members` says so."""

    members: Members


class Look(NamedTuple):
    """Looks at the characters on both sides of a position."""

    name: str


class Repeat(NamedTuple):
    """Passes of the body in a row. There is no limit to them where `most` is None."""

    least: int
    most: Optional[int]
    is_greedy: bool
    body: 'Tree'


class Group(NamedTuple):
    """A group that captures, with its number."""

    number: int
    name: Optional[str]
    body: 'Tree'


class Concat(NamedTuple):
    """Two or more parts, one after another."""

    parts: tuple['Tree', ...]


class Alternation(NamedTuple):
    """Two or more branches, the preferred ones first."""

    branches: tuple['Tree', ...]


Tree = Union[Empty, Read, Look, Repeat, Group, Concat, Alternation]


def children(tree: Tree) -> tuple[Tree, ...]:
    """The trees of which the tree is made."""
    if isinstance(tree, (Repeat, Group)):
        return (tree.body,)
    if isinstance(tree, Concat):
        return tree.parts
    return tree.branches if isinstance(tree, Alternation) else ()


def depth(tree: Tree) -> int:
    """How deep the tree is. A leaf has the depth 0."""
    return max((1 + depth(child) for child in children(tree)), default=0)


def groups(tree: Tree) -> list[Group]:
    """The groups of the tree."""
    found = [tree] if isinstance(tree, Group) else []
    return found + [group for child in children(tree) for group in groups(child)]


def is_nullable(tree: Tree) -> bool:
    """Whether the tree can match without reading, if its looks hold."""
    if isinstance(tree, Read):
        return False
    if isinstance(tree, Repeat):
        return tree.least == 0 or is_nullable(tree.body)
    if isinstance(tree, Alternation):
        return any(map(is_nullable, tree.branches))
    return all(map(is_nullable, children(tree)))


def has_reading_loops(tree: Tree) -> bool:
    """Whether each pass of a repetition without a limit reads a character."""
    is_idle = isinstance(tree, Repeat) and tree.most is None and is_nullable(tree.body)
    return not is_idle and all(map(has_reading_loops, children(tree)))


def static_number(tree: Tree) -> Optional[int]:
    """How many groups take part in each match, or None where it is not one number."""
    numbers: list[int] = []
    for child in children(tree):
        number = static_number(child)
        if number is None:
            return None
        numbers.append(number)
    if isinstance(tree, Alternation):
        return numbers[0] if len(set(numbers)) == 1 else None
    if isinstance(tree, Repeat) and tree.least == 0 and numbers[0] > 0:
        return None
    return sum(numbers) + isinstance(tree, Group)
