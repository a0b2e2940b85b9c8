"""The ways through a pattern, the preferred ones first. A pattern is written out as places with
ordered arrows, each copy of what is repeated with places of its own, and a way visits no place
twice at one position. The rows of regex_lite_engine/specs/Graph/WrittenOut.antt say which places
and arrows a tree has."""

from collections.abc import Iterator
from typing import NamedTuple, Optional, Union

from .haystack import Haystack
from .trees import Alternation, Concat, Group, Look, Read, Repeat, Tree, is_nullable

MOST_PLACES = 600
MOST_STEPS = 20_000


class TooLarge(Exception):
    """The pattern is too large to be looked at here."""


class Place:
    """A place with its arrows in their order. Each is another object than all others."""

    def __init__(self) -> None:
        self.arrows: list['Arrow'] = []


class Arrow(NamedTuple):
    """What has to be there, a tree that reads or looks, or None; the slot that is marked, or None;
    and the place to which the arrow leads."""

    needs: Optional[Union[Read, Look]]
    slot: Optional[int]
    target: Place


Marks = dict[int, int]  # the last position at which each slot is marked
Pair = tuple[Place, int]  # a place and a position
# The arrow by which a way comes to a pair, and the arrows that it can go on by.
Step = tuple[Optional[Arrow], Pair, Iterator[tuple[Arrow, Pair]]]


class Writer:
    """Writes a tree out."""

    def __init__(self) -> None:
        self.count = 0

    def place(self) -> Place:
        """A new place."""
        self.count += 1
        if self.count > MOST_PLACES:
            raise TooLarge
        return Place()

    def leading(self, *targets: Place) -> Place:
        """A new place with free arrows to these."""
        place = self.place()
        place.arrows = [Arrow(None, None, target) for target in targets]
        return place

    def entry(self, tree: Tree, after: Place) -> Place:
        """The place where the tree is entered, if that place comes after it."""
        if isinstance(tree, Concat):
            for part in reversed(tree.parts):
                after = self.entry(part, after)
            return after
        if isinstance(tree, Alternation):
            join = self.leading(after)
            return self.leading(*[self.entry(branch, join) for branch in tree.branches])
        if isinstance(tree, Group):
            return self.marked(2 * tree.number, self.entry(
                tree.body, self.marked(2 * tree.number + 1, after)))
        if isinstance(tree, Repeat):
            return self.repeated(tree, after)
        place = self.place()
        needs = tree if isinstance(tree, (Read, Look)) else None
        place.arrows = [Arrow(needs, None, after)]
        return place

    def marked(self, slot: int, after: Place) -> Place:
        """A place that marks the slot."""
        place = self.place()
        place.arrows = [Arrow(None, slot, after)]
        return place

    def repeated(self, tree: Repeat, after: Place) -> Place:
        """Where a repetition is entered: copies in a row, and then a loop or as many choices as
        passes may be left out."""
        if tree.most is None and tree.least == 0:
            return self.loop(tree, after)
        if tree.most is None:
            choice = self.place()
            last = self.entry(tree.body, choice)
            choice.arrows = self.choice(tree, last, after)
            return self.copies(tree, tree.least - 1, last)
        if tree.least == tree.most:
            return self.copies(tree, tree.least, after)
        choices = self.choices(tree, tree.most - tree.least, self.leading(after))
        return self.copies(tree, tree.least, choices)

    def choices(self, tree: Repeat, number: int, join: Place) -> Place:
        """The passes that a repetition may leave out, each after a choice that may lead to the
        join."""
        after = join
        for _ in range(number):
            choice = self.place()
            choice.arrows = self.choice(tree, self.entry(tree.body, after), join)
            after = choice
        # Two or more optional passes, but not a single one, have a place before the first choice.
        return self.leading(after) if tree.least == 0 and number > 1 else after

    def loop(self, tree: Repeat, after: Place) -> Place:
        """A repetition without any limit. Round a body that can match nothing there are two
        choices, one before the first pass and one after each."""
        if not is_nullable(tree.body):
            choice = self.place()
            choice.arrows = self.choice(tree, self.entry(tree.body, choice), after)
            return choice
        join, plus, question = self.leading(after), self.place(), self.place()
        body = self.entry(tree.body, plus)
        plus.arrows = self.choice(tree, body, join)
        question.arrows = self.choice(tree, body, join)
        return question

    def copies(self, tree: Repeat, number: int, after: Place) -> Place:
        """As many copies of a repetition's body in a row."""
        for _ in range(number):
            after = self.entry(tree.body, after)
        return after

    @staticmethod
    def choice(tree: Repeat, body: Place, after: Place) -> list[Arrow]:
        """The arrows to one more pass and to what follows, the preferred one first."""
        arrows = [Arrow(None, None, body), Arrow(None, None, after)]
        return arrows if tree.is_greedy else arrows[::-1]


class WrittenOut:
    """A tree as group 0, and after it the place where the match is complete."""

    def __init__(self, tree: Tree) -> None:
        self.complete = Place()
        self.start = Writer().entry(Group(0, None, tree), self.complete)

    def following(self, haystack: Haystack, pair: Pair) -> Iterator[tuple[Arrow, Pair]]:
        """The arrows that fit at a place and a position, each with the pair to which it leads."""
        place, i = pair
        for arrow in place.arrows:
            if isinstance(arrow.needs, Read):
                if haystack.reads(arrow.needs.members, i):
                    yield arrow, (arrow.target, i + 1)
            elif arrow.needs is None or haystack.sees(arrow.needs.name, i):
                yield arrow, (arrow.target, i)

    def leading_on(self, haystack: Haystack, i: int) -> set[Pair]:
        """The pairs reachable from (start, i) from which the match can become complete, by any
        arrows."""
        seen = {(self.start, i)}
        before: dict[Pair, list[Pair]] = {}
        waiting = list(seen)
        while waiting:
            pair = waiting.pop()
            for _, onto in self.following(haystack, pair):
                before.setdefault(onto, []).append(pair)
                if onto not in seen:
                    seen.add(onto)
                    waiting.append(onto)
        found = {pair for pair in seen if pair[0] is self.complete}
        waiting = list(found)
        while waiting:
            new = [pair for pair in before.get(waiting.pop(), ()) if pair not in found]
            found.update(new)
            waiting += new
        return found

    def ways(self, haystack: Haystack, i: int) -> Iterator[tuple[int, Marks]]:
        """The ways from position i in the order of preference: where each ends, and the last
        position at which it marks each slot."""
        useful = self.leading_on(haystack, i)
        first = self.start, i
        way: list[Step] = [(None, first, self.following(haystack, first))]
        entered = {first}
        for _ in range(MOST_STEPS):
            if not way:
                return
            _, (place, j), arrows = way[-1]
            if place is self.complete:
                yield j, marks_of(way)
            for arrow, pair in arrows:
                # No way goes on from any other pair to the end.
                if pair in useful and pair not in entered:
                    entered.add(pair)
                    way.append((arrow, pair, self.following(haystack, pair)))
                    break
            else:
                entered.remove(way.pop()[1])
        raise TooLarge


def marks_of(way: list[Step]) -> Marks:
    """The last position at which the way marks each slot."""
    return {arrow.slot: i for arrow, (_, i), _ in way if arrow and arrow.slot is not None}
