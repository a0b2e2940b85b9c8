"""The answers of searches, by the definitions: the least start at which the relation holds, and the
end and the groups of the most preferred way from there."""

from collections.abc import Collection
from typing import NamedTuple, Optional

from .grammar import parsed
from .haystack import Haystack
from .preference import Preference
from .relation import Relation
from .trees import groups, has_reading_loops, static_number
from .ways import Marks, WrittenOut


class Found(NamedTuple):
    """The positions of a match: where it starts and ends, and the same for each of its groups that
    takes part."""

    start: int
    end: int
    spans: tuple[Optional[tuple[int, int]], ...]


class Differ(Exception):
    """Two readings of the definitions don't agree."""


class Regex:
    """A pattern under flags."""

    def __init__(self, pattern: str, flags: Collection[str]) -> None:
        self.tree = parsed(pattern, flags)
        self.groups = groups(self.tree)
        self.written_out = WrittenOut(self.tree)
        self.names = {group.name: group.number for group in self.groups if group.name}
        self.length = 1 + max((group.number for group in self.groups), default=0)

    def static_length(self) -> Optional[int]:
        """How many groups take part in each match, the whole match counted too, or None."""
        number = static_number(self.tree)
        return None if number is None else number + 1

    def name_list(self) -> str:
        """The names of all groups, with a dash for one without a name."""
        names = {number: name for name, number in self.names.items()}
        return ' '.join(names.get(number, '-') for number in range(self.length))


class Search:
    """The searches of a regex in a haystack."""

    def __init__(self, regex: Regex, text: str) -> None:
        self.regex = regex
        self.haystack = Haystack(text)
        self.relation = Relation(self.haystack)

    def from_position(self, s: int) -> Optional[Found]:
        """The answer of a search from position s, or None."""
        for i in range(s, len(self.haystack) + 1):
            ends = self.relation.ends(self.regex.tree, i)
            if ends:
                return self.preferred(i, ends)
        return None

    def preferred(self, i: int, ends: Collection[int]) -> Found:
        """The most preferred match from position i, where matches end at these positions."""
        end, marks = next(self.regex.written_out.ways(self.haystack, i))
        if end not in ends:
            raise Differ('a way ends where the relation does not hold')
        if has_reading_loops(self.regex.tree):
            listed = Preference(self.haystack, self.relation).entries(self.regex.tree, i, {})
            if next(listed) != (end, {slot: at for slot, at in marks.items() if slot > 1}):
                raise Differ('the list and the ways do not begin alike')
        return Found(i, end, tuple(span_of(marks, k) for k in range(self.regex.length)))

    def least_end(self, s: int) -> Optional[int]:
        """The least position at which a match from position s or a later one ends, or None."""
        starts = range(s, len(self.haystack) + 1)
        ends = (j for i in starts for j in self.relation.ends(self.regex.tree, i))
        return min(ends, default=None)

    def matches(self) -> list[Found]:
        """All matches, one after another. An empty match at the end of the last is passed over."""
        found: list[Found] = []
        at, last = 0, None
        while at <= len(self.haystack):
            match = self.from_position(at)
            if match is None:
                break
            if match.start == match.end == last:
                at += 1
                continue
            found.append(match)
            at = last = match.end
        return found


def span_of(marks: Marks, group: int) -> Optional[tuple[int, int]]:
    """Where the group starts and ends by these marks."""
    start, end = marks.get(2 * group), marks.get(2 * group + 1)
    return None if start is None or end is None else (start, end)
