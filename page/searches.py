"""The searches of which the page shows the results: for one pattern, or for several at once."""

from __future__ import annotations

from collections import Counter
from operator import itemgetter
from typing import Dict, Iterator, List, Sequence, Tuple, Union

from regex_lite._foreign import Row
from regex_lite._library import Options, Regex, Walk
from regex_lite._list_library import RawList


class OneSearch:
    """A search for one pattern. Raises `error` if the pattern is rejected."""

    def __init__(self, pattern: str, options: Options) -> None:
        self.regex = Regex(pattern, options)
        self.places, self.arrows = self.regex.places, self.regex.arrows

    def rows(self, text: bytes) -> Iterator[Tuple[int, Row]]:
        """The groups of each match, with the number of its pattern, which is 0."""
        for rows in self.regex.rows(text):
            for row in self.regex.matches_in(rows):
                yield 0, row

    def counts(self, text: bytes) -> List[int]:
        """The number of matches of each pattern."""
        return [self.regex.count(text, Walk())]

    def matched(self, text: bytes) -> List[int]:
        """The numbers of the patterns that match somewhere."""
        return [0] if self.regex.next_captures(text, Walk(), 1) else []

    def tried(self, text: bytes) -> int:
        """How many places the search for the first match tries."""
        return self.regex.tried(text)

    def regex_of(self, number: int) -> Regex:
        """The pattern with this number by itself."""
        return self.regex


class ListSearch:
    """A search for several patterns at once. Raises `error` for the first pattern that is
    rejected."""

    def __init__(self, patterns: Sequence[str], options: Options) -> None:
        self._patterns, self._options = patterns, options
        self._list = RawList(patterns, options)
        self._regexes: Dict[int, Regex] = {}
        self.places, self.arrows = self._list.places, self._list.arrows

    def rows(self, text: bytes) -> Iterator[Tuple[int, Row]]:
        """The groups of each match, with the number of its pattern."""
        return self._list.rows(text, 0)

    def counts(self, text: bytes) -> List[int]:
        """The number of matches of each pattern."""
        counted = Counter(map(itemgetter(0), self._list.spans(text, 0)))
        return [counted[number] for number in range(len(self._patterns))]

    def matched(self, text: bytes) -> List[int]:
        """The numbers of the patterns that match somewhere, even if only within a match of
        another."""
        return self._list.matches(text, 0)

    def tried(self, text: bytes) -> int:
        """How many places the search for the first match tries."""
        return self._list.tried(text)

    def regex_of(self, number: int) -> Regex:
        """The pattern with this number by itself."""
        if number not in self._regexes:
            self._regexes[number] = Regex(self._patterns[number], self._options)
        return self._regexes[number]


Search = Union[OneSearch, ListSearch]


def search_for(patterns: Sequence[str], options: Options) -> Search:
    """The search for these patterns. Raises `error` if one is rejected."""
    if len(patterns) == 1:
        return OneSearch(patterns[0], options)
    return ListSearch(patterns, options)
