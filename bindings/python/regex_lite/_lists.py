"""Lists of patterns that are searched for in one pass."""

from __future__ import annotations

from typing import Dict, Iterable, Iterator, List, Optional, Tuple

from ._departures import warn_of_departures
from ._errors import error
from ._faults import as_re_says
from ._flags import MOST_NEST, MOST_SIZE, NEST_LIMIT, SIZE_LIMIT, RegexFlag, options_of
from ._foreign import Call
from ._list_library import ANCHORED, ANYWHERE, WHOLE, RawList
from ._matches import Match, match_of
from ._outlines import flags_of, up_to_end
from ._patterns import Pattern
from ._texts import END, part_in


class RegexList:
    """A compiled list of patterns, numbered from 0 on. A search makes one pass over a string for
    all of them. Of the matches that start first it finds that of the pattern with the lowest
    number. A list may be used in any thread.

    Searches with a `pos` and an `endpos` see what those of a `Pattern` see."""

    def __init__(self, patterns: Iterable[str], flags: int = 0, *, nest_limit: int = NEST_LIMIT,
                 size_limit: int = SIZE_LIMIT) -> None:
        """Raises what `Pattern` raises, for the first pattern that is rejected."""
        options = options_of(flags, nest_limit, size_limit)
        self.patterns = tuple(patterns)
        self.flags = RegexFlag(flags)
        self._limits = {'nest_limit': nest_limit, 'size_limit': size_limit}
        try:
            self._list = RawList(self.patterns, options)
        except error as fault:
            raise as_re_says(fault, flags) from None
        # Both are made where they are needed.
        self._compiled: Dict[int, Pattern[str]] = {}
        self._to_end: Optional[RawList] = None
        for pattern in self.patterns:
            flags_of(pattern, flags)  # which refuses a pattern that contradicts the flags
            warn_of_departures(pattern, flags, 2)

    def __len__(self) -> int:
        return len(self.patterns)

    def search(self, string: str, pos: int = 0,
               endpos: int = END) -> Optional[Tuple[int, Match[str]]]:
        """The first match that starts at this offset or later, and the number of its pattern."""
        return self._found(string, pos, endpos, self._list, ANYWHERE)

    def match(self, string: str, pos: int = 0,
              endpos: int = END) -> Optional[Tuple[int, Match[str]]]:
        """The match that starts at this very offset, of the pattern with the lowest number that
        matches there, and that number."""
        return self._found(string, pos, endpos, self._list, ANCHORED)

    def fullmatch(self, string: str, pos: int = 0,
                  endpos: int = END) -> Optional[Tuple[int, Match[str]]]:
        """The match from one offset to the other, of the pattern with the lowest number that has
        one, and that number."""
        if pos <= 0:
            return self._found(string, pos, endpos, self._list, WHOLE)
        return self._found(string, pos, endpos, self._up_to_end(), ANCHORED)

    def search_of(self, number: int, string: str, pos: int = 0,
                  endpos: int = END) -> Optional[Match[str]]:
        """What the pattern with this number finds by itself, whatever the others match. Raises
        IndexError if there is no such pattern."""
        return self._pattern(self._index(number)).search(string, pos, endpos)

    def finditer(self, string: str, pos: int = 0,
                 endpos: int = END) -> Iterator[Tuple[int, Match[str]]]:
        """All matches, from left to right, each with the number of its pattern."""
        part = part_in(string, pos, endpos)
        if part is None:
            return iter(())
        _, raw, begin, offsets, bounds = part
        return ((number, match_of(self._pattern(number), string, row, offsets, bounds))
                for number, row in self._list.rows(raw, begin))

    def spans(self, string: str, pos: int = 0,
              endpos: int = END) -> Iterator[Tuple[int, Tuple[int, int]]]:
        """All matches, from left to right, without their groups: the number of the pattern of each,
        and its span. It takes a fraction of the time of `finditer`."""
        part = part_in(string, pos, endpos)
        if part is None:
            return iter(())
        _, raw, begin, offsets, _ = part
        return ((number, (start, end) if offsets is None else offsets.span(start, end))
                for number, start, end in self._list.spans(raw, begin))

    def matches(self, string: str, pos: int = 0, endpos: int = END) -> List[int]:
        """The numbers of the patterns that match somewhere, in order."""
        part = part_in(string, pos, endpos)
        if part is None:
            return []
        _, raw, start, _, _ = part
        return self._list.matches(raw, start)

    def may_be_empty(self, number: int) -> bool:
        """Whether the pattern with this number may match the empty string if its looks are assumed
        to hold. Raises IndexError if there is no such pattern."""
        return self._list.may_be_empty(self._index(number))

    def __repr__(self) -> str:
        return f'regex_lite.RegexList({list(self.patterns)!r})'

    def _found(self, string: str, pos: int, endpos: int, patterns: RawList,
               called: Call) -> Optional[Tuple[int, Match[str]]]:
        """The match that this call of the library finds, and the number of its pattern."""
        part = part_in(string, pos, endpos)
        if part is None:
            return None
        _, raw, start, offsets, bounds = part
        found = patterns.captures(raw, start, called)
        if found is None:
            return None
        number, row = found
        return number, match_of(self._pattern(number), string, row, offsets, bounds)

    def _up_to_end(self) -> RawList:
        """The patterns that match where these do, but only up to the end of the string."""
        if self._to_end is None:
            longer = [up_to_end(pattern, self.flags) for pattern in self.patterns]
            nest_limit = min(self._limits['nest_limit'] + 1, MOST_NEST)
            self._to_end = RawList(longer, options_of(self.flags, nest_limit, MOST_SIZE))
        return self._to_end

    def _index(self, number: int) -> int:
        """The number of a pattern, which is counted from the end if it is negative."""
        return range(len(self.patterns))[number]

    def _pattern(self, number: int) -> Pattern[str]:
        """The pattern with this number, by itself: it knows the names of its groups."""
        if number not in self._compiled:
            self._compiled[number] = Pattern(self.patterns[number], self.flags, **self._limits)
        return self._compiled[number]
