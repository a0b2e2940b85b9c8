"""Compiled patterns."""

from __future__ import annotations

import operator
import sys
from itertools import chain
from types import MappingProxyType
from typing import (Any, Callable, Generic, Iterable, Iterator, List, Mapping, Optional,
                    SupportsIndex, Tuple, Union, cast)

from ._errors import error
from ._faults import as_re_says
from ._flags import MOST_NEST, MOST_SIZE, NEST_LIMIT, SIZE_LIMIT, RegexFlag, options_of
from ._foreign import Row, encoded
from ._library import ANCHORED, ANYWHERE, WHOLE, Calls, Regex
from ._literals import literal_of, start_of, whole_of
from ._matches import Match, Text, match_of
from ._outlines import flags_of, innermost_of, up_to_end
from ._pattern_scanners import PatternScanner
from ._templates import as_library_has_it, parts_of
from ._texts import END, Offsets, bounds_in, offsets_in, part_in, part_of, texts_at

Replacement = Union[str, Callable[[Match[str]], str]]
LONGEST_SHOWN = 200  # characters of a pattern in its `repr`, as in `re`


def _how_many(count: SupportsIndex) -> int:
    """The number of matches that a caller asks for, as an integer that the library can take."""
    number = operator.index(count)
    if abs(number) > sys.maxsize:
        raise OverflowError(f'the count is too large: {number}')
    return number


class Pattern(Generic[Text]):
    """A compiled pattern, which may be used in any thread. Its attributes can't be set. Two
    patterns are equal if they have the same text and the same flags.

    Searches with a `pos` and an `endpos` see the string from its start up to the `endpos`, and
    begin at the `pos`. An offset before or after the string means its start or its end."""

    __slots__ = ('_regex', '_pattern', '_flags', '_limits', '_literal', '_groupindex', '_nesting',
                 '_to_end', '__weakref__')
    __module__ = 'regex_lite'

    def __init__(self, pattern: str, flags: int = 0, *, nest_limit: int = NEST_LIMIT,
                 size_limit: int = SIZE_LIMIT) -> None:
        """Raises `error` for a pattern that is rejected, ValueError for unknown flags and for a
        negative limit, and OverflowError for a nest_limit from 2**32 on or a size_limit that
        doesn't fit size_t."""
        options = options_of(flags, nest_limit, size_limit)
        try:
            self._regex = Regex(pattern, options)
        except error as fault:
            raise as_re_says(fault, flags) from None
        self._pattern = pattern
        self._flags = RegexFlag(flags_of(pattern, flags))
        self._limits = nest_limit, size_limit
        self._literal = literal_of(pattern, flags)
        names = {self._regex.name(i): i for i in range(1, self._regex.groups)}
        self._groupindex = {name: i for name, i in names.items() if name is not None}
        # Both are made where they are needed.
        self._nesting: Optional[List[int]] = None
        self._to_end: Optional[Pattern[str]] = None

    @property
    def pattern(self) -> str:
        """The text of the pattern."""
        return self._pattern

    @property
    def flags(self) -> RegexFlag:
        """The flags, including those that the pattern sets at its start, as `(?i)`."""
        return self._flags

    @property
    def groups(self) -> int:
        """The number of groups of the pattern."""
        return self._regex.groups - 1

    @property
    def groupindex(self) -> Mapping[str, int]:
        """The indices of the groups that have names."""
        return MappingProxyType(self._groupindex)

    @property
    def may_be_empty(self) -> bool:
        """Whether the pattern may match the empty string if its looks are assumed to hold: if this
        is False, no match is empty."""
        return self._regex.may_be_empty()

    def search(self, string: str, pos: int = 0, endpos: int = END) -> Optional[Match[str]]:
        """The first match that starts at this offset or later."""
        literal = self._literal
        if literal is None or string.__class__ is not str:
            return self._found(string, pos, endpos, ANYWHERE)
        return self._literal_at(string, pos, endpos, literal, str.find)

    def match(self, string: str, pos: int = 0, endpos: int = END) -> Optional[Match[str]]:
        """The match that starts at this very offset; of several, the one that the pattern
        prefers."""
        literal = self._literal
        if literal is None or string.__class__ is not str:
            return self._found(string, pos, endpos, ANCHORED)
        return self._literal_at(string, pos, endpos, literal, start_of)

    def fullmatch(self, string: str, pos: int = 0, endpos: int = END) -> Optional[Match[str]]:
        """The match from one offset to the other, even if the pattern prefers a shorter one. Of the
        ways to match all of that text, it has the groups of the one that the pattern prefers."""
        literal = self._literal
        if literal is not None and string.__class__ is str:
            return self._literal_at(string, pos, endpos, literal, whole_of)
        if pos <= 0:
            return self._found(string, pos, endpos, WHOLE)
        found = self._found(string, pos, endpos, ANCHORED)
        if found is not None and found.end() < found.endpos:
            found = self._up_to_end()._found(string, pos, endpos, ANCHORED)
            if found is not None:
                found._re = self
        return found

    def search_each(self, strings: Iterable[str]) -> List[Optional[Tuple[int, int]]]:
        """The span of the first match in each of the strings. If they are many and short, it takes
        about half of the time of `search`."""
        every = list(strings)
        raws = [encoded(string) for string in every]
        return [span if span is None or len(string) == len(raw) else Offsets(raw).span(*span)
                for string, raw, span in zip(every, raws, self._regex.find_each(raws))]

    def finditer(self, string: str, pos: int = 0, endpos: int = END) -> Iterator[Match[str]]:
        """All matches, from left to right."""
        if pos == 0 and endpos is END:
            raw = encoded(string)
            offsets = offsets_in(string, raw)
            return (match_of(self, string, row, offsets) for row in self._rows(raw))
        part = part_in(string, pos, endpos)
        if part is None:
            return iter(())
        _, raw, start, offsets, bounds = part
        return (match_of(self, string, row, offsets, bounds)
                for row in self._rows(raw, 0, start))

    def findall(self, string: str, pos: int = 0, endpos: int = END) -> List[Any]:
        """The texts of all matches: of the whole match if there is no group, of its only group, or
        of all its groups."""
        if pos == 0 and endpos is END:
            return self._texts(string, encoded(string), 0)
        part = part_in(string, pos, endpos)
        if part is None:
            return []
        text, raw, start, _, _ = part
        return self._texts(text, raw, start)

    def _texts(self, string: str, raw: bytes, start: int) -> List[Any]:
        """The texts of all matches from there on, as `findall` returns them."""
        wanted = range(1, self._regex.groups) if self._regex.groups > 1 else range(1)
        found: List[Any] = []
        for rows in self._regex.rows(raw, 0, start):
            columns = [texts_at(self._regex.column_in(rows, group), string, raw)
                       for group in wanted]
            if len(columns) == 1:
                found += columns[0]
            else:
                found += zip(*columns)
        return found

    def scanner(self, string: str, pos: int = 0, endpos: int = END) -> PatternScanner:
        """A scan over all matches, one with each call."""
        return PatternScanner(self, string, pos, endpos)

    def split(self, string: str, maxsplit: int = 0) -> List[Union[str, Any]]:
        """The pieces between the matches, each but the last followed by the groups of the match
        after it. At most `maxsplit` matches split the string, or all if that is 0; none if it is
        negative."""
        raw, most = encoded(string), _how_many(maxsplit)
        pieces: List[Union[str, Any]] = []
        if self._regex.groups == 1 and most >= 0:
            if self._literal is not None:
                return cast(List[Any], str.split(string, self._literal, most or -1))
            for spans in self._regex.pieces(raw, most):
                pieces += texts_at(spans, string, raw)
            return pieces
        part, end = part_of(string, raw), 0
        for row in self._rows(raw, most):
            pieces.append(part(end, row[1]))
            pieces += [part(row[i + 1], row[i + 2]) if row[i] else None
                       for i in range(3, len(row), 3)]
            end = row[2]
        return [*pieces, part(end, len(raw))]

    def sub(self, repl: Replacement, string: str, count: int = 0) -> str:
        """The string with its first `count` matches replaced, or all if that is 0; none if it is
        negative. A template is parsed once."""
        return self.subn(repl, string, count)[0]

    def subn(self, repl: Replacement, string: str, count: int = 0) -> Tuple[str, int]:
        """What `sub` returns, and the number of matches that were replaced."""
        raw, most = encoded(string), _how_many(count)
        if isinstance(repl, str):
            return self._by_template(repl, raw, most)
        return self._by_function(repl, string, raw, most)

    def __repr__(self) -> str:
        flags = f', {self._flags!r}'.replace('re.', 'regex_lite.') if self._flags else ''
        return f'regex_lite.compile({repr(self._pattern)[:LONGEST_SHOWN]}{flags})'

    def __eq__(self, other: object) -> bool:
        if not isinstance(other, Pattern):
            return NotImplemented
        return self._pattern == other._pattern and self._flags == other._flags

    def __hash__(self) -> int:
        return hash((self._pattern, int(self._flags)))

    def __copy__(self) -> Pattern[Text]:
        return self

    def __deepcopy__(self, memo: object) -> Pattern[Text]:
        return self

    def _found(self, string: str, pos: int, endpos: int, calls: Calls) -> Optional[Match[str]]:
        """The match that these calls of the library find."""
        if pos == 0 and endpos is END:
            raw = encoded(string)
            is_plain = len(string) == len(raw) and string.__class__ is str
            offsets = None if is_plain else Offsets(raw)
            row = self._regex.captures(raw, 0, calls)
            return None if row is None else match_of(self, string, row, offsets, None)
        part = part_in(string, pos, endpos)
        if part is None:
            return None
        _, raw, start, offsets, bounds = part
        row = self._regex.captures(raw, start, calls)
        return None if row is None else match_of(self, string, row, offsets, bounds)

    def _literal_at(self, string: str, pos: int, endpos: int, literal: str,
                    find: Callable[[str, str, int, int], int]) -> Optional[Match[str]]:
        """The match of a pattern that is plain text, which this function finds."""
        bounds, start, end = None, 0, END
        if pos != 0 or endpos is not END:
            bounds = start, end = bounds_in(string, pos, endpos)
        encoded(string if bounds is None else string[:end])  # as the library would have it
        found = find(string, literal, start, end)
        if found < 0:
            return None
        return match_of(self, string, (True, found, found + len(literal)), None, bounds)

    def _up_to_end(self) -> Pattern[str]:
        """The pattern that matches where this one does, but only up to the end of the string."""
        if self._to_end is None:
            nest_limit, _ = self._limits
            self._to_end = Pattern(up_to_end(self._pattern, self._flags), self._flags,
                                   nest_limit=min(nest_limit + 1, MOST_NEST), size_limit=MOST_SIZE)
        return self._to_end

    def _innermost(self) -> List[int]:
        """For each group, by its index, the greatest index of a group in it, or its own."""
        if self._nesting is None:
            self._nesting = innermost_of(self._pattern, self._flags)
        return self._nesting

    def _rows(self, raw: bytes, most: int = 0, start: int = 0) -> Iterator[Row]:
        """The groups of all matches from there on, of the first ones, or of none, as `most`
        says."""
        return chain.from_iterable(map(self._regex.matches_in,
                                       self._regex.rows(raw, most, start)))

    def _by_template(self, template: str, raw: bytes, most: int) -> Tuple[str, int]:
        """The string with its first matches replaced by a template's expansion, and the number of
        matches that were replaced."""
        parts = parts_of(template, self)
        if most < 0:
            return raw.decode(), 0
        texts = [part for part in parts if isinstance(part, str)]
        is_literal = len(texts) == len(parts)
        new = ''.join(texts) if is_literal else as_library_has_it(parts)
        return self._regex.replaced(raw, encoded(new), most, is_literal)

    def _by_function(self, function: Callable[[Match[str]], str], string: str, raw: bytes,
                     most: int) -> Tuple[str, int]:
        """The string with its first matches replaced by what a function returns, and the number of
        matches that were replaced."""
        if not callable(function):
            raise TypeError(f'a replacement is a str or a function, not {type(function).__name__}')
        part, offsets, end = part_of(string, raw), offsets_in(string, raw), 0
        pieces: List[str] = []
        for row in self._rows(raw, most):
            new = function(match_of(self, string, row, offsets))
            if not isinstance(new, str):
                raise TypeError(f'the function returned {type(new).__name__}, and not a str')
            pieces += [part(end, row[1]), new]
            end = row[2]
        return ''.join([*pieces, part(end, len(raw))]), len(pieces) // 2
