"""Matches, with offsets in characters as strings have them."""

from __future__ import annotations

import operator
from typing import (TYPE_CHECKING, Any, Dict, Generic, List, Literal, NoReturn, Optional, Tuple,
                    TypeVar, Union, overload)

from ._foreign import Row
from ._templates import expanded, parts_of
from ._texts import Bounds, Offsets

if TYPE_CHECKING:
    from ._patterns import Pattern

Group = Union[int, str]
# Matches and patterns of `re` are generic over str and bytes: here they are always of str.
Text = TypeVar('Text', bound=str)
Default = TypeVar('Default')


class Match(Generic[Text]):
    """A match of a pattern in a string. A group that took no part is None, but to type checkers it
    is a text, as in `re`: otherwise each use of a group would need a test."""

    __slots__ = ('_re', '_string', '_row', '_offsets', '_bounds')
    __module__ = 'regex_lite'
    _re: Pattern[Any]
    _string: str
    _row: Row  # in bytes, or in characters if there are no offsets
    _offsets: Optional[Offsets]
    _bounds: Optional[Bounds]

    @property
    def re(self) -> Pattern[Any]:
        """The pattern."""
        return self._re

    @property
    def string(self) -> str:
        """The string that was searched."""
        return self._string

    @property
    def pos(self) -> int:
        """The offset at which the search began: the `pos` of the call, within the string."""
        return 0 if self._bounds is None else self._bounds[0]

    @property
    def endpos(self) -> int:
        """The offset at which the string ended for the search: the `endpos` of the call, within the
        string."""
        return len(self._string) if self._bounds is None else self._bounds[1]

    @property
    def regs(self) -> Tuple[Tuple[int, int], ...]:
        """What `span` returns for each group, beginning with the whole match."""
        return tuple(self.span(i) for i in range(len(self._row) // 3))

    @property
    def lastindex(self) -> Optional[int]:
        """The index of the group that closed last, or None if no group took part."""
        row = self._row
        closed = [i for i in range(1, len(row) // 3) if row[3 * i]]
        if not closed:
            return None
        end = max(row[3 * i + 2] for i in closed)
        return self._last([i for i in closed if row[3 * i + 2] == end], end)

    @property
    def lastgroup(self) -> Optional[str]:
        """The name of the group that closed last; None if it has none, or if no group took part."""
        last = self.lastindex
        return next((name for name, i in self._re.groupindex.items() if i == last), None)

    def span(self, group: Group = 0, /) -> Tuple[int, int]:
        """The start and the end of the group; (-1, -1) if it took no part."""
        row, at = self._row, 0 if group == 0 else self._at(group)
        if not row[at]:
            return -1, -1
        if self._offsets is None:
            return row[at + 1], row[at + 2]
        return self._offsets.span(row[at + 1], row[at + 2])

    def start(self, group: Group = 0, /) -> int:
        """The start of the group; -1 if it took no part."""
        return self.span(group)[0]

    def end(self, group: Group = 0, /) -> int:
        """The end of the group; -1 if it took no part."""
        return self.span(group)[1]

    @overload
    def __getitem__(self, group: Literal[0], /) -> str: ...

    @overload
    def __getitem__(self, group: Group, /) -> Union[str, Any]: ...

    def __getitem__(self, group: Group, /) -> Union[str, Any]:
        row, at = self._row, 0 if group == 0 else self._at(group)
        if not row[at]:
            return None
        if self._offsets is None:
            return self._string[row[at + 1]:row[at + 2]]
        return self._offsets.raw[row[at + 1]:row[at + 2]].decode()

    @overload
    def group(self, group: Literal[0] = 0, /) -> str: ...

    @overload
    def group(self, group: Group, /) -> Union[str, Any]: ...

    @overload
    def group(self, first: Group, second: Group, /,
              *others: Group) -> Tuple[Union[str, Any], ...]: ...

    def group(self, *groups: Group) -> Union[str, Any, Tuple[Union[str, Any], ...]]:
        """The text of a group, or those of several."""
        if len(groups) > 1:
            return tuple(self[group] for group in groups)
        return self[groups[0] if groups else 0]

    @overload
    def groups(self) -> Tuple[Union[str, Any], ...]: ...

    @overload
    def groups(self, default: Default) -> Tuple[Union[str, Default], ...]: ...

    def groups(self, default: object = None) -> Tuple[object, ...]:
        """The texts of all groups except the whole match."""
        texts = [self[i] for i in range(1, len(self._row) // 3)]
        return tuple(default if text is None else text for text in texts)

    @overload
    def groupdict(self) -> Dict[str, Union[str, Any]]: ...

    @overload
    def groupdict(self, default: Default) -> Dict[str, Union[str, Default]]: ...

    def groupdict(self, default: object = None) -> Dict[str, Any]:
        """The texts of the groups with names."""
        texts = {name: self[i] for name, i in self._re.groupindex.items()}
        return {name: default if text is None else text for name, text in texts.items()}

    def expand(self, template: str) -> str:
        """The template with the texts of groups instead of references such as `\\1`."""
        return expanded(parts_of(template, self._re), self)

    def __repr__(self) -> str:
        return f'<regex_lite.Match object; span={self.span()}, match={self[0]!r}>'

    def __copy__(self) -> Match[Text]:
        return self

    def __deepcopy__(self, memo: object) -> Match[Text]:
        return self

    def __reduce__(self) -> NoReturn:
        raise TypeError("cannot pickle 'regex_lite.Match' object")

    def _at(self, group: object) -> int:
        """The index in the row of a group's fields: whether it took part, and its span."""
        try:
            index = operator.index(group)  # type: ignore[arg-type]
        except TypeError:
            index = self._re.groupindex.get(group, -1)  # type: ignore[call-overload]
        at = 3 * index
        if not 0 <= at < len(self._row):
            raise IndexError('no such group')
        return at

    def _last(self, groups: List[int], end: int) -> int:
        """Which of these groups, all of which end here, closed last.

        A group closes after those in it. Of two others one is empty, and opened after the other had
        closed. If both are empty, the one that comes later in the pattern is taken to be the later
        one: it is, unless they took part in different passes of a repetition."""
        last, innermost = groups[0], self._re._innermost() if len(groups) > 1 else []
        for group in groups[1:]:
            if self._row[3 * group + 1] == end and group > innermost[last]:
                last = group
        return last


def match_of(pattern: Pattern[Any], string: str, row: Row, offsets: Optional[Offsets],
             bounds: Optional[Bounds] = None) -> Match[str]:
    """The match with these groups, in bytes, or in characters if there are no offsets: in an ASCII
    string both are the same. The bounds are those of the search, unless it saw the whole string."""
    found: Match[str] = Match()  # which takes half the time of one with an `__init__`
    found._re = pattern
    found._string = string
    found._row = row
    found._offsets = offsets
    found._bounds = bounds
    return found
