"""Scans over all matches in a string, one match with each call."""

from __future__ import annotations

from typing import TYPE_CHECKING, Any, Optional

from ._texts import bounds_in

if TYPE_CHECKING:
    from ._matches import Match
    from ._patterns import Pattern


class PatternScanner:
    """What `Pattern.scanner` returns."""

    __slots__ = ('_pattern', '_matches', '_end')

    def __init__(self, pattern: Pattern[Any], string: str, pos: int, endpos: int) -> None:
        self._pattern = pattern
        self._matches = pattern.finditer(string, pos, endpos)
        self._end = bounds_in(string, pos, endpos)[0]

    @property
    def pattern(self) -> Pattern[Any]:
        """The pattern."""
        return self._pattern

    def search(self) -> Optional[Match[str]]:
        """The next match."""
        found = next(self._matches, None)
        if found is not None:
            self._end = found.end()
        return found

    def match(self) -> Optional[Match[str]]:
        """The next match, if it starts where the one before it ended. Otherwise the scan is
        over."""
        end, found = self._end, self.search()
        if found is None or found.start() == end:
            return found
        self._matches = iter(())
        return None
