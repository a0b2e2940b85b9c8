"""Properties of a pattern that its outline shows."""

from __future__ import annotations

import re
from typing import List

from ._departures import GAP, Reader
from ._flags import LETTERS, checked_flags

_DIRECTIVE = re.compile(r'\(\?([a-zA-Z]*)-?([a-zA-Z]*)\)')
_GAPS = re.compile(f'{GAP}*', re.VERBOSE)


def flags_of(pattern: str, flags: int) -> int:
    """The flags of an accepted pattern, with what it sets itself where it begins, as `(?i)`."""
    flags, pos = int(flags), 0
    while True:
        if flags & LETTERS['x']:
            gaps = _GAPS.match(pattern, pos)
            pos = gaps.end() if gaps is not None else pos
        directive = _DIRECTIVE.match(pattern, pos)
        if directive is None:
            return checked_flags(flags)
        for letter in directive[1]:
            flags |= LETTERS.get(letter, 0)
        for letter in directive[2]:
            flags &= ~LETTERS.get(letter, 0)
        pos = directive.end()


def innermost_of(pattern: str, flags: int) -> List[int]:
    """For each group of an accepted pattern, by its index, the greatest index of a group in it, or
    its own. So a group is in another one if its index lies between."""
    reader = Reader(pattern, flags)
    reader.read()
    return reader.innermost


def up_to_end(pattern: str, flags: int) -> str:
    """The pattern that matches where this one does, but only up to the end of the string."""
    reader = Reader(pattern, flags)
    reader.read()
    # A comment at the end of the pattern has to end before the bracket.
    return f'(?:{pattern}\n)\\z' if reader.verbose else f'(?:{pattern})\\z'
