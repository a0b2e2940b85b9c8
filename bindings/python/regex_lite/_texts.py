"""Strings and their UTF-8: parts, and conversions of offsets."""

from __future__ import annotations

import operator
import sys
from typing import Callable, Iterable, List, Optional, SupportsIndex, Tuple

from ._foreign import encoded

BLOCK = 1024  # bytes between two cached offsets
# The `endpos` of a search up to the end of the string. It is recognised by its identity, which is
# faster than comparing it; another number as large means the same.
END = sys.maxsize
Bounds = Tuple[int, int]  # the offsets between which a string is searched


class Offsets:
    """From offsets in bytes to offsets in characters, for a string beyond ASCII.

    The first offset costs the length of the text before it. From then on the number of characters
    before each block of bytes is known, and an offset costs at most a block, in whatever order they
    come. Several threads may use this at once: what two of them write is the same."""

    __slots__ = ('raw', '_blocks', '_last')

    def __init__(self, raw: bytes) -> None:
        self.raw = raw
        self._blocks = {0: (0, 0)}
        self._last = 0, 0

    def span(self, start: int, end: int) -> Tuple[int, int]:
        """The span in characters of a span in bytes, which lies on character boundaries."""
        near, characters = self._last
        if not 0 <= start - near < BLOCK:
            near, characters = self._block(start // BLOCK)
        first = last = characters + len(self.raw[near:start].decode())
        near = start
        if end - start >= BLOCK:
            near, last = self._block(end // BLOCK)
        last += len(self.raw[near:end].decode())
        self._last = end, last
        return first, last

    def start(self, string: str, characters: int) -> int:
        """The offset in bytes of an offset in characters. Later offsets are near then."""
        offset = len(string[:characters].encode())
        self._last = offset, characters
        return offset

    def _block(self, number: int) -> Tuple[int, int]:
        """The start of the first character of a block, in bytes and in characters."""
        blocks, raw = self._blocks, self.raw
        for i in range(len(blocks), number + 1):
            before, characters = blocks[i - 1]
            start = i * BLOCK
            while start < len(raw) and raw[start] & 0xC0 == 0x80:
                start += 1
            blocks[i] = start, characters + len(raw[before:start].decode())
        return blocks[number]


# The part of a string that a search sees, its UTF-8, the start of the search in that, the offsets
# in the part, and the bounds of the search, unless it sees the whole string. The part begins with
# the string, so that looks see what comes before the search, and ends where the search ends.
Part = Tuple[str, bytes, int, Optional[Offsets], Optional[Bounds]]


def part_in(string: str, pos: SupportsIndex, endpos: SupportsIndex) -> Optional[Part]:
    """The part of a string that is searched from one offset up to another one, or none if the first
    is greater. Offsets before or after the string mean its start or its end."""
    if pos == 0 and endpos is END:
        raw = encoded(string)
        return string, raw, 0, offsets_in(string, raw), None
    start, end = bounds = bounds_in(string, pos, endpos)
    text = string[:end]
    raw = encoded(text)
    offsets = offsets_in(text, raw)
    if start > end:
        return None
    return text, raw, start_in(text, offsets, start), offsets, bounds


def bounds_in(string: str, pos: SupportsIndex, endpos: SupportsIndex) -> Bounds:
    """These offsets, moved into the string."""
    length = len(string)
    return (min(max(operator.index(pos), 0), length), min(max(operator.index(endpos), 0), length))


def offsets_in(string: str, raw: bytes) -> Optional[Offsets]:
    """The offsets in a string, which an ASCII string doesn't need. A string of a subclass has some
    too, since its parts are of the type str."""
    return None if len(string) == len(raw) and string.__class__ is str else Offsets(raw)


def start_in(string: str, offsets: Optional[Offsets], pos: int) -> int:
    """The offset in bytes of the offset in characters at which a search begins. An offset before or
    after the string means its start or its end."""
    start = min(max(pos, 0), len(string))
    return start if offsets is None else offsets.start(string, start)


def texts_at(spans: Iterable[Tuple[int, int]], string: str, raw: bytes) -> List[str]:
    """The parts of a string that have these spans in its UTF-8."""
    if len(string) == len(raw) and string.__class__ is str:
        return [string[start:end] for start, end in spans]
    return [raw[start:end].decode() for start, end in spans]


def part_of(string: str, raw: bytes) -> Callable[[int, int], str]:
    """The function that returns the part of a string between two offsets in its UTF-8."""
    if len(string) == len(raw) and string.__class__ is str:
        return lambda start, end: string[start:end]
    return lambda start, end: raw[start:end].decode()
