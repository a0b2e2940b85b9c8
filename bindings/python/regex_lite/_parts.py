"""The outline of a pattern: what it means, part by part."""

from __future__ import annotations

from ctypes import POINTER, c_size_t, c_uint32, c_void_p, create_string_buffer
from enum import Enum
from itertools import starmap
from struct import Struct
from typing import Iterator, List, NamedTuple, Optional, Union

from ._errors import error
from ._faults import as_re_says
from ._flags import NEST_LIMIT, SIZE_LIMIT, options_of
from ._foreign import LONGEST_MESSAGE, NO_ROOM, TEXT, YES, Room, call, encoded, refusal
from ._patterns import Pattern
from ._structures import Options, Outlined

_PART = Struct('@N7I??0N')  # as `regex_lite_part` in C
_outline = call('outline', c_uint32, *TEXT, POINTER(Options), c_void_p, c_size_t, c_void_p,
                c_size_t, POINTER(Outlined))


class PartKind(Enum):
    """The kind of a part of a pattern."""

    EMPTY = 0  # the empty string
    CHAR = 1  # the character `first`
    CLASS = 2  # a character of the ranges right after it; if there is none, no character
    RANGE = 3  # of a class: the characters from `first` to `last`
    LOOK = 4  # a test of the position: `look`
    REPETITION = 5  # the part after it, from `least` to `most` times
    CAPTURE = 6  # the part after it, as the group `group`
    CONCAT = 7  # the parts one level below it, one after another
    ALTERNATION = 8  # one of the parts one level below it, the earlier preferred


class Look(Enum):
    """A test of a position of the string."""

    START = 1
    END = 2
    START_LF = 3  # of a line, where lines end with a line feed
    END_LF = 4
    START_CRLF = 5  # of a line, where lines end with a carriage return, a line feed or both
    END_CRLF = 6
    WORD = 7  # a word starts or ends here
    WORD_NEGATE = 8  # no word starts or ends here
    WORD_START = 9
    WORD_END = 10
    WORD_START_HALF = 11  # there is no word character before
    WORD_END_HALF = 12  # there is no word character after


class Part(NamedTuple):
    """A part of a pattern. Its own parts follow it directly and are one level below it: `depth` is
    the number of parts around it. A field that parts of its kind don't have is None."""

    depth: int
    kind: PartKind
    first: Optional[str] = None  # a character
    last: Optional[str] = None
    look: Optional[Look] = None
    group: Optional[int] = None  # its index
    least: Optional[int] = None
    most: Optional[int] = None  # of a repetition too, where there is no limit
    is_greedy: Optional[bool] = None  # whether more passes are preferred to fewer


def outline(pattern: Union[str, Pattern[str]], flags: int = 0, *,
            nest_limit: int = NEST_LIMIT) -> List[Part]:
    """The parts of the pattern in order: those of its meaning under these flags, so `(?i)a` is a
    class, `a{1}` is `a`, and `(?:a)` too.

    Raises what `compile` raises for a pattern that it rejects, but there is no limit on the size: a
    pattern that has an outline may be too large for `compile`."""
    if isinstance(pattern, Pattern):
        if flags:
            raise ValueError('cannot process flags argument with a compiled pattern')
        flags, pattern = int(pattern.flags), pattern.pattern
    try:
        return list(Outline(pattern, options_of(flags, nest_limit, SIZE_LIMIT)))
    except error as fault:
        raise as_re_says(fault, flags) from None


class Outline:
    """The parts of a pattern, each of which is created when it is accessed: there may be
    millions."""

    def __init__(self, pattern: str, options: Options) -> None:
        raw, told = encoded(pattern), Outlined()
        message = create_string_buffer(LONGEST_MESSAGE)
        answer, size = NO_ROOM, len(raw) + 1
        while answer == NO_ROOM:
            size = max(size, told.count)
            room = Room(_PART, size)
            answer = _outline(raw, len(raw), options, room.start, size, message, LONGEST_MESSAGE,
                              told)
        if answer != YES:
            raise refusal(answer, message.raw[:told.message_len], pattern, options)
        self._parts, self._count = room.first(told.count), int(told.count)

    def __len__(self) -> int:
        return self._count

    def __iter__(self) -> Iterator[Part]:
        return starmap(_part, _PART.iter_unpack(self._parts))


def _part(depth: int, number: int, first: int, last: int, look: int, index: int, least: int,
          most: int, has_most: bool, is_greedy: bool) -> Part:
    """A part with these fields, as the library writes them."""
    kind = PartKind(number)
    if kind in (PartKind.CHAR, PartKind.RANGE):
        return Part(depth, kind, first=chr(first), last=chr(last))
    if kind is PartKind.LOOK:
        return Part(depth, kind, look=Look(look))
    if kind is PartKind.CAPTURE:
        return Part(depth, kind, group=index)
    if kind is PartKind.REPETITION:
        return Part(depth, kind, least=least, most=most if has_most else None,
                    is_greedy=is_greedy)
    return Part(depth, kind)
