"""The library for C: its calls for several patterns."""

from __future__ import annotations

import ctypes
import struct
from ctypes import POINTER, byref, c_size_t, c_uint32, c_void_p
from typing import Callable, Iterator, List, Optional, Sequence, Tuple

from ._foreign import (LONGEST_MESSAGE, NO_ROOM, SPAN, TEXT, YES, Call, Options, Room, Row, Shared,
                       call, checked, encoded, refusal, room_sizes, row_of, search_call, whole_call)
from ._structures import Cost, Walk


class ListHandle(ctypes.Structure):
    """A handle: it holds a list of patterns, or nothing."""

    _fields_ = [('place', c_void_p)]


class ListPattern(ctypes.Structure):
    """One of several patterns, whose bytes are concatenated."""

    _fields_ = [('len', c_size_t), ('options', Options)]


class ListRefusal(ctypes.Structure):
    """Why several patterns are rejected."""

    _fields_ = [('number', c_size_t), ('message_len', c_size_t)]


class ListSpan(ctypes.Structure):
    """A match of one of several patterns, in bytes."""

    _fields_ = [('number', c_size_t), ('start', c_size_t), ('end', c_size_t)]


class ListGroups(ctypes.Structure):
    """The pattern of a match, and the number of its groups."""

    _fields_ = [('number', c_size_t), ('count', c_size_t)]


_LIST = POINTER(ListHandle)
_list_new = call('list_new', c_uint32, _LIST, *TEXT, POINTER(ListPattern), c_size_t, c_void_p,
                 c_size_t, POINTER(ListRefusal))
_list_free = call('list_free', None, _LIST)
_list_arrows = call('list_arrows', c_size_t, _LIST)
_list_may_be_empty = call('list_may_be_empty', c_uint32, _LIST, c_size_t)
_list_places = call('list_places', c_size_t, _LIST)
_list_find_counted = search_call('list_find_counted')
_list_matches = search_call('list_matches')
# The calls that write the groups of a match: unanchored, anchored, and for a whole match.
ANYWHERE, ANCHORED = search_call('list_captures'), search_call('list_captures_anchored')
WHOLE = whole_call('list_full_captures')
_list_find_all = search_call('list_find_all')
_list_captures_all = search_call('list_captures_all')
FOUND, SIZES = struct.Struct('@NNN'), struct.Struct('@NN')  # a ListSpan, and a ListGroups


class ListHolder:
    """A handle of the library, which is freed with this object."""

    def __init__(self) -> None:
        self.handle = ListHandle()
        self.here = byref(self.handle)

    # When the interpreter ends, names of the module may be gone before the last list is.
    def __del__(self, free: Callable[..., int] = _list_free) -> None:
        free(self.handle)


class RawList(Shared[ListHolder]):
    """A list of patterns of the library."""

    def __init__(self, patterns: Sequence[str], options: Options) -> None:
        self._patterns, self._options, self._len = patterns, options, len(patterns)
        holder = self._build()
        self.places = _list_places(holder.handle)
        self.arrows = _list_arrows(holder.handle)
        super().__init__(holder, self.arrows + max(1, self._len))
        self._room = 4  # groups for which there is room at first

    def _build(self) -> ListHolder:
        """A handle with the list of the patterns. Raises an error if one is rejected."""
        holder, patterns, options = ListHolder(), self._patterns, self._options
        texts = [encoded(pattern) for pattern in patterns]
        each = (ListPattern * len(texts))(*[ListPattern(len(text), options) for text in texts])
        raw, refused = b''.join(texts), ListRefusal()
        message = ctypes.create_string_buffer(LONGEST_MESSAGE)
        answer = _list_new(holder.handle, raw, len(raw), each, len(each), message, LONGEST_MESSAGE,
                           refused)
        if answer != YES:
            bad = patterns[refused.number] if refused.number < len(patterns) else ''
            raise refusal(answer, message.raw[:refused.message_len], bad, options)
        return holder

    def may_be_empty(self, number: int) -> bool:
        """Whether this pattern may match the empty text if its looks are assumed to hold."""
        holder = self._take()
        answer = _list_may_be_empty(holder.handle, number)
        self._idle.append(holder)
        return checked(answer)

    def captures(self, text: bytes, start: int,
                 called: Call = ANYWHERE) -> Optional[Tuple[int, Row]]:
        """The number of the pattern of the match that this call finds from there on, and its
        groups, in bytes of UTF-8."""
        groups = ListGroups()
        while True:
            room = self._room
            spans = Room(SPAN, room)
            answer = self._ask(called, text, c_size_t(start), spans.start, c_size_t(room),
                               byref(groups))
            if answer != NO_ROOM:
                break
            self._room = max(room, groups.count)
        if not checked(answer):
            return None
        return groups.number, row_of(spans.first(groups.count))

    def spans(self, text: bytes, start: int) -> Iterator[Tuple[int, int, int]]:
        """The numbers and spans of all matches from there on."""
        walk, count = Walk(), c_size_t()
        if start:
            first = self.captures(text, start)
            if first is None:
                return
            number, row = first
            yield number, row[1], row[2]
            walk = Walk(True, row[2])
        for size in room_sizes(len(text), 1):
            found = Room(FOUND, size)
            checked(self._ask(_list_find_all, text, byref(walk), found.start, c_size_t(size),
                              byref(count)))
            yield from FOUND.iter_unpack(found.first(count.value))  # type: ignore[misc]
            if count.value < size:
                return

    def rows(self, text: bytes, start: int) -> Iterator[Tuple[int, Row]]:
        """The numbers of the patterns of all matches from there on, and their groups."""
        walk = Walk()
        if start:
            first = self.captures(text, start)
            if first is None:
                return
            yield first
            walk = Walk(True, first[1][2])
        for size in room_sizes(len(text), 1):
            sizes, row = self._walk_on(text, walk, size)
            if not sizes:
                return
            at = 0
            for number, groups in sizes:
                end = at + 3 * groups
                yield number, row[at:end]
                at = end

    def _walk_on(self, text: bytes, walk: Walk, size: int) -> Tuple[List[Tuple[int, int]], Row]:
        """The numbers of the patterns of the next matches, and the number of groups of each; and
        these groups, one after another. They are at most this many groups, unless a single match
        has more, and none at the end."""
        count, answer = c_size_t(), NO_ROOM
        while answer == NO_ROOM:
            size = max(size, count.value)
            sizes, spans, room = Room(SIZES, size), Room(SPAN, size), c_size_t(size)
            answer = self._ask(_list_captures_all, text, byref(walk), sizes.start, room,
                               spans.start, room, byref(count))
        checked(answer)
        found = [(number, groups) for number, groups in SIZES.iter_unpack(sizes.first(count.value))]
        return found, row_of(spans.first(sum(groups for _, groups in found)))

    def matches(self, text: bytes, start: int) -> List[int]:
        """The numbers of the patterns that match somewhere from there on."""
        flags, count = ctypes.create_string_buffer(self._len), c_size_t()
        checked(self._ask(_list_matches, text, c_size_t(start), flags, c_size_t(self._len),
                          byref(count)))
        return [number for number, flag in enumerate(flags.raw) if flag]

    def tried(self, text: bytes) -> int:
        """The number of places that a search for the first match tries."""
        span, cost = ListSpan(), Cost()
        checked(self._ask(_list_find_counted, text, c_size_t(0), byref(span), byref(cost)))
        return int(cost.tried)
