"""The library for C: its calls for one pattern, and what they return."""

from __future__ import annotations

import sys
from ctypes import POINTER, Array, byref, c_size_t, c_uint32, create_string_buffer
from struct import Struct
from typing import Any, Callable, Iterator, List, Optional, Sequence, Tuple

from ._foreign import (BYTE, LONGEST_MESSAGE, MANY, NO_ROOM, ROOM, SPAN, TEXT, YES, Call, CSpan,
                       Options as Options, Room, Row, Shared, bounds_of, call, checked,
                       encoded as encoded, refusal, room_sizes, search_call, whole_call)
from ._structures import Cost, Cut, Handle, Replacing, Walk as Walk

Span = Optional[Tuple[int, int]]
Calls = Tuple[Call, Call]

_HANDLE = POINTER(Handle)
_new = call('new', c_uint32, _HANDLE, *TEXT, POINTER(Options), *ROOM)
_free = call('free', None, _HANDLE)
_groups = call('groups', c_size_t, _HANDLE)
_may_be_empty = call('may_be_empty', c_uint32, _HANDLE)
_places = call('places', c_size_t, _HANDLE)
_arrows = call('arrows', c_size_t, _HANDLE)
_group_name = call('group_name', c_uint32, _HANDLE, c_size_t, *ROOM)
_find_counted = search_call('find_counted')
_find_each = search_call('find_each')
_replace = search_call('replace')
_find_all = search_call('find_all')
_captures_all = search_call('captures_all')
_split = search_call('split')
# The calls that write the span of a match and its groups: unanchored, anchored, and for a whole
# match.
ANYWHERE = search_call('find'), search_call('captures')
ANCHORED = search_call('find_anchored'), search_call('captures_anchored')
WHOLE = whole_call('full_match'), whole_call('full_captures')
_START, _UNREAD = c_size_t.from_param(0), byref(c_size_t())  # the second for a count that is known


def spans_of(row: Row) -> List[Span]:
    """The spans of the groups of a match, some of which may be missing."""
    fields = iter(row)
    return [(start, end) if is_there else None for is_there, start, end in zip(*[fields] * 3)]


class Worker:
    """What one call at a time uses: a handle, which is freed with this object, and memory for the
    groups of a match. `here` and `there` are passed to calls for the two."""

    __slots__ = ('handle', 'here', 'length', 'spans', 'there')
    spans: Array[CSpan]
    there: Any

    def __init__(self) -> None:
        self.handle = Handle()
        self.here = byref(self.handle)
        self.length = c_size_t()

    # When the interpreter ends, names of the module may be gone before the last regex is.
    def __del__(self, free: Callable[..., int] = _free) -> None:
        free(self.handle)


class Regex(Shared[Worker]):
    """A regex of the library."""

    def __init__(self, pattern: str, options: Options) -> None:
        self._pattern, self._options = pattern, options
        worker = self._build()
        self.groups = _groups(worker.handle)
        self.places = _places(worker.handle)
        self.arrows = _arrows(worker.handle)
        super().__init__(worker, self.arrows + 1)
        self._width, self._row = c_size_t.from_param(self.groups), Struct('@' + '?NN' * self.groups)

    def _build(self) -> Worker:
        """A handle with the regex of the pattern. Raises an error if it is rejected."""
        worker, raw, length = Worker(), encoded(self._pattern), c_size_t()
        message = create_string_buffer(LONGEST_MESSAGE)
        answer = _new(worker.handle, raw, len(raw), self._options, message, LONGEST_MESSAGE, length)
        if answer != YES:
            raise refusal(answer, message.raw[:length.value], self._pattern, self._options)
        worker.spans = (CSpan * _groups(worker.handle))()
        worker.there = byref(worker.spans)
        return worker

    def name(self, index: int) -> Optional[str]:
        """The name of a group, if it has one."""
        worker, length = self._take(), c_size_t()
        room = create_string_buffer(1)
        answer = _group_name(worker.handle, index, room, 0, length)
        if answer == NO_ROOM:
            room = create_string_buffer(length.value)
            checked(_group_name(worker.handle, index, room, length.value, length))
        self._idle.append(worker)
        return room.raw.decode() if answer == NO_ROOM else None

    def may_be_empty(self) -> bool:
        """Whether the pattern may match the empty text if its looks are assumed to hold."""
        worker = self._take()
        answer = _may_be_empty(worker.handle)
        self._idle.append(worker)
        return checked(answer)

    def captures(self, text: bytes, start: int, calls: Calls = ANYWHERE) -> Optional[Row]:
        """The groups of the match that these calls find from there on, in bytes of UTF-8."""
        try:
            worker = self._idle.pop()  # as `_take` does, in less time
        except IndexError:
            worker = self._build()
        worker.length.value = count = len(text)
        begin = c_size_t(start) if start else _START
        if self.groups == 1:
            short, long = calls[0]
            ask = short if count < self._long else long
            answer = ask(worker.here, text, worker.length, begin, worker.there)
        else:
            short, long = calls[1]
            ask = short if count < self._long else long
            answer = ask(worker.here, text, worker.length, begin, worker.there, self._width,
                         _UNREAD)
        row = self._row.unpack(worker.spans) if answer == YES else None
        self._idle.append(worker)
        return row if answer <= YES or checked(answer) else None

    def find_each(self, texts: Sequence[bytes]) -> List[Span]:
        """The span of the first match in each of the texts, in bytes of UTF-8."""
        count = len(texts)
        lens, spans = (c_size_t * count)(*map(len, texts)), Room(SPAN, count)
        many = c_size_t(count)
        checked(self._ask(_find_each, b''.join(texts), byref(lens), many, spans.start, many))
        return [(start, end) if is_there else None
                for is_there, start, end in SPAN.iter_unpack(spans.first(count))]

    def rows(self, text: bytes, most: int = 0, start: int = 0) -> Iterator[memoryview]:
        """The groups of the first matches from there on, of all if `most` is 0, and of none if it
        is negative, in bytes of UTF-8: in batches of rows. `matches_in` and `column_in` read
        them."""
        if most < 0:
            return
        walk, left = Walk(), most or sys.maxsize
        if start:
            first = self.captures(text, start)
            if first is None:
                return
            yield memoryview(self._row.pack(*first))
            walk, left = Walk(True, first[2]), left - 1
        for size in room_sizes(len(text), self.groups):
            room = size if size < left else left
            if room == 0:
                return
            count, rows = self._walk_on(text, walk, room, self.groups)
            yield rows
            if count < room:
                return
            left -= count

    def matches_in(self, rows: memoryview) -> Iterator[Row]:
        """The groups of each match."""
        return self._row.iter_unpack(rows)

    def column_in(self, rows: memoryview, group: int) -> Iterator[Tuple[int, int]]:
        """The start and the end of a group of each match: both are 0 if it took no part."""
        return bounds_of(rows, self.groups, group)

    def pieces(self, text: bytes, most: int) -> Iterator[Iterator[Tuple[int, int]]]:
        """The starts and ends of the pieces of a text, in batches: the text is split at the first
        matches, at all if `most` is 0."""
        cut, left, count = Cut(), most or sys.maxsize, c_size_t()
        for size in room_sizes(len(text), 1, MANY):
            room = min(size, left)
            spans = Room(SPAN, room)
            checked(self._ask(_split, text, byref(cut), spans.start, c_size_t(room), byref(count)))
            yield bounds_of(spans.first(count.value))
            left -= room
            if cut.is_over:
                return
            if left == 0:
                yield iter([(cut.walk.end, len(text))])
                return

    def count(self, text: bytes, walk: Walk) -> int:
        """The number of matches left, which are consumed."""
        total = 0
        for size in room_sizes(len(text), 1):
            count, _ = self._walk_on(text, walk, size, 1)
            total += count
            if count < size:
                break
        return total

    def tried(self, text: bytes) -> int:
        """The number of places that a search for the first match tries."""
        span, cost = CSpan(), Cost()
        checked(self._ask(_find_counted, text, _START, byref(span), byref(cost)))
        return int(cost.tried)

    def next_captures(self, text: bytes, walk: Walk, room: int) -> List[List[Span]]:
        """The spans of the groups of the next matches, at most this many, and none at the end."""
        _, rows = self._walk_on(text, walk, room, self.groups)
        return [spans_of(row) for row in self.matches_in(rows)]

    def replaced(self, text: bytes, new: bytes, limit: int,
                 is_literal: bool) -> Tuple[str, int]:
        """The text with its first matches replaced, or all if the limit is 0, by a literal text or
        by a template, where `$1` is a group; and the number of matches that were replaced."""
        # A single byte makes the text longer only where it replaces an empty match.
        growth = 1 if len(new) < 2 else 2
        how, size = Replacing(limit, is_literal, 0, 0), growth * len(text) + len(new)
        answer = NO_ROOM
        while answer == NO_ROOM:
            size = max(size, how.len)
            room = Room(BYTE, size)
            answer = self._ask(_replace, text, new, c_size_t(len(new)), byref(how), room.start,
                               c_size_t(size))
        checked(answer)
        return str(room.first(how.len), 'utf-8'), how.count

    def _walk_on(self, text: bytes, walk: Walk, room: int,
                 groups: int) -> Tuple[int, memoryview]:
        """The number of the next matches, at most this many, and their groups: all, or only the
        whole match."""
        size, count = room * groups, c_size_t()
        spans = Room(SPAN, size)
        checked(self._ask(_find_all if groups == 1 else _captures_all, text, byref(walk),
                          spans.start, c_size_t(size), byref(count)))
        found = count.value
        return found, spans.first(found * groups)
