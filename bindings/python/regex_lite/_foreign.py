"""The library for C: how its calls are made, and what is passed to them."""

from __future__ import annotations

import ctypes
import struct
from ctypes import POINTER, byref, c_char, c_char_p, c_size_t, c_ssize_t, c_uint32, c_void_p
from itertools import chain
from typing import (Any, Callable, Generic, Iterator, Optional, Protocol, Tuple, TypeVar, cast)

from ._errors import error
from ._loading import load
from ._structures import CSpan as CSpan, Fault, Options as Options

NO, YES, NOTHING_HELD, NOT_TEXT, BAD_OFFSET, NO_ROOM, OUT_OF_MEMORY, NO_GROUP = range(8)
SYNTAX = 10
LONGEST_MESSAGE = 100
FIRST_ROOM, LATER_ROOM = 16, 1 << 16  # spans of the largest batch
FEW, MANY = 1024, 64  # bytes of a text for which there is one span more in the first room
LONG = 1 << 14  # characters of a string that is encoded once, if it isn't ASCII
MOST_STEPS = 1 << 20  # of a search at worst, for it to be short: some milliseconds
# Whether a group took part, its start, and its end: for each group of a match.
Row = Tuple[Any, ...]

_LIBRARY = load()
TEXT = [c_char_p, c_size_t]
ROOM = [c_void_p, c_size_t, POINTER(c_size_t)]
SPAN, BYTE = struct.Struct('@?NN'), struct.Struct('@c')


# A function of the library that searches a text, in its form for short searches and for long ones.
# A short search keeps the interpreter's lock, since releasing it may cost more than the search. A
# long one releases it, so that other threads run meanwhile.
Call = Tuple[Callable[..., int], Callable[..., int]]


def call(name: str, result: Any, *arguments: Any) -> Callable[..., int]:
    """A function of the library that searches nothing, whose arguments ctypes converts."""
    function = getattr(_LIBRARY.keeping, f'regex_lite_{name}')
    function.restype = result
    function.argtypes = arguments
    return cast(Callable[..., int], function)


def search_call(name: str) -> Call:
    """A function of the library that searches, whose arguments have to be bytes and objects of
    ctypes: it would cut an `int` to 32 bits. Such a call takes half the time of one that converts
    its arguments."""
    short, long = (library[f'regex_lite_{name}'] for library in _LIBRARY)
    short.restype = long.restype = c_uint32
    return short, long


def whole_call(name: str) -> Call:
    """A function of the library for a match of the whole text, called as those for a match from an
    offset on: it takes no offset."""
    short, long = search_call(name)
    return _without_offset(short), _without_offset(long)


def _without_offset(function: Callable[..., int]) -> Callable[..., int]:
    def whole(handle: object, text: bytes, length: object, _: object, *room: object) -> int:
        return function(handle, text, length, *room)
    return whole


class HasHandle(Protocol):
    """An object with a handle of the library."""

    @property
    def here(self) -> Any:
        """What is passed to calls for the handle."""


Kept = TypeVar('Kept', bound=HasHandle)


class Shared(Generic[Kept]):
    """A pool for several threads. No two calls of the library may use one handle at the same time,
    so each call takes one that no other uses, and puts it back. If all are in use, another is
    built: there are as many as calls have been made at once."""

    def __init__(self, first: Kept, steps: int) -> None:
        """The first object of the pool, and the greatest number of steps of a search for each byte
        of a text."""
        self._idle = [first]
        self._long = MOST_STEPS // steps  # bytes of the shortest text whose search may be long

    def _build(self) -> Kept:
        """Another object for the pool."""
        raise NotImplementedError

    def _take(self) -> Kept:
        """An object that no other call uses. Taking it and putting it back are atomic."""
        try:
            return self._idle.pop()
        except IndexError:
            return self._build()

    def _ask(self, called: Call, text: bytes, *arguments: object) -> int:
        """What a call returns for a text."""
        try:
            kept = self._idle.pop()  # as `_take` does, in less time
        except IndexError:
            kept = self._build()
        length, (short, long) = len(text), called
        ask = short if length < self._long else long
        answer = ask(kept.here, text, c_size_t(length), *arguments)
        self._idle.append(kept)
        return answer


def checked(answer: int) -> bool:
    """Whether the answer is yes. Raises an error unless it is yes or no."""
    if answer == OUT_OF_MEMORY:
        raise MemoryError
    if answer > YES:
        raise ValueError(f'the library refuses this: {answer}')
    return answer == YES


class Room:
    """Memory to which a call writes items, such as spans. `start` is passed to the call."""

    def __init__(self, item: struct.Struct, size: int) -> None:
        self._item = item.size
        self._memory = bytearray((size or 1) * self._item)
        self.start = byref(c_char.from_buffer(self._memory))

    def first(self, count: int) -> memoryview:
        """The first of the items."""
        return memoryview(self._memory)[:count * self._item]


def row_of(spans: memoryview) -> Row:
    """The fields of these spans, one after another."""
    return tuple(chain.from_iterable(SPAN.iter_unpack(spans)))


def bounds_of(rows: memoryview, groups: int = 1, group: int = 0) -> Iterator[Tuple[int, int]]:
    """The starts and ends of one span of each row, in which there are as many spans as groups."""
    fields = rows.cast('N')
    starts, ends = (fields[3 * group + i::3 * groups].tolist() for i in (1, 2))
    return zip(starts, ends)


def room_sizes(length: int, groups: int, share: int = FEW) -> Iterator[int]:
    """The sizes of batches of matches, one after another, in a text of this length.

    Each call reads the whole text, so batches grow, and are larger for longer texts. The first is
    small, since a caller may stop early; a caller that needs all matches asks for MANY."""
    spans = FIRST_ROOM + length // share
    while True:
        yield spans // groups or 1
        spans = min(4 * spans, max(LATER_ROOM, length // 16))


def encoded(text: str) -> bytes:
    """The text in UTF-8. One with a lone surrogate has no such form."""
    if not isinstance(text, str):
        raise TypeError(f'a str is wanted, and got {type(text).__name__!r}{_advice(text)}')
    if len(text) < LONG or text.isascii() or _kept_utf8 is None:
        return text.encode()
    length = c_ssize_t()
    return ctypes.string_at(_kept_utf8(text, byref(length)), length.value)


def _advice(text: object) -> str:
    """The error for a caller that passes bytes."""
    if not isinstance(text, (bytes, bytearray, memoryview)):
        return ''
    return (': the library searches characters, not bytes, so decode them first, by '
            "`decode('latin-1')` where they aren't text")


def _kept() -> Optional[Callable[..., int]]:
    """The function of CPython that encodes a string once and keeps the UTF-8 with the string; other
    interpreters have none. A copy takes less than a tenth of the time that encoding takes."""
    api = getattr(ctypes, 'pythonapi', None)
    if api is None:
        return None
    function = api.PyUnicode_AsUTF8AndSize
    function.restype = c_void_p
    function.argtypes = [ctypes.py_object, c_void_p]
    return cast(Callable[..., int], function)


_kept_utf8 = _kept()
_fault_at = call('fault_at', c_uint32, *TEXT, POINTER(Options), POINTER(Fault))
_escape = call('escape', c_uint32, *TEXT, *ROOM)


def refusal(answer: int, message: bytes, pattern: str, options: Options) -> Exception:
    """The error for a pattern that is rejected with this number."""
    if answer == OUT_OF_MEMORY:
        return MemoryError()
    pos, end = _fault_in(pattern, options) if answer == SYNTAX else (None, None)
    return error(message.decode(), pattern, pos, end=end, number=answer)


def _fault_in(pattern: str, options: Options) -> Tuple[Optional[int], Optional[int]]:
    """The start and the end of the first fault in a pattern, in characters."""
    raw, fault = encoded(pattern), Fault()
    if not checked(_fault_at(raw, len(raw), options, fault)):
        return None, None
    pos = len(raw[:fault.start].decode())
    return pos, None if fault.is_cut_short else len(raw[:fault.end].decode())


def escaped(text: bytes) -> bytes:
    """The pattern that matches exactly this text."""
    size, length = 2 * len(text), c_size_t()
    room = Room(BYTE, size)
    checked(_escape(text, len(text), room.start, size, length))
    return bytes(room.first(length.value))
