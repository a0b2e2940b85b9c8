"""The calls of the module, and their cache of patterns."""

from __future__ import annotations

import copyreg
import operator
from typing import Any, Callable, Dict, Iterator, List, Optional, Tuple, Union

from ._departures import warn_of_departures
from ._flags import NEST_LIMIT, SIZE_LIMIT
from ._foreign import encoded, escaped
from ._matches import Match
from ._patterns import Pattern, Replacement
from ._templates import forget_templates

MOST_CACHED = 512  # patterns
MOST_OF_CACHED = 4096  # places of a cached pattern, and its characters
_GAPS = str.maketrans({gap: f'\\{gap}' for gap in ' \t\n\r\v\f'})

Source = Union[str, Pattern[str]]
# The type is a part of the key, so that text and bytes are never compared.
Key = Tuple[type, str, int]
_cache: Dict[Key, Pattern[str]] = {}


def compile(pattern: Source, flags: int = 0, *, nest_limit: Optional[int] = None,
            size_limit: Optional[int] = None) -> Pattern[str]:
    """The compiled pattern. Without limits it may be the one that an earlier call has returned: the
    last 512 patterns are cached, except for very large ones.

    `nest_limit` says how deeply it may nest, 50 by default, and `size_limit` how large it may be
    when compiled, 10485760 by default. Raises what `Pattern` raises; TypeError if the pattern is
    neither a str nor compiled; ValueError for flags or limits with a compiled pattern."""
    if nest_limit is None and size_limit is None:
        return _compiled(pattern, flags)
    if isinstance(pattern, Pattern):
        raise ValueError('cannot process limits with a compiled pattern')
    new: Pattern[str] = Pattern(
        pattern, flags, nest_limit=NEST_LIMIT if nest_limit is None else nest_limit,
        size_limit=SIZE_LIMIT if size_limit is None else size_limit)
    warn_of_departures(pattern, flags, 2)
    return new


def purge() -> None:
    """Clears the cache of patterns."""
    _cache.clear()
    forget_templates()


def _compiled(pattern: Source, flags: int) -> Pattern[str]:
    """The compiled pattern, which is cached. Called by what users call, since a warning points at
    the caller of that."""
    if flags.__class__ is not int:
        flags = int(operator.index(flags))
    if isinstance(pattern, Pattern):
        if flags:
            raise ValueError('cannot process flags argument with a compiled pattern')
        return pattern
    key = (pattern.__class__, pattern, flags)
    try:
        known = _cache.get(key)
    except TypeError:  # what isn't hashable isn't a str
        encoded(pattern)
        raise
    if known is not None:
        return known
    new: Pattern[str] = Pattern(pattern, flags)
    warn_of_departures(pattern, flags, 3)
    _remember(key, new)
    return new


def _remember(key: Key, new: Pattern[str]) -> None:
    """Puts a pattern into the cache, in place of the oldest one if the cache is full. An untrusted
    pattern can take 10 MB, so such patterns aren't cached."""
    if max(len(new.pattern), new._regex.places) > MOST_OF_CACHED:
        return
    if len(_cache) >= MOST_CACHED:
        try:
            del _cache[next(iter(_cache))]
        except (KeyError, RuntimeError, StopIteration):
            pass  # another thread has changed the cache
    _cache[key] = new


def _pickled(pattern: Pattern[str]) -> Tuple[Callable[..., Pattern[str]], Tuple[object, ...]]:
    """How `pickle` restores a pattern."""
    return _unpickled, (pattern.pattern, int(pattern.flags), *pattern._limits)


def _unpickled(pattern: str, flags: int, nest_limit: int, size_limit: int) -> Pattern[str]:
    """The pattern, which may be the cached one. No warning is given again."""
    if (nest_limit, size_limit) != (NEST_LIMIT, SIZE_LIMIT):
        return Pattern(pattern, flags, nest_limit=nest_limit, size_limit=size_limit)
    key = (str, pattern, flags)
    known = _cache.get(key)
    if known is None:
        known = Pattern(pattern, flags)
        _remember(key, known)
    return known


copyreg.pickle(Pattern, _pickled)


def search(pattern: Source, string: str, flags: int = 0) -> Optional[Match[str]]:
    """`Pattern.search`."""
    return _compiled(pattern, flags).search(string)


def match(pattern: Source, string: str, flags: int = 0) -> Optional[Match[str]]:
    """`Pattern.match`."""
    return _compiled(pattern, flags).match(string)


def fullmatch(pattern: Source, string: str, flags: int = 0) -> Optional[Match[str]]:
    """`Pattern.fullmatch`."""
    return _compiled(pattern, flags).fullmatch(string)


def finditer(pattern: Source, string: str, flags: int = 0) -> Iterator[Match[str]]:
    """`Pattern.finditer`."""
    return _compiled(pattern, flags).finditer(string)


def findall(pattern: Source, string: str, flags: int = 0) -> List[Any]:
    """`Pattern.findall`."""
    return _compiled(pattern, flags).findall(string)


def split(pattern: Source, string: str, maxsplit: int = 0,
          flags: int = 0) -> List[Union[str, Any]]:
    """`Pattern.split`."""
    return _compiled(pattern, flags).split(string, maxsplit)


def sub(pattern: Source, repl: Replacement, string: str, count: int = 0, flags: int = 0) -> str:
    """`Pattern.sub`."""
    return _compiled(pattern, flags).sub(repl, string, count)


def subn(pattern: Source, repl: Replacement, string: str, count: int = 0,
         flags: int = 0) -> Tuple[str, int]:
    """`Pattern.subn`."""
    return _compiled(pattern, flags).subn(repl, string, count)


def escape(pattern: str) -> str:
    """The pattern that matches exactly this text, in verbose mode too."""
    return escaped(encoded(pattern)).decode().translate(_GAPS)
