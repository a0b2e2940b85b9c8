"""The flags and the limits of a pattern."""

from __future__ import annotations

import operator
from ctypes import c_size_t, sizeof
from re import RegexFlag as RegexFlag

from ._structures import Options

NEST_LIMIT, SIZE_LIMIT = 50, 10485760  # unless others are given
MOST_NEST, MOST_SIZE = (1 << 32) - 1, (1 << 8 * sizeof(c_size_t)) - 1

NOFLAG = RegexFlag(0)  # which `re` has from Python 3.11 on
ASCII = A = RegexFlag.ASCII
IGNORECASE = I = RegexFlag.IGNORECASE
LOCALE = L = RegexFlag.LOCALE
MULTILINE = M = RegexFlag.MULTILINE
DOTALL = S = RegexFlag.DOTALL
UNICODE = U = RegexFlag.UNICODE
VERBOSE = X = RegexFlag.VERBOSE
# The flags as numbers, whose bits cost a fraction of those of flags, by the letters that set them
# within a pattern, as `(?i)`.
LETTERS = {'a': int(A), 'i': int(I), 'L': int(L), 'm': int(M), 's': int(S), 'u': int(U),
           'x': int(X)}
_ALL = sum(LETTERS.values())


def options_of(flags: int, nest_limit: int, size_limit: int) -> Options:
    """The settings of the library for these flags and limits. ASCII and UNICODE change nothing, but
    they contradict each other."""
    number = checked_flags(operator.index(flags))
    if number & LETTERS['L']:
        raise ValueError('cannot use LOCALE flag with a str pattern')
    if number & ~_ALL:
        raise ValueError(f'there are no such flags here: {RegexFlag(number & ~_ALL)!r}')
    i, m, s, x = (bool(number & LETTERS[letter]) for letter in 'imsx')
    return Options(i, m, s, False, False, x, _limit('nest_limit', nest_limit, MOST_NEST),
                   _limit('size_limit', size_limit, MOST_SIZE))


def checked_flags(flags: int) -> int:
    """The flags, unless they contradict each other."""
    if flags & LETTERS['a'] and flags & LETTERS['u']:
        raise ValueError('ASCII and UNICODE flags are incompatible')
    return flags


def _limit(name: str, value: int, most: int) -> int:
    """The limit, if the library can take it."""
    number = operator.index(value)
    if number < 0:
        raise ValueError(f'{name} is negative: {number}')
    if number > most:
        raise OverflowError(f'{name} is above {most}: {number}')
    return number
