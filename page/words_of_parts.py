"""Explanations of single parts of a pattern, in words."""

from __future__ import annotations

import unicodedata
from typing import Dict, Optional, Sequence, Tuple

from regex_lite import Look, Part

MOST_RANGES = 8  # of a class
MOST_CHARACTERS = 100  # of a text in one row

LOOKS = {
    Look.START: 'the start of the text',
    Look.END: 'the end of the text',
    Look.START_LF: 'the start of a line',
    Look.END_LF: 'the end of a line',
    Look.START_CRLF: 'the start of a line, also after a carriage return',
    Look.END_CRLF: 'the end of a line, also before a carriage return',
    Look.WORD: 'the start or the end of a word',
    Look.WORD_NEGATE: 'no start and no end of a word',
    Look.WORD_START: 'the start of a word',
    Look.WORD_END: 'the end of a word',
    Look.WORD_START_HALF: 'no word character before',
    Look.WORD_END_HALF: 'no word character after',
}
NAMES = {'\t': 'tab', '\n': 'line feed', '\r': 'carriage return', ' ': 'space'}
LAST = chr(0x10FFFF)
Runs = Sequence[Tuple[str, str]]
SETS: Dict[Runs, str] = {
    (('0', '9'),): 'a digit 0–9',
    (('0', '9'), ('A', 'Z'), ('_', '_'), ('a', 'z')): 'a word character',
    (('A', 'Z'), ('a', 'z')): 'a letter A–Z, a–z',
    (('\t', '\r'), (' ', ' ')): 'white space',
    (('\0', LAST),): 'any character',
    (): 'no character, so no match',
}


def character(c: str) -> str:
    """A character by itself."""
    if c in NAMES:
        return f'a {NAMES[c]}'
    return f'‘{c}’' if is_seen(c) else code_of(c)


def is_seen(c: str) -> bool:
    """Whether a character can be shown as it is: neither a combining mark, nor anything that
    changes the order of its neighbours."""
    return unicodedata.category(c)[0] in 'LNPS'


def code_of(c: str) -> str:
    """A character by its number."""
    return f'U+{ord(c):04X}'


def text_of(characters: str) -> str:
    """Some characters in a row."""
    shown = ''.join(c if c == ' ' or is_seen(c) else f'\\u{{{ord(c):X}}}'
                    for c in characters[:MOST_CHARACTERS])
    more = len(characters) - MOST_CHARACTERS
    return f'‘{shown}’' if more <= 0 else f'‘{shown}…’ and {more:,} more characters'


def class_of(runs: Runs) -> str:
    """A character of these ranges."""
    known = known_set(runs)
    if known is not None:
        return known
    if (runs[0][0], runs[-1][1]) == ('\0', LAST):
        gaps = gaps_of(runs)
        return f'any character but {known_set(gaps) or ranges_of(gaps)}'
    is_one = len(runs) == 1 and runs[0][0] == runs[0][1]
    return ranges_of(runs) if is_one else f'one of {ranges_of(runs)}'


def known_set(runs: Runs) -> Optional[str]:
    """A character of a set that has a name, or is a letter in both cases."""
    if len(runs) == 2 and all(a == b for a, b in runs) and runs[0][0].lower() == runs[1][0]:
        return f'‘{runs[1][0]}’ in either case'
    return SETS.get(tuple(runs))


def gaps_of(runs: Runs) -> Runs:
    """What is missing between the ranges of a class. No gap is inside the surrogates."""
    return [(_next(before[1], 1), _next(after[0], -1)) for before, after in zip(runs, runs[1:])]


def _next(c: str, step: int) -> str:
    """The next character, or the one before."""
    number = ord(c) + step
    if 0xD800 <= number <= 0xDFFF:
        number = 0xE000 if step == 1 else 0xD7FF
    return chr(number)


def ranges_of(runs: Runs) -> str:
    """Some ranges, of which the first are named."""
    named = [character(a) if a == b else f'{_end(a)}–{_end(b)}' for a, b in runs[:MOST_RANGES]]
    more = len(runs) - MOST_RANGES
    return ', '.join(named) + (f' and {more:,} more ranges' if more > 0 else '')


def _end(c: str) -> str:
    """An end of a range."""
    return c if is_seen(c) else code_of(c)


def times_of(part: Part) -> str:
    """The number of times that a part is repeated."""
    least, most = part.least or 0, part.most
    if most is None:
        words = ('any number of times', 'at least once')[least] if least < 2 \
            else f'at least {least:,} times'
    elif least == most:
        words = f'exactly {least:,} times'
    elif (least, most) == (0, 1):
        words = 'once or not at all'
    else:
        words = f'{least:,} to {most:,} times' if least else f'at most {most:,} times'
    return words if part.is_greedy or least == most else f'{words}, as few as possible'
