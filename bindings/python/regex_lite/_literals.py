"""Patterns that match exactly one text."""

from __future__ import annotations

import re
from typing import Optional

from ._flags import LETTERS

# Characters without another meaning outside classes, those that are written with a backslash, by
# `escape` or as a letter that stands for a control character, and classes of one such character.
_LITERAL = re.compile(r'(?:[^\\.+*?()|\[\]{}^$]|\\[\\.+*?()|\[\]{}^$#&~ \t\n\r\v\fafnrtv-]'
                      r'|\[[^\\\[\]^&~-]\])+')
_CONTROLS = dict(zip('afnrtv', '\a\f\n\r\t\v'))
_WRITTEN = re.compile(r'\\(.)|\[(.)\]', re.DOTALL)


def literal_of(pattern: str, flags: int) -> Optional[str]:
    """The only text that a pattern matches, if it has no operator; what `escape` returns is such a
    pattern, for every text but the empty one. It matches where the text occurs, and nowhere
    else."""
    if int(flags) & (LETTERS['i'] | LETTERS['x']) or not _LITERAL.fullmatch(pattern):
        return None
    return _WRITTEN.sub(lambda found: found[2] or _CONTROLS.get(found[1], found[1]), pattern)


def start_of(string: str, literal: str, start: int, end: int) -> int:
    """The first offset, if the literal occurs there, before the other one; otherwise -1."""
    return start if string.startswith(literal, start, end) else -1


def whole_of(string: str, literal: str, start: int, end: int) -> int:
    """The first offset, if the literal is the text between the two; otherwise -1."""
    return start if string[start:end] == literal else -1
