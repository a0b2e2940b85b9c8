"""The error for a pattern or a template that is rejected."""

from __future__ import annotations

from typing import Any, Optional, Tuple


class error(Exception):
    """A pattern or a template is rejected. `msg` says why, and `pattern` is the pattern or the
    template.

    If the syntax is wrong, `pos` is the start of the faulty part of the pattern, and `lineno` and
    `colno` are its line and column, both from 1 on. `end` is the end of the shortest prefix with
    which no accepted pattern begins; it is None if some accepted pattern begins with this one, and
    for a template. If only a limit is exceeded, all four are None. `number` is that of the library,
    or None if the library isn't called, as for templates.

    An error can be copied and pickled, so it can also be passed from another process."""

    __module__ = 'regex_lite'

    def __init__(self, msg: str, pattern: str, pos: Optional[int] = None, *,
                 end: Optional[int] = None, number: Optional[int] = None) -> None:
        self.msg = msg
        self.pattern = pattern
        self.pos = pos
        self.end = end
        self.number = number
        self.lineno: Optional[int] = None
        self.colno: Optional[int] = None
        if pos is not None:
            self.lineno = pattern.count('\n', 0, pos) + 1
            self.colno = pos - pattern.rfind('\n', 0, pos)
            msg += f' at position {pos}'
            if '\n' in pattern:
                msg += f' (line {self.lineno}, column {self.colno})'
        super().__init__(msg)

    def __reduce__(self) -> Tuple[Any, ...]:
        # Otherwise an exception is restored from its `args`, which are only its text.
        return type(self), (self.msg, self.pattern, self.pos), self.__dict__
