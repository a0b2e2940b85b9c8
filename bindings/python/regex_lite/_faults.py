"""The texts and the positions of `re` for faults of patterns."""

from __future__ import annotations

from importlib import import_module
from typing import Any, Optional
from re import error as ReError

from ._errors import error

LONGEST_READ = 10000  # characters of a pattern that `re` parses, in some milliseconds


def _parser_of_re() -> Any:
    """The parser of `re`, if it is there. Compiling patterns would take too long: a class of all
    characters takes `re` a second."""
    for name in ('re._parser', 'sre_parse'):  # the second before Python 3.11
        try:
            return import_module(name)
        except ImportError:
            pass
    return None


_PARSER = _parser_of_re()


def as_re_says(fault: error, flags: int) -> error:
    """The error with the text and the position of `re`, if `re` finds a fault in the same part of
    the pattern; otherwise the error itself. A fault in another part is of syntax that is accepted
    here, or isn't there."""
    theirs = _fault_in(fault.pattern, flags)
    if theirs is None or theirs.pos is None or fault.pos is None:
        return fault
    end = len(fault.pattern) if fault.end is None else fault.end
    if not fault.pos <= theirs.pos <= end:
        return fault
    return error(theirs.msg, fault.pattern, theirs.pos, end=fault.end, number=fault.number)


def _fault_in(pattern: str, flags: int) -> Optional[ReError]:
    """The fault that `re` finds in a pattern, if any."""
    if _PARSER is None or len(pattern) > LONGEST_READ:
        return None
    try:
        _PARSER.parse(pattern, int(flags))
    except ReError as fault:
        return fault
    except Exception:  # pylint: disable=broad-except
        pass  # whatever else `re` raises, as where a pattern nests deeply
    return None
