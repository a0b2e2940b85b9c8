"""Regular expressions for untrusted patterns and texts, with the names of `re`.

There is no catastrophic backtracking: for each pattern the time of a search grows linearly with the
text. README.md lists the differences from `re`.
"""

from ._calls import (compile, escape, findall, finditer, fullmatch, match, purge, search, split,
                     sub, subn)
from ._departures import DepartureWarning
from ._errors import error
from ._flags import (ASCII, DOTALL, IGNORECASE, LOCALE, MULTILINE, NOFLAG, UNICODE, VERBOSE, A, I,
                     L, M, RegexFlag, S, U, X)
from ._lists import RegexList
from ._matches import Match
from ._parts import Look, Part, PartKind, outline
from ._patterns import Pattern
from ._scanners import Scanner

PatternError = error  # as `re` has it from Python 3.13 on

__version__ = '0.1.9'
__all__ = ['A', 'ASCII', 'DOTALL', 'DepartureWarning', 'I', 'IGNORECASE', 'L', 'LOCALE', 'M',
           'Look', 'MULTILINE', 'Match', 'NOFLAG', 'Part', 'PartKind', 'Pattern', 'PatternError',
           'RegexFlag', 'RegexList', 'S', 'Scanner', 'U', 'UNICODE', 'VERBOSE', 'X', 'compile',
           'error', 'escape', 'findall', 'finditer', 'fullmatch', 'match', 'outline', 'purge',
           'search', 'split', 'sub', 'subn']
