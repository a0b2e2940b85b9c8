"""Tokenisers, as `re.Scanner`."""

from __future__ import annotations

from typing import Any, Callable, List, Optional, Sequence, Tuple, Union

from ._lists import RegexList
from ._matches import Match

# What a token becomes: nothing for None, a value, or what a function returns for it.
Action = Union[None, Callable[['Scanner', str], Any], object]


class Scanner:
    """Splits strings into tokens. The lexicon has pairs: a pattern, and what a token that it
    matches becomes. Of several patterns that match, the first one counts."""

    def __init__(self, lexicon: Sequence[Tuple[str, Action]], flags: int = 0) -> None:
        """Raises what `Pattern` raises, for the first pattern that is rejected."""
        self.lexicon = lexicon
        self.match: Optional[Match[str]] = None  # that of the token that an action is called for
        self._phrases = RegexList([phrase for phrase, _ in lexicon], flags)

    def scan(self, string: str) -> Tuple[List[Any], str]:
        """The values of the tokens, up to the first offset at which no pattern matches, or only the
        empty string; and the rest of the string from there on."""
        results: List[Any] = []
        end = 0
        for number, found in self._phrases.finditer(string):
            if found.start() != end or found.end() == end:
                break
            action = self.lexicon[number][1]
            if callable(action):
                self.match = found
                action = action(self, found.group())
            if action is not None:
                results.append(action)
            end = found.end()
        return results, string[end:]
