"""A place in a pattern, and what can be read there."""

from collections.abc import Collection
from typing import Optional

from .characters import WHITE_SPACE

GAP = WHITE_SPACE | {'#'}


class Refused(Exception):
    """The pattern has no tree."""


class Cursor:
    """What is left of a pattern, and the flags that hold there."""

    def __init__(self, pattern: str, flags: Collection[str]) -> None:
        self.pattern = pattern
        self.at = 0
        self.flags = frozenset(flags)

    def is_over(self) -> bool:
        """Whether nothing is left."""
        return self.at == len(self.pattern)

    @property
    def ahead(self) -> str:
        """The next character, where there is one, or an empty text."""
        return self.pattern[self.at:self.at + 1]

    def stands(self, text: str) -> bool:
        """Whether this text is next."""
        return self.pattern.startswith(text, self.at)

    def take(self, text: str) -> bool:
        """Skips the text if it is next, and returns whether it was."""
        is_there = self.stands(text)
        self.at += len(text) * is_there
        return is_there

    def expect(self, text: str) -> None:
        """Skips the text, which has to be next."""
        if not self.take(text):
            raise Refused(f'{text} is missing')

    def next(self) -> str:
        """Returns the next character, which has to be there, and skips it."""
        if self.is_over():
            raise Refused('the pattern ends too early')
        self.at += 1
        return self.pattern[self.at - 1]

    def until(self, end: str) -> str:
        """Skips a text and what ends it, and returns the text."""
        text, found, _ = self.pattern[self.at:].partition(end)
        if not found:
            raise Refused('the pattern ends too early')
        self.at += len(text) + len(end)
        return text

    def gap(self) -> None:
        """Skips white space and comments, in verbose mode only."""
        while 'x' in self.flags and self.ahead in GAP:
            if self.take('#'):
                comment, _, _ = self.pattern[self.at:].partition('\n')
                self.at += len(comment)
            else:
                self.at += 1

    def white_space(self) -> None:
        """Skips white space in any mode, and in verbose mode comments too."""
        while self.ahead in WHITE_SPACE:
            self.at += 1
        self.gap()

    def digits(self, among: str, most: Optional[int] = None) -> str:
        """Skips all digits that are next, or at most this many, each with the gap after it, and
        returns them."""
        digits = ''
        while len(digits) != most and self.ahead and self.ahead in among:
            digits += self.next()
            self.gap()
        return digits
