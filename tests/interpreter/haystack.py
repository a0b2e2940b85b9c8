"""Haystacks, as searches read them."""

import itertools

from .characters import Members, Neighbours


class Haystack:
    """A haystack by its positions, one before each character and one at the end."""

    def __init__(self, text: str) -> None:
        self.text = text
        self.numbers = [ord(c) for c in text]
        self.offsets = [0, *itertools.accumulate(len(c.encode()) for c in text)]
        self.sides = [Neighbours(*pair) for pair in zip([None, *text], [*text, None])]

    def __len__(self) -> int:
        return len(self.text)

    def reads(self, members: Members, i: int) -> bool:
        """Whether the next character is one of these."""
        return i < len(self.numbers) and members(self.numbers[i])

    def sees(self, look: str, i: int) -> bool:
        """Whether the look holds at the position."""
        return self.sides[i].hold(look)
