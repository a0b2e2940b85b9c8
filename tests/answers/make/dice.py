"""Dice, and small changes of a text."""

import random
from collections.abc import Sequence
from typing import TypeVar

T = TypeVar('T')
S = TypeVar('S', str, list[str])  # a text, or its parts

OPERATORS = ('?', '*', '+', '*', '+', '??', '*?', '+?')

# How often a sample repeats an operator's item. Two for `?` and none for `+` are wrong on purpose.
ROUNDS = {'?': (0, 0, 1, 1, 2), '*': (0, 1, 2, 3), '+': (0, 1, 1, 1, 2, 3)}


class Dice(random.Random):
    """Choices made with random() alone, the one method whose sequence Python keeps for a seed."""

    def below(self, count: int) -> int:
        return int(self.random() * count)

    def pick(self, things: Sequence[T]) -> T:
        return things[self.below(len(things))]

    def chance(self, probability: float) -> bool:
        return self.random() < probability


def edited(dice: Dice, text: S, pieces: Sequence[S]) -> S:
    """The text with one change: something taken out, put in, replaced, swapped, cut or doubled."""
    at = dice.below(len(text) + 1)
    change = dice.below(6)
    if change == 0:
        return text[:at] + text[at + 1:]
    if change == 1:
        return text[:at] + dice.pick(pieces) + text[at:]
    if change == 2:
        return text[:at] + dice.pick(pieces) + text[at + 1:]
    if change == 3:
        return text[:at] + text[at:at + 2][::-1] + text[at + 2:]
    if change == 4:
        return text[:at] if dice.chance(0.5) else text[at:]
    return text[:at] + text[max(0, at - 6):]


def edited_often(dice: Dice, text: str, pieces: Sequence[str]) -> str:
    for _ in range(dice.pick((1, 1, 2, 3))):
        text = edited(dice, text, pieces)
    return text


def noise(dice: Dice, letters: str) -> str:
    return ''.join(dice.pick(letters + '\nz') for _ in range(dice.pick((0, 0, 1, 2, 4))))
