"""The list of texts and their escapes.

`escapes.tsv` has 471 texts. A line has the text and its escape.

In `escapes.tsv` 125 texts were picked by hand, among them each character that is escaped, alone and
on both sides of a letter, and each other ASCII sign. 400 were generated with the seed 5, of
characters that are escaped and of others, and duplicates were dropped.
"""

from .data import escaped, rows_of
from .dice import Dice
from .judge import answers
from .leaves import ALPHABETS

SEED = 5  # different from those of the other lists

TEXTS = 400  # generated ones
MARKS = tuple('\\.+*?()|[]{}^$#&-~')


def generated(dice: Dice) -> str:
    """A text of marks that are escaped and of other characters."""
    letters = dice.pick(ALPHABETS)
    count = dice.pick((1, 2, 3, 4, 6, 10, 20))
    return ''.join(dice.pick(dice.pick((MARKS, letters))) for _ in range(count))


def lines(judge: str) -> list[str]:
    """The lines of the list."""
    dice = Dice(SEED)
    texts = [text for text, in rows_of('escapes')] + [generated(dice) for _ in range(TEXTS)]
    fields = [escaped(text) for text in dict.fromkeys(texts)]
    given = answers(judge, [f'escape\t-\t{field}\n' for field in fields])
    return [f'{field}\t{answer[len("ok:"):]}\n' for field, answer in zip(fields, given)]
