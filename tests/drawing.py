"""Patterns and haystacks that the makers of the lists don't draw: classes of several ranges with
the characters at their ends and beside them, and haystacks of some thousand characters."""

from collections.abc import Iterator, Sequence

from answers.make.dice import Dice
from answers.make.leaves import ALPHABETS, SPECIAL_IN_CLASS, Maker, character_at, written

RANGES = (1, 2, 2, 3, 3, 4, 5, 6, 8, 12)  # of a class
# Where classes stand: one for the letter A, and another for B.
FRAMES = ('A', 'A+', '(A+)', 'A*?B', '(A)(B)', '(A|B)+', '(?:A|BA)+', 'A{2,3}', r'\bA+', 'A(?:B|$)',
          '(A+)|B', '(?i)A', '(?i)(A+)B?', 'Ax|B+')

FILLERS = '~ z_1é\n\r☃💩'  # a match seldom begins with one of these
RUNS = (0, 1, 2, 3, 5, 16, 17, 31, 32, 33, 50, 80)  # characters in a row


def class_of_ranges(dice: Dice, maker: Maker) -> tuple[str, str]:
    """A class, and the characters at the ends of its ranges and beside them."""
    text, near = '', ''
    for _ in range(dice.pick(RANGES)):
        first, last = sorted(maker.ends() if dice.chance(0.8) else dice.pick(maker.letters) * 2)
        ends = [written(dice, end, SPECIAL_IN_CLASS) for end in (first, last)]
        text += '-'.join(ends) if first != last or dice.chance(0.1) else ends[0]
        near += ''.join(character_at(ord(end) + step) for end in (first, last)
                        for step in (-1, 0, 1))
    return f'[{"^" if dice.chance(0.25) else ""}{text}]', near


def classes(dice: Dice) -> Iterator[tuple[str, str]]:
    """Makes endless pairs of a pattern with such classes and the characters on which they may make
    a difference."""
    while True:
        maker = Maker(dice, dice.pick(ALPHABETS), ())
        first, near = class_of_ranges(dice, maker)
        second, beside = class_of_ranges(dice, maker)
        frame = dice.pick(FRAMES)
        pattern = ''.join({'A': first, 'B': second}.get(sign, sign) for sign in frame)
        yield pattern, near + (beside if 'B' in frame else '') + 'x'


def shuffled(dice: Dice, characters: str, count: int) -> str:
    """As many of the characters, in any order, each as likely."""
    return ''.join(dice.pick(characters) for _ in range(count))


def long_text(dice: Dice, pieces: Sequence[str], length: int) -> str:
    """A text of about this many characters: the pieces, whole or in part, with runs of other
    characters between them."""
    text: list[str] = []
    size = 0
    fillers = shuffled(dice, FILLERS, dice.pick((1, 2, 3)))
    while size < length:
        piece = dice.pick(pieces)
        if dice.chance(0.3):
            piece = piece[dice.below(len(piece) + 1):]
        piece += dice.pick(fillers) * dice.pick(RUNS) or '~'
        text.append(piece)
        size += len(piece)
    return ''.join(text)
