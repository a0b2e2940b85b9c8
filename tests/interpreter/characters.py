"""Sets of characters, each as a function that says of a character's number whether it is in it."""

from collections.abc import Callable, Sequence
from typing import NamedTuple, Optional

Members = Callable[[int], bool]


def among(text: str) -> Members:
    """The set of the characters of the text."""
    members = frozenset(map(ord, text))
    return lambda number: number in members


def between(first: int, last: int) -> Members:
    """The set of all characters from the one number to the other."""
    return lambda number: first <= number <= last


def union(sets: Sequence[Members]) -> Members:
    """What is in one of the sets."""
    return lambda number: any(members(number) for members in sets)


def without(members: Members) -> Members:
    """The set of all other characters."""
    return lambda number: not members(number)


def in_either_case(members: Members) -> Members:
    """The set with the other case of each of its ASCII letters."""
    return lambda number: members(number) or is_letter(number) and members(number ^ 0x20)


def is_letter(number: int) -> bool:
    """Whether this is the number of an ASCII letter."""
    return 0x41 <= number & ~0x20 <= 0x5A


def everything(number: int) -> bool:
    """The set of all characters."""
    return True


UPPER, LOWER, DIGIT = between(0x41, 0x5A), between(0x61, 0x7A), between(0x30, 0x39)
ALPHA = union((UPPER, LOWER))
ALNUM = union((ALPHA, DIGIT))
SPACE = among('\t\n\v\f\r ')
WORD = union((ALNUM, among('_')))

# What may stand between `[:` and `:]`.
NAMED = {
    'alnum': ALNUM,
    'alpha': ALPHA,
    'ascii': between(0, 0x7F),
    'blank': among('\t '),
    'cntrl': union((between(0, 0x1F), among('\x7f'))),
    'digit': DIGIT,
    'graph': between(0x21, 0x7E),
    'lower': LOWER,
    'print': between(0x20, 0x7E),
    'punct': union((between(0x21, 0x2F), between(0x3A, 0x40), between(0x5B, 0x60),
                    between(0x7B, 0x7E))),
    'space': SPACE,
    'upper': UPPER,
    'word': WORD,
    'xdigit': union((DIGIT, between(0x41, 0x46), between(0x61, 0x66))),
}

# What a letter after a backslash stands for.
LETTERS = {'d': DIGIT, 's': SPACE, 'w': WORD,
           'D': without(DIGIT), 'S': without(SPACE), 'W': without(WORD)}

# What means nothing in verbose mode, besides comments: the characters that are White_Space.
WHITE_SPACE = frozenset(map(chr, (
    *range(0x9, 0xE), 0x20, 0x85, 0xA0, 0x1680, *range(0x2000, 0x200B), 0x2028, 0x2029, 0x202F,
    0x205F, 0x3000,
)))


class Neighbours(NamedTuple):
    """A position of a haystack: what stands before it and after it. At the ends that is None."""

    before: Optional[str]
    after: Optional[str]

    def are_words(self) -> tuple[bool, bool]:
        """Whether each of the two is a word character."""
        return is_word(self.before), is_word(self.after)

    def hold(self, name: str) -> bool:
        """Whether the look of this name holds there."""
        return LOOKS[name](self, *self.are_words())


def is_word(character: Optional[str]) -> bool:
    """Whether this is a word character, and not an end of the haystack."""
    return character is not None and WORD(ord(character))


# When each look holds, by the neighbours and by whether each is a word character.
LOOKS: dict[str, Callable[[Neighbours, bool, bool], bool]] = {
    'start': lambda at, front, back: at.before is None,
    'end': lambda at, front, back: at.after is None,
    'line start': lambda at, front, back: at.before in (None, '\n'),
    'line end': lambda at, front, back: at.after in (None, '\n'),
    'CRLF start': lambda at, front, back:
        at.before in (None, '\n') or at.before == '\r' and at.after != '\n',
    'CRLF end': lambda at, front, back:
        at.after in (None, '\r') or at.after == '\n' and at.before != '\r',
    'word': lambda at, front, back: front != back,
    'no word': lambda at, front, back: front == back,
    'word start': lambda at, front, back: back and not front,
    'word end': lambda at, front, back: front and not back,
    'half start': lambda at, front, back: not front,
    'half end': lambda at, front, back: not back,
}
