"""Patterns for the comparison with `re`: all short ones of some characters, and random ones."""

import random
from itertools import product
from typing import Iterator, NamedTuple, Sequence


class Every(NamedTuple):
    """All patterns of at most so many of these parts, after a beginning, and texts for them."""

    parts: Sequence[str]
    most: int
    texts: Sequence[str]
    begin: str = ''
    flags: int = 0

    def patterns(self) -> Iterator[str]:
        """These patterns."""
        for count in range(1, self.most + 1):
            for parts in product(self.parts, repeat=count):
                yield self.begin + ''.join(parts)


VERBOSE = 64
EVERY = (
    Every('ab()[]*+?|^$.\\-,{}1:<=# \n&xBüz', 2, ('', 'ab', 'a\n', 'b-a', 'üa', ' a#')),
    Every('a()[*+?|^$\\B<', 3, ('', 'aab', '\n', '<')),
    Every(('[', ']', '^', '-', 'a', '&', '[:alpha:]'), 4, ('a', '_', '-', '[a]', '&'), '['),
    Every((' ', '\n', '#', 'a', '[', ']', '\\'), 4, ('', ' a#', 'aa'), flags=VERBOSE),
    Every('ab)*|?+', 4, ('', 'aab', 'abba'), '('),
    Every('{},10 +', 4, ('', 'aa', 'a{1}'), '(a)'),
    Every(('(?', ')', 'a', 'i', 'x', '-', ':'), 4, ('aA', ' a')),
)

# What the syntax consists of.
PARTS = ('a', 'b', 'A', '1', '2', ' ', '\n', '#', '-', '_', '<', '>', '!', '=', ':', '&', '~', ',',
         '|', '.', '^', '$', '(', ')', '(?:', '(?P<n>', '(?i)', '(?x)', '(?i:', '(?x:', '(?-x:',
         '(?s)', '(?m)', '(?u)', '[', ']', '[^', '[a-z]', '[:alpha:]', '[]', '\\', '\\b', '\\B',
         '\\A', '\\w', '\\d', '\\s', '\\W', '\\n', '\\x61', '\\u0061', '\\U00000061', '\\x{61}',
         '\\.', '\\-', '\\ ', '\\#', '\\<', '\\>', '\\{', '\\]', '*', '+', '?', '{', '}', '{2}',
         '{1,2}', '{,2}', '{2,}', '{0}', '{ 2}', '\\b{start}', '\xa0', '\x85', '\u2003', '\x1c',
         'ü', 'K', '\u212a', '&&', '--', '~~', '||', '\\07', '\\1', '\\Z', '\\z', '(?#', '(?=',
         '(?>', '(?<n>', '\\N{DIGIT ONE}', '(?a)', '(?L)', '\0', '\\ud800', '\\ü', '(?(1)a|b)')
ATOMS = ('a', 'b', 'c', '.', '[ab]', '[^a]', r'\w', r'\W', r'\d', r'\s', r'\n', r'\x61', r'\.',
         r'[a-c\d]', r'[^\w]', 'ü', '-', 'k', 'S')
LOOKS = (r'\b', r'\B', '^', '$', r'\A')
OPERATORS = ('*', '+', '?', '{2}', '{1,2}', '{2,}', '{0,1}', '{0}', '*?', '+?', '??', '{1,2}?')
POSSESSIVE = ('*+', '++', '?+', '{1,2}+')
GROUPS = ('(', '(', '(?:', '(?i:', '(?s:', '(?m:', '(?x: ', '(?-i:', '(?u:')


class Generator:
    """Random patterns and texts."""

    def __init__(self, seed: int) -> None:
        self.random = random.Random(seed)

    def soup(self) -> str:
        """Some parts of the syntax in a row, which mostly make no pattern."""
        return ''.join(self.random.choice(PARTS) for _ in range(self.random.randint(2, 7)))

    def flags(self) -> int:
        """Some flags."""
        return self.random.choice((0, 0, 0, 2, 8, 10, 16, 64))

    def pattern(self, depth: int = 3) -> str:
        """A pattern that both accept."""
        return '|'.join(self.branch(depth) for _ in range(self.random.choice((1, 1, 1, 2, 3))))

    def branch(self, depth: int) -> str:
        """A few parts in a row."""
        return ''.join(self.part(depth) for _ in range(self.random.choice((0, 1, 1, 2, 2, 3))))

    def part(self, depth: int) -> str:
        """A look, or an item, repeated or not."""
        if self.random.random() < 0.12:
            return self.random.choice(LOOKS)
        item = self.random.choice(ATOMS)
        if depth and self.random.random() < 0.4:
            item = f'{self.random.choice(GROUPS)}{self.pattern(depth - 1)})'
        chance = self.random.random()
        if chance < 0.03:
            return item + self.random.choice(POSSESSIVE)
        return item + self.random.choice(OPERATORS) if chance < 0.5 else item

    def text(self) -> str:
        """A text in which such patterns match."""
        length = self.random.randrange(10)
        return ''.join(self.random.choice('aabbcA1kK\u017fü -\n') for _ in range(length))
