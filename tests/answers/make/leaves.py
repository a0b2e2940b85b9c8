"""Trees of generated patterns with flags and classes, and their leaves."""

import re
import string
from collections.abc import Sequence
from typing import NamedTuple, Union

from .dice import OPERATORS, ROUNDS, Dice

# A generated pattern has its characters from one of these.
ALPHABETS = (
    'ab', 'abc', 'aAbB', 'aAzZ', 'kK\u212a', 'sSſ', 'éÉe', 'ßẞs', 'Σσς', 'a1_', 'a-b', 'x.y',
    'a b', 'ab\n', 'a\r\n', '\n\r', 'a\u2028\x85', '☃☂', '💩💨', 'a💩', 'é☃💩', '[]^-', '&~-',
    '@`[{', '\\/|', '(){}', '$^.', '*+?', '#= ', '\ud7ff\ue000', '\uffff\U00010000\U0010ffff',
    '\x01\x7f\x80', '\0a',
)

LINE_ENDS = ('\n', '\r', '\n', '\r', '\r\n', '\n\r')

SPECIAL = set('\\.^$()[]|?*+{}')
SPECIAL_IN_CLASS = set('\\[]^-&~')
NAMED = {'\a': r'\a', '\f': r'\f', '\t': r'\t', '\n': r'\n', '\r': r'\r', '\v': r'\v'}

# Sets by their letters, each with some characters in it and some others.
LETTER_SETS = {
    'd': ('059', 'a/:٣'), 's': (' \n\v', 'a\x85\u00a0'), 'w': ('aZ_0', '-é@\n'),
    'D': ('a/:٣', '059'), 'S': ('a\x85\u00a0', ' \n\v'), 'W': ('-é@\n', 'aZ_0'),
}

# Ends of ranges.
RANGES = (
    'az', 'AZ', '09', 'af', 'by', 'BY', '!~', ' /', ':@', '[`', '{~', 'Az', 'Yb', '\t\r',
    '\x01\x1f', '\0\x7f', 'éü', 'αω', '\u2600\u26ff', '\u2028\u2029', '\ud700\ud7ff',
    '\ud7ff\ue000', '\ue000\uf8ff', 'a\ud7ff', '\U0001f300\U0001f64f', '\U00010000\U0010ffff',
    '\x80\U0010ffff',
)

# Named sets with their ASCII members. None has another member.
BLANK = ' \t'
SPACE = '\t\n\v\f\r '
GRAPH = string.ascii_letters + string.digits + string.punctuation
SETS = {
    'alnum': string.ascii_letters + string.digits,
    'alpha': string.ascii_letters,
    'ascii': ''.join(map(chr, range(128))),
    'blank': BLANK,
    'cntrl': ''.join(map(chr, range(32))) + '\x7f',
    'digit': string.digits,
    'graph': GRAPH,
    'lower': string.ascii_lowercase,
    'print': GRAPH + ' ',
    'punct': string.punctuation,
    'space': SPACE,
    'upper': string.ascii_uppercase,
    'word': string.ascii_letters + string.digits + '_',
    'xdigit': string.hexdigits,
}

LOOKS = (
    r'\b', r'\B', r'\<', r'\>', r'\b{start}', r'\b{end}', r'\b{start-half}', r'\b{end-half}',
    r'\A', r'\z',
)


class Leaf(NamedTuple):
    """An item without branches: how it is written, some texts that it matches if no flag is set,
    and characters on which it may make a difference."""

    text: str
    samples: tuple[str, ...]
    near: str = ''


class Group(NamedTuple):
    """A group, with what it begins with."""

    head: str
    tree: 'Tree'


class Directive(NamedTuple):
    """Flags for what follows."""

    text: str


# A generated tree is a list of branches. A branch is a list of pairs: an item and the operators
# after it.
Item = Union[Leaf, Group, Directive]
Branch = list[tuple[Item, list[str]]]
Tree = list[Branch]


def character_at(number: int) -> str:
    """The character with this number, or near it. Just above U+D7FF this is U+E000, and just below
    U+E000 it is U+D7FF."""
    if 0xD800 <= number <= 0xDFFF:
        return '\ue000' if number < 0xDC00 else '\ud7ff'
    return chr(min(max(number, 0), 0x10FFFF))


def hexadecimal(dice: Dice, character: str) -> str:
    """The character by its number, in one of the forms that can hold it."""
    number = ord(character)
    digits = f'{number:x}' if dice.chance(0.5) else f'{number:X}'
    forms = [f'\\{dice.pick("xuU")}{{{"0" * dice.below(3)}{digits}}}', f'\\U{digits:0>8}']
    if number <= 0xFFFF:
        forms.append(f'\\u{digits:0>4}')
    if number <= 0xFF:
        forms.append(f'\\x{digits:0>2}')
    return dice.pick(forms)


def written(dice: Dice, character: str, special: set[str]) -> str:
    """The character as it may stand in a pattern, where these are special."""
    if character == '\0' or dice.chance(0.12):
        return hexadecimal(dice, character)
    if character in NAMED and dice.chance(0.6):
        return NAMED[character]
    can_be_escaped = character in string.punctuation + ' ' and character not in '<>'
    if character in special or can_be_escaped and dice.chance(0.2):
        return '\\' + character
    return character


def some_flags(dice: Dice) -> str:
    """Flags as they stand in a group's head."""
    letters = list('imsRUu')
    chosen = [letters.pop(dice.below(len(letters))) for _ in range(dice.pick((1, 1, 2, 3)))]
    if dice.chance(0.3):
        chosen.insert(dice.below(len(chosen)), '-')
    return ''.join(chosen)


class Maker:
    """Makes trees whose characters come from some letters, and whose leaves are of some kinds."""

    def __init__(self, dice: Dice, letters: str, kinds: Sequence[str]) -> None:
        self.dice = dice
        self.letters = letters
        self.kinds = kinds

    def tree(self, depth: int, stacking: float) -> Tree:
        """A tree whose groups are nested at most `depth` deep. After an item, and after each
        operator, one more operator stands with the probability `stacking`."""
        branches = [self.branch(depth, stacking)]
        while self.dice.chance(0.25):
            branches.append(self.branch(depth, stacking))
        return branches

    def branch(self, depth: int, stacking: float) -> Branch:
        dice = self.dice
        branch: Branch = []
        for _ in range(dice.pick((0, 1, 1, 2, 2, 3))):
            if branch and isinstance(branch[-1][0], Directive) and dice.chance(0.5):
                break
            if dice.chance(0.08):
                operators = self.operators(0.15) if self.has_item(branch) else []
                branch.append((Directive(f'(?{some_flags(dice)})'), operators))
            elif depth > 0 and dice.chance(0.35):
                head = f'(?{some_flags(dice)}:' if dice.chance(0.4) else '(?:'
                group = Group(head, self.tree(depth - 1, stacking))
                branch.append((group, self.operators(stacking)))
            else:
                branch.append((self.leaf(), self.operators(stacking)))
        return branch

    def has_item(self, branch: Branch) -> bool:
        return any(not isinstance(item, Directive) for item, _ in branch)

    def operators(self, stacking: float) -> list[str]:
        operators: list[str] = []
        while len(operators) < 4 and self.dice.chance(stacking):
            operators.append(self.dice.pick(OPERATORS))
        return operators

    def leaf(self) -> Leaf:
        made: Leaf = getattr(self, self.dice.pick(self.kinds))()
        return made

    def character(self) -> Leaf:
        character = self.dice.pick(self.letters)
        text = written(self.dice, character, SPECIAL)
        return Leaf(text, (character,), character + character.swapcase())

    def letter_set(self) -> Leaf:
        letter = self.dice.pick(tuple(LETTER_SETS))
        inside, outside = LETTER_SETS[letter]
        return Leaf(f'\\{letter}', tuple(inside), inside + outside)

    def dot(self) -> Leaf:
        return Leaf('.', tuple('a\n\r💩'), '\n\r')

    def look(self) -> Leaf:
        return Leaf(self.dice.pick(LOOKS), ('',), '\n\ra- ')

    def line_look(self) -> Leaf:
        return Leaf(self.dice.pick('^$'), ('',), '\n\ra')

    def look_between(self) -> Leaf:
        """A look between two characters."""
        look = self.dice.pick((self.look, self.line_look, self.line_look))()
        front, back = self.character(), self.character()
        text = front.text + look.text + back.text
        return Leaf(text, (front.samples[0] + back.samples[0],), '\n\ra-')

    def line_end(self) -> Leaf:
        text = self.dice.pick(LINE_ENDS)
        return Leaf(''.join(NAMED[character] for character in text), (text,), '\n\r')

    def bracketed(self) -> Leaf:
        """A class."""
        dice = self.dice
        items = [self.class_item() for _ in range(dice.pick((1, 1, 2, 2, 3, 4)))]
        opening = dice.pick(('', '', '', '', '', '', '-', '--', ']'))
        closing = '-' if dice.chance(0.08) else ''
        inside = opening + closing + ''.join(item[1] for item in items)
        outside = ''.join(item[2] for item in items)
        caret = '^' if dice.chance(0.3) else ''
        samples = outside if caret else inside
        text = '[' + caret + opening + ''.join(item[0] for item in items) + closing + ']'
        return Leaf(text, tuple(samples), inside + outside)

    def class_item(self) -> tuple[str, str, str]:
        """An item of a class as it is written, some characters in it, and some others."""
        dice = self.dice
        kind = dice.random()
        if kind < 0.4:
            character = dice.pick(self.letters)
            return self.class_range(character, character)
        if kind < 0.7:
            return self.class_range(*sorted(self.ends()))
        if kind < 0.85:
            letter = dice.pick(tuple(LETTER_SETS))
            return (f'\\{letter}', *LETTER_SETS[letter])
        name = dice.pick(tuple(SETS))
        inside = ''.join(dice.pick(SETS[name]) for _ in range(3))
        outside = ''.join(c for c in '\0\t\n /09@AFGZ_afgz~\x7f' if c not in SETS[name]) + 'é'
        if dice.chance(0.3):
            return f'[:^{name}:]', outside, inside
        return f'[:{name}:]', inside, outside

    def ends(self) -> Sequence[str]:
        """The ends of a range, in any order."""
        if self.dice.chance(0.5):
            return self.dice.pick(RANGES)
        first = self.dice.pick(self.letters)
        return first, character_at(ord(first) + self.dice.below(6))

    def class_range(self, first: str, last: str) -> tuple[str, str, str]:
        """A range, or one character where both ends are the same."""
        text = written(self.dice, first, SPECIAL_IN_CLASS)
        if first != last or self.dice.chance(0.05):
            text += '-' + written(self.dice, last, SPECIAL_IN_CLASS)
        middle = character_at((ord(first) + ord(last)) // 2)
        outside = character_at(ord(first) - 1) + character_at(ord(last) + 1)
        return text, first + middle + last, outside

    def both_cases(self) -> Leaf:
        """A class with a run of characters that has letters of both cases."""
        dice = self.dice
        first, last = dice.pick('AMQWXYYZZZ@0!'), dice.pick('aaabbcmyz{é')
        run = [chr(number) for number in range(ord(first), ord(last) + 1)]
        swapped = [character.swapcase() for character in run if character in string.ascii_letters]
        if len(run) < 16 and dice.chance(0.4):
            text = ''
            while run:
                text += written(dice, run.pop(dice.below(len(run))), SPECIAL_IN_CLASS)
        else:
            text = '-'.join(
                hexadecimal(dice, end) if dice.chance(0.15) else end for end in (first, last)
            )
        if dice.chance(0.3):
            text += self.class_item()[0]
        caret = '^' if dice.chance(0.3) else ''
        return Leaf(f'[{caret}{text}]', tuple(swapped), string.ascii_letters + '@[`{')


def sample(dice: Dice, tree: Tree) -> str:
    """A text that the tree often matches."""
    branch = dice.pick(tree)
    return ''.join(sample_piece(dice, item, operators) for item, operators in branch)


def sample_piece(dice: Dice, item: Item, operators: list[str]) -> str:
    """A text of an item with these operators."""
    if isinstance(item, Directive):
        return ''
    if operators:
        times = rounds(dice, operators[-1])
        return ''.join(sample_piece(dice, item, operators[:-1]) for _ in range(times))
    if isinstance(item, Group):
        return sample(dice, item.tree)
    return dice.pick(item.samples or ('',))


def rounds(dice: Dice, operator: str) -> int:
    """How often a sample repeats the operator's item, sometimes once too often or too rarely."""
    if operator[0] != '{':
        return dice.pick(ROUNDS[operator[0]])
    numbers = [int(number) for number in re.findall(r'\d+', operator)]
    least, most = numbers[0], numbers[-1]
    return max(0, dice.pick((least, least, most, most, (least + most) // 2, most + 1, least - 1)))


MIXED = ('character',) * 5 + ('bracketed',) * 2 + ('look', 'line_look', 'letter_set', 'dot')
LOOKING = (
    ('look',) * 3 + ('line_look',) * 3 + ('look_between',) * 6 + ('line_end',) * 3
    + ('character', 'character', 'letter_set', 'dot')
)
