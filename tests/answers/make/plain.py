r"""Patterns of the plain grammar: characters, branches, plain groups and three operators.

`plain-grammar.tsv`:

- A pattern is one or more branches with `|` between them. A branch may be empty.
- A branch is a sequence of items and operators.
- An item is `(?:`, again branches, and `)`; or any character except `\`, `.`, `^`, `$`, `(`, `)`,
  `[`, `|`, `?`, `*`, `+` and `{`, which stands for itself.
- The operators are `?`, `*` and `+`. A `?` directly after one of them makes it lazy.

It has three faults: a `)` without a group, a group without its `)`, and an operator without an item
before it in its branch. Of several faults the leftmost is reported. A group without its `)` is
detected at the pattern's end, so it comes last.

The first part was picked by hand. It is in `picked/plain-grammar.tsv`, in groups: characters for
themselves, letters of the other case, characters of several bytes, branches, groups, each operator,
operators after groups, nested repetitions, lazy forms, stacked operators, patterns on which a
careless search takes very long, each of the three faults, and several faults together.

The rest was generated, with the seed 1. About half of the patterns are trees of the grammar, with
groups nested a few deep, up to four operators in a row, and mostly between two characters, so that
they don't match everywhere. About a third are such patterns with one to three changes: a piece
removed, inserted, replaced, swapped, cut or doubled. The others are a few pieces in random order.
The characters come from a small alphabet that is drawn for each pattern; some alphabets have
characters that share their first bytes. Each pattern has two haystacks: a text that it often
matches, with something around it, and the same with one to three changes.

Patterns that use other rules were dropped at once. The judge was asked about 12,000 of the
remaining patterns. Those that were also picked by hand were dropped too. Of the rest the first
cases of each kind were kept:

| Kind | Cases |
|---|---|
| match, and the pattern matches the empty haystack too | 250 |
| any other match | 950 |
| no match | 950 |
| refused, for each of the three texts | 220 |
"""

import re
from collections.abc import Iterator
from typing import Union

from .dice import OPERATORS, ROUNDS, Dice, edited_often, noise

# What begins another rule than those of the small grammar. A NUL can't stand in an argument.
OUTSIDE = re.compile(r'[\\.^$\[{\0]|\((?!\?:)')

# A generated pattern has its characters from one of these. Some neighbours share their first bytes.
ALPHABETS = (
    'a', 'ab', 'ab', 'ab', 'abc', 'abc', 'abcd', 'aAbB', 'xyz01',
    'éã', 'aé☃', '☃☂', '💩💨', 'a💩', 'aßé名☃💩', 'e\u0301é', 'Σσς',
    ']}', 'a]}', ':a', '-,:', '<>=!', 'a \n', '\t\r\n', '#&~ ', '"\'`', '/@%;_',
    '\u00a0\u0085 ', '\u2028\u2029\n', '\ufeffa', '\ud7ff\ue000', '\uffff\U00010000\U0010ffff',
    '\x01\x7f\x80',
)

TOKENS = ('(?:', '(?:', ')', ')', '|', '|', '?', '*', '+', '??', '*?', 'a', 'b', 'c', ':', ']',
          '}', 'é', '💩')

# A generated tree is a list of branches. A branch is a list of pairs: an item and the list of the
# operators after it. An item is a character or, for a group, again a tree.
Item = Union[str, 'Tree']
Branch = list[tuple[Item, list[str]]]
Tree = list[Branch]


def make_tree(dice: Dice, letters: str, depth: int, stacking: float) -> Tree:
    """A tree whose groups are nested at most `depth` deep. After an item, and after each operator,
    one more operator stands with the probability `stacking`, up to four in a row."""
    branches = [make_branch(dice, letters, depth, stacking)]
    while dice.chance(0.3):
        branches.append(make_branch(dice, letters, depth, stacking))
    return branches


def make_branch(dice: Dice, letters: str, depth: int, stacking: float) -> Branch:
    branch: Branch = []
    for _ in range(dice.pick((0, 1, 1, 2, 2, 3))):
        if depth > 0 and dice.chance(0.4):
            item: Item = make_tree(dice, letters, depth - 1, stacking)
        else:
            item = dice.pick(letters)
        operators: list[str] = []
        while len(operators) < 4 and dice.chance(stacking):
            operators.append(dice.pick(OPERATORS))
        branch.append((item, operators))
    return branch


def framed(dice: Dice, tree: Tree, letters: str) -> Tree:
    """The tree, often between characters: what matches the empty haystack matches everywhere."""
    if dice.chance(0.25):
        return tree
    front, back = (dice.pick(('', 'x', 'y', dice.pick(letters))) for _ in range(2))
    return [[(front, []), (tree, []), (back, [])]]


def pattern_of(tree: Tree) -> str:
    """The tree as a pattern."""
    return '|'.join(
        ''.join(piece_text(item, operators) for item, operators in branch) for branch in tree
    )


def piece_text(item: Item, operators: list[str]) -> str:
    body = item if isinstance(item, str) else f'(?:{pattern_of(item)})'
    return body + ''.join(operators)


def sample(dice: Dice, tree: Tree) -> str:
    """A text that the tree often matches. It needn't: of operators next to each other the pattern
    may make others, and some rounds are wrong."""
    branch = dice.pick(tree)
    return ''.join(sample_piece(dice, item, operators) for item, operators in branch)


def sample_piece(dice: Dice, item: Item, operators: list[str]) -> str:
    if operators:
        rounds = dice.pick(ROUNDS[operators[-1][0]])
        return ''.join(sample_piece(dice, item, operators[:-1]) for _ in range(rounds))
    return item if isinstance(item, str) else sample(dice, item)


def generated(dice: Dice) -> Iterator[tuple[str, str, str, str, None]]:
    """Makes endless rows: a family, a pattern and two haystacks, one that may be matched and a
    changed form of it. Only the judge knows whether the pattern is refused."""
    while True:
        letters = dice.pick(ALPHABETS)
        tree = make_tree(dice, letters, dice.below(4), dice.pick((0.2, 0.4, 0.7)))
        tree = framed(dice, tree, letters)
        kind = dice.random()
        if kind < 0.15:
            pattern = ''.join(dice.pick(TOKENS) for _ in range(1 + dice.below(9)))
        elif kind < 0.5:
            pattern = edited_often(dice, pattern_of(tree), TOKENS)
        else:
            pattern = pattern_of(tree)
        near = noise(dice, letters) + sample(dice, tree)[:40] + noise(dice, letters)
        far = edited_often(dice, near, letters)
        if not OUTSIDE.search(pattern):
            yield 'plain', pattern, near, far, None
