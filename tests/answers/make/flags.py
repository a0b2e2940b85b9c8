r"""Patterns with flags and classes.

`flags-and-classes.tsv` adds:

- escapes: characters, characters by their hexadecimal numbers, the sets `\d \s \w \D \S \W`, and
  the looks `\A \z \b \B \< \> \b{start} \b{end} \b{start-half} \b{end-half}`;
- `.`, `^` and `$`;
- bracketed classes, with named sets such as `[:alpha:]`;
- the flags i, m, s, R, U and u, as `(?i-s)` for what follows and as `(?i-s:a)` for a group.

35 more faults have a text of their own there, and each of the 38 texts occurs at least 20 times.
Upstream refuses look-around too. A pattern is there only if its first fault is unambiguous: if an
item has several faults at once, such as a range in the wrong order in a class that never ends, the
texts may legitimately differ.

The first 2,974 cases were picked by hand, in three parts:

- Patterns with their haystacks, in groups: escapes, sets, the dot, looks at lines and at
  words, classes and what may stand first in them, named sets, the edges of the surrogates, empty
  classes, letters of either case, the two kinds of fixed classes, flags and their scope, operators
  after each kind of item, and realistic patterns.
- Complete series of cases. Each character that may be escaped is tried outside and inside a class,
  on itself and on all others; each set on all its ASCII members and on all other ASCII characters;
  the dot under all flags that affect it; `^` and `$` under m and R at each position of all texts of
  up to two of `a`, CR and LF; each word look between characters of all kinds.
- For each text of a refusal, patterns with that fault alone, and some in which another
  fault follows.

The rest was generated, again with the seed 1. The judge was asked about 30,000 patterns of seven
families. The first cases of each kind were kept:

| Family | Matches | No match |
|---|---|---|
| mixed: trees of all rules | 650 | 500 |
| classes: one class, often at the whole haystack | 490 | 450 |
| looks: looks at words and ends of lines | 360 | 300 |
| both cases: a class under i with a run over letters of both cases | 240 | 160 |
| changed: a pattern with a class, changed as above and still accepted | 130 | 120 |

Part of each number is reserved for patterns that match the empty haystack.

| Family | Refused |
|---|---|
| broken: a tree with one change of a whole piece, for each of the three texts of the plain grammar | 50 |
| faulty: a tree with one faulty pattern in it or after it, for each other text | 16 |

The first haystack is again a text that the pattern often matches, with letters of either case if
there is a flag i. In the second, one character is replaced by one next to the edge of a class or a
look, or the text is changed as above.
"""

import re
from collections.abc import Iterator, Sequence

from .choice import STRUCTURE
from .data import faults_of
from .dice import OPERATORS, Dice, edited, edited_often, noise
from .leaves import (ALPHABETS, LINE_ENDS, LOOKING, MIXED, Directive, Group, Item, Leaf, Maker,
                     Tree, sample)

LONGEST = 80  # characters of a generated pattern

# The faults that lie in a single item.
FAULTS_OF_ITEMS = [
    fault for fault in faults_of('flags-and-classes-faults').items()
    if fault[0] not in STRUCTURE['flags-and-classes']
]

# An item, right or wrong, or another part of a pattern that begins no rule beyond this grammar.
# At a counted operator, a group that captures, the flag letter x and a NUL there is none.
PART = re.compile(
    r"""
    \\ (?: [xuUpP]\{[^}\0]*\}? | b\{ (?: [-A-Za-z]+\}? | \Z ) | [^\0] | \Z )
    | \[ \^? (?: -+ | \]? ) (?: \\[^\0] | \[:\^?[a-z]+:\] | [^\]\\\0] )* \\? \]?
    | \(\? (?: <?[=!] | (?!P?<) [^:)x\0]* (?: [:)] | \Z ) )
    | [^\\\[({\0]
    """,
    re.VERBOSE,
)

IGNORES_CASE = re.compile(r'\(\?[msRUu]*i')

WORDS_AND_LINES = 'aab_1- é\n\n\r\r'

# What changes put into a pattern.
TOKENS = ('(?:', '(?:', '(?i:', '(?s-m:', ')', ')', '|', '?', '*', '+', '??', '*?', '(?i)', '(?-i)')
CLASS_PIECES = tuple('abz-^][\\&~:dwb09Z') + (
    '[:', ':]', '[:alpha:]', '[^', '\\d', '\\-', '\\]', 'a-', '-z', '(?i)', 'é', '\\x61', '\\b',
    '^]',
)

# What may stand round an item, so that it doesn't match everywhere.
FRAMES = (
    (Leaf('\\A', ('',)), Leaf('\\z', ('',))),
    (Leaf('^', ('',)), Leaf('$', ('',))),
    (Leaf('x', ('x',)), Leaf('y', ('y',))),
    (Leaf('', ('',)), Leaf('', ('',))),
)


def is_outside(pattern: str) -> bool:
    """Whether the pattern has a counted operator, a group that captures or the flag letter x."""
    at = 0
    while at < len(pattern):
        part = PART.match(pattern, at)
        if part is None:
            return True
        at = part.end()
    return False


def tokens_of(tree: Tree) -> list[str]:
    """The parts of the tree's pattern: whole leaves, heads, operators, `)` and `|`."""
    tokens: list[str] = []
    for number, branch in enumerate(tree):
        if number > 0:
            tokens.append('|')
        for item, operators in branch:
            if isinstance(item, Group):
                tokens += [item.head, *tokens_of(item.tree), ')']
            else:
                tokens.append(item.text)
            tokens += operators
    return tokens


def pattern_of(tree: Tree) -> str:
    return ''.join(tokens_of(tree))


def near_of(tree: Tree) -> str:
    """Characters on which some leaf of the tree may make a difference."""
    return ''.join(
        near_of(item.tree) if isinstance(item, Group) else getattr(item, 'near', '')
        for branch in tree for item, _ in branch
    )


def in_mixed_case(dice: Dice, text: str) -> str:
    """The text with some of its letters in the other case."""
    return ''.join(
        c.swapcase() if len(c.swapcase()) == 1 and dice.chance(0.3) else c for c in text
    )


def haystacks(dice: Dice, tree: Tree) -> tuple[str, str]:
    """A text that the tree often matches, perhaps with something round it, and a changed form."""
    near = sample(dice, tree)[:40]
    letters = near_of(tree) or 'ab'
    if IGNORES_CASE.search(pattern_of(tree)):
        near = in_mixed_case(dice, near)
    if dice.chance(0.4):
        near = noise(dice, letters) + near + noise(dice, letters)
    if near and dice.chance(0.5):
        at = dice.below(len(near))
        return near, near[:at] + dice.pick(letters) + near[at + 1:]
    return near, edited_often(dice, near, [*letters, *LINE_ENDS, 'a', '-', 'é', '💩'])


def framed(dice: Dice, item: Item, operators: Sequence[str] = ()) -> Tree:
    """A tree of this item with its operators, between two others."""
    front, back = dice.pick(FRAMES)
    return [[(front, []), (item, list(operators)), (back, [])]]


def under_flags(dice: Dice, tree: Tree, probability: float, choices: Sequence[str]) -> Tree:
    """The tree, perhaps with a directive before it."""
    if dice.chance(probability):
        tree[0].insert(0, (Directive(f'(?{dice.pick(choices)})'), []))
    return tree


def mixed(dice: Dice) -> Tree:
    """A tree of leaves of all kinds."""
    maker = Maker(dice, dice.pick(ALPHABETS), MIXED)
    tree = maker.tree(dice.below(4), dice.pick((0.15, 0.3, 0.6)))
    if dice.chance(0.3):
        tree = framed(dice, Group('(?:', tree))
    return under_flags(dice, tree, 0.35, ('i', 'i', 'i', 'is', 's', 'R', 'mR', 'U', 'i-u'))


def classes(dice: Dice) -> Tree:
    """A tree with one class."""
    maker = Maker(dice, dice.pick(ALPHABETS), MIXED)
    tree = framed(dice, maker.bracketed(), maker.operators(0.25))
    return under_flags(dice, tree, 0.35, ('i', 'i', 'i-s', 's', 'U'))


def looks(dice: Dice) -> Tree:
    """A tree with many looks at words and lines."""
    maker = Maker(dice, WORDS_AND_LINES, LOOKING)
    tree = maker.tree(dice.below(3), dice.pick((0.1, 0.3)))
    if dice.chance(0.4):
        tree = framed(dice, Group('(?:', tree))
    return under_flags(dice, tree, 0.7, ('m', 'm', 'mR', 'mR', 'mR', 'R', 'ms', 'mRs', 'sR'))


def both_cases(dice: Dice) -> Tree:
    """A tree with one class under i that has a run over letters of both cases."""
    maker = Maker(dice, dice.pick(('ab', 'aAzZ', 'kK', '@`[{', 'é☃')), MIXED)
    tree = framed(dice, maker.both_cases(), maker.operators(0.15))
    if dice.chance(0.2):
        return [[(Group(dice.pick(('(?i:', '(?is:', '(?i-m:')), tree), [])]]
    return under_flags(dice, tree, 1, ('i', 'i', 'si', 'i-m'))


def with_fault(dice: Dice) -> tuple[str, str]:
    """A text of a refusal, and a pattern with one fault, which has this text."""
    text, places = dice.pick(FAULTS_OF_ITEMS)
    tree = mixed(dice)
    fault = dice.pick(places['anywhere'] + places['last'])
    if fault in places['last']:
        return text, pattern_of(tree) + dice.pick(('', '', '|')) + fault
    branch = dice.pick(tree)
    while branch and dice.chance(0.5):
        item, _ = dice.pick(branch)
        if isinstance(item, Group):
            branch = dice.pick(item.tree)
    operators = [dice.pick(OPERATORS)] if dice.chance(0.2) else []
    branch.insert(dice.below(len(branch) + 1), (Leaf(fault, ('',)), operators))
    return text, pattern_of(tree)


def generated(dice: Dice) -> Iterator[tuple[str, str, str, str, str]]:
    """Makes endless rows: a family, a pattern and two haystacks, and for a faulty pattern the
    text of its refusal."""
    while True:
        kind = dice.random()
        text = ''
        if kind < 0.28:
            family, tree = 'mixed', mixed(dice)
        elif kind < 0.48:
            family, tree = 'classes', classes(dice)
        elif kind < 0.64:
            family, tree = 'looks', looks(dice)
        elif kind < 0.72:
            family, tree = 'both cases', both_cases(dice)
        elif kind < 0.82:
            family, tree = 'changed', classes(dice)
        else:
            family, tree = 'broken' if kind < 0.87 else 'faulty', mixed(dice)
        near, far = haystacks(dice, tree)
        if family == 'changed':
            pattern = edited_often(dice, pattern_of(tree), CLASS_PIECES)
        elif family == 'broken':
            pattern = ''.join(edited(dice, tokens_of(tree), [[token] for token in TOKENS]))
        elif family == 'faulty':
            text, pattern = with_fault(dice)
        else:
            pattern = pattern_of(tree)
        if len(pattern) <= LONGEST and not is_outside(pattern):
            yield family, pattern, near, far, text
