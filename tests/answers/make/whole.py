"""Patterns of the whole grammar: groups, names, counted operators and verbose mode too.

Counted operators, groups that capture, with or without a name, and the flag x are in neither list.
Each pattern of `whole-grammar.tsv` has one of them, or is refused for its nesting:

- groups that capture, `(a)`, and groups with a name, `(?P<n>a)` and `(?<n>a)`;
- the counted operators `{n}`, `{n,}` and `{n,m}`, lazy with a `?` after them, with white space
  around their numbers;
- the flag x, under which white space and comments are ignored in most places;
- the limit on nesting, which is 50.

Everything from the two other lists is mixed in. 15 more faults have a text of their own there; each
of these texts occurs at least 50 times, and each of the 38 others at least 12 times. Patterns that
end with white space or a comment after a `{` or a `,` are left out, since there the fault is
ambiguous too.

The first 3,786 cases were picked by hand, in three parts:

- Patterns with their haystacks, in groups: groups, names, counted operators, and verbose
  mode.
- For each text of a refusal that is new in this list, patterns with that fault.
- Series: each counted operator after several items, on none to five of them; each character of
  Unicode's White_Space around the numbers of a count, between characters and in a class under x,
  and some characters that look like white space; three gaps at each position of thirty patterns
  under x, allowed or not; about forty characters as the first and the second of a name; and groups
  and operators nested around an item about as deep as the limit allows.

The rest was generated, with the seed 1. The judge was asked about 33,000 patterns of seven
families. Three in four are a group between two others, as above. No gap or comment is put where it
would change the meaning. The product of a pattern's counts is at most 1,000. The first cases of
each kind were kept:

| Family | Matches | No match |
|---|---|---|
| groups: trees in which most groups capture | 800 | 700 |
| counts: trees in which most operators are counted | 1,000 | 900 |
| verbose: trees of all rules with gaps under x | 1,020 | 920 |
| all: trees of all rules, half of them under x | 500 | 400 |
| changed: such a pattern, changed as above and still accepted | 200 | 200 |

| Family | Refused |
|---|---|
| broken: as above, also for a counted operator without an item, for each of the four texts | 30 |
| faulty: as above, for each other text of the two earlier lists | 12 |
| faulty: as above, for each other text that is new in this list | 30 |
"""

import re
from collections.abc import Iterator

from .choice import MISSING_COUNTED
from .data import faults_of
from .dice import OPERATORS, Dice, edited, edited_often, noise
from .flags import FAULTS_OF_ITEMS, IGNORES_CASE, framed, in_mixed_case, is_outside, near_of
from .leaves import (ALPHABETS, LINE_ENDS, MIXED, Branch, Directive, Group, Item, Leaf, Maker, Tree,
                     sample, some_flags)

LONGEST = 160  # characters of a generated pattern, unless it is nested too deeply
LARGEST = 1000  # the product of all counts of a pattern is at most this

NESTING = 'pattern has too much nesting'
NEW_FAULTS = [
    fault for fault in faults_of('whole-grammar-faults').items() if fault[0] != MISSING_COUNTED
]

NAMES = ('n', 'm', 'a', 'Z', '_', '_1', 'a.b', 'a[0]', 'name', 'é', 'ß', '名', '名字', 'Σ2', 'x¾',
         'aⅧ', 'N', 'i', 'x', 'longer_name', 'k٣', 'aΩ', 'ª', 'P')
COUNTS = ('{0}', '{1}', '{2}', '{2}', '{3}', '{0,}', '{1,}', '{2,}', '{0,1}', '{0,2}', '{1,2}',
          '{1,3}', '{2,2}', '{2,4}', '{0,0}', '{1,1}', '{10}', '{03}', '{0,12}')
GAPS = (' ', ' ', '  ', '\n', '\t ', '\u00a0', '\u2028', '\u3000 ', '\r', '#\n', '# c\n',
        ' #)]\n ', '#\\(\n', '#é#\n\n')
PLAIN_GAPS = (' ', '  ', '\t', '\n', '\u2003')
WORD = re.compile(r'\[:\^?[a-z]+:\]|\\b\{|\\.|.', re.DOTALL)  # no gap is put into one of these
NUMBER = re.compile(r'[{,](\d+)')

# What changes put into a pattern.
TOKENS = ('(', '(', '(?:', ')', ')', '|', '?', '*', '{2}', '{0,1}', '{2}', '(?x)', '(?-x)', '?')
PIECES = tuple('ab ,0123?#{}()|') + ('{2}', '{1,2}', '{0}', '(?x)', '(a)', '# ', '\n', '?:', '\\ ')


class WholeMaker(Maker):
    """Makes trees of all rules. Its rows are the more likely to have groups that capture the
    greater `capturing` is, and counted operators the greater `counting` is."""

    def __init__(self, dice: Dice, letters: str, capturing: float, counting: float) -> None:
        super().__init__(dice, letters, MIXED)
        self.capturing = capturing
        self.counting = counting
        self.names = list(NAMES)

    def branch(self, depth: int, stacking: float) -> Branch:
        dice = self.dice
        branch: Branch = []
        for _ in range(dice.pick((0, 1, 1, 2, 2, 3))):
            if dice.chance(0.06):
                branch.append((Directive(f'(?{self.flags()})'), []))
            elif depth > 0 and dice.chance(0.4):
                group = Group(self.head(), self.tree(depth - 1, stacking))
                branch.append((group, self.operators(stacking)))
            else:
                branch.append((self.leaf(), self.operators(stacking)))
        return branch

    def head(self) -> str:
        dice = self.dice
        if not dice.chance(self.capturing):
            return f'(?{self.flags()}:' if dice.chance(0.4) else '(?:'
        if self.names and dice.chance(0.4):
            name = self.names.pop(dice.below(len(self.names)))
            return f'{dice.pick(("(?", "(?P"))}<{name}>'
        return '('

    def flags(self) -> str:
        flags = some_flags(self.dice)
        if not self.dice.chance(0.2):
            return flags
        return self.dice.pick(('x', 'x-', '-x')) + flags.replace('-', '')

    def operators(self, stacking: float) -> list[str]:
        dice = self.dice
        operators: list[str] = []
        while len(operators) < 3 and dice.chance(stacking):
            if dice.chance(self.counting):
                operators.append(dice.pick(COUNTS) + dice.pick(('', '', '?')))
            else:
                operators.append(dice.pick(OPERATORS))
        return operators


class Writer:
    """Writes trees as parts of patterns, with gaps where the flag x is set, each of which stands
    with the probability `gaps`."""

    def __init__(self, dice: Dice, gaps: float, verbose: bool) -> None:
        self.dice = dice
        self.gaps = gaps
        self.verbose = verbose

    def gap(self) -> str:
        if self.verbose and self.dice.chance(self.gaps):
            return self.dice.pick(GAPS)
        return ''

    def parts(self, tree: Tree) -> list[str]:
        """The parts of the tree's pattern: whole leaves, heads, operators, `)` and `|`."""
        parts: list[str] = []
        for number, branch in enumerate(tree):
            if number > 0:
                parts.append(self.gap() + '|')
            for item, operators in branch:
                parts += self.item(item)
                parts += [self.gap() + self.operator(operator) for operator in operators]
        return parts

    def item(self, item: Item) -> list[str]:
        if isinstance(item, Leaf):
            return [self.gap() + self.leaf(item.text)]
        gap = self.gap()
        text = item.text if isinstance(item, Directive) else item.head
        flags = re.match(r'\(\?([imsRUux]*)(-?[imsRUux]*)[:)]', text)
        head = gap + '(' + self.gap() + text[1:]
        outside = self.verbose
        if flags and 'x' in flags[1] + flags[2]:
            self.verbose = 'x' in flags[1]
        if isinstance(item, Directive):
            return [head]
        inside = self.parts(item.tree) + [self.gap() + ')']
        self.verbose = outside
        return [head, *inside]

    def leaf(self, text: str) -> str:
        """The leaf with gaps, and so that its White_Space and `#` stand for themselves."""
        if not self.verbose:
            return text
        return ''.join(for_itself(word) + self.gap() for word in WORD.findall(text))

    def operator(self, text: str) -> str:
        if text[0] != '{':
            return text
        out: list[str] = []
        for word in re.findall(r'\d+|.', text):
            if self.verbose:
                out += [character + self.gap() for character in word]
            elif word.isdigit() and self.dice.chance(0.2):
                out.append(self.dice.pick(PLAIN_GAPS) + word + self.dice.pick(PLAIN_GAPS))
            else:
                out.append(word)
        return ''.join(out)


def for_itself(word: str) -> str:
    """The character as it stands for itself under x too."""
    if not word.isspace() and word != '#':
        return word
    return '\\' + word if word in ' #' else f'\\x{{{ord(word):X}}}'


def haystacks(dice: Dice, tree: Tree, pattern: str) -> tuple[str, str]:
    """A text that the tree often matches, perhaps with something round it, and a changed form."""
    near = sample(dice, tree)[:60]
    letters = near_of(tree) or 'ab'
    if IGNORES_CASE.search(pattern):
        near = in_mixed_case(dice, near)
    if dice.chance(0.3):
        near = noise(dice, letters) + near + noise(dice, letters)
    if near and dice.chance(0.3):
        at = dice.below(len(near))
        return near, near[:at] + dice.pick(letters) + near[at + 1:]
    return near, edited_often(dice, near, [*letters, *LINE_ENDS, 'a', '#', ' ', 'é', '💩'])


def tree_of(dice: Dice, capturing: float, counting: float) -> Tree:
    maker = WholeMaker(dice, dice.pick(ALPHABETS), capturing, counting)
    tree = maker.tree(dice.below(4), dice.pick((0.2, 0.35, 0.6)))
    if dice.chance(0.75):
        tree = framed(dice, Group(maker.head(), tree), maker.operators(0.15))
    return tree


def written(dice: Dice, tree: Tree, verbose: bool) -> tuple[list[str], Writer]:
    """The parts of the tree's pattern, perhaps in verbose mode from the start, and its writer."""
    head = f'(?{dice.pick(("x", "x", "x", "xi", "x-s", "sx"))})' if verbose else ''
    writer = Writer(dice, dice.pick((0.05, 0.15, 0.4)), verbose)
    parts = writer.parts(tree)
    return [head, *parts] if head else parts, writer


def with_fault(dice: Dice, tree: Tree, verbose: bool) -> tuple[str, str]:
    """A text of a refusal, and a pattern with one fault, which has this text. No fault is taken
    that may be another under x."""
    text, places = dice.pick(FAULTS_OF_ITEMS + NEW_FAULTS * 3)
    faults = places['anywhere'] + places['last']
    fault = dice.pick([fault for fault in faults if not re.search(r'[\s#]', fault)])
    if fault in places['last']:
        parts, _ = written(dice, tree, verbose)
        return text, ''.join(parts) + dice.pick(('', '', '|')) + fault
    branch = dice.pick(tree)
    while branch and dice.chance(0.5):
        item, _ = dice.pick(branch)
        if isinstance(item, Group):
            branch = dice.pick(item.tree)
    mark = '\ue123'
    branch.insert(dice.below(len(branch) + 1), (Leaf(mark, ('',)), []))
    parts, _ = written(dice, tree, verbose)
    return text, ''.join(parts).replace(mark, fault)


def generated(dice: Dice) -> Iterator[tuple[str, str, str, str, str]]:
    """Makes endless rows: a family, a pattern and two haystacks, and for a faulty pattern the
    text of its refusal."""
    while True:
        family, capturing, counting, verbose = shape(dice)
        tree = tree_of(dice, capturing, counting)
        parts, writer = written(dice, tree, verbose)
        pattern, text = ''.join(parts), ''
        near, far = haystacks(dice, tree, pattern)
        if family == 'changed':
            pattern = edited_often(dice, pattern, PIECES)
        elif family == 'broken':
            pattern = ''.join(edited(dice, parts, [[token] for token in TOKENS]))
        elif family == 'faulty':
            text, pattern = with_fault(dice, tree, verbose)
        elif writer.verbose and dice.chance(0.15):
            pattern += dice.pick(('# end', '#', ' #)', '#('))
        if is_fit(pattern, text):
            yield family, pattern, near, far, text


def shape(dice: Dice) -> tuple[str, float, float, bool]:
    """A family, how often its trees have groups that capture and counts, and whether x is on."""
    kind = dice.random()
    if kind < 0.19:
        return 'groups', 0.8, 0.1, False
    if kind < 0.45:
        return 'counts', 0.2, 0.9, False
    if kind < 0.68:
        return 'verbose', 0.5, 0.3, True
    if kind < 0.78:
        return 'all', 0.6, 0.5, dice.chance(0.5)
    if kind < 0.86:
        return 'changed', 0.5, 0.5, dice.chance(0.5)
    return 'broken' if kind < 0.91 else 'faulty', 0.5, 0.4, dice.chance(0.4)


def has_new_rule(pattern: str, text: str) -> bool:
    """Whether the pattern, refused with this text, is in neither of the earlier grammars. They
    have no limit on nesting either."""
    return is_outside(pattern) or text == NESTING


def is_fit(pattern: str, text: str) -> bool:
    """Whether the pattern has a new rule and is neither too long nor too large."""
    if '\0' in pattern or ends_in_braces(pattern) or not has_new_rule(pattern, text):
        return False
    if len(pattern) > LONGEST and text != NESTING:
        return False
    product = 1
    for number in NUMBER.findall(re.sub(r'\s|#[^\n]*\n', '', pattern)):
        product *= max(1, int(number))
    return bool(text) or product <= LARGEST


def ends_in_braces(pattern: str) -> bool:
    """Whether the pattern ends with a gap after a brace or a comma."""
    return re.search(r'[{,](?:\s|#[^\n]*)+\Z', pattern) is not None
