"""The list of searches: where patterns match, with which groups, and where the shortest match ends.

`searches.tsv` has 9,624 cases of 2,834 patterns. A line has eight fields:

1. the flags that the builder turns on, letters of `imsRUx`, or `-`
2. the pattern
3. the haystack
4. the start, an offset: 0, a boundary between two characters, the length, or a number above it
5. the spans of all groups from group 0 on, such as `0..3 1..2 -`, where `-` is a group that took no
   part; or just `-` if there is no match
6. the smallest offset at which a match from the start on can end, or `-`
7. how many groups take part in every match at least, as `static_captures_len` returns it, or `-`
8. the name of each group, or `-` for one without a name, as `capture_names` returns them

Patterns are of the whole grammar, and none is refused. The cases of a pattern are adjacent, so it
is built once.

Of all cases 6,702 have a match, 5,372 a start above 0 and 522 of these one above the length. 3,499
have a haystack with characters of two to four bytes, and 1,491 one with characters of four. 6,570
have a pattern with a group that captures, 4,360 one with two or more. 2,476 matches end after the
shortest one.

2,084 cases are of 292 patterns with haystacks that were picked by hand, in groups: branches, greedy
and lazy repetitions, counted ones, repetitions of what may be empty, what a group holds from pass
to pass, groups that take no part, which start comes first, looks, flags, empty matches, realistic
patterns, and flags that the builder and the pattern turn on and off. Each haystack is searched from
each boundary and from the number after its length.

The rest was generated, with the seed 3. The judge was asked about 16,000 patterns of six families,
half of them under flags of the builder. Most are built from few characters, so that branches and
passes compete for them, and half of those with groups are some groups in a row. Each has two
haystacks: one that the pattern often matches, mostly with something around it or a second such text
after it, and one of random characters. The starts are 0 and two others; one in twenty haystacks has
one above its length too. The judge was asked the same again with greedy operators for lazy ones and
vice versa: if another match is found, or the shortest match ends before the preferred one, the
preference decides. The first cases of each kind were kept, besides 150 with a start above the
length:

| Family | Matches by preference | Other matches | No match | With a start above 0 |
|---|---|---|---|---|
| branches: branches next to each other, in groups | 880 | 300 | 280 | 630 |
| passes: nested repetitions, mostly of what may be empty | 1,100 | 210 | 240 | 700 |
| counts: counted operators | 740 | 220 | 280 | 570 |
| looks: looks at words and ends of lines | 310 | 480 | 380 | 690 |
| classes: classes, many of them under i | 340 | 220 | 240 | 380 |
| all: trees of all rules | 580 | 290 | 300 | 540 |
"""

import itertools
import re
from collections.abc import Iterator, Sequence
from typing import NamedTuple, Union

from .data import escaped, rows_of
from .dice import Dice
from .flags import WORDS_AND_LINES, near_of
from .judge import Found, SearchCase, found
from .leaves import ALPHABETS, LOOKING, MIXED, Group, Tree, sample
from .whole import NUMBER, WholeMaker, Writer

# A family, flags, a pattern, and haystacks with starts in them.
Row = tuple[str, str, str, list[tuple[str, int]]]
Kind = Union[str, tuple[str, int, bool]]  # of a case

SEED = 3  # different from those of the other lists and of the sizes

PATTERNS = 16_000  # how many generated patterns the judge is asked about
LONGEST = 72  # characters of a generated pattern
LARGEST = 120  # the product of all counts of a pattern is at most this
TEXT = 40  # characters of a haystack before anything is put round it
LONG_TEXT = 200  # characters of the few long ones

ABOVE = 150  # cases of generated patterns whose start is above the length

# Characters of generated patterns. They are few, so that branches and passes compete for them.
FEW = (
    'a', 'ab', 'ab', 'ab', 'ab', 'abc', 'abc', 'aA', 'a ', 'a\n', 'aé', 'é☃', 'a☃', '☃💩', 'a💩',
    'b💩', 'ab☃', 'aé💩', 'éã', '💩💨', 'aβ☃💩',
)

PLAIN = ('character',) * 12 + ('dot', 'dot', 'look', 'line_look', 'letter_set')
SETS = ('bracketed',) * 4 + ('both_cases', 'letter_set', 'dot', 'character', 'character')


class Family(NamedTuple):
    """How the patterns of a family are made: kinds of leaves, letters, and how often branches
    follow each other, operators follow each other, operators are counted and groups capture; how
    deep groups are nested; and the flags that a builder may turn on."""

    leaves: tuple[str, ...]
    letters: tuple[str, ...]
    branching: float
    stacking: tuple[float, ...]
    counting: float
    capturing: float
    depths: tuple[int, ...]
    flags: tuple[str, ...]


FLAGS = ('i', 'm', 's', 'R', 'U', 'U', 'x', 'iU', 'mR', 'sx', 'Ux', 'imsRUx')

FAMILIES = {
    'branches': Family(PLAIN, FEW, 0.6, (0.1, 0.25), 0.1, 0.8, (1, 2, 2, 3), FLAGS),
    'passes': Family(PLAIN, FEW, 0.35, (0.5, 0.7), 0.15, 0.8, (2, 2, 3, 4), ('U', *FLAGS)),
    'counts': Family(PLAIN, FEW, 0.3, (0.35, 0.5), 0.9, 0.8, (1, 2, 2, 3), ('U', *FLAGS)),
    'looks': Family(
        LOOKING, (WORDS_AND_LINES,), 0.3, (0.1, 0.3), 0.2, 0.7, (0, 1, 2),
        ('m', 'm', 'mR', 'mR', 'mR', 'R', 'ms', 'msR', 'mU', 'imx'),
    ),
    'classes': Family(
        SETS, ALPHABETS, 0.25, (0.3, 0.5), 0.3, 0.7, (0, 1, 1, 2), ('i', 'i', 'i', 's', 'iU', 'ix'),
    ),
    'all': Family(MIXED, ALPHABETS, 0.3, (0.2, 0.35, 0.6), 0.4, 0.8, (1, 2, 3), ('x', *FLAGS)),
}

# How many cases of each family are kept: of matches whose answer another preference would change,
# of other matches, and of cases without a match, each with the start 0 and with a greater one.
QUOTAS = {
    'branches': (520, 360, 180, 120, 130, 150),
    'passes': (620, 480, 120, 90, 110, 130),
    'counts': (420, 320, 120, 100, 130, 150),
    'looks': (160, 150, 180, 300, 140, 240),
    'classes': (180, 160, 120, 100, 120, 120),
    'all': (320, 260, 160, 130, 150, 150),
}


class SearchMaker(WholeMaker):
    """Makes trees of a family."""

    def __init__(self, dice: Dice, family: Family) -> None:
        super().__init__(dice, dice.pick(family.letters), family.capturing, family.counting)
        self.kinds = family.leaves
        self.branching = family.branching

    def tree(self, depth: int, stacking: float) -> Tree:
        branches = [self.branch(depth, stacking)]
        while len(branches) < 4 and self.dice.chance(self.branching):
            branches.append(self.branch(depth, stacking))
        return branches

    def whole(self, depth: int, stacking: float) -> Tree:
        """A tree, or in half of the cases some groups in a row, which compete for the text."""
        if depth == 0 or self.dice.chance(0.5):
            return self.tree(depth, stacking)
        return [[
            (Group(self.head(), self.tree(depth - 1, stacking)), self.operators(stacking))
            for _ in range(self.dice.pick((2, 2, 2, 3)))
        ]]


def haystacks(dice: Dice, maker: SearchMaker, tree: Tree) -> tuple[str, str]:
    """Two texts: one that the tree often matches more than once, perhaps with something round it,
    and one of characters on which the tree may make a difference."""
    letters = maker.letters + near_of(tree)[:12]

    def some(counts: Sequence[int]) -> str:
        return ''.join(dice.pick(letters) for _ in range(dice.pick(counts)))

    near = sample(dice, tree)[:TEXT]
    if dice.chance(0.6):
        near = some((0, 1, 1, 2, 3)) + near + some((0, 1, 2))
    if dice.chance(0.4):
        near += some((0, 1, 2)) + sample(dice, tree)[:TEXT // 2]
    if dice.chance(0.02):
        near = (near * 20)[:LONG_TEXT]
    return near, some((1, 2, 3, 4, 4, 6, 8, 12))


def bounds(text: str) -> list[int]:
    """The offsets of the text's characters, and its length, in bytes of UTF-8."""
    return [0, *itertools.accumulate(len(character.encode()) for character in text)]


def starts(dice: Dice, text: str) -> list[int]:
    """Some starts in the text: 0, two others, and seldom one above the length."""
    *_, length = offsets = bounds(text)
    chosen = {0, dice.pick(offsets), dice.pick(offsets)}
    if dice.chance(0.05):
        chosen.add(length + 1 + dice.below(3))
    return sorted(chosen)


def is_fit(pattern: str) -> bool:
    """Whether the pattern is neither too long nor too large."""
    product = 1
    for number in NUMBER.findall(re.sub(r'\s|#[^\n]*\n', '', pattern)):
        product *= max(1, int(number))
    return len(pattern) <= LONGEST and product <= LARGEST and '\0' not in pattern


def drawn(dice: Dice) -> tuple[str, str, str, SearchMaker, Tree]:
    """A family, flags, a pattern, and the maker and the tree that it is of."""
    name = dice.pick(tuple(FAMILIES))
    family = FAMILIES[name]
    maker = SearchMaker(dice, family)
    tree = maker.whole(dice.pick(family.depths), dice.pick(family.stacking))
    letters = dice.pick(family.flags) if dice.chance(0.5) else '-'
    writer = Writer(dice, dice.pick((0.05, 0.15, 0.3)), 'x' in letters)
    return name, letters, ''.join(writer.parts(tree)), maker, tree


def generated(dice: Dice) -> Iterator[Row]:
    """Makes endless rows: a family, flags, a pattern, and haystacks with starts in them."""
    while True:
        name, letters, pattern, maker, tree = drawn(dice)
        asked = [(text, start) for text in haystacks(dice, maker, tree)
                 for start in starts(dice, text)]
        if is_fit(pattern):
            yield name, letters, pattern, asked


def chosen_cases(rows: Iterator[Row], count: int) -> list[tuple[str, SearchCase]]:
    """The cases of the first rows, as many, each with its family. No pattern with its flags comes
    twice."""
    seen: set[tuple[str, str]] = set()
    cases: list[tuple[str, SearchCase]] = []
    for name, letters, pattern, asked in itertools.islice(rows, count):
        if (letters, pattern) not in seen:
            seen.add((letters, pattern))
            cases += [(name, (letters, pattern, *place)) for place in dict.fromkeys(asked)]
    return cases


def other_preference(case: SearchCase) -> SearchCase:
    """The case with greedy operators for lazy ones, and vice versa."""
    letters, pattern, text, start = case
    swapped = letters.replace('U', '') if 'U' in letters else letters.replace('-', '') + 'U'
    return swapped or '-', pattern, text, start


def kind_of(name: str, case: SearchCase, answer: Found, other: Found) -> Kind:
    """The kind of a case, by its family and by the answers to it and under the other preference."""
    _, _, text, start = case
    if start > len(text.encode()):
        return 'above'
    is_other = answer.groups != other.groups or answer.shortest != answer.end
    return name, 2 if answer.groups is None else 0 if is_other else 1, start > 0


def kept_lines(judge: str, cases: list[tuple[str, SearchCase]],
               picked: set[tuple[str, str]]) -> list[str]:
    """The lines of the first cases of each kind, as many as its quota says, without those whose
    flags and pattern are in `picked`."""
    left: dict[Kind, int] = {
        (name, *kind): number for name, numbers in QUOTAS.items()
        for kind, number in zip(itertools.product(range(3), (False, True)), numbers)
    }
    left['above'] = ABOVE
    plain = [case for _, case in cases]
    answers = found(judge, plain)
    others = found(judge, [other_preference(case) for case in plain])
    lines = []
    for (name, case), answer, other in zip(cases, answers, others):
        kind = kind_of(name, case, answer, other)
        if case[:2] not in picked and left[kind]:
            left[kind] -= 1
            lines.append(line_of(case, answer))
    if any(left.values()):
        raise SystemExit(f'too few searches: {left}')
    return lines


def picked_cases() -> list[SearchCase]:
    """The cases picked by hand: each haystack at each offset of a character, at its length, and at
    the next number."""
    rows = rows_of('searches')
    if len({(letters, pattern) for letters, pattern, *_ in rows}) < len(rows):
        raise SystemExit('a pattern was picked twice')
    return [
        (letters, pattern, text, start)
        for letters, pattern, *texts in rows for text in texts
        for start in (*bounds(text), len(text.encode()) + 1)
    ]


def line_of(case: SearchCase, answer: Found) -> str:
    """A case and its answer as a line of the list."""
    letters, pattern, text, start = case
    groups = '-' if answer.groups is None else answer.groups
    shortest = '-' if answer.shortest is None else answer.shortest
    static = '-' if answer.static is None else answer.static
    fields = [letters, escaped(pattern), escaped(text), start, groups, shortest, static,
              escaped(answer.names)]
    return '\t'.join(map(str, fields)) + '\n'


def lines(judge: str) -> list[str]:
    """The lines of the list."""
    picked = picked_cases()
    made = [line_of(case, answer) for case, answer in zip(picked, found(judge, picked))]
    asked = chosen_cases(generated(Dice(SEED)), PATTERNS)
    return made + kept_lines(judge, asked, {case[:2] for case in picked})


def fresh(judge: str, seed: int, count: int) -> list[str]:
    """As many lines of generated cases from another seed, without any choice among their kinds."""
    cases = [case for _, case in chosen_cases(generated(Dice(seed)), count)][:count]
    return [line_of(case, answer) for case, answer in zip(cases, found(judge, cases))]
