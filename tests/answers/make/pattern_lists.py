"""The list of searches for several patterns at once: which of them is found, where, and with which
groups. The judge searches for each pattern by itself; of what it finds the least start is taken,
and if several patterns have it, the lowest of these.

`pattern-lists.tsv` has 4,378 cases of 1,613 lists of patterns. A line has six fields and one for
each pattern:

1. the word `list`
2. the haystack
3. the start, as in `searches.tsv`
4. the number of the pattern that is found, counted from 0, or `-` if none is
5. the spans of its groups, or `-`
6. the name of each of its groups, or `-` for one without a name; and just `-` if none is found
7. and so on: the patterns, in their order

The patterns have the default settings, and contain flags of their own. None is refused. The judge
is asked separately where each pattern matches from the start on. Of these matches those with the
least start are taken, and of them the one of the lowest pattern.

| Cases | |
|---|---|
| several patterns match from the least start, and another's match ends first | 774 |
| another's match ends first, and begins later | 612 |
| several patterns match from the least start, and no other's match ends first | 1,040 |
| a pattern other than the lowest that matches is found, since it begins earlier | 828 |
| other matches | 390 |
| no match | 513 |
| a start above the length | 221 |

4,363 cases have 2 to 9 patterns, 10 have one and 5 none. In 2,153 a pattern other than the first is
found. 852 matches are empty. 1,779 answers have a group besides the whole match, 1,095 one with a
name. 2,164 cases have a haystack with characters of two to four bytes, and 864 one with characters
of four.

378 cases are of 71 lists that were picked by hand, in groups: the least start, the lowest pattern,
matches that end first, the same pattern again, empty matches, no match, groups and their names,
looks, flags, tokens and counts. Each haystack is searched from each boundary and from the number
after its length.

4,000 were generated, with the seed 6. The judge was asked about 36,000 cases of lists of 2 to 9
patterns. The patterns of a list are made from the same few characters: trees of the six families of
searches, mostly with flags of their own, and others that compete with one of these for its texts: a
part of a text that it matches, the same pattern with greedy operators for lazy ones, with one more
character before or after it, or repeated, and patterns that match nearly everywhere or only the
empty text. In three of four lists few patterns match the empty text. A haystack has texts that some
of the patterns often match, mostly with something around them, or random characters. The first
cases of each shape were kept:

| Shape | With the start 0 | With a start above 0 |
|---|---|---|
| another's match ends first, and begins at the same position | 375 | 375 |
| another's match ends first, and begins later | 350 | 250 |
| others begin at the same position | 550 | 450 |
| a pattern other than the lowest that matches | 400 | 400 |
| other matches | 150 | 150 |
| no match | 150 | 250 |
| a start above the length | 0 | 150 |
"""

import itertools
from collections.abc import Iterator, Sequence
from typing import NamedTuple, Optional

from .data import escaped, rows_of
from .dice import Dice
from .flags import WORDS_AND_LINES
from .judge import Found, found
from .leaves import ALPHABETS, SPECIAL, Leaf, Tree, sample
from .searches import FAMILIES, FEW, SearchMaker, bounds, is_fit, starts
from .whole import Writer

Case = tuple[tuple[str, ...], str, int]  # the patterns of a list, a haystack and a start

SEED = 6  # different from those of the other lists and of the sizes
WORD = 'list'  # the first field of each line
TRIAL = 'list trial'  # and of a line without an answer

CASES = 36_000  # how many generated cases the judge is asked about
SIZES = (2, 2, 2, 3, 3, 3, 4, 4, 5, 6, 7, 8, 9)
TEXT = 60  # characters of a haystack

# How many cases of generated lists are kept of each shape, with the start 0 and with a greater one.
QUOTAS = {
    'ends first, same start': (375, 375),
    'ends first, later start': (350, 250),
    'same start': (550, 450),
    'later pattern': (400, 400),
    'other match': (150, 150),
    'none': (150, 250),
    'above': (0, 150),
}

# Patterns that match little or nothing, and some that match many a text.
EMPTY = ('', '(?:)', 'a*', 'x{0}', '(a)?', '^', '$', r'\b', r'\B', r'\z', '(?m)^', '(?m)$', '|a',
         '(?<n>)')
WIDE = ('.', '..', '.*', '.+?', '(.)', '(?s).', r'\w', r'\w+', r'\W', r'\s*', '[a-z]+', '[^a]',
        '(?i)[a-m]+', '(?<n>.)(?<m>.)?')


class Part(NamedTuple):
    """A pattern of a list, and the tree of texts that it often matches."""

    pattern: str
    tree: Tree


class Answer(NamedTuple):
    """The number of the pattern that is found, the spans of its groups and their names."""

    number: int
    groups: str
    names: str


def leaf(pattern: str, text: str) -> Part:
    """A pattern that matches this text."""
    return Part(pattern, [[(Leaf(pattern, (text,)), [])]])


def literal(text: str) -> Part:
    """The pattern that matches just this text."""
    return leaf(''.join('\\' + sign if sign in SPECIAL else sign for sign in text), text)


def fresh(dice: Dice, letters: str) -> Part:
    """A pattern of one of the families of searches, of these letters, under flags of its own."""
    family = FAMILIES[dice.pick(tuple(FAMILIES))]
    maker = SearchMaker(dice, family)
    maker.letters = letters
    tree = maker.whole(dice.pick(family.depths), dice.pick(family.stacking))
    flags = dice.pick(family.flags) if dice.chance(0.4) else ''
    writer = Writer(dice, dice.pick((0.05, 0.15, 0.3)), 'x' in flags)
    pattern = ''.join(writer.parts(tree))
    return Part(f'(?{flags}){pattern}' if flags else pattern, tree)


def kin(dice: Dice, parts: list[Part], letters: str) -> Part:
    """A pattern that competes with another one of the list for the same texts."""
    other = dice.pick(parts)
    kind = dice.random()
    if kind < 0.4:
        text = sample(dice, other.tree)
        return literal(text[dice.pick((0, 0, 1, 1, 2)):][:dice.pick((1, 1, 2, 3, 4, 6))])
    if kind < 0.45:
        return other
    if kind < 0.55:
        return Part(f'(?U){other.pattern}', other.tree)
    if kind < 0.7:
        return Part(f'(?:{other.pattern}){literal(dice.pick(letters)).pattern}?', other.tree)
    if kind < 0.8:
        return Part(f'(?s:.)(?:{other.pattern})', other.tree)
    return leaf(dice.pick(EMPTY if kind < 0.86 else WIDE), '')


def is_long(dice: Dice, part: Part) -> bool:
    """Whether the texts that the pattern often matches are hardly ever empty."""
    return all(sample(dice, part.tree) for _ in range(4))


def parts_of_list(dice: Dice, letters: str) -> list[Part]:
    """The patterns of a list. In most lists few of them match the empty text, since such a pattern
    matches at each start."""
    parts: list[Part] = []
    count = dice.pick(SIZES)
    relation = dice.pick((0.2, 0.5, 0.8))
    empty = dice.pick((0, 0, 0.1, 1))
    while len(parts) < count:
        related = parts and dice.chance(relation)
        part = kin(dice, parts, letters) if related else fresh(dice, letters)
        if is_fit(part.pattern) and (dice.chance(empty) or is_long(dice, part)):
            parts.append(part)
    # Those that others were made of stand anywhere among them.
    return [parts.pop(dice.below(len(parts))) for _ in range(count)]


def haystacks(dice: Dice, parts: list[Part], letters: str) -> tuple[str, str]:
    """Two texts: one of several texts that some of the patterns often match, mostly with something
    round them, and one of random characters."""
    signs = letters + dice.pick(('', '', '~', 'zé', '.~~~'))

    def some(counts: Sequence[int]) -> str:
        return ''.join(dice.pick(signs) for _ in range(dice.pick(counts)))

    between = dice.pick(((0,), (0, 1), (0, 1, 2), (1, 2, 3)))
    near = some(between)
    for _ in range(dice.pick((1, 1, 2, 3, 4))):
        near += sample(dice, dice.pick(parts).tree)[:TEXT // 2] + some(between)
    return near[:TEXT], some((0, 1, 2, 4, 6, 8, 12))


def generated(dice: Dice) -> Iterator[Case]:
    """Makes endless cases: a list's patterns, a haystack and a start."""
    while True:
        letters = dice.pick(dice.pick((FEW, FEW, ALPHABETS, (WORDS_AND_LINES,))))
        parts = parts_of_list(dice, letters)
        for text in haystacks(dice, parts, letters):
            for start in starts(dice, text):
                yield tuple(part.pattern for part in parts), text, start


def first_of(founds: list[Found]) -> Optional[Answer]:
    """The answer, of what the judge finds by each pattern, or None if no pattern matches."""
    answers = [Answer(number, one.groups, one.names)
               for number, one in enumerate(founds) if one.groups]
    if not answers:
        return None
    return min(answers, key=lambda it: (span(it.groups)[0], it.number))


def span(groups: str) -> tuple[int, int]:
    """The span of the whole match, which stands first among those of its groups."""
    start, _, end = groups.partition(' ')[0].partition('..')
    return int(start), int(end)


def answers_of(judge: str, cases: Sequence[Case]) -> list[list[Found]]:
    """For each case what the judge finds by each of its patterns."""
    found_by_each = iter(found(judge, [('-', pattern, text, start)
                              for patterns, text, start in cases for pattern in patterns]))
    return [list(itertools.islice(found_by_each, len(patterns))) for patterns, _, _ in cases]


def shape_of(case: Case, founds: list[Found]) -> str:
    """The shape of a case, one of QUOTAS."""
    _, text, start = case
    if start > len(text.encode()):
        return 'above'
    answer = first_of(founds)
    if answer is None:
        return 'none'
    number = answer.number
    spans = {other: span(one.groups) for other, one in enumerate(founds) if one.groups}
    ending = min(spans, key=lambda other: (spans[other][1], other))
    is_shared = any(other != number and at[0] == spans[number][0] for other, at in spans.items())
    if ending != number:
        is_same = spans[ending][0] == spans[number][0]
        return 'ends first, same start' if is_same else 'ends first, later start'
    if is_shared:
        return 'same start'
    return 'later pattern' if number > min(spans) else 'other match'


def kept_lines(judge: str, cases: list[Case], picked: set[Case]) -> list[str]:
    """The lines of the first cases of each shape, as many as its quota says, without those that
    were picked by hand."""
    left = {(shape, is_later): count for shape, counts in QUOTAS.items()
            for is_later, count in zip((False, True), counts)}
    lines = []
    for case, founds in zip(cases, answers_of(judge, cases)):
        kind = shape_of(case, founds), case[2] > 0
        if case not in picked and left[kind]:
            picked.add(case)
            left[kind] -= 1
            lines.append(line_of(case, first_of(founds)))
    if any(left.values()):
        raise SystemExit(f'too few lists of patterns: {left}')
    return lines


def picked_cases() -> list[Case]:
    """The cases picked by hand: each haystack at each offset of a character, at its length, and at
    the next number. In a row the patterns come after the haystack."""
    return [(tuple(patterns), text, start) for text, *patterns in rows_of('pattern-lists')
            for start in (*bounds(text), len(text.encode()) + 1)]


def line_of(case: Case, answer: Optional[Answer]) -> str:
    """A case and its answer as a line of the list."""
    patterns, text, start = case
    fields = ['-', '-', '-']
    if answer is not None:
        fields = [str(answer.number), answer.groups, escaped(answer.names)]
    return '\t'.join([WORD, escaped(text), str(start), *fields, *map(escaped, patterns)]) + '\n'


def lines(judge: str) -> list[str]:
    """The lines of the list."""
    picked = picked_cases()
    made = [line_of(case, first_of(founds))
            for case, founds in zip(picked, answers_of(judge, picked))]
    cases = list(dict.fromkeys(itertools.islice(generated(Dice(SEED)), CASES)))
    return made + kept_lines(judge, cases, set(picked))


def fresh_lines(judge: str, seed: int, count: int) -> list[str]:
    """As many lines of generated cases from another seed, without any choice among their shapes."""
    cases = list(dict.fromkeys(itertools.islice(generated(Dice(seed)), 2 * count)))[:count]
    return [line_of(case, first_of(founds))
            for case, founds in zip(cases, answers_of(judge, cases))]
