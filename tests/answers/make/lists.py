"""The list of calls over all matches: with the groups of each, with the pieces between
them, and with replaced texts; and of templates, expanded by the groups of the first match.

`lists.tsv` has 9,680 cases of 1,667 patterns. A line has seven fields:

1. the call: `captures_iter`, `split`, `splitn`, `replacen` or `expand`
2. its limit: 0 to 4 or the greatest possible one for `splitn`, 0 to 3 or 9 for `replacen`, `-` for
   the others
3. the flags that the builder turns on, as above
4. the pattern
5. the haystack
6. the template by which `replacen` replaces, or which `expand` expands, and `-` for the others
7. the answer: for `captures_iter` the groups of each match, as in `searches.tsv`, with a line feed
   after each match; for `split` and `splitn` the pieces, each in brackets and with a line feed
   after it; for `replacen` the text; for `expand` the template, expanded by the groups of the first
   match, or nothing if there is none

Patterns are again of the whole grammar, and none is refused. The cases of a pattern are adjacent.
2,208 cases ask for all matches. In 789 of them there are empty matches and others, in 348 all are
empty, and in 786 there are two or more and none is empty. 3,646 cases have a haystack with
characters of two to four bytes, and 1,711 one with characters of four. Of the 3,305 templates of
`replacen` 2,171 have a `$`. 261 templates are expanded.

3,230 cases are of 133 patterns with a template and haystacks that were picked by hand, in groups:
empty matches next to others, adjacent matches, looks, pieces, templates, flags, and realistic
patterns. On each haystack all calls are made, with all limits.

The rest was generated, with the seed 4. The judge was asked about 14,000 patterns of the families
of `searches.tsv`. Each has two haystacks: one of up to six texts that the pattern often matches,
mostly with something between them, and one of random characters. On each of them each call is made
once. Templates are made of references to groups by their numbers and names, some of which don't
exist, of other uses of `$`, and of letters. A limit cuts if it leaves a match alone. The first
cases of each kind were kept:

| Call | No match | One | More | All empty | Empty and others |
|---|---|---|---|---|---|
| `captures_iter` | 80 | 160 | 700 | 300 | 760 |
| `split` | 40 | 80 | 300 | 180 | 400 |
| `splitn` | 20 | 40 | 150 | 100 | 80 |
| `splitn`, with a limit that cuts | 40 | 60 | 300 | 180 | 480 |
| `replacen` | 60 | 120 | 350 | 180 | 390 |
| `replacen`, with a limit that cuts | | | 300 | 180 | 420 |
"""

import itertools
import re
from collections.abc import Iterable, Iterator, Mapping, Sequence
from typing import Optional

from .data import escaped, rows_of
from .dice import Dice
from .judge import Case, list_answers
from .leaves import Tree, sample
from .searches import SearchMaker, drawn, is_fit

SEED = 4  # different from those of the other lists

PATTERNS = 14_000  # how many generated patterns the judge is asked about
TEXT = 60  # characters of a haystack
Limits = Mapping[str, Sequence[int]]  # of the calls that take one
LIMITS: Limits = {'splitn': range(5), 'replacen': range(4)}  # of generated cases
PICKED_LIMITS: Limits = {'splitn': (*range(5), 2**64 - 1), 'replacen': (*range(4), 9)}

# How many cases of generated patterns are kept: of each call where there is no match, one match,
# more, where all are empty, and where empty ones stand beside others. `splitn, cut` and `replacen,
# cut` have a limit that leaves some match alone.
SHAPES = ('none', 'one', 'more', 'empty', 'both')
QUOTAS = {
    'captures_iter': (80, 160, 700, 300, 760),
    'split': (40, 80, 300, 180, 400),
    'splitn': (20, 40, 150, 100, 80),
    'splitn, cut': (40, 60, 300, 180, 480),
    'replacen': (60, 120, 350, 180, 390),
    'replacen, cut': (0, 0, 300, 180, 420),
}

# What templates are made of besides references to groups that are there, and letters.
PIECES = ('$$', '$', '${', '${}', '}', '$$$', '$x', '${x}', '${ 1}', '${+1}', '${-1}', '${0x1}',
          '$01', '${00}', '$99', '${18446744073709551615}', '$18446744073709551616', '${1', '$é',
          '${☃}', '$-', '\n', ' ', '_', '1', 'é', '💩')


def texts(dice: Dice, maker: SearchMaker, tree: Tree) -> tuple[str, str]:
    """Two haystacks: one of several texts that the tree often matches, mostly with something
    between them, and one of random characters."""
    def some(counts: Sequence[int]) -> str:
        return ''.join(dice.pick(maker.letters) for _ in range(dice.pick(counts)))

    between = dice.pick(((0,), (0, 1), (0, 1, 2), (1, 2, 3)))
    near = some(between)
    for _ in range(dice.pick((1, 2, 3, 4, 6))):
        near += sample(dice, tree)[:TEXT // 2] + some(between)
    return near[:TEXT], some((0, 1, 2, 3, 4, 6, 8, 12))


def template(dice: Dice, letters: str, pattern: str) -> str:
    """A template, in most cases with references to groups of the pattern."""
    names = re.findall(r'\(\?P?<([^>]+)>', pattern) or ['n']
    pieces = []
    for _ in range(dice.pick((0, 1, 1, 2, 2, 3, 3, 4))):
        kind = dice.random()
        number = dice.below(pattern.count('(') + 2)
        if kind < 0.25:
            pieces.append(dice.pick((f'${number}', f'${{{number}}}')))
        elif kind < 0.4:
            name = dice.pick(names)
            pieces.append(dice.pick((f'${name}', f'${{{name}}}')))
        elif kind < 0.65:
            pieces.append(dice.pick(PIECES))
        else:
            pieces.append(dice.pick(letters))
    return ''.join(pieces)


def asked(flags: str, pattern: str, haystack: str, limits: Limits, replacement: str) -> list[Case]:
    """The calls on a haystack, with these limits and this replacement."""
    calls: list[tuple[str, Optional[int], Optional[str]]] = [
        ('captures_iter', None, None), ('split', None, None),
    ]
    for call, some in limits.items():
        text = replacement if call == 'replacen' else None
        calls += [(call, limit, text) for limit in some]
    return [Case(call, limit, flags, pattern, haystack, text) for call, limit, text in calls]


def generated(dice: Dice) -> Iterator[list[Case]]:
    """Makes endless lists of cases, each of a pattern, flags and a haystack."""
    while True:
        _, flags, pattern, maker, tree = drawn(dice)
        for haystack in texts(dice, maker, tree):
            limits = {call: [dice.pick(among)] for call, among in LIMITS.items()}
            replacement = template(dice, maker.letters, pattern)
            if is_fit(pattern):
                yield asked(flags, pattern, haystack, limits, replacement)


def shape_of(matches: str) -> str:
    """The shape of the matches that `captures_iter` gives, one of SHAPES."""
    spans = [line.partition(' ')[0].split('..') for line in matches.splitlines()]
    empty = [start == end for start, end in spans]
    if not spans:
        return 'none'
    if any(empty):
        return 'empty' if all(empty) else 'both'
    return 'one' if len(spans) == 1 else 'more'


def kind_of(case: Case, matches: str) -> tuple[str, str]:
    """The kind of a case, by the matches of its pattern in its haystack."""
    count = len(matches.splitlines())
    # The limit of `splitn` is one on pieces, which are one more than the matches, and that of
    # `replacen` is none where it is 0.
    cut = {'splitn': case.limit is not None and case.limit <= count,
           'replacen': 0 < (case.limit or 0) < count}
    return case.call + ', cut' * cut.get(case.call, False), shape_of(matches)


def kept_lines(judge: str, rows: Iterable[list[Case]], picked: set[Case]) -> list[str]:
    """The lines of the first cases of each kind, as many as its quota says, without those in
    `picked`."""
    left = {(kind, shape): number for kind, numbers in QUOTAS.items()
            for shape, number in zip(SHAPES, numbers)}
    cases = [case for row in rows for case in row]
    lines = []
    matches = ''
    for case, answer in zip(cases, list_answers(judge, cases)):
        if case.call == 'captures_iter':
            matches = answer
        kind = kind_of(case, matches)
        if case not in picked and left[kind]:
            picked.add(case)
            left[kind] -= 1
            lines.append(line_of(case, answer))
    if any(left.values()):
        raise SystemExit(f'too few lists: {left}')
    return lines


def picked_cases() -> list[Case]:
    """The cases picked by hand: the calls on each haystack, with all limits and the template, which
    is expanded too."""
    return list(dict.fromkeys(
        case for flags, pattern, replacement, *haystacks in rows_of('lists')
        for haystack in haystacks
        for case in (*asked(flags, pattern, haystack, PICKED_LIMITS, replacement),
                     Case('expand', None, flags, pattern, haystack, replacement))
    ))


def line_of(case: Case, answer: str) -> str:
    """A case and its answer as a line of the list."""
    fields = ['-' if field is None else escaped(str(field)) for field in (*case, answer)]
    return '\t'.join(fields) + '\n'


def lines(judge: str) -> list[str]:
    """The lines of the list."""
    picked = picked_cases()
    made = [line_of(case, answer) for case, answer in zip(picked, list_answers(judge, picked))]
    rows = itertools.islice(generated(Dice(SEED)), 2 * PATTERNS)
    return made + kept_lines(judge, rows, set(picked))


def fresh(judge: str, seed: int, count: int) -> list[str]:
    """As many lines of generated cases from another seed, without any choice among their kinds."""
    rows = itertools.chain.from_iterable(generated(Dice(seed)))
    cases = list(itertools.islice(dict.fromkeys(itertools.islice(rows, 2 * count)), count))
    return [line_of(case, answer) for case, answer in zip(cases, list_answers(judge, cases))]
