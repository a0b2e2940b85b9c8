r"""Patterns with their sizes.

A pattern's size is the least `size_limit` under which it is accepted. `settings.tsv` has 1,002
patterns at their sizes: each is accepted within its size and refused within one less. The sizes
were found by bisection, all in the same 24 rounds: a limit in the middle of the remaining range is
accepted or refused. No size is above the default limit, 10485760.

645 patterns were picked by hand. They are in `picked/sizes.tsv`, in groups: leaves, classes by
their number of ranges, letters in either case, groups, names, groups that a `{0}` drops,
alternations, repetitions of what may be empty and of what may not, stacked operators and nested
counts, verbose mode, realistic patterns, and counts up to the greatest that the default limit
admits. 264 of them are each of 22 operators after each of 12 items.

357 were generated with the seed 2, by the makers of the two larger lists, from families whose
patterns are accepted. None is longer than 72 characters as written here.

Upstream's sizes come from its own records on a 64-bit machine: 32 bytes for each state, 16 for each
group, 4 for each target of a split, 8 for each range, and for a named group 4 and its name. For
two kinds of patterns the size here is not that of unchanged upstream:

- Classes in which one range ends with U+D7FF and another begins with U+E000, such as
  `[\x{D7FF}\x{E000}]`. The two characters are neighbours, so these are one range. Upstream keeps
  them apart, and in the complement it counts a range in the wrong order between them, so its size
  is greater by 8 for each copy. No pattern of the list is of this kind.
- Classes under the flag i that upstream folds wrongly, as described above, and comments after a
  dash. 12 patterns of the list are of this kind, with the sizes of the fixed crate.
"""

import re
from collections.abc import Iterator

from . import flags, whole
from .data import escaped, rows_of
from .dice import Dice
from .judge import answers

SEED = 2  # not that of the lists of answers, so the patterns differ too

LIMIT = 10_485_760  # the default size limit; no pattern of the list is above it
LONGEST = 72  # characters of a generated pattern as it is written in the list

Pair = tuple[str, str]  # flags and a pattern

REFUSED = 'err:compiled regex exceeded size limit'

# How many generated patterns of each family are in the list. The remaining families of the two
# generators are refused, or are accepted only by chance.
FAMILIES = {
    whole.generated: {'groups': 70, 'counts': 80, 'verbose': 60, 'all': 60},
    flags.generated: {'mixed': 20, 'classes': 40, 'looks': 10, 'both cases': 17},
}

FLAGS_AT_THE_START = re.compile(r'\(\?([imsRUx]+)\)')

# Upstream doesn't join a range that ends with U+D7FF and one that begins with U+E000, though no
# character stands between them, and counts two ranges, or three in the complement. That is a
# fault, so no class has both characters. All other sizes are the same as by the rule.
BESIDE_THE_SURROGATES = ('\ud7ff|d7ff', '\ue000|e000')


def is_fit(pattern: str) -> bool:
    """Whether the pattern is short, and upstream's size is the one that is wanted."""
    tight = re.sub(r'\s|#[^\n]*\n', '', pattern)
    is_joined = not all(re.search(either, tight, re.IGNORECASE) for either in BESIDE_THE_SURROGATES)
    return is_joined and len(escaped(pattern)) <= LONGEST


def generated(dice: Dice, seen: set[Pair]) -> Iterator[Pair]:
    """Flags and patterns of both generators that aren't in `seen`, as many of each family as are
    wanted. Half of the patterns that begin with flags are built with these flags instead."""
    for rows_of_all, families in FAMILIES.items():
        left = dict(families)
        rows = rows_of_all(dice)
        while any(left.values()):
            family, pattern, *_ = next(rows)
            start = FLAGS_AT_THE_START.match(pattern)
            pair = '-', pattern
            if start and dice.chance(0.5):
                pair = start[1], pattern[start.end():]
            if left.get(family) and pair not in seen and is_fit(pattern):
                left[family] -= 1
                seen.add(pair)
                yield pair


def chosen() -> list[Pair]:
    """The pairs of flags and a pattern, all different."""
    picked = [(flags, pattern) for flags, pattern in rows_of('sizes')]
    seen = set(picked)
    if len(seen) < len(picked):
        raise SystemExit('two picked patterns are the same')
    return picked + list(generated(Dice(SEED), seen))


def are_accepted(judge: str, pairs: list[Pair], limits: list[int]) -> list[bool]:
    """Whether the judge builds each pattern with its flags under its size limit."""
    questions = [
        f'limit:{limit}\t{flags}\t{escaped(pattern)}\n'
        for (flags, pattern), limit in zip(pairs, limits)
    ]
    lines = answers(judge, questions)
    for pair, answer in zip(pairs, lines):
        if answer not in ('ok:', REFUSED):
            raise SystemExit(f'unexpected answer to {pair!r}: {answer}')
    return [answer == 'ok:' for answer in lines]


def sizes_of(judge: str, pairs: list[Pair]) -> list[int]:
    """The least size limit under which the judge builds each pattern, by halving."""
    least = [0] * len(pairs)  # with these limits all are refused
    most = [LIMIT] * len(pairs)  # with these all are accepted
    for pair, is_accepted in zip(pairs, are_accepted(judge, pairs, most)):
        if not is_accepted:
            raise SystemExit(f'too large: {pair!r}')
    while any(high - low > 1 for low, high in zip(least, most)):
        middle = [(low + high) // 2 for low, high in zip(least, most)]
        for at, is_accepted in enumerate(are_accepted(judge, pairs, middle)):
            (most if is_accepted else least)[at] = middle[at]
    return most


def rows(judge: str) -> list[tuple[str, str, int]]:
    """Flags, a pattern and its size, for each pattern."""
    pairs = chosen()
    return [(*pair, size) for pair, size in zip(pairs, sizes_of(judge, pairs))]
