"""The list of all matches of several patterns, one after another. Each is what the judge finds for
several patterns from where the last match ended, as pattern_lists.py asks it. An empty match that
ends where the last one did is passed over, and the search begins again one character later.

`list-matches.tsv` has 694 cases of 507 lists of patterns. A line has three fields and one for each
pattern: the words `list matches`, the haystack, the answer, and the patterns. The answer has a line
for each match: the number of its pattern, a colon, and the spans of its groups. The judge is asked
for each match as above, from the end of the last one on; an empty match that ends there is skipped,
and the search goes on from the next character. 48 cases have no match, 92 one and 554 more,
up to 52. In 447 more than one pattern is found, in 260 some match is empty, and in 382 there are
groups besides the whole match. 317 haystacks have characters of two to four bytes, and 133 of four.

71 come from the lists and haystacks that were picked by hand for pattern-lists.tsv, and 23 from
those in `picked/list-matches.tsv`: tokens, groups, empty matches of one pattern next to those of
another. 600 were generated like those of pattern-lists.tsv, with the seed 8: the judge was asked
about 8,000 cases, and 40 without a match, 140 with matches of one pattern and 420 with matches of
several were kept, of which 60 and 180 have an empty match.
"""

import itertools
from collections.abc import Sequence
from typing import Optional

from .data import escaped, rows_of
from .dice import Dice
from .pattern_lists import answers_of, first_of, generated, span

SEED = 8  # different from those of the other lists and of the sizes
WORD = 'list matches'  # the first field of each line
CASES = 8_000  # how many generated cases the judge is asked about

# How many generated cases are kept of each shape: by how many patterns are found, and whether some
# match is empty.
QUOTAS = {
    ('none', False): 40,
    ('one pattern', False): 80, ('one pattern', True): 60,
    ('more patterns', False): 240, ('more patterns', True): 180,
}

Case = tuple[tuple[str, ...], str]  # the patterns of a list and a haystack
Match = tuple[int, str]  # the number of a pattern and the spans of its groups


def next_offset(text: str, end: int) -> Optional[int]:
    """The offset after the character that begins at this one, or None at the text's end."""
    rest = text.encode()[end:].decode()
    return end + len(rest[0].encode()) if rest else None


def all_matches(judge: str, cases: Sequence[Case]) -> list[list[Match]]:
    """The matches of each case."""
    matches: list[list[Match]] = [[] for _ in cases]
    # Where to search in each case, and where its last match ended.
    asked: dict[int, tuple[int, Optional[int]]] = {index: (0, None) for index in range(len(cases))}
    while asked:
        indices = sorted(asked)
        founds = answers_of(judge, [(cases[index][0], cases[index][1], asked[index][0])
                                    for index in indices])
        asked, before = {}, asked
        for index, found in zip(indices, founds):
            answer = first_of(found)
            if answer is None:
                continue
            start, end = span(answer.groups)
            if start == end == before[index][1]:
                at = next_offset(cases[index][1], end)
                if at is not None:
                    asked[index] = at, None
                continue
            matches[index].append((answer.number, answer.groups))
            asked[index] = end, end
    return matches


def shape_of(matches: list[Match]) -> tuple[str, bool]:
    """The shape of the matches, one of QUOTAS."""
    numbers = {number for number, _ in matches}
    spans = [groups.partition(' ')[0].split('..') for _, groups in matches]
    word = 'none' if not numbers else 'one pattern' if len(numbers) == 1 else 'more patterns'
    return word, any(start == end for start, end in spans)


def line_of(case: Case, matches: list[Match]) -> str:
    """A case and its answer as a line of the list: each match has a line of its own."""
    patterns, text = case
    listed = ''.join(f'{number}: {groups}\n' for number, groups in matches)
    return '\t'.join([WORD, escaped(text), escaped(listed), *map(escaped, patterns)]) + '\n'


def lines(judge: str) -> list[str]:
    """The lines of the list: those of the cases picked by hand, and then of generated ones."""
    picked = [(tuple(patterns), text)
              for name in ('pattern-lists', 'list-matches') for text, *patterns in rows_of(name)]
    made = [line_of(case, matches) for case, matches in zip(picked, all_matches(judge, picked))]
    left, seen = dict(QUOTAS), set(picked)
    drawn = itertools.islice(generated(Dice(SEED)), CASES)
    cases = [case for case in dict.fromkeys((patterns, text) for patterns, text, _ in drawn)
             if case not in seen]
    for case, matches in zip(cases, all_matches(judge, cases)):
        shape = shape_of(matches)
        if left[shape]:
            left[shape] -= 1
            made.append(line_of(case, matches))
    if any(left.values()):
        raise SystemExit(f'too few lists with all matches: {left}')
    return made
