"""The list of outcomes for patterns under flags and limits.

`settings.tsv` has 2,086 cases. A line has six fields:

1. the flags that the builder turns on, as above
2. the limit on nesting, or `-` for the default one
3. the limit on the size, or `-` for the default one
4. the pattern
5. `built`, or the kind of the refusal: `Syntax`, `Nesting` or `Size`
6. the text of the refusal, or `-`

A run of 64 or more equal characters c is written there as `«c×N»`, where N is their number. 82 of
the cases were picked by hand: patterns that the grammar gives no tree, and patterns near the
default limits and near other nest limits. The others are 1,002 patterns with their sizes, each
within its size and within one less.
"""

from collections.abc import Iterator

from . import sizes
from .data import escaped, expanded, packed, rows_of
from .judge import answers

# Each text of a refusal that is not the grammar's, with its kind.
KINDS = {
    'pattern has too much nesting': 'Nesting',
    'compiled regex exceeded size limit': 'Size',
}


def question(flags: str, nest: str, size: str, pattern: str) -> str:
    """A line that asks the judge for the outcome of the pattern. No row has both limits."""
    word = 'build'
    if nest != '-':
        word = f'nest:{nest}'
    elif size != '-':
        word = f'limit:{size}'
    return '\t'.join([word, flags, escaped(pattern)]) + '\n'


def outcome(row: object, answer: str) -> tuple[str, str]:
    """The kind and the text of a refusal, or `built` and `-`."""
    word, _, text = answer.partition(':')
    if word == 'ok' and not text:
        return 'built', '-'
    if word == 'err' and text:
        return KINDS.get(text, 'Syntax'), text
    raise SystemExit(f'unexpected answer to {row!r}: {answer}')


def at_their_sizes(judge: str) -> Iterator[list[str]]:
    """Each pattern whose size is known, under that limit and under one less."""
    for flags, pattern, size in sizes.rows(judge):
        for limit in (size, size - 1):
            yield [flags, '-', str(limit), pattern]


def lines(judge: str) -> list[str]:
    """The lines of the list."""
    found = [[*row[:3], expanded(row[3])] for row in rows_of('settings')]
    found += at_their_sizes(judge)
    given = answers(judge, [question(*row) for row in found])
    return [packed('\t'.join([*map(escaped, row), *outcome(row, answer)]) + '\n')
            for row, answer in zip(found, given)]
