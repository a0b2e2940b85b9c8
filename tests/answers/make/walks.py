"""Patterns with haystacks, on which a test of the engine compares its two walks.
They come from the list of searches. The test needs no answers.

A search takes one of two walks, and a test of `regex_lite_engine` checks that both return the same.
Its cases are in `tests/search/tests/cases.rt.txt` there: 560 patterns of `searches.tsv` with all
their haystacks, which are those of 2,000 cases of the list. `walks.py` chooses them evenly among
the patterns for which no flags are turned on. It leaves out those whose line would be longer than
100 characters or would have a `%` or a `;` in a pattern or a haystack, since these separate the
fields. The test searches each haystack from each boundary between characters. It needs no answers,
since it compares one walk with the other; `tests/calls` compares with the answers.
"""

from collections.abc import Collection, Iterable

PATTERNS = 560  # about 2,000 cases of the list have one of these patterns
WIDEST = 100  # characters of a line of the test

HEAD = """\
//! Patterns with haystacks. `tests/answers/make` writes this file.

/// In each line a pattern, after a `%`, and its haystacks, each after a `;`.
#[rattlefmt::skip]
pub(super) const CASES: &str = "\\
"""
END = '";\n'


def lines(searches: Iterable[str]) -> list[str]:
    """The lines of a constant with patterns of the list, chosen evenly, and all their haystacks."""
    fit = [line_of(*row) for row in rows_of(searches) if is_fit(*row)]
    return [HEAD, *(fit[at * len(fit) // PATTERNS] for at in range(PATTERNS)), END]


def rows_of(searches: Iterable[str]) -> Iterable[tuple[str, Collection[str]]]:
    """Each pattern for which no flags are turned on, and its haystacks, as the list writes them."""
    rows: dict[str, dict[str, None]] = {}
    for line in searches:
        flags, pattern, haystack, *_ = line.split('\t')
        if flags == '-':
            rows.setdefault(pattern, {})[haystack] = None
    return rows.items()


def line_of(pattern: str, haystacks: Iterable[str]) -> str:
    """The line of a pattern. The escapes of the list are those of a literal too."""
    text = ';'.join((pattern, *haystacks)).replace('"', '\\"')
    return f'%{text}\\\n'


def is_fit(pattern: str, haystacks: Collection[str]) -> bool:
    """Whether the line is short, and its separators occur nowhere else in it."""
    line = line_of(pattern, haystacks)
    are_marks = line.count('%') == 1 and line.count(';') == len(haystacks)
    return are_marks and len(line) <= WIDEST
