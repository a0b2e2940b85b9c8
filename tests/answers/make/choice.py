"""The choice among generated cases, by a table of quotas."""

import itertools
from collections.abc import Iterable, Iterator, Sequence
from typing import Optional, Union

from .data import faults_of, line_of
from .judge import ask

UNCLOSED = "found open group without closing ')'"
UNOPENED = "found closing ')' without matching '('"
MISSING = 'uncounted repetition operator must be applied to a sub-expression'
MISSING_COUNTED = 'counted repetition operator must be applied to a sub-expression'

# The faults that lie in no single item, in each list.
STRUCTURE = {
    'plain-grammar': (UNCLOSED, UNOPENED, MISSING),
    'flags-and-classes': (UNCLOSED, UNOPENED, MISSING),
    'whole-grammar': (UNCLOSED, UNOPENED, MISSING, MISSING_COUNTED),
}

# How many patterns the judge is asked about, for each list.
PATTERNS = {'plain-grammar': 12_000, 'flags-and-classes': 30_000, 'whole-grammar': 33_000}

# How many cases of each family are kept in each list: of matches and of cases without a match,
# each of patterns that match the empty haystack and of others.
FAMILIES = {
    'plain-grammar': {'plain': (250, 950, 0, 950)},
    'flags-and-classes': {
        'mixed': (150, 500, 60, 440),
        'classes': (40, 450, 80, 370),
        'looks': (60, 300, 100, 200),
        'both cases': (20, 220, 20, 140),
        'changed': (10, 120, 10, 110),
    },
    'whole-grammar': {
        'groups': (100, 700, 40, 660),
        'counts': (100, 900, 60, 840),
        'verbose': (120, 900, 60, 860),
        'all': (100, 400, 40, 360),
        'changed': (20, 180, 10, 190),
    },
}

# And how many refusals: a family, which texts it has, and the number for each of these.
REFUSED: dict[str, list[tuple[str, Iterable[str], int]]] = {
    'plain-grammar': [('plain', STRUCTURE['plain-grammar'], 220)],
    'flags-and-classes': [
        ('broken', STRUCTURE['flags-and-classes'], 50),
        ('faulty', faults_of('flags-and-classes-faults'), 16),
    ],
    'whole-grammar': [
        ('broken', STRUCTURE['whole-grammar'], 30),
        ('faulty', faults_of('flags-and-classes-faults'), 12),
        ('faulty', faults_of('whole-grammar-faults'), 30),
    ],
}

# A family, a pattern, two haystacks, and the text by which the pattern is to be refused, which is
# empty for no refusal, and None if only the judge knows.
Row = tuple[str, str, str, str, Optional[str]]
Chosen = tuple[str, str, str, str]  # a row that is chosen, without the text
Kind = tuple[Union[str, int], ...]  # of a case


def quotas_of(name: str) -> dict[Kind, int]:
    """How many cases of each kind are kept in a list. The kind of a refusal is its family and its
    text. The kind of any other case is its family, its status and the status of the same pattern
    on the empty haystack."""
    kinds = [(status, on_empty) for status in (0, 1) for on_empty in (0, 1)]
    quotas: dict[Kind, int] = {
        (family, *kind): number
        for family, numbers in FAMILIES[name].items()
        for kind, number in zip(kinds, numbers) if number
    }
    for family, texts, number in REFUSED[name]:
        texts = [text for text in texts if family != 'faulty' or text not in STRUCTURE[name]]
        quotas.update({(family, text): number for text in texts})
    return quotas


def chosen_rows(judge: str, rows: Iterator[Row], count: int,
                structure: Sequence[str]) -> list[Chosen]:
    """The first rows, as many, except those with a changed pattern that is refused or with a
    broken one that isn't refused by one of the texts in `structure`.

    Only for changed and broken patterns the answer may differ from what their rows say."""
    asked = list(itertools.islice(rows, count))
    answers = ask(judge, [(pattern, '') for _, pattern, *_ in asked])
    chosen = []
    for (family, pattern, near, far, wanted), (_, text) in zip(asked, answers):
        if family == 'changed' and text or family == 'broken' and text not in structure:
            continue
        if wanted not in (None, text) and family != 'broken':
            raise SystemExit(f'unexpected answer to {pattern!r}: {text}')
        chosen.append((family, pattern, near, far))
    return chosen


def kept_lines(judge: str, rows: list[Chosen], quotas: dict[Kind, int],
               seen: set[object]) -> list[str]:
    """The lines of the first cases of each kind, as many as its quota says.

    Patterns and cases in `seen` are left out, and what is kept is added."""
    cases = [(pattern, haystack) for _, pattern, *texts in rows for haystack in ('', *texts)]
    answers = iter(ask(judge, cases))
    left = dict(quotas)
    lines = []
    for family, pattern, *haystacks in rows:
        on_empty, _ = next(answers)
        for haystack in haystacks:
            status, text = next(answers)
            kind: Kind = (family, status, on_empty)
            if text:
                kind = family, text
            if kind not in left:
                raise SystemExit(f'unexpected answer to {pattern!r}: {kind}')
            # A pattern that is refused needs one case alone.
            case = pattern if text else (pattern, haystack)
            if pattern in seen or case in seen or not left[kind]:
                continue
            seen.add(case)
            left[kind] -= 1
            lines.append(line_of((pattern, haystack), status, text))
    if any(left.values()):
        raise SystemExit(f'too few cases: {left}')
    return lines
