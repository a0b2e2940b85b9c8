"""The hostile lists of patterns. The judge says what is found in their haystacks, which is written
to three fields of a row."""

import resource
from collections.abc import Iterator, Sequence
from typing import NamedTuple, Union

from . import pattern_lists
from .data import ANSWERS, escaped, expanded, unescaped
from .judge import answers
from .settings import outcome, question

PATH = ANSWERS.parent / 'hostile-lists.tsv'
NUMBER = '№'  # in a pattern this stands for how many copies come before it
BY_ALL = 'Places'  # the outcome where each pattern is accepted by itself


class Row(NamedTuple):
    """A list, what becomes of it, and what is found in its haystack: the number of a pattern, the
    spans of its groups and their names, each as the row has it."""

    outcome: str
    number: str
    groups: str
    names: str
    haystack: str
    repeated: list[str]

    @property
    def patterns(self) -> list[str]:
        """The patterns of the list, each as often as the row says."""
        counted = zip(self.repeated[::2], self.repeated[1::2])
        return [expanded(unescaped(pattern)).replace(NUMBER, str(copy))
                for count, pattern in counted for copy in range(int(count))]

    @property
    def text(self) -> str:
        """The haystack."""
        return expanded(unescaped(self.haystack))


def rows() -> Iterator[Union[Row, str]]:
    """Each row, and each title as a text."""
    for line in PATH.read_text(encoding='utf-8').splitlines():
        if line.startswith('# '):
            yield line
        else:
            outcome_of_row, number, groups, names, haystack, *repeated = line.split('\t')
            yield Row(outcome_of_row, number, groups, names, haystack, repeated)


def lines() -> Iterator[str]:
    """The cases, as the caller reads them."""
    for row in rows():
        if isinstance(row, str):
            continue
        patterns = [escaped(pattern) for pattern in row.patterns]
        if row.outcome == 'built':
            head = [pattern_lists.WORD, escaped(row.text), '0', row.number, row.groups, row.names]
        else:
            head = [pattern_lists.TRIAL, row.outcome, escaped(row.text)]
        yield '\t'.join([*head, *patterns]) + '\n'


def check_outcome(judge: str, row: Row, asked: Sequence[str]) -> None:
    """Ends the program unless the list has the outcome that its row says: that of the lowest
    pattern that is refused."""
    given = answers(judge, [question('-', '-', '-', pattern) for pattern in asked])
    refused = [kind for kind, _ in (outcome(row, answer) for answer in given) if kind != 'built']
    wanted = 'built' if row.outcome == BY_ALL else row.outcome
    if (refused or ['built'])[0] != wanted:
        raise SystemExit(f'wrong among the hostile lists: {row!r}: {refused[:3]}')


def with_answer(judge: str, row: Row) -> Row:
    """The row with what is found in its haystack."""
    patterns = row.patterns
    asked = list(dict.fromkeys(patterns))  # of equal patterns the first is found
    check_outcome(judge, row, asked)
    if row.outcome != 'built':
        return row._replace(number='-', groups='-', names='-')
    founds, = pattern_lists.answers_of(judge, [(tuple(asked), row.text, 0)])
    answer = pattern_lists.first_of(founds)
    if answer is None:
        return row._replace(number='-', groups='-', names='-')
    return row._replace(number=str(patterns.index(asked[answer.number])), groups=answer.groups,
                        names=escaped(answer.names))


def made(judge: str) -> list[str]:
    """The lines of the list."""
    # The judge recurses on nested patterns.
    _, most = resource.getrlimit(resource.RLIMIT_STACK)
    resource.setrlimit(resource.RLIMIT_STACK, (most, most))
    return [f'{row}\n' if isinstance(row, str) else written(with_answer(judge, row))
            for row in rows()]


def written(row: Row) -> str:
    """The row as a line."""
    *fields, repeated = row
    return '\t'.join([*fields, *repeated]) + '\n'
