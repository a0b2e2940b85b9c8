"""The hostile patterns, whose last field has the judge's answers: the status with which a
program has to end for each of a pattern's haystacks."""

import resource
from collections.abc import Iterator

from .data import ANSWERS, escaped, expanded, unescaped
from .judge import answers, meaning
from .settings import outcome, question

PATH = ANSWERS.parent / 'hostile.tsv'
# A small pattern searches the first of these depth first. The last is so long that each
# search uses ordered sets, whatever its pattern.
SHORT, LONG = 30, 10_000  # bytes of haystacks
MANY = 66_000  # characters


def haystacks(text: str) -> list[str]:
    """The haystacks of a field."""
    if '«' in text or not text:
        return [expanded(text)]
    size = len(text.encode())
    return [text * (SHORT // size), text * (LONG // size), text * (MANY // len(text) + 1)]


def rows() -> Iterator[list[str]]:
    """Each line of the list by its fields, and its titles by one."""
    for line in PATH.read_text(encoding='utf-8').splitlines():
        yield [line] if line.startswith('# ') else line.split('\t')


def check_outcomes(judge: str, hostile: list[list[str]]) -> None:
    """Ends the program unless each pattern has the outcome that its row says."""
    asked = [question(flags, limit, '-', expanded(unescaped(pattern)))
             for _, flags, limit, pattern, *_ in hostile]
    for row, answer in zip(hostile, answers(judge, asked)):
        if outcome(row, answer)[0] != row[0]:
            raise SystemExit(f'wrong among the hostile patterns: {row!r}: {answer}')


def statuses(judge: str, row: list[str]) -> str:
    """The status for each haystack, or a dash if a nest limit is set, which no program takes."""
    wanted, flags, limit, pattern, text, *_ = row
    if limit != '-':
        return '-'
    if wanted != 'built':
        return '2'
    cases = [(expanded(unescaped(pattern)), haystack) for haystack in haystacks(unescaped(text))]
    asked = [f'is-match\t{flags}\t{escaped(pattern)}\t{escaped(haystack)}\n'
             for pattern, haystack in cases]
    given = answers(judge, asked)
    return ' '.join(str(meaning(case, answer)[0]) for case, answer in zip(cases, given))


def lines(judge: str) -> list[str]:
    """The lines of the list."""
    # The judge recurses on nested patterns.
    _, most = resource.getrlimit(resource.RLIMIT_STACK)
    resource.setrlimit(resource.RLIMIT_STACK, (most, most))
    found = list(rows())
    check_outcomes(judge, [row for row in found if len(row) > 1])
    return ['\t'.join(row if len(row) == 1 else [*row[:5], statuses(judge, row)]) + '\n'
            for row in found]
