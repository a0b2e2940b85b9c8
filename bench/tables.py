"""Tables of our numbers and those of others: printed, and kept as files of data.

If DATA in the environment names a folder, each table is also written to a file there, as
tab-separated values below a line of titles.
"""

import os
import re
from collections.abc import Iterable, Sequence
from typing import NamedTuple, Optional

DATA = os.environ.get('DATA') or None
NUMBER = re.compile(r'-?[\d,]+(?:\.\d+)?(?: (?:ns|µs|ms|s))?')
RATIOS = ['ratio', 'ratio to regex']

_begun: set[str] = set()  # files of data that this process has written to


class Part(NamedTuple):
    """What tells a table from the others in its file: the title of a column, and its content."""
    title: str
    content: str


class Numbers(NamedTuple):
    """Our number, upstream's, and that of the crate `regex` if it takes part."""
    ours: float
    upstream: float
    regex: Optional[float] = None

    def ratios(self) -> list[str]:
        """Our number divided by each of the others, as text."""
        return [ratio(self.ours, other) for other in self[1:] if other is not None]

    def fields(self) -> list[str]:
        """Ours, upstream's, and the ratios, as text."""
        return [f'{self.ours:,.0f}', f'{self.upstream:,.0f}', *self.ratios()]

    def head(self) -> list[str]:
        """The titles of these fields."""
        return ['ours', "upstream's", *RATIOS[:len(self.ratios())]]


def ratio(one: float, other: float) -> str:
    """The first number divided by the second, as text."""
    return f'{one / other:.2f}' if other > 0 else '-'


def plain(field: str) -> str:
    """A field as data: without marks of Markdown, without commas in a number, and empty for what
    wasn't measured."""
    text = field.replace('`', '').replace('\\|', '|')
    if text == '-':
        return ''
    return text.replace(',', '') if NUMBER.fullmatch(text) else text


def keep(folder: str, name: str, head: list[str], lines: list[list[str]]) -> None:
    """Writes a table to its file in the folder, below what this process has written to it."""
    is_begun = name in _begun
    _begun.add(name)
    os.makedirs(folder, exist_ok=True)
    with open(os.path.join(folder, f'{name}.tsv'), 'a' if is_begun else 'w',
              encoding='utf-8') as file:
        file.writelines('\t'.join(map(plain, fields)) + '\n'
                        for fields in (lines if is_begun else [head, *lines]))


def table(name: Optional[str], head: list[str], lines: list[list[str]],
          part: Optional[Part] = None) -> None:
    """Prints lines of fields as a table, whose first column is text and whose others numbers, and
    keeps it as data by this name, if it has one. Tables that share a name differ by their part,
    which is the first column of the file."""
    if DATA is not None and name is not None:
        title, content = ([part.title], [part.content]) if part else ([], [])
        keep(DATA, name, title + head, [content + fields for fields in lines])
    widths = [max(len(fields[n]) for fields in [head] + lines) for n in range(len(head))]
    rule = ['-' * widths[0]] + ['-' * (width - 1) + ':' for width in widths[1:]]
    for fields in [head, rule] + lines:
        first = fields[0].ljust(widths[0])
        rest = [text.rjust(width) for text, width in zip(fields[1:], widths[1:])]
        print('| ' + ' | '.join([first] + rest) + ' |')
    print(flush=True)


def growth_table(name: str, families: Iterable[Sequence[tuple[str, Numbers]]],
                 part: Optional[Part] = None) -> None:
    """Prints and keeps a table of families, each given by its members' names and numbers, smallest
    first."""
    lines: list[list[str]] = []
    head: list[str] = []
    for members in families:
        before: Optional[Numbers] = None
        for member, numbers in members:
            growth = ['', '']
            if before:
                growth = [ratio(numbers.ours, before.ours),
                          ratio(numbers.upstream, before.upstream)]
            ours, upstream, *ratios = numbers.fields()
            lines.append([member, ours, growth[0], upstream, growth[1], *ratios])
            before = numbers
            head = numbers.head()
    ours, upstream, *ratios = head
    table(name, ['family, size', ours, 'growth', upstream, f'{upstream} growth', *ratios], lines,
          part)
