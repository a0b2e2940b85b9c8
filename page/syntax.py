"""The cheat sheet of the page: the tables of docs/SYNTAX.md as HTML."""

from __future__ import annotations

import re
from html import escape
from pathlib import Path
from typing import Iterator, List, Tuple

PAGE = Path(__file__).parent.parent / 'docs' / 'SYNTAX.md'
_CELLS = re.compile(r'(?<!\\)\|')
_CODE = re.compile('`([^`]+)`')


def cheat_sheet() -> str:
    """The tables, each under the heading of its part of the page."""
    parts: List[str] = []
    for heading, rows in _tables(PAGE.read_text(encoding='utf-8')):
        head, *lines = (f'<tr>{row}</tr>' for row in rows)
        parts.append(f'<section><h3>{_html(heading)}</h3><table><thead>{head}</thead><tbody>'
                     f'{"".join(lines)}</tbody></table></section>')
    return '\n'.join(parts)


def _tables(page: str) -> Iterator[Tuple[str, List[str]]]:
    """The tables of a page: the heading above each, and the cells of each row. A line between the
    first row and the second one is left out."""
    heading = ''
    rows: List[str] = []
    for line in [*page.splitlines(), '']:
        if line.startswith('|'):
            if not set(line) <= set('|-: '):
                kind = 'td' if rows else 'th scope="col"'
                rows.append(_row(line, kind))
        elif rows:
            yield heading, rows
            rows = []
        if line.startswith('## '):
            heading = line[len('## '):]


def _row(line: str, kind: str) -> str:
    """The cells of a row."""
    cells = _CELLS.split(line)[1:-1]
    end = kind.partition(' ')[0]
    return ''.join(f'<{kind}>{_html(cell.strip())}</{end}>' for cell in cells)


def _html(text: str) -> str:
    """A cell or a heading as HTML."""
    return _CODE.sub(r'<code>\1</code>', escape(text.replace(r'\|', '|')))
