"""The pages in docs/api: whether they are what bin/api makes, and can be read."""

import sys
from collections.abc import Iterator

from scratch import TOP

sys.path.insert(0, str(TOP / 'bin'))
from apidoc.pages import LONGEST, pages
from apidoc.texts import WIDTH
from apidoc.tokens import Unreadable

FOLDER = TOP / 'docs' / 'api'


def checks() -> Iterator[tuple[str, bool]]:
    """All that is to hold of the pages: what is wrong where it doesn't, and whether it does."""
    try:
        made = pages(TOP)
    except Unreadable as reason:
        yield f'bin/api refuses the sources:\n{reason}', False
        return
    kept = {file.name: file.read_text(encoding='utf-8') for file in FOLDER.glob('*.md')}
    for name in sorted(made.keys() | kept.keys()):
        yield (f'docs/api/{name} is not what the sources give: run bin/api',
               made.get(name) == kept.get(name))
    for name, text in made.items():
        lines = text.splitlines()
        yield f'docs/api/{name} has more than {LONGEST} lines', len(lines) <= LONGEST
        yield (f'docs/api/{name} has a line of more than {WIDTH} columns',
               all(len(line) <= WIDTH for line in lines))
