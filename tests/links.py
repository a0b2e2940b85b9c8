"""Where the links of a page lead: to a file, and to a heading of a page. A link names its target
itself or by a label, which is code and is defined on the page."""

import re
from collections.abc import Iterator
from functools import cache
from pathlib import Path

FENCED = re.compile(r'^( *)(```+).*?^\1\2$', re.DOTALL | re.MULTILINE)
HEADING = re.compile(r'^#{1,6} (.+)$', re.MULTILINE)
CODE = re.compile(r'`[^`\n]+`')
INLINE = re.compile(r'\]\(([^()\s]+)\)')
DEFINITION = re.compile(r'^\[(`[^`]+`)\]:\s+(\S+)$', re.MULTILINE)
# A label alone or before `[]`, one after the text of its link, and code that is in no link.
LABEL = re.compile(r'\[(`[^`]+`)\](?:\[\]|(?![:(\[]))|\]\[(`[^`]+`)\]|`[^`]+`')
OUTSIDE = re.compile(r'[a-z]+:')  # the target of a link out of the repository


@cache
def prose(page: Path) -> str:
    """The text of a page without its examples."""
    return FENCED.sub('', page.read_text(encoding='utf-8'))


@cache
def anchors(page: Path) -> list[str]:
    """The anchors that a forge gives the headings of a page: in lower case, with dashes for spaces
    and without other signs. Of equal ones the second ends in `-1`."""
    found: list[str] = []
    for heading in HEADING.findall(prose(page)):
        anchor = ''.join(it for it in heading.lower().replace(' ', '-')
                         if it.isalnum() or it in '-_')
        count = sum(re.sub(r'-\d+$', '', it) == anchor for it in found)
        found.append(f'{anchor}-{count}' if count else anchor)
    return found


def leads_somewhere(page: Path, target: str) -> bool:
    """Whether there is what a link of the page leads to."""
    if OUTSIDE.match(target):
        return True
    path, _, anchor = target.partition('#')
    file = (page.parent / path).resolve() if path else page
    if not anchor:
        return file.exists()
    return file.is_file() and anchor in anchors(file)


def checks(page: Path) -> Iterator[tuple[str, bool]]:
    """What is wrong with each link of the page where something is, and whether nothing is."""
    text = prose(page)
    defined = dict(DEFINITION.findall(text))
    for target in (*INLINE.findall(CODE.sub('', text)), *defined.values()):
        yield f'a link to {target} leads nowhere', leads_somewhere(page, target)
    used = {label for found in LABEL.findall(text) for label in found if label}
    for label in sorted(used | set(defined)):
        yield f'the label {label} is not defined', label in defined
        yield f'no link has the label {label}', label in used
