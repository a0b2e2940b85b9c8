"""The programs that pages show, and what is wanted of them."""

import re

EXAMPLE = re.compile(r'<!-- tests/bindings runs this -->\n```(\w+)\n(.*?)```\n', re.DOTALL)
WANTED = re.compile(r'<!-- tests/bindings wants this -->\n```text\n(.*?)```\n', re.DOTALL)


def examples(page: str, language: str) -> list[str]:
    """The examples of a page in a language."""
    return [lines for own, lines in EXAMPLE.findall(page) if own == language]


def wanted(page: str) -> str:
    """What the one program of a page that has its output beside it is to print."""
    output, = WANTED.findall(page)
    return str(output)


def tested(example: str) -> str:
    """The lines of Python, of which one with a comment is to have that value."""
    lines = []
    for line in example.splitlines():
        shown = re.match(r"(\S.*?) +# ('[^']*'|None)", line)
        lines.append(f'assert ({shown[1]}) == {shown[2]}, {line!r}' if shown else line)
    return '\n'.join(lines)
